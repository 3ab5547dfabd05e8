//! The values of bindings/rust/host.rs for tests/bindings: reads records of 23 doubles from standard
//! input, tangent, pose and pose, and writes 31 for each: the ten values, the rotation Jacobian and
//! its inverse, up and down of the first pose, ds of both. With `--cfg single` the same in singles.

#[cfg(single)]
use sim3::f32::{host, Pose, Tangent};
#[cfg(not(single))]
use sim3::{host, Pose, Tangent};
use std::io::{self, Write};

mod input;
use input::Number;

fn main() -> io::Result<()> {
    let numbers = input::numbers()?;
    let mut out: Vec<Number> = Vec::new();
    for record in numbers.chunks_exact(23) {
        let tau = Tangent(record[..7].try_into().unwrap());
        let x = Pose { numbers: record[7..15].try_into().unwrap(), from: 0, to: 0 };
        let y = Pose { numbers: record[15..].try_into().unwrap(), from: 0, to: 0 };
        let (jl, jl_inv) = host::rotation_jacobians(&host::phi(&tau));
        out.extend(host::tangent_values(&tau).0);
        out.extend(jl);
        out.extend(jl_inv);
        out.extend([host::up(&x), host::down(&x), host::ds(&x, &y)]);
    }
    let written: Vec<u8> = out.iter().flat_map(|x| x.to_le_bytes()).collect();
    io::stdout().write_all(&written)
}
