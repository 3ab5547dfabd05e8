"""The wrapper crate's source."""

SOURCE = """\
// One call of `root` from C: 0, and the whole root, the remainder, the nearest double's pattern and
// the exponent; or the refusal's number.
#![tactic(auto)]

use ieee::Real;

fn code(n: u8) -> u32 { n as u32 }

#[unsafe(no_mangle)]
pub extern "C" fn root_call(z: f64, out: &mut [u64; 3], power: &mut [i64; 1]) -> u32 {
    match root::root(z) {
        Ok(p) => {
            let s = p.exponent;
            let x = p.nearest;
            let b = x.pattern();
            out[0] = p.root;
            out[1] = p.remainder;
            out[2] = b;
            power[0] = s;
            0
        }
        Err(n) => code(n.number()),
    }
}
"""
