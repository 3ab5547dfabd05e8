//! What host.rs and all_functions.rs read: numbers of the program's width, little-endian, from standard input.
use std::io::{self, Read};

#[cfg(single)]
pub type Number = f32;
#[cfg(not(single))]
pub type Number = f64;

pub fn numbers() -> io::Result<Vec<Number>> {
    let mut bytes = Vec::new();
    io::stdin().read_to_end(&mut bytes)?;
    Ok(bytes
        .chunks_exact(size_of::<Number>())
        .map(|b| Number::from_le_bytes(b.try_into().unwrap()))
        .collect())
}
