//! Value records in hex, one a line, as WGSL writes them: `echo 5673054a0c023f00000000 | cargo run --example words`.
use std::{error::Error, io};

use vireodesk::Value;

fn main() -> Result<(), Box<dyn Error>> {
    for line in io::stdin().lines() {
        println!("{}", Value::decode(&bytes(&line?)?)?);
    }
    Ok(())
}

fn bytes(hex: &str) -> Result<Vec<u8>, Box<dyn Error>> {
    let pairs = (0..hex.len()).step_by(2).map(|at| hex.get(at..at + 2).ok_or("half a byte"));
    pairs.map(|pair| Ok(u8::from_str_radix(pair?, 16)?)).collect()
}
