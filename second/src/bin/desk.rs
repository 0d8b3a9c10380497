//! The desk program: table then log from standard input, the desk's text to
//! standard output.

use std::io::{stdin, stdout, Read, Result, Write};

fn main() -> Result<()> {
    let mut input = Vec::new();
    stdin().read_to_end(&mut input)?;
    stdout().write_all(&second::desk::desk(&input))
}
