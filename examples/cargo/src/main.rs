//! Runs passes on the module in its standard input, as `naga_opt --passes cull,close,compact` does.

use naga_opt::{Pass, run};
use std::error::Error;

fn main() -> Result<(), Box<dyn Error>> {
    let text = std::io::read_to_string(std::io::stdin())?;
    let passes = [Pass::Cull, Pass::Close, Pass::Compact];
    println!("{}", run(&text, &passes)?);
    Ok(())
}
