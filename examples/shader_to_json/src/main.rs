//! Reads a shader in WGSL from standard input, and writes the JSON of its module to standard output.

use std::error::Error;

fn main() -> Result<(), Box<dyn Error>> {
    let source = std::io::read_to_string(std::io::stdin())?;
    let module = naga::front::wgsl::parse_str(&source)?;
    println!("{}", serde_json::to_string(&module)?);
    Ok(())
}
