//! Closes a module of naga.

use naga_opt::{Pass, run_module};
use std::error::Error;

fn main() -> Result<(), Box<dyn Error + Send + Sync>> {
    let mut module = naga::Module::default();
    let function = naga::Function::default();
    module.functions.append(function, naga::Span::UNDEFINED);
    run_module(&mut module, &[Pass::Cull, Pass::Close])?;
    for (_, function) in module.functions.iter() {
        println!("{:?}", function.body);
    }
    Ok(())
}
