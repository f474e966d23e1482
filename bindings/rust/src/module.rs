//! Passes over the modules of naga itself.

use crate::calls::run;
use crate::pass::Pass;
use std::error::Error;

/// Runs passes on a module of naga, in this order. On error, the module is unchanged.
///
/// The spans of the new module are undefined, since naga's JSON has none.
///
/// Returns `Err` if the module has no JSON, or as [`run`] does.
pub fn run_module(
    module: &mut naga::Module,
    passes: &[Pass],
) -> Result<(), Box<dyn Error + Send + Sync>> {
    let text = serde_json::to_string(module)?;
    let text = run(&text, passes)?;
    *module = serde_json::from_str(&text)?;
    Ok(())
}
