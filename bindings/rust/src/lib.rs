//! Passes over shader modules in the JSON that naga 30.0.1 writes.
//!
//! The functions call a static library. What it returns and writes is proved; these calls of it are not, nor that they
//! free what it allocates for them. `build.rs` finds the library in this repository, or in the folder in the variable
//! `NAGA_OPT_LIB_DIR`, which `tests/dist` makes.
//!
//! ```
//! use naga_opt::{Code, Pass, run};
//!
//! let error = run("[]", &[Pass::Cull, Pass::Close]).unwrap_err();
//! assert_eq!(error.code, Code::NotAModule);
//! ```

mod calls;
mod error;
#[cfg(feature = "naga")]
mod module;
mod pass;

pub use calls::{Report, check, run, text};
pub use error::{Code, Error};
#[cfg(feature = "naga")]
pub use module::run_module;
pub use pass::Pass;
