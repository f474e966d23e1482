//! The errors of the calls.

use std::fmt;

/// The reason why a call has no answer.
#[non_exhaustive]
#[derive(Clone, Copy, Debug, PartialEq, Eq, Hash)]
pub enum Code {
    /// There is no pass, or the library has none of its name.
    UnknownPass,
    /// The text is not UTF-8, which cannot be the case of a `str`.
    NotUtf8,
    /// The text is not JSON, or its lists and objects are nested more than 127 deep.
    NotJson,
    /// The JSON is not what naga writes for a module, or two types are equal.
    NotAModule,
    /// A handle of the module is not valid.
    InvalidHandle,
    /// The module that the passes made has no JSON, or one that is nested too deep.
    NoJson,
    /// An allocation failed.
    OutOfMemory,
    /// [`Restrict`](crate::Pass::Restrict) cannot clamp the accesses of a function.
    NotRestricted,
    /// The library has another version of its functions than this package. No other call was made.
    OtherVersion,
    /// The library returned another negative number than this package knows.
    Other(isize),
}

impl Code {
    /// Returns the reason for a negative number that the library returned.
    pub(crate) fn of(number: isize) -> Code {
        match number {
            -1 => Code::UnknownPass,
            -2 => Code::NotUtf8,
            -3 => Code::NotJson,
            -4 => Code::NotAModule,
            -5 => Code::InvalidHandle,
            -6 => Code::NoJson,
            -7 => Code::OutOfMemory,
            -9 => Code::NotRestricted,
            _ => Code::Other(number),
        }
    }
}

/// The error of a call. It is displayed as its message.
#[non_exhaustive]
#[derive(Clone, Debug, PartialEq, Eq)]
pub struct Error {
    /// The reason why the call has no answer.
    pub code: Code,
    /// The message that the program `naga_opt` prints in this case, without the program's name.
    pub message: String,
}

impl fmt::Display for Error {
    fn fmt(&self, f: &mut fmt::Formatter<'_>) -> fmt::Result {
        f.write_str(&self.message)
    }
}

impl std::error::Error for Error {}

#[cfg(test)]
mod tests {
    use super::*;

    #[test]
    fn an_unknown_number_has_a_code() {
        assert_eq!(Code::of(-9), Code::NotRestricted);
        assert_eq!(Code::of(-10), Code::Other(-10));
        assert_eq!(Code::of(isize::MIN), Code::Other(isize::MIN));
    }
}
