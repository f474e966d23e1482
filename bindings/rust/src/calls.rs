//! The calls of the static library.

use crate::error::{Code, Error};
use crate::pass::Pass;
use std::ffi::c_void;
use std::ptr::NonNull;

/// A text in memory that the library has allocated.
#[repr(C)]
struct Answer {
    text: *mut u8,
    length: usize,
}

unsafe extern "C" {
    fn naga_opt_run_new(
        text: *const u8,
        text_length: usize,
        passes: *const u8,
        passes_length: usize,
        answer: *mut Answer,
        message: *mut u8,
        message_length: usize,
    ) -> isize;

    fn naga_opt_check(
        text: *const u8,
        text_length: usize,
        out: *mut u8,
        out_length: usize,
        faults: *mut usize,
        message: *mut u8,
        message_length: usize,
    ) -> isize;

    fn naga_opt_text(
        text: *const u8,
        text_length: usize,
        out: *mut u8,
        out_length: usize,
        message: *mut u8,
        message_length: usize,
    ) -> isize;

    fn naga_opt_version() -> u32;

    fn free(block: *mut c_void);
}

/// The version of the functions that are declared here.
const VERSION: u32 = 3;

/// Returns an error if the library has another version of the functions than this package.
fn check_version() -> Result<(), Error> {
    // SAFETY: the function has no precondition.
    match unsafe { naga_opt_version() } {
        VERSION => Ok(()),
        other => Err(Error {
            code: Code::OtherVersion,
            message: format!("the library has version {other} of its functions, and not {VERSION}"),
        }),
    }
}

impl Answer {
    /// Returns an empty text, which has no memory.
    fn empty() -> Answer {
        let text = NonNull::dangling().as_ptr();
        Answer { text, length: 0 }
    }

    /// Returns the bytes of the text.
    fn bytes(&self) -> &[u8] {
        // SAFETY: the text is empty, or the library has written its pointer and length.
        unsafe { std::slice::from_raw_parts(self.text, self.length) }
    }
}

impl Drop for Answer {
    fn drop(&mut self) {
        if self.length > 0 {
            // SAFETY: the library has allocated the memory by `malloc`, and nobody else has it.
            unsafe { free(self.text.cast()) }
        }
    }
}

/// Runs passes on a module, in this order.
///
/// The module is given and returned in the JSON that naga writes.
///
/// Returns `Err` if there is no pass, if the text is not the JSON of a module, if a handle of the module is not valid,
/// if the module that the passes made has no JSON or one that is nested too deep, or if an allocation of the library fails.
pub fn run(json: &str, passes: &[Pass]) -> Result<String, Error> {
    let names: Vec<&str> = passes.iter().map(|pass| pass.name()).collect();
    let names = names.join(",");
    let mut answer = Answer::empty();
    call(|message| {
        // SAFETY: the pointers and lengths are those of slices and of an empty answer, which is unchanged after a fault.
        // What is written does not overlap what is read.
        unsafe {
            naga_opt_run_new(
                json.as_ptr(),
                json.len(),
                names.as_ptr(),
                names.len(),
                &mut answer,
                message.as_mut_ptr(),
                message.len(),
            )
        }
    })?;
    Ok(text_of(answer.bytes().to_vec()))
}

/// The report on a module.
#[non_exhaustive]
#[derive(Clone, Debug, PartialEq, Eq)]
pub struct Report {
    /// The text that `naga_opt --check` prints.
    pub text: String,
    /// The number of faults.
    pub faults: usize,
}

/// Checks a module in the JSON that naga writes: that each jump is allowed where it is, that each value that is used was
/// computed, and that each value is used at its type.
///
/// Returns the report, whether or not there are faults. Returns `Err` if the text is not the JSON of a module, if a handle
/// of the module is not valid, or if an allocation of the library fails.
pub fn check(json: &str) -> Result<Report, Error> {
    let mut faults = 0;
    let text = text_by(1024, |out, message| {
        // SAFETY: the pointers and lengths are those of slices. What is written does not overlap what is read.
        unsafe {
            naga_opt_check(
                json.as_ptr(),
                json.len(),
                out.as_mut_ptr(),
                out.len(),
                &mut faults,
                message.as_mut_ptr(),
                message.len(),
            )
        }
    })?;
    Ok(Report { text, faults })
}

/// Returns a module in the JSON that naga writes as readable text.
///
/// Returns `Err` if the text is not the JSON of a module, if a handle of the module is not valid, or if an allocation
/// of the library fails.
pub fn text(json: &str) -> Result<String, Error> {
    text_by(json.len(), |out, message| {
        // SAFETY: the pointers and lengths are those of slices. What is written does not overlap what is read.
        unsafe {
            naga_opt_text(
                json.as_ptr(),
                json.len(),
                out.as_mut_ptr(),
                out.len(),
                message.as_mut_ptr(),
                message.len(),
            )
        }
    })
}

/// Makes a call that writes a text, first with this much space for it. Returns the text.
fn text_by(
    space: usize,
    mut write: impl FnMut(&mut [u8], &mut [u8]) -> isize,
) -> Result<String, Error> {
    let mut out = vec![0; space];
    loop {
        let length = call(|message| write(&mut out, message))?;
        let is_whole = length <= out.len();
        out.resize(length, 0);
        if is_whole {
            return Ok(text_of(out));
        }
    }
}

/// Returns the text in some bytes that the library has written.
fn text_of(bytes: Vec<u8>) -> String {
    String::from_utf8(bytes).expect("the library writes UTF-8")
}

/// Makes a call with enough space for its message. Returns the length that it returns.
fn call(mut call: impl FnMut(&mut [u8]) -> isize) -> Result<usize, Error> {
    check_version()?;
    let mut buffer = vec![0; 1024];
    loop {
        let number = call(&mut buffer);
        if let Ok(length) = usize::try_from(number) {
            return Ok(length);
        }
        if let Some(message) = whole_message(&buffer) {
            let code = Code::of(number);
            return Err(Error { code, message });
        }
        buffer.resize(2 * buffer.len(), 0);
    }
}

/// Returns the message in a buffer that was filled with zeros, or `None` if it may have been cut.
fn whole_message(buffer: &[u8]) -> Option<String> {
    let length = buffer
        .iter()
        .rposition(|byte| *byte != 0)
        .map_or(0, |last| last + 1);
    // A character has at most four bytes, so fewer than four bytes are left behind a message that was cut.
    (length + 4 <= buffer.len()).then(|| String::from_utf8_lossy(&buffer[..length]).into_owned())
}
