//! What is refused.

use crate::c;
use std::ffi::{CStr, c_char};
use std::fmt;

/// A call was refused.
#[derive(Clone, Copy, Debug, PartialEq, Eq)]
pub struct Error {
    /// The status, by its number in cgrlist.h.
    pub status: u32,
    /// The bad line of a text, or 0.
    pub line: u64,
}

impl Error {
    /// The name of the status, such as `CGRLIST_SAME_NODE`.
    pub fn name(&self) -> &'static str {
        text(c::cgrlist_status_name(self.status))
    }
}

impl fmt::Display for Error {
    fn fmt(&self, f: &mut fmt::Formatter<'_>) -> fmt::Result {
        match self.line {
            0 => f.write_str(self.name()),
            line => write!(f, "line {line}: {}", self.name()),
        }
    }
}

impl std::error::Error for Error {}

/// The first fault of a list of contacts.
#[derive(Clone, Copy, Debug, PartialEq, Eq)]
pub struct Fault {
    /// The fault, by its number in cgrlist.h.
    pub fault: u32,
    /// Its place from 1; 0 for an empty list and for a wrong end.
    pub place: u64,
}

impl Fault {
    /// The name of the fault, such as `CGRLIST_FAULT_NOT_CHAINED`.
    pub fn name(&self) -> &'static str {
        text(c::cgrlist_fault_name(self.fault))
    }
}

/// A text of the library, which lasts as long as the program.
fn text(place: *const c_char) -> &'static str {
    // SAFETY: the library returns a text of ASCII that ends with a zero byte and is never freed.
    unsafe { CStr::from_ptr(place) }.to_str().unwrap_or_default()
}

/// What a call answers, if it isn't refused.
#[derive(Clone, Copy, PartialEq, Eq)]
pub(crate) enum Answer {
    Done,
    No,
    Room,
}

/// The answer of a status.
pub(crate) fn answer(status: u32) -> Result<Answer, Error> {
    answer_at(status, 0)
}

/// The same, of a call that names a bad line.
pub(crate) fn answer_at(status: u32, line: u64) -> Result<Answer, Error> {
    match status {
        0 => Ok(Answer::Done),
        1 => Ok(Answer::No),
        2 => Ok(Answer::Room),
        _ => Err(Error { status, line }),
    }
}
