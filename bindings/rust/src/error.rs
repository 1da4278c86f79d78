//! Why a call has no answer, and answers that are a no.

use crate::sys::{self, RawReply};
use crate::text::TextFault;
use std::ffi::c_char;
use std::fmt;
use std::io;

/// What kind of fault an [`Error`] is.
#[derive(Clone, Copy, Debug, PartialEq, Eq)]
#[non_exhaustive]
pub enum ErrorKind {
    /// An argument or a word has no meaning.
    BadArgument,
    /// An edit, a repair or a plan is refused: nothing was written.
    Refused,
    /// The disk's lock is held elsewhere.
    Locked,
    /// A table's text has a fault: nothing was written. [`Error::fault`] says where.
    Text,
    /// The disk has no table that can be read.
    NoTable,
    /// The disk can't be opened, read or written.
    Device,
    /// The library's memory was refused.
    Memory,
    /// The library has another interface.
    Version,
}

/// Why a call has no answer. It prints as a sentence.
#[derive(Clone, Debug, PartialEq, Eq)]
pub struct Error {
    kind: ErrorKind,
    reason: Reason,
    written: u64,
    errno: Option<i32>,
    fault: Option<TextFault>,
}

impl Error {
    pub(crate) fn new(status: i32, reply: &RawReply) -> Error {
        let kind = match status {
            sys::NO | sys::REFUSED if (reply.about, reply.number) == (sys::ABOUT_DISK, sys::LOCKED) => ErrorKind::Locked,
            sys::NO | sys::REFUSED if reply.about == sys::ABOUT_TEXT => ErrorKind::Text,
            sys::NO | sys::REFUSED => ErrorKind::Refused,
            sys::NO_TABLE => ErrorKind::NoTable,
            sys::DEVICE => ErrorKind::Device,
            sys::MEMORY => ErrorKind::Memory,
            _ => ErrorKind::BadArgument,
        };
        let failed = status == sys::DEVICE;
        let errno = if failed { i32::try_from(reply.b).ok() } else { None };
        let written = if failed { reply.count } else { 0 };
        Error { kind, reason: Reason::new(status, reply), written, errno, fault: TextFault::new(status, reply) }
    }

    /// Of a plan that the library isn't given, with the numbers that it has for one.
    pub(crate) fn of_plan(sentence: &str) -> Error {
        let mut error = Error::told(ErrorKind::BadArgument, sentence);
        (error.reason.about, error.reason.number) = (sys::ABOUT_ARGUMENT, sys::ARGUMENT_PLAN);
        error
    }

    pub(crate) fn told(kind: ErrorKind, sentence: &str) -> Error {
        let reason = Reason { about: 0, number: 0, a: 0, b: 0, sentence: sentence.to_string() };
        Error { kind, reason, written: 0, errno: None, fault: None }
    }

    pub(crate) fn system(why: &io::Error) -> Error {
        Error { errno: why.raw_os_error(), ..Error::told(ErrorKind::Device, &why.to_string()) }
    }

    pub fn kind(&self) -> ErrorKind {
        self.kind
    }

    /// The numbers of it, as docs/c.md has them.
    pub fn reason(&self) -> &Reason {
        &self.reason
    }

    /// Where a table's text has its first fault.
    pub fn fault(&self) -> Option<TextFault> {
        self.fault
    }

    /// How many sectors may have been written: 0 says that nothing was.
    pub fn written(&self) -> u64 {
        self.written
    }

    /// The system's error, of a device's fault.
    pub fn raw_os_error(&self) -> Option<i32> {
        self.errno
    }
}

impl fmt::Display for Error {
    fn fmt(&self, f: &mut fmt::Formatter<'_>) -> fmt::Result {
        self.reason.fmt(f)
    }
}

impl std::error::Error for Error {}

impl From<Error> for io::Error {
    fn from(error: Error) -> io::Error {
        let kind = match (error.kind, error.errno) {
            (_, Some(errno)) => io::Error::from_raw_os_error(errno).kind(),
            (ErrorKind::BadArgument | ErrorKind::Text, _) => io::ErrorKind::InvalidInput,
            (ErrorKind::NoTable, _) => io::ErrorKind::InvalidData,
            (ErrorKind::Locked, _) => io::ErrorKind::WouldBlock,
            (ErrorKind::Memory, _) => io::ErrorKind::OutOfMemory,
            _ => io::ErrorKind::Other,
        };
        io::Error::new(kind, error)
    }
}

/// A finding or a reason: what its number counts, the number, and its arguments. It prints as a sentence.
#[derive(Clone, Debug, PartialEq, Eq)]
pub struct Reason {
    pub about: u32,
    pub number: u32,
    pub a: u64,
    pub b: u64,
    sentence: String,
}

impl Reason {
    pub(crate) fn new(status: i32, reply: &RawReply) -> Reason {
        let mut text = [0u8; 512];
        let whole = unsafe { sys::ptab_message(status, reply, text.as_mut_ptr().cast::<c_char>(), text.len()) };
        let sentence = String::from_utf8_lossy(&text[..whole.min(text.len() - 1)]).into_owned();
        Reason { about: reply.about, number: reply.number, a: reply.a, b: reply.b, sentence }
    }
}

impl fmt::Display for Reason {
    fn fmt(&self, f: &mut fmt::Formatter<'_>) -> fmt::Result {
        f.write_str(&self.sentence)
    }
}

/// A yes, or a no with its first reason.
#[derive(Clone, Debug, PartialEq, Eq)]
pub enum Verdict {
    /// It is healthy, or the plan may be carried out: then this phase is the one that switches, 0 where none does.
    Yes(u64),
    No(Reason),
}

impl Verdict {
    pub fn is_yes(&self) -> bool {
        matches!(self, Verdict::Yes(_))
    }

    pub(crate) fn new(status: i32, reply: &RawReply) -> Verdict {
        match status {
            sys::DONE => Verdict::Yes(reply.a),
            _ => Verdict::No(Reason::new(status, reply)),
        }
    }
}

impl fmt::Display for Verdict {
    fn fmt(&self, f: &mut fmt::Formatter<'_>) -> fmt::Result {
        match self {
            Verdict::Yes(_) => f.write_str("yes"),
            Verdict::No(reason) => reason.fmt(f),
        }
    }
}
