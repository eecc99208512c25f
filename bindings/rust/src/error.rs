//! Why a call fails.
use std::fmt;

/// Why a call fails.
#[derive(Clone, Copy, Debug, PartialEq, Eq)]
pub enum Error {
    /// The bytes do not decode.
    Malformed,
    /// An allocation failed.
    OutOfMemory,
    /// A loose header has an unknown kind.
    UnknownKind,
    /// A loose header has an invalid size.
    InvalidSize,
    /// The object decodes, and one of its values can't be encoded.
    NotEncodable,
}

impl fmt::Display for Error {
    fn fmt(&self, f: &mut fmt::Formatter<'_>) -> fmt::Result {
        f.write_str(match self {
            Error::Malformed => "malformed object",
            Error::OutOfMemory => "out of memory",
            Error::UnknownKind => "a loose header with an unknown kind",
            Error::InvalidSize => "a loose header with an invalid size",
            Error::NotEncodable => "a value that can't be encoded",
        })
    }
}

impl std::error::Error for Error {}

impl Error {
    /// The error of a status. The safe functions pass no unknown number and no offset after the end, so the other
    /// statuses don't reach it.
    pub(crate) fn of_status(status: u32) -> Error {
        match status {
            2 => Error::Malformed,
            3 => Error::OutOfMemory,
            7 => Error::UnknownKind,
            8 => Error::InvalidSize,
            10 => Error::NotEncodable,
            _ => unreachable!("status {status}"),
        }
    }
}
