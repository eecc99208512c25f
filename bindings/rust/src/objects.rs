//! Ids and checks of entire objects, and loose headers.
use crate::{Error, raw};
use std::fmt;

/// A hash function. Numbers don't convert into one, so none is truncated.
///
/// ```compile_fail
/// let hash = 257 as cinguepo::HashKind;
/// ```
#[derive(Clone, Copy, Debug, PartialEq, Eq)]
#[repr(u8)]
pub enum HashKind {
    /// SHA-1: ids of 20 bytes.
    Sha1 = 1,
    /// SHA-256: ids of 32 bytes.
    Sha256 = 2,
}

impl HashKind {
    /// The number of bytes of an id.
    pub const fn len_in_bytes(self) -> usize {
        match self {
            HashKind::Sha1 => 20,
            HashKind::Sha256 => 32,
        }
    }
}

/// A kind of objects, with git's number. Numbers don't convert into one, so none is truncated.
///
/// ```compile_fail
/// let kind = 259 as cinguepo::Kind;
/// ```
#[derive(Clone, Copy, Debug, PartialEq, Eq)]
#[repr(u8)]
pub enum Kind {
    /// A commit.
    Commit = 1,
    /// A tree.
    Tree = 2,
    /// A blob.
    Blob = 3,
    /// A tag.
    Tag = 4,
}

/// An id of 20 or 32 bytes. It is displayed in hex.
#[derive(Clone, Copy, PartialEq, Eq, Hash)]
pub struct Id {
    bytes: [u8; 32],
    len: u8,
}

impl Id {
    /// The bytes of the id.
    pub fn as_bytes(&self) -> &[u8] {
        &self.bytes[..self.len as usize]
    }
}

impl fmt::Display for Id {
    fn fmt(&self, f: &mut fmt::Formatter<'_>) -> fmt::Result {
        self.as_bytes()
            .iter()
            .try_for_each(|byte| write!(f, "{byte:02x}"))
    }
}

impl fmt::Debug for Id {
    fn fmt(&self, f: &mut fmt::Formatter<'_>) -> fmt::Result {
        write!(f, "{self}")
    }
}

/// Computes the id of an object, as `git hash-object` does.
///
/// ```
/// use cinguepo::{HashKind, Kind, id};
/// let hello = id(HashKind::Sha1, Kind::Blob, b"hello\n");
/// assert_eq!(hello.to_string(), "ce013625030ba8dba906f756967f9e9ca394464a");
/// ```
pub fn id(hash: HashKind, kind: Kind, content: &[u8]) -> Id {
    let mut bytes = [0; 32];
    // SAFETY: the declaration fits. Each pointer and length are of one slice, borrowed for the call. The slices are
    // apart.
    let status = unsafe {
        raw::gixobj_id(
            hash as u8,
            kind as u8,
            content.as_ptr(),
            content.len(),
            bytes.as_mut_ptr(),
            bytes.len(),
        )
    };
    assert_eq!(status, 0);
    Id {
        bytes,
        len: hash.len_in_bytes() as u8,
    }
}

/// Returns whether these are the bytes of the object's id.
pub fn verify(hash: HashKind, kind: Kind, content: &[u8], id: &[u8]) -> bool {
    // SAFETY: as in `id`.
    let status = unsafe {
        raw::gixobj_verify(
            hash as u8,
            kind as u8,
            content.as_ptr(),
            content.len(),
            id.as_ptr(),
            id.len(),
        )
    };
    status == 0
}

/// Checks whether the bytes are the encoding of an object of this kind.
///
/// # Errors
///
/// [`Error::Malformed`] if they are not.
///
/// ```
/// use cinguepo::{Error, HashKind, Kind, check};
/// assert_eq!(check(HashKind::Sha1, Kind::Tree, b""), Ok(()));
/// assert_eq!(check(HashKind::Sha1, Kind::Commit, b""), Err(Error::Malformed));
/// ```
pub fn check(hash: HashKind, kind: Kind, bytes: &[u8]) -> Result<(), Error> {
    // SAFETY: as in `id`.
    let status = unsafe { raw::gixobj_check(hash as u8, kind as u8, bytes.as_ptr(), bytes.len()) };
    match status {
        0 => Ok(()),
        status => Err(Error::of_status(status)),
    }
}

/// Decodes the loose header at the beginning of the input: the kind, the size, and the length of the header.
///
/// # Errors
///
/// [`Error::Malformed`], [`Error::UnknownKind`] or [`Error::InvalidSize`].
///
/// ```
/// use cinguepo::{Kind, loose_header};
/// assert_eq!(loose_header(b"blob 6\0hello\n"), Ok((Kind::Blob, 6, 7)));
/// ```
pub fn loose_header(input: &[u8]) -> Result<(Kind, u64, usize), Error> {
    let mut out = raw::LooseHeader::default();
    // SAFETY: as in `id`; `out` is initialised.
    match unsafe { raw::gixobj_loose_header(input.as_ptr(), input.len(), &mut out) } {
        0 => {
            let kind = match out.kind {
                1 => Kind::Commit,
                2 => Kind::Tree,
                3 => Kind::Blob,
                _ => Kind::Tag,
            };
            Ok((kind, out.size, out.len))
        }
        status => Err(Error::of_status(status)),
    }
}
