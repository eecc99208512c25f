//! The tokens of commits.
use crate::buffers::with_buffers;
use crate::{Error, HashKind, piece, raw};

/// A token of a commit, borrowed from its encoding.
#[derive(Clone, Copy, Debug, PartialEq, Eq)]
pub enum Token<'a> {
    /// The hex of the tree's id.
    Tree(&'a [u8]),
    /// The hex of a parent's id.
    Parent(&'a [u8]),
    /// The line of the author.
    Author(&'a [u8]),
    /// The line of the committer.
    Committer(&'a [u8]),
    /// The encoding of the message.
    Encoding(&'a [u8]),
    /// The name and the encoded lines of an extra header, each with its newline. [`unfold`] returns the value.
    Header(&'a [u8], &'a [u8]),
    /// The message.
    Message(&'a [u8]),
}

/// Returns the value of a header with these lines: one line without its newline, or several with their newlines.
///
/// ```
/// assert_eq!(cinguepo::unfold(b"a\n"), b"a");
/// assert_eq!(cinguepo::unfold(b"a\n b\n"), b"a\nb\n");
/// ```
pub fn unfold(lines: &[u8]) -> Vec<u8> {
    if lines.iter().filter(|byte| **byte == b'\n').count() == 1 {
        return lines[..lines.len() - 1].to_vec();
    }
    let mut value = Vec::with_capacity(lines.len());
    for (index, line) in lines.split_inclusive(|byte| *byte == b'\n').enumerate() {
        value.extend_from_slice(if index == 0 { line } else { &line[1..] });
    }
    value
}

/// Returns the value of the first extra header of this name in a commit, or `None`. Lines after it aren't decoded.
///
/// The result is `None` if all lines decode, and none is such a header. The bytes may then be no commit: the first lines
/// of one, or no bytes at all. [`check`](crate::check) decodes all.
///
/// # Errors
///
/// [`Error::Malformed`] if a line up to the header is malformed or, without the header, any line.
/// [`Error::OutOfMemory`] only if a header of several lines comes up to it.
pub fn commit_header(hash: HashKind, commit: &[u8], name: &[u8]) -> Result<Option<Vec<u8>>, Error> {
    let found = with_buffers(|[out], [len]| {
        // SAFETY: as in `id`.
        unsafe {
            raw::gixobj_commit_header(
                hash as u8,
                commit.as_ptr(),
                commit.len(),
                name.as_ptr(),
                name.len(),
                out.as_mut_ptr(),
                out.len(),
                len,
            )
        }
    })?;
    Ok(found.map(|[value]| value))
}

/// An iterator over the tokens of a commit. After an error it yields nothing.
#[derive(Clone)]
pub struct Tokens<'a> {
    hash: HashKind,
    commit: &'a [u8],
    cursor: raw::Cursor,
}

/// Returns an iterator over the tokens of a commit's encoding.
pub fn tokens(hash: HashKind, commit: &[u8]) -> Tokens<'_> {
    Tokens {
        hash,
        commit,
        cursor: raw::Cursor::default(),
    }
}

impl<'a> Iterator for Tokens<'a> {
    type Item = Result<Token<'a>, Error>;

    fn next(&mut self) -> Option<Self::Item> {
        let mut out = raw::CommitToken::default();
        // SAFETY: as in `id`; the cursor and `out` are initialised, and apart.
        let status = unsafe {
            raw::gixobj_commit_token(
                self.hash as u8,
                self.commit.as_ptr(),
                self.commit.len(),
                &mut self.cursor,
                &mut out,
            )
        };
        match status {
            0 => {
                let value = piece(self.commit, out.value);
                Some(Ok(match out.kind {
                    1 => Token::Tree(value),
                    2 => Token::Parent(value),
                    3 => Token::Author(value),
                    4 => Token::Committer(value),
                    5 => Token::Encoding(value),
                    6 => Token::Header(piece(self.commit, out.name), value),
                    _ => Token::Message(value),
                }))
            }
            1 => None,
            status => {
                self.cursor.offset = self.commit.len();
                Some(Err(Error::of_status(status)))
            }
        }
    }
}
