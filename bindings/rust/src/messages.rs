//! Messages, their trailers, and signatures.
use crate::buffers::with_buffers;
use crate::{Error, HashKind, piece, raw};

/// Returns the title and the body of a message.
///
/// ```
/// assert_eq!(cinguepo::message(b"title\n\nbody"), (&b"title"[..], Some(&b"body"[..])));
/// ```
pub fn message(bytes: &[u8]) -> (&[u8], Option<&[u8]>) {
    let mut out = raw::Message::default();
    // SAFETY: as in `id`; `out` is initialised.
    let status = unsafe { raw::gixobj_message(bytes.as_ptr(), bytes.len(), &mut out) };
    assert_eq!(status, 0);
    let body = (out.has_body == 1).then(|| piece(bytes, out.body));
    (piece(bytes, out.title), body)
}

/// Returns the title of a message on one line.
///
/// The title is that of [`message`], without the white space at its beginning and end. Its lines are joined by spaces.
/// `%s` of `git log` keeps a space at the beginning, skips empty lines there, and ends before a line of white space.
///
/// ```
/// assert_eq!(cinguepo::summary(b"a\nb\n\nc"), Ok(b"a b".to_vec()));
/// assert_eq!(cinguepo::summary(b"\n\ntitle"), Ok(Vec::new()));
/// ```
///
/// # Errors
///
/// [`Error::OutOfMemory`].
pub fn summary(message: &[u8]) -> Result<Vec<u8>, Error> {
    let found = with_buffers(|[out], [len]| {
        // SAFETY: as in `id`.
        unsafe {
            raw::gixobj_summary(
                message.as_ptr(),
                message.len(),
                out.as_mut_ptr(),
                out.len(),
                len,
            )
        }
    })?;
    let [out] = found.expect("a summary");
    Ok(out)
}

/// An iterator over the trailers of a message: the token and the value of each. After an error it yields nothing.
#[derive(Clone)]
pub struct Trailers<'a> {
    message: &'a [u8],
    cursor: raw::Cursor,
}

/// Returns an iterator over the trailers of a message.
///
/// ```
/// let mut trailers = cinguepo::trailers(b"title\n\nAcked-by: B\n  C\n");
/// assert_eq!(trailers.next(), Some(Ok([b"Acked-by".to_vec(), b"B C".to_vec()])));
/// assert_eq!(trailers.next(), None);
/// ```
///
/// The iterator yields [`Error::OutOfMemory`] only at a value of several lines.
pub fn trailers(message: &[u8]) -> Trailers<'_> {
    Trailers {
        message,
        cursor: raw::Cursor::default(),
    }
}

impl Iterator for Trailers<'_> {
    type Item = Result<[Vec<u8>; 2], Error>;

    fn next(&mut self) -> Option<Self::Item> {
        let found = with_buffers(|[token, value], [token_len, value_len]| {
            // SAFETY: as in `id`; the cursor is initialised; the cursor and the buffers are apart.
            unsafe {
                raw::gixobj_trailer(
                    self.message.as_ptr(),
                    self.message.len(),
                    &mut self.cursor,
                    token.as_mut_ptr(),
                    token.len(),
                    token_len,
                    value.as_mut_ptr(),
                    value.len(),
                    value_len,
                )
            }
        });
        if found.is_err() {
            self.cursor.offset = self.message.len();
        }
        found.transpose()
    }
}

/// Returns the signature of a tag, and the bytes that it signs.
pub fn tag_signature(tag: &[u8]) -> Option<(&[u8], &[u8])> {
    let mut out = raw::Span::default();
    // SAFETY: as in `id`; `out` is initialised.
    match unsafe { raw::gixobj_tag_signature(tag.as_ptr(), tag.len(), &mut out) } {
        0 => Some((piece(tag, out), &tag[..out.start])),
        _ => None,
    }
}

/// Returns the signature of a commit, and the bytes that it signs, or `None` without a signature.
///
/// # Errors
///
/// [`Error::Malformed`], or [`Error::OutOfMemory`] only if there is a signature, or a header of several lines before any
/// fault.
pub fn commit_signature(hash: HashKind, commit: &[u8]) -> Result<Option<[Vec<u8>; 2]>, Error> {
    with_buffers(|[signature, signed], [signature_len, signed_len]| {
        // SAFETY: as in `id`; the buffers are apart.
        unsafe {
            raw::gixobj_commit_signature(
                hash as u8,
                commit.as_ptr(),
                commit.len(),
                signature.as_mut_ptr(),
                signature.len(),
                signature_len,
                signed.as_mut_ptr(),
                signed.len(),
                signed_len,
            )
        }
    })
}
