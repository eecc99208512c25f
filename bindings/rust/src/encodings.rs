//! New encodings of objects.
use crate::buffers::with_buffers;
use crate::{Error, HashKind, Kind, raw};

/// Decodes an object, and returns its new encoding.
///
/// # Errors
///
/// [`Error::Malformed`], [`Error::NotEncodable`], or [`Error::OutOfMemory`], but not of a blob or a tree without
/// entries.
///
/// ```
/// use cinguepo::{HashKind, Kind, reencode};
/// let tree = [&b"100644 a\0"[..], &[7; 20]].concat();
/// assert_eq!(reencode(HashKind::Sha1, Kind::Tree, &tree), Ok(tree));
/// ```
pub fn reencode(hash: HashKind, kind: Kind, bytes: &[u8]) -> Result<Vec<u8>, Error> {
    let found = with_buffers(|[out], [len]| {
        // SAFETY: as in `id`.
        unsafe {
            raw::gixobj_reencode(
                hash as u8,
                kind as u8,
                bytes.as_ptr(),
                bytes.len(),
                out.as_mut_ptr(),
                out.len(),
                len,
            )
        }
    })?;
    let [out] = found.expect("an encoding");
    Ok(out)
}
