//! The tokens of tags.
use crate::{Error, HashKind, piece, raw};

/// A token of a tag, borrowed from its encoding.
#[derive(Clone, Copy, Debug, PartialEq, Eq)]
pub enum TagToken<'a> {
    /// The hex of the target's id.
    Target(&'a [u8]),
    /// The name of the target's kind.
    TargetKind(&'a [u8]),
    /// The name.
    Name(&'a [u8]),
    /// The line of the tagger, or `None` if other bytes than a tagger line follow the name.
    Tagger(Option<&'a [u8]>),
    /// The bytes after the header lines.
    Body {
        /// The message.
        message: &'a [u8],
        /// The signature from its marker on, if there is one.
        signature: Option<&'a [u8]>,
    },
}

/// An iterator over the tokens of a tag. After an error it yields nothing.
#[derive(Clone)]
pub struct TagTokens<'a> {
    hash: HashKind,
    tag: &'a [u8],
    cursor: raw::Cursor,
}

/// Returns an iterator over the tokens of a tag's encoding. A tag that ends with its name yields three.
pub fn tag_tokens(hash: HashKind, tag: &[u8]) -> TagTokens<'_> {
    TagTokens {
        hash,
        tag,
        cursor: raw::Cursor::default(),
    }
}

impl<'a> Iterator for TagTokens<'a> {
    type Item = Result<TagToken<'a>, Error>;

    fn next(&mut self) -> Option<Self::Item> {
        let mut out = raw::TagToken::default();
        // SAFETY: as in `id`; the cursor and `out` are initialised, and apart.
        let status = unsafe {
            raw::gixobj_tag_token(
                self.hash as u8,
                self.tag.as_ptr(),
                self.tag.len(),
                &mut self.cursor,
                &mut out,
            )
        };
        match status {
            0 => {
                let value = piece(self.tag, out.value);
                Some(Ok(match out.kind {
                    1 => TagToken::Target(value),
                    2 => TagToken::TargetKind(value),
                    3 => TagToken::Name(value),
                    4 => TagToken::Tagger(Some(value)),
                    5 => TagToken::Tagger(None),
                    _ => TagToken::Body {
                        message: value,
                        signature: (out.has_signature == 1).then(|| piece(self.tag, out.signature)),
                    },
                }))
            }
            1 => None,
            status => {
                self.cursor.offset = self.tag.len();
                Some(Err(Error::of_status(status)))
            }
        }
    }
}
