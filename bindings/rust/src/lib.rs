//! Proved decoders of git's objects: safe Rust over the static libraries `gixobj_c`,
//! `gixobj_c_reencode`, `gixobj_c_fsck` and `gixobj_c_edit`.
//!
//! Nothing is kept between two calls. Slices in results borrow the input.
//!
//! The features `reencode`, `fsck` and `edit`, all on by default, have the calls of these names. Without them
//! `gixobj_c` is enough.
#![deny(unsafe_op_in_unsafe_fn, missing_docs)]

mod actors;
mod buffers;
mod commits;
#[cfg(feature = "edit")]
mod edits;
#[cfg(feature = "reencode")]
mod encodings;
mod error;
#[cfg(feature = "fsck")]
pub mod fsck;
mod messages;
mod objects;
mod raw;
mod tags;
mod trees;

pub use actors::{Actor, actor};
pub use commits::{Token, Tokens, commit_header, tokens, unfold};
#[cfg(feature = "edit")]
pub use edits::{EditError, Edited, edit, edit_with};
#[cfg(feature = "reencode")]
pub use encodings::reencode;
pub use error::Error;
#[cfg(feature = "fsck")]
pub use fsck::fsck;
pub use messages::{Trailers, commit_signature, message, summary, tag_signature, trailers};
pub use objects::{HashKind, Id, Kind, check, id, loose_header, verify};
pub use tags::{TagToken, TagTokens, tag_tokens};
pub use trees::{Entries, Entry, all_entries, entries};

/// The piece of the input with this span.
fn piece(input: &[u8], span: raw::Span) -> &[u8] {
    &input[span.start..][..span.len]
}
