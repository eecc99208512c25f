//! Actors: who made an object, and when.
use crate::{Error, piece, raw};

/// The actor of a line, borrowed from it.
#[derive(Clone, Copy, Debug, PartialEq, Eq)]
pub struct Actor<'a> {
    /// The name.
    pub name: &'a [u8],
    /// The email.
    pub email: &'a [u8],
    /// The bytes of the time.
    pub time: &'a [u8],
    /// The seconds since the start of 1970 in UTC, and the offset from UTC in seconds, if the time decodes.
    pub decoded: Option<(i64, i32)>,
}

/// Decodes the actor of a line, as of an author, a committer or a tagger.
///
/// # Errors
///
/// [`Error::Malformed`] if the line has no actor.
///
/// ```
/// let actor = cinguepo::actor(b"A <a@b> 12 +0130").unwrap();
/// assert_eq!((actor.name, actor.email), (&b"A"[..], &b"a@b"[..]));
/// assert_eq!(actor.decoded, Some((12, 5400)));
/// ```
pub fn actor(line: &[u8]) -> Result<Actor<'_>, Error> {
    let mut out = raw::Actor::default();
    // SAFETY: as in `id`; `out` is initialised.
    match unsafe { raw::gixobj_actor(line.as_ptr(), line.len(), &mut out) } {
        0 => Ok(Actor {
            name: piece(line, out.name),
            email: piece(line, out.email),
            time: piece(line, out.time),
            decoded: (out.has_time == 1).then_some((out.seconds, out.offset)),
        }),
        status => Err(Error::of_status(status)),
    }
}
