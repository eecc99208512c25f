//! New encodings, with the feature `reencode`.
#![cfg(feature = "reencode")]
use cinguepo::{Error, HashKind, Kind, check, reencode};

const SHA1: HashKind = HashKind::Sha1;
const COMMIT: &[u8] = b"tree 4b825dc642cb6eb9a060e54bf8d69288fbee4904\n\
author A <a@b> 0 +0000\ncommitter C <c@d> 1 +0100\nencoding x\ngpgsig a\n b\n\nm\n";

#[test]
fn reencodes() {
    assert_eq!(reencode(SHA1, Kind::Commit, COMMIT).as_deref(), Ok(COMMIT));
    assert_eq!(reencode(SHA1, Kind::Blob, b"").as_deref(), Ok(&b""[..]));
    assert_eq!(reencode(SHA1, Kind::Tree, b"x"), Err(Error::Malformed));
    let tag = b"object 4b825dc642cb6eb9a060e54bf8d69288fbee4904\ntype tree\ntag -v\n\nm\n";
    assert_eq!(check(SHA1, Kind::Tag, tag), Ok(()));
    assert_eq!(reencode(SHA1, Kind::Tag, tag), Err(Error::NotEncodable));
}
