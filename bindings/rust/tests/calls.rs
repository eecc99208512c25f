//! Calls of the safe functions. Ids are those that `git hash-object` prints.
use cinguepo::{
    Entry, Error, HashKind, Kind, TagToken, Token, actor, all_entries, check, commit_header,
    commit_signature, entries, id, loose_header, message, summary, tag_signature, tag_tokens,
    tokens, trailers, unfold, verify,
};

const SHA1: HashKind = HashKind::Sha1;
const COMMIT: &[u8] = b"tree 4b825dc642cb6eb9a060e54bf8d69288fbee4904\n\
parent 4b825dc642cb6eb9a060e54bf8d69288fbee4904\n\
author A <a@b> 0 +0000\ncommitter C <c@d> 1 +0100\nencoding x\ngpgsig a\n b\n\nm\n";

#[test]
fn ids_are_those_of_git() {
    let sha1 = |kind, content: &[u8]| id(SHA1, kind, content).to_string();
    assert_eq!(
        sha1(Kind::Blob, b"hello\n"),
        "ce013625030ba8dba906f756967f9e9ca394464a"
    );
    assert_eq!(
        sha1(Kind::Tree, b""),
        "4b825dc642cb6eb9a060e54bf8d69288fbee4904"
    );
    assert_eq!(
        sha1(Kind::Blob, &[]),
        "e69de29bb2d1d6434b8b29ae775ad8c2e48c5391"
    );
    assert_eq!(
        id(HashKind::Sha256, Kind::Tree, b"").to_string(),
        "6ef19b41225c5369f1c104d45d8d85efa9b057b53b14b4b9b939dd74decc5321"
    );
    let hello = id(SHA1, Kind::Blob, b"hello\n");
    assert!(verify(SHA1, Kind::Blob, b"hello\n", hello.as_bytes()));
    assert!(!verify(SHA1, Kind::Blob, b"hello", hello.as_bytes()));
    assert!(!verify(SHA1, Kind::Blob, b"hello\n", &[]));
}

#[test]
fn checks_reject_prefixes() {
    assert_eq!(check(SHA1, Kind::Commit, COMMIT), Ok(()));
    assert_eq!(
        check(HashKind::Sha256, Kind::Commit, COMMIT),
        Err(Error::Malformed)
    );
    assert_eq!(check(SHA1, Kind::Tree, COMMIT), Err(Error::Malformed));
    assert_eq!(check(SHA1, Kind::Blob, COMMIT), Ok(()));
    for len in 0..COMMIT.len() - 3 {
        let prefix = &COMMIT[..len];
        assert_eq!(
            check(SHA1, Kind::Commit, prefix),
            Err(Error::Malformed),
            "{len}"
        );
    }
}

#[test]
fn loose_headers_decode() {
    assert_eq!(loose_header(b"commit 12\0rest"), Ok((Kind::Commit, 12, 10)));
    assert_eq!(
        loose_header(b"tree 18446744073709551615\0"),
        Ok((Kind::Tree, u64::MAX, 26))
    );
    assert_eq!(
        loose_header(b"tree 18446744073709551616\0"),
        Err(Error::InvalidSize)
    );
    assert_eq!(loose_header(b"cat 1\0"), Err(Error::UnknownKind));
    assert_eq!(loose_header(b"blob 1"), Err(Error::Malformed));
    assert_eq!(loose_header(b""), Err(Error::Malformed));
}

#[test]
fn entries_end_at_an_error() {
    let mut tree = b"100644 a\0".to_vec();
    tree.extend([1; 20]);
    tree.extend(b"40000 b\0");
    tree.extend([2; 20]);
    let found: Vec<_> = entries(SHA1, &tree).collect();
    let first = Entry {
        mode: 0o100644,
        name: b"a",
        id: &[1; 20],
    };
    let second = Entry {
        mode: 0o040000,
        name: b"b",
        id: &[2; 20],
    };
    assert_eq!(found, [Ok(first), Ok(second)]);
    let pairs = [first, second].repeat(100);
    assert_eq!(all_entries(SHA1, &tree.repeat(100)), Ok(pairs));
    tree.pop();
    let found: Vec<_> = entries(SHA1, &tree).collect();
    assert_eq!(found, [Ok(first), Err(Error::Malformed)]);
    assert_eq!(all_entries(SHA1, &tree), Err(Error::Malformed));
    assert_eq!(entries(SHA1, b"").next(), None);
    let id = [0; 20];
    let other = [b"100664 a\0", &id[..], b"777 b\0", &id, b"140000 c\0", &id].concat();
    let modes = entries(SHA1, &other).map(|it| it.map(|entry| entry.mode));
    let modes: Result<Vec<_>, _> = modes.collect();
    assert_eq!(modes, Ok(vec![0o100664, 0o777, 0o40000]));
    assert_eq!(all_entries(SHA1, b""), Ok(Vec::new()));
}

#[test]
fn tokens_are_borrowed() {
    let hex = b"4b825dc642cb6eb9a060e54bf8d69288fbee4904";
    let found: Vec<_> = tokens(SHA1, COMMIT).collect::<Result<_, _>>().unwrap();
    assert_eq!(
        found,
        [
            Token::Tree(hex),
            Token::Parent(hex),
            Token::Author(b"A <a@b> 0 +0000"),
            Token::Committer(b"C <c@d> 1 +0100"),
            Token::Encoding(b"x"),
            Token::Header(b"gpgsig", b"a\n b\n"),
            Token::Message(b"m\n"),
        ]
    );
    assert_eq!(unfold(b"a\n b\n"), b"a\nb\n");
}

/// A tag as `git tag -s` writes it.
const TAG: &[u8] = b"object 67a2fc5e05353e769070fe401dbb8f95d0347efe\ntype commit\ntag v1\n\
tagger C <c@d.example> 1700000001 -0230\n\nthe message\n-----BEGIN PGP SIGNATURE-----\n\nabc\n\
-----END PGP SIGNATURE-----\n";

#[test]
fn tag_tokens_are_borrowed() {
    let found: Vec<_> = tag_tokens(SHA1, TAG).collect::<Result<_, _>>().unwrap();
    let marker = TAG.len() - 63;
    assert_eq!(
        found,
        [
            TagToken::Target(b"67a2fc5e05353e769070fe401dbb8f95d0347efe"),
            TagToken::TargetKind(b"commit"),
            TagToken::Name(b"v1"),
            TagToken::Tagger(Some(b"C <c@d.example> 1700000001 -0230")),
            TagToken::Body {
                message: b"the message",
                signature: Some(&TAG[marker..]),
            },
        ]
    );
    assert_eq!(tag_signature(TAG), Some((&TAG[marker..], &TAG[..marker])));
}

/// The absence of a tagger is a token if bytes follow the name.
#[test]
fn tags_without_a_tagger() {
    let name = TAG.iter().enumerate().filter(|(_, it)| **it == b'\n');
    let end = name.map(|(position, _)| position + 1).nth(2).unwrap();
    assert_eq!(tag_tokens(SHA1, &TAG[..end]).count(), 3);
    let bytes = [&TAG[..end], b"\nm"].concat();
    let found: Vec<_> = tag_tokens(SHA1, &bytes).skip(3).collect();
    let body = TagToken::Body {
        message: b"m",
        signature: None,
    };
    assert_eq!(found, [Ok(TagToken::Tagger(None)), Ok(body)]);
}

/// A tag is accepted if and only if its tokens have a name and no error.
#[test]
fn check_agrees_with_tokens_on_changed_tags() {
    for position in 0..TAG.len() {
        for byte in [b'\n', b' ', b'<', b'0', 0, b'x', 255] {
            let mut bytes = TAG.to_vec();
            bytes[position] = byte;
            let run: Result<Vec<_>, _> = tag_tokens(SHA1, &bytes).collect();
            let is_run = run.is_ok_and(|run| run.len() > 2);
            let is_tag = check(SHA1, Kind::Tag, &bytes).is_ok();
            assert_eq!(is_run, is_tag, "{position} {byte}");
        }
    }
}

#[test]
fn headers_have_names() {
    let found = commit_header(SHA1, COMMIT, b"gpgsig");
    assert_eq!(found, Ok(Some(b"a\nb\n".to_vec())));
    // neither a field of each commit nor an absent header is found
    for name in [&b"encoding"[..], b"author", b"gpg", b""] {
        assert_eq!(commit_header(SHA1, COMMIT, name), Ok(None));
    }
    // the first line of a commit, and no bytes
    for bytes in [&COMMIT[..46], b""] {
        assert_eq!(commit_header(SHA1, bytes, b"gpgsig"), Ok(None));
        assert_eq!(commit_signature(SHA1, bytes), Ok(None));
    }
    let prefix = &COMMIT[..150];
    assert_eq!(
        commit_header(SHA1, prefix, b"gpgsig"),
        Err(Error::Malformed)
    );
    let merge = [
        &COMMIT[..COMMIT.len() - 3],
        b"x y\nmergetag a\n \n b\n\nm\n",
    ]
    .concat();
    let found = commit_header(SHA1, &merge, b"mergetag");
    assert_eq!(found, Ok(Some(b"a\n\nb\n".to_vec())));
    assert_eq!(commit_header(SHA1, &merge, b"x"), Ok(Some(b"y".to_vec())));
}

/// A commit is accepted if and only if its tokens end with a message.
#[test]
fn check_agrees_with_tokens_on_changed_commits() {
    for position in 0..COMMIT.len() {
        for byte in [b'\n', b' ', b'<', b'0', 0, b'x', 255] {
            let mut bytes = COMMIT.to_vec();
            bytes[position] = byte;
            let run: Result<Vec<_>, _> = tokens(SHA1, &bytes).collect();
            let is_run = matches!(run.as_deref(), Ok([.., Token::Message(_)]));
            let is_commit = check(SHA1, Kind::Commit, &bytes).is_ok();
            assert_eq!(is_run, is_commit, "{position} {byte}");
        }
    }
}

#[test]
fn actors_decode() {
    let found = actor(b" A <a <b> 1 -0100 x").unwrap();
    assert_eq!(found.name, b" A");
    assert_eq!((found.email, found.time), (&b"a <b"[..], &b"1 -0100 "[..]));
    assert_eq!(actor(b"<> 0 +0000").unwrap().decoded, Some((0, 0)));
    assert_eq!(actor(b"A <a> x").unwrap().decoded, None);
    for line in [&b"A"[..], b"A <a", b"A > < a", b"A <a>\n"] {
        assert_eq!(actor(line), Err(Error::Malformed));
    }
}

#[test]
fn messages_split() {
    let bytes = b"a\nb\n\nbody\n\nSigned-off-by: A <a@b>\nAcked-by: B\n  C\n";
    assert_eq!(message(bytes), (&b"a\nb"[..], Some(&bytes[5..])));
    assert_eq!(message(b""), (&b""[..], None));
    assert_eq!(summary(bytes).as_deref(), Ok(&b"a b"[..]));
    assert_eq!(summary(b" x").as_deref(), Ok(&b"x"[..]));
    assert_eq!(summary(b"\n\ntitle").as_deref(), Ok(&b""[..]));
    let first = [b"Signed-off-by".to_vec(), b"A <a@b>".to_vec()];
    let second = [b"Acked-by".to_vec(), b"B C".to_vec()];
    assert_eq!(trailers(bytes).collect::<Vec<_>>(), [Ok(first), Ok(second)]);
    assert!(trailers(b"").next().is_none());
}

#[test]
fn signatures_and_what_they_sign() {
    let signed: Vec<u8> = [&COMMIT[..COMMIT.len() - 15], b"\nm\n"].concat();
    assert_eq!(
        commit_signature(SHA1, COMMIT),
        Ok(Some([b"a\nb\n".to_vec(), signed]))
    );
    assert_eq!(
        commit_signature(SHA1, &COMMIT[..150]),
        Err(Error::Malformed)
    );
    assert_eq!(commit_signature(SHA1, b""), Ok(None));
    let tag = b"any\n-----BEGIN SSH SIGNATURE-----\n";
    assert_eq!(tag_signature(tag), Some((&tag[4..], &tag[..4])));
    assert_eq!(tag_signature(b"any"), None);
}
