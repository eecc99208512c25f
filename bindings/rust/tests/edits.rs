//! Edits of trees, with the feature `edit`.
#![cfg(feature = "edit")]
use cinguepo::{EditError, HashKind, Kind, edit, edit_with, id};
use std::collections::HashMap;

const SHA1: HashKind = HashKind::Sha1;

/// Ids are those that `git update-index` and `git write-tree` print.
#[test]
fn edits_write_the_trees_of_git() {
    let hex = |id: &[u8]| -> String { id.iter().map(|it| format!("{it:02x}")).collect() };
    let empty = id(SHA1, Kind::Tree, b"");
    let add = b"upsert blob ce013625030ba8dba906f756967f9e9ca394464a a/b\n";
    let first = edit(SHA1, &[], empty.as_bytes(), add).unwrap();
    assert_eq!(hex(&first.id), "5402bd8062856e83ade50b9be4aafcb8717cc232");
    let ids: Vec<_> = first
        .trees
        .iter()
        .map(|it| id(SHA1, Kind::Tree, it).to_string())
        .collect();
    assert_eq!(
        ids,
        [
            "f09792be40f18f537c28b624b7bc7771f25082e1",
            "5402bd8062856e83ade50b9be4aafcb8717cc232"
        ]
    );
    let trees: Vec<&[u8]> = first.trees.iter().map(Vec::as_slice).collect();
    let change = b"upsert exe ce013625030ba8dba906f756967f9e9ca394464a a/c\nremove a/b";
    let second = edit(SHA1, &trees, &first.id, change).unwrap();
    assert_eq!(hex(&second.id), "5801a01ad62e76ee2fc8231fcc071a628b406269");
    assert_eq!(
        edit(SHA1, &trees, &first.id, b"remove a").unwrap().id,
        empty.as_bytes()
    );
    let directory = id(SHA1, Kind::Tree, trees[0]).as_bytes().to_vec();
    assert_eq!(
        edit(SHA1, &trees[1..], &first.id, change),
        Err(EditError::Missing(vec![directory]))
    );
    assert_eq!(
        edit(SHA1, &[], &first.id, b""),
        Err(EditError::Missing(vec![first.id.clone()]))
    );
    let failures: [(&[u8], EditError); 6] = [
        (b"\nx", EditError::BadLine(2)),
        (b"\nremove b\nat a/ write", EditError::InvalidName(2)),
        (b"remove a/", EditError::InvalidName(1)),
        (b"leaf a", EditError::IsDirectory(1)),
        (
            b"upsert blob ce013625030ba8dba906f756967f9e9ca394464a \0",
            EditError::NotEncodable,
        ),
        (b"upsert blob ce01 b", EditError::BadLine(1)),
    ];
    for (script, error) in failures {
        assert_eq!(edit(SHA1, &trees, &first.id, script), Err(error));
    }
    assert_eq!(edit(SHA1, &trees, b"short", b""), Err(EditError::Malformed));
    assert_eq!(
        edit(
            SHA1,
            &[b"x"],
            &id(SHA1, Kind::Tree, b"x").as_bytes().to_vec(),
            b""
        ),
        Err(EditError::MalformedTree(0))
    );
}

/// Each tree is looked up once, and those that aren't found are named.
#[test]
fn edits_look_up_trees() {
    let lines = |kind| -> String {
        (0..400)
            .map(|n| format!("upsert {kind} ce013625030ba8dba906f756967f9e9ca394464a d{n}/f{n}\n"))
            .collect()
    };
    let first = edit(SHA1, &[], &[0; 20], lines("blob").as_bytes()).unwrap();
    let known: HashMap<_, _> = first
        .trees
        .iter()
        .map(|it| (id(SHA1, Kind::Tree, it).as_bytes().to_vec(), it.clone()))
        .collect();
    let trees: Vec<&[u8]> = first.trees.iter().map(Vec::as_slice).collect();
    let (root, script) = (&first.id, lines("exe"));
    let mut asked = Vec::new();
    let found = edit_with(SHA1, &[], root, script.as_bytes(), |id| {
        asked.push(id.to_vec());
        known.get(id).cloned()
    });
    assert_eq!(found, edit(SHA1, &trees, root, script.as_bytes()));
    asked.sort();
    asked.dedup();
    assert_eq!((asked.len(), &asked[0] <= root), (401, true));
    let last = &trees[trees.len() - 1..];
    let Err(EditError::Missing(missing)) = edit(SHA1, last, root, script.as_bytes()) else {
        panic!("no missing trees")
    };
    assert_eq!(missing.len(), 400);
    let other = edit_with(SHA1, last, root, script.as_bytes(), |id| {
        Some(if id == missing[7] {
            vec![]
        } else {
            known[id].clone()
        })
    });
    assert_eq!(other, Err(EditError::Missing(vec![missing[7].clone()])));
}

/// Git writes no mode 140755: such a tree isn't written with another mode, 040755.
#[test]
fn lossy_trees_are_rejected() {
    let tree = b"140755 a\0ABCDEFGHIJKLMNOPQRST";
    let lossy = id(SHA1, Kind::Tree, tree).as_bytes().to_vec();
    assert_eq!(
        edit(SHA1, &[tree], &lossy, b""),
        Err(EditError::LossyTree(lossy))
    );
}

/// Of several faults the first counts: the root, the first bad line, the first command that fails.
#[test]
fn the_first_fault_is_returned() {
    let other = vec![1; 20];
    assert_eq!(
        edit(SHA1, &[], &other, b"x"),
        Err(EditError::Missing(vec![other]))
    );
    assert_eq!(edit(SHA1, &[], b"short", b"x"), Err(EditError::Malformed));
    assert_eq!(
        edit(SHA1, &[], &[0; 20], b"remove /\n\nx\ny"),
        Err(EditError::BadLine(3))
    );
    let tree = b"40000 a\0ABCDEFGHIJKLMNOPQRST";
    let root = id(SHA1, Kind::Tree, tree);
    assert_eq!(
        edit(SHA1, &[tree], root.as_bytes(), b"remove /\nremove a/b"),
        Err(EditError::InvalidName(1))
    );
    assert_eq!(
        edit(SHA1, &[tree], root.as_bytes(), b"remove a/b\nremove /"),
        Err(EditError::Missing(vec![b"ABCDEFGHIJKLMNOPQRST".to_vec()]))
    );
}

/// Ids are those that `git write-tree` prints after the same edits.
#[test]
fn writes_of_a_script_emit_each_root() {
    let add = "at a upsert blob ce013625030ba8dba906f756967f9e9ca394464a b\n\
               at a upsert exe ce013625030ba8dba906f756967f9e9ca394464a c\n";
    let fresh = "root\nupsert blob ce013625030ba8dba906f756967f9e9ca394464a x";
    let (both, one) = (
        "da514ea5341738d481683bda23ea402ea2361974",
        "5801a01ad62e76ee2fc8231fcc071a628b406269",
    );
    let (both_below, one_below) = (
        "6fde82ce7815e720882d2133da12f0e72d37fa93",
        "ae155f240307f709c47cfd6e80ae9001969680fc",
    );
    let new = "e31a96220fbfbe7601ecc086a36b96dc27a8867e";
    let scripts: [(String, &[&str]); 4] = [
        (
            format!("{add}write\nat a leaf b"),
            &[both_below, both, one_below, one],
        ),
        (format!("{add}at a write"), &[both_below, both_below, both]),
        (format!("{add}{fresh}"), &[new]),
        (format!("{fresh}\nwrite"), &[new, new]),
    ];
    for (script, ids) in scripts {
        let edited = edit(SHA1, &[], &[0; 20], script.as_bytes()).unwrap();
        let all: Vec<_> = edited
            .trees
            .iter()
            .map(|it| id(SHA1, Kind::Tree, it).to_string())
            .collect();
        assert_eq!(all, ids);
        let root = edited.trees.last().unwrap();
        assert_eq!(id(SHA1, Kind::Tree, root).as_bytes(), edited.id);
    }
}
