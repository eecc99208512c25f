//! Edits of trees.
use crate::{HashKind, Kind, id, loose_header, raw};
use std::collections::HashSet;
use std::fmt;

/// The result of [`edit`].
#[derive(Clone, Debug, PartialEq, Eq)]
pub struct Edited {
    /// The bytes of the new root's id.
    pub id: Vec<u8>,
    /// The new trees, in the order in which the writes emit them, the root last.
    pub trees: Vec<Vec<u8>>,
}

/// Why [`edit`] fails. Numbers of commands begin with 1, and count no empty lines.
#[derive(Clone, Debug, PartialEq, Eq)]
pub enum EditError {
    /// The trees with these ids are missing, each named once.
    Missing(Vec<Vec<u8>>),
    /// The line with this number, from 1, is neither empty nor a command.
    BadLine(u64),
    /// A path of the command with this number has an empty name.
    InvalidName(u64),
    /// The command with this number removes a directory as a leaf.
    IsDirectory(u64),
    /// A tree that the command with this number looks up is malformed, or with 0 the root.
    MalformedTree(u64),
    /// A name has a zero byte.
    NotEncodable,
    /// The encoding of the tree with this id doesn't decode to it, as with a mode of 140755.
    LossyTree(Vec<u8>),
    /// The root has not the length of an id.
    Malformed,
    /// An allocation failed.
    OutOfMemory,
}

impl fmt::Display for EditError {
    fn fmt(&self, f: &mut fmt::Formatter<'_>) -> fmt::Result {
        match self {
            EditError::Missing(ids) => {
                f.write_str("a missing tree:")?;
                ids.iter().try_for_each(|id| {
                    f.write_str(" ")?;
                    id.iter().try_for_each(|byte| write!(f, "{byte:02x}"))
                })
            }
            EditError::BadLine(number) => write!(f, "line {number} is no command"),
            EditError::InvalidName(number) => write!(f, "an empty name in command {number}"),
            EditError::IsDirectory(number) => write!(f, "a directory in command {number}"),
            EditError::MalformedTree(number) => write!(f, "a malformed tree in command {number}"),
            EditError::LossyTree(id) => {
                f.write_str("a tree with a mode that can't be encoded: ")?;
                id.iter().try_for_each(|byte| write!(f, "{byte:02x}"))
            }
            EditError::NotEncodable => f.write_str("a name with a zero byte"),
            EditError::Malformed => f.write_str("a malformed id"),
            EditError::OutOfMemory => f.write_str("out of memory"),
        }
    }
}

impl std::error::Error for EditError {}

/// Runs a script on a root, then writes the root, and returns the new trees, as `git update-index` and
/// `git write-tree`.
///
/// `trees` has the root and the trees on the paths that are edited; [`edit_with`] looks them up. The id of the empty
/// tree is that of a root without entries. The lines of the script are `upsert KIND ID PATH`, `remove PATH`,
/// `leaf PATH`, `write`, `root` and `at PREFIX LINE`, as `gixobj help` describes them.
///
/// # Errors
///
/// [`EditError::Missing`] with the ids of trees that `trees` lacks: each command names the first that it lacks.
/// The others say what is wrong with the trees, the root or the script.
pub fn edit(
    hash: HashKind,
    trees: &[&[u8]],
    root: &[u8],
    script: &[u8],
) -> Result<Edited, EditError> {
    run(hash, &frames(trees), root, script)
}

/// As [`edit`], with trees that `find` looks up by their ids, each once. A call of the library names all that the
/// script lacks at the next level of its paths.
///
/// # Errors
///
/// [`EditError::Missing`] with the ids of trees that `find` doesn't find. The others are those of [`edit`].
pub fn edit_with(
    hash: HashKind,
    trees: &[&[u8]],
    root: &[u8],
    script: &[u8],
    mut find: impl FnMut(&[u8]) -> Option<Vec<u8>>,
) -> Result<Edited, EditError> {
    let mut given = frames(trees);
    loop {
        let missing = match run(hash, &given, root, script) {
            Err(EditError::Missing(missing)) => missing,
            done => return done,
        };
        let mut absent = Vec::new();
        for it in missing {
            match find(&it) {
                Some(tree) if id(hash, Kind::Tree, &tree).as_bytes() == it => {
                    append_frame(&mut given, &tree)
                }
                _ => absent.push(it),
            }
        }
        if !absent.is_empty() {
            return Err(EditError::Missing(absent));
        }
    }
}

fn frames(trees: &[&[u8]]) -> Vec<u8> {
    let mut frames = Vec::new();
    trees
        .iter()
        .for_each(|tree| append_frame(&mut frames, tree));
    frames
}

fn append_frame(frames: &mut Vec<u8>, tree: &[u8]) {
    frames.extend(format!("tree {}\0", tree.len()).into_bytes());
    frames.extend(tree);
}

fn run(hash: HashKind, frames: &[u8], root: &[u8], script: &[u8]) -> Result<Edited, EditError> {
    let lines = script.iter().filter(|byte| **byte == b'\n').count();
    let mut out = vec![0; frames.len() + script.len()];
    let mut id = vec![0; 32 * (lines + 2)];
    loop {
        let (mut out_len, mut id_len, mut number) = (0, 0, 0);
        // SAFETY: as in `id`; the buffers and the numbers are apart.
        let status = unsafe {
            raw::gixobj_edit(
                hash as u8,
                frames.as_ptr(),
                frames.len(),
                root.as_ptr(),
                root.len(),
                script.as_ptr(),
                script.len(),
                out.as_mut_ptr(),
                out.len(),
                &mut out_len,
                id.as_mut_ptr(),
                id.len(),
                &mut id_len,
                &mut number,
            )
        };
        match status {
            0 => {
                id.truncate(id_len);
                return Ok(Edited {
                    id,
                    trees: contents(&out[..out_len]),
                });
            }
            5 => out.resize(out_len, 0),
            9 => return Err(EditError::Missing(distinct(&id[..id_len], root.len()))),
            17 => return Err(EditError::LossyTree(id[..id_len].to_vec())),
            status => return Err(error_of(status, number)),
        }
    }
}

/// Returns the ids of this length, each once.
fn distinct(ids: &[u8], len: usize) -> Vec<Vec<u8>> {
    let mut seen = HashSet::new();
    let each = ids.chunks(len).filter(|id| seen.insert(*id));
    each.map(<[u8]>::to_vec).collect()
}

/// Returns the trees in frames that the library wrote.
fn contents(mut frames: &[u8]) -> Vec<Vec<u8>> {
    let mut trees = Vec::new();
    while !frames.is_empty() {
        let (_, size, len) = loose_header(frames).expect("a frame");
        let (tree, rest) = frames[len..].split_at(size as usize);
        trees.push(tree.to_vec());
        frames = rest;
    }
    trees
}

fn error_of(status: u32, number: u64) -> EditError {
    match status {
        2 => EditError::Malformed,
        3 => EditError::OutOfMemory,
        10 => EditError::NotEncodable,
        12 => EditError::BadLine(number),
        14 => EditError::InvalidName(number),
        15 => EditError::IsDirectory(number),
        16 => EditError::MalformedTree(number),
        _ => unreachable!("status {status}"),
    }
}
