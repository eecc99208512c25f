//! The entries of trees.
use crate::{Error, HashKind, piece, raw};

/// An entry of a tree, borrowed from its encoding.
#[derive(Clone, Copy, Debug, PartialEq, Eq)]
pub struct Entry<'a> {
    /// The mode, the number of its octal digits: `0o100644`. For 140000 to 147777 it is `0o040000`.
    pub mode: u32,
    /// The name.
    pub name: &'a [u8],
    /// The bytes of the id.
    pub id: &'a [u8],
}

/// An iterator over the entries of a tree. After an error it yields nothing.
#[derive(Clone, Debug)]
pub struct Entries<'a> {
    hash: HashKind,
    tree: &'a [u8],
    offset: usize,
}

/// Returns an iterator over the entries of a tree's encoding.
///
/// ```
/// use cinguepo::{HashKind, entries};
/// let tree = [&b"100644 a\0"[..], &[7; 20]].concat();
/// let names: Vec<_> = entries(HashKind::Sha1, &tree).map(|it| it.unwrap().name).collect();
/// assert_eq!(names, [b"a"]);
/// ```
pub fn entries(hash: HashKind, tree: &[u8]) -> Entries<'_> {
    Entries {
        hash,
        tree,
        offset: 0,
    }
}

impl<'a> Iterator for Entries<'a> {
    type Item = Result<Entry<'a>, Error>;

    fn next(&mut self) -> Option<Self::Item> {
        let mut out = raw::TreeEntry::default();
        // SAFETY: as in `id`; `out` is initialised.
        let status = unsafe {
            raw::gixobj_tree_entry(
                self.hash as u8,
                self.tree.as_ptr(),
                self.tree.len(),
                self.offset,
                &mut out,
            )
        };
        match status {
            0 => {
                self.offset = out.next;
                Some(Ok(Entry {
                    mode: out.mode,
                    name: piece(self.tree, out.name),
                    id: piece(self.tree, out.id),
                }))
            }
            1 => None,
            status => {
                self.offset = self.tree.len();
                Some(Err(Error::of_status(status)))
            }
        }
    }
}

/// Decodes all entries of a tree, with one call for each 64 of them.
///
/// # Errors
///
/// [`Error::Malformed`] if the bytes are not the encoding of a tree.
pub fn all_entries(hash: HashKind, tree: &[u8]) -> Result<Vec<Entry<'_>>, Error> {
    let mut out = [raw::TreeEntry::default(); 64];
    let (mut found, mut offset, mut count) = (Vec::new(), 0, 0);
    loop {
        // SAFETY: as in `id`; the entries and the count are initialised, and apart.
        let status = unsafe {
            raw::gixobj_tree_entries(
                hash as u8,
                tree.as_ptr(),
                tree.len(),
                offset,
                out.as_mut_ptr(),
                out.len(),
                &mut count,
            )
        };
        for entry in &out[..count] {
            offset = entry.next;
            found.push(Entry {
                mode: entry.mode,
                name: piece(tree, entry.name),
                id: piece(tree, entry.id),
            });
        }
        match status {
            0 => continue,
            1 => return Ok(found),
            status => return Err(Error::of_status(status)),
        }
    }
}
