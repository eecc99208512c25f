/* Proved edits of git's trees. The library is gixobj_c_edit. What the caller owes is in gixobj.h.
 *
 * The call is pure, as those of gixobj.h: it reads its input, writes through its last parameters, and keeps nothing.
 */
#ifndef GIXOBJ_EDIT_H
#define GIXOBJ_EDIT_H
#include "gixobj.h"
#ifdef __cplusplus
extern "C" {
#endif

/* Further statuses, which enum gixobj_status does not have. */
enum gixobj_edit_status {
  GIXOBJ_BAD_LINE = 12,       /* a line of the script is neither empty nor a command */
  GIXOBJ_INVALID_NAME = 14,   /* a name of a path is empty */
  GIXOBJ_IS_DIRECTORY = 15,   /* the path of a `leaf` is that of a directory */
  GIXOBJ_MALFORMED_TREE = 16, /* a tree does not decode, or its entries are not in git's order with valid names */
  GIXOBJ_LOSSY_TREE = 17      /* the encoding of a tree does not decode to it, as with a mode of 140755 */
};

/* Runs a script on a root, and then writes the root: the trees that change, as git update-index and git write-tree.
 *
 * Trees are passed as frames, one after another. A frame is a loose object without compression: `tree <size>`, a zero
 * byte, and that many bytes, which are the tree. The id of a tree is the digest of its frame. The trees that the edits
 * look up are enough: the root, and those on the paths.
 * The root is an id of 20 or 32 bytes. The id of the empty tree and the null id are those of a root without entries.
 * A script has the lines of `gixobj edit`:
 * - `upsert KIND ID PATH`, with a kind of tree, blob, exe, link, commit and an id in hex; `remove PATH`; `leaf PATH`, of
 *   anything but a directory;
 * - `write`, of the root as it is then; `root`, for a new root without entries;
 * - `at PREFIX LINE`, for one of these except `root`, in the directory PREFIX, which is made if it is missing.
 * `/` separates the names of a path. PREFIX has no space.
 *
 * DONE: out has the frames of the new trees, in the order in which the writes emit them: those of the last write come
 * last, and its root ends them. A tree that several writes emit has a frame for each: the root, if the script ends with
 * `write`. id has the last root's id. *number is unchanged. Each new tree decodes to the entries that were written, so
 * gixobj_check accepts it.
 * BUFFER_TOO_SHORT: *out_len and *id_len are the lengths that are needed. Of missing or lossy trees *out_len is
 * unchanged.
 * NOT_FOUND: trees are missing. id has their ids, one after another, and *id_len is their length in bytes. A command
 * that fails changes no file, and those after it are run: each names the first tree that it lacks. So an id may come
 * more than once, or be that of a tree that a later line makes needless. Add their frames to the trees, and call again.
 * There are at most as many such answers as the deepest path has directories, the root included. id has room enough
 * with an id for each line.
 * LOSSY_TREE: id has the id of a tree that is looked up. Writing would change it: `gixobj edit` writes a mode of 140755
 * as 040755. If no such tree is looked up, it is the id of a new tree, and *number is that of the last write.
 * BAD_LINE: *number is that of the line, from 1.
 * INVALID_NAME, IS_DIRECTORY, MALFORMED_TREE, LOSSY_TREE, NOT_ENCODABLE (a name with a zero byte), NOT_FOUND: *number
 * is that of the first command that fails, from 1, without empty lines. That of the last write is one more than the
 * number of commands, and that of the root 0.
 * MALFORMED: the trees are no frames, or the root has not the length of an id; *number is 0.
 * OUT_OF_MEMORY: *number is 0, or that of the first command that fails, or of the last write.
 * UNKNOWN_CODE: all is unchanged. Allocates.
 * Of several faults the first counts: the trees are no frames, there is no root, a line is bad, a command fails. */
uint32_t gixobj_edit(uint8_t hash, const uint8_t *trees, size_t trees_len, const uint8_t *root, size_t root_len,
                     const uint8_t *script, size_t script_len, uint8_t *out, size_t out_size, size_t *out_len,
                     uint8_t *id, size_t id_size, size_t *id_len, uint64_t *number);

#ifdef __cplusplus
}
#endif
#endif
