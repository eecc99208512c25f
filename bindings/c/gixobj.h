/* Proved decoders of git's objects: ids, checks, and the parts of commits, trees and tags. The library is gixobj_c.
 *
 * Each call is pure. It reads its input, writes through its last parameters, keeps nothing, and returns nothing that is
 * to be freed. Calls may run at the same time. No call aborts, prints or waits.
 * Each returns a status. If it is not GIXOBJ_DONE, what the call was to write is unchanged, except for lengths of
 * buffers and counts: the declarations say so.
 *
 * WHAT THE CALLER OWES. Nothing checks any of it:
 *  - A pointer and the length after it are those of one array, which nothing writes during the call. The pointer is not
 *    NULL, even if the length is 0: pass any address then. The length is below 2 to the 63 bytes.
 *  - A pointer to a struct or to a size_t is aligned, and points to initialised memory of that type. Zeros will do.
 *  - What is written overlaps neither the input nor anything else that is written.
 *  - A call that allocates uses malloc, realloc and free of the program. They are of one allocator. Such a call is not
 *    made in a signal handler, nor in the child of a fork of a process with threads.
 *  - The stack has room for the call.
 *  - In the program the names gixobj_* mean these functions alone.
 *
 * The numbers of hash functions and kinds have 8 bits. C converts a larger one without an error: 257 to GIXOBJ_SHA1.
 * gcc and clang report such conversions with -Wconversion.
 */
#ifndef GIXOBJ_H
#define GIXOBJ_H
#include <stddef.h>
#include <stdint.h>
#ifdef __cplusplus
extern "C" {
#endif

/* Hash functions. */
enum gixobj_hash { GIXOBJ_SHA1 = 1, GIXOBJ_SHA256 = 2 };

/* Kinds of objects, with the numbers of gitformat-pack, "Object types". */
enum gixobj_kind { GIXOBJ_COMMIT = 1, GIXOBJ_TREE = 2, GIXOBJ_BLOB = 3, GIXOBJ_TAG = 4 };

/* Statuses. */
enum gixobj_status {
  GIXOBJ_DONE = 0,
  GIXOBJ_AT_END = 1,           /* no byte follows the offset */
  GIXOBJ_MALFORMED = 2,        /* the bytes do not decode */
  GIXOBJ_OUT_OF_MEMORY = 3,
  GIXOBJ_UNKNOWN_CODE = 4,     /* the number of a hash function, a kind or a state is unknown */
  GIXOBJ_BUFFER_TOO_SHORT = 5,
  GIXOBJ_BAD_OFFSET = 6,       /* the offset is after the end */
  GIXOBJ_UNKNOWN_KIND = 7,     /* a loose header has an unknown kind */
  GIXOBJ_INVALID_SIZE = 8,     /* a loose header has an invalid size */
  GIXOBJ_NOT_FOUND = 9,
  GIXOBJ_NOT_ENCODABLE = 10,   /* the object decodes, and one of its values can't be encoded */
  GIXOBJ_MISMATCH = 11         /* the id is another one */
};

/* A piece of the input: len bytes from input + start on. */
typedef struct { size_t start, len; } gixobj_span;

/* Writes the id of an object at the beginning of id: 20 bytes of SHA-1, 32 of SHA-256. The bytes after it are
 * unchanged. DONE, UNKNOWN_CODE, BUFFER_TOO_SHORT. Allocates nothing. */
uint32_t gixobj_id(uint8_t hash, uint8_t kind, const uint8_t *content, size_t content_len, uint8_t *id,
                   size_t id_size);

/* Checks whether id is the id of an object. DONE, MISMATCH, UNKNOWN_CODE. Allocates nothing. */
uint32_t gixobj_verify(uint8_t hash, uint8_t kind, const uint8_t *content, size_t content_len, const uint8_t *id,
                       size_t id_len);

/* Checks whether the bytes are the encoding of an object of this kind. All bytes are the encoding of a blob. The order
 * and the names of a tree's entries are not checked. DONE, MALFORMED, UNKNOWN_CODE. Allocates nothing. */
uint32_t gixobj_check(uint8_t hash, uint8_t kind, const uint8_t *bytes, size_t bytes_len);

/* Decodes the header of a loose object, decompressed: `<kind> <size>` and a zero byte. len is the length of the header.
 * DONE, MALFORMED (no space or no zero byte), UNKNOWN_KIND, INVALID_SIZE. Allocates nothing. */
typedef struct { uint64_t size; size_t len; uint8_t kind; } gixobj_header;
uint32_t gixobj_loose_header(const uint8_t *input, size_t input_len, gixobj_header *out);

/* Decodes the entry of a tree at an offset: begin with 0, and go on with out->next.
 * The mode is the number of its octal digits, modulo 65536; without digits it is 0. For 0140000 to 0147777 it is
 * 040000.
 * Git prints the same number for the modes that it writes: 0100644, 0100755, 0120000, 0160000, 040000. For another mode
 * git prints one of these: 0100644 for 0100664, 0160000 for 0777 and for 0140000.
 * DONE, AT_END, MALFORMED, BAD_OFFSET, UNKNOWN_CODE. Allocates nothing. */
typedef struct { uint32_t mode; gixobj_span name, id; size_t next; } gixobj_entry;
uint32_t gixobj_tree_entry(uint8_t hash, const uint8_t *tree, size_t tree_len, size_t offset, gixobj_entry *out);

/* Decodes entries from an offset on, as many as out has elements, and writes their number to *count. Go on with the
 * next of the last one. Elements after them are unchanged.
 * DONE: all elements are entries. AT_END, MALFORMED, BAD_OFFSET: why no entry follows the *count entries, which are
 * valid. UNKNOWN_CODE: *count is unchanged. Allocates nothing. */
uint32_t gixobj_tree_entries(uint8_t hash, const uint8_t *tree, size_t tree_len, size_t offset, gixobj_entry *out,
                             size_t out_size, size_t *count);

/* Decodes the token of a commit at a cursor, and moves the cursor after it. Begin with a cursor of zeros: the calls up
 * to AT_END then find all lines, in order. If the last token before AT_END is the message, the bytes are the encoding
 * of a commit. Each commit yields such a run.
 * The value of a header is its lines: each with its newline, and a space before each except the first. Only a header
 * has a name; the name of another token is an empty span at its offset.
 * DONE, AT_END, MALFORMED, OUT_OF_MEMORY (only of a header of several lines), BAD_OFFSET, UNKNOWN_CODE. A header of
 * several lines allocates. */
enum gixobj_token_kind {
  GIXOBJ_TOKEN_TREE = 1,
  GIXOBJ_TOKEN_PARENT = 2,
  GIXOBJ_TOKEN_AUTHOR = 3,
  GIXOBJ_TOKEN_COMMITTER = 4,
  GIXOBJ_TOKEN_ENCODING = 5,
  GIXOBJ_TOKEN_HEADER = 6,
  GIXOBJ_TOKEN_MESSAGE = 7
};
typedef struct { size_t offset; uint8_t state; } gixobj_cursor;
typedef struct { uint32_t kind; gixobj_span name, value; } gixobj_token;
uint32_t gixobj_commit_token(uint8_t hash, const uint8_t *commit, size_t commit_len, gixobj_cursor *cursor,
                             gixobj_token *out);

/* Decodes the token of a tag at a cursor, and moves the cursor after it. Begin with a cursor of zeros: the calls up to
 * AT_END then find all tokens, in order. If the token before AT_END is a name, a tagger or its absence, or a body, the
 * bytes are the encoding of a tag. Each tag yields such a run.
 * The value of a target is its id in hex, that of a tagger its line, that of a body its message. An absent tagger is an
 * empty span at its offset; its token comes if other bytes than a tagger line follow the name. Without a signature that
 * of a token is such a span too.
 * DONE, AT_END, MALFORMED, BAD_OFFSET, UNKNOWN_CODE. Allocates nothing. */
enum gixobj_tag_token_kind {
  GIXOBJ_TAG_TARGET = 1,
  GIXOBJ_TAG_TARGET_KIND = 2,
  GIXOBJ_TAG_NAME = 3,
  GIXOBJ_TAG_TAGGER = 4,
  GIXOBJ_TAG_NO_TAGGER = 5,
  GIXOBJ_TAG_BODY = 6
};
typedef struct { uint32_t kind, has_signature; gixobj_span value, signature; } gixobj_tag_parts;
uint32_t gixobj_tag_token(uint8_t hash, const uint8_t *tag, size_t tag_len, gixobj_cursor *cursor,
                          gixobj_tag_parts *out);

/* Writes the value of the first extra header of this name in a commit: `mergetag`, `gpgsig`. The value of several lines
 * has a newline after each, and no space before them. *out_len is its length, also if the buffer is too short. Lines
 * after the header are not decoded.
 * DONE, NOT_FOUND (all lines decode, and none is such a header), MALFORMED (a line up to the header is malformed or,
 * without the header, any line), OUT_OF_MEMORY (only if a header of several lines comes up to this one), UNKNOWN_CODE,
 * BUFFER_TOO_SHORT. Headers of several lines allocate.
 * The bytes may be no commit: lines after the header may be malformed, and bytes without a message, or no bytes at all,
 * are NOT_FOUND. gixobj_check decodes all of them. */
uint32_t gixobj_commit_header(uint8_t hash, const uint8_t *commit, size_t commit_len, const uint8_t *name,
                              size_t name_len, uint8_t *out, size_t out_size, size_t *out_len);

/* Decodes the actor of a line: the value of an author, a committer or a tagger. Bytes after its time are no part of it.
 * If the time is malformed, has_time, seconds and offset are 0. offset is in seconds, positive in the east.
 * DONE, MALFORMED. Allocates nothing. */
typedef struct { gixobj_span name, email, time; int64_t seconds; int32_t offset; uint32_t has_time; } gixobj_actor_parts;
uint32_t gixobj_actor(const uint8_t *line, size_t line_len, gixobj_actor_parts *out);

/* Finds the title and the body of a message: they are split at its first two consecutive line breaks.
 * Always DONE. Allocates nothing. */
typedef struct { gixobj_span title, body; uint32_t has_body; } gixobj_message_parts;
uint32_t gixobj_message(const uint8_t *message, size_t message_len, gixobj_message_parts *out);

/* Writes the title of a message on one line. *out_len is its length, also if the buffer is too short.
 * The title is that of gixobj_message, without the white space at its beginning and end. Its lines are joined by
 * spaces, each without the ASCII white space at its end.
 * `%s` of git log differs. It keeps a space at the beginning, skips empty lines there, and ends before a line of white
 * space. For ` x` it is ` x`, and here `x`. For two newlines and `title` it is `title`, and here it is empty.
 * DONE, OUT_OF_MEMORY, BUFFER_TOO_SHORT. A title of several lines allocates. */
uint32_t gixobj_summary(const uint8_t *message, size_t message_len, uint8_t *out, size_t out_size, size_t *out_len);

/* Writes the token and the value of the trailer at the cursor in a message (git-interpret-trailers), and moves the
 * cursor after it. At the start both numbers of the cursor are 0: the calls yield all trailers, then AT_END. The first
 * call finds the trailer block in the message; each further one reads the lines of its trailer, and those that it skips.
 * Both lengths are written, also if a buffer is too short; then both buffers and the cursor are unchanged.
 * DONE, AT_END, OUT_OF_MEMORY (only for a value of several lines), BUFFER_TOO_SHORT, BAD_OFFSET, UNKNOWN_CODE (a state
 * other than 0 and 1). A value of several lines allocates. */
uint32_t gixobj_trailer(const uint8_t *message, size_t message_len, gixobj_cursor *cursor, uint8_t *token,
                        size_t token_size, size_t *token_len, uint8_t *value, size_t value_size, size_t *value_len);

/* Finds the signature of a tag, which signs all bytes before it. DONE, NOT_FOUND. Allocates nothing. */
uint32_t gixobj_tag_signature(const uint8_t *tag, size_t tag_len, gixobj_span *out);

/* Writes the signature of a commit (`gpgsig`, of SHA-256 `gpgsig-sha256`), and what it signs: all bytes except those of
 * its header. Both lengths are written, also if a buffer is too short; then both buffers are unchanged.
 * DONE, NOT_FOUND, MALFORMED, OUT_OF_MEMORY (only if there is a signature, or a header of several lines before any
 * fault), UNKNOWN_CODE, BUFFER_TOO_SHORT. A signature and headers of several lines allocate.
 * The bytes may be no commit, as those of gixobj_commit_header. */
uint32_t gixobj_commit_signature(uint8_t hash, const uint8_t *commit, size_t commit_len, uint8_t *signature,
                                 size_t signature_size, size_t *signature_len, uint8_t *signed_bytes,
                                 size_t signed_size, size_t *signed_len);

#ifdef __cplusplus
}
#endif
#endif
