/* Calls each function once, and compares with what git prints. Prints `ok`, or what differs, with status 1. */
#include "gixobj.h"
#include "gixobj_edit.h"
#include "gixobj_fsck.h"
#include "gixobj_reencode.h"
#include <stdio.h>
#include <string.h>

#define WANT(it) do { if (!(it)) { printf("%s:%d: not %s\n", __FILE__, __LINE__, #it); return 1; } } while (0)
#define BYTES(it) (const uint8_t *)(it), sizeof(it) - 1

static const char commit[] =
    "tree 4b825dc642cb6eb9a060e54bf8d69288fbee4904\n"
    "author A <a@b> 0 +0000\ncommitter A <a@b> 0 +0000\n"
    "gpgsig a\n b\n\nm\n\nbody\n\nAcked-by: B\n  C\n";
static const char tree[] = "100644 a\0aaaaaaaaaaaaaaaaaaaa40000 b\0bbbbbbbbbbbbbbbbbbbb";

static const char tag[] =
    "object 4b825dc642cb6eb9a060e54bf8d69288fbee4904\ntype tree\ntag v1\ntagger A <a@b> 0 +0000\n\n"
    "m\n-----BEGIN PGP SIGNATURE-----\n";

static int ids(void) {
  uint8_t id[20];
  /* printf 'hello\n' | git hash-object --stdin */
  static const uint8_t hello[20] = {0xce, 0x01, 0x36, 0x25, 0x03, 0x0b, 0xa8, 0xdb, 0xa9, 0x06,
                                    0xf7, 0x56, 0x96, 0x7f, 0x9e, 0x9c, 0xa3, 0x94, 0x46, 0x4a};
  WANT(gixobj_id(GIXOBJ_SHA1, GIXOBJ_BLOB, BYTES("hello\n"), id, 20) == GIXOBJ_DONE);
  WANT(!memcmp(id, hello, 20));
  WANT(gixobj_id(GIXOBJ_SHA1, GIXOBJ_BLOB, BYTES("hello\n"), id, 19) == GIXOBJ_BUFFER_TOO_SHORT);
  WANT(gixobj_id(3, GIXOBJ_BLOB, BYTES("hello\n"), id, 20) == GIXOBJ_UNKNOWN_CODE);
  WANT(gixobj_id(GIXOBJ_SHA1, 5, BYTES("hello\n"), id, 20) == GIXOBJ_UNKNOWN_CODE);
  WANT(gixobj_verify(GIXOBJ_SHA1, GIXOBJ_BLOB, BYTES("hello\n"), id, 20) == GIXOBJ_DONE);
  WANT(gixobj_verify(GIXOBJ_SHA1, GIXOBJ_BLOB, BYTES("hello"), id, 20) == GIXOBJ_MISMATCH);
  WANT(gixobj_verify(GIXOBJ_SHA1, GIXOBJ_BLOB, BYTES("hello\n"), id, 19) == GIXOBJ_MISMATCH);
  WANT(gixobj_check(GIXOBJ_SHA1, GIXOBJ_COMMIT, BYTES(commit)) == GIXOBJ_DONE);
  WANT(gixobj_check(GIXOBJ_SHA1, GIXOBJ_COMMIT, BYTES("tree x\n")) == GIXOBJ_MALFORMED);
  WANT(gixobj_check(GIXOBJ_SHA1, GIXOBJ_TREE, BYTES("")) == GIXOBJ_DONE);
  return 0;
}

static int headers(void) {
  gixobj_header header = {0, 0, 0};
  WANT(gixobj_loose_header(BYTES("blob 6\0hello\n"), &header) == GIXOBJ_DONE);
  WANT(header.kind == GIXOBJ_BLOB && header.size == 6 && header.len == 7);
  WANT(gixobj_loose_header(BYTES("blab 6\0"), &header) == GIXOBJ_UNKNOWN_KIND && header.len == 7);
  WANT(gixobj_loose_header(BYTES("blob x\0"), &header) == GIXOBJ_INVALID_SIZE);
  WANT(gixobj_loose_header(BYTES("blob"), &header) == GIXOBJ_MALFORMED);
  return 0;
}

static int entries(void) {
  gixobj_entry entry, all[3];
  size_t count = 9, end = sizeof tree - 1;
  memset(&entry, 0, sizeof entry);
  memset(all, 0, sizeof all);
  WANT(gixobj_tree_entry(GIXOBJ_SHA1, BYTES(tree), 0, &entry) == GIXOBJ_DONE);
  WANT(entry.mode == 0100644 && entry.name.len == 1 && tree[entry.name.start] == 'a');
  WANT(entry.id.len == 20 && tree[entry.id.start] == 'a');
  WANT(gixobj_tree_entry(GIXOBJ_SHA1, BYTES(tree), entry.next, &entry) == GIXOBJ_DONE);
  WANT(entry.mode == 040000 && tree[entry.name.start] == 'b' && entry.next == end);
  WANT(gixobj_tree_entry(GIXOBJ_SHA1, BYTES(tree), end, &entry) == GIXOBJ_AT_END);
  WANT(gixobj_tree_entry(GIXOBJ_SHA1, BYTES(tree), end + 1, &entry) == GIXOBJ_BAD_OFFSET);
  WANT(gixobj_tree_entry(GIXOBJ_SHA1, BYTES(tree), 7, &entry) == GIXOBJ_MALFORMED);
  WANT(gixobj_tree_entries(GIXOBJ_SHA1, BYTES(tree), 0, all, 3, &count) == GIXOBJ_AT_END);
  WANT(count == 2 && all[0].mode == 0100644 && all[1].next == end && all[2].next == 0);
  WANT(gixobj_tree_entries(GIXOBJ_SHA1, BYTES(tree), 0, all, 2, &count) == GIXOBJ_DONE && count == 2);
  WANT(gixobj_tree_entries(GIXOBJ_SHA1, BYTES(tree), 7, all, 3, &count) == GIXOBJ_MALFORMED && count == 0);
  return 0;
}

/* The modes of numbers that git does not write. git ls-tree prints 100644, 160000 and 160000. */
static int modes(void) {
  static const char other[] = "100664 a\0aaaaaaaaaaaaaaaaaaaa777 b\0bbbbbbbbbbbbbbbbbbbb140000 c\0cccccccccccccccccccc";
  gixobj_entry all[4];
  size_t count = 0;
  memset(all, 0, sizeof all);
  WANT(gixobj_tree_entries(GIXOBJ_SHA1, BYTES(other), 0, all, 4, &count) == GIXOBJ_AT_END && count == 3);
  WANT(all[0].mode == 0100664 && all[1].mode == 0777 && all[2].mode == 040000);
  return 0;
}

static int tokens(void) {
  gixobj_cursor cursor = {0, 0};
  gixobj_token token;
  gixobj_message_parts parts;
  uint32_t kinds[8], n = 0;
  memset(&token, 0, sizeof token);
  memset(&parts, 0, sizeof parts);
  while (gixobj_commit_token(GIXOBJ_SHA1, BYTES(commit), &cursor, &token) == GIXOBJ_DONE) {
    kinds[n++] = token.kind;
    if (token.kind == GIXOBJ_TOKEN_HEADER)
      WANT(token.name.len == 6 && token.value.len == 5 && !memcmp(commit + token.value.start, "a\n b\n", 5));
  }
  WANT(n == 5 && kinds[0] == 1 && kinds[1] == 3 && kinds[2] == 4 && kinds[3] == 6 && kinds[4] == 7);
  WANT(cursor.offset == sizeof commit - 1);
  cursor.offset++;
  WANT(gixobj_commit_token(GIXOBJ_SHA1, BYTES(commit), &cursor, &token) == GIXOBJ_BAD_OFFSET);
  cursor.state = 9;
  WANT(gixobj_commit_token(GIXOBJ_SHA1, BYTES(commit), &cursor, &token) == GIXOBJ_UNKNOWN_CODE);
  WANT(gixobj_message((const uint8_t *)commit + token.value.start, token.value.len, &parts) == GIXOBJ_DONE);
  WANT(parts.title.len == 1 && parts.has_body && parts.body.start == 3);
  return 0;
}

static int tag_tokens(void) {
  gixobj_cursor cursor = {0, 0};
  gixobj_tag_parts parts;
  uint32_t n = 0;
  memset(&parts, 0, sizeof parts);
  while (gixobj_tag_token(GIXOBJ_SHA1, BYTES(tag), &cursor, &parts) == GIXOBJ_DONE) {
    n++;
    if (parts.kind == GIXOBJ_TAG_TARGET)
      WANT(parts.value.start == 7 && parts.value.len == 40);
    if (parts.kind == GIXOBJ_TAG_TARGET_KIND)
      WANT(parts.value.len == 4 && !memcmp(tag + parts.value.start, "tree", 4));
    if (parts.kind == GIXOBJ_TAG_TAGGER)
      WANT(parts.value.len == 15 && !memcmp(tag + parts.value.start, "A <a@b> 0 +0000", 15));
  }
  WANT(n == 5 && parts.kind == GIXOBJ_TAG_BODY && parts.has_signature == 1 && parts.value.len == 1);
  WANT(tag[parts.value.start] == 'm' && parts.signature.start + parts.signature.len == sizeof tag - 1);
  WANT(tag[parts.signature.start - 1] == '\n' && parts.signature.len == 30);
  cursor.offset = cursor.state = 0;
  WANT(gixobj_tag_token(GIXOBJ_SHA256, BYTES(tag), &cursor, &parts) == GIXOBJ_MALFORMED && parts.kind == 6);
  cursor.state = 6;
  WANT(gixobj_tag_token(GIXOBJ_SHA1, BYTES(tag), &cursor, &parts) == GIXOBJ_UNKNOWN_CODE);
  return 0;
}

static int named_headers(void) {
  uint8_t out[8];
  size_t len = 0;
  memset(out, 'x', 8);
  WANT(gixobj_commit_header(GIXOBJ_SHA1, BYTES(commit), BYTES("gpgsig"), out, 3, &len) == GIXOBJ_BUFFER_TOO_SHORT);
  WANT(len == 4 && out[0] == 'x');
  WANT(gixobj_commit_header(GIXOBJ_SHA1, BYTES(commit), BYTES("gpgsig"), out, 8, &len) == GIXOBJ_DONE);
  WANT(len == 4 && !memcmp(out, "a\nb\nxxxx", 8));
  WANT(gixobj_commit_header(GIXOBJ_SHA1, BYTES(commit), BYTES("tree"), out, 8, &len) == GIXOBJ_NOT_FOUND && len == 4);
  WANT(gixobj_commit_header(GIXOBJ_SHA1, BYTES("tree x\n"), BYTES("a"), out, 8, &len) == GIXOBJ_MALFORMED);
  /* the first line of a commit, and no bytes */
  WANT(gixobj_commit_header(GIXOBJ_SHA1, (const uint8_t *)commit, 46, BYTES("a"), out, 8, &len) == GIXOBJ_NOT_FOUND);
  WANT(gixobj_commit_header(GIXOBJ_SHA1, BYTES(""), BYTES("a"), out, 8, &len) == GIXOBJ_NOT_FOUND && len == 4);
  return 0;
}

static int buffers(void) {
  uint8_t out[64], more[256];
  size_t len = 0, more_len = 0;
  WANT(gixobj_reencode(GIXOBJ_SHA1, GIXOBJ_TREE, BYTES(tree), out, 64, &len) == GIXOBJ_DONE);
  WANT(len == sizeof tree - 1 && !memcmp(out, tree, len));
  WANT(gixobj_reencode(GIXOBJ_SHA1, GIXOBJ_TREE, BYTES(tree), out, 3, &len) == GIXOBJ_BUFFER_TOO_SHORT);
  WANT(len == sizeof tree - 1 && !memcmp(out, tree, len));
  WANT(gixobj_summary(BYTES("a\nb\n\nc"), out, 64, &len) == GIXOBJ_DONE && len == 3 && !memcmp(out, "a b", 3));
  WANT(gixobj_summary(BYTES(" x"), out, 64, &len) == GIXOBJ_DONE && len == 1 && out[0] == 'x');
  WANT(gixobj_summary(BYTES("\n\ntitle"), out, 64, &len) == GIXOBJ_DONE && len == 0);
  gixobj_cursor at = {0, 0};
  WANT(gixobj_trailer(BYTES(commit), &at, out, 7, &len, more, 256, &more_len) == GIXOBJ_BUFFER_TOO_SHORT);
  WANT(at.offset == 0 && at.state == 0 && len == 8 && more_len == 3);
  WANT(gixobj_trailer(BYTES(commit), &at, out, 64, &len, more, 256, &more_len) == GIXOBJ_DONE);
  WANT(len == 8 && !memcmp(out, "Acked-by", 8) && more_len == 3 && !memcmp(more, "B C", 3));
  WANT(gixobj_trailer(BYTES(commit), &at, out, 64, &len, more, 256, &more_len) == GIXOBJ_AT_END && len == 8);
  at.state = 2;
  WANT(gixobj_trailer(BYTES(commit), &at, out, 64, &len, more, 256, &more_len) == GIXOBJ_UNKNOWN_CODE);
  at = (gixobj_cursor){sizeof commit, 1};
  WANT(gixobj_trailer(BYTES(commit), &at, out, 64, &len, more, 256, &more_len) == GIXOBJ_BAD_OFFSET);
  WANT(gixobj_commit_signature(GIXOBJ_SHA1, BYTES(commit), out, 64, &len, more, 256, &more_len) == GIXOBJ_DONE);
  WANT(len == 4 && !memcmp(out, "a\nb\n", 4) && more_len == sizeof commit - 1 - 12);
  memset(out, 'x', 64);
  WANT(gixobj_commit_signature(GIXOBJ_SHA1, BYTES(commit), out, 64, &len, more, 2, &more_len) ==
       GIXOBJ_BUFFER_TOO_SHORT);
  WANT(len == 4 && out[0] == 'x' && more_len == sizeof commit - 1 - 12);
  return 0;
}

/* The ids are those that git update-index and git write-tree print. */
static int edits(void) {
  static const uint8_t none[20] = {0};
  static const uint8_t first[20] = {0x54, 0x02, 0xbd, 0x80, 0x62, 0x85, 0x6e, 0x83, 0xad, 0xe5,
                                    0x0b, 0x9b, 0xe4, 0xaa, 0xfc, 0xb8, 0x71, 0x7c, 0xc2, 0x32};
  static const uint8_t second[20] = {0x58, 0x01, 0xa0, 0x1a, 0xd6, 0x2e, 0x76, 0xee, 0x2f, 0xc8,
                                     0x23, 0x1f, 0xcc, 0x07, 0x1a, 0x62, 0x8b, 0x40, 0x62, 0x69};
  static const char add[] = "upsert blob ce013625030ba8dba906f756967f9e9ca394464a a/b\n";
  static const char move[] = "upsert exe ce013625030ba8dba906f756967f9e9ca394464a a/c\n\nleaf a/b\n";
  uint8_t out[256], more[256], id[40];
  size_t len = 0, more_len = 0, id_len = 0;
  uint64_t number = 9;
  memset(out, 'x', 256);
#define EDIT(trees, len, root, script, out, size, out_len) \
  gixobj_edit(GIXOBJ_SHA1, trees, len, root, 20, BYTES(script), out, size, out_len, id, sizeof id, &id_len, &number)
  WANT(EDIT(none, 0, none, add, out, 3, &len) == GIXOBJ_BUFFER_TOO_SHORT && len == 73 && out[0] == 'x');
  WANT(EDIT(none, 0, none, add, out, 256, &len) == GIXOBJ_DONE && len == 73 && number == 9);
  WANT(id_len == 20 && !memcmp(id, first, 20) && !memcmp(out, "tree 29\0" "100644 b", 16));
  WANT(EDIT(out, len, first, move, more, 256, &more_len) == GIXOBJ_DONE && !memcmp(id, second, 20));
  WANT(EDIT(none, 0, first, move, more, 256, &more_len) == GIXOBJ_NOT_FOUND && !memcmp(id, first, 20) && number == 0);
  WANT(EDIT(out + 37, len - 37, first, move, more, 256, &more_len) == GIXOBJ_NOT_FOUND && number == 1);
  WANT(EDIT(out, len - 1, first, move, more, 256, &more_len) == GIXOBJ_MALFORMED && number == 0);
  /* of several faults: the frames, the root, the first bad line, the first command that fails */
  WANT(EDIT(out, len - 1, second, "x\n", more, 256, &more_len) == GIXOBJ_MALFORMED && number == 0);
  WANT(EDIT(out, len, second, "\nx", more, 256, &more_len) == GIXOBJ_NOT_FOUND && number == 0);
  WANT(!memcmp(id, second, 20));
  WANT(EDIT(out, len, first, "leaf a\nx\ny", more, 256, &more_len) == GIXOBJ_BAD_LINE && number == 2);
  WANT(EDIT(out + 37, len - 37, first, "remove /\nleaf a/b", more, 256, &more_len) == GIXOBJ_INVALID_NAME);
  WANT(EDIT(out, len, first, "\nupsert x", more, 256, &more_len) == GIXOBJ_BAD_LINE && number == 2);
  WANT(EDIT(out, len, first, "remove a//b", more, 256, &more_len) == GIXOBJ_INVALID_NAME && number == 1);
  WANT(EDIT(out, len, first, "leaf a", more, 256, &more_len) == GIXOBJ_IS_DIRECTORY && number == 1);
  WANT(gixobj_edit(3, none, 0, none, 20, none, 0, out, 0, &len, id, 0, &id_len, &number) == GIXOBJ_UNKNOWN_CODE);
  /* nothing but a root */
  WANT(EDIT(none, 0, none, "", out, 256, &len) == GIXOBJ_DONE && len == 7 && !memcmp(out, "tree 0", 7));
  WANT(id_len == 20 && id[0] == 0x4b);
  WANT(gixobj_edit(GIXOBJ_SHA1, none, 0, none, 0, none, 0, out, 0, &len, id, 0, &id_len, &number) == GIXOBJ_MALFORMED);
  WANT(EDIT(none, 0, none, "", out, 0, &len) == GIXOBJ_BUFFER_TOO_SHORT);
  return 0;
}

#define RUN(trees, root, script, size) \
  gixobj_edit(GIXOBJ_SHA1, BYTES(trees), root, 20, BYTES(script), out, 256, &len, id, size, &id_len, &number)

/* Git writes no mode 140755: such a tree isn't written with another mode, 040755. */
static int lossy_trees(void) {
  static const char lossy[] = "tree 29\0" "140755 a\0ABCDEFGHIJKLMNOPQRST";
  static const char both[] = "tree 29\0" "140755 a\0ABCDEFGHIJKLMNOPQRST" "tree 29\0" "100644 a\0ABCDEFGHIJKLMNOPQRST";
  uint8_t out[256], root[20], other[20], id[20];
  size_t len = 0, id_len = 0;
  uint64_t number = 9;
  WANT(gixobj_id(GIXOBJ_SHA1, GIXOBJ_TREE, (const uint8_t *)both + 8, 29, root, 20) == GIXOBJ_DONE);
  WANT(gixobj_id(GIXOBJ_SHA1, GIXOBJ_TREE, (const uint8_t *)both + 45, 29, other, 20) == GIXOBJ_DONE);
  WANT(RUN(lossy, root, "", 20) == GIXOBJ_LOSSY_TREE && number == 0 && id_len == 20 && !memcmp(id, root, 20));
  WANT(RUN(lossy, root, "x", 19) == GIXOBJ_BUFFER_TOO_SHORT && number == 0 && id_len == 20);
  WANT(RUN(both, other, "", 20) == GIXOBJ_DONE && len == 37 && !memcmp(id, other, 20));
  WANT(gixobj_check(GIXOBJ_SHA1, GIXOBJ_TREE, out + 8, 29) == GIXOBJ_DONE);
  return 0;
}

/* One answer has the ids of all trees that commands lack, an id for each command. */
static int missing_trees(void) {
  static const char tree[] = "tree 56\0" "40000 w\0ABCDEFGHIJKLMNOPQRST" "40000 x\0abcdefghijklmnopqrst";
  static const char script[] = "remove w/a\nremove v/a\nremove x/a\nleaf x/b\n";
  uint8_t out[256], root[20], id[64];
  size_t len = 9, id_len = 0;
  uint64_t number = 9;
  WANT(gixobj_id(GIXOBJ_SHA1, GIXOBJ_TREE, (const uint8_t *)tree + 8, 56, root, 20) == GIXOBJ_DONE);
  WANT(RUN(tree, root, script, 64) == GIXOBJ_NOT_FOUND && number == 1 && id_len == 60 && len == 9);
  WANT(!memcmp(id, "ABCDEFGHIJKLMNOPQRSTabcdefghijklmnopqrstabcdefghijklmnopqrst", 60));
  memset(id, 'x', 64);
  WANT(RUN(tree, root, script, 59) == GIXOBJ_BUFFER_TOO_SHORT && number == 1 && id_len == 60 && id[0] == 'x');
  return 0;
}

/* As `edits`: each root that a write emits has the id that git write-tree prints after the same edits. */
static int writes(void) {
  static const uint8_t none[20] = {0};
  static const uint8_t both[20] = {0xda, 0x51, 0x4e, 0xa5, 0x34, 0x17, 0x38, 0xd4, 0x81, 0x68,
                                   0x3b, 0xda, 0x23, 0xea, 0x40, 0x2e, 0xa2, 0x36, 0x19, 0x74};
  static const uint8_t one[20] = {0x58, 0x01, 0xa0, 0x1a, 0xd6, 0x2e, 0x76, 0xee, 0x2f, 0xc8,
                                  0x23, 0x1f, 0xcc, 0x07, 0x1a, 0x62, 0x8b, 0x40, 0x62, 0x69};
  static const uint8_t fresh[20] = {0xe3, 0x1a, 0x96, 0x22, 0x0f, 0xbf, 0xbe, 0x76, 0x01, 0xec,
                                    0xc0, 0x86, 0xa3, 0x6b, 0x96, 0xdc, 0x27, 0xa8, 0x86, 0x7e};
#define HELLO "ce013625030ba8dba906f756967f9e9ca394464a"
#define ADD "at a upsert blob " HELLO " b\nat a upsert exe " HELLO " c\n"
  uint8_t out[512], id[20];
  size_t len = 0, id_len = 0, at, frame;
  uint64_t number = 9;
  gixobj_header header = {0, 0, 0};
  unsigned frames = 0;
  WANT(EDIT(none, 0, none, ADD "write\nat a leaf b", out, 512, &len) == GIXOBJ_DONE && !memcmp(id, one, 20));
  for (at = 0; at < len; at += frame) {
    WANT(gixobj_loose_header(out + at, len - at, &header) == GIXOBJ_DONE && header.kind == GIXOBJ_TREE);
    frame = header.len + header.size;
    if (++frames == 2)
      WANT(gixobj_verify(GIXOBJ_SHA1, GIXOBJ_TREE, out + at + header.len, header.size, both, 20) == GIXOBJ_DONE);
  }
  WANT(at == len && frames == 4 && number == 9);
  WANT(EDIT(none, 0, none, ADD "at a write", out, 512, &len) == GIXOBJ_DONE && !memcmp(id, both, 20) && len == 2 * 66 + 36);
  WANT(EDIT(none, 0, none, ADD "root\nupsert blob " HELLO " x\nwrite", out, 512, &len) == GIXOBJ_DONE);
  WANT(!memcmp(id, fresh, 20) && len == 2 * 37);
  WANT(EDIT(none, 0, none, ADD "at x//y write", out, 512, &len) == GIXOBJ_INVALID_NAME && number == 3);
  return 0;
}

static int signatures(void) {
  gixobj_span span = {0, 0};
  WANT(gixobj_tag_signature(BYTES("any\n-----BEGIN SSH SIGNATURE-----\n"), &span) == GIXOBJ_DONE && span.start == 4);
  WANT(gixobj_tag_signature(BYTES("any"), &span) == GIXOBJ_NOT_FOUND && span.start == 4);
  return 0;
}

static int actors(void) {
  gixobj_actor_parts actor;
  memset(&actor, 0, sizeof actor);
  WANT(gixobj_actor(BYTES("A B <a@b> -12 +0130"), &actor) == GIXOBJ_DONE);
  WANT(actor.name.start == 0 && actor.name.len == 3 && actor.email.start == 5 && actor.email.len == 3);
  WANT(actor.time.start == 10 && actor.has_time == 1 && actor.seconds == -12 && actor.offset == 5400);
  WANT(gixobj_actor(BYTES("A <a@b> never"), &actor) == GIXOBJ_DONE && actor.has_time == 0 && actor.offset == 0);
  WANT(gixobj_actor(BYTES("A a@b> 0"), &actor) == GIXOBJ_MALFORMED && actor.name.len == 1);
  return 0;
}

/* What git fsck and git fsck --strict report of this object, by messages, and whether they accept it. */
static int is_report(uint8_t kind, const char *bytes, size_t len, uint8_t strict, uint64_t messages, uint32_t worst,
                     uint32_t is_accepted) {
  gixobj_fsck_report report = {9, 9, 9};
  if (gixobj_fsck(GIXOBJ_SHA1, kind, (const uint8_t *)bytes, len, strict, &report) != GIXOBJ_DONE)
    return 0;
  return report.messages == messages && report.worst == worst && report.is_accepted == is_accepted;
}

#define ID "aaaaaaaaaaaaaaaaaaaa"
#define PEOPLE "author  <> 1 +0000\ncommitter  <> 1 +0000\n"
#define TARGET "object " ID ID "\ntype commit\n"
#define REPORT(kind, it, ...) is_report(kind, it, sizeof(it) - 1, __VA_ARGS__)
#define BIT(message) ((uint64_t)1 << GIXOBJ_FSCK_##message)

static int fsck(void) {
  static const char entry[] = "40000 .git\0" ID, two[] = "40000 b\0" ID "40000 .git\0" ID;
  static const char link[] = "120000 .mailmap\0" ID, zero[] = "tree " ID ID "\n\0", sound[] = "tree " ID ID "\n" PEOPLE;
  static const char name[] = TARGET "tag a b\ntagger A <a> x\n", forgotten[] = TARGET "tag v\ntagger A <a> x\nx y\n\n";
  WANT(REPORT(GIXOBJ_TREE, "", 1, 0, 0, 1) && REPORT(GIXOBJ_BLOB, "x", 1, 0, 0, 1));
  WANT(REPORT(GIXOBJ_TREE, "x", 0, BIT(BAD_TREE), GIXOBJ_SEVERITY_ERROR, 0));
  WANT(REPORT(GIXOBJ_TREE, entry, 0, BIT(HAS_DOTGIT), GIXOBJ_SEVERITY_WARN, 1));
  WANT(REPORT(GIXOBJ_TREE, entry, 1, BIT(HAS_DOTGIT), GIXOBJ_SEVERITY_ERROR, 0));
  WANT(REPORT(GIXOBJ_TREE, two, 0, BIT(HAS_DOTGIT) | BIT(TREE_NOT_SORTED), GIXOBJ_SEVERITY_ERROR, 0));
  WANT(REPORT(GIXOBJ_TREE, link, 1, BIT(MAILMAP_SYMLINK), GIXOBJ_SEVERITY_INFO, 1));
  WANT(REPORT(GIXOBJ_COMMIT, sound, 1, 0, 0, 1));
  WANT(REPORT(GIXOBJ_COMMIT, zero, 0, BIT(NUL_IN_HEADER), GIXOBJ_SEVERITY_FATAL, 0));
  WANT(REPORT(GIXOBJ_TAG, name, 0, BIT(BAD_TAG_NAME) | BIT(BAD_DATE), GIXOBJ_SEVERITY_ERROR, 0));
  WANT(REPORT(GIXOBJ_TAG, forgotten, 1, BIT(BAD_DATE), GIXOBJ_SEVERITY_ERROR, 1));
  return 0;
}

/* The finding is this message at this offset, with this severity. */
static int is_finding(gixobj_fsck_finding it, uint32_t message, size_t offset, uint32_t severity) {
  return it.message == message && it.offset == offset && it.severity == severity;
}

static int findings(void) {
  static const char links[] = "120000 .gitmodules\0" ID "120000 .mailmap\0" ID "120000 a\\.gitmodules\0" ID;
  static const char tag[] = TARGET "tag a b\ntagger A <a> x\n";
  static const gixobj_fsck_finding kept = {9, 9, 9};
  gixobj_fsck_finding out[4] = {kept, kept, kept, kept};
  size_t count = 9;
  WANT(gixobj_fsck_findings(GIXOBJ_SHA1, GIXOBJ_TREE, BYTES(links), 0, out, 2, &count) == GIXOBJ_BUFFER_TOO_SHORT);
  WANT(count == 3 && is_finding(out[0], 9, 9, 9));
  WANT(gixobj_fsck_findings(GIXOBJ_SHA1, GIXOBJ_TREE, BYTES(links), 0, out, 4, &count) == GIXOBJ_DONE && count == 3);
  WANT(is_finding(out[0], GIXOBJ_FSCK_GITMODULES_SYMLINK, 0, GIXOBJ_SEVERITY_ERROR));
  WANT(is_finding(out[1], GIXOBJ_FSCK_MAILMAP_SYMLINK, 39, GIXOBJ_SEVERITY_INFO));
  WANT(is_finding(out[2], GIXOBJ_FSCK_GITMODULES_SYMLINK, 75, GIXOBJ_SEVERITY_ERROR) && is_finding(out[3], 9, 9, 9));
  WANT(gixobj_fsck_findings(GIXOBJ_SHA1, GIXOBJ_TAG, BYTES(tag), 1, out, 2, &count) == GIXOBJ_DONE && count == 2);
  WANT(is_finding(out[0], GIXOBJ_FSCK_BAD_TAG_NAME, 60, GIXOBJ_SEVERITY_INFO));
  WANT(is_finding(out[1], GIXOBJ_FSCK_BAD_DATE, 68, GIXOBJ_SEVERITY_ERROR));
  WANT(gixobj_fsck_findings(GIXOBJ_SHA1, GIXOBJ_BLOB, BYTES("x"), 0, out, 0, &count) == GIXOBJ_DONE && count == 0);
  count = 9;
  WANT(gixobj_fsck_findings(3, GIXOBJ_BLOB, BYTES(""), 0, out, 4, &count) == GIXOBJ_UNKNOWN_CODE);
  WANT(gixobj_fsck_findings(GIXOBJ_SHA1, 5, BYTES(""), 0, out, 4, &count) == GIXOBJ_UNKNOWN_CODE);
  WANT(gixobj_fsck_findings(GIXOBJ_SHA1, GIXOBJ_BLOB, BYTES(""), 2, out, 4, &count) == GIXOBJ_UNKNOWN_CODE);
  WANT(count == 9 && is_finding(out[0], GIXOBJ_FSCK_BAD_TAG_NAME, 60, GIXOBJ_SEVERITY_INFO));
  return 0;
}

static int fsck_codes(void) {
  gixobj_fsck_report report = {9, 9, 9};
  uint8_t out[24];
  uint32_t severity = 9;
  size_t len = 9;
  memset(out, 'x', 24);
  WANT(gixobj_fsck(3, GIXOBJ_BLOB, BYTES(""), 0, &report) == GIXOBJ_UNKNOWN_CODE);
  WANT(gixobj_fsck(GIXOBJ_SHA1, 5, BYTES(""), 0, &report) == GIXOBJ_UNKNOWN_CODE);
  WANT(gixobj_fsck(GIXOBJ_SHA1, GIXOBJ_BLOB, BYTES(""), 2, &report) == GIXOBJ_UNKNOWN_CODE);
  WANT(report.messages == 9 && report.worst == 9 && report.is_accepted == 9);
  WANT(gixobj_fsck_message_name(45, out, 24, &len) == GIXOBJ_UNKNOWN_CODE && len == 9);
  WANT(gixobj_fsck_message_name(GIXOBJ_FSCK_MISSING_SPACE_BEFORE_EMAIL, out, 22, &len) == GIXOBJ_BUFFER_TOO_SHORT);
  WANT(len == 23 && out[0] == 'x');
  WANT(gixobj_fsck_message_name(GIXOBJ_FSCK_MISSING_SPACE_BEFORE_EMAIL, out, 24, &len) == GIXOBJ_DONE);
  WANT(len == 23 && !memcmp(out, "missingSpaceBeforeEmailx", 24));
  WANT(gixobj_fsck_severity(45, 0, &severity) == GIXOBJ_UNKNOWN_CODE);
  WANT(gixobj_fsck_severity(GIXOBJ_FSCK_HAS_DOT, 2, &severity) == GIXOBJ_UNKNOWN_CODE && severity == 9);
  WANT(gixobj_fsck_severity(GIXOBJ_FSCK_HAS_DOT, 0, &severity) == GIXOBJ_DONE && severity == GIXOBJ_SEVERITY_WARN);
  WANT(gixobj_fsck_severity(GIXOBJ_FSCK_HAS_DOT, 1, &severity) == GIXOBJ_DONE && severity == GIXOBJ_SEVERITY_ERROR);
  return 0;
}

int main(void) {
  if (actors() || ids() || headers() || entries() || modes() || tokens() || tag_tokens() || named_headers() ||
      buffers() || fsck() || findings() || fsck_codes() || edits() || lossy_trees() || missing_trees() || writes() ||
      signatures())
    return 1;
  puts("ok");
  return 0;
}
