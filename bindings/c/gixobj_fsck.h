/* Git's messages about objects, proved (git-fsck, "FSCK MESSAGES"). The library is gixobj_c_fsck. What the caller owes
 * is in gixobj.h.
 *
 * The calls are pure, as those of gixobj.h: they read their input, write through their last parameters, and keep
 * nothing.
 */
#ifndef GIXOBJ_FSCK_H
#define GIXOBJ_FSCK_H
#include "gixobj.h"
#ifdef __cplusplus
extern "C" {
#endif

/* The messages about a tree, a commit or a tag, in the order in which git reports those of one object. gixobj_fsck
 * never reports EMPTY_NAME, MISSING_TYPE, MISSING_TAG, EXTRA_HEADER_ENTRY and UNKNOWN_TYPE. */
enum gixobj_fsck_message {
  GIXOBJ_FSCK_GITMODULES_SYMLINK = 0,          /* a link of a tree is named .gitmodules */
  GIXOBJ_FSCK_GITATTRIBUTES_SYMLINK = 1,       /* a link of a tree is named .gitattributes */
  GIXOBJ_FSCK_GITIGNORE_SYMLINK = 2,           /* a link of a tree is named .gitignore */
  GIXOBJ_FSCK_MAILMAP_SYMLINK = 3,             /* a link of a tree is named .mailmap */
  GIXOBJ_FSCK_BAD_TREE = 4,                    /* the bytes of a tree aren't entries */
  GIXOBJ_FSCK_NULL_SHA1 = 5,                   /* a tree has an entry whose id is null */
  GIXOBJ_FSCK_FULL_PATHNAME = 6,               /* a name in a tree has a slash */
  GIXOBJ_FSCK_EMPTY_NAME = 7,                  /* a name in a tree is empty. Git reports badTree in its place */
  GIXOBJ_FSCK_HAS_DOT = 8,                     /* a name in a tree is . */
  GIXOBJ_FSCK_HAS_DOTDOT = 9,                  /* a name in a tree is .. */
  GIXOBJ_FSCK_HAS_DOTGIT = 10,                 /* a name in a tree is .git on some file system */
  GIXOBJ_FSCK_ZERO_PADDED_FILEMODE = 11,       /* a mode in a tree begins with 0 */
  GIXOBJ_FSCK_BAD_FILEMODE = 12,               /* a mode in a tree is unknown */
  GIXOBJ_FSCK_DUPLICATE_ENTRIES = 13,          /* two entries of a tree have one name */
  GIXOBJ_FSCK_TREE_NOT_SORTED = 14,            /* the entries of a tree aren't sorted */
  GIXOBJ_FSCK_NUL_IN_HEADER = 15,              /* a header has a zero byte */
  GIXOBJ_FSCK_UNTERMINATED_HEADER = 16,        /* a header has no end */
  GIXOBJ_FSCK_MISSING_TREE = 17,               /* a commit has no tree */
  GIXOBJ_FSCK_BAD_TREE_SHA1 = 18,              /* the tree of a commit is no id */
  GIXOBJ_FSCK_BAD_PARENT_SHA1 = 19,            /* a parent of a commit is no id */
  GIXOBJ_FSCK_MISSING_AUTHOR = 20,             /* a commit has no author */
  GIXOBJ_FSCK_MULTIPLE_AUTHORS = 21,           /* a commit has several authors */
  GIXOBJ_FSCK_MISSING_COMMITTER = 22,          /* a commit has no committer */
  GIXOBJ_FSCK_NUL_IN_COMMIT = 23,              /* a commit has a zero byte after its header */
  GIXOBJ_FSCK_MISSING_OBJECT = 24,             /* a tag has no object */
  GIXOBJ_FSCK_BAD_OBJECT_SHA1 = 25,            /* the object of a tag is no id */
  GIXOBJ_FSCK_MISSING_TYPE_ENTRY = 26,         /* a tag has no line of its object's type */
  GIXOBJ_FSCK_MISSING_TYPE = 27,               /* a tag has no type. Git never reports it */
  GIXOBJ_FSCK_BAD_TYPE = 28,                   /* the type in a tag is unknown */
  GIXOBJ_FSCK_MISSING_TAG_ENTRY = 29,          /* a tag has no line of its name */
  GIXOBJ_FSCK_MISSING_TAG = 30,                /* a tag has no name. Git never reports it */
  GIXOBJ_FSCK_BAD_TAG_NAME = 31,               /* the name of a tag makes no reference name */
  GIXOBJ_FSCK_MISSING_TAGGER_ENTRY = 32,       /* a tag has no tagger */
  GIXOBJ_FSCK_MISSING_NAME_BEFORE_EMAIL = 33,  /* an actor has no name */
  GIXOBJ_FSCK_BAD_NAME = 34,                   /* the name of an actor is invalid */
  GIXOBJ_FSCK_MISSING_EMAIL = 35,              /* an actor has no email */
  GIXOBJ_FSCK_MISSING_SPACE_BEFORE_EMAIL = 36, /* no space precedes the email of an actor */
  GIXOBJ_FSCK_BAD_EMAIL = 37,                  /* the email of an actor is invalid */
  GIXOBJ_FSCK_MISSING_SPACE_BEFORE_DATE = 38,  /* no space precedes the date of an actor */
  GIXOBJ_FSCK_ZERO_PADDED_DATE = 39,           /* the date of an actor begins with 0 */
  GIXOBJ_FSCK_BAD_DATE_OVERFLOW = 40,          /* the date of an actor is too large */
  GIXOBJ_FSCK_BAD_DATE = 41,                   /* the date of an actor is invalid */
  GIXOBJ_FSCK_BAD_TIMEZONE = 42,               /* the time zone of an actor is invalid */
  GIXOBJ_FSCK_EXTRA_HEADER_ENTRY = 43,         /* a tag has more headers */
  GIXOBJ_FSCK_UNKNOWN_TYPE = 44                /* the kind of an object is unknown. Git never reports it */
};

/* Severities: a worse one has a higher number. git-fsck prints the last two as `error`, INFO and WARN as `warning`. */
enum gixobj_severity {
  GIXOBJ_SEVERITY_IGNORE = 1,
  GIXOBJ_SEVERITY_INFO = 2,
  GIXOBJ_SEVERITY_WARN = 3,    /* an error in a strict check */
  GIXOBJ_SEVERITY_ERROR = 4,
  GIXOBJ_SEVERITY_FATAL = 5    /* an error that no configuration makes less */
};

/* Reports the messages of git-fsck about an object: of `git fsck`, or if strict is 1 of `git fsck --strict`.
 * messages has bit n if message number n is among them. worst is the number of the worst severity, or 0 without one.
 * is_accepted is 1 if no message is an error; or of a tag, at whose extra header git forgets an error of its tagger.
 * A blob has no message. Of an unsorted tree with a name twice git may lack DUPLICATE_ENTRIES. The parser of git runs
 * before its fsck, and rejects some malformed commits and tags without a message: gixobj_check is no part of this call.
 * DONE, OUT_OF_MEMORY (only of a tree whose bytes begin with an entry), UNKNOWN_CODE (also of a strict that is neither
 * 0 nor 1). A tree allocates. */
typedef struct { uint64_t messages; uint32_t worst, is_accepted; } gixobj_fsck_report;
uint32_t gixobj_fsck(uint8_t hash, uint8_t kind, const uint8_t *bytes, size_t bytes_len, uint8_t strict,
                     gixobj_fsck_report *out);

/* Writes the findings of git-fsck about an object at the beginning of out, in git's order: of `git fsck`, or if strict
 * is 1 of `git fsck --strict`. A message about a link of a tree comes once for each link, and GITMODULES_SYMLINK once
 * more for each backslash in its name before what NTFS takes for .gitmodules. *count is the number of findings, also
 * if out has too few elements. Elements after them are unchanged.
 * The offset is in the bytes of the object. That of a message about a link is its entry's; of BAD_TREE it is where
 * reading ends, of DUPLICATE_ENTRIES the first entry that has the name of one before it, of TREE_NOT_SORTED the second
 * of two neighbours; of another message about a tree, the first entry with the fault. In commits and tags it is that
 * of the line, or of where a missing line was expected; of a zero byte its own; of UNTERMINATED_HEADER the end.
 * DONE, OUT_OF_MEMORY (never of a blob; of a tree only if its bytes begin with an entry, or BAD_TREE is reported),
 * UNKNOWN_CODE (as of gixobj_fsck), BUFFER_TOO_SHORT. A tree allocates, and so do findings. */
typedef struct { size_t offset; uint32_t message, severity; } gixobj_fsck_finding;
uint32_t gixobj_fsck_findings(uint8_t hash, uint8_t kind, const uint8_t *bytes, size_t bytes_len, uint8_t strict,
                              gixobj_fsck_finding *out, size_t out_size, size_t *count);

/* Writes the name of a message, as `git fsck` prints it: at most 23 bytes, and no zero byte. *out_len is its length,
 * also if the buffer is too short. DONE, UNKNOWN_CODE, BUFFER_TOO_SHORT. Allocates nothing. */
uint32_t gixobj_fsck_message_name(uint8_t message, uint8_t *out, size_t out_size, size_t *out_len);

/* Writes the severity of a message in a check that is strict (1) or not (0). DONE, UNKNOWN_CODE. Allocates nothing. */
uint32_t gixobj_fsck_severity(uint8_t message, uint8_t strict, uint32_t *severity);

#ifdef __cplusplus
}
#endif
#endif
