/* Fails each allocation of gixobj_fsck and gixobj_fsck_findings in turn: a failed call writes nothing. Of gixobj_fsck only
 * trees with an entry allocate.
 * Prints `ok`, or what differs, with status 1. The linker leads the library's calls here: -Wl,--wrap=malloc and
 * -Wl,--wrap=realloc. */
#include "gixobj_fsck.h"
#include <stdio.h>

#define WANT(it) do { if (!(it)) { printf("%s:%d: not %s\n", __FILE__, __LINE__, #it); return 1; } } while (0)
#define ID "aaaaaaaaaaaaaaaaaaaa"

void *__real_malloc(size_t size);
void *__real_realloc(void *old, size_t size);
void *__wrap_malloc(size_t size);
void *__wrap_realloc(void *old, size_t size);

/* the allocations of a call, and the number of the one that fails, or 0 */
static unsigned allocations, failing;

void *__wrap_malloc(size_t size) { return ++allocations == failing ? NULL : __real_malloc(size); }

void *__wrap_realloc(void *old, size_t size) { return ++allocations == failing ? NULL : __real_realloc(old, size); }

static uint32_t fsck(uint8_t kind, const char *bytes, size_t len, gixobj_fsck_report *out) {
  allocations = 0;
  return gixobj_fsck(GIXOBJ_SHA1, kind, (const uint8_t *)bytes, len, 0, out);
}

/* The number of allocations of a report is this, and if one of them fails the call reports nothing. */
static int allocates(uint8_t kind, const char *bytes, size_t len, unsigned count) {
  gixobj_fsck_report report = {9, 9, 9};
  failing = 0;
  WANT(fsck(kind, bytes, len, &report) == GIXOBJ_DONE && allocations == count);
  report = (gixobj_fsck_report){9, 9, 9};
  for (failing = 1; failing <= count; failing++) {
    WANT(fsck(kind, bytes, len, &report) == GIXOBJ_OUT_OF_MEMORY && allocations == failing);
    WANT(report.messages == 9 && report.worst == 9 && report.is_accepted == 9);
  }
  return 0;
}

/* The same of the findings. */
static int lists(uint8_t kind, const char *bytes, size_t len, unsigned count) {
  gixobj_fsck_finding out[3] = {{9, 9, 9}};
  size_t found;
  failing = allocations = 0;
  WANT(gixobj_fsck_findings(GIXOBJ_SHA1, kind, (const uint8_t *)bytes, len, 0, out, 3, &found) == GIXOBJ_DONE);
  WANT(allocations == count);
  out[0] = (gixobj_fsck_finding){9, 9, 9};
  for (failing = 1; failing <= count; failing++) {
    allocations = 0;
    found = 9;
    WANT(gixobj_fsck_findings(GIXOBJ_SHA1, kind, (const uint8_t *)bytes, len, 0, out, 3, &found) == GIXOBJ_OUT_OF_MEMORY);
    WANT(allocations == failing && found == 9 && out[0].offset == 9 && out[0].message == 9 && out[0].severity == 9);
  }
  return 0;
}

#define LISTS(kind, it, count) lists(kind, it, sizeof(it) - 1, count)
#define ALLOCATES(kind, it, count) allocates(kind, it, sizeof(it) - 1, count)

int main(void) {
  static const char one[] = "100644 a\0" ID, twice[] = "100644 b\0" ID "100644 a\0" ID "100644 b\0" ID;
  if (ALLOCATES(GIXOBJ_TREE, "", 0) || ALLOCATES(GIXOBJ_TREE, "x", 0) || ALLOCATES(GIXOBJ_TREE, one, 1) ||
      ALLOCATES(GIXOBJ_TREE, twice, 2) || ALLOCATES(GIXOBJ_BLOB, "x", 0) ||
      ALLOCATES(GIXOBJ_COMMIT, "tree " ID ID "\nauthor  <> 1 +0000\ncommitter  <> 1 +0000\n", 0) ||
      ALLOCATES(GIXOBJ_TAG, "object " ID ID "\ntype commit\ntag a b\ntagger A <a> x\n\n", 0))
    return 1;
  if (LISTS(GIXOBJ_TREE, "", 0) || LISTS(GIXOBJ_TREE, "x", 1) || LISTS(GIXOBJ_TREE, one, 1) ||
      LISTS(GIXOBJ_TREE, twice, 3) || LISTS(GIXOBJ_BLOB, "x", 0) ||
      LISTS(GIXOBJ_COMMIT, "tree " ID ID "\nauthor  <> 1 +0000\ncommitter  <> 1 +0000\n", 0) ||
      LISTS(GIXOBJ_TAG, "object " ID ID "\ntype commit\ntag a b\ntagger A <a> x\n\n", 1))
    return 1;
  puts("ok");
  return 0;
}
