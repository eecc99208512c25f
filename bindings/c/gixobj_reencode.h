/* Proved new encodings of git's objects. The library is gixobj_c_reencode. What the caller owes is in gixobj.h.
 *
 * The call is pure, as those of gixobj.h: it reads its input, writes through its last parameters, and keeps nothing.
 */
#ifndef GIXOBJ_REENCODE_H
#define GIXOBJ_REENCODE_H
#include "gixobj.h"
#ifdef __cplusplus
extern "C" {
#endif

/* Decodes an object, and writes its new encoding. It differs from the bytes only in the case of ids in hex, and in what
 * the library documents. *out_len is the length of the encoding, also if the buffer is too short.
 * DONE, MALFORMED, OUT_OF_MEMORY (not of a blob, nor of a tree without entries), UNKNOWN_CODE, BUFFER_TOO_SHORT,
 * NOT_ENCODABLE. Allocates, but for these two. */
uint32_t gixobj_reencode(uint8_t hash, uint8_t kind, const uint8_t *bytes, size_t bytes_len, uint8_t *out,
                         size_t out_size, size_t *out_len);

#ifdef __cplusplus
}
#endif
#endif
