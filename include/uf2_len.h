/* The length of a slice, in the calls of every header here, and the version of all of them. */
#ifndef UF2_LEN_H
#define UF2_LEN_H

#include <stdint.h>

/* A number of bytes, or an offset of one. It is 64 bits wide on every machine: in Rattle a length is, the proofs are about lengths of 64
 * bits, and the libraries take each one in 64. `size_t`, which is narrower on a machine of 32 bits, would there leave half of a length to
 * what the register or the stack held before. On x86-64 both are the same. */
typedef uint64_t uf2_len;

/* The version of the headers, which is that of the libraries that come with them. VANTOREL_VERSION is one number to compare: 10203 is 1.2.3. */
#define VANTOREL_VERSION_MAJOR 1
#define VANTOREL_VERSION_MINOR 0
#define VANTOREL_VERSION_PATCH 0
#define VANTOREL_VERSION_STRING "1.0.0"
#define VANTOREL_VERSION (VANTOREL_VERSION_MAJOR * 10000 + VANTOREL_VERSION_MINOR * 100 + VANTOREL_VERSION_PATCH)

/* The same as a call. */
static inline uint32_t uf2_version(void) {
    return VANTOREL_VERSION;
}

#endif
