/* A file checked before it is sent, for tools on a host: whether its pieces are the blocks of a file of which demand 3 speaks, for a board with given
 * settings and buffers. Proved to do what crates/checkapi/specs says, for every input.
 *
 * Built for the machines that uf2_receiver.h names: `tools/target --host` writes target/staticlib/libcheckapi.a, which links beside libcapi.a. It
 * calls nothing but memcpy, memmove and memset, allocates nothing and keeps nothing between calls. What uf2_receiver.h says of UF2_STACK_SIZE holds here
 * too.
 *
 * A slice is a pointer to bytes and then their number, and no function keeps a pointer. A pointer is never null, also of an empty slice, and
 * points to as many bytes as the number says; it may have any alignment. A slice that is written overlaps no other slice of the call. */
#ifndef UF2_CHECK_H
#define UF2_CHECK_H

#include "uf2_len.h"

#ifdef __cplusplus
extern "C" {
#endif

/* The three maps that are lent. They are left all zero, whatever the answer. */
#define UF2_CHECK_NUMBERS_SIZE 16384
#define UF2_CHECK_CELLS_SIZE 16384
#define UF2_CHECK_OFFSETS_SIZE 2080

/* What is told: the piece with which something is wrong, counted from 0, and the earlier piece that it collides with, the lowest byte first. Of a
 * missing block the first is its number. What has none is 0. Of another length nothing is written, and the answer is 1. */
#define UF2_TOLD_SIZE 16
#define UF2_TOLD_PIECE_AT 0 /* 64 bits */
#define UF2_TOLD_OTHER_AT 8 /* 64 bits */

/* The answers: the first condition that fails, of the first piece at which one fails; 87 and 88 only where no piece is at fault. 4 to 11 are those of
 * uf2_receiver.h: an Idle board answers the piece so. */
enum uf2_checked {
    UF2_CHECK_VALID = 0,         /* whatever order its blocks come in, and however often, Completed is answered
                                  * exactly once, and then every page stands at its address */
    UF2_CHECK_BAD_BUFFERS = 1,   /* a wrong length of flash, RAM, a map, or what is told */
    UF2_CHECK_BAD_SETTINGS = 2,  /* no good settings for this flash */
    UF2_CHECK_RAGGED = 80,       /* the file's length is no multiple of 512 */
    UF2_CHECK_EMPTY = 81,        /* the file has no piece */
    UF2_CHECK_OTHER_FAMILY = 82, /* the piece's family is not the first piece's */
    UF2_CHECK_OTHER_TOTAL = 83,  /* the piece's total is not the first piece's */
    UF2_CHECK_OTHER_KIND = 84,   /* the piece's memory is not the first piece's: flash, main RAM or XIP RAM; a comment's is flash */
    UF2_CHECK_SAME_NUMBER = 85,  /* an earlier piece has the same number */
    UF2_CHECK_OVERLAP = 86,      /* an earlier data piece holds one of the same addresses */
    UF2_CHECK_MISSING = 87,      /* there are fewer pieces than the total: the least number that no piece has */
    UF2_CHECK_GUARDED = 88       /* the file is valid, and names regions (flag 0x4000): that their digests are right was not checked */
};

/* What is wrong with a file, for a board with such settings, a flash of flash_len bytes and RAM of main_len and xip_len bytes, 0 for none. */
uint32_t uf2_check(const uint8_t *settings, uf2_len settings_len, const uint8_t *file, uf2_len file_len, uf2_len flash_len, uf2_len main_len,
                   uf2_len xip_len, uint8_t *numbers, uf2_len numbers_len, uint8_t *cells, uf2_len cells_len, uint8_t *offsets, uf2_len offsets_len,
                   uint8_t *told, uf2_len told_len);

#ifdef __cplusplus
}
#endif

#endif
