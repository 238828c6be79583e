/* Why an arrival was answered as it was, and why a family has a place or none, for tools on a host: every function is proved to do what
 * crates/whyapi/specs says, for every input.
 *
 * Built for the machines that uf2_receiver.h names: `tools/target --host` writes target/staticlib/libwhyapi.a, which links beside libcapi.a. It
 * calls nothing but memcpy, memmove and memset, allocates nothing and keeps nothing between calls. What uf2_receiver.h says of UF2_STACK_SIZE holds here
 * too.
 *
 * A slice is a pointer to bytes and then their number, and no function keeps a pointer. A pointer is never null, also of an empty slice, and
 * points to as many bytes as the number says; it may have any alignment. The reason overlaps no other slice of the call.
 *
 * A reason is UF2_REASON_SIZE bytes: the number of the condition that decided, the number tested and what it is tested against, the lowest byte
 * first; the entry of the settings at fault and the other that it shares a sector with; and a mark for each of 16 entries. What has none is 0.
 * Of another length it stays as it was. */
#ifndef UF2_WHY_H
#define UF2_WHY_H

#include "uf2_receiver.h"

#ifdef __cplusplus
extern "C" {
#endif

#define UF2_REASON_SIZE 38
#define UF2_REASON_CAUSE_AT 0    /* 32 bits */
#define UF2_REASON_GOT_AT 4      /* 64 bits */
#define UF2_REASON_AGAINST_AT 12 /* 64 bits */
#define UF2_REASON_ENTRY_AT 20
#define UF2_REASON_OTHER_AT 21
#define UF2_REASON_MARKS_AT 22

/* A number of 64 bits, the lowest byte first: uf2_get64(reason + UF2_REASON_GOT_AT). uf2_get32 is uf2_receiver.h's. */
static inline uint64_t uf2_get64(const uint8_t *at) {
    return (uint64_t)uf2_get32(at) | (uint64_t)uf2_get32(at + 4) << 32;
}

/* The conditions: the answer's row times 100, and the condition's place in it. Bytes that are no settings or no transfer (210, 306, 307)
 * are told before the other conditions of their row; a link byte that is no kind of link (211) is told where 206 would be. Each condition on
 * entries (203 to 209) is asked of all used entries, the lowest index first, before the next condition is: an entry 1 without sectors is told
 * before an entry 0 with too many user families. 203 to 209 and 211 name the entry, and 210 names none. 307 is about the byte at
 * UF2_TRANSFER_STATE_AT where that is over 2, and else about the one at UF2_TRANSFER_KIND_AT. 1201 and 1301 tell number and total of the
 * block that came, and not the transfer's. Behind each, the number tested and what it is tested against. */
enum uf2_cause {
    UF2_CAUSE_ARRIVAL_LENGTH = 101,     /* length, 512 */
    UF2_CAUSE_FLASH_RAGGED = 102,       /* length, 4096: no multiple */
    UF2_CAUSE_FLASH_UNDER = 103,        /* length, 4096 */
    UF2_CAUSE_FLASH_OVER = 104,         /* length, 33554432 */
    UF2_CAUSE_SEEN_LENGTH = 105,        /* length, 16384 */
    UF2_CAUSE_SECTORS_LENGTH = 106,     /* length, 1024 */
    UF2_CAUSE_MAIN_LENGTH = 107,        /* length, 532480 */
    UF2_CAUSE_XIP_LENGTH = 108,         /* length, 16384 */
    UF2_CAUSE_ARCH_OFF = 201,           /* 0, 0: the current architecture is not enabled */
    UF2_CAUSE_COUNT_OVER = 202,         /* count, 16 */
    UF2_CAUSE_NO_SECTORS = 203,         /* 0, 0; from here to 209 with the entry */
    UF2_CAUSE_PAST_FLASH = 204,         /* its end in bytes, the flash's length */
    UF2_CAUSE_SHARES_SECTOR = 205,      /* the first other entry, its own index */
    UF2_CAUSE_LINKS_UP = 206,           /* the index that it names, its own */
    UF2_CAUSE_LINKS_TO_B = 207,         /* the index that it names, its own */
    UF2_CAUSE_MANY_USERS = 208,         /* user families, 4 */
    UF2_CAUSE_RESERVED_USER = 209,      /* the first such family, 0xe48bff56 */
    UF2_CAUSE_NO_SETTINGS = 210,        /* the settings' bytes, how many they must be; no entry */
    UF2_CAUSE_NO_LINK_KIND = 211,       /* told for 206 of that entry: its link kind's byte, 2 */
    UF2_CAUSE_COUNT_UNDER_1 = 301,      /* Running: count, 1 */
    UF2_CAUSE_COUNT_NOT_BELOW = 302,    /* Running: count, total */
    UF2_CAUSE_RUNNING_TOTAL_OVER = 303, /* total, 131072 */
    UF2_CAUSE_DONE_TOTAL_UNDER_1 = 304, /* total, 1 */
    UF2_CAUSE_DONE_TOTAL_OVER = 305,    /* total, 131072 */
    UF2_CAUSE_NO_TRANSFER = 306,        /* the transfer's bytes, how many they must be */
    UF2_CAUSE_NO_STATE = 307,           /* the state byte where it is over 2, else the kind byte; 2 */
    UF2_CAUSE_MAGIC_FIRST = 401,        /* the field, the magic number */
    UF2_CAUSE_MAGIC_SECOND = 402,       /* the field, the magic number */
    UF2_CAUSE_MAGIC_LAST = 403,         /* the field, the magic number */
    UF2_CAUSE_CONTAINER = 501,          /* flags, 0x1000 */
    UF2_CAUSE_NO_FAMILY = 701,          /* flags, 0x2000 */
    UF2_CAUSE_ABSOLUTE_OFF = 801,       /* family, 0 */
    UF2_CAUSE_RP2040 = 802,             /* family, 0 */
    UF2_CAUSE_ARM_OFF = 803,            /* family, 0: no table, and Arm is off */
    UF2_CAUSE_RISCV_OFF = 804,          /* family, 0: no table, and RISC-V is off */
    UF2_CAUSE_NOT_WITHOUT_TABLE = 805,  /* family, 0: no table, and the family needs one */
    UF2_CAUSE_NO_ENTRY = 806,           /* family, 0: no entry takes it, see the marks */
    UF2_CAUSE_NOT_FOR_RAM = 807,        /* family, 0 */
    UF2_CAUSE_SIZE = 901,               /* size, 256 */
    UF2_CAUSE_TOTAL_ZERO = 1001,        /* total, 0 */
    UF2_CAUSE_TOTAL_PAST = 1002,        /* total x 256, the bytes of the place or window */
    UF2_CAUSE_NUMBER_PAST = 1003,       /* number, total */
    UF2_CAUSE_BELOW_WINDOW = 1101,      /* address, 0x10000000 */
    UF2_CAUSE_RAGGED_ADDRESS = 1102,    /* address, 256 */
    UF2_CAUSE_PAST_PLACE = 1103,        /* address - 0x10000000 + 256, the bytes of the place */
    UF2_CAUSE_PAST_WINDOW = 1104,       /* address + 256, the window's end */
    UF2_CAUSE_NO_WINDOW = 1105,         /* address, 0x12000000; asked before 1102 and row 10 */
    UF2_CAUSE_FINISHED = 1201,          /* the arrival's own number and total */
    UF2_CAUSE_AGAIN = 1301,             /* the arrival's own number and total */
    UF2_CAUSE_NO_REGION = 1401,         /* the raised count, the total */
    UF2_CAUSE_IN_RAM = 1402,            /* the raised count, the total */
    UF2_CAUSE_REGION_RAGGED = 1403,     /* the raised count, the total */
    UF2_CAUSE_REGION_EMPTY = 1404,      /* the raised count, the total */
    UF2_CAUSE_REGION_OUTSIDE = 1405,    /* the raised count, the total: not within the place */
    UF2_CAUSE_REGION_APART = 1406,      /* the raised count, the total: not around the block */
    UF2_CAUSE_OTHER_DIGEST = 1407,      /* the raised count, the total */
    UF2_CAUSE_COMPLETED = 1501,         /* the raised count, the total */
    UF2_CAUSE_NOTED = 1601,             /* the raised count, the total */
    UF2_CAUSE_KEPT = 1701               /* the raised count, the total */
};

/* A place that is found, by uf2_why_place. */
enum uf2_place_cause {
    UF2_PLACE_ABSOLUTE = 1, /* 0, 0: the whole flash, as absolute is allowed */
    UF2_PLACE_NO_TABLE = 2, /* 0, 0: the whole flash, as there is no table */
    UF2_PLACE_ENTRY = 3     /* the pass, 1 to 4; 0; and the entry */
};

/* What turns an entry down where no entry of the table takes the family. */
enum uf2_mark { UF2_MARK_NONE = 0, UF2_MARK_B_OF = 1, UF2_MARK_NOT_ACCEPTING = 2 };

/* What uf2_look returns, and why. Nothing but the reason is written. */
uint32_t uf2_why(const uint8_t *settings, uf2_len settings_len, const uint8_t *transfer, uf2_len transfer_len, const uint8_t *arrival,
                 uf2_len arrival_len, const uint8_t *flash, uf2_len flash_len, const uint8_t *seen, uf2_len seen_len, const uint8_t *sectors,
                 uf2_len sectors_len, const uint8_t *main_ram, uf2_len main_ram_len, const uint8_t *xip_ram, uf2_len xip_ram_len, uint8_t *reason,
                 uf2_len reason_len);

/* What uf2_ask returns of a family in a flash of flash_len bytes, 0, 1, 2 or 8, and why. */
uint32_t uf2_why_place(const uint8_t *settings, uf2_len settings_len, uf2_len flash_len, uint32_t family, uint8_t *reason, uf2_len reason_len);

#ifdef __cplusplus
}
#endif

#endif
