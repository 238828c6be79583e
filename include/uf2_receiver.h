/* The update receiver for C: every function is proved to do what the folder `specs` of a crate says, for every input. It is that of call_bytes for
 * uf2_look, uf2_take, uf2_accept, uf2_take_all, uf2_ask and uhex_line, of transfer_layout for uf2_new and of uhex_layout for uhex_new.
 *
 * vantorel.h has the same calls with buffers that carry their lengths; libvantorel.a has all of them.
 *
 * Built for: x86-64 Linux, for which `tools/target --host` writes target/staticlib/libNAME.a (System V calling convention); Cortex-M33,
 * RV32IMAC, AArch64, WebAssembly and x86-64 Windows, by `tools/target` (docs/BOARD.md). The code calls nothing but memcpy, memmove and memset (Cortex-M33: under
 * Arm's names for them), allocates nothing and keeps nothing between calls, so that calls on different buffers may run at the same time. A
 * call needs at most UF2_STACK_SIZE bytes of stack (measured: docs/BENCHMARKS.md). Each library stands alone: link those of the calls that
 * you use, in any order, or all of them (gcc .. target/staticlib/lib*.a). A call for one arrival is a library of its own, since it is then
 * compiled as one piece.
 *
 *     acceptapi   uf2_accept
 *     takeapi     uf2_take
 *     lookapi     uf2_look
 *     capi        uf2_new, uf2_ask, uf2_take_all, uhex_new, uhex_line
 *
 * Which call is for whom: uf2_take where flash is memory that can be stored to (an erase sets 4,096 bytes to 0xFF, a payload is copied to
 * its place); uf2_accept where flash can be read as memory, and is written by a driver that erases sectors and programs pages; uf2_take_all
 * for a host that has many arrivals at once, and the flash as memory. All three answer alike.
 *
 * A slice is a pointer to bytes and then their number (`uf2_len`, 64 bits), and no function keeps a pointer. A pointer is never null,
 * also of an empty slice, and points to as many bytes as the number says; it may have any alignment. Slices that a function writes (no
 * `const`) overlap no other slice of the call.
 *
 * Names: `.._SIZE` is a number of bytes, `.._AT` the offset of a byte in a slice, `UF2_ANSWER_..` and `UHEX_ANSWER_..` what a call says,
 * `UF2_STATE_..` and `UHEX_STATE_..` where a transfer or a reader stands, `UF2_KIND_..` what a transfer writes to, `UF2_PLAN_..` what is
 * left to do to the flash. */
#ifndef UF2_RECEIVER_H
#define UF2_RECEIVER_H

#include "uf2_len.h"

#ifdef __cplusplus
extern "C" {
#endif

#define UF2_STACK_SIZE 8192

/* ---- What is lent for arrivals. A flash is whole sectors, from one to UF2_FLASH_MAX_SIZE bytes. */
#define UF2_ARRIVAL_SIZE 512
#define UF2_SEEN_MAP_SIZE 16384
#define UF2_SECTOR_MAP_SIZE 1024
#define UF2_SECTOR_SIZE 4096
#define UF2_FLASH_MAX_SIZE 33554432

/* RAM images are handled: a block whose address lies in a RAM window is stored in the buffer of that RAM, from byte (address - .._START) on.
 * A board that has the RAM lends exactly .._SIZE bytes for it. A board that lacks it lends an empty slice: any pointer but null, and the
 * length 0. Its addresses then lie in no window, and no block there is ever accepted. Any other length of a RAM buffer is
 * UF2_ANSWER_BAD_BUFFERS, for every arrival, those for flash too. */
#define UF2_MAIN_RAM_SIZE 532480
#define UF2_XIP_RAM_SIZE 16384

/* The windows: addresses from .._START up to, not including, .._END. That of flash is the same for every length of flash. */
#define UF2_FLASH_START 0x10000000u
#define UF2_FLASH_END 0x12000000u
#define UF2_MAIN_RAM_START 0x20000000u
#define UF2_MAIN_RAM_END 0x20082000u
#define UF2_XIP_RAM_START 0x13ffc000u
#define UF2_XIP_RAM_END 0x14000000u

/* What a transfer writes to: one of the three for a whole file. A block of another kind than the running transfer's discards it, as one
 * of another family or total does. */
enum uf2_kind { UF2_KIND_FLASH = 0, UF2_KIND_MAIN_RAM = 1, UF2_KIND_XIP_RAM = 2 };

/* ---- Numbers of 32 bits in the layouts below stand as four bytes, the lowest first. */
static inline void uf2_put32(uint8_t *at, uint32_t x) {
    at[0] = (uint8_t)(x & 255u);
    at[1] = (uint8_t)(x >> 8 & 255u);
    at[2] = (uint8_t)(x >> 16 & 255u);
    at[3] = (uint8_t)(x >> 24);
}

static inline uint32_t uf2_get32(const uint8_t *at) {
    return (uint32_t)at[0] | (uint32_t)at[1] << 8 | (uint32_t)at[2] << 16 | (uint32_t)at[3] << 24;
}

/* ---- Settings. A flag is on if its byte is not 0; uf2_store_read writes each as 0 or 1. A slice of another length is no settings, and is answered
 * UF2_ANSWER_BAD_SETTINGS. All zeros with the byte at UF2_SETTINGS_ARM_AT set: Arm alone, no partition table. */
#define UF2_SETTINGS_SIZE 550
#define UF2_SETTINGS_ARM_AT 0         /* flag: Arm enabled */
#define UF2_SETTINGS_RISCV_AT 1       /* flag: RISC-V enabled */
#define UF2_SETTINGS_CURRENT_AT 2     /* current architecture: 0 Arm, else RISC-V */
#define UF2_SETTINGS_AUTO_SWITCH_AT 3 /* flag */
#define UF2_SETTINGS_ABSOLUTE_AT 4    /* flag: the family absolute is allowed */
#define UF2_SETTINGS_COUNT_AT 5       /* used entries, at most UF2_MAX_ENTRIES; 0: no partition table */
#define UF2_SETTINGS_TABLE_AT 6       /* the entries; those past the count are not read, and none where it is over UF2_MAX_ENTRIES */

/* An entry of the table. Entry k begins at UF2_SETTINGS_ENTRY_AT(k) of the settings; the other offsets are counted from there. */
#define UF2_MAX_ENTRIES 16
#define UF2_ENTRY_SIZE 34
#define UF2_SETTINGS_ENTRY_AT(k) (UF2_SETTINGS_TABLE_AT + (k) * UF2_ENTRY_SIZE)
#define UF2_ENTRY_FIRST_AT 0               /* 32 bits: first sector */
#define UF2_ENTRY_SECTORS_AT 4             /* 32 bits: number of sectors */
#define UF2_ENTRY_USERS_AT 8               /* 32 bits each: four user families */
#define UF2_ENTRY_DATA_AT 24               /* flags: the families that the entry accepts */
#define UF2_ENTRY_ARM_S_AT 25
#define UF2_ENTRY_RISCV_AT 26
#define UF2_ENTRY_ARM_NS_AT 27
#define UF2_ENTRY_USER_COUNT_AT 28         /* used user families, at most 4 */
#define UF2_ENTRY_NOT_BOOTABLE_ARM_AT 29   /* flag */
#define UF2_ENTRY_NOT_BOOTABLE_RISCV_AT 30 /* flag */
#define UF2_ENTRY_LINK_AT 31               /* enum uf2_link; any other number makes a used entry bad */
#define UF2_ENTRY_LINK_INDEX_AT 32         /* the entry that it is owned by or B of */
#define UF2_ENTRY_NO_RESTART_AT 33         /* flag: don't restart. No answer depends on it */

enum uf2_link { UF2_LINK_NONE = 0, UF2_LINK_OWNED_BY = 1, UF2_LINK_B_OF = 2 };

/* ---- Families */
#define UF2_FAMILY_RP2040 0xe48bff56u
#define UF2_FAMILY_ABSOLUTE 0xe48bff57u
#define UF2_FAMILY_DATA 0xe48bff58u
#define UF2_FAMILY_ARM_S 0xe48bff59u
#define UF2_FAMILY_RISCV 0xe48bff5au
#define UF2_FAMILY_ARM_NS 0xe48bff5bu

/* ---- A transfer: made by uf2_new, it goes in and comes back with each arrival. A slice of another length is no transfer, and is
 * answered UF2_ANSWER_BAD_STATE. */
#define UF2_TRANSFER_SIZE 14
#define UF2_TRANSFER_STATE_AT 0  /* enum uf2_state; any other number is no transfer either */
#define UF2_TRANSFER_FAMILY_AT 1 /* 32 bits each, and 0 where idle */
#define UF2_TRANSFER_TOTAL_AT 5
#define UF2_TRANSFER_COUNT_AT 9  /* blocks counted; the total where done, where it is not read */
#define UF2_TRANSFER_KIND_AT 13  /* enum uf2_kind; where running or done any other number is no transfer either. Idle: 0, and not read */

enum uf2_state { UF2_STATE_IDLE = 0, UF2_STATE_RUNNING = 1, UF2_STATE_DONE = 2 };

/* ---- A place in flash: written by uf2_ask. */
#define UF2_PLACE_SIZE 8
#define UF2_PLACE_START_AT 0 /* 32 bits each, in bytes of the flash */
#define UF2_PLACE_LENGTH_AT 4

/* ---- Answers to an arrival. They are asked in this order, and the first that fits is given; but where the address of a block that is
 * no comment lies in no window, 11 is asked before 10. 1 to 13 change nothing that is lent but for the plan of uf2_accept, which is then all
 * 0 (of another length than UF2_PLAN_SIZE it stays). No answer has the number 6.
 *
 * A comment has flag 0x1, "not main flash"; its address is not read and it is not stored. A comment of the running transfer's family and
 * total has that transfer's kind, unless the buffer of this kind is empty; every other comment is of kind flash. */
enum uf2_answer {
    UF2_ANSWER_FOUND = 0,        /* of uf2_ask alone: the family has a place */
    UF2_ANSWER_BAD_BUFFERS = 1,  /* the arrival, the flash, a map, a RAM buffer or a plan has a wrong length */
    UF2_ANSWER_BAD_SETTINGS = 2, /* the settings are not good for this flash */
    UF2_ANSWER_BAD_STATE = 3,    /* the transfer's numbers fit no transfer */
    UF2_ANSWER_NOT_BLOCK = 4,    /* no UF2 block: a magic number differs */
    UF2_ANSWER_CONTAINER = 5,    /* flag 0x1000: of a file container, which is not for the board's memory */
    UF2_ANSWER_NO_FAMILY = 7,    /* flag 0x2000 is clear: the block names no family */
    UF2_ANSWER_NO_PLACE = 8,     /* the family has no place in flash, or may not go to RAM. In flash, and where the address is in no
                                    window: the settings have none for it. In RAM: it is none of data, arm-s, riscv and arm-ns, and no
                                    user family of a used entry */
    UF2_ANSWER_BAD_PAYLOAD = 9,  /* the payload's size is not 256; not asked of a comment */
    UF2_ANSWER_BAD_NUMBERS = 10, /* the total is 0 or more than the place or the RAM holds, or the number is not below the total */
    UF2_ANSWER_BAD_ADDRESS = 11, /* the address is in no window, past the end of the place or the RAM, or in flash no multiple of 256.
                                    In RAM any byte address is good up to 256 before the window's end. Not asked of a comment */
    UF2_ANSWER_FINISHED = 12,    /* the file was complete already */
    UF2_ANSWER_AGAIN = 13,       /* a block of this number had come before; whether it was the same block is not asked (below) */
    UF2_ANSWER_WRITTEN = 14,     /* stored, others are missing */
    UF2_ANSWER_COMPLETED = 15,   /* the last one that was missing: the file is complete: stored, kept or, a comment, noted */
    UF2_ANSWER_NOTED = 16,       /* a comment (flag 0x1): counted and not stored, others are missing */
    UF2_ANSWER_KEPT = 17         /* counted and not stored, since the flash has what its region names; others are missing */
};

/* A file is known by family, total and kind alone. Another build of as many blocks, sent after the first was stopped, is taken for the rest of the
 * first: its blocks are answered 13 where the first's came, and the last one 15, over a mixture of the two. So let uf2_new be called where
 * a host begins (plugged in, ejected, no arrival for a second); compare a block answered 12 or 13 with the memory (uf2_stands.h), and where it
 * differs, uf2_new and the block anew; and say "complete" only once every block of the file stands. */

/* A region: a block with flag 0x4000 names one in its last 24 data bytes (byte 484 of the arrival: its start, an address like the block's, and its
 * length, both the lowest byte first, then the MD5 digest of its bytes). It counts for a flash data block that would be stored, where it is whole
 * sectors, not empty, within the place and around the block. Where the flash there has that digest, the block is counted and nothing is stored:
 * UF2_ANSWER_KEPT, or UF2_ANSWER_COMPLETED if it is the last. Else the flag changes nothing.
 *
 * What it costs: each block of a region that is accepted hashes the whole region once, and a look once more; nothing is kept between calls. A
 * region of 16 pages (one sector) costs 16 hashes of 4 KiB, one of 1 MiB costs 4,096 hashes of 1 MiB. So let a file name regions of one sector
 * or of 64 KiB, and look only where you need to. A comment, a RAM block, UF2_ANSWER_FINISHED, _AGAIN and every refusal hash nothing. */

/* A result is an answer, with UF2_RESULT_DISCARDED added where the block discarded a running transfer of another file. */
#define UF2_RESULT_DISCARDED 128u
#define UF2_RESULT_ANSWER(result) ((result) & 127u)
#define UF2_RESULT_IS_DISCARDED(result) (((result) & UF2_RESULT_DISCARDED) != 0)
/* Whether a block with this answer is accepted: taken, it is counted now, and stored unless it is a comment or kept; looked at, it would be. */
#define UF2_ANSWER_IS_ACCEPTED(answer) ((answer) >= UF2_ANSWER_WRITTEN)

/* Writes a fresh transfer, where there are UF2_TRANSFER_SIZE bytes; else changes nothing. */
void uf2_new(uint8_t *transfer, uf2_len transfer_len);

/* The place of a family in flash: UF2_ANSWER_FOUND, with start and length in `place`; or UF2_ANSWER_BAD_BUFFERS (the flash's length is wrong,
 * or place_len is not UF2_PLACE_SIZE), UF2_ANSWER_BAD_SETTINGS or UF2_ANSWER_NO_PLACE, with `place` unchanged. */
uint32_t uf2_ask(const uint8_t *settings, uf2_len settings_len, uf2_len flash_len, uint32_t family, uint8_t *place, uf2_len place_len);

/* A look at an arrival: the result that uf2_take would return on the same bytes. It changes nothing. */
uint32_t uf2_look(const uint8_t *settings, uf2_len settings_len, const uint8_t *transfer, uf2_len transfer_len, const uint8_t *arrival,
                  uf2_len arrival_len, const uint8_t *flash, uf2_len flash_len, const uint8_t *seen, uf2_len seen_len,
                  const uint8_t *sectors, uf2_len sectors_len, const uint8_t *main_ram, uf2_len main_ram_len, const uint8_t *xip_ram,
                  uf2_len xip_ram_len);

/* An arrival taken: its result. An accepted block writes the next transfer, and stores in the buffer of its kind alone: a page of flash in a
 * sector that is erased first where it is not marked, a page of RAM as its 256 bytes and no more, a comment nowhere. Every other answer leaves
 * all that is lent. A take makes every check itself: it needs no look before it, and one that looked at something else harms nothing. */
uint32_t uf2_take(const uint8_t *settings, uf2_len settings_len, uint8_t *transfer, uf2_len transfer_len, const uint8_t *arrival,
                  uf2_len arrival_len, uint8_t *flash, uf2_len flash_len, uint8_t *seen, uf2_len seen_len, uint8_t *sectors,
                  uf2_len sectors_len, uint8_t *main_ram, uf2_len main_ram_len, uint8_t *xip_ram, uf2_len xip_ram_len);

/* ---- A plan for the flash's driver: written by uf2_accept. Three numbers of 32 bits; sector and page are offsets in the flash, and all
 * three are 0 where nothing is planned. */
#define UF2_PLAN_SIZE 12
#define UF2_PLAN_DEED_AT 0   /* enum uf2_plan */
#define UF2_PLAN_SECTOR_AT 4 /* the sector of the page: UF2_SECTOR_SIZE bytes from here */
#define UF2_PLAN_PAGE_AT 8   /* the page: UF2_PAYLOAD_SIZE bytes from here */

/* The bytes of an arrival that the page gets. */
#define UF2_PAYLOAD_AT 32
#define UF2_PAYLOAD_SIZE 256

enum uf2_plan {
    UF2_PLAN_NOTHING = 0, /* a refusal, a comment, a kept block, or one for RAM, which is stored already */
    UF2_PLAN_PROGRAM = 1, /* program the page */
    UF2_PLAN_ERASE = 2    /* erase the sector, then program the page */
};

/* An arrival accepted, with the flash left to a driver: the result that uf2_take would return on the same bytes. It makes every check of a
 * take, and leaves transfer, both maps and the RAM buffers exactly as the take does; of the flash it reads alone, and `plan` says what the
 * take would have done to it. Where plan_len is not UF2_PLAN_SIZE the answer is UF2_ANSWER_BAD_BUFFERS, and nothing changes. Perform the
 * plan before the next call that is lent the same flash.
 *
 * What the driver may rely on (crates/arrival_claims/specs, for every input):
 * - the plan performed gives the flash that the take would leave, byte for byte, one after the other over every list of arrivals;
 * - page and sector lie in the flash, in the place of the block's family; the page is a multiple of UF2_PAYLOAD_SIZE and lies in that
 *   sector, which is a multiple of UF2_SECTOR_SIZE;
 * - from a fresh transfer on, in each transfer a sector is planned to be erased at most once, and with its first page: no page is planned
 *   into a sector that was not erased in this transfer.
 * A page is planned once if no two blocks of the file name the same address, as in a file of UF2 they should not. Where two do, the second
 * is planned too, since the take stores it: a flash that cannot store it over the first is a driver that fails.
 *
 * Where the driver fails: drop the transfer (uf2_new), and let the file be sent again from its first block. Transfer and maps say already
 * that the page is there, and that its sector was erased: a transfer that went on would answer UF2_ANSWER_AGAIN to the same block, and end
 * as UF2_ANSWER_COMPLETED with a page that is not in the flash. A fresh transfer clears both maps with its first block, so that each sector
 * is erased anew.
 *
 * A transfer that is kept over a loss of power needs a mark in the same memory, set before this call and cleared after its plan: where it is
 * set at the start, uf2_new. A loss within the call leaves the maps half written, and one before the end of the plan leaves a page that is
 * counted and not there. Else do not keep it. A kept UF2_STATE_DONE is no proof either. Memory that can lose bits gets a checksum over
 * transfer and maps, made after each call and asked before the next: where it differs, uf2_new. (examples/loader does all of it.) */
uint32_t uf2_accept(const uint8_t *settings, uf2_len settings_len, uint8_t *transfer, uf2_len transfer_len, const uint8_t *arrival,
                    uf2_len arrival_len, const uint8_t *flash, uf2_len flash_len, uint8_t *seen, uf2_len seen_len, uint8_t *sectors,
                    uf2_len sectors_len, uint8_t *main_ram, uf2_len main_ram_len, uint8_t *xip_ram, uf2_len xip_ram_len, uint8_t *plan,
                    uf2_len plan_len);

/* Arrivals taken one after the other, each UF2_ARRIVAL_SIZE bytes: as many whole ones as there are bytes in `results`, which get the
 * results that uf2_take would return; the number of them. The other bytes of `results` stay as they were lent, and so does the transfer
 * where no block is accepted. Settings are read once. What follows the last whole arrival, or the last that has room for its result,
 * is not read: a short last piece is for uf2_take, which answers it UF2_ANSWER_BAD_BUFFERS. */
uf2_len uf2_take_all(const uint8_t *settings, uf2_len settings_len, uint8_t *transfer, uf2_len transfer_len, const uint8_t *arrivals,
                     uf2_len arrivals_len, uint8_t *results, uf2_len results_len, uint8_t *flash, uf2_len flash_len, uint8_t *seen,
                     uf2_len seen_len, uint8_t *sectors, uf2_len sectors_len, uint8_t *main_ram, uf2_len main_ram_len, uint8_t *xip_ram,
                     uf2_len xip_ram_len);

/* ---- Universal Hex, a line at a time, for one board. Numbers of 16 bits stand as two bytes, the lowest first. */
static inline void uhex_put16(uint8_t *at, uint16_t x) {
    at[0] = (uint8_t)(x & 255u);
    at[1] = (uint8_t)(x >> 8);
}

static inline uint16_t uhex_get16(const uint8_t *at) {
    return (uint16_t)((unsigned)at[0] | (unsigned)at[1] << 8);
}

/* The two boards that a file must serve. An image has from one to UHEX_IMAGE_MAX_SIZE bytes, a file at most UHEX_FILE_MAX_SIZE. */
#define UHEX_BOARD_V1 0x9900u
#define UHEX_BOARD_V2 0x9903u
#define UHEX_IMAGE_MAX_SIZE 1048576
#define UHEX_FILE_MAX_SIZE 4194304

/* A buffer for one line: 521 characters, CR and LF. Every line that can pass fits (one that does has at most 75 characters), and every
 * line that is refused for what it says and not for its length. Where so many bytes have come and no LF is among them, hand these over
 * and stop: they are refused by 20 or 21, as the whole line would be (one that passes the limit of a file would be 36), and the reader
 * has failed. The last line of a file may have no LF; where nothing follows the last LF there is no further line. */
#define UHEX_LINE_SIZE 523

/* A reader: made by uhex_new, it goes in and comes back with each line. A flag is on if its byte is not 0, and is written as 0 or 1. A slice of another length
 * is no reader, and is answered UHEX_ANSWER_BAD_READER. */
#define UHEX_READER_SIZE 16
#define UHEX_READER_OWN_AT 0         /* 16 bits: its own board, UHEX_BOARD_V1 or _V2; any other is answered UHEX_ANSWER_BAD_READER */
#define UHEX_READER_UPPER_AT 2       /* 16 bits: the upper half of addresses, from the latest record 04 */
#define UHEX_READER_OFFSET_AT 4      /* 32 bits: bytes of the file read so far; over UHEX_FILE_MAX_SIZE: UHEX_ANSWER_BAD_READER */
#define UHEX_READER_STATE_AT 8       /* enum uhex_state; any other number is no reader either */
#define UHEX_READER_FAILURE_AT 9     /* where it has failed: the answer that it failed by, 20 to 30 or 36 (any other: UHEX_ANSWER_BAD_READER); else not read */
#define UHEX_READER_BOARD_AT 10      /* 16 bits, read only in a section: its board */
#define UHEX_READER_POSITION_AT 10   /* the same bytes, read only where it has failed by 22: the position, 1 to 520 (any other: UHEX_ANSWER_BAD_READER) */
#define UHEX_READER_SECTION_V1_AT 12 /* flags: a section of the board has come */
#define UHEX_READER_SECTION_V2_AT 13
#define UHEX_READER_DATA_V1_AT 14    /* flags: the board's section gave a data byte */
#define UHEX_READER_DATA_V2_AT 15

enum uhex_state {
    UHEX_STATE_BETWEEN = 0, /* before a section, or before the end */
    UHEX_STATE_OPENED = 1,  /* after the record 04 that opens a section */
    UHEX_STATE_INSIDE = 2,  /* in a section */
    UHEX_STATE_PADDED = 3,  /* in a section, after its first record 0C */
    UHEX_STATE_ENDED = 4,   /* after the record 01 */
    UHEX_STATE_FAILED = 5
};

/* Answers to a line. They are asked in this order: 19, 18, a failed reader's own, 31, 36, then 20 and on by number. 20 to 30 and 36 make
 * the reader failed, and a failed reader repeats its answer; 32 to 35 move it on. Only 33 stores in the image. 18, 19, 31 and the
 * answer of a reader that had failed before change nothing that is lent. */
enum uhex_answer {
    UHEX_ANSWER_BAD_READER = 18,    /* the reader's numbers fit no reader */
    UHEX_ANSWER_BAD_IMAGE = 19,     /* the image has a wrong length */
    UHEX_ANSWER_NO_COLON = 20,      /* the line is empty or does not begin with a colon */
    UHEX_ANSWER_BAD_SHAPE = 21,     /* the line has under 11, over 521 or an even number of characters */
    UHEX_ANSWER_BAD_DIGIT = 22,     /* a character is no hex digit; its position is counted from 0 at the colon, and is in the result */
    UHEX_ANSWER_TOO_LONG = 23,      /* the record says more than 32 data bytes */
    UHEX_ANSWER_BAD_LENGTH = 24,    /* the record's length is not the one that it says */
    UHEX_ANSWER_BAD_SUM = 25,       /* the record's checksum is wrong */
    UHEX_ANSWER_OUT_OF_PLACE = 26,  /* a record of this type or length is not allowed here */
    UHEX_ANSWER_UNALIGNED = 27,     /* a section begins at an offset that is no multiple of 512 */
    UHEX_ANSWER_REPEATED = 28,      /* a second section of V1 or of V2 */
    UHEX_ANSWER_CROSSES = 29,       /* the data runs past the 65,536 bytes that one record 04 reaches */
    UHEX_ANSWER_MISSING_BOARD = 30, /* the file ends before V1 and V2 each gave a data byte */
    UHEX_ANSWER_AFTER_END = 31,     /* a line after the end of the file */
    UHEX_ANSWER_OUTSIDE = 32,       /* data of this board that is not wholly in the image: LEFT OUT, and reading goes on */
    UHEX_ANSWER_STORED = 33,        /* data of this board, stored */
    UHEX_ANSWER_PASSED = 34,        /* any other good record */
    UHEX_ANSWER_ENDED = 35,         /* the end of the file: the record 01. Every line was good, which does not say that the image is
                                       whole */
    UHEX_ANSWER_FILE_TOO_LONG = 36  /* with this line the file is longer than 4,194,304 bytes (UHEX_FILE_MAX_SIZE) */
};

/* Whether a line was not read: every answer but 32 to 35 (36 lies above them). */
#define UHEX_ANSWER_IS_FAILURE(answer) ((answer) < UHEX_ANSWER_OUTSIDE || (answer) > UHEX_ANSWER_ENDED)

/* Whether the image is whole: the last line was answered UHEX_ANSWER_ENDED, and no line UHEX_ANSWER_OUTSIDE. Own data answered
 * UHEX_ANSWER_OUTSIDE was left out of the image, the file goes on to its end all the same, and the reader keeps nothing of it: the
 * caller counts these answers (example.c), and flashes an image only where there were none. */
#define UHEX_IMAGE_IS_WHOLE(last_answer, outside_count) ((last_answer) == UHEX_ANSWER_ENDED && (outside_count) == 0)

/* Writes a fresh reader of a board, where there are UHEX_READER_SIZE bytes; else changes nothing. */
void uhex_new(uint16_t own, uint8_t *reader, uf2_len reader_len);

/* What `uhex_line` returns: the answer, 18 to 36, and with UHEX_ANSWER_BAD_DIGIT the position of the first bad character, counted from 0 at
 * the colon, 1 to 520; with any other answer 0. */
#define UHEX_RESULT_ANSWER(result) ((result) & 255)
#define UHEX_RESULT_POSITION(result) ((result) >> 8)

/* One line as it stands in the file, with its LF or CR LF: the answer, and 256 times its position. The reader's bytes are written by 32 to 35, and by 20 to
 * 30 and 36 where it had not failed before; every other answer leaves them as they were lent. */
uint32_t uhex_line(uint8_t *reader, uf2_len reader_len, const uint8_t *line, uf2_len line_len, uint8_t *image, uf2_len image_len);

#ifdef __cplusplus
}
#endif

#endif
