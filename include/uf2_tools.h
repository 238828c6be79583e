/* Files made of images, digests, one Universal Hex file from two plain ones, traces replayed, and exact figures over them, for tools on a host:
 * every function is proved to do what the folder `specs` of a crate says, for every input. It is that of toolsapi for uf2_make, uf2_make_regions,
 * uf2_md5 and uhex_join, of uf2_make for uf2_make_check and uf2_make_block, of traceapi for uf2_replay and uf2_figures.
 * What a board links is include/uf2_receiver.h.
 *
 * Built for the machines that uf2_receiver.h names: `tools/target --host` writes target/staticlib/libtoolsapi.a, and
 * libtraceapi.a, which has uf2_replay and uf2_figures. Both link beside the libraries of uf2_receiver.h; they call nothing but memcpy, memmove and memset
 * (libtraceapi.a on Cortex-M33 and RV32IMAC also the compiler's own division of 64 bits), allocate nothing and keep nothing between calls. What
 * uf2_receiver.h says of UF2_STACK_SIZE holds here too.
 *
 * A slice is a pointer to bytes and then their number, and no function keeps a pointer. A pointer is never null, also of an empty slice, and
 * points to as many bytes as the number says; it may have any alignment. A slice that a function writes (no `const`) overlaps no other
 * slice of the call. */
#ifndef UF2_TOOLS_H
#define UF2_TOOLS_H

#include "uf2_len.h"

#ifdef __cplusplus
extern "C" {
#endif

/* An image is whole pages; a file has one block for each. */
#define UF2_MAKE_PAGE_SIZE 256
#define UF2_MAKE_BLOCK_SIZE 512
#define UF2_MAKE_OUTPUT_SIZE(image_len) ((image_len) / UF2_MAKE_PAGE_SIZE * UF2_MAKE_BLOCK_SIZE)

/* What comes of an image. They are asked in this order, and the first that fits is given. */
enum uf2_make_answer {
    UF2_MAKE_DONE = 0,
    UF2_MAKE_BAD_IMAGE = 50,   /* the image is empty, or no whole pages of 256 bytes */
    UF2_MAKE_BAD_START = 51,   /* the start is not from 0x10000000 up to, not including, 0x12000000, or no multiple of 256 */
    UF2_MAKE_PAST_WINDOW = 52, /* the image runs past 0x12000000 */
    UF2_MAKE_SHORT_OUTPUT = 53 /* the output has under 512 bytes for each page: UF2_MAKE_OUTPUT_SIZE(image_len) */
};

/* What uf2_make would answer to an image of image_len bytes and an output of output_len. */
uint32_t uf2_make_check(uf2_len image_len, uint32_t start, uf2_len output_len);

/* Writes the UF2 blocks of an image in number order at the start of the output: the family's flag alone, block k at start + 256 k, data
 * padded with zeros. A refusal writes nothing, and what follows the last block stays. */
uint32_t uf2_make(const uint8_t *image, uf2_len image_len, uint32_t family, uint32_t start, uint8_t *output, uf2_len output_len);

/* The same with a region for each sector: every block has flag 0x4000 too, and its last 24 data bytes name the sector of 4,096 bytes that it lies
 * in, with the MD5 of what the sector holds once the file is whole: the image's pages, and 0xFF in the rest. Sent again after a cut, a block
 * whose sector is whole is answered 17 (UF2_ANSWER_KEPT) and not written. The refusals and their order are those of uf2_make, and uf2_make_check tells
 * them too. Each block costs a digest of 4,096 bytes. */
uint32_t uf2_make_regions(const uint8_t *image, uf2_len image_len, uint32_t family, uint32_t start, uint8_t *output, uf2_len output_len);

/* Writes one block as uf2_make does, for a tool that makes a file page by page and has asked uf2_make_check first. Where page_len is not
 * UF2_MAKE_PAGE_SIZE, or block_len not UF2_MAKE_BLOCK_SIZE, nothing is written. */
void uf2_make_block(uint32_t address, uint32_t number, uint32_t total, uint32_t family, const uint8_t *page, uf2_len page_len,
                    uint8_t *block, uf2_len block_len);

/* Writes one Universal Hex file at the start of the output from a plain Intel Hex file for V1 and one for V2: V1's section, V2's, each a
 * multiple of 512 bytes, and a record 01; lines end with LF, digits are upper case. A refusal writes nothing, and what follows the file
 * stays. The result, in 64 bits:
 *   UHEX_JOIN_ANSWER    0, and the file is written; or why not:
 *                       20 to 25 as `enum uhex_answer` of uf2_receiver.h has them; 26 a type over 05, or a length that the type does not have, or
 *                       no 01 at the end; 29 data past the 65,536 bytes that one 02 or 04 reaches; 30 no data byte; 31 a line after the 01;
 *                       36 an input over 4,194,304 bytes (UHEX_JOIN_MAX_SIZE), or the output over 4,194,304 bytes, or longer than what is lent
 *                       V1's file is asked whole, with its missing 01 and its 30, before V2's first line, and the output's 36 comes last
 *   UHEX_JOIN_POSITION  with 22 the position of the first bad character, counted from 0 at the colon; else 0
 *   UHEX_JOIN_BOARD     whose file is refused: 1 is V1, which is read first, 2 is V2; 0 for the output, or where the file is written
 *   UHEX_JOIN_LINE      the index from 0 of the line that is refused; for a missing 01 and for 30 the number of lines; 0 for the output
 *   UHEX_JOIN_LENGTH    where the file is written, how many bytes */
#define UHEX_JOIN_MAX_SIZE 4194304
#define UHEX_JOIN_ANSWER(result) ((uint32_t)((result) & 255u))
#define UHEX_JOIN_POSITION(result) ((uint32_t)((result) >> 8 & 65535u))
#define UHEX_JOIN_BOARD(result) ((uint32_t)((result) >> 24 & 255u))
#define UHEX_JOIN_LINE(result) ((uint32_t)((result) >> 32))
#define UHEX_JOIN_LENGTH(result) ((uint32_t)((result) >> 32))
uint64_t uhex_join(const uint8_t *v1, uf2_len v1_len, const uint8_t *v2, uf2_len v2_len, uint8_t *output, uf2_len output_len);

/* The MD5 digest (RFC 1321) of bytes, in the RFC's byte order, as a block with flag 0x4000 has it. Where digest_len is not
 * UF2_MD5_SIZE nothing is written. */
#define UF2_MD5_SIZE 16
void uf2_md5(const uint8_t *bytes, uf2_len bytes_len, uint8_t *digest, uf2_len digest_len);

/* What a site's host really sent. A trace is records of UF2_RECORD_SIZE bytes: one byte with the answer that the site got (5 bits, from the
 * top bit down), 1 bit for "discarded" and two zeros, then the arrival of 512 bytes; UF2_RECORD(result) is that byte of what uf2_take
 * returned. */
#define UF2_RECORD_SIZE 513
#define UF2_INDEX_SIZE 8
#define UF2_RECORD(result) ((uint8_t)(((result) & 0x1f) << 3 | ((result) >= 128 ? 4 : 0)))

/* Where a replay stops. */
enum uf2_stop {
    UF2_STOP_NONE = 0,   /* nowhere: every record was replayed */
    UF2_STOP_BAD = 1,    /* at a record that is short or has stray bits */
    UF2_STOP_DIFFERS = 2 /* at one whose answer or "discarded" is not ours */
};

/* Replays a trace from Idle with these settings and buffers (uf2_receiver.h has their layout and lengths). Both maps are zeroed first,
 * whatever their length. The record that stops the replay is not applied: transfer and buffers are those after the records before it.
 * Nothing is refused: buffers or settings that are wrong get answer 1 or 2 from each arrival.
 *
 * The transfer at the end is written where transfer_len is that of a transfer, and the index of the record at which it stopped, from 0
 * and with the lowest byte first, where index_len is UF2_INDEX_SIZE; else they stay, and without a stop the index does too.
 *
 * Each record is looked at and then taken, so that a region (flag 0x4000) is hashed twice. */
uint32_t uf2_replay(const uint8_t *settings, uf2_len settings_len, const uint8_t *trace, uf2_len trace_len, uint8_t *flash,
                    uf2_len flash_len, uint8_t *seen, uf2_len seen_len, uint8_t *sectors, uf2_len sectors_len, uint8_t *main_ram,
                    uf2_len main_ram_len, uint8_t *xip_ram, uf2_len xip_ram_len, uint8_t *transfer, uf2_len transfer_len, uint8_t *index,
                    uf2_len index_len);

/* Exact figures over many traces, each replayed from Idle. A report is UF2_REPORT_SIZE bytes: 21 numbers of 32 bits, each with the lowest byte
 * first. A fresh report is all zeros.
 *    0  the records replayed, which are those before a stop
 *    4  how many of them had each of our answers, 16 numbers: UF2_REPORT_COUNT(answer) is the offset of one
 *   68  how many of them discarded a running transfer
 *   72  the different numbers marked at the end of the last trace
 *   76  1 if its transfer was running then, and so a number is missing; else 0
 *   80  the smallest number that is missing, or 0 */
#define UF2_REPORT_SIZE 84
#define UF2_REPORT_RECORDS 0
#define UF2_REPORT_COUNT(answer) (4 + 4 * ((answer) <= 5 ? (answer) - 1 : (answer) - 2))
#define UF2_REPORT_DISCARDS 68
#define UF2_REPORT_MARKED 72
#define UF2_REPORT_IS_MISSING 76
#define UF2_REPORT_MISSING 80

/* Why a trace is not added. 71 is asked first. */
enum uf2_figures_refusal {
    UF2_FIGURES_TOO_MANY = 70,  /* the report's records and the whole pieces of the trace, replayed or not, would pass 4,294,967,295 */
    UF2_FIGURES_BAD_REPORT = 71 /* the counts do not sum to the records, more discards than records, or another length */
};

/* Adds one trace to a report: it is replayed as uf2_replay does, and the result is where it stopped (enum uf2_stop) with its index, or a
 * refusal, which leaves the bytes of report and index and every buffer as they were lent. An index of another length than UF2_INDEX_SIZE
 * stays as it was lent, and changes nothing else; without a stop the index stays too. */
uint32_t uf2_figures(uint8_t *report, uf2_len report_len, const uint8_t *settings, uf2_len settings_len, const uint8_t *trace,
                     uf2_len trace_len, uint8_t *flash, uf2_len flash_len, uint8_t *seen, uf2_len seen_len, uint8_t *sectors,
                     uf2_len sectors_len, uint8_t *main_ram, uf2_len main_ram_len, uint8_t *xip_ram, uf2_len xip_ram_len,
                     uint8_t *index, uf2_len index_len);

#ifdef __cplusplus
}
#endif

#endif
