/* Names and words of answers and causes. Written by tools/words from words/answers.tsv: the tool `vantorel` and the training page print the same.
 *
 *     printf("%u %s: %s", answer, uf2_answer_name(answer), uf2_answer_words(answer));
 *     uf2_reason_words(&reason, text, sizeof text);
 *
 * Each table is a macro with a row X(number, CONSTANT, name, words), for an array or a switch of your own, and has two functions over it. All functions
 * are static: a program that calls none has none of the texts in it. */
#ifndef VANTOREL_WORDS_H
#define VANTOREL_WORDS_H

#include "vantorel.h"

#ifdef __cplusplus
extern "C" {
#endif

/* Answers to an arrival. */
#define UF2_ANSWER_TABLE(X) \
    X(0, UF2_ANSWER_FOUND, "Found", "of uf2_ask alone: the family has a place") \
    X(1, UF2_ANSWER_BAD_BUFFERS, "BadBuffers", "the arrival, the flash, a map, a RAM buffer or a plan has a wrong length") \
    X(2, UF2_ANSWER_BAD_SETTINGS, "BadSettings", "the settings are not good for this flash") \
    X(3, UF2_ANSWER_BAD_STATE, "BadState", "the transfer's numbers fit no transfer") \
    X(4, UF2_ANSWER_NOT_BLOCK, "NotBlock", "no UF2 block: a magic number differs") \
    X(5, UF2_ANSWER_CONTAINER, "Container", "flag 0x1000: of a file container, which is not for the board's memory") \
    X(7, UF2_ANSWER_NO_FAMILY, "NoFamily", "flag 0x2000 is clear: the block names no family") \
    X(8, UF2_ANSWER_NO_PLACE, "NoPlace", "the family has no place in flash, or may not go to RAM") \
    X(9, UF2_ANSWER_BAD_PAYLOAD, "BadPayload", "the payload's size is not 256") \
    X(10, UF2_ANSWER_BAD_NUMBERS, "BadNumbers", "the total is 0 or more than the place or the RAM holds, or the number is not below the total") \
    X(11, UF2_ANSWER_BAD_ADDRESS, "BadAddress", "the address is in no window, past the end of the place or the RAM, or in flash no multiple of 256") \
    X(12, UF2_ANSWER_FINISHED, "Finished", "the file was complete already") \
    X(13, UF2_ANSWER_AGAIN, "Again", "a block of this number had come before") \
    X(14, UF2_ANSWER_WRITTEN, "Written", "stored, others are missing") \
    X(15, UF2_ANSWER_COMPLETED, "Completed", "the last one that was missing: the file is complete") \
    X(16, UF2_ANSWER_NOTED, "Noted", "a comment (flag 0x1): counted and not stored, others are missing") \
    X(17, UF2_ANSWER_KEPT, "Kept", "counted and not stored, since the flash has what its region names; others are missing")

/* Answers to a line of Universal Hex. */
#define UHEX_ANSWER_TABLE(X) \
    X(18, UHEX_ANSWER_BAD_READER, "BadReader", "the reader's numbers fit no reader") \
    X(19, UHEX_ANSWER_BAD_IMAGE, "BadImage", "the image has a wrong length") \
    X(20, UHEX_ANSWER_NO_COLON, "NoColon", "the line is empty or does not begin with a colon") \
    X(21, UHEX_ANSWER_BAD_SHAPE, "BadShape", "the line has under 11, over 521 or an even number of characters") \
    X(22, UHEX_ANSWER_BAD_DIGIT, "BadDigit", "a character is no hex digit; its position is counted from 0 at the colon") \
    X(23, UHEX_ANSWER_TOO_LONG, "TooLong", "the record says more than 32 data bytes") \
    X(24, UHEX_ANSWER_BAD_LENGTH, "BadLength", "the record's length is not the one that it says") \
    X(25, UHEX_ANSWER_BAD_SUM, "BadSum", "the record's checksum is wrong") \
    X(26, UHEX_ANSWER_OUT_OF_PLACE, "OutOfPlace", "a record of this type or length is not allowed here") \
    X(27, UHEX_ANSWER_UNALIGNED, "Unaligned", "a section begins at an offset that is no multiple of 512") \
    X(28, UHEX_ANSWER_REPEATED, "Repeated", "a second section of V1 or of V2") \
    X(29, UHEX_ANSWER_CROSSES, "Crosses", "the data runs past the 65,536 bytes that one record 04 reaches") \
    X(30, UHEX_ANSWER_MISSING_BOARD, "MissingBoard", "the file ends before V1 and V2 each gave a data byte") \
    X(31, UHEX_ANSWER_AFTER_END, "AfterEnd", "a line after the end of the file") \
    X(32, UHEX_ANSWER_OUTSIDE, "Outside", "data of this board that is not wholly in the image: LEFT OUT") \
    X(33, UHEX_ANSWER_STORED, "Stored", "data of this board, stored") \
    X(34, UHEX_ANSWER_PASSED, "Passed", "any other good record") \
    X(35, UHEX_ANSWER_ENDED, "Ended", "the end of the file") \
    X(36, UHEX_ANSWER_FILE_TOO_LONG, "FileTooLong", "with this line the file is longer than 4,194,304 bytes")

/* What is found of a file; 4 to 11 are those of uf2_answer_words. */
#define UF2_CHECKED_TABLE(X) \
    X(0, UF2_CHECK_VALID, "Valid", "whatever order its blocks come in, and however often, Completed is answered exactly once, and then every page stands at its address") \
    X(80, UF2_CHECK_RAGGED, "Ragged", "the file's length is no multiple of 512") \
    X(81, UF2_CHECK_EMPTY, "Empty", "the file has no piece") \
    X(82, UF2_CHECK_OTHER_FAMILY, "OtherFamily", "the piece's family is not the first piece's") \
    X(83, UF2_CHECK_OTHER_TOTAL, "OtherTotal", "the piece's total is not the first piece's") \
    X(84, UF2_CHECK_OTHER_KIND, "OtherKind", "the piece's memory is not the first piece's") \
    X(85, UF2_CHECK_SAME_NUMBER, "SameNumber", "an earlier piece has the same number") \
    X(86, UF2_CHECK_OVERLAP, "Overlap", "an earlier data piece holds one of the same addresses") \
    X(87, UF2_CHECK_MISSING, "Missing", "there are fewer pieces than the total") \
    X(88, UF2_CHECK_GUARDED, "Guarded", "the file is valid, and names regions (flag 0x4000)")

/* Refusals of an image. */
#define UF2_MAKE_ANSWER_TABLE(X) \
    X(50, UF2_MAKE_BAD_IMAGE, "BadImage", "the image is empty, or no whole pages of 256 bytes") \
    X(51, UF2_MAKE_BAD_START, "BadStart", "the start is not from 0x10000000 up to, not including, 0x12000000, or no multiple of 256") \
    X(52, UF2_MAKE_PAST_WINDOW, "PastWindow", "the image runs past 0x12000000") \
    X(53, UF2_MAKE_SHORT_OUTPUT, "ShortOutput", "the output has under 512 bytes for each page")

/* Refusals of a store of settings. */
#define UF2_STORE_ANSWER_TABLE(X) \
    X(1, UF2_STORE_BAD_BUFFERS, "BadBuffers", "the flash's length is wrong") \
    X(2, UF2_STORE_BAD_SETTINGS, "BadSettings", "the settings are not good for this flash") \
    X(40, UF2_STORE_BAD_VERSION, "BadVersion", "the store's version is neither 1 nor 2") \
    X(41, UF2_STORE_BAD_LENGTH, "BadLength", "the store has a wrong length") \
    X(42, UF2_STORE_BAD_BITS, "BadBits", "the store has stray bits, or numbers that no store has")

/* The end of a block's tags, and refusals. */
#define UF2_TAG_ANSWER_TABLE(X) \
    X(1, UF2_TAG_BAD_LENGTH, "BadLength", "the block is not 512 bytes") \
    X(4, UF2_TAG_NOT_BLOCK, "NotBlock", "no UF2 block: a magic number differs") \
    X(60, UF2_TAG_END, "End", "flag 0x8000 is clear, or the last tag was read") \
    X(61, UF2_TAG_BAD_PAYLOAD, "BadPayload", "the payload's size is over 476 or no multiple of 4") \
    X(3, UF2_TAG_BAD_PLACE, "BadPlace", "the place lies before the payload's end, or is no multiple of 4") \
    X(65, UF2_TAG_NO_ROOM, "NoRoom", "under 4 bytes are left where a tag should start") \
    X(62, UF2_TAG_SHORT, "ShortTag", "a tag with a size of 1 to 3") \
    X(63, UF2_TAG_TYPED_END, "TypedEnd", "a tag with a size of 0 and a type") \
    X(64, UF2_TAG_PAST_ROOM, "PastRoom", "a tag that runs past the data, or into the checksum of flag 0x4000")

/* Why a trace is not added to a report. */
#define UF2_FIGURES_REFUSAL_TABLE(X) \
    X(70, UF2_FIGURES_TOO_MANY, "TooMany", "the report's records and the whole pieces of the trace, replayed or not, would pass 4,294,967,295") \
    X(71, UF2_FIGURES_BAD_REPORT, "BadReport", "the counts do not sum to the records, more discards than records, or another length")

/* Why an arrival was answered so. What stands in { } uf2_reason_words fills in. */
#define UF2_CAUSE_TABLE(X) \
    X(101, UF2_CAUSE_ARRIVAL_LENGTH, "UF2_CAUSE_ARRIVAL_LENGTH", "the piece has {got bytes}, and a block has {against bytes}") \
    X(102, UF2_CAUSE_FLASH_RAGGED, "UF2_CAUSE_FLASH_RAGGED", "the flash has {got bytes}, which is not whole sectors of {against bytes}") \
    X(103, UF2_CAUSE_FLASH_UNDER, "UF2_CAUSE_FLASH_UNDER", "the flash has {got bytes}, less than one sector of {against bytes}") \
    X(104, UF2_CAUSE_FLASH_OVER, "UF2_CAUSE_FLASH_OVER", "the flash has {got bytes}, more than the {against bytes} that a flash may have") \
    X(105, UF2_CAUSE_SEEN_LENGTH, "UF2_CAUSE_SEEN_LENGTH", "the seen map has {got bytes}, and must have {against bytes}") \
    X(106, UF2_CAUSE_SECTORS_LENGTH, "UF2_CAUSE_SECTORS_LENGTH", "the sector map has {got bytes}, and must have {against bytes}") \
    X(107, UF2_CAUSE_MAIN_LENGTH, "UF2_CAUSE_MAIN_LENGTH", "the main RAM has {got bytes}, and must have {against bytes}, or none where the board lacks it") \
    X(108, UF2_CAUSE_XIP_LENGTH, "UF2_CAUSE_XIP_LENGTH", "the XIP RAM has {got bytes}, and must have {against bytes}, or none where the board lacks it") \
    X(201, UF2_CAUSE_ARCH_OFF, "UF2_CAUSE_ARCH_OFF", "the settings name a current architecture that they do not enable") \
    X(202, UF2_CAUSE_COUNT_OVER, "UF2_CAUSE_COUNT_OVER", "the settings say {got} partitions, and a table has at most {against}") \
    X(203, UF2_CAUSE_NO_SECTORS, "UF2_CAUSE_NO_SECTORS", "partition {entry} has no sectors") \
    X(204, UF2_CAUSE_PAST_FLASH, "UF2_CAUSE_PAST_FLASH", "partition {entry} ends at byte {got} of the flash, which has only {against bytes}") \
    X(205, UF2_CAUSE_SHARES_SECTOR, "UF2_CAUSE_SHARES_SECTOR", "partition {entry} shares a sector with partition {other}") \
    X(206, UF2_CAUSE_LINKS_UP, "UF2_CAUSE_LINKS_UP", "partition {entry} is linked to partition {got}, which does not stand before it in the table") \
    X(207, UF2_CAUSE_LINKS_TO_B, "UF2_CAUSE_LINKS_TO_B", "partition {entry} is linked to partition {got}, which is itself the B partition of another") \
    X(208, UF2_CAUSE_MANY_USERS, "UF2_CAUSE_MANY_USERS", "partition {entry} says {got} user families, and may have at most {against}") \
    X(209, UF2_CAUSE_RESERVED_USER, "UF2_CAUSE_RESERVED_USER", "partition {entry} has {got family} as a user family, and the families {against hex} to 0xe48bff5b are reserved") \
    X(210, UF2_CAUSE_NO_SETTINGS, "UF2_CAUSE_NO_SETTINGS", "the settings have {got bytes}, and must have {against bytes}") \
    X(211, UF2_CAUSE_NO_LINK_KIND, "UF2_CAUSE_NO_LINK_KIND", "partition {entry} has a link of kind {got}, and the kinds are 0 to {against}") \
    X(301, UF2_CAUSE_COUNT_UNDER_1, "UF2_CAUSE_COUNT_UNDER_1", "the running transfer says that {got} blocks have come, and one that runs has at least {against}") \
    X(302, UF2_CAUSE_COUNT_NOT_BELOW, "UF2_CAUSE_COUNT_NOT_BELOW", "the running transfer says that {got} blocks of {against} have come, and one that runs lacks at least one") \
    X(303, UF2_CAUSE_RUNNING_TOTAL_OVER, "UF2_CAUSE_RUNNING_TOTAL_OVER", "the running transfer says a total of {got} blocks, and the most is {against}") \
    X(304, UF2_CAUSE_DONE_TOTAL_UNDER_1, "UF2_CAUSE_DONE_TOTAL_UNDER_1", "the finished transfer says a total of {got} blocks, and the least is {against}") \
    X(305, UF2_CAUSE_DONE_TOTAL_OVER, "UF2_CAUSE_DONE_TOTAL_OVER", "the finished transfer says a total of {got} blocks, and the most is {against}") \
    X(306, UF2_CAUSE_NO_TRANSFER, "UF2_CAUSE_NO_TRANSFER", "the transfer has {got bytes}, and must have {against bytes}") \
    X(307, UF2_CAUSE_NO_STATE, "UF2_CAUSE_NO_STATE", "the transfer's state or its memory has the number {got}, and the numbers are 0 to {against}") \
    X(401, UF2_CAUSE_MAGIC_FIRST, "UF2_CAUSE_MAGIC_FIRST", "it is no UF2 block: its first magic number is {got hex} and not {against hex}") \
    X(402, UF2_CAUSE_MAGIC_SECOND, "UF2_CAUSE_MAGIC_SECOND", "it is no UF2 block: its second magic number is {got hex} and not {against hex}") \
    X(403, UF2_CAUSE_MAGIC_LAST, "UF2_CAUSE_MAGIC_LAST", "it is no UF2 block: its last magic number is {got hex} and not {against hex}") \
    X(501, UF2_CAUSE_CONTAINER, "UF2_CAUSE_CONTAINER", "its flags {got hex} have {against flag}: it belongs to a file container, which is not for the board's memory") \
    X(701, UF2_CAUSE_NO_FAMILY, "UF2_CAUSE_NO_FAMILY", "its flags {got hex} lack {against flag}: the block names no family") \
    X(801, UF2_CAUSE_ABSOLUTE_OFF, "UF2_CAUSE_ABSOLUTE_OFF", "the settings do not allow the family {got family}") \
    X(802, UF2_CAUSE_RP2040, "UF2_CAUSE_RP2040", "the family {got family} is of another chip, and never has a place") \
    X(803, UF2_CAUSE_ARM_OFF, "UF2_CAUSE_ARM_OFF", "Arm is not enabled, and the board has no partition table: no place for the family {got family}") \
    X(804, UF2_CAUSE_RISCV_OFF, "UF2_CAUSE_RISCV_OFF", "RISC-V is not enabled, and the board has no partition table: no place for the family {got family}") \
    X(805, UF2_CAUSE_NOT_WITHOUT_TABLE, "UF2_CAUSE_NOT_WITHOUT_TABLE", "the board has no partition table, and then only data, arm-s and riscv have a place: none for the family {got family}") \
    X(806, UF2_CAUSE_NO_ENTRY, "UF2_CAUSE_NO_ENTRY", "no A partition accepts the family {got family}: {marks}") \
    X(807, UF2_CAUSE_NOT_FOR_RAM, "UF2_CAUSE_NOT_FOR_RAM", "the family {got family} may not go to RAM: only data, arm-s, riscv, arm-ns and the user families of the partition table may") \
    X(901, UF2_CAUSE_SIZE, "UF2_CAUSE_SIZE", "the payload has {got bytes}, and must have {against}") \
    X(1001, UF2_CAUSE_TOTAL_ZERO, "UF2_CAUSE_TOTAL_ZERO", "the block says that its file has no blocks") \
    X(1002, UF2_CAUSE_TOTAL_PAST, "UF2_CAUSE_TOTAL_PAST", "the block says that its file has {got pages} blocks, which take {got bytes}; there is room for {against bytes}") \
    X(1003, UF2_CAUSE_NUMBER_PAST, "UF2_CAUSE_NUMBER_PAST", "the block's number is {got}, and its file has only {against} blocks, counted from 0") \
    X(1101, UF2_CAUSE_BELOW_WINDOW, "UF2_CAUSE_BELOW_WINDOW", "the address {got hex} lies before the flash, which begins at {against hex}") \
    X(1102, UF2_CAUSE_RAGGED_ADDRESS, "UF2_CAUSE_RAGGED_ADDRESS", "the address {got hex} is no multiple of {against}") \
    X(1103, UF2_CAUSE_PAST_PLACE, "UF2_CAUSE_PAST_PLACE", "the page at the address {got page hex} would end {got bytes} after the start of its place, which has only {against bytes}") \
    X(1104, UF2_CAUSE_PAST_WINDOW, "UF2_CAUSE_PAST_WINDOW", "the page would end at {got hex}, past the end of the RAM at {against hex}") \
    X(1105, UF2_CAUSE_NO_WINDOW, "UF2_CAUSE_NO_WINDOW", "the address {got hex} lies in no memory of this board: flash's addresses end at {against hex}{got lacks}") \
    X(1201, UF2_CAUSE_FINISHED, "UF2_CAUSE_FINISHED", "a file was complete already when this block came, number {got} of {against}") \
    X(1301, UF2_CAUSE_AGAIN, "UF2_CAUSE_AGAIN", "block {got} of {against} had come before") \
    X(1401, UF2_CAUSE_NO_REGION, "UF2_CAUSE_NO_REGION", "stored, {got} of {against} blocks have come: it names no region of flash to compare with (flag 0x4000 is clear)") \
    X(1402, UF2_CAUSE_IN_RAM, "UF2_CAUSE_IN_RAM", "stored, {got} of {against} blocks have come: it goes to RAM, and only what is in flash is kept") \
    X(1403, UF2_CAUSE_REGION_RAGGED, "UF2_CAUSE_REGION_RAGGED", "stored, {got} of {against} blocks have come: the region that it names is not whole sectors") \
    X(1404, UF2_CAUSE_REGION_EMPTY, "UF2_CAUSE_REGION_EMPTY", "stored, {got} of {against} blocks have come: the region that it names is empty") \
    X(1405, UF2_CAUSE_REGION_OUTSIDE, "UF2_CAUSE_REGION_OUTSIDE", "stored, {got} of {against} blocks have come: the region that it names does not lie within its place") \
    X(1406, UF2_CAUSE_REGION_APART, "UF2_CAUSE_REGION_APART", "stored, {got} of {against} blocks have come: the region that it names does not hold the block's page") \
    X(1407, UF2_CAUSE_OTHER_DIGEST, "UF2_CAUSE_OTHER_DIGEST", "stored, {got} of {against} blocks have come: the flash holds something else in the region that it names") \
    X(1501, UF2_CAUSE_COMPLETED, "UF2_CAUSE_COMPLETED", "the last one that was missing: {got} of {against} blocks have come, and the file is complete") \
    X(1601, UF2_CAUSE_NOTED, "UF2_CAUSE_NOTED", "a comment, counted and not stored: {got} of {against} blocks have come") \
    X(1701, UF2_CAUSE_KEPT, "UF2_CAUSE_KEPT", "counted and not stored, since the flash holds its region already: {got} of {against} blocks have come")

#define VANTOREL_NAME_CASE(number, CONSTANT, name, words) \
    case number: \
        return name;
#define VANTOREL_WORDS_CASE(number, CONSTANT, name, words) \
    case number: \
        return words;
/* name and words of a number; "Unknown" and "an unknown number" of one that the table lacks */
#define VANTOREL_NAMES(function, TABLE) \
    static inline const char *function##_name(uint32_t number) { \
        switch (number) { \
            TABLE(VANTOREL_NAME_CASE) \
        default: \
            return "Unknown"; \
        } \
    } \
    static inline const char *function##_words(uint32_t number) { \
        switch (number) { \
            TABLE(VANTOREL_WORDS_CASE) \
        default: \
            return "an unknown number"; \
        } \
    }

VANTOREL_NAMES(uf2_answer, UF2_ANSWER_TABLE)
VANTOREL_NAMES(uhex_answer, UHEX_ANSWER_TABLE)
VANTOREL_NAMES(uf2_checked, UF2_CHECKED_TABLE)
VANTOREL_NAMES(uf2_make_answer, UF2_MAKE_ANSWER_TABLE)
VANTOREL_NAMES(uf2_store_answer, UF2_STORE_ANSWER_TABLE)
VANTOREL_NAMES(uf2_tag_answer, UF2_TAG_ANSWER_TABLE)
VANTOREL_NAMES(uf2_figures_refusal, UF2_FIGURES_REFUSAL_TABLE)
VANTOREL_NAMES(uf2_cause, UF2_CAUSE_TABLE)

/* Why a family has its place: the words of a reason of uf2_why_place_of that found one. */
static inline const char *uf2_place_cause_words(uint32_t cause, uint64_t pass) {
    switch (cause == 3 && pass < 10 ? 30 + pass : cause < 3 ? (uint64_t)cause * 10 : 0) {
    case 10:
        return "the whole flash, since the family absolute is allowed";
    case 20:
        return "the whole flash, since the board has no partition table";
    case 31:
        return "partition {entry}, by pass 1: the first that accepts the family, is not owned by another and is bootable on the current architecture";
    case 32:
        return "partition {entry}, by pass 2: the first that accepts the family, is not owned by another and is bootable on the other architecture, to which the board may switch";
    case 33:
        return "partition {entry}, by pass 3: the first that accepts the family and is not owned by another";
    case 34:
        return "partition {entry}, by pass 4: the first that accepts the family; it is owned by another";
    default:
        return "an unknown number";
    }
}

/* Why an entry does not take a family. */
static inline const char *uf2_mark_words(uint32_t mark) {
    switch (mark) {
    case 1:
        return "partition {entry} is a B partition";
    case 2:
        return "partition {entry} does not accept it";
    default:
        return "partition {entry} has an unknown mark";
    }
}

/* The name of a family, or null. */
static inline const char *uf2_family_name(uint64_t family) {
    switch (family) {
    case UF2_FAMILY_RP2040:
        return "rp2040";
    case UF2_FAMILY_ABSOLUTE:
        return "absolute";
    case UF2_FAMILY_DATA:
        return "data";
    case UF2_FAMILY_ARM_S:
        return "arm-s";
    case UF2_FAMILY_RISCV:
        return "riscv";
    case UF2_FAMILY_ARM_NS:
        return "arm-ns";
    default:
        return 0;
    }
}

/* ---- A reason as a sentence, without its capital letter and its full stop. */

/* A text that is being written: what has no room is counted and not written. */
struct vantorel_text {
    char *at;
    uf2_len room, len;
};

static inline void vantorel_put_char(struct vantorel_text *text, char c) {
    if (text->len < text->room)
        text->at[text->len] = c;
    text->len++;
}

static inline void vantorel_put(struct vantorel_text *text, const char *words) {
    while (*words)
        vantorel_put_char(text, *words++);
}

/* A number, of at least so many digits. */
static inline void vantorel_put_number(struct vantorel_text *text, uint64_t x, unsigned base, unsigned digits) {
    char digit[20];
    unsigned n = 0;
    do {
        digit[n++] = "0123456789abcdef"[x % base];
        x /= base;
    } while (x != 0);
    for (; digits > n; digits--)
        vantorel_put_char(text, '0');
    while (n > 0)
        vantorel_put_char(text, digit[--n]);
}

/* Whether a word stands at a place of a text; the place is then after it, and after the space that follows. */
static inline int vantorel_is_word(const char **at, const char *word) {
    const char *c = *at;
    while (*word && *c == *word) {
        c++;
        word++;
    }
    if (*word || (*c != ' ' && *c != '}'))
        return 0;
    *at = *c == ' ' ? c + 1 : c;
    return 1;
}

/* A number as the words after its name ask: of bytes, in hex, a family. */
static inline void vantorel_put_value(struct vantorel_text *text, const char *at, uint64_t x) {
    const char *name;
    if (vantorel_is_word(&at, "page"))
        x = x + 0x10000000u - 256u;
    if (vantorel_is_word(&at, "pages"))
        x /= 256u;
    if (vantorel_is_word(&at, "hex")) {
        vantorel_put(text, "0x");
        vantorel_put_number(text, x, 16, 8);
    } else if (vantorel_is_word(&at, "flag")) {
        vantorel_put(text, "0x");
        vantorel_put_number(text, x, 16, 4);
    } else if (vantorel_is_word(&at, "family")) {
        name = uf2_family_name(x);
        vantorel_put(text, name ? name : "");
        vantorel_put(text, name ? " (0x" : "0x");
        vantorel_put_number(text, x, 16, 8);
        vantorel_put(text, name ? ")" : "");
    } else if (vantorel_is_word(&at, "lacks")) {
        if (x >= UF2_MAIN_RAM_START && x < UF2_MAIN_RAM_END)
            vantorel_put(text, "; it is one of main RAM, which this board lacks");
        else if (x >= UF2_XIP_RAM_START && x < UF2_XIP_RAM_END)
            vantorel_put(text, "; it is one of XIP RAM, which this board lacks");
    } else {
        vantorel_put_number(text, x, 10, 1);
        if (vantorel_is_word(&at, "bytes"))
            vantorel_put(text, x == 1 ? " byte" : " bytes");
    }
}

/* A mark's words, with the entry filled in. */
static inline void vantorel_put_mark(struct vantorel_text *text, uint32_t mark, unsigned entry) {
    const char *at = uf2_mark_words(mark);
    while (*at) {
        if (*at != '{') {
            vantorel_put_char(text, *at++);
            continue;
        }
        vantorel_put_number(text, entry, 10, 1);
        while (*at++ != '}')
            ;
    }
}

static inline void vantorel_put_part(struct vantorel_text *text, const char *at, const struct uf2_reason *reason) {
    unsigned k, n = 0;
    if (vantorel_is_word(&at, "got"))
        vantorel_put_value(text, at, reason->got);
    else if (vantorel_is_word(&at, "against"))
        vantorel_put_value(text, at, reason->against);
    else if (vantorel_is_word(&at, "entry"))
        vantorel_put_value(text, at, reason->entry);
    else if (vantorel_is_word(&at, "other"))
        vantorel_put_value(text, at, reason->other);
    else
        for (k = 0; k < UF2_MAX_ENTRIES; k++)
            if (reason->marks[k] != UF2_MARK_NONE) {
                vantorel_put(text, n++ ? ", " : "");
                vantorel_put_mark(text, reason->marks[k], k);
            }
}

/* Writes a reason as a sentence to a text of `size` characters, with a 0 at its end: the length of the whole sentence. Where that is not below `size`, the
 * text has the beginning of it. */
static inline uf2_len uf2_reason_words(const struct uf2_reason *reason, char *text, uf2_len size) {
    const char *at = reason->cause < 100 ? uf2_place_cause_words(reason->cause, reason->got) : uf2_cause_words(reason->cause);
    struct vantorel_text out;
    out.at = text;
    out.room = size > 0 ? size - 1 : 0;
    out.len = 0;
    while (*at) {
        if (*at != '{') {
            vantorel_put_char(&out, *at++);
            continue;
        }
        vantorel_put_part(&out, at + 1, reason);
        while (*at++ != '}')
            ;
    }
    if (size > 0)
        text[out.len < out.room ? out.len : out.room] = 0;
    return out.len;
}

#ifdef __cplusplus
}
#endif

#endif
