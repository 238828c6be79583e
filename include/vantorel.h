/* The receiver for C, with buffers that carry their lengths. Include this header and link libvantorel.a:
 *
 *     static const uint8_t settings[UF2_SETTINGS_SIZE] = {1};   Arm alone, no partition table
 *     static struct uf2_buffers buffers;
 *
 *     uf2_begin(&buffers, settings);
 *     struct uf2_outcome outcome = uf2_take_into(&buffers, flash, flash_len, arrival, UF2_ARRIVAL_SIZE);
 *     if (uf2_is_completed(outcome)) ...
 *
 * The functions here are not proved, and they decide nothing. Each makes one call of the proved interface (uf2_receiver.h and the headers beside it).
 * It passes pointers and lengths, which are right by their types, passes an empty slice where a pointer to RAM is null, and reads the bytes that come back.
 * Two functions do more, and say so: uf2_take_through performs the plan, and uhex_take_line counts the lines that were left out.
 *
 * C99 and later, C++11 and later. All functions are static: one that is not called adds no code. Nothing is allocated or kept. vantorel_words.h has
 * the names and words of answers and causes. */
#ifndef VANTOREL_H
#define VANTOREL_H

#include "uf2_check.h"
#include "uf2_parts.h"
#include "uf2_receiver.h"
#include "uf2_stands.h"
#include "uf2_store.h"
#include "uf2_tags.h"
#include "uf2_tools.h"
#include "uf2_why.h"

#ifdef __cplusplus
extern "C" {
#endif

/* ---- A receiver: what it keeps between arrivals, 17.4 KB. uf2_begin fills it. Nobody else writes it while a transfer runs. */
struct uf2_buffers {
    const uint8_t *settings; /* UF2_SETTINGS_SIZE bytes; may be in flash */
    uint8_t *main_ram;       /* UF2_MAIN_RAM_SIZE bytes, or null: the board takes no image to main RAM */
    uint8_t *xip_ram;        /* UF2_XIP_RAM_SIZE bytes, or null */
    uint8_t transfer[UF2_TRANSFER_SIZE];
    uint8_t seen[UF2_SEEN_MAP_SIZE];
    uint8_t sectors[UF2_SECTOR_MAP_SIZE];
    uint8_t no_main_ram[1], no_xip_ram[1]; /* for a RAM that is null: a pointer that is not, with the length 0 */
};

/* The answer to an arrival. */
struct uf2_outcome {
    enum uf2_answer answer;
    int discarded; /* not 0: the block discarded a running transfer of another file */
};

static inline struct uf2_outcome uf2_outcome_of(uint32_t result) {
    struct uf2_outcome outcome;
    outcome.answer = (enum uf2_answer)UF2_RESULT_ANSWER(result);
    outcome.discarded = UF2_RESULT_IS_DISCARDED(result);
    return outcome;
}

/* Whether the block was accepted: it is counted, and stored unless it is a comment or kept. */
static inline int uf2_is_accepted(struct uf2_outcome outcome) {
    return UF2_ANSWER_IS_ACCEPTED(outcome.answer);
}

/* Whether this block was the last one that was missing. Before you tell a person "complete", ask uf2_stands_in of every block of the file. */
static inline int uf2_is_completed(struct uf2_outcome outcome) {
    return outcome.answer == UF2_ANSWER_COMPLETED;
}

/* Drops the transfer: the host has to send its file again, from the first block. */
static inline void uf2_restart(struct uf2_buffers *b) {
    uf2_new(b->transfer, UF2_TRANSFER_SIZE);
}

/* A receiver with these settings, no RAM for images and a fresh transfer. Set main_ram and xip_ram after it, where the board has them. */
static inline void uf2_begin(struct uf2_buffers *b, const uint8_t settings[UF2_SETTINGS_SIZE]) {
    b->settings = settings;
    b->main_ram = 0;
    b->xip_ram = 0;
    uf2_restart(b);
}

/* The two RAMs as slices. */
static inline uint8_t *uf2_main_ram_of(struct uf2_buffers *b) {
    return b->main_ram ? b->main_ram : b->no_main_ram;
}
static inline const uint8_t *uf2_main_ram_in(const struct uf2_buffers *b) {
    return b->main_ram ? b->main_ram : b->no_main_ram;
}
static inline uf2_len uf2_main_ram_len(const struct uf2_buffers *b) {
    return b->main_ram ? UF2_MAIN_RAM_SIZE : 0;
}
static inline uint8_t *uf2_xip_ram_of(struct uf2_buffers *b) {
    return b->xip_ram ? b->xip_ram : b->no_xip_ram;
}
static inline const uint8_t *uf2_xip_ram_in(const struct uf2_buffers *b) {
    return b->xip_ram ? b->xip_ram : b->no_xip_ram;
}
static inline uf2_len uf2_xip_ram_len(const struct uf2_buffers *b) {
    return b->xip_ram ? UF2_XIP_RAM_SIZE : 0;
}

/* ---- An arrival. It has UF2_ARRIVAL_SIZE bytes, and any other length is answered UF2_ANSWER_BAD_BUFFERS. */

/* What a take would answer. Nothing changes. (uf2_look) */
static inline struct uf2_outcome uf2_look_at(const struct uf2_buffers *b, const uint8_t *flash, uf2_len flash_len, const uint8_t *arrival,
                                             uf2_len arrival_len) {
    return uf2_outcome_of(uf2_look(b->settings, UF2_SETTINGS_SIZE, b->transfer, UF2_TRANSFER_SIZE, arrival, arrival_len, flash, flash_len, b->seen,
                                   UF2_SEEN_MAP_SIZE, b->sectors, UF2_SECTOR_MAP_SIZE, uf2_main_ram_in(b), uf2_main_ram_len(b), uf2_xip_ram_in(b),
                                   uf2_xip_ram_len(b)));
}

/* Takes an arrival into flash that is ordinary memory. (uf2_take) */
static inline struct uf2_outcome uf2_take_into(struct uf2_buffers *b, uint8_t *flash, uf2_len flash_len, const uint8_t *arrival, uf2_len arrival_len) {
    return uf2_outcome_of(uf2_take(b->settings, UF2_SETTINGS_SIZE, b->transfer, UF2_TRANSFER_SIZE, arrival, arrival_len, flash, flash_len, b->seen,
                                   UF2_SEEN_MAP_SIZE, b->sectors, UF2_SECTOR_MAP_SIZE, uf2_main_ram_of(b), uf2_main_ram_len(b), uf2_xip_ram_of(b),
                                   uf2_xip_ram_len(b)));
}

/* Takes many arrivals, each UF2_ARRIVAL_SIZE bytes, as many as `results` has bytes: how many were taken. uf2_outcome_of reads a result. (uf2_take_all) */
static inline uf2_len uf2_take_many(struct uf2_buffers *b, uint8_t *flash, uf2_len flash_len, const uint8_t *arrivals, uf2_len arrivals_len,
                                    uint8_t *results, uf2_len results_len) {
    return uf2_take_all(b->settings, UF2_SETTINGS_SIZE, b->transfer, UF2_TRANSFER_SIZE, arrivals, arrivals_len, results, results_len, flash, flash_len,
                        b->seen, UF2_SEEN_MAP_SIZE, b->sectors, UF2_SECTOR_MAP_SIZE, uf2_main_ram_of(b), uf2_main_ram_len(b), uf2_xip_ram_of(b),
                        uf2_xip_ram_len(b));
}

/* UF2_STANDS, UF2_DIFFERS or a refusal: whether the payload of a block is in the memory, where its address says. (uf2_stands) */
static inline uint32_t uf2_stands_in(const struct uf2_buffers *b, const uint8_t *flash, uf2_len flash_len, const uint8_t *arrival, uf2_len arrival_len) {
    return uf2_stands(b->settings, UF2_SETTINGS_SIZE, arrival, arrival_len, flash, flash_len, uf2_main_ram_in(b), uf2_main_ram_len(b),
                      uf2_xip_ram_in(b), uf2_xip_ram_len(b));
}

/* ---- A flash that a driver writes */

/* What is left to do to the flash. */
struct uf2_step {
    enum uf2_plan deed;
    uint32_t sector; /* offsets in the flash */
    uint32_t page;
    const uint8_t *payload; /* UF2_PAYLOAD_SIZE bytes of the arrival, for the page; null where there is nothing to do */
};

static inline struct uf2_step uf2_step_of(const uint8_t plan[UF2_PLAN_SIZE], const uint8_t *arrival) {
    struct uf2_step step;
    step.deed = (enum uf2_plan)uf2_get32(plan + UF2_PLAN_DEED_AT);
    step.sector = uf2_get32(plan + UF2_PLAN_SECTOR_AT);
    step.page = uf2_get32(plan + UF2_PLAN_PAGE_AT);
    step.payload = step.deed == UF2_PLAN_NOTHING ? 0 : arrival + UF2_PAYLOAD_AT;
    return step;
}

/* Accepts an arrival and leaves the flash to you: perform the step, and call uf2_restart where that fails. (uf2_accept) */
static inline struct uf2_outcome uf2_accept_into(struct uf2_buffers *b, const uint8_t *flash, uf2_len flash_len, const uint8_t *arrival,
                                                 uf2_len arrival_len, struct uf2_step *step) {
    uint8_t plan[UF2_PLAN_SIZE];
    uint32_t result = uf2_accept(b->settings, UF2_SETTINGS_SIZE, b->transfer, UF2_TRANSFER_SIZE, arrival, arrival_len, flash, flash_len, b->seen,
                                 UF2_SEEN_MAP_SIZE, b->sectors, UF2_SECTOR_MAP_SIZE, uf2_main_ram_of(b), uf2_main_ram_len(b), uf2_xip_ram_of(b),
                                 uf2_xip_ram_len(b), plan, UF2_PLAN_SIZE);
    *step = uf2_step_of(plan, arrival);
    return uf2_outcome_of(result);
}

/* A flash and its driver. Each function returns 0 where it went well; `with` is passed to it as it is. */
struct uf2_driver {
    const uint8_t *flash; /* as it is mapped */
    uf2_len flash_len;
    int (*erase)(void *with, uint32_t sector);                         /* UF2_SECTOR_SIZE bytes become 0xFF */
    int (*program)(void *with, uint32_t page, const uint8_t *payload); /* UF2_PAYLOAD_SIZE bytes, and reads see them afterwards */
    void *with;
};

/* Accepts an arrival and has the driver perform the step: 0, or what the driver returned. Where the driver fails, the transfer is dropped, as by
 * uf2_restart, and the host has to send its file again, from the first block. The outcome then has the answer UF2_ANSWER_FOUND, 0, which no arrival gets:
 * "completed" is never reported over a page that was not written. */
static inline int uf2_take_through(struct uf2_buffers *b, const struct uf2_driver *driver, const uint8_t *arrival, uf2_len arrival_len,
                                   struct uf2_outcome *outcome) {
    struct uf2_step step;
    int failed = 0;
    *outcome = uf2_accept_into(b, driver->flash, driver->flash_len, arrival, arrival_len, &step);
    if (step.deed == UF2_PLAN_ERASE)
        failed = driver->erase(driver->with, step.sector);
    if (!failed && step.deed != UF2_PLAN_NOTHING)
        failed = driver->program(driver->with, step.page, step.payload);
    if (failed) {
        uf2_restart(b);
        outcome->answer = UF2_ANSWER_FOUND;
    }
    return failed;
}

/* ---- How far a transfer is */
static inline enum uf2_state uf2_state_of(const struct uf2_buffers *b) {
    return (enum uf2_state)b->transfer[UF2_TRANSFER_STATE_AT];
}
static inline enum uf2_kind uf2_kind_of(const struct uf2_buffers *b) {
    return (enum uf2_kind)b->transfer[UF2_TRANSFER_KIND_AT];
}
static inline uint32_t uf2_family_of(const struct uf2_buffers *b) {
    return uf2_get32(b->transfer + UF2_TRANSFER_FAMILY_AT);
}
static inline uint32_t uf2_total_of(const struct uf2_buffers *b) {
    return uf2_get32(b->transfer + UF2_TRANSFER_TOTAL_AT);
}
static inline uint32_t uf2_count_of(const struct uf2_buffers *b) {
    return uf2_get32(b->transfer + UF2_TRANSFER_COUNT_AT);
}

/* Whether a map has a mark for a number: the highest bit of a byte is the first. */
static inline int uf2_is_marked(const uint8_t *map, uf2_len map_len, uint32_t number) {
    return number / 8u < map_len && (map[number / 8u] & (128u >> number % 8u)) != 0;
}

/* The smallest block number from `from` on that a running transfer lacks; its total where there is none. Where no transfer runs: 0. */
static inline uint32_t uf2_next_missing(const struct uf2_buffers *b, uint32_t from) {
    uint32_t total = uf2_state_of(b) == UF2_STATE_RUNNING ? uf2_total_of(b) : 0;
    while (from < total && uf2_is_marked(b->seen, UF2_SEEN_MAP_SIZE, from))
        from++;
    return from < total ? from : total;
}

/* ---- Settings: an entry of the partition table */
struct uf2_entry {
    uint32_t first, sectors; /* first sector, number of sectors */
    uint32_t users[4];       /* user families, of which user_count are used */
    uint8_t user_count;
    uint8_t data, arm_s, riscv, arm_ns; /* flags: the families that it accepts */
    uint8_t not_bootable_arm, not_bootable_riscv, no_restart;
    enum uf2_link link;
    uint8_t link_index; /* the entry that it is owned by or B of */
};

/* Writes entry k of the settings, and raises the count so that it is used: 0, or -1 where k is not below UF2_MAX_ENTRIES. */
static inline int uf2_settings_put_entry(uint8_t settings[UF2_SETTINGS_SIZE], uint32_t k, const struct uf2_entry *entry) {
    uint8_t *at;
    uint32_t i;
    if (k >= UF2_MAX_ENTRIES)
        return -1;
    at = settings + UF2_SETTINGS_ENTRY_AT(k);
    uf2_put32(at + UF2_ENTRY_FIRST_AT, entry->first);
    uf2_put32(at + UF2_ENTRY_SECTORS_AT, entry->sectors);
    for (i = 0; i < 4; i++)
        uf2_put32(at + UF2_ENTRY_USERS_AT + 4 * i, entry->users[i]);
    at[UF2_ENTRY_DATA_AT] = entry->data;
    at[UF2_ENTRY_ARM_S_AT] = entry->arm_s;
    at[UF2_ENTRY_RISCV_AT] = entry->riscv;
    at[UF2_ENTRY_ARM_NS_AT] = entry->arm_ns;
    at[UF2_ENTRY_USER_COUNT_AT] = entry->user_count;
    at[UF2_ENTRY_NOT_BOOTABLE_ARM_AT] = entry->not_bootable_arm;
    at[UF2_ENTRY_NOT_BOOTABLE_RISCV_AT] = entry->not_bootable_riscv;
    at[UF2_ENTRY_LINK_AT] = (uint8_t)entry->link;
    at[UF2_ENTRY_LINK_INDEX_AT] = entry->link_index;
    at[UF2_ENTRY_NO_RESTART_AT] = entry->no_restart;
    if (settings[UF2_SETTINGS_COUNT_AT] <= k)
        settings[UF2_SETTINGS_COUNT_AT] = (uint8_t)(k + 1);
    return 0;
}

/* ---- A family's place in flash */
struct uf2_place {
    enum uf2_answer answer; /* UF2_ANSWER_FOUND, or a refusal; then start and length are 0 */
    uint32_t start, length; /* in bytes of the flash */
};

/* The place of a family in a flash of flash_len bytes. (uf2_ask) */
static inline struct uf2_place uf2_place_of(const uint8_t settings[UF2_SETTINGS_SIZE], uf2_len flash_len, uint32_t family) {
    uint8_t bytes[UF2_PLACE_SIZE] = {0};
    struct uf2_place place;
    place.answer = (enum uf2_answer)uf2_ask(settings, UF2_SETTINGS_SIZE, flash_len, family, bytes, UF2_PLACE_SIZE);
    place.start = uf2_get32(bytes + UF2_PLACE_START_AT);
    place.length = uf2_get32(bytes + UF2_PLACE_LENGTH_AT);
    return place;
}

/* ---- Why: uf2_reason_words of vantorel_words.h says a reason as a sentence. */
struct uf2_reason {
    uint32_t cause;        /* enum uf2_cause; of a place, enum uf2_place_cause */
    uint64_t got, against; /* the number tested, and what it is tested against */
    uint8_t entry, other;
    uint8_t marks[UF2_MAX_ENTRIES]; /* enum uf2_mark */
};

static inline struct uf2_reason uf2_reason_of(const uint8_t bytes[UF2_REASON_SIZE]) {
    struct uf2_reason reason;
    int i;
    reason.cause = uf2_get32(bytes + UF2_REASON_CAUSE_AT);
    reason.got = uf2_get64(bytes + UF2_REASON_GOT_AT);
    reason.against = uf2_get64(bytes + UF2_REASON_AGAINST_AT);
    reason.entry = bytes[UF2_REASON_ENTRY_AT];
    reason.other = bytes[UF2_REASON_OTHER_AT];
    for (i = 0; i < UF2_MAX_ENTRIES; i++)
        reason.marks[i] = bytes[UF2_REASON_MARKS_AT + i];
    return reason;
}

/* What a look answers, and why. (uf2_why) */
static inline struct uf2_outcome uf2_why_of(const struct uf2_buffers *b, const uint8_t *flash, uf2_len flash_len, const uint8_t *arrival,
                                            uf2_len arrival_len, struct uf2_reason *reason) {
    uint8_t bytes[UF2_REASON_SIZE];
    uint32_t result = uf2_why(b->settings, UF2_SETTINGS_SIZE, b->transfer, UF2_TRANSFER_SIZE, arrival, arrival_len, flash, flash_len, b->seen,
                              UF2_SEEN_MAP_SIZE, b->sectors, UF2_SECTOR_MAP_SIZE, uf2_main_ram_in(b), uf2_main_ram_len(b), uf2_xip_ram_in(b),
                              uf2_xip_ram_len(b), bytes, UF2_REASON_SIZE);
    *reason = uf2_reason_of(bytes);
    return uf2_outcome_of(result);
}

/* What uf2_place_of answers, and why. (uf2_why_place) */
static inline enum uf2_answer uf2_why_place_of(const uint8_t settings[UF2_SETTINGS_SIZE], uf2_len flash_len, uint32_t family, struct uf2_reason *reason) {
    uint8_t bytes[UF2_REASON_SIZE];
    uint32_t answer = uf2_why_place(settings, UF2_SETTINGS_SIZE, flash_len, family, bytes, UF2_REASON_SIZE);
    *reason = uf2_reason_of(bytes);
    return (enum uf2_answer)answer;
}

/* ---- A file checked before it is sent. The maps are left all zero. */
struct uf2_check_maps {
    uint8_t numbers[UF2_CHECK_NUMBERS_SIZE];
    uint8_t cells[UF2_CHECK_CELLS_SIZE];
    uint8_t offsets[UF2_CHECK_OFFSETS_SIZE];
};

struct uf2_check_result {
    uint32_t answer;       /* enum uf2_checked, or 4 to 11 of enum uf2_answer */
    uint64_t piece, other; /* the piece at fault and the earlier one that it collides with, counted from 0; of a missing block its number */
};

/* What is wrong with a file, for a board with the settings and RAMs of `b` and a flash of flash_len bytes. (uf2_check) */
static inline struct uf2_check_result uf2_check_file(const struct uf2_buffers *b, uf2_len flash_len, const uint8_t *file, uf2_len file_len,
                                                     struct uf2_check_maps *maps) {
    uint8_t told[UF2_TOLD_SIZE] = {0};
    struct uf2_check_result result;
    result.answer = uf2_check(b->settings, UF2_SETTINGS_SIZE, file, file_len, flash_len, uf2_main_ram_len(b), uf2_xip_ram_len(b), maps->numbers,
                              UF2_CHECK_NUMBERS_SIZE, maps->cells, UF2_CHECK_CELLS_SIZE, maps->offsets, UF2_CHECK_OFFSETS_SIZE, told, UF2_TOLD_SIZE);
    result.piece = uf2_get64(told + UF2_TOLD_PIECE_AT);
    result.other = uf2_get64(told + UF2_TOLD_OTHER_AT);
    return result;
}

/* ---- Extension tags */
struct uf2_tag_found {
    uint32_t type;
    const uint8_t *contents; /* `length` bytes of the block */
    uint32_t length;
};

static inline struct uf2_tag_found uf2_tag_found_of(const uint8_t *block, const uint8_t tag[UF2_TAG_SIZE]) {
    struct uf2_tag_found found;
    found.type = uf2_get32(tag + UF2_TAG_TYPE_AT);
    found.contents = block + uf2_get32(tag + UF2_TAG_START_AT);
    found.length = uf2_get32(tag + UF2_TAG_LENGTH_AT);
    return found;
}

/* The first tag of a type, such as UF2_TAG_TYPE_VERSION: UF2_TAG_FOUND and the tag; or UF2_TAG_END or a refusal. (uf2_tag_find) */
static inline enum uf2_tag_answer uf2_find_tag(const uint8_t *block, uf2_len block_len, uint32_t type, struct uf2_tag_found *found) {
    uint8_t tag[UF2_TAG_SIZE];
    uint32_t answer = uf2_tag_find(block, block_len, type, tag, UF2_TAG_SIZE);
    if (answer == UF2_TAG_FOUND)
        *found = uf2_tag_found_of(block, tag);
    return (enum uf2_tag_answer)answer;
}

/* Where a reader of a block's tags is. */
struct uf2_tag_reader {
    const uint8_t *block;
    uf2_len block_len, place;
};

static inline struct uf2_tag_reader uf2_tags_of(const uint8_t *block, uf2_len block_len) {
    struct uf2_tag_reader reader;
    reader.block = block;
    reader.block_len = block_len;
    reader.place = uf2_tag_first(block, block_len);
    return reader;
}

/* The next tag: UF2_TAG_FOUND and the tag; or UF2_TAG_END or a refusal, which every later call repeats. (uf2_tag) */
static inline enum uf2_tag_answer uf2_next_tag(struct uf2_tag_reader *reader, struct uf2_tag_found *found) {
    uint8_t tag[UF2_TAG_SIZE];
    uint32_t answer = uf2_tag(reader->block, reader->block_len, reader->place, tag, UF2_TAG_SIZE);
    if (answer == UF2_TAG_FOUND) {
        *found = uf2_tag_found_of(reader->block, tag);
        reader->place = uf2_get32(tag + UF2_TAG_NEXT_AT);
    }
    return (enum uf2_tag_answer)answer;
}

/* ---- Universal Hex: a reader, and what its caller has to remember */
struct uhex_buffers {
    uint8_t reader[UHEX_READER_SIZE];
    uint8_t *image;
    uf2_len image_len;
    uint32_t outside; /* lines of own data that were left out of the image; no more are counted after 4,294,967,295 */
    enum uhex_answer last;
};

/* A reader for a board, UHEX_BOARD_V1 or UHEX_BOARD_V2, that stores in an image of 1 to UHEX_IMAGE_MAX_SIZE bytes. */
static inline void uhex_begin(struct uhex_buffers *h, uint16_t own, uint8_t *image, uf2_len image_len) {
    uhex_new(own, h->reader, UHEX_READER_SIZE);
    h->image = image;
    h->image_len = image_len;
    h->outside = 0;
    h->last = UHEX_ANSWER_PASSED;
}

/* Reads a line: its answer, and in `position`, which may be null, the place of a bad digit. (uhex_line) */
static inline enum uhex_answer uhex_take_line(struct uhex_buffers *h, const uint8_t *line, uf2_len line_len, uint32_t *position) {
    uint32_t result = uhex_line(h->reader, UHEX_READER_SIZE, line, line_len, h->image, h->image_len);
    h->last = (enum uhex_answer)UHEX_RESULT_ANSWER(result);
    if (h->last == UHEX_ANSWER_OUTSIDE && h->outside != UINT32_MAX)
        h->outside++;
    if (position)
        *position = UHEX_RESULT_POSITION(result);
    return h->last;
}

/* Whether the image is whole: the last line ended the file, and no own data was left out. Flash an image only then. */
static inline int uhex_is_whole(const struct uhex_buffers *h) {
    return UHEX_IMAGE_IS_WHOLE(h->last, h->outside);
}

#ifdef __cplusplus
}
#endif

#endif
