/* The functions of vantorel.h beside the calls that they wrap: 200,000 random arrivals go through three boards, one by uf2_take_into, one by the bare
 * uf2_take, and one by uf2_take_through and a driver. Answers, transfers, maps, flash and RAM must be the same. Looks, reasons, places, tags, checks
 * and hex lines are compared alike. Prints how often each answer came. */
#include "vantorel_words.h"

#include <stdio.h>
#include <string.h>

#define ARRIVALS 200000
#define FLASH_SIZE 65536u

/* ends with the line at which something differs */
#define MUST(condition) \
    do { \
        if (!(condition)) \
            return __LINE__; \
    } while (0)

struct board {
    struct uf2_buffers buffers;
    uint8_t flash[FLASH_SIZE], xip[UF2_XIP_RAM_SIZE];
};

static uint8_t settings[UF2_SETTINGS_SIZE], no_ram[1], arrival[UF2_ARRIVAL_SIZE];
static struct board wrapped, bare, driven;
static uint32_t counts[18];

static uint32_t chance(uint32_t n) {
    static uint32_t state = 1;
    state = state * 1664525u + 1013904223u;
    return (state >> 8) % n;
}

/* ---- a driver over the third board's flash, which fails where it is asked to */

static int working = -1; /* how many further pages are programmed; below 0: all */

static int erase(void *with, uint32_t sector) {
    memset((uint8_t *)with + sector, 0xFF, UF2_SECTOR_SIZE);
    return 0;
}

static int program(void *with, uint32_t page, const uint8_t *payload) {
    if (working == 0)
        return 7;
    if (working > 0)
        working--;
    memcpy((uint8_t *)with + page, payload, UF2_PAYLOAD_SIZE);
    return 0;
}

static const struct uf2_driver driver = {driven.flash, FLASH_SIZE, erase, program, driven.flash};

/* ---- arrivals */

static void block(uint32_t flags, uint32_t start, uint32_t number, uint32_t total, uint32_t family) {
    uint32_t i;
    for (i = 0; i < UF2_ARRIVAL_SIZE; i++)
        arrival[i] = (uint8_t)chance(256);
    uf2_put32(arrival, 0x0A324655u);
    uf2_put32(arrival + 4, 0x9E5D5157u);
    uf2_put32(arrival + 8, flags);
    uf2_put32(arrival + 12, start + 256u * number);
    uf2_put32(arrival + 16, 256u);
    uf2_put32(arrival + 20, number);
    uf2_put32(arrival + 24, total);
    uf2_put32(arrival + 28, family);
    uf2_put32(arrival + 508, 0x0AB16F30u);
}

static void random_block(void) {
    static const uint32_t families[] = {UF2_FAMILY_DATA, UF2_FAMILY_RISCV, UF2_FAMILY_ABSOLUTE};
    static const uint32_t starts[] = {UF2_FLASH_START, UF2_XIP_RAM_START, UF2_MAIN_RAM_START};
    static uint32_t number = 0;
    uint32_t home = number++ / 512 % 3 == 2 ? UF2_XIP_RAM_START : UF2_FLASH_START; /* for some time most of them go to one memory, so that files end */
    uint32_t flags = 0x2000u | (chance(16) == 0 ? 1u : 0u) | (chance(16) == 0 ? 0x4000u : 0u) | (chance(99) == 0 ? 0x1000u : 0u);
    block(chance(99) == 0 ? 0u : flags, (chance(40) ? home : starts[chance(3)]) + (chance(50) == 0 ? 1u : 0u), chance(9),
          chance(40) == 0 ? 9u : 8u, chance(40) ? UF2_FAMILY_ARM_S : families[chance(3)]);
    if (chance(50) == 0)
        arrival[chance(32)] ^= 1u;
}

static int same(struct uf2_outcome a, struct uf2_outcome b) {
    return a.answer == b.answer && a.discarded == b.discarded;
}

static int same_state(const struct uf2_buffers *a, const struct uf2_buffers *b) {
    return memcmp(a->transfer, b->transfer, UF2_TRANSFER_SIZE) == 0 && memcmp(a->seen, b->seen, 8) == 0 && memcmp(a->sectors, b->sectors, 8) == 0;
}

static int same_memory(const struct board *a, const struct board *b) {
    return memcmp(a->flash, b->flash, FLASH_SIZE) == 0 && memcmp(a->xip, b->xip, UF2_XIP_RAM_SIZE) == 0 &&
           memcmp(a->buffers.seen, b->buffers.seen, UF2_SEEN_MAP_SIZE) == 0 && memcmp(a->buffers.sectors, b->buffers.sectors, UF2_SECTOR_MAP_SIZE) == 0;
}

/* ---- one arrival: what is only asked */

static int asked(uf2_len len, struct uf2_outcome *look) {
    const struct uf2_buffers *b = &wrapped.buffers;
    uint8_t bytes[UF2_REASON_SIZE];
    struct uf2_reason reason;
    uint32_t result, stands;

    *look = uf2_look_at(b, wrapped.flash, FLASH_SIZE, arrival, len);
    result = uf2_look(settings, sizeof settings, b->transfer, sizeof b->transfer, arrival, len, wrapped.flash, FLASH_SIZE, b->seen, sizeof b->seen, b->sectors,
                      sizeof b->sectors, no_ram, 0, wrapped.xip, sizeof wrapped.xip);
    MUST(same(*look, uf2_outcome_of(result)));
    MUST(same(*look, uf2_why_of(b, wrapped.flash, FLASH_SIZE, arrival, len, &reason)));
    uf2_why(settings, sizeof settings, b->transfer, sizeof b->transfer, arrival, len, wrapped.flash, FLASH_SIZE, b->seen, sizeof b->seen, b->sectors,
            sizeof b->sectors, no_ram, 0, wrapped.xip, sizeof wrapped.xip, bytes, sizeof bytes);
    MUST(reason.cause == uf2_get32(bytes) && reason.got == uf2_get64(bytes + 4) && reason.against == uf2_get64(bytes + 12));
    MUST(reason.entry == bytes[20] && reason.other == bytes[21] && memcmp(reason.marks, bytes + 22, 16) == 0);
    MUST(reason.cause / 100 == (uint32_t)look->answer && strcmp(uf2_cause_name(reason.cause), "Unknown") != 0);
    MUST(strcmp(uf2_answer_name((uint32_t)look->answer), "Unknown") != 0);
    stands = uf2_stands_in(b, wrapped.flash, FLASH_SIZE, arrival, len);
    MUST(stands == uf2_stands(settings, sizeof settings, arrival, len, wrapped.flash, FLASH_SIZE, no_ram, 0, wrapped.xip, sizeof wrapped.xip));
    return 0;
}

/* ---- one arrival: what is done */

static int taken(uf2_len len, struct uf2_outcome look) {
    struct uf2_outcome take = uf2_take_into(&wrapped.buffers, wrapped.flash, FLASH_SIZE, arrival, len), through;
    struct uf2_buffers *b = &bare.buffers;
    uint32_t result = uf2_take(settings, sizeof settings, b->transfer, sizeof b->transfer, arrival, len, bare.flash, FLASH_SIZE, b->seen, sizeof b->seen,
                               b->sectors, sizeof b->sectors, no_ram, 0, bare.xip, sizeof bare.xip);
    MUST(uf2_take_through(&driven.buffers, &driver, arrival, len, &through) == 0);
    MUST(same(look, take) && same(take, uf2_outcome_of(result)) && same(take, through));
    MUST(uf2_is_accepted(take) == (take.answer >= UF2_ANSWER_WRITTEN) && uf2_is_completed(take) == (take.answer == UF2_ANSWER_COMPLETED));
    MUST(same_state(&wrapped.buffers, b) && same_state(&wrapped.buffers, &driven.buffers));
    MUST(!uf2_is_accepted(take) || uf2_stands_in(b, bare.flash, FLASH_SIZE, arrival, len) == UF2_STANDS || take.answer == UF2_ANSWER_NOTED || (arrival[8] & 1u));
    counts[take.answer]++;
    return 0;
}

/* What the accessors say of a transfer is what its bytes and its map say. */
static int accessors(void) {
    const struct uf2_buffers *b = &wrapped.buffers;
    uint32_t n, seen = 0, first = uf2_total_of(b);

    MUST((uint32_t)uf2_state_of(b) == b->transfer[0] && (uint32_t)uf2_kind_of(b) == b->transfer[13]);
    MUST(uf2_family_of(b) == uf2_get32(b->transfer + 1) && uf2_total_of(b) == uf2_get32(b->transfer + 5) && uf2_count_of(b) == uf2_get32(b->transfer + 9));
    if (uf2_state_of(b) != UF2_STATE_RUNNING) {
        MUST(uf2_next_missing(b, 0) == 0);
        return 0;
    }
    for (n = uf2_total_of(b); n-- > 0;)
        if (b->seen[n / 8] >> (7 - n % 8) & 1)
            seen++;
        else
            first = n;
    MUST(seen == uf2_count_of(b) && first == uf2_next_missing(b, 0) && first < uf2_total_of(b));
    MUST(uf2_next_missing(b, uf2_total_of(b)) == uf2_total_of(b) && !uf2_is_marked(b->seen, 1, 8));
    return 0;
}

static int arrivals(void) {
    struct uf2_outcome look;
    int k, line;

    for (k = 0; k < ARRIVALS; k++) {
        uf2_len len = chance(50) ? UF2_ARRIVAL_SIZE : chance(UF2_ARRIVAL_SIZE);
        random_block();
        if ((line = asked(len, &look)) != 0 || (line = taken(len, look)) != 0 || (line = accessors()) != 0)
            return line;
        if (k % 256 == 0)
            MUST(same_memory(&wrapped, &bare) && same_memory(&wrapped, &driven));
        if (uf2_state_of(&wrapped.buffers) == UF2_STATE_DONE && chance(4) == 0) {
            uf2_restart(&wrapped.buffers);
            uf2_restart(&bare.buffers);
            uf2_restart(&driven.buffers);
        }
    }
    MUST(same_memory(&wrapped, &bare) && same_memory(&wrapped, &driven));
    return 0;
}

/* ---- a driver that fails, at every page of a file: no "completed", and a fresh transfer */

static int failures(void) {
    struct uf2_outcome outcome;
    int at, k;

    for (at = 0; at < 8; at++) {
        uf2_restart(&driven.buffers);
        working = at;
        for (k = 0; k <= at; k++) {
            block(0x2000u, UF2_FLASH_START, (uint32_t)k, 8, UF2_FAMILY_ARM_S);
            MUST(uf2_take_through(&driven.buffers, &driver, arrival, sizeof arrival, &outcome) == (k == at ? 7 : 0));
        }
        MUST(outcome.answer == UF2_ANSWER_FOUND && !uf2_is_completed(outcome) && !uf2_is_accepted(outcome));
        MUST(uf2_state_of(&driven.buffers) == UF2_STATE_IDLE);
    }
    working = -1;
    return 0;
}

/* A reason with two entries: settings in which entry 2 shares a sector with entry 1. */
static int two_entries(void) {
    static uint8_t bad[UF2_SETTINGS_SIZE];
    struct uf2_entry entry = {1, 12, {0, 0, 0, 0}, 0, 1, 1, 0, 0, 0, 0, 0, UF2_LINK_NONE, 0};
    uint8_t bytes[UF2_REASON_SIZE];
    struct uf2_reason reason;

    bad[UF2_SETTINGS_ARM_AT] = 1;
    entry.sectors = 1;
    uf2_settings_put_entry(bad, 0, &entry);
    entry.first = 2;
    uf2_settings_put_entry(bad, 1, &entry);
    uf2_settings_put_entry(bad, 2, &entry);
    uf2_why_place(bad, sizeof bad, FLASH_SIZE, UF2_FAMILY_ARM_S, bytes, sizeof bytes);
    return uf2_why_place_of(bad, FLASH_SIZE, UF2_FAMILY_ARM_S, &reason) == UF2_ANSWER_BAD_SETTINGS && reason.cause == UF2_CAUSE_SHARES_SECTOR &&
           reason.entry != reason.other && reason.entry == bytes[UF2_REASON_ENTRY_AT] && reason.other == bytes[UF2_REASON_OTHER_AT];
}

/* ---- many at once, a check, tags, places, settings and hex lines */

static int others(void) {
    static struct uf2_check_maps maps;
    static uint8_t file[8 * UF2_ARRIVAL_SIZE], results[8], image[64];
    struct uf2_check_result checked;
    struct uf2_reason reason;
    struct uf2_place place;
    struct uhex_buffers hex;
    uint32_t k, position;

    for (k = 0; k < 8; k++) {
        block(0x2000u, UF2_FLASH_START, k, 8, UF2_FAMILY_ARM_S);
        memcpy(file + k * UF2_ARRIVAL_SIZE, arrival, UF2_ARRIVAL_SIZE);
    }
    checked = uf2_check_file(&wrapped.buffers, FLASH_SIZE, file, sizeof file, &maps);
    MUST(checked.answer == UF2_CHECK_VALID && strcmp(uf2_checked_name(checked.answer), "Valid") == 0);
    uf2_restart(&wrapped.buffers);
    MUST(uf2_take_many(&wrapped.buffers, wrapped.flash, FLASH_SIZE, file, sizeof file, results, sizeof results) == 8);
    MUST(uf2_is_completed(uf2_outcome_of(results[7])) && results[6] == UF2_ANSWER_WRITTEN);
    memcpy(file + 5 * UF2_ARRIVAL_SIZE, file + 2 * UF2_ARRIVAL_SIZE, UF2_ARRIVAL_SIZE);
    checked = uf2_check_file(&wrapped.buffers, FLASH_SIZE, file, sizeof file, &maps);
    MUST(checked.answer == UF2_CHECK_SAME_NUMBER && checked.piece == 5 && checked.other == 2);

    place = uf2_place_of(settings, FLASH_SIZE, UF2_FAMILY_ARM_S);
    MUST(place.answer == UF2_ANSWER_FOUND && place.start == 4096 && place.length == 49152);
    MUST(uf2_why_place_of(settings, FLASH_SIZE, UF2_FAMILY_ARM_S, &reason) == UF2_ANSWER_FOUND && reason.cause == UF2_PLACE_ENTRY && reason.entry == 0);
    place = uf2_place_of(settings, FLASH_SIZE, UF2_FAMILY_RISCV);
    MUST(place.answer == UF2_ANSWER_NO_PLACE && place.start == 0 && place.length == 0);
    MUST(uf2_why_place_of(settings, FLASH_SIZE, UF2_FAMILY_RISCV, &reason) == UF2_ANSWER_NO_PLACE && reason.marks[0] == UF2_MARK_NOT_ACCEPTING);

    MUST(two_entries());

    uhex_begin(&hex, UHEX_BOARD_V1, image, sizeof image);
    MUST(uhex_take_line(&hex, (const uint8_t *)":0000000GFF\n", 12, &position) == UHEX_ANSWER_BAD_DIGIT && position == 8 && !uhex_is_whole(&hex));
    MUST(uhex_take_line(&hex, (const uint8_t *)":00000001FF\n", 12, 0) == UHEX_ANSWER_BAD_DIGIT && hex.last == UHEX_ANSWER_BAD_DIGIT);
    return 0;
}

static int tags(void) {
    struct uf2_tag_reader reader;
    struct uf2_tag_found found;

    block(0xA000u, UF2_FLASH_START, 0, 1, UF2_FAMILY_ARM_S);
    memset(arrival + 288, 0, 220);
    uf2_put32(arrival + 288, UF2_TAG_TYPE_VERSION << 8 | 9);
    memcpy(arrival + 292, "0.1.2", 5);
    reader = uf2_tags_of(arrival, sizeof arrival);
    MUST(uf2_next_tag(&reader, &found) == UF2_TAG_FOUND && found.type == UF2_TAG_TYPE_VERSION && found.length == 5);
    MUST(memcmp(found.contents, "0.1.2", 5) == 0);
    found.length = 0;
    MUST(uf2_find_tag(arrival, sizeof arrival, UF2_TAG_TYPE_VERSION, &found) == UF2_TAG_FOUND && found.length == 5 && found.contents == arrival + 292);
    MUST(uf2_find_tag(arrival, sizeof arrival, UF2_TAG_TYPE_DEVICE, &found) == UF2_TAG_END && found.length == 5);
    MUST(uf2_next_tag(&reader, &found) == UF2_TAG_END && uf2_next_tag(&reader, &found) == UF2_TAG_END && found.length == 5);
    return 0;
}

/* an entry is written to its bytes, and the count is raised, never lowered */
static int entries(void) {
    struct uf2_entry entry = {1, 12, {1, 2, 3, 4}, 0, 1, 1, 0, 0, 0, 0, 0, UF2_LINK_NONE, 0};

    settings[UF2_SETTINGS_ARM_AT] = 1;
    MUST(uf2_settings_put_entry(settings, UF2_MAX_ENTRIES, &entry) == -1 && settings[UF2_SETTINGS_COUNT_AT] == 0);
    MUST(uf2_settings_put_entry(settings, 0, &entry) == 0 && settings[UF2_SETTINGS_COUNT_AT] == 1);
    MUST(uf2_settings_put_entry(settings, 0, &entry) == 0 && settings[UF2_SETTINGS_COUNT_AT] == 1);
    MUST(uf2_get32(settings + UF2_SETTINGS_TABLE_AT) == 1 && uf2_get32(settings + UF2_SETTINGS_TABLE_AT + UF2_ENTRY_USERS_AT + 12) == 4);
    return 0;
}

int main(void) {
    int line, k;

    if ((line = entries()) == 0) {
        uf2_begin(&wrapped.buffers, settings);
        uf2_begin(&bare.buffers, settings);
        uf2_begin(&driven.buffers, settings);
        wrapped.buffers.xip_ram = wrapped.xip;
        bare.buffers.xip_ram = bare.xip;
        driven.buffers.xip_ram = driven.xip;
        if ((line = arrivals()) == 0 && (line = failures()) == 0 && (line = others()) == 0)
            line = tags();
    }
    if (line != 0) {
        printf("line %d: it differs\n", line);
        return 1;
    }
    for (k = 1; k < 18; k++)
        if (counts[k])
            printf("%d %s: %u\n", k, uf2_answer_name((uint32_t)k), (unsigned)counts[k]);
    return 0;
}
