/* The calls of include/uf2_store.h, include/uf2_why.h and include/uf2_stands.h: settings kept as a store, why an arrival or a place is answered so,
 * and whether a block stands. */
#include "play.h"

#include "uf2_stands.h"
#include "uf2_store.h"
#include "uf2_why.h"

#include <stddef.h>

void *memcpy(void *to, const void *from, size_t n);
void *memset(void *to, int byte, size_t n);

static uint32_t result;
static uf2_len flash_len;

/* Another length of flash, mostly a wrong one: no whole sectors, none, too many, or wrong in the upper half alone. */
static uf2_len another_len(uf2_len len) {
    switch (below(6)) {
    case 0:
        return 0;
    case 1:
        return len + 1 + below(UF2_SECTOR_SIZE - 1);
    case 2:
        return len + ((uf2_len)1 << 32 << below(32));
    case 3:
        return UF2_FLASH_MAX_SIZE + (uf2_len)UF2_SECTOR_SIZE * (1 + below(16));
    case 4:
        return (uf2_len)UF2_SECTOR_SIZE * (1 + below(40));
    default:
        return any();
    }
}

/* A length that is wrong, within a buffer that has some bytes more. */
static uint32_t wrong_len(uint32_t right) {
    return one_in(3) ? below(right + PLAY_MORE + 1) : one_in(2) ? right + 1 + below(PLAY_MORE) : right - 1;
}

static int bad_settings(uf2_len len) {
    uint8_t place[UF2_PLACE_SIZE];
    return uf2_ask(settings, UF2_SETTINGS_SIZE, len, UF2_FAMILY_DATA, place, sizeof place) == UF2_ANSWER_BAD_SETTINGS;
}

/* ---- a store of settings */

static uint8_t store[UF2_STORE_MAX_SIZE + PLAY_MORE], kept[UF2_STORE_MAX_SIZE + PLAY_MORE], read_to[UF2_SETTINGS_SIZE + PLAY_MORE];
static uf2_len store_len, kept_len, kept_flash, read_len;

static void call_store_write(void) {
    result = uf2_store_write(settings, lent[L_SETTINGS], flash_len, store, store_len);
}

static void call_store_read(void) {
    result = uf2_store_read(store, store_len, flash_len, read_to, read_len);
}

/* The most sectors that the entries of make_settings reach to, and how many sectors one of them may become. */
#define REACHED 33u
#define MOST (UF2_FLASH_MAX_SIZE / UF2_SECTOR_SIZE / REACHED)

/* An entry with so many sectors for each one, less some of its first and of its last, and user families of any bits, of all or of none. */
static void widen(uint8_t *entry, uint32_t by) {
    uint32_t i, first = uf2_get32(entry + UF2_ENTRY_FIRST_AT) * by, sectors = uf2_get32(entry + UF2_ENTRY_SECTORS_AT) * by;
    uint32_t cut = one_in(2) ? below(by) : 0, end = below(by - cut);
    uf2_put32(entry + UF2_ENTRY_FIRST_AT, first + cut);
    uf2_put32(entry + UF2_ENTRY_SECTORS_AT, sectors - cut - end);
    for (i = 0; i < 4; i++)
        if (!one_in(8))
            uf2_put32(entry + UF2_ENTRY_USERS_AT + 4 * i, one_in(6) ? 0xFFFFFFFFu : one_in(6) ? 0 : any());
}

/* Settings of up to 16 entries anywhere in a flash of up to 32 MiB, mostly good for it. */
static void make_kept(void) {
    uint32_t k, by, entries;
    uint8_t *entry;
    do {
        make_settings();
        entries = settings[UF2_SETTINGS_COUNT_AT];
        if (one_in(3) && entries <= UF2_MAX_ENTRIES)
            entries = settings[UF2_SETTINGS_COUNT_AT] = (uint8_t)(1 + below(UF2_MAX_ENTRIES));
        by = one_in(3) ? MOST : 1 + below(MOST);
        for (k = 0; k < UF2_MAX_ENTRIES; k++)
            widen(settings + UF2_SETTINGS_ENTRY_AT(k), by);
        flash_len = (uf2_len)UF2_SECTOR_SIZE * REACHED * by;
        /* the flash ends with the last entry, or is one entry */
        entry = settings + UF2_SETTINGS_ENTRY_AT(entries > 0 && entries <= UF2_MAX_ENTRIES ? entries - 1 : 0);
        if (one_in(3))
            flash_len = (uf2_len)UF2_SECTOR_SIZE * (uf2_get32(entry + UF2_ENTRY_FIRST_AT) + uf2_get32(entry + UF2_ENTRY_SECTORS_AT));
        if (one_in(24)) {
            settings[UF2_SETTINGS_COUNT_AT] = 1;
            flash_len = UF2_FLASH_MAX_SIZE;
            uf2_put32(settings + UF2_SETTINGS_ENTRY_AT(0) + UF2_ENTRY_FIRST_AT, 0);
            uf2_put32(settings + UF2_SETTINGS_ENTRY_AT(0) + UF2_ENTRY_SECTORS_AT, UF2_FLASH_MAX_SIZE / UF2_SECTOR_SIZE);
        }
    } while (bad_settings(flash_len) && !one_in(12));
}

static void write_store(void) {
    uint32_t entries = settings[UF2_SETTINGS_COUNT_AT], size = UF2_STORE_SIZE(entries <= UF2_MAX_ENTRIES ? entries : 0);
    store_len = one_in(12) ? below(sizeof store + 1) : one_in(2) ? size : size + below(sizeof store - size + 1);
    lent[L_SETTINGS] = one_in(50) ? wrong_len(UF2_SETTINGS_SIZE) : UF2_SETTINGS_SIZE;
    if (one_in(30))
        flash_len = another_len(flash_len);
    random_bytes(store, sizeof store);
    go_on(PLAY_STORE_WRITE);
    play_call(PLAY_STORE_WRITE, call_store_write);
    count(result);
    add_bytes(store, sizeof store);
    if (result == UF2_STORE_DONE) {
        memcpy(kept, store, sizeof kept);
        kept_len = size;
        kept_flash = flash_len;
    }
}

/* One thing wrong in the store that was written last, or in what is lent beside it. */
static void spoil_store(void) {
    uint32_t at = below((uint32_t)store_len);
    switch (below(8)) {
    case 0:
        store[at % 2] = (uint8_t)any();
        break;
    case 1:
        store[at - at % 22 + 1] ^= (uint8_t)(1u << below(8)); /* the head's last byte, or an entry's */
        break;
    case 2:
        store[at] = (uint8_t)any();
        break;
    case 3:
        store_len = one_in(3) ? below(3) : below(sizeof store + 1);
        break;
    case 4:
        flash_len = another_len(flash_len);
        break;
    case 5:
        read_len = wrong_len(UF2_SETTINGS_SIZE);
        break;
    default:
        store[at] ^= (uint8_t)(1u << below(8));
    }
}

/* Whether a store that was written is read, where nothing of it was spoilt. */
static int read_store(void) {
    int whole = one_in(2) || kept_len == 0;
    memcpy(store, kept, sizeof store);
    store_len = kept_len;
    flash_len = kept_flash;
    read_len = UF2_SETTINGS_SIZE;
    if (!whole)
        spoil_store();
    random_bytes(read_to, sizeof read_to);
    go_on(PLAY_STORE_READ);
    play_call(PLAY_STORE_READ, call_store_read);
    count(result);
    add_bytes(read_to, sizeof read_to);
    return !whole || result == UF2_STORE_DONE || kept_len == 0;
}

static int play_store(void) {
    uint32_t i;
    int good = 1;
    begin(PLAY_STORE_READ);
    begin(PLAY_STORE_WRITE);
    kept_len = 0;
    for (i = 0; i < PLAY_COUNT; i++) {
        make_kept();
        write_store();
        good = read_store() && good;
    }
    return good;
}

/* ---- reasons */

static uint8_t reason[UF2_REASON_SIZE + PLAY_MORE];
static uf2_len reason_len;

/* Which conditions were told, of an arrival and of a place. */
static uint8_t told_arrival[UF2_CAUSE_KEPT + 1], told_place[UF2_CAUSE_KEPT + 1];

static void make_reason(void) {
    reason_len = one_in(30) ? wrong_len(UF2_REASON_SIZE) : UF2_REASON_SIZE;
    random_bytes(reason, sizeof reason);
}

static void count_reason(uint8_t *told) {
    uint32_t cause = uf2_get32(reason + UF2_REASON_CAUSE_AT);
    count_result(result);
    add_bytes(reason, sizeof reason);
    if (reason_len == UF2_REASON_SIZE && cause <= UF2_CAUSE_KEPT)
        told[cause] = 1;
}

/* Makes settings bad, mostly by one condition of row 2. */
static void bend_settings(void) {
    uint32_t entries = settings[UF2_SETTINGS_COUNT_AT], k, j;
    uint8_t *entry;
    if (entries == 0 || entries > UF2_MAX_ENTRIES)
        entries = settings[UF2_SETTINGS_COUNT_AT] = (uint8_t)(1 + below(UF2_MAX_ENTRIES));
    k = below(entries);
    j = below(k + 1);
    entry = settings + UF2_SETTINGS_ENTRY_AT(k);
    switch (below(11)) {
    case 0:
        settings[settings[UF2_SETTINGS_CURRENT_AT] == 0 ? UF2_SETTINGS_ARM_AT : UF2_SETTINGS_RISCV_AT] = 0;
        break;
    case 1:
        settings[UF2_SETTINGS_COUNT_AT] = (uint8_t)(UF2_MAX_ENTRIES + 1 + below(239));
        break;
    case 2:
        uf2_put32(entry + UF2_ENTRY_SECTORS_AT, 0);
        break;
    case 3:
        j = one_in(2) ? UF2_ENTRY_FIRST_AT : UF2_ENTRY_SECTORS_AT;
        uf2_put32(entry + j, one_in(4) ? 0xFFFFFFFFu : any_size());
        break;
    case 4:
        uf2_put32(entry + UF2_ENTRY_FIRST_AT, uf2_get32(settings + UF2_SETTINGS_ENTRY_AT(j) + UF2_ENTRY_FIRST_AT));
        break;
    case 5:
        entry[UF2_ENTRY_LINK_AT] = (uint8_t)(1 + below(2));
        entry[UF2_ENTRY_LINK_INDEX_AT] = (uint8_t)(k + below(256 - k));
        break;
    case 6:
        entry[UF2_ENTRY_LINK_AT] = (uint8_t)(1 + below(2));
        entry[UF2_ENTRY_LINK_INDEX_AT] = (uint8_t)j;
        settings[UF2_SETTINGS_ENTRY_AT(j) + UF2_ENTRY_LINK_AT] = UF2_LINK_B_OF;
        break;
    case 7:
        entry[UF2_ENTRY_USER_COUNT_AT] = (uint8_t)(5 + below(251));
        break;
    case 8:
        entry[UF2_ENTRY_USER_COUNT_AT] = (uint8_t)(1 + below(4));
        j = below(entry[UF2_ENTRY_USER_COUNT_AT]);
        uf2_put32(entry + UF2_ENTRY_USERS_AT + 4 * j, UF2_FAMILY_RP2040 - 1 + below(8));
        break;
    case 9:
        lent[L_SETTINGS] = wrong_len(UF2_SETTINGS_SIZE);
        break;
    default:
        entry[UF2_ENTRY_LINK_AT] = (uint8_t)(3 + below(253));
    }
}

/* ---- the reason of an arrival */

static uint8_t arrival[UF2_ARRIVAL_SIZE + PLAY_MORE], transfer[UF2_TRANSFER_SIZE + PLAY_MORE];

static void call_why(void) {
    result = uf2_why(settings, lent[L_SETTINGS], transfer, lent[L_TRANSFER], arrival, lent[L_ARRIVAL], board.flash, lent[L_FLASH], board.seen,
                     lent[L_SEEN], board.sectors, lent[L_SECTORS], board.main_ram, lent[L_MAIN], board.xip_ram, lent[L_XIP], reason, reason_len);
}

static uint32_t look(void) {
    return uf2_look(settings, lent[L_SETTINGS], transfer, lent[L_TRANSFER], arrival, lent[L_ARRIVAL], board.flash, lent[L_FLASH], board.seen,
                    lent[L_SEEN], board.sectors, lent[L_SECTORS], board.main_ram, lent[L_MAIN], board.xip_ram, lent[L_XIP]);
}

static uint32_t take(void) {
    return uf2_take(settings, lent[L_SETTINGS], board.transfer, lent[L_TRANSFER], arrival, lent[L_ARRIVAL], board.flash, lent[L_FLASH], board.seen,
                    lent[L_SEEN], board.sectors, lent[L_SECTORS], board.main_ram, lent[L_MAIN], board.xip_ram, lent[L_XIP]);
}

/* Row 1. A flash of more than 32 MiB cannot be lent by a board, so that 104 is not told here. */
static void bend_lengths(void) {
    uint32_t which = below(LENGTHS), right = lent[which];
    lent[which] = one_in(4) ? 0 : right + 1 + below(PLAY_MORE);
    if (right > 0 && one_in(2))
        lent[which] = right - 1 - (one_in(2) ? 0 : below(right));
}

/* Row 3. */
static void bend_transfer(void) {
    uint32_t total = one_in(2) ? 131070 + below(5) : 1 + below(6);
    transfer[UF2_TRANSFER_STATE_AT] = (uint8_t)(one_in(6) ? below(256) : 1 + below(2));
    transfer[UF2_TRANSFER_KIND_AT] = (uint8_t)(one_in(6) ? below(256) : below(3));
    uf2_put32(transfer + UF2_TRANSFER_TOTAL_AT, one_in(6) ? 0 : one_in(6) ? any_size() : total);
    uf2_put32(transfer + UF2_TRANSFER_COUNT_AT, one_in(3) ? 0 : one_in(2) ? total + below(2) : any_size());
    if (one_in(8))
        lent[L_TRANSFER] = wrong_len(UF2_TRANSFER_SIZE);
}

static void put(uint32_t at, uint32_t word) {
    uf2_put32(arrival + at, word);
}

/* A region of no, one or two sectors around the block, before or after it; sometimes not of whole sectors. */
static void bend_region(void) {
    uint32_t address = uf2_get32(arrival + 12), start = address - address % UF2_SECTOR_SIZE + UF2_SECTOR_SIZE * below(3), len = UF2_SECTOR_SIZE * below(3);
    put(8, 0x6000u);
    put(484, (one_in(4) ? start + below(256) : start) - UF2_SECTOR_SIZE);
    put(488, one_in(4) ? len + below(256) : one_in(8) ? 4096u << below(12) : len);
}

/* Rows 4 to 17. */
static void bend_arrival(void) {
    uint32_t flags = uf2_get32(arrival + 8), total = uf2_get32(arrival + 24), which = below(96);
    static const uint32_t starts[] = {UF2_FLASH_START, UF2_MAIN_RAM_START, UF2_XIP_RAM_START};
    static const uint32_t ends[] = {UF2_FLASH_START + PLAY_FLASH_SIZE, UF2_MAIN_RAM_END, UF2_XIP_RAM_END};
    switch (below(12)) {
    case 0:
        put(0, uf2_get32(arrival) ^ 1u << which % 32);
        break;
    case 1:
        put(which % 2 == 0 ? 4 : 508, any());
        break;
    case 2:
        put(8, one_in(2) ? flags | 0x1000u : flags & ~0x2000u);
        break;
    case 3:
        put(8, flags | 1u);
        break;
    case 4:
        put(28, one_in(6) ? any() : UF2_FAMILY_RP2040 + below(6));
        break;
    case 5:
        put(16, any_size());
        break;
    case 6:
        put(24, one_in(2) ? 0 : any_size());
        break;
    case 7:
        put(20, total + below(2));
        break;
    case 8:
        put(12, starts[which % 3] - (one_in(2) ? below(2) : below(512)));
        break;
    case 9:
        put(12, ends[which % 3] - (one_in(2) ? below(2) : one_in(2) ? 254 + below(4) : below(512)));
        break;
    case 10:
        put(12, uf2_get32(arrival + 12) + 1 + below(255));
        break;
    default:
        bend_region();
    }
}

/* Each arrival is asked about, often with something of it or of what is lent bent, and then taken. The answer is the look's. */
static int play_why(void) {
    uint8_t before[sizeof settings];
    uint32_t i, taken = 0;
    begin(PLAY_WHY);
    fresh_board();
    for (i = 0; i < PLAY_COUNT; i++) {
        make_state(i, taken);
        make_arrival(arrival);
        make_reason();
        memcpy(before, settings, sizeof before);
        memcpy(transfer, board.transfer, sizeof transfer);
        if (one_in(2)) {
            switch (below(8)) {
            case 0:
                bend_lengths();
                break;
            case 1:
                bend_settings();
                break;
            case 2:
                bend_transfer();
                break;
            default:
                bend_arrival();
            }
        }
        play_call(PLAY_WHY, call_why);
        count_reason(told_arrival);
        add_bytes(transfer, sizeof transfer);
        add_small(&board);
        if (result != look())
            return 0;
        taken = take();
        memcpy(settings, before, sizeof settings);
        if (i % 512 == 511)
            add_all(&board);
    }
    add_all(&board);
    return 1;
}

/* ---- whether a block stands */

static void call_stands(void) {
    result = uf2_stands(settings, lent[L_SETTINGS], arrival, lent[L_ARRIVAL], board.flash, lent[L_FLASH], board.main_ram, lent[L_MAIN],
                        board.xip_ram, lent[L_XIP]);
}

/* What it must tell of an arrival that a look with a fresh transfer and whole maps answers so. */
static int told_as(uint32_t looked) {
    return looked <= UF2_ANSWER_BAD_ADDRESS ? result == looked : result == UF2_STANDS || result == UF2_DIFFERS;
}

static uint32_t fresh_look(void) {
    uf2_new(transfer, UF2_TRANSFER_SIZE);
    return UF2_RESULT_ANSWER(uf2_look(settings, lent[L_SETTINGS], transfer, UF2_TRANSFER_SIZE, arrival, lent[L_ARRIVAL], board.flash, lent[L_FLASH],
                                      board.seen, UF2_SEEN_MAP_SIZE, board.sectors, UF2_SECTOR_MAP_SIZE, board.main_ram, lent[L_MAIN],
                                      board.xip_ram, lent[L_XIP]));
}

/* Each arrival is asked about, often with something bent, then taken, and asked about again where it was written: it stands. */
static int play_stands(void) {
    uint8_t before[sizeof settings];
    uint32_t i, taken = 0;
    begin(PLAY_STANDS);
    fresh_board();
    for (i = 0; i < PLAY_COUNT; i++) {
        make_state(i, taken);
        make_arrival(arrival);
        memcpy(before, settings, sizeof before);
        if (one_in(4))
            bend_arrival();
        else if (one_in(16))
            bend_lengths();
        else if (one_in(16))
            bend_settings();
        play_call(PLAY_STANDS, call_stands);
        count(result);
        if (!told_as(fresh_look()))
            return 0;
        taken = take();
        if (UF2_RESULT_ANSWER(taken) == UF2_ANSWER_WRITTEN) {
            call_stands();
            if (result != UF2_STANDS)
                return 0;
        }
        add_small(&board);
        memcpy(settings, before, sizeof settings);
        if (i % 512 == 511)
            add_all(&board);
    }
    return 1;
}

/* ---- the reason of a place */

static uint32_t family;

static void call_why_place(void) {
    result = uf2_why_place(settings, lent[L_SETTINGS], flash_len, family, reason, reason_len);
}

/* The answer is the ask's. */
static int play_why_place(void) {
    uint8_t before[sizeof settings], place[UF2_PLACE_SIZE];
    uint32_t i;
    begin(PLAY_WHY_PLACE);
    for (i = 0; i < PLAY_COUNT; i++) {
        if (i % 4 == 0)
            make_board();
        make_lengths();
        make_reason();
        memcpy(before, settings, sizeof before);
        if (one_in(4))
            bend_settings();
        flash_len = one_in(12) ? another_len(lent[L_FLASH]) : lent[L_FLASH];
        family = one_in(8) ? any() : any_family();
        play_call(PLAY_WHY_PLACE, call_why_place);
        count_reason(told_place);
        if (result != uf2_ask(settings, lent[L_SETTINGS], flash_len, family, place, sizeof place))
            return 0;
        memcpy(settings, before, sizeof settings);
    }
    return 1;
}

/* ---- all */

/* How many conditions a row has. */
static const uint8_t conditions[18] = {0, 8, 11, 7, 3, 1, 0, 1, 7, 1, 3, 4, 1, 1, 7, 1, 1, 1};

/* Whether every condition of the rows that a call can answer with was told, but one. */
static int all_told(const uint8_t *told, uint32_t row, uint32_t but) {
    uint32_t k;
    for (k = 100 * row + 1; k <= 100 * row + conditions[row]; k++)
        if (k != but && !told[k])
            return 0;
    return 1;
}

static int arrivals_told(void) {
    uint32_t row;
    for (row = 1; row <= 17; row++)
        if (!all_told(told_arrival, row, UF2_CAUSE_FLASH_OVER))
            return 0;
    return 1;
}

static int places_told(void) {
    uint32_t k;
    for (k = UF2_CAUSE_FLASH_RAGGED; k <= UF2_CAUSE_FLASH_OVER; k++)
        if (!told_place[k])
            return 0;
    return told_place[UF2_PLACE_ABSOLUTE] && told_place[UF2_PLACE_NO_TABLE] && told_place[UF2_PLACE_ENTRY] && all_told(told_place, 2, 0) &&
           all_told(told_place, 8, UF2_CAUSE_NOT_FOR_RAM);
}

static int met_store(enum play_kind kind) {
    return met(kind, UF2_STORE_DONE, UF2_STORE_BAD_SETTINGS, 9) && play_ends[kind].answers[UF2_STORE_BAD_LENGTH] > 0;
}

int play_kept(void) {
    int good = play_store();
    good = play_why() && good;
    good = play_why_place() && good;
    good = play_stands() && good && met(PLAY_STANDS, 1, 2, 0) && met(PLAY_STANDS, 4, 11, 6) && met(PLAY_STANDS, 95, 96, 0);
    good = good && met_store(PLAY_STORE_WRITE) && met_store(PLAY_STORE_READ) && met(PLAY_STORE_READ, UF2_STORE_BAD_VERSION, UF2_STORE_BAD_BITS, 0);
    return good && met(PLAY_WHY, 1, 17, 6) && met(PLAY_WHY_PLACE, 0, 2, 9) && play_ends[PLAY_WHY_PLACE].answers[UF2_ANSWER_NO_PLACE] > 0 &&
           arrivals_told() && places_told();
}
