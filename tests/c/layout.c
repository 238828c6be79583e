/* The header's numbers against the library: every offset of settings, transfers, places, plans and readers, and every answer, by its name.
 * Prints what does not hold, and fails.
 *
 *     gcc -std=c99 -Iinclude tests/c/layout.c target/staticlib/lib*.a -o layout
 */
#include "uf2_receiver.h"
#include "uf2_tags.h"

#include <stdio.h>
#include <string.h>

static int failures;

#define CHECK(holds) ((holds) ? (void)0 : (void)(failures++, printf("line %d: %s\n", __LINE__, #holds)))

/* ---- settings and places */

#define SECTORS 16u
#define FLASH_SIZE (SECTORS * UF2_SECTOR_SIZE)

static uint8_t settings[UF2_SETTINGS_SIZE], place[UF2_PLACE_SIZE];

static uint8_t *entry(int k) {
    return settings + UF2_SETTINGS_ENTRY_AT(k);
}

/* Arm alone, and so many entries of one sector each, entry k in sector k. */
static void table(uint8_t count) {
    int k;
    memset(settings, 0, sizeof settings);
    settings[UF2_SETTINGS_ARM_AT] = 1;
    settings[UF2_SETTINGS_COUNT_AT] = count;
    for (k = 0; k < count; k++) {
        uf2_put32(entry(k) + UF2_ENTRY_FIRST_AT, (uint32_t)k);
        uf2_put32(entry(k) + UF2_ENTRY_SECTORS_AT, 1);
    }
}

static uint32_t ask(uint32_t family) {
    return uf2_ask(settings, sizeof settings, FLASH_SIZE, family, place, sizeof place);
}

/* The entry whose place the family gets; -1: none. */
static int chosen(uint32_t family) {
    if (ask(family) != UF2_ANSWER_FOUND)
        return -1;
    return (int)(uf2_get32(place + UF2_PLACE_START_AT) / UF2_SECTOR_SIZE);
}

static void switches(void) {
    table(0);
    CHECK(ask(UF2_FAMILY_ARM_S) == UF2_ANSWER_FOUND && uf2_get32(place + UF2_PLACE_LENGTH_AT) == FLASH_SIZE);
    CHECK(uf2_get32(place + UF2_PLACE_START_AT) == 0);
    CHECK(ask(UF2_FAMILY_DATA) == UF2_ANSWER_FOUND);
    CHECK(ask(UF2_FAMILY_RISCV) == UF2_ANSWER_NO_PLACE);
    CHECK(ask(UF2_FAMILY_RP2040) == UF2_ANSWER_NO_PLACE);
    CHECK(ask(UF2_FAMILY_ARM_NS) == UF2_ANSWER_NO_PLACE);
    CHECK(ask(UF2_FAMILY_ABSOLUTE) == UF2_ANSWER_NO_PLACE);
    settings[UF2_SETTINGS_ABSOLUTE_AT] = 1;
    CHECK(ask(UF2_FAMILY_ABSOLUTE) == UF2_ANSWER_FOUND && ask(UF2_FAMILY_RP2040) == UF2_ANSWER_NO_PLACE);
    settings[UF2_SETTINGS_RISCV_AT] = 1;
    CHECK(ask(UF2_FAMILY_RISCV) == UF2_ANSWER_FOUND);
    settings[UF2_SETTINGS_RISCV_AT] = 0;
    settings[UF2_SETTINGS_CURRENT_AT] = 1;
    CHECK(ask(UF2_FAMILY_ARM_S) == UF2_ANSWER_BAD_SETTINGS);
    table(UF2_MAX_ENTRIES);
    CHECK(ask(UF2_FAMILY_ARM_S) == UF2_ANSWER_NO_PLACE);
    settings[UF2_SETTINGS_COUNT_AT]++;
    CHECK(ask(UF2_FAMILY_ARM_S) == UF2_ANSWER_BAD_SETTINGS);
    table(0);
    CHECK(uf2_ask(settings, sizeof settings, FLASH_SIZE + 1, UF2_FAMILY_DATA, place, sizeof place) == UF2_ANSWER_BAD_BUFFERS);
    CHECK(uf2_ask(settings, sizeof settings, UF2_FLASH_MAX_SIZE, UF2_FAMILY_DATA, place, sizeof place) == UF2_ANSWER_FOUND);
}

static void entries(void) {
    static const struct {
        int at;
        uint32_t family;
    } accepts[] = {{UF2_ENTRY_DATA_AT, UF2_FAMILY_DATA},
                   {UF2_ENTRY_ARM_S_AT, UF2_FAMILY_ARM_S},
                   {UF2_ENTRY_RISCV_AT, UF2_FAMILY_RISCV},
                   {UF2_ENTRY_ARM_NS_AT, UF2_FAMILY_ARM_NS}};
    int i, k;

    for (i = 0; i < 4; i++) {
        table(3);
        CHECK(chosen(accepts[i].family) == -1);
        entry(1)[accepts[i].at] = 1;
        for (k = 0; k < 4; k++)
            CHECK(chosen(accepts[k].family) == (k == i ? 1 : -1));
    }
    for (i = 0; i < 4; i++) {
        table(3);
        uf2_put32(entry(2) + UF2_ENTRY_USERS_AT + 4 * i, 77);
        entry(2)[UF2_ENTRY_USER_COUNT_AT] = (uint8_t)i;
        CHECK(chosen(77) == -1);
        entry(2)[UF2_ENTRY_USER_COUNT_AT] = (uint8_t)(i + 1);
        CHECK(chosen(77) == 2);
    }
    entry(2)[UF2_ENTRY_USER_COUNT_AT] = 5;
    CHECK(ask(77) == UF2_ANSWER_BAD_SETTINGS);

    table(2);
    entry(1)[UF2_ENTRY_DATA_AT] = 1;
    uf2_put32(entry(1) + UF2_ENTRY_FIRST_AT, 3);
    uf2_put32(entry(1) + UF2_ENTRY_SECTORS_AT, 13);
    CHECK(chosen(UF2_FAMILY_DATA) == 3 && uf2_get32(place + UF2_PLACE_LENGTH_AT) == 13 * UF2_SECTOR_SIZE);
    uf2_put32(entry(1) + UF2_ENTRY_SECTORS_AT, 14);
    CHECK(ask(UF2_FAMILY_DATA) == UF2_ANSWER_BAD_SETTINGS);
}

/* Entries 0 and 1 accept both images. */
static void passes(void) {
    int k;
    table(2);
    settings[UF2_SETTINGS_RISCV_AT] = 1;
    for (k = 0; k < 2; k++)
        entry(k)[UF2_ENTRY_ARM_S_AT] = entry(k)[UF2_ENTRY_RISCV_AT] = 1;
    CHECK(chosen(UF2_FAMILY_ARM_S) == 0 && chosen(UF2_FAMILY_RISCV) == 0);
    entry(0)[UF2_ENTRY_NOT_BOOTABLE_ARM_AT] = 1;
    CHECK(chosen(UF2_FAMILY_ARM_S) == 1 && chosen(UF2_FAMILY_RISCV) == 0);
    /* no answer depends on it */
    entry(0)[UF2_ENTRY_NO_RESTART_AT] = entry(1)[UF2_ENTRY_NO_RESTART_AT] = 1;
    CHECK(chosen(UF2_FAMILY_ARM_S) == 1 && chosen(UF2_FAMILY_RISCV) == 0);
    entry(0)[UF2_ENTRY_NOT_BOOTABLE_ARM_AT] = 0;
    entry(0)[UF2_ENTRY_NOT_BOOTABLE_RISCV_AT] = 1;
    /* the other architecture's image is looked for among the bootable only where auto switch is on */
    CHECK(chosen(UF2_FAMILY_ARM_S) == 0 && chosen(UF2_FAMILY_RISCV) == 0);
    settings[UF2_SETTINGS_AUTO_SWITCH_AT] = 1;
    CHECK(chosen(UF2_FAMILY_ARM_S) == 0 && chosen(UF2_FAMILY_RISCV) == 1);
    entry(1)[UF2_ENTRY_LINK_AT] = UF2_LINK_OWNED_BY;
    CHECK(chosen(UF2_FAMILY_RISCV) == 0);
    entry(0)[UF2_ENTRY_RISCV_AT] = 0;
    CHECK(chosen(UF2_FAMILY_RISCV) == 1);
    entry(1)[UF2_ENTRY_LINK_AT] = UF2_LINK_B_OF;
    CHECK(ask(UF2_FAMILY_RISCV) == UF2_ANSWER_NO_PLACE);
    entry(1)[UF2_ENTRY_LINK_INDEX_AT] = 1;
    CHECK(ask(UF2_FAMILY_RISCV) == UF2_ANSWER_BAD_SETTINGS);
    entry(1)[UF2_ENTRY_LINK_AT] = UF2_LINK_NONE;
    CHECK(chosen(UF2_FAMILY_RISCV) == 1);
}

/* ---- arrivals */

static uint8_t transfer[UF2_TRANSFER_SIZE], arrival[UF2_ARRIVAL_SIZE];
static uint8_t flash[FLASH_SIZE], seen[UF2_SEEN_MAP_SIZE], sectors[UF2_SECTOR_MAP_SIZE];
static uint8_t main_ram[UF2_MAIN_RAM_SIZE + 1], xip_ram[UF2_XIP_RAM_SIZE + 1];
/* what is lent of them */
static uf2_len main_len = UF2_MAIN_RAM_SIZE, xip_len = UF2_XIP_RAM_SIZE;

enum { FLAGS_AT = 8, ADDRESS_AT = 12, SIZE_AT = 16, NUMBER_AT = 20, TOTAL_AT = 24, FAMILY_AT = 28 };

static void block(uint32_t number, uint32_t total) {
    memset(arrival, 0, sizeof arrival);
    uf2_put32(arrival, 0x0A324655u);
    uf2_put32(arrival + 4, 0x9E5D5157u);
    uf2_put32(arrival + FLAGS_AT, 0x2000u);
    uf2_put32(arrival + ADDRESS_AT, 0x10000000u + 256u * number);
    uf2_put32(arrival + SIZE_AT, 256u);
    uf2_put32(arrival + NUMBER_AT, number);
    uf2_put32(arrival + TOTAL_AT, total);
    uf2_put32(arrival + FAMILY_AT, UF2_FAMILY_ARM_S);
    uf2_put32(arrival + 508, 0x0AB16F30u);
}

/* The result of a take; a look said the same. */
static uint32_t take_of(uf2_len arrival_len, uf2_len settings_len, uf2_len transfer_len) {
    uint32_t look = uf2_look(settings, settings_len, transfer, transfer_len, arrival, arrival_len, flash, sizeof flash, seen, sizeof seen,
                             sectors, sizeof sectors, main_ram, main_len, xip_ram, xip_len);
    uint32_t take = uf2_take(settings, settings_len, transfer, transfer_len, arrival, arrival_len, flash, sizeof flash, seen, sizeof seen,
                             sectors, sizeof sectors, main_ram, main_len, xip_ram, xip_len);
    CHECK(look == take);
    return take;
}

static uint32_t take(void) {
    return take_of(UF2_ARRIVAL_SIZE, UF2_SETTINGS_SIZE, UF2_TRANSFER_SIZE);
}

/* A block of a file that is right but for one field. */
static uint32_t take_with(int at, uint32_t x) {
    block(0, 3);
    uf2_put32(arrival + at, x);
    return take();
}

static int stands_in(int kind, int state, uint32_t total, uint32_t count) {
    uint32_t family = state == UF2_STATE_IDLE ? 0 : UF2_FAMILY_ARM_S;
    return transfer[UF2_TRANSFER_STATE_AT] == state && uf2_get32(transfer + UF2_TRANSFER_FAMILY_AT) == family &&
           uf2_get32(transfer + UF2_TRANSFER_TOTAL_AT) == total && uf2_get32(transfer + UF2_TRANSFER_COUNT_AT) == count &&
           transfer[UF2_TRANSFER_KIND_AT] == kind;
}

static int stands(int state, uint32_t total, uint32_t count) {
    return stands_in(UF2_KIND_FLASH, state, total, count);
}

static void arrivals(void) {
    uint32_t result;

    table(0);
    memset(transfer, 9, sizeof transfer);
    uf2_new(transfer, sizeof transfer);
    CHECK(stands(UF2_STATE_IDLE, 0, 0));
    block(0, 3);
    CHECK(take_of(UF2_ARRIVAL_SIZE - 1, UF2_SETTINGS_SIZE, UF2_TRANSFER_SIZE) == UF2_ANSWER_BAD_BUFFERS);
    CHECK(take_of(UF2_ARRIVAL_SIZE, UF2_SETTINGS_SIZE - 1, UF2_TRANSFER_SIZE) == UF2_ANSWER_BAD_SETTINGS);
    CHECK(take_of(UF2_ARRIVAL_SIZE, UF2_SETTINGS_SIZE, UF2_TRANSFER_SIZE - 1) == UF2_ANSWER_BAD_STATE);
    transfer[UF2_TRANSFER_STATE_AT] = UF2_STATE_RUNNING;
    CHECK(take() == UF2_ANSWER_BAD_STATE);
    transfer[UF2_TRANSFER_STATE_AT] = UF2_STATE_IDLE;
    CHECK(take_with(0, 0) == UF2_ANSWER_NOT_BLOCK);
    CHECK(take_with(FLAGS_AT, 0x3000) == UF2_ANSWER_CONTAINER);
    CHECK(take_with(FLAGS_AT, 0) == UF2_ANSWER_NO_FAMILY);
    CHECK(take_with(FAMILY_AT, UF2_FAMILY_RISCV) == UF2_ANSWER_NO_PLACE);
    CHECK(take_with(SIZE_AT, 255) == UF2_ANSWER_BAD_PAYLOAD);
    CHECK(take_with(TOTAL_AT, FLASH_SIZE / 256 + 1) == UF2_ANSWER_BAD_NUMBERS);
    CHECK(take_with(ADDRESS_AT, 0x10000000u + FLASH_SIZE) == UF2_ANSWER_BAD_ADDRESS);
    CHECK(stands(UF2_STATE_IDLE, 0, 0));

    block(1, 3);
    CHECK(take() == UF2_ANSWER_WRITTEN && stands(UF2_STATE_RUNNING, 3, 1));
    CHECK(take() == UF2_ANSWER_AGAIN && stands(UF2_STATE_RUNNING, 3, 1));
    block(1, 2);
    result = take();
    CHECK(UF2_RESULT_ANSWER(result) == UF2_ANSWER_WRITTEN && UF2_RESULT_IS_DISCARDED(result) && stands(UF2_STATE_RUNNING, 2, 1));
    CHECK(UF2_ANSWER_IS_ACCEPTED(UF2_RESULT_ANSWER(result)));
    block(0, 3);
    uf2_put32(arrival + FLAGS_AT, 0x2001);
    result = take();
    CHECK(UF2_RESULT_ANSWER(result) == UF2_ANSWER_NOTED && UF2_RESULT_IS_DISCARDED(result) && stands(UF2_STATE_RUNNING, 3, 1));
    CHECK(UF2_ANSWER_IS_ACCEPTED(UF2_ANSWER_NOTED));
    block(1, 2);
    CHECK(take() == (UF2_ANSWER_WRITTEN | UF2_RESULT_DISCARDED));
    block(0, 2);
    result = take();
    CHECK(result == UF2_ANSWER_COMPLETED && !UF2_RESULT_IS_DISCARDED(result) && stands(UF2_STATE_DONE, 2, 2));
    CHECK(take() == UF2_ANSWER_FINISHED && !UF2_ANSWER_IS_ACCEPTED(UF2_ANSWER_FINISHED));
}

/* ---- plans */

static uint8_t plan[UF2_PLAN_SIZE + 1];

static uint32_t accept_of(uf2_len plan_len) {
    return uf2_accept(settings, sizeof settings, transfer, sizeof transfer, arrival, sizeof arrival, flash, sizeof flash, seen, sizeof seen,
                      sectors, sizeof sectors, main_ram, main_len, xip_ram, xip_len, plan, plan_len);
}

/* The answer, with the plan written over bytes that are none. */
static uint32_t accept(void) {
    memset(plan, 0xA5, sizeof plan);
    return accept_of(UF2_PLAN_SIZE);
}

static int planned(int deed, uint32_t sector, uint32_t page) {
    return uf2_get32(plan + UF2_PLAN_DEED_AT) == (uint32_t)deed && uf2_get32(plan + UF2_PLAN_SECTOR_AT) == sector &&
           uf2_get32(plan + UF2_PLAN_PAGE_AT) == page && plan[UF2_PLAN_SIZE] == 0xA5;
}

static void plans(void) {
    static uint8_t old[sizeof flash];

    /* the place of arm-s is the last but one sector, so that an offset in the flash is none in the place */
    table(16);
    entry(14)[UF2_ENTRY_ARM_S_AT] = 1;
    uf2_new(transfer, sizeof transfer);
    memset(flash, 0x5A, sizeof flash);
    memcpy(old, flash, sizeof flash);
    memset(plan, 0xA5, sizeof plan);
    block(2, 4);
    CHECK(accept_of(UF2_PLAN_SIZE - 1) == UF2_ANSWER_BAD_BUFFERS && stands(UF2_STATE_IDLE, 0, 0) && plan[0] == 0xA5);
    CHECK(accept_of(UF2_PLAN_SIZE + 1) == UF2_ANSWER_BAD_BUFFERS && stands(UF2_STATE_IDLE, 0, 0) && plan[0] == 0xA5);
    CHECK(accept() == UF2_ANSWER_WRITTEN && stands(UF2_STATE_RUNNING, 4, 1));
    CHECK(planned(UF2_PLAN_ERASE, 14 * UF2_SECTOR_SIZE, 14 * UF2_SECTOR_SIZE + 2 * UF2_PAYLOAD_SIZE));
    CHECK(accept() == UF2_ANSWER_AGAIN && planned(UF2_PLAN_NOTHING, 0, 0));
    block(1, 4);
    CHECK(accept() == UF2_ANSWER_WRITTEN);
    CHECK(planned(UF2_PLAN_PROGRAM, 14 * UF2_SECTOR_SIZE, 14 * UF2_SECTOR_SIZE + UF2_PAYLOAD_SIZE));
    block(0, 4);
    uf2_put32(arrival + FLAGS_AT, 0x2001);
    CHECK(accept() == UF2_ANSWER_NOTED && planned(UF2_PLAN_NOTHING, 0, 0));
    block(3, 3);
    CHECK(accept() == UF2_ANSWER_BAD_NUMBERS && planned(UF2_PLAN_NOTHING, 0, 0));
    block(0, 1);
    uf2_put32(arrival + ADDRESS_AT, UF2_XIP_RAM_START);
    memset(arrival + UF2_PAYLOAD_AT, 7, UF2_PAYLOAD_SIZE);
    CHECK(accept() == (UF2_ANSWER_COMPLETED | UF2_RESULT_DISCARDED) && planned(UF2_PLAN_NOTHING, 0, 0));
    CHECK(xip_ram[0] == 7 && xip_ram[UF2_PAYLOAD_SIZE - 1] == 7);
    CHECK(memcmp(flash, old, sizeof flash) == 0);
}

/* ---- RAM windows */

/* The answer to block 0 of 3 at an address, from a fresh transfer. */
static uint32_t answer_at(uint32_t address) {
    uf2_new(transfer, sizeof transfer);
    return take_with(ADDRESS_AT, address);
}

static void windows(void) {
    static const struct {
        int kind;
        uint32_t start, end;
        uint8_t *ram;
    } rams[] = {{UF2_KIND_MAIN_RAM, UF2_MAIN_RAM_START, UF2_MAIN_RAM_END, main_ram},
                {UF2_KIND_XIP_RAM, UF2_XIP_RAM_START, UF2_XIP_RAM_END, xip_ram}};
    int i;

    table(0);
    for (i = 0; i < 2; i++) {
        uint32_t start = rams[i].start, end = rams[i].end;
        CHECK(answer_at(start - 1) == UF2_ANSWER_BAD_ADDRESS && answer_at(end) == UF2_ANSWER_BAD_ADDRESS);
        CHECK(answer_at(end - 255) == UF2_ANSWER_BAD_ADDRESS);
        memset(rams[i].ram, 0xEE, end - start);
        memset(flash, 0xEE, sizeof flash);
        CHECK(answer_at(end - 256) == UF2_ANSWER_WRITTEN && stands_in(rams[i].kind, UF2_STATE_RUNNING, 3, 1));
        CHECK(rams[i].ram[end - start - 257] == 0xEE && rams[i].ram[end - start - 256] == 0 && rams[i].ram[end - start - 1] == 0);
        CHECK(answer_at(start + 1) == UF2_ANSWER_WRITTEN && rams[i].ram[0] == 0xEE && rams[i].ram[1] == 0 && flash[0] == 0xEE);
        CHECK(sectors[0] == 0);
        /* as many blocks as the window holds */
        uf2_new(transfer, sizeof transfer);
        block(0, (end - start) / 256);
        uf2_put32(arrival + ADDRESS_AT, start);
        CHECK(take() == UF2_ANSWER_WRITTEN);
        block(0, (end - start) / 256 + 1);
        uf2_put32(arrival + ADDRESS_AT, start);
        CHECK(take() == UF2_ANSWER_BAD_NUMBERS);
        /* every family of images and data, whatever is enabled; not absolute, whatever is allowed */
        block(0, 3);
        uf2_put32(arrival + ADDRESS_AT, start);
        uf2_put32(arrival + FAMILY_AT, UF2_FAMILY_ARM_NS);
        CHECK(UF2_RESULT_ANSWER(take()) == UF2_ANSWER_WRITTEN);
        settings[UF2_SETTINGS_ABSOLUTE_AT] = 1;
        uf2_put32(arrival + FAMILY_AT, UF2_FAMILY_ABSOLUTE);
        CHECK(take() == UF2_ANSWER_NO_PLACE);
        settings[UF2_SETTINGS_ABSOLUTE_AT] = 0;
    }
    /* a user family of a "B of" entry */
    table(2);
    entry(1)[UF2_ENTRY_LINK_AT] = UF2_LINK_B_OF;
    uf2_put32(entry(1) + UF2_ENTRY_USERS_AT, 77);
    entry(1)[UF2_ENTRY_USER_COUNT_AT] = 1;
    uf2_new(transfer, sizeof transfer);
    block(0, 3);
    uf2_put32(arrival + FAMILY_AT, 77);
    CHECK(take() == UF2_ANSWER_NO_PLACE);
    uf2_put32(arrival + ADDRESS_AT, UF2_XIP_RAM_START);
    CHECK(take() == UF2_ANSWER_WRITTEN);
    entry(1)[UF2_ENTRY_USER_COUNT_AT] = 0;
    CHECK(take() == UF2_ANSWER_NO_PLACE);
    /* where no window is, 11 comes before 10 and after 9 */
    table(0);
    uf2_new(transfer, sizeof transfer);
    block(0, 0);
    CHECK(take() == UF2_ANSWER_BAD_NUMBERS);
    uf2_put32(arrival + ADDRESS_AT, UF2_FLASH_END);
    CHECK(take() == UF2_ANSWER_BAD_ADDRESS);
    uf2_put32(arrival + SIZE_AT, 255);
    CHECK(take() == UF2_ANSWER_BAD_PAYLOAD);
}

/* A change of kind, the kind of comments, and buffers that are empty or of a wrong length. */
static void kinds(void) {
    table(0);
    uf2_new(transfer, sizeof transfer);
    block(0, 3);
    CHECK(take() == UF2_ANSWER_WRITTEN && stands_in(UF2_KIND_FLASH, UF2_STATE_RUNNING, 3, 1));
    uf2_put32(arrival + ADDRESS_AT, UF2_MAIN_RAM_START);
    CHECK(take() == (UF2_ANSWER_WRITTEN | UF2_RESULT_DISCARDED) && stands_in(UF2_KIND_MAIN_RAM, UF2_STATE_RUNNING, 3, 1));
    CHECK(take() == UF2_ANSWER_AGAIN);
    uf2_put32(arrival + ADDRESS_AT, UF2_XIP_RAM_START);
    CHECK(take() == (UF2_ANSWER_WRITTEN | UF2_RESULT_DISCARDED) && stands_in(UF2_KIND_XIP_RAM, UF2_STATE_RUNNING, 3, 1));
    /* a comment takes the kind of the running transfer, or flash where that kind's buffer is empty */
    block(1, 3);
    uf2_put32(arrival + FLAGS_AT, 0x2001);
    CHECK(take() == UF2_ANSWER_NOTED && stands_in(UF2_KIND_XIP_RAM, UF2_STATE_RUNNING, 3, 2));
    block(2, 3);
    uf2_put32(arrival + FLAGS_AT, 0x2001);
    xip_len = 0;
    CHECK(take() == (UF2_ANSWER_NOTED | UF2_RESULT_DISCARDED) && stands_in(UF2_KIND_FLASH, UF2_STATE_RUNNING, 3, 1));
    /* an empty buffer has no window */
    CHECK(answer_at(UF2_XIP_RAM_START) == UF2_ANSWER_BAD_ADDRESS && answer_at(UF2_MAIN_RAM_START) == UF2_ANSWER_WRITTEN);
    xip_len = UF2_XIP_RAM_SIZE;
    main_len = 0;
    CHECK(answer_at(UF2_MAIN_RAM_START) == UF2_ANSWER_BAD_ADDRESS && answer_at(UF2_XIP_RAM_START) == UF2_ANSWER_WRITTEN);
    /* every other length is wrong, for flash too */
    for (main_len = UF2_MAIN_RAM_SIZE - 1; main_len <= UF2_MAIN_RAM_SIZE + 1; main_len++)
        CHECK(answer_at(UF2_FLASH_START) == (main_len == UF2_MAIN_RAM_SIZE ? UF2_ANSWER_WRITTEN : UF2_ANSWER_BAD_BUFFERS));
    main_len = UF2_MAIN_RAM_SIZE;
    for (xip_len = UF2_XIP_RAM_SIZE - 1; xip_len <= UF2_XIP_RAM_SIZE + 1; xip_len++)
        CHECK(answer_at(UF2_FLASH_START) == (xip_len == UF2_XIP_RAM_SIZE ? UF2_ANSWER_WRITTEN : UF2_ANSWER_BAD_BUFFERS));
    xip_len = UF2_XIP_RAM_SIZE;
    /* a kind over 2 is no transfer, and is not read where idle */
    CHECK(answer_at(UF2_XIP_RAM_START) == UF2_ANSWER_WRITTEN);
    transfer[UF2_TRANSFER_KIND_AT]++;
    CHECK(take() == UF2_ANSWER_BAD_STATE);
    transfer[UF2_TRANSFER_STATE_AT] = UF2_STATE_DONE;
    CHECK(take() == UF2_ANSWER_BAD_STATE);
    transfer[UF2_TRANSFER_KIND_AT]--;
    CHECK(take() == UF2_ANSWER_FINISHED);
    transfer[UF2_TRANSFER_STATE_AT] = UF2_STATE_IDLE;
    transfer[UF2_TRANSFER_KIND_AT] = 255;
    CHECK(take() == UF2_ANSWER_WRITTEN && stands_in(UF2_KIND_XIP_RAM, UF2_STATE_RUNNING, 3, 1));
    uf2_new(transfer, sizeof transfer);
    CHECK(stands(UF2_STATE_IDLE, 0, 0));
}

/* ---- lines */

static uint8_t reader[UHEX_READER_SIZE], image[UHEX_IMAGE_MAX_SIZE + 1];

static uint32_t line_of(const char *text, uf2_len reader_len, uf2_len image_len) {
    return uhex_line(reader, reader_len, (const uint8_t *)text, strlen(text), image, image_len);
}

static uint32_t line(const char *text) {
    return line_of(text, sizeof reader, UHEX_IMAGE_MAX_SIZE);
}

static uint32_t offset(void) {
    return uf2_get32(reader + UHEX_READER_OFFSET_AT);
}

/* A reader in the section of its own board, at an offset, without what it takes to come there. */
static void inside(uint16_t own, uint32_t at) {
    uhex_new(own, reader, sizeof reader);
    uf2_put32(reader + UHEX_READER_OFFSET_AT, at);
    reader[UHEX_READER_STATE_AT] = UHEX_STATE_INSIDE;
    uhex_put16(reader + UHEX_READER_BOARD_AT, own);
}

/* A line refused in a section, at a position or at none (0), the reader that remembers it, and the same again. */
static int fails_at(const char *text, uint32_t answer, uint32_t position) {
    uint32_t result;

    inside(UHEX_BOARD_V1, 512);
    result = line(text);
    return UHEX_RESULT_ANSWER(result) == answer && UHEX_RESULT_POSITION(result) == position &&
           reader[UHEX_READER_STATE_AT] == UHEX_STATE_FAILED && reader[UHEX_READER_FAILURE_AT] == answer &&
           uhex_get16(reader + UHEX_READER_POSITION_AT) == position && line(":00000001FF\n") == result && UHEX_ANSWER_IS_FAILURE(answer);
}

static int fails(const char *text, uint32_t answer) {
    return fails_at(text, answer, 0);
}

static void refusals(void) {
    char longest[UHEX_LINE_SIZE + 1];

    CHECK(fails("00000001FF\n", UHEX_ANSWER_NO_COLON));
    CHECK(fails(":00\n", UHEX_ANSWER_BAD_SHAPE));
    CHECK(fails_at(":0000000xFF\n", UHEX_ANSWER_BAD_DIGIT, 8));
    CHECK(fails(":2100000000\n", UHEX_ANSWER_TOO_LONG));
    CHECK(fails(":01000000FF\n", UHEX_ANSWER_BAD_LENGTH));
    CHECK(fails(":00000001FE\n", UHEX_ANSWER_BAD_SUM));
    CHECK(fails(":00000001FF\n", UHEX_ANSWER_OUT_OF_PLACE));
    CHECK(fails(":02FFFF00000000\n", UHEX_ANSWER_CROSSES));

    /* the longest line that is not refused for its length fits a line buffer, and a full one without an LF is refused for it */
    memset(longest, '0', sizeof longest);
    longest[0] = ':';
    memcpy(longest + UHEX_LINE_SIZE - 2, "\r\n", 3);
    CHECK(fails(longest, UHEX_ANSWER_BAD_LENGTH));
    memset(longest + UHEX_LINE_SIZE - 2, '0', 2);
    CHECK(fails(longest, UHEX_ANSWER_BAD_SHAPE));

    inside(UHEX_BOARD_V1, UHEX_FILE_MAX_SIZE - 11);
    CHECK(line(":00000001FF\n") == UHEX_ANSWER_FILE_TOO_LONG && UHEX_ANSWER_IS_FAILURE(UHEX_ANSWER_FILE_TOO_LONG));
    inside(UHEX_BOARD_V1, UHEX_FILE_MAX_SIZE - 12);
    CHECK(line(":00000001FF\n") == UHEX_ANSWER_OUT_OF_PLACE);
    inside(UHEX_BOARD_V1, UHEX_FILE_MAX_SIZE + 1);
    CHECK(line(":00000001FF\n") == UHEX_ANSWER_BAD_READER);
    inside(UHEX_BOARD_V1 + 1, 0);
    CHECK(line(":00000001FF\n") == UHEX_ANSWER_BAD_READER);
    inside(UHEX_BOARD_V1, 0);
    CHECK(line_of(":00000001FF\n", UHEX_READER_SIZE - 1, UHEX_IMAGE_MAX_SIZE) == UHEX_ANSWER_BAD_READER);
    CHECK(line_of(":00000001FF\n", UHEX_READER_SIZE, 0) == UHEX_ANSWER_BAD_IMAGE);
    CHECK(line_of(":00000001FF\n", UHEX_READER_SIZE, sizeof image) == UHEX_ANSWER_BAD_IMAGE);
}

static void a_file(uint16_t own) {
    int v1 = own == UHEX_BOARD_V1;

    memset(image, 0xEE, sizeof image);
    uhex_new(own, reader, sizeof reader);
    CHECK(uhex_get16(reader + UHEX_READER_OWN_AT) == own && reader[UHEX_READER_STATE_AT] == UHEX_STATE_BETWEEN && offset() == 0);
    CHECK(line(":020000041234B4\n") == UHEX_ANSWER_PASSED && reader[UHEX_READER_STATE_AT] == UHEX_STATE_OPENED && offset() == 16);
    CHECK(uhex_get16(reader + UHEX_READER_UPPER_AT) == 0x1234);
    CHECK(!reader[UHEX_READER_SECTION_V1_AT]);
    CHECK(line(":0400000A9900C0DEBB\r\n") == UHEX_ANSWER_PASSED && reader[UHEX_READER_STATE_AT] == UHEX_STATE_INSIDE && offset() == 37);
    CHECK(uhex_get16(reader + UHEX_READER_BOARD_AT) == UHEX_BOARD_V1);
    CHECK(reader[UHEX_READER_SECTION_V1_AT] && !reader[UHEX_READER_SECTION_V2_AT] && !reader[UHEX_READER_DATA_V1_AT]);
    CHECK(line(":0100000055AA\n") == (v1 ? UHEX_ANSWER_OUTSIDE : UHEX_ANSWER_PASSED) && image[0] == 0xEE);
    CHECK(reader[UHEX_READER_DATA_V1_AT] && !reader[UHEX_READER_DATA_V2_AT]);
    CHECK(line(":020000040000FA\n") == UHEX_ANSWER_PASSED);
    CHECK(line(":0100000055AA\n") == (v1 ? UHEX_ANSWER_STORED : UHEX_ANSWER_PASSED) && image[0] == (v1 ? 0x55 : 0xEE));
    CHECK(line(":0000000CF4\n") == UHEX_ANSWER_PASSED && reader[UHEX_READER_STATE_AT] == UHEX_STATE_PADDED);
    CHECK(line(":0000000BF5\n") == UHEX_ANSWER_PASSED && reader[UHEX_READER_STATE_AT] == UHEX_STATE_BETWEEN);

    /* as if the section had been padded */
    uf2_put32(reader + UHEX_READER_OFFSET_AT, 512);
    CHECK(line(":020000040000FA\n") == UHEX_ANSWER_PASSED);
    CHECK(line(":0400000A9903C0DEB8\n") == UHEX_ANSWER_PASSED && reader[UHEX_READER_SECTION_V2_AT]);
    CHECK(line(":0100000D668C\n") == (v1 ? UHEX_ANSWER_PASSED : UHEX_ANSWER_STORED) && image[0] == (v1 ? 0x55 : 0x66));
    CHECK(reader[UHEX_READER_DATA_V2_AT]);
    CHECK(line(":0000000BF5\n") == UHEX_ANSWER_PASSED);
    CHECK(line(":00000001FF\n") == UHEX_ANSWER_ENDED && reader[UHEX_READER_STATE_AT] == UHEX_STATE_ENDED);
    CHECK(!UHEX_ANSWER_IS_FAILURE(UHEX_ANSWER_ENDED) && !UHEX_ANSWER_IS_FAILURE(UHEX_ANSWER_OUTSIDE));
    CHECK(UHEX_IMAGE_IS_WHOLE(UHEX_ANSWER_ENDED, 0) && !UHEX_IMAGE_IS_WHOLE(UHEX_ANSWER_ENDED, 1));
    CHECK(line(":00000001FF\n") == UHEX_ANSWER_AFTER_END && UHEX_ANSWER_IS_FAILURE(UHEX_ANSWER_AFTER_END));
}

/* What a reader between two sections refuses. */
static void between(void) {
    uhex_new(UHEX_BOARD_V1, reader, sizeof reader);
    uf2_put32(reader + UHEX_READER_OFFSET_AT, 511);
    CHECK(line(":020000040000FA\n") == UHEX_ANSWER_UNALIGNED);
    uhex_new(UHEX_BOARD_V1, reader, sizeof reader);
    reader[UHEX_READER_SECTION_V2_AT] = 1;
    CHECK(line(":020000040000FA\n") == UHEX_ANSWER_PASSED);
    CHECK(line(":0400000A9903C0DEB8\n") == UHEX_ANSWER_REPEATED);
    uhex_new(UHEX_BOARD_V1, reader, sizeof reader);
    reader[UHEX_READER_DATA_V1_AT] = 1;
    CHECK(line(":00000001FF\n") == UHEX_ANSWER_MISSING_BOARD);
}

/* A flag that was lent as any byte but 0 comes back as 1. */
static void flags(void) {
    uhex_new(UHEX_BOARD_V1, reader, sizeof reader);
    CHECK(reader[UHEX_READER_SECTION_V1_AT] == 0 && reader[UHEX_READER_DATA_V2_AT] == 0);
    reader[UHEX_READER_SECTION_V2_AT] = 7;
    reader[UHEX_READER_DATA_V2_AT] = 255;
    CHECK(line(":020000040000FA\n") == UHEX_ANSWER_PASSED);
    CHECK(reader[UHEX_READER_SECTION_V1_AT] == 0 && reader[UHEX_READER_SECTION_V2_AT] == 1);
    CHECK(reader[UHEX_READER_DATA_V1_AT] == 0 && reader[UHEX_READER_DATA_V2_AT] == 1);
}

/* The first tag's place is 32 and the payload's size, whether there is a tag or not. */
static void first_tags(void) {
    uint8_t block[UF2_ARRIVAL_SIZE] = {0}, tag[UF2_TAG_SIZE] = {0};
    CHECK(uf2_tag_first(block, 0) == 32 && uf2_tag_first(block, sizeof block) == 32);
    memset(block, 0xFF, sizeof block);
    CHECK(uf2_tag_first(block, 19) == 32);
    CHECK(uf2_tag_first(block, sizeof block) == (uf2_len)32 + 0xffffffffu);
    memset(block, 0, sizeof block);
    uf2_put32(block, 0x0A324655u);
    uf2_put32(block + 4, 0x9E5D5157u);
    uf2_put32(block + 16, 256u);
    uf2_put32(block + 508, 0x0AB16F30u);
    CHECK(uf2_tag_first(block, sizeof block) == 288);
    CHECK(uf2_tag(block, sizeof block, 288, tag, sizeof tag) == UF2_TAG_END);
}

int main(void) {
    switches();
    first_tags();
    flags();
    entries();
    passes();
    arrivals();
    plans();
    windows();
    kinds();
    refusals();
    between();
    a_file(UHEX_BOARD_V1);
    a_file(UHEX_BOARD_V2);
    return failures == 0 ? 0 : 1;
}
