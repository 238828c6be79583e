/* The stack that each call of the C interface needs: every call is run on a stack of its own whose bytes were painted before, and what
 * is no longer painted was used. What an empty call uses is taken off. Prints the bytes of each call, and fails where one needs more
 * than the header says. Linked so that memcpy and memset are found at the start: else the first call of each also runs the dynamic
 * linker, on the same stack.
 *
 *     gcc -std=c99 -Wl,-z,now -Iinclude tests/c/stack.c target/staticlib/lib*.a -o stack
 */
#define _XOPEN_SOURCE 700
#include "uf2_check.h"
#include "uf2_parts.h"
#include "uf2_receiver.h"
#include "uf2_stands.h"
#include "uf2_store.h"
#include "uf2_tags.h"
#include "uf2_tools.h"
#include "uf2_why.h"

#include <stdio.h>
#include <string.h>
#include <ucontext.h>

#define PAINT 0xA5
#define STACK_SIZE 65536

static uint8_t stack[STACK_SIZE];
static ucontext_t here, there;

static uint8_t settings[UF2_SETTINGS_SIZE], transfer[UF2_TRANSFER_SIZE], place[UF2_PLACE_SIZE], arrivals[3 * UF2_ARRIVAL_SIZE], results[3];
static uint8_t flash[64 * UF2_SECTOR_SIZE], seen[UF2_SEEN_MAP_SIZE], sectors[UF2_SECTOR_MAP_SIZE];
static uint8_t main_ram[UF2_MAIN_RAM_SIZE], xip_ram[UF2_XIP_RAM_SIZE];
static uint8_t reader[UHEX_READER_SIZE], image[64];

/* ---- what is measured */

static void nothing(void) {}

static void call_new(void) {
    uf2_new(transfer, sizeof transfer);
}

static void call_ask(void) {
    uf2_ask(settings, sizeof settings, sizeof flash, UF2_FAMILY_ARM_S, place, sizeof place);
}

static void call_look(void) {
    uf2_look(settings, sizeof settings, transfer, sizeof transfer, arrivals, UF2_ARRIVAL_SIZE, flash, sizeof flash, seen, sizeof seen,
             sectors, sizeof sectors, main_ram, sizeof main_ram, xip_ram, sizeof xip_ram);
}

static void call_stands(void) {
    uf2_stands(settings, sizeof settings, arrivals, UF2_ARRIVAL_SIZE, flash, sizeof flash, main_ram, sizeof main_ram, xip_ram, sizeof xip_ram);
}

static void call_take(void) {
    uf2_take(settings, sizeof settings, transfer, sizeof transfer, arrivals, UF2_ARRIVAL_SIZE, flash, sizeof flash, seen, sizeof seen,
             sectors, sizeof sectors, main_ram, sizeof main_ram, xip_ram, sizeof xip_ram);
}

static uint8_t plan[UF2_PLAN_SIZE];

static void call_accept(void) {
    uf2_accept(settings, sizeof settings, transfer, sizeof transfer, arrivals, UF2_ARRIVAL_SIZE, flash, sizeof flash, seen, sizeof seen,
               sectors, sizeof sectors, main_ram, sizeof main_ram, xip_ram, sizeof xip_ram, plan, sizeof plan);
}

static void call_take_all(void) {
    uf2_take_all(settings, sizeof settings, transfer, sizeof transfer, arrivals, sizeof arrivals, results, sizeof results, flash,
                 sizeof flash, seen, sizeof seen, sectors, sizeof sectors, main_ram, sizeof main_ram, xip_ram, sizeof xip_ram);
}

static void call_hex_new(void) {
    uhex_new(UHEX_BOARD_V1, reader, sizeof reader);
}

static uint8_t tag[UF2_TAG_SIZE];

static void call_tag_first(void) {
    uf2_tag_first(arrivals, UF2_ARRIVAL_SIZE);
}

static void call_tag(void) {
    uf2_tag(arrivals, UF2_ARRIVAL_SIZE, 288, tag, sizeof tag);
}

static void call_tag_find(void) {
    uf2_tag_find(arrivals, UF2_ARRIVAL_SIZE, UF2_TAG_TYPE_VERSION, tag, sizeof tag);
}

static uint8_t store[UF2_STORE_MAX_SIZE];
static uint32_t stored;

static void call_store_write(void) {
    stored = uf2_store_write(settings, sizeof settings, sizeof flash, store, sizeof store);
}

static void call_store_read(void) {
    stored = uf2_store_read(store, sizeof store, sizeof flash, settings, sizeof settings);
}

static const char *line;

static void call_line(void) {
    uhex_line(reader, sizeof reader, (const uint8_t *)line, strlen(line), image, sizeof image);
}

static uint8_t made[3 * UF2_MAKE_BLOCK_SIZE], digest[UF2_MD5_SIZE], joined[4096];

static void call_make_check(void) {
    uf2_make_check(sizeof flash, UF2_FLASH_START, sizeof made);
}

static void call_make(void) {
    uf2_make(flash, 3 * UF2_MAKE_PAGE_SIZE, UF2_FAMILY_ARM_S, UF2_FLASH_START, made, sizeof made);
}

static void call_make_regions(void) {
    uf2_make_regions(flash, 3 * UF2_MAKE_PAGE_SIZE, UF2_FAMILY_ARM_S, UF2_FLASH_START, made, sizeof made);
}

static void call_make_block(void) {
    uf2_make_block(UF2_FLASH_START, 0, 3, UF2_FAMILY_ARM_S, flash, UF2_MAKE_PAGE_SIZE, made, UF2_MAKE_BLOCK_SIZE);
}

static void call_md5(void) {
    uf2_md5(flash, 1000, digest, sizeof digest);
}

static void call_join(void) {
    static const char plain[] = ":10000000000102030405060708090A0B0C0D0E0F78\n:00000001FF\n";
    uhex_join((const uint8_t *)plain, sizeof plain - 1, (const uint8_t *)plain, sizeof plain - 1, joined, sizeof joined);
}

static uint8_t trace[3 * UF2_RECORD_SIZE], where[UF2_INDEX_SIZE], report[UF2_REPORT_SIZE];
static uint32_t stop;

static void call_replay(void) {
    stop = uf2_replay(settings, sizeof settings, trace, sizeof trace, flash, sizeof flash, seen, sizeof seen, sectors, sizeof sectors, main_ram,
                      sizeof main_ram, xip_ram, sizeof xip_ram, transfer, sizeof transfer, where, sizeof where);
}

static void call_figures(void) {
    stop = uf2_figures(report, sizeof report, settings, sizeof settings, trace, sizeof trace, flash, sizeof flash, seen, sizeof seen, sectors,
                       sizeof sectors, main_ram, sizeof main_ram, xip_ram, sizeof xip_ram, where, sizeof where);
}

static uint8_t part[UF2_PART_SIZE], later[UF2_PART_SIZE];
static uint32_t merged;

static void call_part_one(void) {
    merged = uf2_part_one(report, sizeof report, stop, part, sizeof part);
}

static void call_part_merge(void) {
    merged = uf2_part_merge(part, sizeof part, later, sizeof later);
}

static uint8_t reason[UF2_REASON_SIZE];

static void call_why(void) {
    uf2_why(settings, sizeof settings, transfer, sizeof transfer, arrivals, UF2_ARRIVAL_SIZE, flash, sizeof flash, seen, sizeof seen, sectors,
            sizeof sectors, main_ram, sizeof main_ram, xip_ram, sizeof xip_ram, reason, sizeof reason);
}

static void call_why_place(void) {
    uf2_why_place(settings, sizeof settings, sizeof flash, UF2_FAMILY_ARM_S, reason, sizeof reason);
}

static uint8_t numbers[UF2_CHECK_NUMBERS_SIZE], cells[UF2_CHECK_CELLS_SIZE], offsets[UF2_CHECK_OFFSETS_SIZE], found[UF2_TOLD_SIZE];

static void call_check(void) {
    uf2_check(settings, sizeof settings, arrivals, sizeof arrivals, sizeof flash, sizeof main_ram, sizeof xip_ram, numbers, sizeof numbers, cells,
              sizeof cells, offsets, sizeof offsets, found, sizeof found);
}

/* ---- how */

static size_t used(void (*call)(void)) {
    size_t low = 0;
    memset(stack, PAINT, sizeof stack);
    getcontext(&there);
    there.uc_stack.ss_sp = stack;
    there.uc_stack.ss_size = sizeof stack;
    there.uc_link = &here;
    makecontext(&there, call, 0);
    swapcontext(&here, &there);
    while (low < sizeof stack && stack[low] == PAINT)
        low++;
    return sizeof stack - low;
}

static size_t empty, worst;

static void tell(const char *name, size_t most) {
    printf("%s %lu\n", name, (unsigned long)most);
    if (most > worst)
        worst = most;
}

static size_t larger(size_t a, size_t b) {
    return a > b ? a : b;
}

static void block(uint8_t *at, uint32_t start, uint32_t k) {
    uf2_put32(at, 0x0A324655u);
    uf2_put32(at + 4, 0x9E5D5157u);
    uf2_put32(at + 8, 0x2000u);
    uf2_put32(at + 12, start + 256u * k);
    uf2_put32(at + 16, 256u);
    uf2_put32(at + 20, k);
    uf2_put32(at + 24, 3u);
    uf2_put32(at + 28, UF2_FAMILY_ARM_S);
    memset(at + 32, (int)k + 1, 476);
    uf2_put32(at + 508, 0x0AB16F30u);
}

/* Sixteen entries of four sectors each, or no table. The last entry alone accepts arm-s, so that every entry is looked at. */
static void table(uint8_t count) {
    uint32_t k;
    memset(settings, 0, sizeof settings);
    settings[UF2_SETTINGS_ARM_AT] = settings[UF2_SETTINGS_RISCV_AT] = settings[UF2_SETTINGS_AUTO_SWITCH_AT] = 1;
    settings[UF2_SETTINGS_COUNT_AT] = count;
    for (k = 0; k < UF2_MAX_ENTRIES; k++) {
        uint8_t *entry = settings + UF2_SETTINGS_ENTRY_AT(k);
        uf2_put32(entry + UF2_ENTRY_FIRST_AT, 4 * k);
        uf2_put32(entry + UF2_ENTRY_SECTORS_AT, 4);
        entry[UF2_ENTRY_USER_COUNT_AT] = 4;
        entry[UF2_ENTRY_ARM_S_AT] = k == 15;
        entry[UF2_ENTRY_LINK_AT] = k == 0 ? UF2_LINK_NONE : UF2_LINK_OWNED_BY;
    }
}

int main(void) {
    static const char *const file[] = {":020000040000FA\n", ":0400000A9900C0DEBB\n", ":040000001122334452\r\n",
                                       ":10000000000102030405060708090A0B0C0D0E0F78\n", "x"};
    static const uint32_t starts[] = {UF2_FLASH_START, UF2_MAIN_RAM_START, UF2_XIP_RAM_START};
    size_t ask = 0, look = 0, one = 0, accept = 0, all = 0, hex = 0, why = 0, why_place = 0, stands = 0, check, i;
    uint8_t counts[] = {0, 16, 17}, k;

    empty = used(nothing);
    check = used(call_check) - empty; /* no settings */
    tell("uf2_new", used(call_new) - empty);
    for (k = 0; k < 3 * sizeof counts; k++) {
        table(counts[k / 3]);
        uf2_new(transfer, sizeof transfer);
        for (i = 0; i < 3; i++)
            block(arrivals + i * UF2_ARRIVAL_SIZE, starts[k % 3], (uint32_t)i);
        ask = larger(ask, used(call_ask) - empty);
        why_place = larger(why_place, used(call_why_place) - empty);
        check = larger(check, used(call_check) - empty); /* a valid file */
        /* written, the same again, refused by its address, no block */
        for (i = 0; i < 4; i++) {
            arrivals[15] = (uint8_t)(i == 2 ? 0xFF : starts[k % 3] >> 24);
            arrivals[0] = (uint8_t)(i == 3 ? 0 : 0x55);
            look = larger(look, used(call_look) - empty);
            why = larger(why, used(call_why) - empty);
            check = larger(check, used(call_check) - empty);
            stands = larger(stands, used(call_stands) - empty);
            one = larger(one, used(call_take) - empty);
        }
        /* the same four, accepted from a fresh transfer */
        uf2_new(transfer, sizeof transfer);
        for (i = 0; i < 4; i++) {
            arrivals[15] = (uint8_t)(i == 2 ? 0xFF : starts[k % 3] >> 24);
            arrivals[0] = (uint8_t)(i == 3 ? 0 : 0x55);
            accept = larger(accept, used(call_accept) - empty);
        }
        arrivals[15] = (uint8_t)(starts[k % 3] >> 24);
        arrivals[0] = 0x55;
        /* again, written, completed; then finished */
        all = larger(all, used(call_take_all) - empty);
        all = larger(all, used(call_take_all) - empty);
        if (k < 6 && transfer[UF2_TRANSFER_STATE_AT] != UF2_STATE_DONE)
            return 1;
    }
    tell("uf2_ask", ask);
    tell("uf2_look", look);
    tell("uf2_why", why);
    tell("uf2_why_place", why_place);
    tell("uf2_check", check);
    tell("uf2_stands", stands);
    tell("uf2_take", one);
    tell("uf2_accept", accept);
    tell("uf2_take_all", all);
    tell("uhex_new", used(call_hex_new) - empty);
    for (i = 0; i < sizeof file / sizeof file[0]; i++) {
        line = file[i];
        hex = larger(hex, used(call_line) - empty);
    }
    if (image[15] != 15)
        return 1;
    tell("uhex_line", hex);
    /* two tags, the second of the type that is looked for */
    block(arrivals, UF2_FLASH_START, 0);
    uf2_put32(arrivals + 8, 0xa000u);
    uf2_put32(arrivals + 288, 0x01020308u);
    uf2_put32(arrivals + 296, UF2_TAG_TYPE_VERSION << 8 | 9u);
    tell("uf2_tag_first", used(call_tag_first) - empty);
    tell("uf2_tag", used(call_tag) - empty);
    tell("uf2_tag_find", used(call_tag_find) - empty);
    if (uf2_get32(tag + UF2_TAG_START_AT) != 300)
        return 1;
    table(16);
    tell("uf2_store_write", used(call_store_write) - empty);
    if (stored != UF2_STORE_DONE)
        return 1;
    tell("uf2_store_read", used(call_store_read) - empty);
    if (stored != UF2_STORE_DONE)
        return 1;
    tell("uf2_make_check", used(call_make_check) - empty);
    tell("uf2_make", used(call_make) - empty);
    tell("uf2_make_regions", used(call_make_regions) - empty);
    tell("uf2_make_block", used(call_make_block) - empty);
    tell("uf2_md5", used(call_md5) - empty);
    tell("uhex_join", used(call_join) - empty);
    /* a file for the last of 16 entries: written, written and completed */
    for (i = 0; i < 3; i++) {
        trace[i * UF2_RECORD_SIZE] = UF2_RECORD(i == 2 ? UF2_ANSWER_COMPLETED : UF2_ANSWER_WRITTEN);
        block(trace + i * UF2_RECORD_SIZE + 1, UF2_FLASH_START, (uint32_t)i);
    }
    tell("uf2_replay", used(call_replay) - empty);
    if (stop != UF2_STOP_NONE)
        return 1;
    tell("uf2_figures", used(call_figures) - empty);
    if (stop != UF2_STOP_NONE || uf2_get32(report + UF2_REPORT_RECORDS) != 3)
        return 1;
    tell("uf2_part_one", used(call_part_one) - empty);
    memcpy(later, part, sizeof later);
    tell("uf2_part_merge", used(call_part_merge) - empty);
    if (merged != 0 || uf2_get32(part + UF2_PART_TRACES) != 2)
        return 1;
    return worst <= UF2_STACK_SIZE ? 0 : 1;
}
