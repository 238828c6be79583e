#include "play.h"

#include <stddef.h>

/* These three of the C library, and no header of it, so that a machine without one can play. */
void *memcpy(void *to, const void *from, size_t n);
void *memset(void *to, int byte, size_t n);
int memcmp(const void *one, const void *other, size_t n);

/* What it lends is small enough for a board under emulation; the RAM buffers have the one length that they may have. Behind each buffer
 * there are some bytes more, so that a length that is too large can be lent truly. */
#define IMAGE_SIZE 1024u
#define LINE_ROOM 640u
#define MORE PLAY_MORE
#define MAX_ARRIVALS 4u

const char *const play_names[PLAY_KINDS] = {"uf2_new", "uf2_ask", "uf2_look", "uf2_take", "uf2_take_all", "uf2_accept", "uhex_new", "uhex_line",
                                            "uf2_tag_first", "uf2_tag", "uf2_tag_find", "uf2_make_check", "uf2_make", "uf2_make_regions", "uf2_make_block", "uf2_md5",
                                            "uhex_join", "uf2_replay", "uf2_figures", "uf2_part_one", "uf2_part_merge", "uf2_store_write",
                                            "uf2_store_read", "uf2_why", "uf2_why_place", "uf2_check", "uf2_stands"};

struct play_end play_ends[PLAY_KINDS];

/* ---- numbers and hashes */

static uint32_t seed;

uint32_t any(void) {
    seed ^= seed << 13;
    seed ^= seed >> 17;
    seed ^= seed << 5;
    return seed;
}

uint32_t below(uint32_t n) {
    return any() % n;
}

uint32_t any_size(void) {
    uint32_t by = below(32);
    return any() >> by;
}

int one_in(uint32_t n) {
    return below(n) == 0;
}

static struct play_end *end;

void add(uint32_t word) {
    end->hash = (end->hash ^ word) * 0x100000001b3u;
    end->hash ^= end->hash >> 32;
}

void add_bytes(const uint8_t *at, uint32_t n) {
    uint32_t i = 0;
    for (; n - i >= 4; i += 4)
        add(uf2_get32(at + i));
    for (; i < n; i++)
        add(at[i]);
}

void begin(enum play_kind kind) {
    end = &play_ends[kind];
    end->hash = 0xcbf29ce484222325u;
    seed = 0x9e3779b9u + (uint32_t)kind;
}

void go_on(enum play_kind kind) {
    end = &play_ends[kind];
}

void count(uint32_t answer) {
    end->calls++;
    end->answers[answer & 127u]++;
    add(answer);
}

void count_result(uint32_t result) {
    end->discarded += UF2_RESULT_IS_DISCARDED(result);
    count(result);
}

/* ---- a board: settings, what is lent, and the lengths of a call */

struct play_buffers board;
uint8_t settings[UF2_SETTINGS_SIZE + MORE];
static uint8_t arrivals[MAX_ARRIVALS * UF2_ARRIVAL_SIZE + UF2_ARRIVAL_SIZE], results[8];
uint32_t lent[LENGTHS];
static uint32_t right[LENGTHS];
static uf2_len arrivals_len, results_len, taken;
static uint32_t result;

/* What the settings say of the family of the file that is being sent. */
static uint8_t place[UF2_PLACE_SIZE + MORE];
static uf2_len place_len, asked_len;
static uint32_t asked_family;

struct play_file file;

static const uint32_t families[] = {UF2_FAMILY_RP2040, UF2_FAMILY_ABSOLUTE, UF2_FAMILY_DATA,  UF2_FAMILY_ARM_S,  UF2_FAMILY_RISCV,
                                    UF2_FAMILY_ARM_NS, UF2_FAMILY_ARM_S,    UF2_FAMILY_ARM_S, UF2_FAMILY_ABSOLUTE, 0x11111111u,
                                    0x22222222u,       0x33333333u};

uint32_t any_family(void) {
    return families[below(sizeof families / sizeof families[0])];
}

/* The byte of a flag: on is any but 0. */
static uint8_t flag(int on) {
    return (uint8_t)(!on ? 0 : one_in(8) ? 1 + below(255) : 1);
}

/* An entry from a sector on; sometimes its sectors, users or link make the settings bad. The next free sector. */
static uint32_t make_entry(uint8_t *at, uint32_t k, uint32_t first) {
    uint32_t i, sectors = 1 + below(2);
    uf2_put32(at + UF2_ENTRY_FIRST_AT, one_in(100) ? any_size() : first);
    uf2_put32(at + UF2_ENTRY_SECTORS_AT, one_in(100) ? any_size() : sectors);
    for (i = 0; i < 4; i++)
        uf2_put32(at + UF2_ENTRY_USERS_AT + 4 * i, one_in(200) ? any_family() : 0x11111111u * (1 + below(6)));
    for (i = UF2_ENTRY_DATA_AT; i <= UF2_ENTRY_ARM_NS_AT; i++)
        at[i] = flag(one_in(3));
    at[UF2_ENTRY_USER_COUNT_AT] = (uint8_t)(one_in(100) ? below(256) : below(5));
    at[UF2_ENTRY_NOT_BOOTABLE_ARM_AT] = flag(one_in(4));
    at[UF2_ENTRY_NOT_BOOTABLE_RISCV_AT] = flag(one_in(4));
    at[UF2_ENTRY_LINK_AT] = (uint8_t)(one_in(100) ? below(256) : k > 0 && one_in(4) ? 1 + below(2) : 0);
    at[UF2_ENTRY_LINK_INDEX_AT] = (uint8_t)(k > 0 && !one_in(20) ? 0 : below(17));
#ifdef UF2_ENTRY_NO_RESTART_AT
    at[UF2_ENTRY_NO_RESTART_AT] = flag(one_in(3));
#endif
    /* the next may share its sectors */
    return one_in(40) ? first : first + sectors;
}

void make_settings(void) {
    uint32_t k, entries, first = below(2);
    memset(settings, 0, sizeof settings);
    settings[UF2_SETTINGS_ARM_AT] = flag(!one_in(4));
    settings[UF2_SETTINGS_RISCV_AT] = flag(one_in(2));
    settings[UF2_SETTINGS_CURRENT_AT] = flag(one_in(3));
    settings[UF2_SETTINGS_AUTO_SWITCH_AT] = flag(one_in(2));
    settings[UF2_SETTINGS_ABSOLUTE_AT] = flag(!one_in(3));
    entries = one_in(3) ? 0 : one_in(8) ? below(18) : below(5);
    settings[UF2_SETTINGS_COUNT_AT] = (uint8_t)entries;
    /* those past the count too: they must not be read */
    for (k = 0; k < UF2_MAX_ENTRIES; k++)
        first = make_entry(settings + UF2_SETTINGS_ENTRY_AT(k), k, first);
}

static void call_new(void) {
    uf2_new(board.transfer, lent[L_TRANSFER]);
}

static void call_ask(void) {
    result = uf2_ask(settings, lent[L_SETTINGS], asked_len, asked_family, place, place_len);
}

static void right_lengths(void) {
    right[L_SETTINGS] = UF2_SETTINGS_SIZE;
    right[L_TRANSFER] = UF2_TRANSFER_SIZE;
    right[L_ARRIVAL] = UF2_ARRIVAL_SIZE;
    right[L_FLASH] = PLAY_FLASH_SIZE;
    right[L_SEEN] = UF2_SEEN_MAP_SIZE;
    right[L_SECTORS] = UF2_SECTOR_MAP_SIZE;
    right[L_MAIN] = UF2_MAIN_RAM_SIZE;
    right[L_XIP] = UF2_XIP_RAM_SIZE;
}

/* Whether a family has a place, which `place` then holds. */
static uint32_t ask(uint32_t family) {
    return uf2_ask(settings, UF2_SETTINGS_SIZE, right[L_FLASH], family, place, UF2_PLACE_SIZE);
}

/* Another board: its settings, mostly good ones, its flash, and which RAM it has. */
void make_board(void) {
    right_lengths();
    right[L_FLASH] = one_in(4) ? UF2_SECTOR_SIZE * (1 + below(PLAY_FLASH_SIZE / UF2_SECTOR_SIZE)) : PLAY_FLASH_SIZE;
    right[L_MAIN] = one_in(8) ? 0 : UF2_MAIN_RAM_SIZE;
    right[L_XIP] = one_in(8) ? 0 : UF2_XIP_RAM_SIZE;
    do
        make_settings();
    while (ask(UF2_FAMILY_DATA) == UF2_ANSWER_BAD_SETTINGS && !one_in(12));
}

/* The lengths of a call: those of the board, or one of them wrong. */
void make_lengths(void) {
    uint32_t which = below(LENGTHS);
    memcpy(lent, right, sizeof lent);
    if (one_in(50))
        lent[which] = one_in(2) ? lent[which] + 1 + below(MORE) : lent[which] - (lent[which] > 0 ? 1 + below(lent[which]) : 0);
}

/* A number up to the last, which is often it, or 0. */
static uint32_t from_to_end(uint32_t last) {
    return one_in(4) ? last : one_in(4) ? 0 : below(last + 1);
}

/* Another file: of flash within its family's place, or of a RAM. */
void make_file(void) {
    file.kind = below(4) % 3;
    file.place_start = 0;
    file.place_len = right[L_FLASH];
    do
        file.family = any_family();
    while (ask(file.family) != UF2_ANSWER_FOUND && !one_in(16));
    if (ask(file.family) == UF2_ANSWER_FOUND) {
        file.place_start = uf2_get32(place + UF2_PLACE_START_AT);
        file.place_len = uf2_get32(place + UF2_PLACE_LENGTH_AT);
    }
    file.total = 1 + below(one_in(8) ? 40 : 6);
    file.address = UF2_FLASH_START;
    if (file.kind == UF2_KIND_FLASH && file.place_len / 256 >= file.total)
        file.address += 256 * from_to_end(file.place_len / 256 - file.total);
    if (file.kind == UF2_KIND_MAIN_RAM)
        file.address = UF2_MAIN_RAM_START + from_to_end(UF2_MAIN_RAM_SIZE - 256 * file.total);
    if (file.kind == UF2_KIND_XIP_RAM)
        file.address = UF2_XIP_RAM_START + from_to_end(UF2_XIP_RAM_SIZE - 256 * file.total);
}

/* A transfer that no call has made: of this file or another, or none at all. */
static void make_transfer(void) {
    uint8_t *at = board.transfer;
    at[UF2_TRANSFER_STATE_AT] = (uint8_t)(one_in(8) ? below(256) : below(3));
    uf2_put32(at + UF2_TRANSFER_FAMILY_AT, one_in(4) ? any_family() : file.family);
    uf2_put32(at + UF2_TRANSFER_TOTAL_AT, one_in(4) ? any_size() : file.total);
    uf2_put32(at + UF2_TRANSFER_COUNT_AT, one_in(4) ? any_size() : below(file.total + 1));
    at[UF2_TRANSFER_KIND_AT] = (uint8_t)(one_in(8) ? below(256) : one_in(4) ? below(3) : file.kind);
}

/* Where a flash block of an address is stored. */
static uint32_t offset_of(uint32_t address) {
    uint32_t start = file.family == UF2_FAMILY_ABSOLUTE ? 0 : file.place_start;
    return (start + (address - UF2_FLASH_START)) % PLAY_FLASH_SIZE;
}

void uf2_md5(const uint8_t *bytes, uf2_len bytes_len, uint8_t *digest, uf2_len digest_len);

/* A region in a block: mostly the sectors around it with the digest of what stands there. */
static void make_region(uint8_t *at, uint32_t address) {
    uint32_t start = address - (address - UF2_FLASH_START) % UF2_SECTOR_SIZE, len = UF2_SECTOR_SIZE * (1 + one_in(4));
    uint32_t which, offset = offset_of(start);
    uf2_put32(at + 484, one_in(8) ? start + below(4) * 2048u : start);
    uf2_put32(at + 488, one_in(8) ? any_size() : len);
    if (offset + len <= PLAY_FLASH_SIZE)
        uf2_md5(board.flash + offset, len, at + 492, 16);
    if (one_in(8)) {
        which = 492 + below(16);
        at[which] ^= (uint8_t)(1u << below(8));
    }
}

/* Sometimes a field of it is wrong. */
uint32_t make_block(uint8_t *at, uint32_t number) {
    uint32_t i, flags = 0x2000u, address = file.address + 256 * number;
    static const uint16_t fields[] = {0, 4, 8, 12, 16, 20, 24, 28, 508};
    if (one_in(8))
        flags |= 1u;
    if (one_in(60))
        flags |= 0x1000u;
    if (one_in(60))
        flags &= ~0x2000u;
    for (i = 32; i < 288; i += 4)
        uf2_put32(at + i, any());
    uf2_put32(at, 0x0A324655u);
    uf2_put32(at + 4, 0x9E5D5157u);
    uf2_put32(at + 12, address);
    uf2_put32(at + 16, 256u);
    uf2_put32(at + 20, number);
    uf2_put32(at + 24, file.total);
    uf2_put32(at + 28, file.family);
    uf2_put32(at + 508, 0x0AB16F30u);
    if (file.kind == UF2_KIND_FLASH && one_in(16)) {
        flags |= 0x4000u;
        make_region(at, address);
    }
    uf2_put32(at + 8, flags);
    if (one_in(10)) {
        i = fields[below(sizeof fields / sizeof fields[0])];
        uf2_put32(at + i, one_in(3) ? any_size() : uf2_get32(at + i) ^ 1u << below(32));
    }
    return uf2_get32(at + 12);
}

uint32_t make_arrival(uint8_t *at) {
    return make_block(at, below(file.total));
}

void make_state(uint32_t i, uint32_t result) {
    if (i % 64 == 0)
        make_board();
    if (i % 64 == 0 || one_in(12))
        make_file();
    if (one_in(40))
        make_transfer();
    else if (UF2_RESULT_ANSWER(result) == UF2_ANSWER_BAD_STATE || (board.transfer[UF2_TRANSFER_STATE_AT] == UF2_STATE_DONE && one_in(3)))
        uf2_new(board.transfer, UF2_TRANSFER_SIZE);
    make_lengths();
}

void add_all(const struct play_buffers *at) {
    add_bytes(at->flash, sizeof at->flash);
    add_bytes(at->seen, sizeof at->seen);
    add_bytes(at->sectors, sizeof at->sectors);
    add_bytes(at->main_ram, sizeof at->main_ram);
    add_bytes(at->xip_ram, sizeof at->xip_ram);
}

/* What a block at an address can have changed: its sector, or its page of RAM with a byte to either side. */
void add_block(const struct play_buffers *at, uint32_t address) {
    uint32_t offset;
    if (address >= UF2_MAIN_RAM_START && address - UF2_MAIN_RAM_START <= UF2_MAIN_RAM_SIZE - 256) {
        offset = address - UF2_MAIN_RAM_START;
        add_bytes(at->main_ram + offset - (offset > 0), 258);
    } else if (address >= UF2_XIP_RAM_START && address - UF2_XIP_RAM_START <= UF2_XIP_RAM_SIZE - 256) {
        offset = address - UF2_XIP_RAM_START;
        add_bytes(at->xip_ram + offset - (offset > 0), 258);
    } else {
        offset = offset_of(address);
        add_bytes(at->flash + offset - offset % UF2_SECTOR_SIZE, UF2_SECTOR_SIZE);
    }
}

/* The maps as far as a file here reaches, and the transfer. */
void add_small(const struct play_buffers *at) {
    add_bytes(at->transfer, sizeof at->transfer);
    add_bytes(at->seen, 8);
    add_bytes(at->sectors, 4);
}

void random_bytes(uint8_t *at, uint32_t n) {
    uint32_t i;
    for (i = 0; i + 4 <= n; i += 4)
        uf2_put32(at + i, any());
}

void fresh_board(void) {
    random_bytes(board.flash, sizeof board.flash);
    random_bytes(board.seen, sizeof board.seen);
    random_bytes(board.sectors, sizeof board.sectors);
    random_bytes(board.main_ram, sizeof board.main_ram);
    random_bytes(board.xip_ram, sizeof board.xip_ram);
    random_bytes(arrivals, sizeof arrivals);
    uf2_new(board.transfer, UF2_TRANSFER_SIZE);
}

/* ---- UF2 calls */

static void play_new(void) {
    uint32_t i;
    begin(PLAY_NEW);
    for (i = 0; i < PLAY_COUNT; i++) {
        random_bytes(board.transfer, sizeof board.transfer);
        lent[L_TRANSFER] = one_in(3) ? below(UF2_TRANSFER_SIZE + MORE + 1) : UF2_TRANSFER_SIZE;
        play_call(PLAY_NEW, call_new);
        count(0);
        add_bytes(board.transfer, sizeof board.transfer);
    }
}

static void play_ask(void) {
    uint32_t i;
    begin(PLAY_ASK);
    for (i = 0; i < PLAY_COUNT; i++) {
        if (i % 4 == 0)
            make_board();
        make_lengths();
        asked_family = one_in(8) ? any() : any_family();
        asked_len = lent[L_FLASH];
        /* the flash is only asked for its length: any number will do, also one whose upper half alone is wrong */
        if (one_in(8))
            asked_len = one_in(2) ? asked_len + ((uf2_len)1 << 32 << below(32)) : (uf2_len)UF2_SECTOR_SIZE << below(32);
        place_len = one_in(20) ? below(UF2_PLACE_SIZE + MORE + 1) : UF2_PLACE_SIZE;
        random_bytes(place, sizeof place);
        play_call(PLAY_ASK, call_ask);
        count_result(result);
        add_bytes(place, sizeof place);
    }
}

static void call_look(void) {
    result = uf2_look(settings, lent[L_SETTINGS], board.transfer, lent[L_TRANSFER], arrivals, lent[L_ARRIVAL], board.flash, lent[L_FLASH],
                      board.seen, lent[L_SEEN], board.sectors, lent[L_SECTORS], board.main_ram, lent[L_MAIN], board.xip_ram, lent[L_XIP]);
}

static void call_take(void) {
    result = uf2_take(settings, lent[L_SETTINGS], board.transfer, lent[L_TRANSFER], arrivals, lent[L_ARRIVAL], board.flash, lent[L_FLASH],
                      board.seen, lent[L_SEEN], board.sectors, lent[L_SECTORS], board.main_ram, lent[L_MAIN], board.xip_ram, lent[L_XIP]);
}

static void call_take_all(void) {
    taken = uf2_take_all(settings, lent[L_SETTINGS], board.transfer, lent[L_TRANSFER], arrivals, arrivals_len, results, results_len,
                         board.flash, lent[L_FLASH], board.seen, lent[L_SEEN], board.sectors, lent[L_SECTORS], board.main_ram,
                         lent[L_MAIN], board.xip_ram, lent[L_XIP]);
}

/* Each arrival is looked at, and then taken. */
static void play_look_and_take(void) {
    uint32_t i, address;
    begin(PLAY_LOOK);
    begin(PLAY_TAKE);
    fresh_board();
    for (i = 0; i < PLAY_COUNT; i++) {
        make_state(i, result);
        address = make_arrival(arrivals);
        go_on(PLAY_LOOK);
        play_call(PLAY_LOOK, call_look);
        count_result(result);
        add_small(&board);
        go_on(PLAY_TAKE);
        play_call(PLAY_TAKE, call_take);
        count_result(result);
        add_small(&board);
        if (UF2_ANSWER_IS_ACCEPTED(UF2_RESULT_ANSWER(result)))
            add_block(&board, address);
        if (i % 512 == 511)
            add_all(&board);
    }
    add_all(&board);
}

static void play_take_all(void) {
    uint32_t i, k, n, addresses[MAX_ARRIVALS];
    begin(PLAY_TAKE_ALL);
    fresh_board();
    for (i = 0; i < PLAY_COUNT; i++) {
        make_state(i, result);
        n = below(MAX_ARRIVALS + 1);
        for (k = 0; k < n; k++) {
            addresses[k] = make_arrival(arrivals + UF2_ARRIVAL_SIZE * k);
        }
        arrivals_len = UF2_ARRIVAL_SIZE * n + (one_in(8) ? below(UF2_ARRIVAL_SIZE) : 0);
        results_len = one_in(8) ? below(sizeof results + 1) : n;
        memset(results, 0xA5, sizeof results);
        play_call(PLAY_TAKE_ALL, call_take_all);
        end->calls++;
        add((uint32_t)taken);
        add((uint32_t)(taken >> 32));
        add_bytes(results, sizeof results);
        add_small(&board);
        for (k = 0; k < n && k < taken; k++) {
            result = results[k];
            end->answers[UF2_RESULT_ANSWER(result)]++;
            end->discarded += UF2_RESULT_IS_DISCARDED(result);
            if (UF2_ANSWER_IS_ACCEPTED(UF2_RESULT_ANSWER(result)))
                add_block(&board, addresses[k]);
        }
        if (i % 512 == 511)
            add_all(&board);
    }
    add_all(&board);
}

#ifdef UF2_PLAN_SIZE
/* The same arrivals taken on one board, and on another accepted, with the plan performed as a driver would. */
static struct play_buffers driven;
static uint8_t plan[UF2_PLAN_SIZE + MORE];
static uf2_len plan_len;

static void call_accept(void) {
    result = uf2_accept(settings, lent[L_SETTINGS], driven.transfer, lent[L_TRANSFER], arrivals, lent[L_ARRIVAL], driven.flash, lent[L_FLASH],
                        driven.seen, lent[L_SEEN], driven.sectors, lent[L_SECTORS], driven.main_ram, lent[L_MAIN], driven.xip_ram, lent[L_XIP],
                        plan, plan_len);
}

static void perform(void) {
    uint32_t deed = uf2_get32(plan), sector = uf2_get32(plan + 4), page = uf2_get32(plan + 8);
    if (deed == UF2_PLAN_ERASE)
        memset(driven.flash + sector, 0xFF, UF2_SECTOR_SIZE);
    if (deed != UF2_PLAN_NOTHING)
        memcpy(driven.flash + page, arrivals + 32, 256);
}

static int same_boards(void) {
    return memcmp(&board, &driven, sizeof board) == 0;
}

static int same_block(uint32_t address) {
    uint64_t kept = end->hash, one;
    add_small(&board);
    add_block(&board, address);
    one = end->hash;
    end->hash = kept;
    add_small(&driven);
    add_block(&driven, address);
    return end->hash == one;
}

static int play_accept(void) {
    uint32_t i, accepted, address;
    begin(PLAY_ACCEPT);
    fresh_board();
    memcpy(&driven, &board, sizeof board);
    for (i = 0; i < PLAY_COUNT; i++) {
        make_state(i, result);
        memcpy(driven.transfer, board.transfer, sizeof board.transfer);
        address = make_arrival(arrivals);
        plan_len = one_in(40) ? below(UF2_PLAN_SIZE + MORE + 1) : UF2_PLAN_SIZE;
        random_bytes(plan, sizeof plan);
        play_call(PLAY_ACCEPT, call_accept);
        count_result(result);
        add_bytes(plan, sizeof plan);
        if (plan_len != UF2_PLAN_SIZE) {
            if (result != UF2_ANSWER_BAD_BUFFERS)
                return 0;
            continue;
        }
        accepted = UF2_ANSWER_IS_ACCEPTED(UF2_RESULT_ANSWER(result));
        if (accepted)
            perform();
        accepted = result;
        call_take();
        if (result != accepted || !same_block(address))
            return 0;
        if (i % 512 == 511) {
            add_all(&driven);
            if (!same_boards())
                return 0;
        }
    }
    add_all(&driven);
    return same_boards();
}
#else
static int play_accept(void) {
    return 1;
}
#endif

/* ---- Universal Hex */

static uint8_t reader[UHEX_READER_SIZE + MORE], line[LINE_ROOM], image[IMAGE_SIZE + MORE];
static uint32_t reader_len, line_len, image_len, line_sum;
static uint16_t own;

static const uint16_t boards[] = {UHEX_BOARD_V1, UHEX_BOARD_V2, UHEX_BOARD_V1, UHEX_BOARD_V2, 0x9901u, 0u};

static uint16_t any_board(void) {
    return boards[below(sizeof boards / sizeof boards[0])];
}

static void call_hex_new(void) {
    uhex_new(own, reader, reader_len);
}

static void call_line(void) {
    result = uhex_line(reader, reader_len, line, line_len, image, image_len);
}

static void put_digits(uint32_t byte) {
    static const char upper[] = "0123456789ABCDEF", lower[] = "0123456789abcdef";
    const char *digits = seed & 1u ? upper : lower;
    line[line_len++] = (uint8_t)digits[byte >> 4 & 15u];
    line[line_len++] = (uint8_t)digits[byte & 15u];
    line_sum += byte;
}

static void put_record(uint32_t type, uint32_t address, const uint8_t *data, uint32_t len) {
    uint32_t i;
    line_len = 0;
    line[line_len++] = ':';
    line_sum = 0;
    put_digits(len);
    put_digits(address >> 8 & 255u);
    put_digits(address & 255u);
    put_digits(type);
    for (i = 0; i < len; i++)
        put_digits(data[i]);
    put_digits((0u - line_sum) & 255u);
    if (one_in(2))
        line[line_len++] = '\r';
    if (!one_in(20))
        line[line_len++] = '\n';
}

/* A reader that no call has made: anywhere in a file, or none at all. */
static void make_reader(void) {
    uint32_t i;
    random_bytes(reader, sizeof reader);
    uhex_put16(reader + UHEX_READER_OWN_AT, one_in(30) ? (uint16_t)any() : one_in(2) ? UHEX_BOARD_V1 : UHEX_BOARD_V2);
    uhex_put16(reader + UHEX_READER_UPPER_AT, (uint16_t)(one_in(8) ? any() : 0));
    uf2_put32(reader + UHEX_READER_OFFSET_AT, one_in(30) ? any() : one_in(8) ? UHEX_FILE_MAX_SIZE - below(100) : 512 * below(8000));
    reader[UHEX_READER_STATE_AT] = (uint8_t)(one_in(30) ? below(256) : below(6));
    reader[UHEX_READER_FAILURE_AT] = (uint8_t)(one_in(10) ? below(256) : 20 + below(17));
    if (reader[UHEX_READER_STATE_AT] == UHEX_STATE_FAILED)
        uhex_put16(reader + UHEX_READER_POSITION_AT, (uint16_t)below(540));
    else
        uhex_put16(reader + UHEX_READER_BOARD_AT, one_in(2) ? any_board() : uhex_get16(reader + UHEX_READER_OWN_AT));
    for (i = UHEX_READER_SECTION_V1_AT; i <= UHEX_READER_DATA_V2_AT; i++)
        reader[i] = (uint8_t)(one_in(2) ? 0 : one_in(10) ? below(256) : 1);
}

/* A record that may come where the reader stands. */
static void make_record(void) {
    uint8_t data[255];
    uint32_t at = one_in(20) ? 65536 - below(40) : below(IMAGE_SIZE + 40), len = one_in(30) ? 33 + below(223) : below(33);
    uint32_t type;
    uint16_t which;
    random_bytes(data, 252);
    switch (reader[UHEX_READER_STATE_AT]) {
    case UHEX_STATE_BETWEEN:
        type = one_in(4) ? 1 : 4;
        break;
    case UHEX_STATE_OPENED:
        type = 10;
        break;
    case UHEX_STATE_INSIDE:
        type = one_in(16) ? 11 : one_in(24) ? 12 : one_in(16) ? 4 : uhex_get16(reader + UHEX_READER_BOARD_AT) == UHEX_BOARD_V1 ? 0 : 13;
        break;
    default:
        type = one_in(3) ? 12 : 11;
    }
    if (one_in(20))
        type = below(16);
    if (type == 4 || type == 1 || type == 10)
        at = 0;
    if (type == 4 && !one_in(16)) {
        len = 2;
        data[0] = 0;
        data[1] = (uint8_t)one_in(10);
    }
    if (type == 10 && !one_in(16)) {
        len = 4;
        which = any_board();
        data[0] = (uint8_t)(which >> 8);
        data[1] = (uint8_t)(which & 255u);
        data[2] = 0xC0;
        data[3] = 0xDE;
    }
    if ((type == 1 || type == 11) && !one_in(16))
        len = 0;
    put_record(type, at, data, len);
}

static void spoil_line(void) {
    uint32_t at = below(line_len);
    switch (below(5)) {
    case 0:
        line[at] = (uint8_t)any();
        break;
    case 1:
        line[at] ^= (uint8_t)(1u << below(8));
        break;
    case 2:
        line_len = at;
        break;
    case 3:
        while (line_len < LINE_ROOM - 4 && !one_in(40))
            line[line_len++] = (uint8_t)('0' + below(10));
        break;
    default:
        while (line_len < LINE_ROOM - 4 && line_len < 515 + at % 16)
            line[line_len++] = '0';
    }
}

static void play_hex_new(void) {
    uint32_t i;
    begin(PLAY_HEX_NEW);
    for (i = 0; i < PLAY_COUNT; i++) {
        random_bytes(reader, sizeof reader);
        own = one_in(2) ? any_board() : (uint16_t)any();
        reader_len = one_in(3) ? below(UHEX_READER_SIZE + MORE + 1) : UHEX_READER_SIZE;
        play_call(PLAY_HEX_NEW, call_hex_new);
        count(0);
        add_bytes(reader, sizeof reader);
    }
}

static void play_lines(void) {
    uint32_t i;
    begin(PLAY_LINE);
    random_bytes(image, sizeof image);
    make_reader();
    for (i = 0; i < PLAY_COUNT; i++) {
        if (one_in(60) || (reader[UHEX_READER_STATE_AT] >= UHEX_STATE_ENDED && !one_in(8)) || UHEX_RESULT_ANSWER(result) == UHEX_ANSWER_BAD_READER)
            make_reader();
        else if (one_in(60))
            uhex_new(one_in(2) ? UHEX_BOARD_V1 : UHEX_BOARD_V2, reader, UHEX_READER_SIZE);
        /* a section begins at a multiple of 512 */
        if (reader[UHEX_READER_STATE_AT] == UHEX_STATE_BETWEEN && !one_in(8))
            uf2_put32(reader + UHEX_READER_OFFSET_AT, uf2_get32(reader + UHEX_READER_OFFSET_AT) & ~511u);
        make_record();
        if (one_in(10))
            spoil_line();
        reader_len = one_in(100) ? below(UHEX_READER_SIZE + MORE + 1) : UHEX_READER_SIZE;
        image_len = one_in(50) ? below(2) : one_in(10) ? 1 + below(IMAGE_SIZE) : IMAGE_SIZE;
        play_call(PLAY_LINE, call_line);
        count(UHEX_RESULT_ANSWER(result));
        add(UHEX_RESULT_POSITION(result));
        add_bytes(reader, sizeof reader);
        add_bytes(image, sizeof image);
    }
}

/* ---- all */

int met(enum play_kind kind, uint32_t from, uint32_t to, uint32_t but) {
    uint32_t i;
    for (i = from; i <= to; i++)
        if (i != but && play_ends[kind].answers[i] == 0)
            return 0;
    return play_ends[kind].calls == PLAY_COUNT;
}

int play(void) {
    int good;
    right_lengths();
    play_new();
    play_ask();
    play_look_and_take();
    play_take_all();
    good = play_accept();
    play_hex_new();
    play_lines();
    good = play_tools() && good;
    good = play_kept() && good;
    good = play_check() && good;
    good = good && met(PLAY_ASK, 0, 2, 6) && play_ends[PLAY_ASK].answers[UF2_ANSWER_NO_PLACE] > 0;
    good = good && met(PLAY_LOOK, 1, 17, 6) && met(PLAY_TAKE, 1, 17, 6) && met(PLAY_TAKE_ALL, 1, 17, 6) && met(PLAY_LINE, 18, 36, 0);
#ifdef UF2_PLAN_SIZE
    good = good && met(PLAY_ACCEPT, 1, 17, 6);
#endif
    return good && play_ends[PLAY_TAKE].discarded > 0;
}
