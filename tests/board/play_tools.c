/* The calls of include/uf2_tags.h, include/uf2_tools.h and include/uf2_parts.h. */
#include "play.h"

#include "uf2_parts.h"
#include "uf2_tags.h"
#include "uf2_tools.h"

#include <stddef.h>

void *memset(void *to, int byte, size_t n);

static uint8_t block[UF2_ARRIVAL_SIZE + PLAY_MORE];
static uf2_len block_len;
static uint32_t result;

/* ---- extension tags */

static uint8_t tag[UF2_TAG_SIZE + PLAY_MORE];
static uf2_len tag_len, tag_place, first_place;
static uint32_t tag_type;

static const uint32_t types[] = {UF2_TAG_TYPE_VERSION, UF2_TAG_TYPE_DEVICE, UF2_TAG_TYPE_PAGE_SIZE, UF2_TAG_TYPE_SHA2, UF2_TAG_TYPE_DEVICE_TYPE};

static uint32_t any_type(void) {
    return types[below(sizeof types / sizeof types[0])];
}

static void call_tag_first(void) {
    first_place = uf2_tag_first(block, block_len);
}

static void call_tag(void) {
    result = uf2_tag(block, block_len, tag_place, tag, tag_len);
}

static void call_tag_find(void) {
    result = uf2_tag_find(block, block_len, tag_type, tag, tag_len);
}

/* A block with tags behind its payload, mostly good ones to their end. */
static void make_tags(void) {
    uint32_t size = one_in(20) ? any_size() : 4 * below(120), at = 32 + size, len, flags;
    random_bytes(block, sizeof block);
    uf2_put32(block, 0x0A324655u);
    uf2_put32(block + 4, one_in(30) ? any() : 0x9E5D5157u);
    flags = one_in(20) ? 0x2000u : 0xA000u;
    if (one_in(4))
        flags |= 0x4000u;
    uf2_put32(block + 8, flags);
    uf2_put32(block + 16, size);
    uf2_put32(block + 508, 0x0AB16F30u);
    while (at >= 32 && at <= 504) {
        len = one_in(40) ? below(4) : 4 + below(24);
        uf2_put32(block + at, one_in(6) ? one_in(8) ? any() << 8 : 0 : any_type() << 8 | len);
        at += (len + 3) & ~3u;
    }
    block_len = one_in(50) ? below(UF2_ARRIVAL_SIZE + PLAY_MORE + 1) : UF2_ARRIVAL_SIZE;
    tag_len = one_in(50) ? below(UF2_TAG_SIZE + PLAY_MORE + 1) : UF2_TAG_SIZE;
}

static void play_tags(void) {
    uint32_t i;
    begin(PLAY_TAG_FIRST);
    begin(PLAY_TAG);
    begin(PLAY_TAG_FIND);
    for (i = 0; i < PLAY_COUNT; i++) {
        /* the tags of a block one after the other, as long as there are some */
        if (i == 0 || play_ends[PLAY_TAG].answers[UF2_TAG_FOUND] == 0 || result != UF2_TAG_FOUND || one_in(10)) {
            make_tags();
            go_on(PLAY_TAG_FIRST);
            play_call(PLAY_TAG_FIRST, call_tag_first);
            tag_place = one_in(8) ? below(520) : first_place;
        } else {
            go_on(PLAY_TAG_FIRST);
            play_call(PLAY_TAG_FIRST, call_tag_first);
            tag_place = uf2_get32(tag + UF2_TAG_NEXT_AT);
        }
        count(0);
        add((uint32_t)first_place);
        add((uint32_t)(first_place >> 32));
        tag_type = one_in(8) ? any() : any_type();
        go_on(PLAY_TAG_FIND);
        random_bytes(tag, sizeof tag);
        play_call(PLAY_TAG_FIND, call_tag_find);
        count(result);
        add_bytes(tag, sizeof tag);
        /* a place of 64 bits whose lower half alone would be right */
        if (one_in(60))
            tag_place += (uf2_len)1 << 32;
        go_on(PLAY_TAG);
        random_bytes(tag, sizeof tag);
        play_call(PLAY_TAG, call_tag);
        count(result);
        add_bytes(tag, sizeof tag);
    }
}

/* ---- files made of images */

#define IMAGE_PAGES 4u

static uint8_t image[IMAGE_PAGES * UF2_MAKE_PAGE_SIZE], output[4096];
static uf2_len image_len, output_len;
static uint32_t family, start;

static void call_make_check(void) {
    result = uf2_make_check(image_len, start, output_len);
}

static void call_make(void) {
    result = uf2_make(image, image_len, family, start, output, output_len);
}

static void call_make_regions(void) {
    result = uf2_make_regions(image, image_len, family, start, output, output_len);
}

static void call_make_block(void) {
    uf2_make_block(start, result, family, ~family, image, image_len, block, block_len);
}

static uint32_t any_start(void) {
    uint32_t at = UF2_FLASH_START + 256 * below(131072);
    return one_in(8) ? any() : one_in(8) ? UF2_FLASH_END - 256 * below(4) : one_in(10) ? at + below(256) : at;
}

/* A maker of whole files over images of some pages, from any start on, so that sectors begin, are amid and end. */
static void play_maker(int kind, void (*call)(void)) {
    uint32_t i;
    begin(kind);
    random_bytes(image, sizeof image);
    random_bytes(output, sizeof output);
    for (i = 0; i < PLAY_COUNT; i++) {
        image_len = UF2_MAKE_PAGE_SIZE * below(IMAGE_PAGES + 1);
        if (one_in(8))
            image_len += below(256);
        if (image_len > sizeof image)
            image_len = sizeof image;
        output_len = one_in(8) ? below(2048) : 2048;
        family = any();
        start = any_start();
        play_call(kind, call);
        count(result);
        add_bytes(output, 2052);
    }
}

static void play_make(void) {
    uint32_t i, word;
    begin(PLAY_MAKE_CHECK);
    for (i = 0; i < PLAY_COUNT; i++) {
        image_len = (uf2_len)256 * below(one_in(2) ? 131080 : 9);
        if (one_in(8))
            image_len += below(256);
        output_len = UF2_MAKE_OUTPUT_SIZE(image_len);
        if (one_in(2))
            output_len += below(1000);
        else if (one_in(4) && output_len > 0)
            output_len--;
        if (one_in(20))
            image_len += (uf2_len)1 << 32 << below(32);
        start = any_start();
        play_call(PLAY_MAKE_CHECK, call_make_check);
        count(result);
    }
    play_maker(PLAY_MAKE, call_make);
    play_maker(PLAY_MAKE_REGIONS, call_make_regions);
    begin(PLAY_MAKE_BLOCK);
    for (i = 0; i < PLAY_COUNT; i++) {
        start = any();
        result = any();
        family = any();
        image_len = one_in(8) ? below(260) : UF2_MAKE_PAGE_SIZE;
        block_len = one_in(8) ? below(520) : UF2_MAKE_BLOCK_SIZE;
        word = below(64);
        uf2_put32(image + 4 * word, any());
        play_call(PLAY_MAKE_BLOCK, call_make_block);
        count(0);
        add_bytes(block, sizeof block);
    }
}

static uint8_t digest[UF2_MD5_SIZE + PLAY_MORE];
static uf2_len digest_len;

static void call_md5(void) {
    uf2_md5(image, image_len, digest, digest_len);
}

static void play_md5(void) {
    uint32_t i, word;
    begin(PLAY_MD5);
    for (i = 0; i < PLAY_COUNT; i++) {
        word = below(64);
        uf2_put32(image + 4 * word, any());
        image_len = one_in(16) ? below(sizeof image + 1) : below(200);
        digest_len = one_in(8) ? below(UF2_MD5_SIZE + PLAY_MORE + 1) : UF2_MD5_SIZE;
        play_call(PLAY_MD5, call_md5);
        count(0);
        add_bytes(digest, sizeof digest);
    }
}

/* ---- one file from two */

static uint8_t files[2][512];
static uint32_t file_lens[2];
static uint64_t joined;

static void call_join(void) {
    joined = uhex_join(files[0], file_lens[0], files[1], file_lens[1], output, output_len);
}

static void put_line(uint32_t k, uint32_t type, uint32_t address, const uint8_t *data, uint32_t len) {
    static const char digits[] = "0123456789ABCDEF";
    uint32_t i, byte, sum = 0;
    uint8_t *to = files[k] + file_lens[k];
    *to++ = ':';
    for (i = 0; i < len + 5; i++) {
        byte = i == 0 ? len : i == 1 ? address >> 8 & 255u : i == 2 ? address & 255u : i == 3 ? type : i < len + 4 ? data[i - 4] : (0u - sum) & 255u;
        sum += byte;
        *to++ = (uint8_t)digits[byte >> 4 & 15u];
        *to++ = (uint8_t)digits[byte & 15u];
    }
    if (one_in(3))
        *to++ = '\r';
    *to++ = '\n';
    file_lens[k] = (uint32_t)(to - files[k]);
}

/* A plain Intel Hex file of a few lines; sometimes something in it is wrong. */
static void make_plain(uint32_t k) {
    uint8_t data[36];
    uint32_t i, type, address, lines = one_in(20) ? 0 : 1 + below(3);
    random_bytes(data, sizeof data);
    file_lens[k] = 0;
    if (one_in(3)) {
        data[0] = 0;
        data[1] = (uint8_t)below(3);
        put_line(k, one_in(30) ? below(8) : 2 + 2 * below(2), 0, data, 2);
    }
    for (i = 0; i < lines; i++) {
        type = one_in(40) ? below(8) : 0;
        address = one_in(20) ? 65536 - below(40) : below(60000);
        put_line(k, type, address, data, one_in(30) ? 33 : below(33));
    }
    if (!one_in(20))
        put_line(k, 1, 0, data, 0);
    if (one_in(30))
        put_line(k, 0, 0, data, 4);
    if (one_in(8) && file_lens[k] > 0) {
        i = below(file_lens[k]);
        files[k][i] = (uint8_t)(one_in(2) ? any() : '0' + below(10));
    }
    if (one_in(20) && file_lens[k] > 0)
        file_lens[k] = below(file_lens[k]);
}

static void play_join(void) {
    uint32_t i;
    begin(PLAY_JOIN);
    random_bytes(output, sizeof output);
    for (i = 0; i < PLAY_COUNT; i++) {
        if (i % 2 == 0 || one_in(4))
            make_plain(0);
        if (i % 2 == 1 || one_in(4))
            make_plain(1);
        output_len = one_in(8) ? below(sizeof output) : sizeof output;
        play_call(PLAY_JOIN, call_join);
        count(UHEX_JOIN_ANSWER(joined));
        add((uint32_t)joined);
        add((uint32_t)(joined >> 32));
        if (UHEX_JOIN_ANSWER(joined) == 0)
            add_bytes(output, UHEX_JOIN_LENGTH(joined) + 4 <= sizeof output ? UHEX_JOIN_LENGTH(joined) + 4 : sizeof output);
        if (i % 128 == 127)
            add_bytes(output, sizeof output);
    }
}

/* ---- traces, replayed and counted */

#define RECORDS 20u
#define FEW 3u

static uint8_t trace[RECORDS * UF2_RECORD_SIZE + PLAY_MORE], where[UF2_INDEX_SIZE + PLAY_MORE], report[UF2_REPORT_SIZE + PLAY_MORE];
static uf2_len trace_len, where_len, report_len;
static uint32_t records, addresses[RECORDS];

static void call_replay(void) {
    result = uf2_replay(settings, lent[L_SETTINGS], trace, trace_len, board.flash, lent[L_FLASH], board.seen, lent[L_SEEN], board.sectors,
                        lent[L_SECTORS], board.main_ram, lent[L_MAIN], board.xip_ram, lent[L_XIP], board.transfer, lent[L_TRANSFER], where,
                        where_len);
}

static void call_figures(void) {
    result = uf2_figures(report, report_len, settings, lent[L_SETTINGS], trace, trace_len, board.flash, lent[L_FLASH], board.seen, lent[L_SEEN],
                         board.sectors, lent[L_SECTORS], board.main_ram, lent[L_MAIN], board.xip_ram, lent[L_XIP], where, where_len);
}

/* What a site's host sent and got: the answers are those of takes from Idle, but for a few. Mostly a few blocks in any order; now and then many
 * of a long file in their order, so that the smallest number that is missing is none of the first. */
static void make_trace(uint32_t i) {
    uint32_t k, many = one_in(40);
    if (i % 64 == 0)
        make_board();
    if (many)
        do
            make_file();
        while (file.total <= 8);
    else if (i % 64 == 0 || one_in(3))
        make_file();
    make_lengths();
    memset(board.seen, 0, 16);
    memset(board.sectors, 0, 8);
    uf2_new(board.transfer, UF2_TRANSFER_SIZE);
    records = below(many ? RECORDS + 1 : FEW + 1);
    for (k = 0; k < records; k++) {
        uint8_t *record = trace + UF2_RECORD_SIZE * k;
        addresses[k] = many ? make_block(record + 1, k % file.total) : make_arrival(record + 1);
        result = uf2_take(settings, lent[L_SETTINGS], board.transfer, UF2_TRANSFER_SIZE, record + 1, UF2_ARRIVAL_SIZE, board.flash, lent[L_FLASH],
                          board.seen, lent[L_SEEN], board.sectors, lent[L_SECTORS], board.main_ram, lent[L_MAIN], board.xip_ram, lent[L_XIP]);
        record[0] = (uint8_t)(one_in(many ? 40 : 12) ? any() : UF2_RECORD(result));
    }
    trace_len = UF2_RECORD_SIZE * records;
    if (records > 0 && one_in(12))
        trace_len -= one_in(2) ? 1 : 1 + below(UF2_RECORD_SIZE - 1);
    where_len = one_in(8) ? below(UF2_INDEX_SIZE + PLAY_MORE + 1) : UF2_INDEX_SIZE;
    random_bytes(where, sizeof where);
}

/* What a replay can have changed. */
static void add_replayed(uint32_t i) {
    uint32_t k;
    count(result);
    add_bytes(where, sizeof where);
    add_bytes(board.transfer, sizeof board.transfer);
    add_bytes(board.seen, 16);
    add_bytes(board.sectors, 8);
    for (k = 0; k < records; k++)
        add_block(&board, addresses[k]);
    if (i % 512 == 511 || i == PLAY_COUNT - 1)
        add_all(&board);
}

static void play_replay(void) {
    uint32_t i;
    begin(PLAY_REPLAY);
    for (i = 0; i < PLAY_COUNT; i++) {
        make_trace(i);
        play_call(PLAY_REPLAY, call_replay);
        add_replayed(i);
    }
}

static void raise_count(uint32_t at, uint32_t by) {
    uf2_put32(report + at, uf2_get32(report + at) + by);
}

static uint32_t any_count(void) {
    uint32_t k = below(16);
    return UF2_REPORT_COUNT(k < 5 ? k + 1 : k + 2);
}

/* A report of many records, which its counts sum to; now and then only in 32 bits. */
static void make_full_report(void) {
    uint32_t at, discards, full = one_in(2) ? 0xFFFFFFFFu - below(4) : any(), some = any_size() % (full / 2 + 1);
    memset(report, 0, sizeof report);
    at = any_count();
    raise_count(at, some);
    at = any_count();
    raise_count(at, full - some);
    if (one_in(8)) {
        at = any_count();
        raise_count(at, 0x80000000u);
        at = any_count();
        raise_count(at, 0x80000000u);
    }
    uf2_put32(report + UF2_REPORT_RECORDS, full);
    discards = one_in(4) ? full : any_size();
    uf2_put32(report + UF2_REPORT_DISCARDS, discards <= full ? discards : full);
}

/* Mostly the report that the call before left, so that it adds up over many traces. `was` is what that call answered. */
static void make_report(uint32_t was) {
    uint32_t bit;
    if (was >= UF2_FIGURES_TOO_MANY || one_in(40))
        memset(report, 0, sizeof report);
    if (one_in(12))
        make_full_report();
    if (one_in(24)) {
        bit = below(8 * UF2_REPORT_SIZE);
        report[bit / 8] ^= (uint8_t)(1u << bit % 8);
    }
    report_len = one_in(40) ? below(sizeof report + 1) : UF2_REPORT_SIZE;
}

static void play_figures(void) {
    uint32_t i, was = 0;
    begin(PLAY_FIGURES);
    for (i = 0; i < PLAY_COUNT; i++) {
        make_trace(i);
        make_report(was);
        play_call(PLAY_FIGURES, call_figures);
        was = result;
        add_replayed(i);
        add_bytes(report, sizeof report);
    }
}

/* ---- parts of figures */

static uint8_t part[UF2_PART_SIZE + PLAY_MORE], later[UF2_PART_SIZE + PLAY_MORE];
static uf2_len part_len, later_len;
static uint32_t stop;

static void call_part_one(void) {
    result = uf2_part_one(report, report_len, stop, part, part_len);
}

static void call_part_merge(void) {
    result = uf2_part_merge(part, part_len, later, later_len);
}

/* A part of a few traces, or of none; now and then of nearly as many traces or records as there may be, and with a bit turned over. */
static void make_part(uint8_t *at) {
    uint32_t k, n, bit, traces = below(5), records = 0;
    memset(at, 0, UF2_PART_SIZE);
    for (k = 0; k < 16 && traces != 0; k++) {
        n = one_in(100) ? any() >> 4 : below(1000);
        records += n;
        uf2_put32(at + 4 + 4 * k, n);
    }
    uf2_put32(at + UF2_REPORT_RECORDS, records);
    if (traces != 0) {
        uf2_put32(at + UF2_REPORT_DISCARDS, below(records + 1));
        uf2_put32(at + UF2_REPORT_MARKED, any_size());
        uf2_put32(at + UF2_REPORT_IS_MISSING, below(2));
        uf2_put32(at + UF2_REPORT_MISSING, any_size());
        uf2_put32(at + UF2_PART_BAD, below(traces + 1));
    }
    if (one_in(20))
        traces = 0xFFFFFFFFu - below(4);
    uf2_put32(at + UF2_PART_TRACES, traces);
    if (one_in(24)) {
        bit = below(8 * UF2_PART_SIZE);
        at[bit / 8] ^= (uint8_t)(1u << bit % 8);
    }
}

static void play_parts(void) {
    uint32_t i, was = 0;
    begin(PLAY_PART_ONE);
    for (i = 0; i < PLAY_COUNT; i++) {
        make_report(was);
        stop = one_in(20) ? any_size() : below(4);
        part_len = one_in(40) ? below(sizeof part + 1) : UF2_PART_SIZE;
        play_call(PLAY_PART_ONE, call_part_one);
        was = result;
        add(result);
        add_bytes(part, sizeof part);
        count(result);
    }
    begin(PLAY_PART_MERGE);
    for (i = 0; i < PLAY_COUNT; i++) {
        if (was != 0 || one_in(40))
            make_part(part);
        make_part(later);
        part_len = one_in(60) ? below(sizeof part + 1) : UF2_PART_SIZE;
        later_len = one_in(60) ? below(sizeof later + 1) : UF2_PART_SIZE;
        play_call(PLAY_PART_MERGE, call_part_merge);
        was = result;
        add(result);
        add_bytes(part, sizeof part);
        count(result);
    }
}

/* ---- all */

static int met_tags(enum play_kind kind) {
    const struct play_end *end = &play_ends[kind];
    return end->answers[UF2_TAG_FOUND] > 0 && end->answers[UF2_TAG_BAD_LENGTH] > 0 && end->answers[UF2_TAG_NOT_BLOCK] > 0 && met(kind, 60, 65, 0);
}

static int given(enum play_kind kind, uint32_t answer) {
    return play_ends[kind].answers[answer] > 0;
}

int play_tools(void) {
    play_tags();
    play_make();
    play_md5();
    play_join();
    play_replay();
    play_figures();
    play_parts();
    return met_tags(PLAY_TAG) && met_tags(PLAY_TAG_FIND) && play_ends[PLAY_TAG].answers[UF2_TAG_BAD_PLACE] > 0 && met(PLAY_MAKE_CHECK, 50, 53, 0) &&
           met(PLAY_MAKE, 50, 53, 0) && met(PLAY_MAKE_REGIONS, 50, 53, 0) && met(PLAY_JOIN, 20, 26, 0) && met(PLAY_JOIN, 29, 31, 0) && met(PLAY_REPLAY, 0, 2, 9) &&
           met(PLAY_FIGURES, 0, 2, 9) && met(PLAY_FIGURES, 70, 71, 0) && given(PLAY_MAKE_CHECK, 0) && given(PLAY_MAKE, 0) && given(PLAY_MAKE_REGIONS, 0) && given(PLAY_JOIN, 0) &&
           given(PLAY_JOIN, 36) && given(PLAY_PART_ONE, 0) && given(PLAY_PART_ONE, 71) && given(PLAY_PART_MERGE, 0) && met(PLAY_PART_MERGE, 70, 71, 0);
}
