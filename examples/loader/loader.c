/* See loader.h. The numbers in brackets are those of docs/BOARD.md, "What a loader must do". */
#include "loader.h"

#include <string.h>

struct loader_kept loader_kept;

static const uint8_t settings[UF2_SETTINGS_SIZE] = {1}; /* Arm alone, no partition table */
static uint8_t no_main_ram[1], no_xip_ram[1];           /* this display has no RAM images */
static enum loader_word word;
static uint32_t stood; /* how many blocks stood since the file was whole; they are marked in the seen map, which a done transfer does not read */

enum loader_word loader_says(void) {
    return word;
}

/* [5] CRC-32 of what a flash of this length can use: no number is past its pages, and no sector past its end. */
static uint32_t crc(const uint8_t *bytes, uf2_len n, uint32_t c) {
    uf2_len i;
    int k;
    for (i = 0; i < n; i++)
        for (c ^= bytes[i], k = 0; k < 8; k++)
            c = c >> 1 ^ (c & 1u ? 0xEDB88320u : 0u);
    return c;
}

static uint32_t sum(void) {
    uf2_len pages = loader_flash_len / UF2_PAYLOAD_SIZE, sectors = loader_flash_len / UF2_SECTOR_SIZE;
    uint32_t c = crc(loader_kept.transfer, sizeof loader_kept.transfer, 0xFFFFFFFFu);
    return crc(loader_kept.sectors, (sectors + 7) / 8, crc(loader_kept.seen, (pages + 7) / 8, c));
}

static void drop(enum loader_word next) {
    uf2_new(loader_kept.transfer, sizeof loader_kept.transfer);
    loader_kept.pending = 0;
    loader_kept.sum = sum();
    word = next;
}

/* The file is whole: it is compared from here on. */
static void check_begins(void) {
    memset(loader_kept.seen, 0, sizeof loader_kept.seen);
    stood = 0;
    word = LOADER_CHECKING;
}

void loader_begin(void) {
    drop(LOADER_EMPTY);
}

/* [2] A transfer that was kept counts only where no call or plan was under way and no bit of it changed. Done is no proof: it is compared. */
void loader_start(void) {
    if (loader_kept.pending || loader_kept.sum != sum()) {
        drop(LOADER_EMPTY);
    } else if (loader_kept.transfer[UF2_TRANSFER_STATE_AT] == UF2_STATE_DONE) {
        check_begins();
        loader_kept.sum = sum();
    } else {
        word = LOADER_RECEIVING;
    }
}

/* [4] Erases where it is planned, programs only what is erased, and reads both back. */
static int is_erased(uint32_t at, uint32_t n) {
    while (n > 0 && loader_flash[at + n - 1] == 0xFF)
        n--;
    return n == 0;
}

static int perform(const uint8_t *plan, const uint8_t *payload) {
    uint32_t deed = uf2_get32(plan + UF2_PLAN_DEED_AT), sector = uf2_get32(plan + UF2_PLAN_SECTOR_AT), page = uf2_get32(plan + UF2_PLAN_PAGE_AT);
    int good = 1;
    if (deed == UF2_PLAN_NOTHING)
        return 1;
    if (deed == UF2_PLAN_ERASE) {
        good = loader_erase(sector);
        loader_drop_cache();
        good = good && is_erased(sector, UF2_SECTOR_SIZE);
    }
    good = good && is_erased(page, UF2_PAYLOAD_SIZE) && loader_program(page, payload);
    loader_drop_cache();
    return good && memcmp(loader_flash + page, payload, UF2_PAYLOAD_SIZE) == 0;
}

/* [3] The answer, or 0 where the flash failed: the transfer is dropped, and the host is not told that its block was taken. */
static uint32_t accept(const uint8_t *arrival) {
    uint8_t plan[UF2_PLAN_SIZE];
    uint32_t answer;
    loader_kept.pending = 1; /* [2] before the call: a loss of power within it leaves the maps half written */
    answer = UF2_RESULT_ANSWER(uf2_accept(settings, sizeof settings, loader_kept.transfer, sizeof loader_kept.transfer, arrival, UF2_ARRIVAL_SIZE,
                                          loader_flash, loader_flash_len, loader_kept.seen, sizeof loader_kept.seen, loader_kept.sectors,
                                          sizeof loader_kept.sectors, no_main_ram, 0, no_xip_ram, 0, plan, sizeof plan));
    if (!perform(plan, arrival + UF2_PAYLOAD_AT)) {
        drop(LOADER_FAILED);
        return 0;
    }
    if (answer == UF2_ANSWER_COMPLETED)
        check_begins();
    else if (UF2_ANSWER_IS_ACCEPTED(answer))
        word = LOADER_RECEIVING;
    loader_kept.sum = sum();
    loader_kept.pending = 0;
    return answer;
}

/* [1] Is it a block of the file that the transfer knows, and does its page stand? */
static int is_ours(const uint8_t *arrival) {
    return memcmp(arrival + 28, loader_kept.transfer + UF2_TRANSFER_FAMILY_AT, 4) == 0 &&
           memcmp(arrival + 24, loader_kept.transfer + UF2_TRANSFER_TOTAL_AT, 4) == 0 &&
           uf2_stands(settings, sizeof settings, arrival, UF2_ARRIVAL_SIZE, loader_flash, loader_flash_len, no_main_ram, 0, no_xip_ram, 0) == UF2_STANDS;
}

/* A block that stands is marked; the file is complete once as many as its total are. */
static void checked(uint32_t number) {
    uint8_t bit = (uint8_t)(128u >> number % 8);
    if (!(loader_kept.seen[number / 8] & bit)) {
        loader_kept.seen[number / 8] |= bit;
        stood++;
    }
    if (stood == uf2_get32(loader_kept.transfer + UF2_TRANSFER_TOTAL_AT))
        word = LOADER_COMPLETE;
    loader_kept.sum = sum();
}

uint32_t loader_block(const uint8_t *arrival) {
    uint32_t answer;
    if (loader_kept.sum != sum()) /* [5] */
        drop(LOADER_EMPTY);
    answer = accept(arrival);
    if (answer != UF2_ANSWER_AGAIN && answer != UF2_ANSWER_FINISHED)
        return answer;
    if (!is_ours(arrival)) { /* [1] another file, or a page that is not there: it begins anew */
        drop(LOADER_EMPTY);
        return accept(arrival);
    }
    if (answer == UF2_ANSWER_FINISHED)
        checked(uf2_get32(arrival + 20));
    return answer;
}
