/* A file of eight blocks, sent in another order and with one block twice, into flash that only a driver writes: each block goes through
 * uf2_take_through, which accepts it and has the driver perform the plan. The flash here is a small simulated NOR flash, which refuses what a
 * real one cannot do: an erase that is not at a sector's start, a page that is not at a multiple of its size or not in the flash, and a bit
 * from 0 to 1, which only an erase does. Prints the answer to each block and what was done. Then the same file, with a driver that fails once:
 * its transfer is dropped, and the file sent again from its start, as the header says.
 *
 *     gcc -std=c99 example_flash.c $(pkg-config --cflags --libs vantorel) -o example_flash
 *
 * In the repository, after `tools/target --host`:
 *
 *     gcc -std=c99 -Iinclude include/example_flash.c target/staticlib/libvantorel.a -o example_flash
 */
#include "vantorel.h"

#include <stdio.h>
#include <string.h>

#define SECTORS 4
#define FLASH_SIZE (SECTORS * UF2_SECTOR_SIZE)
#define TOTAL 8

/* ---- a NOR flash: it is read where it is mapped, and written by these two functions alone, which return 0 where they did it */

static uint8_t mapped[FLASH_SIZE];
static unsigned erased[SECTORS]; /* how often each sector was */
static int working = -1;         /* how many further calls succeed; below 0: all */

static int works(void) {
    if (working == 0)
        return 0;
    if (working > 0)
        working--;
    return 1;
}

static int flash_erase(void *with, uint32_t sector) {
    (void)with;
    if (sector % UF2_SECTOR_SIZE != 0 || sector >= FLASH_SIZE || !works())
        return -1;
    memset(mapped + sector, 0xFF, UF2_SECTOR_SIZE);
    erased[sector / UF2_SECTOR_SIZE]++;
    printf(", erased 0x%04x", (unsigned)sector);
    return 0;
}

static int flash_program(void *with, uint32_t page, const uint8_t *bytes) {
    uint32_t i;

    (void)with;
    if (page % UF2_PAYLOAD_SIZE != 0 || page >= FLASH_SIZE || !works())
        return -1;
    for (i = 0; i < UF2_PAYLOAD_SIZE; i++)
        if ((mapped[page + i] & bytes[i]) != bytes[i])
            return -1; /* a bit from 0 to 1 */
    for (i = 0; i < UF2_PAYLOAD_SIZE; i++)
        mapped[page + i] &= bytes[i];
    printf(", programmed 0x%04x", (unsigned)page);
    return 0;
}

static const struct uf2_driver driver = {mapped, sizeof mapped, flash_erase, flash_program, 0};

/* ---- an arrival, through the driver */

static uint8_t settings[UF2_SETTINGS_SIZE], arrival[UF2_ARRIVAL_SIZE];
static struct uf2_buffers board;

/* Takes the arrival through the driver: the answer, or 0 where the driver failed. The transfer is then dropped, and the file has to be sent again.
 * The look is for the printed line alone: the answer stands before what the driver says, and where the driver fails, a take has none. */
static uint32_t receive(void) {
    struct uf2_outcome seen = uf2_look_at(&board, mapped, sizeof mapped, arrival, sizeof arrival), outcome;

    printf("%u", (unsigned)seen.answer);
    if (uf2_take_through(&board, &driver, arrival, sizeof arrival, &outcome) != 0) {
        printf(", the driver failed\n");
        return 0;
    }
    printf(outcome.answer == seen.answer ? "\n" : ", and the take answers otherwise\n");
    return (uint32_t)outcome.answer;
}

/* ---- the file */

/* Block k, its page at the start of kilobyte k, so that a sector has four. */
static void block(uint32_t k) {
    uint32_t i;

    memset(arrival, 0, sizeof arrival);
    uf2_put32(arrival, 0x0A324655u);
    uf2_put32(arrival + 4, 0x9E5D5157u);
    uf2_put32(arrival + 8, 0x2000u);
    uf2_put32(arrival + 12, UF2_FLASH_START + 1024u * k);
    uf2_put32(arrival + 16, UF2_PAYLOAD_SIZE);
    uf2_put32(arrival + 20, k);
    uf2_put32(arrival + 24, TOTAL);
    uf2_put32(arrival + 28, UF2_FAMILY_ARM_S);
    for (i = 0; i < UF2_PAYLOAD_SIZE; i++)
        arrival[UF2_PAYLOAD_AT + i] = (uint8_t)(17 * k + i);
    uf2_put32(arrival + 508, 0x0AB16F30u);
}

/* Sends the file: the last answer, or 0 where the driver failed before. */
static uint32_t send(void) {
    static const uint32_t order[] = {5, 0, 3, 0, 7, 2, 6, 1, 4};
    uint32_t answer = 0;
    size_t i;

    for (i = 0; i < sizeof order / sizeof order[0]; i++) {
        block(order[i]);
        answer = receive();
        if (answer == 0)
            break;
    }
    return answer;
}

/* Whether the flash has the file, and beside it what the two sectors that it touches have after an erase, and 0 in the others. */
static int whole(void) {
    uint32_t at;

    for (at = 0; at < FLASH_SIZE; at++) {
        uint32_t wanted = at >= TOTAL * 1024u ? 0 : at % 1024u < UF2_PAYLOAD_SIZE ? (17 * (at / 1024u) + at % 1024u) & 255u : 0xFFu;
        if (mapped[at] != wanted)
            return 0;
    }
    return 1;
}

int main(void) {
    static const uint8_t ones[UF2_PAYLOAD_SIZE] = {0xFF};

    settings[UF2_SETTINGS_ARM_AT] = 1; /* Arm alone, no partition table */
    uf2_begin(&board, settings);
    /* the flash is a flash: old bytes cannot be set to 1 */
    if (!flash_erase(0, 1) || !flash_erase(0, FLASH_SIZE) || !flash_program(0, 128, ones) || !flash_program(0, FLASH_SIZE, ones) || !flash_program(0, 0, ones))
        return 1;
    if (send() != UF2_ANSWER_COMPLETED || !whole() || erased[0] != 1 || erased[1] != 1 || erased[2] != 0 || erased[3] != 0)
        return 1;

    printf("again, with a driver that fails once\n");
    uf2_restart(&board);
    working = 4; /* two blocks: an erase and a page each */
    if (send() != 0 || uf2_state_of(&board) != UF2_STATE_IDLE || whole())
        return 1;
    working = -1;
    return send() == UF2_ANSWER_COMPLETED && whole() ? 0 : 1;
}
