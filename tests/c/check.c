/* Files checked from C: a valid one, one for each thing that can be wrong, and what a call leaves in the bytes that it is lent. */
#include <stdio.h>
#include <string.h>

#include "uf2_check.h"
#include "uf2_receiver.h"
#include "uf2_tools.h"

#define BLOCKS 4

static uint8_t settings[UF2_SETTINGS_SIZE], image[BLOCKS * UF2_MAKE_PAGE_SIZE], file[BLOCKS * UF2_MAKE_BLOCK_SIZE];
static uint8_t numbers[UF2_CHECK_NUMBERS_SIZE], cells[UF2_CHECK_CELLS_SIZE], offsets[UF2_CHECK_OFFSETS_SIZE];

static uint8_t *piece(uint32_t i) {
    return file + i * UF2_MAKE_BLOCK_SIZE;
}

static void make(void) {
    uf2_make(image, sizeof image, UF2_FAMILY_ARM_S, 0x10000000u, file, sizeof file);
}

static int zero(const uint8_t *map, size_t n) {
    size_t i;
    for (i = 0; i < n; i++)
        if (map[i] != 0)
            return 0;
    return 1;
}

/* The maps hold anything before a call, and nothing after it. */
static void check_len(const char *name, uf2_len settings_len, uf2_len file_len, uf2_len numbers_len) {
    uint8_t told[UF2_TOLD_SIZE];
    uint32_t result;
    memset(numbers, 0xA5, sizeof numbers);
    memset(cells, 0x5A, sizeof cells);
    memset(offsets, 0xFF, sizeof offsets);
    result = uf2_check(settings, settings_len, file, file_len, 32768, UF2_MAIN_RAM_SIZE, UF2_XIP_RAM_SIZE, numbers, numbers_len, cells, sizeof cells,
                       offsets, sizeof offsets, told, sizeof told);
    printf("%s: %u, %u %u\n", name, (unsigned)result, (unsigned)uf2_get32(told + UF2_TOLD_PIECE_AT), (unsigned)uf2_get32(told + UF2_TOLD_OTHER_AT));
    if (!zero(numbers, (size_t)numbers_len) || !zero(cells, sizeof cells) || !zero(offsets, sizeof offsets))
        printf("and a map is not zero\n");
}

static void check(const char *name) {
    check_len(name, sizeof settings, sizeof file, sizeof numbers);
    make();
}

int main(void) {
    uint8_t kept[4] = {1, 2, 3, 4};
    uint32_t result;
    settings[UF2_SETTINGS_ARM_AT] = settings[UF2_SETTINGS_RISCV_AT] = 1;
    make();
    check("valid");
    memcpy(image, piece(0), 256);
    memmove(piece(0), piece(1), (BLOCKS - 1) * UF2_MAKE_BLOCK_SIZE);
    uf2_make_block(0x10000000u, 0, BLOCKS, UF2_FAMILY_ARM_S, image, UF2_MAKE_PAGE_SIZE, piece(BLOCKS - 1), UF2_MAKE_BLOCK_SIZE);
    check("valid in another order");
    check_len("a short map", sizeof settings, sizeof file, sizeof numbers - 1);
    check_len("no settings", sizeof settings - 1, sizeof file, sizeof numbers);
    check_len("cut off", sizeof settings, sizeof file - 1, sizeof numbers);
    check_len("empty", sizeof settings, 0, sizeof numbers);
    check_len("one piece less", sizeof settings, sizeof file - UF2_MAKE_BLOCK_SIZE, sizeof numbers);
    uf2_put32(piece(2) + 28, UF2_FAMILY_RP2040);
    check("refused");
    uf2_put32(piece(2) + 28, UF2_FAMILY_RISCV);
    check("another family");
    uf2_put32(piece(2) + 24, BLOCKS + 1);
    check("another total");
    uf2_put32(piece(3) + 12, UF2_MAIN_RAM_START);
    check("another memory");
    uf2_put32(piece(2) + 20, 1);
    check("one number twice");
    uf2_put32(piece(2) + 8, 0x2001u);
    uf2_put32(piece(2) + 20, 1);
    check("a comment with a number");
    uf2_put32(piece(3) + 12, 0x10000100u);
    check("one address twice");
    uf2_put32(piece(1) + 8, 0x6000u);
    uf2_put32(piece(1) + 484, 0x10000000u);
    uf2_put32(piece(1) + 488, 4096);
    check("a region");
    result = uf2_check(settings, sizeof settings, file, sizeof file, 32768, 0, 0, numbers, sizeof numbers, cells, sizeof cells, offsets, sizeof offsets,
                       kept, sizeof kept);
    printf("no bytes for what is told: %u, %u %u %u %u\n", (unsigned)result, kept[0], kept[1], kept[2], kept[3]);
    return 0;
}
