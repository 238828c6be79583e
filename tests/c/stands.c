/* Whether blocks stand, asked from C: of a file before it came and after, with one byte changed at either end of a payload, of RAM, of a comment;
 * every refusal; and of another build of the same size after half of the first, which uf2_take answers 15. */
#include <stdio.h>
#include <string.h>

#include "uf2_receiver.h"
#include "uf2_stands.h"

#define TOTAL 4u

static uint8_t settings[UF2_SETTINGS_SIZE], transfer[UF2_TRANSFER_SIZE], flash[32768];
static uint8_t seen[UF2_SEEN_MAP_SIZE], sectors[UF2_SECTOR_MAP_SIZE];
static uint8_t main_ram[UF2_MAIN_RAM_SIZE], xip_ram[UF2_XIP_RAM_SIZE], block[UF2_ARRIVAL_SIZE];

/* Block k of a build, at an address. */
static void make(uint32_t k, uint32_t build, uint32_t address) {
    uint32_t i;
    memset(block, 0, sizeof block);
    uf2_put32(block, 0x0A324655u);
    uf2_put32(block + 4, 0x9E5D5157u);
    uf2_put32(block + 8, 0x2000u);
    uf2_put32(block + 12, address);
    uf2_put32(block + 16, UF2_PAYLOAD_SIZE);
    uf2_put32(block + 20, k);
    uf2_put32(block + 24, TOTAL);
    uf2_put32(block + 28, UF2_FAMILY_ARM_S);
    for (i = 0; i < UF2_PAYLOAD_SIZE; i++)
        block[UF2_PAYLOAD_AT + i] = (uint8_t)(17 * k + i + build);
    uf2_put32(block + 508, 0x0AB16F30u);
}

static uint32_t stands_of(uf2_len block_len, uf2_len flash_len, uf2_len main_len, uf2_len xip_len) {
    return uf2_stands(settings, sizeof settings, block, block_len, flash, flash_len, main_ram, main_len, xip_ram, xip_len);
}

static uint32_t stands(void) {
    return stands_of(sizeof block, sizeof flash, sizeof main_ram, sizeof xip_ram);
}

static uint32_t take(void) {
    return uf2_take(settings, sizeof settings, transfer, sizeof transfer, block, sizeof block, flash, sizeof flash, seen, sizeof seen, sectors,
                    sizeof sectors, main_ram, sizeof main_ram, xip_ram, sizeof xip_ram);
}

static void told(const char *name, uint32_t answer) {
    printf("%s: %u\n", name, (unsigned)answer);
}

/* What is told of every block of a build, in flash. */
static void all(const char *name, uint32_t build) {
    uint32_t k;
    printf("%s:", name);
    for (k = 0; k < TOTAL; k++) {
        make(k, build, UF2_FLASH_START + 256 * k);
        printf(" %u", (unsigned)stands());
    }
    printf("\n");
}

/* A block that is refused: one field of a good one is changed. */
static void refused(const char *name, uint32_t at, uint32_t value) {
    make(0, 0, UF2_FLASH_START);
    uf2_put32(block + at, value);
    told(name, stands());
}

int main(void) {
    static uint8_t before[sizeof flash];
    uint32_t k;

    settings[UF2_SETTINGS_ARM_AT] = 1;
    uf2_new(transfer, sizeof transfer);
    all("before", 0);
    for (k = 0; k < TOTAL; k++) {
        make(k, 0, UF2_FLASH_START + 256 * k);
        printf("%u ", (unsigned)take());
    }
    printf("taken\n");
    memcpy(before, flash, sizeof flash);
    all("after", 0);
    flash[0] ^= 1;
    flash[2 * 256 + 255] ^= 128;
    all("first byte of one and last of another", 0);
    flash[0] ^= 1;
    flash[2 * 256 + 255] ^= 128;
    flash[TOTAL * 256] ^= 1;
    all("a byte beside the file", 0);
    flash[TOTAL * 256] ^= 1;

    /* another build of the same size, after half of the first */
    uf2_new(transfer, sizeof transfer);
    for (k = 0; k < TOTAL; k++) {
        make(k, k < 2 ? 0 : 1, UF2_FLASH_START + 256 * k);
        printf("%u ", (unsigned)take());
    }
    printf("taken, of two builds\n");
    all("of the first", 0);
    all("of the second", 1);
    memcpy(flash, before, sizeof flash);

    make(0, 0, UF2_MAIN_RAM_START + 3);
    told("main RAM before", stands());
    memcpy(main_ram + 3, block + UF2_PAYLOAD_AT, UF2_PAYLOAD_SIZE);
    told("main RAM after", stands());
    told("a board without it", stands_of(sizeof block, sizeof flash, 0, sizeof xip_ram));
    make(0, 0, UF2_XIP_RAM_END - 256);
    memcpy(xip_ram + sizeof xip_ram - 256, block + UF2_PAYLOAD_AT, UF2_PAYLOAD_SIZE);
    told("the last page of XIP RAM", stands());
    make(3, 7, 0);
    uf2_put32(block + 8, 0x2001u);
    told("a comment", stands());

    make(0, 0, UF2_FLASH_START);
    told("511 bytes", stands_of(511, sizeof flash, 0, 0));
    told("a flash of 100 bytes", stands_of(sizeof block, 100, 0, 0));
    told("a RAM of 1 byte", stands_of(sizeof block, sizeof flash, 0, 1));
    settings[UF2_SETTINGS_ARM_AT] = 0;
    told("bad settings", stands());
    settings[UF2_SETTINGS_ARM_AT] = 1;
    refused("no block", 0, 0);
    refused("a container", 8, 0x3000u);
    refused("no family", 8, 0);
    refused("for another", 28, UF2_FAMILY_RISCV);
    refused("payload of 255", 16, 255);
    refused("number past the total", 20, TOTAL);
    refused("past the flash", 12, UF2_FLASH_START + (uint32_t)sizeof flash);
    refused("a good one", 12, UF2_FLASH_START);
    printf("%s\n", memcmp(flash, before, sizeof flash) == 0 ? "nothing was written" : "something was written");
    return 0;
}
