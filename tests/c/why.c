/* Why a block was not taken, asked from C with what uf2_why.h alone brings and uf2_make: of an arrival that is short, of one for a family that a board without a table does not take, of one that is
 * written; of bytes that are no settings, by their length and by a link of no kind; and of places. */
#include <stdio.h>
#include <string.h>

#include "uf2_why.h"

#include "uf2_tools.h"

static uint8_t settings[UF2_SETTINGS_SIZE], transfer[UF2_TRANSFER_SIZE], flash[32768];
static uint8_t seen[UF2_SEEN_MAP_SIZE], sectors[UF2_SECTOR_MAP_SIZE];

static void told(const char *name, uint32_t result, const uint8_t *reason) {
    printf("%s: %u, %u %llu %llu, entry %u\n", name, (unsigned)result, (unsigned)uf2_get32(reason + UF2_REASON_CAUSE_AT),
           (unsigned long long)uf2_get64(reason + UF2_REASON_GOT_AT), (unsigned long long)uf2_get64(reason + UF2_REASON_AGAINST_AT),
           reason[UF2_REASON_ENTRY_AT]);
}

static void arrival(const char *name, uf2_len settings_len, const uint8_t *block, uf2_len block_len) {
    uint8_t reason[UF2_REASON_SIZE], none = 0;
    uint32_t result = uf2_why(settings, settings_len, transfer, sizeof transfer, block, block_len, flash, sizeof flash, seen, sizeof seen, sectors,
                              sizeof sectors, &none, 0, &none, 0, reason, sizeof reason);
    uint32_t looked = uf2_look(settings, settings_len, transfer, sizeof transfer, block, block_len, flash, sizeof flash, seen, sizeof seen, sectors,
                               sizeof sectors, &none, 0, &none, 0);
    told(name, result, reason);
    if (result != looked) {
        printf("and a look says %u\n", (unsigned)looked);
    }
}

static void place(const char *name, uint32_t family) {
    uint8_t reason[UF2_REASON_SIZE];
    told(name, uf2_why_place(settings, sizeof settings, sizeof flash, family, reason, sizeof reason), reason);
}

/* A transfer with this state and kind, of a file of so many blocks. */
static void transfer_is(uint8_t state, uint8_t kind, uint32_t total, uint32_t count) {
    transfer[UF2_TRANSFER_STATE_AT] = state;
    uf2_put32(transfer + UF2_TRANSFER_FAMILY_AT, UF2_FAMILY_ARM_S);
    uf2_put32(transfer + UF2_TRANSFER_TOTAL_AT, total);
    uf2_put32(transfer + UF2_TRANSFER_COUNT_AT, count);
    transfer[UF2_TRANSFER_KIND_AT] = kind;
}

/* Which byte 307 means, and whose number and total 1201 and 1301 tell: the block is number 1 of 2. */
static void transfers(const uint8_t *block) {
    transfer_is(9, 7, 2, 1);
    arrival("no state", sizeof settings, block, 512);
    transfer_is(UF2_STATE_RUNNING, 7, 2, 1);
    arrival("no kind", sizeof settings, block, 512);
    transfer_is(UF2_STATE_DONE, UF2_KIND_FLASH, 9, 9);
    arrival("finished", sizeof settings, block, 512);
    transfer_is(UF2_STATE_RUNNING, UF2_KIND_FLASH, 2, 1);
    seen[0] = 64;
    arrival("again", sizeof settings, block, 512);
    seen[0] = 0;
    uf2_new(transfer, sizeof transfer);
}

/* Two entries, the first with five user families, the second without sectors; then with a link of no kind. A number of 64 bits: an end past 4 GiB. */
static void entries(const uint8_t *block) {
    uint8_t *first = settings + UF2_SETTINGS_ENTRY_AT(0), *second = settings + UF2_SETTINGS_ENTRY_AT(1);
    settings[UF2_SETTINGS_COUNT_AT] = 2;
    uf2_put32(first + UF2_ENTRY_SECTORS_AT, 1);
    first[UF2_ENTRY_USER_COUNT_AT] = 5;
    arrival("a condition of every entry", sizeof settings, block, 512);
    uf2_put32(second + UF2_ENTRY_FIRST_AT, 1);
    uf2_put32(second + UF2_ENTRY_SECTORS_AT, 1);
    second[UF2_ENTRY_LINK_AT] = 9;
    arrival("a link of entry 1", sizeof settings, block, 512);
    second[UF2_ENTRY_LINK_AT] = 0;
    uf2_put32(second + UF2_ENTRY_SECTORS_AT, 0xffffffffu);
    arrival("an end past 4 GiB", sizeof settings, block, 512);
    memset(first, 0, 2 * UF2_ENTRY_SIZE);
    settings[UF2_SETTINGS_COUNT_AT] = 0;
}

int main(void) {
    static uint8_t image[2 * UF2_MAKE_PAGE_SIZE], file[2 * UF2_MAKE_BLOCK_SIZE];
    uint8_t kept[4] = {1, 2, 3, 4};
    settings[UF2_SETTINGS_ARM_AT] = 1;
    uf2_new(transfer, sizeof transfer);
    uf2_make(image, sizeof image, UF2_FAMILY_ARM_S, 0x10000000u, file, sizeof file);
    arrival("short", sizeof settings, file, 511);
    arrival("written", sizeof settings, file, 512);
    arrival("no settings", sizeof settings - 1, file, 512);
    settings[UF2_SETTINGS_COUNT_AT] = 1;
    uf2_put32(settings + UF2_SETTINGS_ENTRY_AT(0) + UF2_ENTRY_SECTORS_AT, 1);
    settings[UF2_SETTINGS_TABLE_AT + UF2_ENTRY_LINK_AT] = 9;
    arrival("no link", sizeof settings, file, 512);
    place("no place", UF2_FAMILY_ARM_S);
    settings[UF2_SETTINGS_COUNT_AT] = 0;
    memset(settings + UF2_SETTINGS_ENTRY_AT(0), 0, UF2_ENTRY_SIZE);
    transfers(file + 512);
    entries(file + 512);
    uf2_put32(file + 24, 129);
    arrival("too many", sizeof settings, file, 512);
    uf2_put32(file + 28, UF2_FAMILY_RISCV);
    arrival("for another", sizeof settings, file, 512);
    place("arm-s", UF2_FAMILY_ARM_S);
    place("riscv", UF2_FAMILY_RISCV);
    uf2_why_place(settings, sizeof settings, sizeof flash, UF2_FAMILY_ARM_S, kept, sizeof kept);
    printf("%u %u %u %u\n", kept[0], kept[1], kept[2], kept[3]);
    return 0;
}
