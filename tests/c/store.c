/* A store of settings written and read in C: the bytes of it, as the text has them; each answer; and that a refusal leaves what it is lent.
 * Prints what does not hold, and fails.
 *
 *     gcc -std=c99 -Iinclude tests/c/store.c target/staticlib/libstoreapi.a -o store
 */
#include "uf2_store.h"

#include <stdio.h>
#include <string.h>

static int failures;

#define CHECK(holds) ((holds) ? (void)0 : (void)(failures++, printf("line %d: %s\n", __LINE__, #holds)))

#define FLASH_SIZE 33554432u

static uint8_t settings[UF2_SETTINGS_SIZE], kept[UF2_SETTINGS_SIZE], store[UF2_STORE_MAX_SIZE];

static uint32_t write_store(uf2_len flash_len, uf2_len store_len) {
    return uf2_store_write(settings, sizeof settings, flash_len, store, store_len);
}

static uint32_t read_store(uf2_len flash_len, uf2_len store_len) {
    return uf2_store_read(store, store_len, flash_len, settings, sizeof settings);
}

/* RISC-V current, both enabled, auto switch; entry 0 from sector 4, two sectors, arm-s; entry 1 in the last sector, B of 0, data, a user
 * family, don't restart. */
static void two_entries(void) {
    uint8_t *entry;
    memset(settings, 0, sizeof settings);
    settings[UF2_SETTINGS_ARM_AT] = settings[UF2_SETTINGS_RISCV_AT] = settings[UF2_SETTINGS_CURRENT_AT] = 1;
    settings[UF2_SETTINGS_AUTO_SWITCH_AT] = 1;
    settings[UF2_SETTINGS_COUNT_AT] = 2;
    entry = settings + UF2_SETTINGS_ENTRY_AT(0);
    uf2_put32(entry + UF2_ENTRY_FIRST_AT, 4);
    uf2_put32(entry + UF2_ENTRY_SECTORS_AT, 2);
    entry[UF2_ENTRY_ARM_S_AT] = 1;
    entry = settings + UF2_SETTINGS_ENTRY_AT(1);
    uf2_put32(entry + UF2_ENTRY_FIRST_AT, 8191);
    uf2_put32(entry + UF2_ENTRY_SECTORS_AT, 1);
    uf2_put32(entry + UF2_ENTRY_USERS_AT, 0x12345678u);
    entry[UF2_ENTRY_USER_COUNT_AT] = 1;
    entry[UF2_ENTRY_DATA_AT] = entry[UF2_ENTRY_NO_RESTART_AT] = 1;
    entry[UF2_ENTRY_LINK_AT] = UF2_LINK_B_OF;
}

int main(void) {
    static const uint8_t head[] = {0x21, 0x5c, 0x00, 0x20, 0x00, 0x40, 0x20};
    static const uint8_t second[] = {0xff, 0xf8, 0x00, 0x30, 0x40, 0x44, 0x8d, 0x15, 0x9e};
    uint8_t expected[UF2_STORE_SIZE(2)] = {0};
    memcpy(expected, head, sizeof head);
    memcpy(expected + 24, second, sizeof second);
    expected[45] = 0x20;

    two_entries();
    memcpy(kept, settings, sizeof kept);
    memset(store, 0xA7, sizeof store);
    CHECK(write_store(1, sizeof store) == UF2_STORE_BAD_BUFFERS);
    CHECK(write_store(4096, sizeof store) == UF2_STORE_BAD_SETTINGS);
    CHECK(write_store(FLASH_SIZE, UF2_STORE_SIZE(2) - 1) == UF2_STORE_BAD_LENGTH);
    CHECK(store[0] == 0xA7 && store[45] == 0xA7);
    CHECK(write_store(FLASH_SIZE, sizeof store) == UF2_STORE_DONE);
    CHECK(memcmp(store, expected, sizeof expected) == 0 && store[46] == 0xA7);

    /* an unused user family, an unused entry and the index of an entry that is not linked are not stored */
    uf2_put32(settings + UF2_SETTINGS_ENTRY_AT(1) + UF2_ENTRY_USERS_AT + 4, 9);
    settings[UF2_SETTINGS_ENTRY_AT(0) + UF2_ENTRY_LINK_INDEX_AT] = 7;
    settings[UF2_SETTINGS_ENTRY_AT(2) + UF2_ENTRY_DATA_AT] = 1;
    /* flags, and the byte of the current architecture, that were lent as any other number come back as 1 */
    settings[UF2_SETTINGS_ARM_AT] = settings[UF2_SETTINGS_CURRENT_AT] = settings[UF2_SETTINGS_AUTO_SWITCH_AT] = 7;
    settings[UF2_SETTINGS_ENTRY_AT(1) + UF2_ENTRY_DATA_AT] = settings[UF2_SETTINGS_ENTRY_AT(1) + UF2_ENTRY_NO_RESTART_AT] = 255;
    CHECK(write_store(FLASH_SIZE, sizeof store) == UF2_STORE_DONE);
    CHECK(memcmp(store, expected, sizeof expected) == 0);
    CHECK(read_store(FLASH_SIZE, UF2_STORE_SIZE(2)) == UF2_STORE_DONE);
    CHECK(memcmp(settings, kept, sizeof kept) == 0);

    memset(settings, 0xA7, sizeof settings);
    memcpy(kept, settings, sizeof kept);
    CHECK(read_store(4097, 0) == UF2_STORE_BAD_BUFFERS);
    CHECK(uf2_store_read(store, UF2_STORE_SIZE(2), FLASH_SIZE, settings, sizeof settings - 1) == UF2_STORE_BAD_BUFFERS);
    CHECK(read_store(FLASH_SIZE, 1) == UF2_STORE_BAD_LENGTH);
    CHECK(read_store(FLASH_SIZE, UF2_STORE_SIZE(2) - 1) == UF2_STORE_BAD_LENGTH);
    CHECK(read_store(4096, UF2_STORE_SIZE(2)) == UF2_STORE_BAD_SETTINGS);
    store[0] ^= 0x10;
    CHECK(read_store(FLASH_SIZE, 2) == UF2_STORE_BAD_VERSION);
    store[0] ^= 0x10;
    store[45] ^= 1;
    CHECK(read_store(FLASH_SIZE, UF2_STORE_SIZE(2)) == UF2_STORE_BAD_BITS);
    /* needless: no entry has "don't restart" */
    store[45] = 0;
    CHECK(read_store(FLASH_SIZE, UF2_STORE_SIZE(2)) == UF2_STORE_BAD_BITS);
    CHECK(memcmp(settings, kept, sizeof kept) == 0);
    return failures == 0 ? 0 : 1;
}
