/* A student's receiver in C, as uf2_take of include/uf2_receiver.h: document 01 alone, for any settings and any state. */
#include <string.h>
#include "uf2_receiver.h"

static int marked(const uint8_t *map, uint32_t k) { return map[k / 8] & (0x80 >> k % 8); }
static void mark(uint8_t *map, uint32_t k) { map[k / 8] |= (uint8_t)(0x80 >> k % 8); }
static const uint8_t *entry(const uint8_t *s, unsigned k) { return s + UF2_SETTINGS_ENTRY_AT(k); }

static int bad_entry(const uint8_t *s, unsigned i, uint64_t flash) {
    const uint8_t *e = entry(s, i);
    uint64_t first = uf2_get32(e), sectors = uf2_get32(e + UF2_ENTRY_SECTORS_AT);
    if (sectors == 0 || (first + sectors) * 4096 > flash) return 1;
    for (unsigned j = 0; j < i; j++) {
        uint64_t f = uf2_get32(entry(s, j)), n = uf2_get32(entry(s, j) + UF2_ENTRY_SECTORS_AT);
        if (first < f + n && f < first + sectors) return 1;
    }
    unsigned link = e[UF2_ENTRY_LINK_AT], to = e[UF2_ENTRY_LINK_INDEX_AT];
    if (link > 2 || (link && (to >= i || entry(s, to)[UF2_ENTRY_LINK_AT] == UF2_LINK_B_OF))) return 1;
    if (e[UF2_ENTRY_USER_COUNT_AT] > 4) return 1;
    for (unsigned u = 0; u < e[UF2_ENTRY_USER_COUNT_AT]; u++) {
        uint32_t f = uf2_get32(e + UF2_ENTRY_USERS_AT + 4 * u);
        if (f >= UF2_FAMILY_RP2040 && f <= UF2_FAMILY_ARM_NS) return 1;
    }
    return 0;
}

static int bad_settings(const uint8_t *s, uf2_len n, uint64_t flash) {
    if (n != UF2_SETTINGS_SIZE) return 1;
    if (!s[s[UF2_SETTINGS_CURRENT_AT] ? UF2_SETTINGS_RISCV_AT : UF2_SETTINGS_ARM_AT]) return 1;
    if (s[UF2_SETTINGS_COUNT_AT] > 16) return 1;
    for (unsigned i = 0; i < s[UF2_SETTINGS_COUNT_AT]; i++)
        if (bad_entry(s, i, flash)) return 1;
    return 0;
}

static int bad_state(const uint8_t *t, uf2_len n) {
    if (n != UF2_TRANSFER_SIZE || t[0] > UF2_STATE_DONE || (t[0] && t[UF2_TRANSFER_KIND_AT] > 2)) return 1;
    uint32_t total = uf2_get32(t + UF2_TRANSFER_TOTAL_AT), count = uf2_get32(t + UF2_TRANSFER_COUNT_AT);
    if (t[0] == UF2_STATE_RUNNING) return count < 1 || count >= total || total > 131072;
    return t[0] == UF2_STATE_DONE && (total < 1 || total > 131072);
}

static int accepts(const uint8_t *e, uint32_t family) {
    if (family >= UF2_FAMILY_DATA && family <= UF2_FAMILY_ARM_NS) return e[UF2_ENTRY_DATA_AT + (family - UF2_FAMILY_DATA)];
    for (unsigned u = 0; u < e[UF2_ENTRY_USER_COUNT_AT]; u++)
        if (uf2_get32(e + UF2_ENTRY_USERS_AT + 4 * u) == family) return 1;
    return 0;
}

static int allows(const uint8_t *s, const uint8_t *e, uint32_t family, int pass) {
    int unowned = e[UF2_ENTRY_LINK_AT] == UF2_LINK_NONE, current = s[UF2_SETTINGS_CURRENT_AT] != 0;
    int arch = pass == 1 ? current : !current;
    if (pass == 4) return 1;
    if (pass == 3) return unowned;
    if (family != (arch ? UF2_FAMILY_RISCV : UF2_FAMILY_ARM_S) || !unowned || e[UF2_ENTRY_NOT_BOOTABLE_ARM_AT + arch]) return 0;
    return pass == 1 || (s[UF2_SETTINGS_AUTO_SWITCH_AT] && s[arch]);
}

static int place(const uint8_t *s, uint32_t family, uint64_t flash, uint64_t *start, uint64_t *len) {
    *start = 0;
    *len = flash;
    if (family == UF2_FAMILY_ABSOLUTE) return s[UF2_SETTINGS_ABSOLUTE_AT] != 0;
    if (family == UF2_FAMILY_RP2040) return 0;
    if (s[UF2_SETTINGS_COUNT_AT] == 0)
        return family == UF2_FAMILY_DATA || (family == UF2_FAMILY_ARM_S && s[0]) || (family == UF2_FAMILY_RISCV && s[1]);
    for (int pass = 1; pass <= 4; pass++)
        for (unsigned k = 0; k < s[UF2_SETTINGS_COUNT_AT]; k++) {
            const uint8_t *e = entry(s, k);
            if (e[UF2_ENTRY_LINK_AT] == UF2_LINK_B_OF || !accepts(e, family) || !allows(s, e, family, pass)) continue;
            *start = (uint64_t)uf2_get32(e) * 4096;
            *len = (uint64_t)uf2_get32(e + UF2_ENTRY_SECTORS_AT) * 4096;
            return 1;
        }
    return 0;
}

static uint32_t refuse(uint8_t *t, uint32_t answer) {
    (void)t;
    return answer;
}

uint32_t uf2_take(const uint8_t *s, uf2_len s_len, uint8_t *t, uf2_len t_len, const uint8_t *a, uf2_len a_len, uint8_t *flash, uf2_len flash_len, uint8_t *seen,
                  uf2_len seen_len, uint8_t *sectors, uf2_len sectors_len, uint8_t *main_ram, uf2_len main_ram_len, uint8_t *xip_ram, uf2_len xip_ram_len) {
    (void)main_ram;
    (void)xip_ram;
    if (a_len != 512 || flash_len < 4096 || flash_len > 33554432 || flash_len % 4096 || seen_len != 16384 || sectors_len != 1024) return 1;
    if (main_ram_len || xip_ram_len) return 1;
    if (bad_settings(s, s_len, flash_len)) return 2;
    if (bad_state(t, t_len)) return 3;
    uint32_t flags = uf2_get32(a + 8), address = uf2_get32(a + 12), size = uf2_get32(a + 16), number = uf2_get32(a + 20);
    uint32_t total = uf2_get32(a + 24), family = uf2_get32(a + 28);
    uint64_t start = 0, len = 0;
    if (uf2_get32(a) != 0x0A324655u || uf2_get32(a + 4) != 0x9E5D5157u || uf2_get32(a + 508) != 0x0AB16F30u) return refuse(t, 4);
    if (flags & 0x1000) return refuse(t, 5);
    if (flags & 0x1) return refuse(t, 6);
    if (!(flags & 0x2000)) return refuse(t, 7);
    int found = place(s, family, flash_len, &start, &len);
    if (!found) return refuse(t, 8);
    if (size != 256) return refuse(t, 9);
    if (total == 0 || (uint64_t)total * 256 > len || number >= total) return refuse(t, 10);
    if (address < 0x10000000u || address % 256 || (uint64_t)address + 256 > 0x10000000u + len) return refuse(t, 11);
    if (t[0] == UF2_STATE_DONE) return refuse(t, 12);
    int running = t[0] == UF2_STATE_RUNNING;
    int same = running && uf2_get32(t + UF2_TRANSFER_FAMILY_AT) == family && uf2_get32(t + UF2_TRANSFER_TOTAL_AT) == total && t[UF2_TRANSFER_KIND_AT] == 0;
    uint32_t count = same ? uf2_get32(t + UF2_TRANSFER_COUNT_AT) : 0;
    if (same && marked(seen, number)) return 13;
    if (!same) {
        memset(seen, 0, seen_len);
        memset(sectors, 0, sectors_len);
    }
    uint64_t at = start + address - 0x10000000u, sector = at / 4096;
    if (!marked(sectors, (uint32_t)sector)) memset(flash + sector * 4096, 0xFF, 4096);
    mark(sectors, (uint32_t)sector);
    memcpy(flash + at, a + 32, 256);
    mark(seen, number);
    count++;
    int done = count >= total;
    t[0] = done ? UF2_STATE_DONE : UF2_STATE_RUNNING;
    uf2_put32(t + UF2_TRANSFER_FAMILY_AT, family);
    uf2_put32(t + UF2_TRANSFER_TOTAL_AT, total);
    uf2_put32(t + UF2_TRANSFER_COUNT_AT, count);
    t[UF2_TRANSFER_KIND_AT] = 0;
    return (done ? 15u : 14u) + (running && !same ? 128u : 0u);
}
