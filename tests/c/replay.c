/* A file of two blocks, sent as 0, 0, 1 and recorded, replayed as a tool on a host does it: the stop, its index, and the end's transfer;
 * with what was recorded of the second changed, with the last piece one byte short, and the empty trace. */
#include <stdio.h>
#include <string.h>

#include "uf2_receiver.h"
#include "uf2_tools.h"

static uint8_t settings[UF2_SETTINGS_SIZE], trace[3 * UF2_RECORD_SIZE], flash[32768];
static uint8_t seen[UF2_SEEN_MAP_SIZE], sectors[UF2_SECTOR_MAP_SIZE];

static void told(const char *name, uf2_len trace_len) {
    uint8_t transfer[UF2_TRANSFER_SIZE], index[UF2_INDEX_SIZE], none = 0;
    uint32_t stop;
    size_t i;
    memset(index, 0xA5, sizeof index);
    memset(seen, 0xFF, sizeof seen);
    memset(sectors, 0xFF, sizeof sectors);
    stop = uf2_replay(settings, sizeof settings, trace, trace_len, flash, sizeof flash, seen, sizeof seen, sectors, sizeof sectors, &none, 0,
                      &none, 0, transfer, sizeof transfer, index, sizeof index);
    printf("%s: %u index", name, (unsigned)stop);
    for (i = 0; i < sizeof index; i++) {
        printf(" %02x", index[i]);
    }
    printf(" state %u seen %02x\n", transfer[0], seen[0]);
}

int main(void) {
    static uint8_t image[2 * UF2_MAKE_PAGE_SIZE], file[2 * UF2_MAKE_BLOCK_SIZE];
    static const uint8_t sent[3] = {0, 0, 1}, answered[3] = {14, 13, 15};
    size_t k;
    settings[UF2_SETTINGS_ARM_AT] = 1;
    uf2_make(image, sizeof image, UF2_FAMILY_ARM_S, 0x10000000u, file, sizeof file);
    for (k = 0; k < 3; k++) {
        trace[k * UF2_RECORD_SIZE] = UF2_RECORD(answered[k]);
        memcpy(trace + k * UF2_RECORD_SIZE + 1, file + sent[k] * UF2_MAKE_BLOCK_SIZE, UF2_MAKE_BLOCK_SIZE);
    }
    told("as recorded", sizeof trace);
    told("one byte short", sizeof trace - 1);
    told("empty", 0);
    trace[UF2_RECORD_SIZE] = 0x70;
    told("the second as 0x70", sizeof trace);
    trace[UF2_RECORD_SIZE] = 0x6a;
    told("the second as 0x6a", sizeof trace);
    printf("%02x\n", UF2_RECORD(14 + 128));
    return 0;
}
