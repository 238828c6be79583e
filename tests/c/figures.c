/* A report over traces of a file of two blocks, as a tool on a host makes it: the whole trace, one cut short, the empty one, and both
 * refusals. */
#include <stdio.h>
#include <string.h>

#include "uf2_receiver.h"
#include "uf2_tools.h"

static uint8_t settings[UF2_SETTINGS_SIZE], trace[3 * UF2_RECORD_SIZE], flash[32768], report[UF2_REPORT_SIZE];
static uint8_t seen[UF2_SEEN_MAP_SIZE], sectors[UF2_SECTOR_MAP_SIZE];

static unsigned long number(size_t at) {
    return report[at] | (unsigned long)report[at + 1] << 8 | (unsigned long)report[at + 2] << 16 | (unsigned long)report[at + 3] << 24;
}

static void told(const char *name, uf2_len trace_len) {
    uint8_t index[UF2_INDEX_SIZE], none = 0;
    uint32_t result;
    unsigned answer;
    memset(index, 0, sizeof index);
    result = uf2_figures(report, sizeof report, settings, sizeof settings, trace, trace_len, flash, sizeof flash, seen, sizeof seen, sectors,
                         sizeof sectors, &none, 0, &none, 0, index, sizeof index);
    printf("%s: %u index %u records %lu", name, (unsigned)result, index[0], number(UF2_REPORT_RECORDS));
    for (answer = 1; answer <= 17; answer++) {
        if (answer != 6 && number(UF2_REPORT_COUNT(answer)) != 0) {
            printf(" %u:%lu", answer, number(UF2_REPORT_COUNT(answer)));
        }
    }
    printf(" discards %lu marked %lu", number(UF2_REPORT_DISCARDS), number(UF2_REPORT_MARKED));
    if (number(UF2_REPORT_IS_MISSING) != 0) {
        printf(" missing %lu", number(UF2_REPORT_MISSING));
    }
    printf("\n");
}

/* An index of another length stays, and all else is as with one of 8 bytes. */
static void short_index(void) {
    uint8_t index[UF2_INDEX_SIZE] = {7, 7, 7, 7, 7, 7, 7, 7}, none = 0;
    uint32_t result;
    memset(report, 0, sizeof report);
    result = uf2_figures(report, sizeof report, settings, sizeof settings, trace, sizeof trace - 1, flash, sizeof flash, seen, sizeof seen, sectors,
                         sizeof sectors, &none, 0, &none, 0, index, sizeof index - 1);
    printf("an index of 7 bytes: %u, %u %u, records %lu\n", (unsigned)result, index[0], index[6], number(UF2_REPORT_RECORDS));
}

int main(void) {
    static uint8_t image[2 * UF2_MAKE_PAGE_SIZE], file[2 * UF2_MAKE_BLOCK_SIZE];
    static const uint8_t sent[3] = {0, 0, 1}, answered[3] = {14, 13, 15};
    size_t k;
    settings[UF2_SETTINGS_ARM_AT] = 1;
    uf2_make(image, sizeof image, UF2_FAMILY_ARM_S, 0x10000000u, file, sizeof file);
    for (k = 0; k < 3; k++) {
        trace[k * UF2_RECORD_SIZE] = UF2_RECORD(answered[k]);
        memcpy(trace + k * UF2_RECORD_SIZE + 1, file + sent[k] * UF2_MAKE_BLOCK_SIZE, UF2_MAKE_BLOCK_SIZE);
    }
    told("as recorded", sizeof trace);
    told("one byte short", sizeof trace - 1);
    told("empty", 0);
    report[UF2_REPORT_DISCARDS] = 6;
    told("more discards than records", sizeof trace);
    memset(report, 0, sizeof report);
    memset(report + UF2_REPORT_RECORDS, 0xFF, 4);
    memset(report + UF2_REPORT_COUNT(17), 0xFF, 4);
    told("no room for a record", UF2_RECORD_SIZE);
    told("no whole record", UF2_RECORD_SIZE - 1);
    short_index();
    return 0;
}
