/* Parts of a fleet's figures: each of four traces as a part, merged in two groupings and beside one call after another; then every refusal. */
#include <stdio.h>
#include <string.h>

#include "uf2_parts.h"
#include "uf2_receiver.h"
#include "uf2_tools.h"

#define TRACES 4

static uint8_t settings[UF2_SETTINGS_SIZE], trace[3 * UF2_RECORD_SIZE], flash[32768];
static uint8_t seen[UF2_SEEN_MAP_SIZE], sectors[UF2_SECTOR_MAP_SIZE];
static uint8_t all[UF2_REPORT_SIZE], parts[TRACES][UF2_PART_SIZE];

static unsigned long number(const uint8_t *part, size_t at) {
    return part[at] | (unsigned long)part[at + 1] << 8 | (unsigned long)part[at + 2] << 16 | (unsigned long)part[at + 3] << 24;
}

static void told(const char *name, const uint8_t *part) {
    printf("%s: traces %lu bad %lu differs %lu records %lu marked %lu\n", name, number(part, UF2_PART_TRACES), number(part, UF2_PART_BAD),
           number(part, UF2_PART_DIFFERS), number(part, UF2_REPORT_RECORDS), number(part, UF2_REPORT_MARKED));
}

static uint32_t figures(uint8_t *report, uf2_len trace_len) {
    uint8_t index[UF2_INDEX_SIZE], none = 0;
    return uf2_figures(report, UF2_REPORT_SIZE, settings, sizeof settings, trace, trace_len, flash, sizeof flash, seen, sizeof seen, sectors,
                       sizeof sectors, &none, 0, &none, 0, index, sizeof index);
}

/* the part of a trace; and the trace added to the report over all */
static void mapped(const char *name, size_t k, uf2_len trace_len) {
    uint8_t report[UF2_REPORT_SIZE];
    uint32_t stop;
    memset(report, 0, sizeof report);
    stop = figures(report, trace_len);
    printf("%u ", (unsigned)uf2_part_one(report, sizeof report, stop, parts[k], UF2_PART_SIZE));
    told(name, parts[k]);
    figures(all, trace_len);
}

static uint32_t merge(uint8_t *part, const uint8_t *later) {
    return uf2_part_merge(part, UF2_PART_SIZE, later, UF2_PART_SIZE);
}

static void refused(const char *name, uint32_t answer, const uint8_t *was, const uint8_t *is) {
    printf("%s: %u%s\n", name, (unsigned)answer, memcmp(was, is, UF2_PART_SIZE) == 0 ? ", and it stays" : " CHANGED");
}

int main(void) {
    static uint8_t image[2 * UF2_MAKE_PAGE_SIZE], file[2 * UF2_MAKE_BLOCK_SIZE];
    static const uint8_t sent[3] = {0, 0, 1}, answered[3] = {14, 13, 15};
    uint8_t left[UF2_PART_SIZE], right[UF2_PART_SIZE], fresh[UF2_PART_SIZE], was[UF2_PART_SIZE], full[UF2_PART_SIZE];
    size_t k;
    settings[UF2_SETTINGS_ARM_AT] = 1;
    uf2_make(image, sizeof image, UF2_FAMILY_ARM_S, 0x10000000u, file, sizeof file);
    for (k = 0; k < 3; k++) {
        trace[k * UF2_RECORD_SIZE] = UF2_RECORD(answered[k]);
        memcpy(trace + k * UF2_RECORD_SIZE + 1, file + sent[k] * UF2_MAKE_BLOCK_SIZE, UF2_MAKE_BLOCK_SIZE);
    }
    mapped("as recorded", 0, sizeof trace);
    mapped("one byte short", 1, sizeof trace - 1);
    trace[2 * UF2_RECORD_SIZE] = UF2_RECORD(14);
    mapped("its last answer otherwise", 2, sizeof trace);
    mapped("empty", 3, 0);

    /* ((0 1) 2) 3, and 0 (1 (2 3)), with a fresh part on both sides */
    memset(fresh, 0, sizeof fresh);
    memcpy(left, fresh, sizeof left);
    for (k = 0; k < TRACES; k++) {
        if (merge(left, parts[k]) != 0) {
            return 1;
        }
    }
    memcpy(right, parts[2], sizeof right);
    if (merge(right, parts[3]) != 0 || merge(parts[1], right) != 0 || merge(parts[0], parts[1]) != 0 || merge(parts[0], fresh) != 0) {
        return 1;
    }
    told("merged", left);
    printf("%s, and %s\n", memcmp(left, parts[0], sizeof left) == 0 ? "the other grouping is the same" : "the other grouping DIFFERS",
           memcmp(left, all, sizeof all) == 0 ? "so is the report of one call after another" : "the report of one call after another DIFFERS");

    memcpy(was, left, sizeof was);
    memcpy(right, left, sizeof right);
    right[UF2_REPORT_DISCARDS] = 200;
    refused("more discards than records", merge(left, right), was, left);
    memcpy(right, left, sizeof right);
    right[UF2_PART_BAD] = 4;
    refused("more stops than traces", merge(left, right), was, left);
    memcpy(right, fresh, sizeof right);
    right[UF2_REPORT_MARKED] = 1;
    refused("an end of no trace", merge(left, right), was, left);
    refused("a later part of 95 bytes", uf2_part_merge(left, UF2_PART_SIZE, was, UF2_PART_SIZE - 1), was, left);
    memcpy(full, fresh, sizeof full);
    memset(full + UF2_REPORT_RECORDS, 0xFF, 4);
    memset(full + UF2_REPORT_COUNT(17), 0xFF, 4);
    full[UF2_PART_TRACES] = 1;
    memcpy(was, full, sizeof was);
    refused("more records than 32 bits hold", merge(full, left), was, full);
    memcpy(full, fresh, sizeof full);
    memset(full + UF2_PART_TRACES, 0xFF, 4);
    memcpy(was, full, sizeof was);
    refused("more traces than 32 bits hold", merge(full, left), was, full);
    refused("one trace that figures refused", uf2_part_one(all, sizeof all, UF2_FIGURES_TOO_MANY, full, sizeof full), was, full);
    refused("a part of 95 bytes", uf2_part_one(all, sizeof all, UF2_STOP_NONE, full, sizeof full - 1), was, full);
    return 0;
}
