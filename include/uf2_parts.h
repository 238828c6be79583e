/* Figures of a fleet, made in pieces: the part of one trace, and two parts as one. Each function is proved to do what crates/partapi/specs says,
 * for every input; crates/trace_claims/specs/MergesClaims.antt says what parts that are merged come to.
 *
 * `tools/target --host` writes target/staticlib/libpartapi.a, for the machines that uf2_receiver.h names. It replays nothing: uf2_figures of
 * uf2_tools.h does. What uf2_tools.h says of slices and of what a library calls holds here too. */
#ifndef UF2_PARTS_H
#define UF2_PARTS_H

#include "uf2_len.h"

#ifdef __cplusplus
extern "C" {
#endif

/* A part is over a list of traces: UF2_PART_SIZE bytes, 24 numbers of 32 bits, each with the lowest byte first. A fresh part, over no trace, is all
 * zeros.
 *    0  the report over these traces, UF2_REPORT_SIZE bytes
 *   84  how many traces there are
 *   88  how many of them stopped as UF2_STOP_BAD
 *   92  how many of them stopped as UF2_STOP_DIFFERS */
#define UF2_PART_SIZE 96
#define UF2_PART_TRACES 84
#define UF2_PART_BAD 88
#define UF2_PART_DIFFERS 92

/* Writes the part of one trace: `report` is what uf2_figures left of a fresh report, `stop` is what it returned. The result is 0. It is
 * UF2_FIGURES_BAD_REPORT, and `part` stays, where the report is bad, `stop` is not in enum uf2_stop, or a slice has another length. */
uint32_t uf2_part_one(const uint8_t *report, uf2_len report_len, uint32_t stop, uint8_t *part, uf2_len part_len);

/* Writes to `part` the part over its traces and then those of `later`. The result is 0, or one of these, asked in this order, and `part` stays:
 *   UF2_FIGURES_BAD_REPORT  one of the two has a bad report, more stops than traces, figures of no trace, or another length
 *   UF2_FIGURES_TOO_MANY    both have more than 4,294,967,295 records together, or more than so many traces
 * Merge parts in any grouping; keep the order of the traces. Sums do not depend on the order, the end of the last trace does. */
uint32_t uf2_part_merge(uint8_t *part, uf2_len part_len, const uint8_t *later, uf2_len later_len);

#ifdef __cplusplus
}
#endif

#endif
