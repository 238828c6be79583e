/* A loader to copy: it receives UF2 blocks into a flash that a driver writes, and says "complete" only once every block was compared with the
 * flash. docs/BOARD.md goes through it, docs/RELIABILITY.md has the faults that it was put through. */
#ifndef LOADER_H
#define LOADER_H

#include "uf2_receiver.h"
#include "uf2_stands.h"

/* ---- Yours. Offsets count from the start of the flash. The loader reads back what was written, so a driver need not. */
extern const uint8_t *const loader_flash; /* where the flash is mapped */
extern const uf2_len loader_flash_len;
int loader_erase(uint32_t sector);                         /* 4,096 bytes become 0xFF; 0 where it failed */
int loader_program(uint32_t page, const uint8_t *payload); /* 256 bytes; 0 where it failed */
void loader_drop_cache(void);                              /* the next reads see what was written */

/* ---- The loader */

/* What it may keep over a loss of power, in memory that keeps it. In plain RAM it is lost, and loader_start finds a sum that differs. */
struct loader_kept {
    uint8_t transfer[UF2_TRANSFER_SIZE], seen[UF2_SEEN_MAP_SIZE], sectors[UF2_SECTOR_MAP_SIZE];
    uint8_t pending; /* set before a call and cleared after its plan: where it is set at the start, neither can be trusted */
    uint32_t sum;    /* over transfer and maps */
};
extern struct loader_kept loader_kept;

/* The display's one word. Only LOADER_COMPLETE is green. */
enum loader_word { LOADER_EMPTY, LOADER_RECEIVING, LOADER_CHECKING, LOADER_COMPLETE, LOADER_FAILED };
enum loader_word loader_says(void);

void loader_start(void); /* power is on */
void loader_begin(void); /* a host was plugged in or ejected, or no block came for a second: the next block begins a file */

/* One block of 512 bytes: the answer to it, for the host, or 0 where the flash failed and the file has to be sent again. A host sends its file
 * until the display says complete: once to write it, and once more to compare it. */
uint32_t loader_block(const uint8_t *arrival);

#endif
