/* The play: pseudo-random inputs handed to every call, every answer and every lent byte hashed. play.c has the calls of
 * include/uf2_receiver.h, play_tools.c those of uf2_tags.h, uf2_tools.h and uf2_parts.h, play_kept.c those of uf2_store.h, uf2_why.h and
 * uf2_stands.h, * play_check.c that of uf2_check.h. It is the same on every machine, so that a library of another machine that gives the same hashes has answered as the host's does. */
#ifndef PLAY_H
#define PLAY_H

#include "uf2_receiver.h"

/* Calls of each kind. */
#ifndef PLAY_COUNT
#define PLAY_COUNT 20000
#endif

enum play_kind {
    PLAY_NEW, PLAY_ASK, PLAY_LOOK, PLAY_TAKE, PLAY_TAKE_ALL, PLAY_ACCEPT, PLAY_HEX_NEW, PLAY_LINE,
    PLAY_TAG_FIRST, PLAY_TAG, PLAY_TAG_FIND, PLAY_MAKE_CHECK, PLAY_MAKE, PLAY_MAKE_REGIONS, PLAY_MAKE_BLOCK, PLAY_MD5, PLAY_JOIN, PLAY_REPLAY, PLAY_FIGURES,
    PLAY_PART_ONE, PLAY_PART_MERGE,
    PLAY_STORE_WRITE, PLAY_STORE_READ, PLAY_WHY, PLAY_WHY_PLACE, PLAY_CHECK, PLAY_STANDS, PLAY_KINDS
};

extern const char *const play_names[PLAY_KINDS];

/* What came of the calls of one kind: the hash, their number, and how often each answer was given. */
struct play_end {
    uint64_t hash;
    uint32_t calls;
    uint32_t answers[128];
    uint32_t discarded;
};

extern struct play_end play_ends[PLAY_KINDS];

/* Makes a call: `call` takes its arguments from the play's own variables. main.c only calls it; figures.c measures it. */
void play_call(enum play_kind kind, void (*call)(void));

/* ---- for the parts of the play */

/* Any number, one of any size, one below n, and whether one chance in n came. C does not say which operand or argument comes first, so none of
 * these stands beside another in one expression, unless the other is chosen by it. */
uint32_t any(void);
uint32_t any_size(void);
uint32_t below(uint32_t n);
int one_in(uint32_t n);

/* Begins the calls of a kind; takes a word, or bytes, into its hash; counts a call by its answer. */
void begin(enum play_kind kind);
void go_on(enum play_kind kind);
void add(uint32_t word);
void add_bytes(const uint8_t *at, uint32_t n);
void count(uint32_t answer);
/* The same of a result that may have a discarded transfer. */
void count_result(uint32_t result);

void random_bytes(uint8_t *at, uint32_t n);

/* Whether every answer from one to another, but one, was given by the calls of a kind. */
int met(enum play_kind kind, uint32_t from, uint32_t to, uint32_t but);

/* A board as play.c makes them: settings, buffers and the lengths of a call. */
#define PLAY_FLASH_SIZE 32768u
#define PLAY_MORE 8u

struct play_buffers {
    uint8_t transfer[UF2_TRANSFER_SIZE + PLAY_MORE], flash[PLAY_FLASH_SIZE + PLAY_MORE], seen[UF2_SEEN_MAP_SIZE + PLAY_MORE];
    uint8_t sectors[UF2_SECTOR_MAP_SIZE + PLAY_MORE], main_ram[UF2_MAIN_RAM_SIZE + PLAY_MORE], xip_ram[UF2_XIP_RAM_SIZE + PLAY_MORE];
};

enum length { L_SETTINGS, L_TRANSFER, L_ARRIVAL, L_FLASH, L_SEEN, L_SECTORS, L_MAIN, L_XIP, LENGTHS };

/* The file that is being sent, and what the settings say of its family. */
struct play_file {
    uint32_t family, total, address, kind, place_start, place_len;
};

extern struct play_buffers board;
extern uint8_t settings[UF2_SETTINGS_SIZE + PLAY_MORE];
extern uint32_t lent[LENGTHS];
extern struct play_file file;

uint32_t any_family(void);
void make_settings(void);
void make_board(void);
void make_file(void);
void make_lengths(void);
/* What comes before call i of a kind, of which the latest had a result: now and then another board, file or transfer. */
void make_state(uint32_t i, uint32_t result);
/* Every byte of a board, and a fresh transfer. */
void fresh_board(void);
/* Makes a block of the file, of any number or of one. Its address. */
uint32_t make_arrival(uint8_t *at);
uint32_t make_block(uint8_t *at, uint32_t number);
/* What a block at an address can have changed, what every block can, and all. */
void add_block(const struct play_buffers *at, uint32_t address);
void add_small(const struct play_buffers *at);
void add_all(const struct play_buffers *at);

/* The parts of play_tools.c, play_kept.c and play_check.c. Whether each answer was given. */
int play_tools(void);
int play_kept(void);
int play_check(void);

/* Plays all kinds. Whether each answer that a call can give was given, uf2_accept with its plan performed did what uf2_take does, uf2_why answered
 * as uf2_look and uf2_why_place as uf2_ask, each store that was written was read, each file that uf2_check found valid completed, and uf2_stands refused
 * what a look with a fresh transfer does and told 95 of each block that was written. */
int play(void);

#endif
