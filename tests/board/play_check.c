/* The call of include/uf2_check.h: files of a few blocks, often with something of one or two of them wrong. A file that is found valid is then sent
 * backwards, and must complete. */
#include "play.h"

#include "uf2_check.h"

#define MOST 8u

static uint8_t sent[MOST * UF2_ARRIVAL_SIZE], told[UF2_TOLD_SIZE + PLAY_MORE];
static uint8_t cells[UF2_CHECK_CELLS_SIZE + PLAY_MORE], offsets[UF2_CHECK_OFFSETS_SIZE + PLAY_MORE];
static uf2_len sent_len, cells_len, offsets_len, told_len;
static uint32_t pieces, result;

/* The map of numbers is the board's seen map, which has its length. */
static void call_check(void) {
    result = uf2_check(settings, lent[L_SETTINGS], sent, sent_len, lent[L_FLASH], lent[L_MAIN], lent[L_XIP], board.seen, lent[L_SEEN], cells, cells_len,
                       offsets, offsets_len, told, told_len);
}

/* One field of a piece as another piece has it, or nearly so; a family or a total of its own; or a region. */
static void bend(void) {
    uint8_t *at = sent + UF2_ARRIVAL_SIZE * below(pieces), *other = sent + UF2_ARRIVAL_SIZE * below(pieces);
    uint32_t apart = below(514);
    switch (below(6)) {
    case 0:
        uf2_put32(at + 20, uf2_get32(other + 20));
        break;
    case 1:
        uf2_put32(at + 12, uf2_get32(other + 12) + (one_in(2) ? 0 : apart - 257));
        break;
    case 2:
        uf2_put32(at + 28, any_family());
        break;
    case 3:
        uf2_put32(at + 24, file.total + 1);
        break;
    case 4:
        uf2_put32(at + 12, one_in(2) ? UF2_MAIN_RAM_START : UF2_XIP_RAM_START);
        break;
    default:
        uf2_put32(at + 8, 0x6000u);
        uf2_put32(at + 484, UF2_FLASH_START);
        uf2_put32(at + 488, UF2_SECTOR_SIZE * (1 + below(2)));
    }
}

/* The blocks of the file from some number on, or all but the last. */
static void make_sent(void) {
    uint32_t i, first;
    pieces = file.total < MOST ? file.total : MOST;
    first = below(file.total);
    for (i = 0; i < pieces; i++)
        make_block(sent + UF2_ARRIVAL_SIZE * i, (first + i) % file.total);
    if (one_in(2))
        bend();
    if (one_in(8))
        bend();
    sent_len = UF2_ARRIVAL_SIZE * (one_in(8) ? pieces - 1 : pieces);
    if (one_in(40))
        sent_len = below((uint32_t)sent_len + 1);
}

static void make_room(void) {
    cells_len = UF2_CHECK_CELLS_SIZE + (one_in(60) ? 1 + below(PLAY_MORE) : 0);
    offsets_len = UF2_CHECK_OFFSETS_SIZE - (one_in(60) ? 1 + below(UF2_CHECK_OFFSETS_SIZE) : 0);
    told_len = UF2_TOLD_SIZE - (one_in(60) ? 1 + below(UF2_TOLD_SIZE) : 0);
    random_bytes(told, sizeof told);
    random_bytes(cells + below(UF2_CHECK_CELLS_SIZE - 64), 64);
    random_bytes(offsets + below(UF2_CHECK_OFFSETS_SIZE - 64), 64);
}

/* Every piece from the last on: only the first completes the file. */
static int completes(void) {
    uint32_t i, answer = 0;
    uf2_new(board.transfer, UF2_TRANSFER_SIZE);
    for (i = pieces; i-- > 0;) {
        if (answer == UF2_ANSWER_COMPLETED)
            return 0;
        answer = uf2_take(settings, lent[L_SETTINGS], board.transfer, UF2_TRANSFER_SIZE, sent + UF2_ARRIVAL_SIZE * i, UF2_ARRIVAL_SIZE, board.flash,
                          lent[L_FLASH], board.seen, lent[L_SEEN], board.sectors, UF2_SECTOR_MAP_SIZE, board.main_ram, lent[L_MAIN], board.xip_ram,
                          lent[L_XIP]);
    }
    return answer == UF2_ANSWER_COMPLETED;
}

static int empty(const uint8_t *map, uf2_len n) {
    uint32_t i;
    for (i = 0; i < n; i++)
        if (map[i] != 0)
            return 0;
    return 1;
}

int play_check(void) {
    uint32_t i;
    begin(PLAY_CHECK);
    fresh_board();
    for (i = 0; i < PLAY_COUNT; i++) {
        if (i % 16 == 0)
            make_board();
        make_file();
        make_lengths();
        make_sent();
        make_room();
        play_call(PLAY_CHECK, call_check);
        count(result);
        add_bytes(told, sizeof told);
        if (i % 64 == 0 && !(empty(board.seen, lent[L_SEEN]) && empty(cells, cells_len) && empty(offsets, offsets_len)))
            return 0;
        if (result == UF2_CHECK_VALID && !completes())
            return 0;
    }
    add_all(&board);
    return met(PLAY_CHECK, UF2_CHECK_VALID, UF2_CHECK_BAD_SETTINGS, 9) && met(PLAY_CHECK, UF2_ANSWER_NOT_BLOCK, UF2_ANSWER_BAD_ADDRESS, 6) &&
           met(PLAY_CHECK, UF2_CHECK_RAGGED, UF2_CHECK_GUARDED, 0);
}
