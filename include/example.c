/* A file of two blocks from C, block 0 sent twice: looks at each block, prints the answer, and takes the block where the look says that
 * it would be accepted, 14 and 15, and not where it has come before, 13. The same for a file that goes to XIP RAM, and for one that
 * goes to main RAM, which this board lacks: 11 for each block. Then a small Universal Hex file, a line at a time, for a board V1: prints
 * 33 for its own data, 35 for the end and 34 for every other line, and that the image is whole. Then the same file into an image that
 * is too small for the data: 32 instead of 33, the same end, and the image is not whole.
 *
 *     gcc -std=c99 example.c $(pkg-config --cflags --libs vantorel) -o example
 *
 * In the repository, after `tools/target --host`:
 *
 *     gcc -std=c99 -Iinclude include/example.c target/staticlib/libvantorel.a -o example
 */
#include "vantorel.h"

#include <stdio.h>
#include <string.h>

#define FF8 "FFFFFFFFFFFFFFFF"

/* A section for V1, padded to 512 bytes, one for V2, and the end. */
static const char *const file[] = {
    ":020000040000FA\n",
    ":0400000A9900C0DEBB\n",
    ":10000000000102030405060708090A0B0C0D0E0F78\n",
    ":2000000C" FF8 FF8 FF8 FF8 "F4\n",
    ":2000000C" FF8 FF8 FF8 FF8 "F4\n",
    ":2000000C" FF8 FF8 FF8 FF8 "F4\n",
    ":2000000C" FF8 FF8 FF8 FF8 "F4\n",
    ":2000000C" FF8 FF8 FF8 FF8 "F4\n",
    ":0E00000C" FF8 "FFFFFFFFFFFFF4\n",
    ":0000000BF5\n",
    ":020000040000FA\n",
    ":0400000A9903C0DEB8\n",
    ":0400000D1122334445\n",
    ":0000000BF5\n",
    ":00000001FF\n",
};

static uint8_t settings[UF2_SETTINGS_SIZE], arrival[UF2_ARRIVAL_SIZE], flash[32768], xip_ram[UF2_XIP_RAM_SIZE];
static struct uf2_buffers board;

/* Block k of two from an address on, its payload filled with k + 1. */
static void block(uint32_t start, uint32_t k) {
    memset(arrival, 0, UF2_ARRIVAL_SIZE);
    uf2_put32(arrival, 0x0A324655u);
    uf2_put32(arrival + 4, 0x9E5D5157u);
    uf2_put32(arrival + 8, 0x2000u);
    uf2_put32(arrival + 12, start + 256u * k);
    uf2_put32(arrival + 16, 256u);
    uf2_put32(arrival + 20, k);
    uf2_put32(arrival + 24, 2u);
    uf2_put32(arrival + 28, UF2_FAMILY_ARM_S);
    memset(arrival + 32, (int)k + 1, 256);
    uf2_put32(arrival + 508, 0x0AB16F30u);
}

/* Sends the two blocks from an address on. Whether every take said what the look before it had said. */
static int blocks(uint32_t start) {
    static const uint32_t order[] = {0, 0, 1};
    struct uf2_outcome look, take;
    size_t i;

    uf2_restart(&board);
    for (i = 0; i < sizeof order / sizeof order[0]; i++) {
        block(start, order[i]);
        look = uf2_look_at(&board, flash, sizeof flash, arrival, sizeof arrival);
        printf("%u%s\n", (unsigned)look.answer, uf2_is_accepted(look) ? " taken" : "");
        if (!uf2_is_accepted(look))
            continue;
        /* nothing came between the look and the take, so the take says the same; had something come, it would say what is true then */
        take = uf2_take_into(&board, flash, sizeof flash, arrival, sizeof arrival);
        if (take.answer != look.answer || take.discarded != look.discarded)
            return 0;
    }
    return 1;
}

/* Whether a transfer of two blocks is done, and of which kind. */
static int done(enum uf2_kind kind) {
    return uf2_state_of(&board) == UF2_STATE_DONE && uf2_total_of(&board) == 2 && uf2_kind_of(&board) == kind;
}

/* Whether all went as it should. */
static int files(void) {
    struct uf2_place place;

    settings[UF2_SETTINGS_ARM_AT] = 1; /* Arm alone, no partition table */
    uf2_begin(&board, settings);
    board.xip_ram = xip_ram; /* main_ram stays null: this board has none */
    place = uf2_place_of(settings, sizeof flash, UF2_FAMILY_ARM_S);
    if (place.answer != UF2_ANSWER_FOUND || place.length != sizeof flash)
        return 0;
    if (!blocks(UF2_FLASH_START) || !done(UF2_KIND_FLASH) || flash[0] != 1 || flash[256] != 2 || flash[512] != 0xFF)
        return 0;
    /* in RAM any byte address will do, nothing is erased, and nothing but the payloads is written */
    memset(xip_ram, 0xEE, sizeof xip_ram);
    if (!blocks(UF2_XIP_RAM_START + 3) || !done(UF2_KIND_XIP_RAM))
        return 0;
    if (xip_ram[2] != 0xEE || xip_ram[3] != 1 || xip_ram[3 + 256] != 2 || xip_ram[3 + 512] != 0xEE || flash[0] != 1)
        return 0;
    return blocks(UF2_MAIN_RAM_START) && uf2_state_of(&board) == UF2_STATE_IDLE;
}

/* Reads the file into an image. Whether the image is whole: the last line ended the file, and no own data was left out of the image. */
static int lines(uint8_t *image, size_t image_len) {
    struct uhex_buffers hex;
    enum uhex_answer answer;
    uint32_t position;
    size_t i;

    uhex_begin(&hex, UHEX_BOARD_V1, image, image_len);
    for (i = 0; i < sizeof file / sizeof file[0]; i++) {
        answer = uhex_take_line(&hex, (const uint8_t *)file[i], strlen(file[i]), &position);
        printf("%u\n", (unsigned)answer);
        if (answer == UHEX_ANSWER_BAD_DIGIT)
            printf("bad character at %u\n", (unsigned)position);
        if (UHEX_ANSWER_IS_FAILURE(answer))
            break; /* nothing that follows can be read */
    }
    return uhex_is_whole(&hex);
}

int main(void) {
    uint8_t image[64];
    int good = files(), whole;

    memset(image, 0xEE, sizeof image);
    whole = lines(image, sizeof image);
    printf("image %s\n", whole ? "whole" : "not whole");
    good = good && whole && image[0] == 0 && image[15] == 15 && image[16] == 0xEE;

    memset(image, 0xEE, sizeof image);
    whole = lines(image, 15); /* the file's own data has 16 bytes */
    printf("image %s\n", whole ? "whole" : "not whole");
    good = good && !whole && image[0] == 0xEE;
    return good ? 0 : 1;
}
