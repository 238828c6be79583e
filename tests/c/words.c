/* The words of vantorel_words.h: every number is its constant's, and a reason is a sentence. Prints every reason with numbers that tell which one was
 * filled in; rust/cli/tests/process/words.rs holds what is printed, words.out, to what the Rust library says. */
#include "vantorel_words.h"

#include <stdio.h>
#include <string.h>

/* a row's number is its constant, its name is not empty, and its words are a sentence without a full stop */
#define HELD(number, CONSTANT, name, words) \
    if ((uint32_t)(CONSTANT) != (number) || sizeof name < 3 || sizeof words < 9 || words[sizeof words - 2] == '.') \
        return number;
#define COUNTED(number, CONSTANT, name, words) +1
#define REASON(number, CONSTANT, name, words) told(number, 4097, 8193);

static int rows(void) {
    UF2_ANSWER_TABLE(HELD)
    UHEX_ANSWER_TABLE(HELD)
    UF2_CHECKED_TABLE(HELD)
    UF2_MAKE_ANSWER_TABLE(HELD)
    UF2_STORE_ANSWER_TABLE(HELD)
    UF2_TAG_ANSWER_TABLE(HELD)
    UF2_FIGURES_REFUSAL_TABLE(HELD)
    UF2_CAUSE_TABLE(HELD)
    return 0;
}

static void told(uint32_t cause, uint64_t got, uint64_t against) {
    struct uf2_reason reason;
    char text[512];
    uf2_len len;

    memset(&reason, 0, sizeof reason);
    reason.cause = cause;
    reason.got = got;
    reason.against = against;
    reason.entry = 3;
    reason.other = 5;
    reason.marks[0] = UF2_MARK_B_OF;
    reason.marks[15] = UF2_MARK_NOT_ACCEPTING;
    len = uf2_reason_words(&reason, text, sizeof text);
    printf("%u %s\n", (unsigned)cause, len == strlen(text) ? text : "A WRONG LENGTH");
}

/* A text without room has the beginning, a 0 at its end, and the length of the whole. */
static int without_room(void) {
    struct uf2_reason reason;
    char text[8], whole[512];
    uf2_len len;

    memset(&reason, 0, sizeof reason);
    reason.cause = UF2_CAUSE_NO_SECTORS;
    memset(text, 'x', sizeof text);
    len = uf2_reason_words(&reason, whole, sizeof whole);
    return uf2_reason_words(&reason, text, 5) == len && memcmp(text, "part", 5) == 0 && text[5] == 'x' && uf2_reason_words(&reason, text, 0) == len &&
           text[0] == 'p' && uf2_reason_words(&reason, text, 1) == len && text[0] == 0;
}

int main(void) {
    uint64_t pass;
    int bad = rows();

    if (bad != 0) {
        printf("a row of number %d is wrong\n", bad);
        return 1;
    }
    if (strcmp(uf2_answer_name(14), "Written") != 0 || strcmp(uf2_answer_name(6), "Unknown") != 0 || strcmp(uhex_answer_name(22), "BadDigit") != 0 ||
        strcmp(uf2_answer_words(14), "stored, others are missing") != 0 || strcmp(uf2_cause_words(212), "an unknown number") != 0 || !without_room())
        return 1;
    told(UF2_PLACE_ABSOLUTE, 0, 0);
    told(UF2_PLACE_NO_TABLE, 0, 0);
    for (pass = 1; pass <= 4; pass++)
        told(UF2_PLACE_ENTRY, pass, 0);
    UF2_CAUSE_TABLE(REASON)
    told(UF2_CAUSE_SEEN_LENGTH, 1, 0);
    told(UF2_CAUSE_RP2040, UF2_FAMILY_RP2040, 0);
    told(UF2_CAUSE_RESERVED_USER, UF2_FAMILY_ARM_NS, UF2_FAMILY_RP2040);
    told(UF2_CAUSE_PAST_WINDOW, UINT64_MAX, UF2_MAIN_RAM_END);
    told(UF2_CAUSE_NO_WINDOW, UF2_MAIN_RAM_START, UF2_FLASH_END);
    told(UF2_CAUSE_NO_WINDOW, UF2_MAIN_RAM_END, UF2_FLASH_END);
    told(UF2_CAUSE_NO_WINDOW, UF2_XIP_RAM_START, UF2_FLASH_END);
    printf("%d causes\n", 0 UF2_CAUSE_TABLE(COUNTED));
    return 0;
}
