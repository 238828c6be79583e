/* One Universal Hex file from two plain ones, as a tool on a host calls it: the result's parts for right and refused files, and the first and
 * last lines of what is written. */
#include <stdio.h>
#include <string.h>

#include "uf2_tools.h"

static uint8_t output[1037];

/* Joins two texts into so many bytes, and prints the result's parts. */
static uint64_t join(const char *v1, const char *v2, size_t output_len) {
    uint64_t result;
    memset(output, '.', sizeof output);
    result = uhex_join((const uint8_t *)v1, strlen(v1), (const uint8_t *)v2, strlen(v2), output, output_len);
    printf("answer %u position %u board %u line or length %u\n", (unsigned)UHEX_JOIN_ANSWER(result), (unsigned)UHEX_JOIN_POSITION(result),
           (unsigned)UHEX_JOIN_BOARD(result), (unsigned)UHEX_JOIN_LINE(result));
    return result;
}

int main(void) {
    const char *one = ":010000005AA5\n:00000001FF\n", *two = ":020000021001EB\r\n:04FFEE000102030405\r\n:00000001FF";
    uint64_t result = join(one, two, sizeof output);
    size_t n = (size_t)UHEX_JOIN_LENGTH(result);
    printf("%.46s", (const char *)output);
    printf("%.80s", (const char *)output + 512);
    printf("%.12s", (const char *)output + n - 12);
    printf("%lu %c\n", (unsigned long)n, output[n]);
    /* refused: V1's 01 is missing, a bad digit of V2's second line, a line after V2's 01, no data byte, a room of one byte less */
    join(":010000005AA5\n", "x", sizeof output);
    join(one, ":010000005AA5\n:0100000Z5AA5\n", sizeof output);
    join(one, ":010000005AA5\n:00000001FF\n\n", sizeof output);
    join(one, ":00000001FF\n", sizeof output);
    /* V1's file is asked whole before V2's first line, and both before the output */
    join(":00000001FF\n", "x", sizeof output);
    join(":00000001FF\n", ":00000001FF\n", 0);
    join(one, ":00000001FF\n", 0);
    join(one, two, n - 1);
    printf("%c\n", output[0]);
    return 0;
}
