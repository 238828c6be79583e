/* Plays, and says for each call how many there were, how often each answer was given, and the hash. What it writes is the same on every
 * machine. Exit status 0 where every answer was met. */
#include "play.h"

/* Writes a line; its last characters are LF and the zero. */
void say(const char *line);

#ifdef BOARD_HOSTED
#include <stdio.h>

void say(const char *line) {
    fputs(line, stdout);
}
#endif

static char text[640];
static unsigned at;

static void put(const char *word) {
    while (*word)
        text[at++] = *word++;
}

static void put_number(uint32_t n) {
    char digits[10];
    unsigned i = 0;
    do
        digits[i++] = (char)('0' + n % 10);
    while (n /= 10);
    while (i > 0)
        text[at++] = digits[--i];
}

static void put_hash(uint64_t hash) {
    int i;
    for (i = 60; i >= 0; i -= 4)
        text[at++] = "0123456789abcdef"[hash >> i & 15u];
}

static void say_end(const char *name, const struct play_end *end) {
    uint32_t i;
    at = 0;
    put(name);
    put(" ");
    put_number(end->calls);
    put(" ");
    put_hash(end->hash);
    for (i = 0; i < 128; i++)
        if (end->answers[i] > 0) {
            put(" ");
            put_number(i);
            put(":");
            put_number(end->answers[i]);
        }
    if (end->discarded > 0) {
        put(" discarded:");
        put_number(end->discarded);
    }
    put("\n");
    text[at] = 0;
    say(text);
}

void play_call(enum play_kind kind, void (*call)(void)) {
    (void)kind;
    call();
}

int main(void) {
    int kind, good = play();
    for (kind = 0; kind < PLAY_KINDS; kind++)
        if (play_ends[kind].calls > 0)
            say_end(play_names[kind], &play_ends[kind]);
    say(good ? "every answer met\n" : "an answer or a reason was not met, or two calls differ that answer alike\n");
    return good ? 0 : 1;
}
