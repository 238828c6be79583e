/* Figures of a board: the most stack that a call of each kind uses in the play, and the instructions of an arrival and of a line.
 *
 * Stack: each call runs on a stack of its own whose words were painted before; what is no longer painted was used, less what an empty
 * call uses. Instructions: the emulator is told to take one unit of time for each (-icount shift=0), and a clock of the machine is read;
 * how many instructions go to a tick is found by a loop whose number is known. */
#include "play.h"

#include <stddef.h>

void say(const char *line);
void *memcpy(void *to, const void *from, size_t n);
void *memset(void *to, int byte, size_t n);

/* ---- text */

static char text[128];
static unsigned at;

static void put(const char *word) {
    while (*word)
        text[at++] = *word++;
}

static void put_number(uint32_t n) {
    char digits[10];
    unsigned i = 0;
    do
        digits[i++] = (char)('0' + n % 10);
    while (n /= 10);
    while (i > 0)
        text[at++] = digits[--i];
}

static void say_row(const char *what, uint32_t n, const char *unit) {
    at = 0;
    put(what);
    put(": ");
    put_number(n);
    put(unit);
    put("\n");
    text[at] = 0;
    say(text);
}

/* ---- the machine */

#if defined __arm__
/* SysTick counts down in 24 bits */
#define SYST_CSR (*(volatile uint32_t *)0xE000E010u)
#define SYST_RVR (*(volatile uint32_t *)0xE000E014u)
#define SYST_CVR (*(volatile uint32_t *)0xE000E018u)
#define CLOCK_MASK 0xFFFFFFu

static void start_clock(void) {
    SYST_RVR = CLOCK_MASK;
    SYST_CVR = 0;
    SYST_CSR = 5;
}

static uint32_t clock_now(void) {
    return CLOCK_MASK - SYST_CVR;
}

static void loop(uint32_t n) { /* 2 n instructions */
    __asm__ volatile("1: subs %0, %0, #1\nbne 1b" : "+r"(n) : : "cc");
}

static void on_stack(void (*call)(void), uint32_t *top) {
    __asm__ volatile("mov r4, sp\nmov sp, %1\nblx %0\nmov sp, r4" : : "r"(call), "r"(top) : "r0", "r1", "r2", "r3", "r4", "r12", "lr", "cc", "memory");
}
#elif defined __riscv
#define CLOCK_MASK 0xFFFFFFFFu

static void start_clock(void) {}

static uint32_t clock_now(void) {
    uint32_t n;
    __asm__ volatile(".option push\n.option arch, +zicsr\ncsrr %0, minstret\n.option pop" : "=r"(n));
    return n;
}

static void loop(uint32_t n) {
    __asm__ volatile("1: addi %0, %0, -1\nbnez %0, 1b" : "+r"(n));
}

static void on_stack(void (*call)(void), uint32_t *top) {
    __asm__ volatile("mv s1, sp\nmv sp, %1\njalr %0\nmv sp, s1"
                     :
                     : "r"(call), "r"(top)
                     : "s1", "ra", "t0", "t1", "t2", "t3", "t4", "t5", "t6", "a0", "a1", "a2", "a3", "a4", "a5", "a6", "a7", "memory");
}
#elif defined __aarch64__
#define CLOCK_MASK 0xFFFFFFFFu

static void start_clock(void) {}

static uint32_t clock_now(void) {
    uint64_t n;
    __asm__ volatile("isb\nmrs %0, cntvct_el0" : "=r"(n));
    return (uint32_t)n;
}

static void loop(uint32_t n) {
    __asm__ volatile("1: subs %w0, %w0, #1\nb.ne 1b" : "+r"(n) : : "cc");
}

static void on_stack(void (*call)(void), uint32_t *top) {
    __asm__ volatile("mov x19, sp\nmov sp, %1\nblr %0\nmov sp, x19"
                     :
                     : "r"(call), "r"(top)
                     : "x0", "x1", "x2", "x3", "x4", "x5", "x6", "x7", "x8", "x9", "x10", "x11", "x12", "x13", "x14", "x15", "x16", "x17", "x18",
                       "x19", "x30", "cc", "memory");
}
#endif

/* ---- stack */

#define WORDS 4096u
#define PAINT 0xA5A5A5A5u

static uint32_t stack[WORDS] __attribute__((aligned(16)));
static uint32_t most[PLAY_KINDS], none;

static uint32_t used(void (*call)(void)) {
    uint32_t i;
    for (i = 0; i < WORDS; i++)
        stack[i] = PAINT;
    on_stack(call, stack + WORDS);
    for (i = 0; i < WORDS && stack[i] == PAINT; i++) {
    }
    return 4 * (WORDS - i);
}

static void nothing(void) {}

void play_call(enum play_kind kind, void (*call)(void)) {
    uint32_t n = used(call) - none;
    if (n > most[kind])
        most[kind] = n;
}

/* ---- instructions */

#define TIMES 1000u
#define KNOWN 1000000u

static uint32_t known_ticks;

static uint32_t ticks(void (*prepare)(void), void (*call)(void)) {
    uint32_t i, from = clock_now();
    for (i = 0; i < TIMES; i++) {
        prepare();
        call();
    }
    return (clock_now() - from) & CLOCK_MASK;
}

/* What the latest call answered. */
static uint32_t answer;

static void instructions(const char *what, uint32_t meant, void (*prepare)(void), void (*call)(void), uint32_t each) {
    uint64_t n;
    ticks(prepare, call); /* whatever the emulator does the first time */
    n = ticks(prepare, call);
    n -= ticks(prepare, nothing);
    say_row(what, (uint32_t)(n * (2 * KNOWN) / known_ticks / TIMES / each), answer == meant ? " instructions" : " instructions, but with another answer than is meant");
}

#define FLASH_SIZE 32768u
#define BLOCKS 16u

static uint8_t plain_settings[UF2_SETTINGS_SIZE], transfer[UF2_TRANSFER_SIZE], kept[UF2_TRANSFER_SIZE], arrivals[BLOCKS * UF2_ARRIVAL_SIZE], results[BLOCKS];
static uint8_t flash[FLASH_SIZE], seen[UF2_SEEN_MAP_SIZE], sectors[UF2_SECTOR_MAP_SIZE], xip_ram[UF2_XIP_RAM_SIZE];
static const uint8_t *arrival = arrivals;

static void take(void) {
    answer = uf2_take(plain_settings, sizeof plain_settings, transfer, sizeof transfer, arrival, UF2_ARRIVAL_SIZE, flash, sizeof flash, seen, sizeof seen, sectors,
                      sizeof sectors, xip_ram, 0, xip_ram, sizeof xip_ram);
}

static void take_all(void) {
    uf2_take_all(plain_settings, sizeof plain_settings, transfer, sizeof transfer, arrivals, sizeof arrivals, results, sizeof results, flash, sizeof flash, seen,
                 sizeof seen, sectors, sizeof sectors, xip_ram, 0, xip_ram, sizeof xip_ram);
    answer = results[BLOCKS - 1];
}

/* A running transfer of which block 1 is the next, its sector erased, or not, or a new one. */
static void before_page(void) {
    memcpy(transfer, kept, sizeof transfer);
    seen[0] = 0x80;
}

static void before_sector(void) {
    before_page();
    sectors[0] = 0;
}

static void before_file(void) {
    uf2_new(transfer, sizeof transfer);
}

static void before_again(void) {}

static void make_blocks(void) {
    uint32_t k;
    for (k = 0; k < BLOCKS; k++) {
        uint8_t *to = arrivals + UF2_ARRIVAL_SIZE * k;
        uf2_put32(to, 0x0A324655u);
        uf2_put32(to + 4, 0x9E5D5157u);
        uf2_put32(to + 8, 0x2000u);
        uf2_put32(to + 12, UF2_FLASH_START + 256u * k);
        uf2_put32(to + 16, 256u);
        uf2_put32(to + 20, k);
        uf2_put32(to + 24, BLOCKS + 1);
        uf2_put32(to + 28, UF2_FAMILY_ARM_S);
        memset(to + 32, (int)k, 256);
        uf2_put32(to + 508, 0x0AB16F30u);
    }
}

/* Block 0 is there. */
static void begin_file(void) {
    uf2_new(transfer, sizeof transfer);
    arrival = arrivals;
    take();
    memcpy(kept, transfer, sizeof kept);
    arrival = arrivals + UF2_ARRIVAL_SIZE;
}

/* 16 entries, of which the family's is the last. */
static void make_table(void) {
    uint32_t k;
    memset(plain_settings, 0, sizeof plain_settings);
    plain_settings[UF2_SETTINGS_ARM_AT] = 1;
    plain_settings[UF2_SETTINGS_COUNT_AT] = UF2_MAX_ENTRIES;
    for (k = 0; k < UF2_MAX_ENTRIES; k++) {
        uf2_put32(plain_settings + UF2_SETTINGS_ENTRY_AT(k) + UF2_ENTRY_FIRST_AT, k);
        uf2_put32(plain_settings + UF2_SETTINGS_ENTRY_AT(k) + UF2_ENTRY_SECTORS_AT, 1);
        plain_settings[UF2_SETTINGS_ENTRY_AT(k) + UF2_ENTRY_ARM_S_AT] = k == UF2_MAX_ENTRIES - 1;
    }
}

static uint8_t reader[UHEX_READER_SIZE], reader_kept[UHEX_READER_SIZE], image[1024];
static const char *line;
static uint32_t line_len;

static void read_line(void) {
    answer = uhex_line(reader, sizeof reader, (const uint8_t *)line, line_len, image, sizeof image);
}

static void before_line(void) {
    memcpy(reader, reader_kept, sizeof reader);
}

static void set_line(const char *words) {
    line = words;
    for (line_len = 0; words[line_len]; line_len++) {
    }
}

static void lines(void) {
    uhex_new(UHEX_BOARD_V1, reader, sizeof reader);
    set_line(":020000040000FA\n");
    read_line();
    set_line(":0400000A9900C0DEBB\n");
    read_line();
    memcpy(reader_kept, reader, sizeof reader);
    set_line(":10000000000102030405060708090A0B0C0D0E0F78\n");
    instructions("a line of 16 data bytes, stored", UHEX_ANSWER_STORED, before_line, read_line, 1);
    set_line(":20000000000102030405060708090A0B0C0D0E0F000102030405060708090A0B0C0D0E0FF0\n");
    instructions("a line of 32 data bytes, stored", UHEX_ANSWER_STORED, before_line, read_line, 1);
}

static uint8_t one_flash[16 * UF2_SECTOR_SIZE];

static void take_16(void) {
    answer = uf2_take(plain_settings, sizeof plain_settings, transfer, sizeof transfer, arrival, UF2_ARRIVAL_SIZE, one_flash, sizeof one_flash, seen, sizeof seen,
                      sectors, sizeof sectors, xip_ram, 0, xip_ram, sizeof xip_ram);
}

void uf2_md5(const uint8_t *bytes, uf2_len bytes_len, uint8_t *digest, uf2_len digest_len);

/* Block 1 names its sector, with the digest of what stands there. */
static void name_region(void) {
    uint8_t *block = arrivals + UF2_ARRIVAL_SIZE;
    uf2_put32(block + 8, 0x6000u);
    uf2_put32(block + 484, UF2_FLASH_START);
    uf2_put32(block + 488, UF2_SECTOR_SIZE);
    uf2_md5(flash, UF2_SECTOR_SIZE, block + 492, 16);
}

/* A file that fills the last of 16 entries, of which block 0 is there. */
static void begin_in_table(void) {
    uint32_t k;
    make_table();
    for (k = 0; k < BLOCKS; k++)
        uf2_put32(arrivals + UF2_ARRIVAL_SIZE * k + 24, BLOCKS);
    uf2_new(transfer, sizeof transfer);
    arrival = arrivals;
    take_16();
    memcpy(kept, transfer, sizeof kept);
    arrival = arrivals + UF2_ARRIVAL_SIZE;
}

static void arrivals_taken(void) {
    make_blocks();
    plain_settings[UF2_SETTINGS_ARM_AT] = 1;
    begin_file();
    instructions("an arrival, stored in an erased sector", UF2_ANSWER_WRITTEN, before_page, take, 1);
    instructions("an arrival that erases its sector", UF2_ANSWER_WRITTEN, before_sector, take, 1);
    instructions("an arrival that has come before", UF2_ANSWER_AGAIN, before_again, take, 1);
    name_region();
    instructions("an arrival that is kept, a region of 4 KiB", UF2_ANSWER_KEPT, before_page, take, 1);
    make_blocks();
    arrival = arrivals;
    instructions("an arrival that begins a file: both maps cleared, a sector erased", UF2_ANSWER_WRITTEN, before_file, take, 1);
    instructions("an arrival of 16 in one call, the first as above", UF2_ANSWER_WRITTEN, before_file, take_all, BLOCKS);
    begin_in_table();
    instructions("an arrival, stored in an erased sector, 16 entries", UF2_ANSWER_WRITTEN, before_page, take_16, 1);
}

int main(void) {
    uint32_t from, now;
    int kind;
    none = used(nothing);
    play();
    for (kind = 0; kind < PLAY_KINDS; kind++)
        if (play_ends[kind].calls > 0)
            say_row(play_names[kind], most[kind], " bytes of stack");
    start_clock();
    loop(KNOWN);
    from = clock_now();
    loop(KNOWN);
    now = clock_now();
    known_ticks = (now - from) & CLOCK_MASK;
    say_row("a million turns of two instructions", known_ticks, " ticks");
    arrivals_taken();
    lines();
    return 0;
}
