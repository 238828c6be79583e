/* Faults: power lost, a flash that fails or lies, flipped bits, other files in between. Two loaders meet them: a careless one, which does what
 * it is named for and no more, and examples/loader. A row is a fault, met at every step and in every way; "right": the display said complete and
 * every byte of the flash is the file's or as before; WRONG: it said complete and a byte is not; "not yet": it did not say complete.
 *
 * A row that is WRONG by design is a lesson, marked *: it must not become 0. Every other row must have none. The figures are held to
 * tests/faults/faults.out; `faults all` runs every pair of steps and ways where power is lost twice, 367,192 runs in all. The flash is NOR: an
 * erase sets to 0xFF, a program only clears bits. Nothing here cuts the power of a real board.
 *
 *     gcc -std=c99 -O2 -Iinclude tests/faults/faults.c target/staticlib/lib*.a -o faults
 *
 * `faults short` meets every 13th step alone, in the same rows and ways. With FAULTS_BOARD that is all that there is: tests/board/run runs it
 * on emulated boards, and holds what they write to what the host writes.
 */
#include "../../examples/loader/loader.c"
#include "uf2_tools.h"

/* Writes a line; its last characters are LF and the zero. */
void say(const char *line);

#ifndef FAULTS_BOARD
#include <stdio.h>

void say(const char *line) {
    fputs(line, stdout);
}
#endif

#define SECTORS 8u
#define FLASH (SECTORS * UF2_SECTOR_SIZE)
#define N 64u         /* blocks of a file: sectors 2 to 5 */
#define FIRST 0x2000u /* where its first page goes */
#define STEPS 68      /* erases and programs of a file */
#define SENDS 4       /* how often a host sends a file, at most */
#define SHORT 13u     /* of how many steps the short run meets one; an erase comes every 17 */

static uint64_t seed;

static uint32_t any(void) {
    seed = seed * 6364136223846793005u + 1442695040888963407u;
    return (uint32_t)(seed >> 33);
}

/* ---- the flash and its faults. Every erase and every program is a step. */

enum when { NEVER, BEFORE, HALF, BITS, AFTER };
enum fault { CUT, FAIL_ONCE, FAIL_FOR_EVER, LIE_ONCE };

static uint8_t nor[FLASH], old[FLASH];
const uint8_t *const loader_flash = nor;
const uf2_len loader_flash_len = FLASH;

static long step, fault_at;
static int again; /* a file is sent again, and what that costs is counted */
static struct steps {
    long erases, programs;
} cost; /* of all runs of a row */
static enum when fault_when;
static enum fault fault;
static int dark;                     /* power is lost: nothing happens until the next start */
static struct loader_kept at_the_cut; /* what was kept then */

void loader_drop_cache(void) {}

static void erase_in(uint32_t sector, enum when w) {
    uint32_t i;
    for (i = 0; i < UF2_SECTOR_SIZE; i++)
        if (w == AFTER || (w == HALF && i < UF2_SECTOR_SIZE / 2))
            nor[sector + i] = 0xFF;
        else if (w == BITS)
            nor[sector + i] |= (uint8_t)any();
}

static void program_in(uint32_t page, const uint8_t *payload, enum when w) {
    uint32_t i;
    for (i = 0; i < UF2_PAYLOAD_SIZE; i++)
        if (w == AFTER || (w == HALF && i < UF2_PAYLOAD_SIZE / 2))
            nor[page + i] &= payload[i];
        else if (w == BITS)
            nor[page + i] &= (uint8_t)(payload[i] | any());
}

/* How far this step gets, and whether the driver says that it went well. */
static enum when reaches(int *good) {
    long n = step++;
    int hit = fault_when != NEVER && (fault == FAIL_FOR_EVER ? n >= fault_at : n == fault_at);
    *good = !hit || fault == LIE_ONCE;
    return hit ? fault_when : AFTER;
}

static int after_the_step(int good) {
    if (!good && fault == CUT) {
        dark = 1;
        at_the_cut = loader_kept;
    }
    return good;
}

int loader_erase(uint32_t sector) {
    int good;
    if (dark)
        return 0;
    cost.erases += again;
    erase_in(sector, reaches(&good));
    return after_the_step(good);
}

int loader_program(uint32_t page, const uint8_t *payload) {
    int good;
    if (dark)
        return 0;
    cost.programs += again;
    program_in(page, payload, reaches(&good));
    return after_the_step(good);
}

/* ---- the careless loader: a plan is performed, and where the driver says that it failed the transfer is dropped */

static int careless, goes_on, told_complete;

static uint32_t careless_block(const uint8_t *arrival) {
    uint8_t plan[UF2_PLAN_SIZE];
    uint32_t answer = UF2_RESULT_ANSWER(uf2_accept(settings, sizeof settings, loader_kept.transfer, sizeof loader_kept.transfer, arrival,
                                                   UF2_ARRIVAL_SIZE, nor, sizeof nor, loader_kept.seen, sizeof loader_kept.seen,
                                                   loader_kept.sectors, sizeof loader_kept.sectors, no_main_ram, 0, no_xip_ram, 0, plan, sizeof plan));
    uint32_t deed = uf2_get32(plan + UF2_PLAN_DEED_AT);
    int good = 1;
    if (deed == UF2_PLAN_ERASE)
        good = loader_erase(uf2_get32(plan + UF2_PLAN_SECTOR_AT));
    if (deed != UF2_PLAN_NOTHING)
        good = good && loader_program(uf2_get32(plan + UF2_PLAN_PAGE_AT), arrival + UF2_PAYLOAD_AT);
    if (!good && !goes_on) {
        uf2_new(loader_kept.transfer, sizeof loader_kept.transfer);
        return 0;
    }
    if (answer == UF2_ANSWER_COMPLETED)
        told_complete = 1;
    return answer;
}

static uint32_t block(const uint8_t *arrival) {
    return careless ? careless_block(arrival) : loader_block(arrival);
}

static int says_complete(void) {
    return careless ? told_complete || loader_kept.transfer[UF2_TRANSFER_STATE_AT] == UF2_STATE_DONE : loader_says() == LOADER_COMPLETE;
}

/* Power is on, with what was kept, or with any bytes. */
static void start(int kept) {
    uint32_t i;
    dark = 0;
    fault_when = NEVER;
    told_complete = 0;
    if (kept)
        loader_kept = at_the_cut;
    else
        for (i = 0; i < sizeof loader_kept; i++)
            ((uint8_t *)&loader_kept)[i] = (uint8_t)any();
    if (!careless)
        loader_start();
    else if (!kept)
        uf2_new(loader_kept.transfer, sizeof loader_kept.transfer);
}

static int failures;

/* ---- files, and how they are sent */

struct file {
    uint8_t block[N][UF2_ARRIVAL_SIZE], image[FLASH];
};

static struct file first, other_build, other_family, other_total, with_regions;

static void make(struct file *f, uint32_t family, uint32_t total, uint64_t content) {
    uint32_t k, i;
    memcpy(f->image, old, FLASH);
    memset(f->image + FIRST, 0xFF, N * 256u);
    seed = content;
    for (k = 0; k < N; k++) {
        uint8_t *a = f->block[k];
        uf2_put32(a, 0x0A324655u);
        uf2_put32(a + 4, 0x9E5D5157u);
        uf2_put32(a + 8, 0x2000u);
        uf2_put32(a + 12, UF2_FLASH_START + FIRST + 256u * k);
        uf2_put32(a + 16, UF2_PAYLOAD_SIZE);
        uf2_put32(a + 20, k);
        uf2_put32(a + 24, total);
        uf2_put32(a + 28, family);
        uf2_put32(a + 508, 0x0AB16F30u);
        for (i = 0; i < UF2_PAYLOAD_SIZE; i++)
            a[UF2_PAYLOAD_AT + i] = (uint8_t)any();
        memcpy(f->image + FIRST + 256u * k, a + UF2_PAYLOAD_AT, UF2_PAYLOAD_SIZE);
    }
}

/* The first file, with a region for each sector: the same pages, and answer 17 where a sector is whole. */
static void make_regions(void) {
    memcpy(with_regions.image, first.image, FLASH);
    if (uf2_make_regions(first.image + FIRST, N * 256u, UF2_FAMILY_ARM_S, UF2_FLASH_START + FIRST, with_regions.block[0],
                         sizeof with_regions.block) != UF2_MAKE_DONE)
        failures++;
}

static void shuffle(uint32_t *list, uint32_t n) {
    while (n > 1) {
        uint32_t j = any() % n, t = list[--n];
        list[n] = list[j];
        list[j] = t;
    }
}

/* The orders: 0 as numbered, 1 shuffled with 32 repeats, 2 the last first. */
static uint32_t order(int o, uint32_t *list) {
    uint32_t i, n = 0;
    for (i = 0; i < N; i++)
        list[n++] = o == 2 ? N - 1 - i : i;
    if (o == 1) {
        for (i = 0; i < 32; i++)
            list[n++] = any() % N;
        shuffle(list, n);
    }
    return n;
}

/* A file sent once, until power is lost or the flash fails. */
static void send(const struct file *f, int o) {
    uint32_t list[2 * N], i, n = order(o, list);
    for (i = 0; i < n; i++)
        if (block(f->block[list[i]]) == 0 || dark)
            return;
}

/* A host sends it until the display says complete, and not for ever. */
static void send_on(const struct file *f, int o) {
    int t;
    for (t = 0; t < SENDS && !says_complete(); t++)
        send(f, t == 0 ? o : 0);
}

static void begin(uint64_t s) {
    seed = s;
    memcpy(nor, old, FLASH);
    step = 0;
    start(0);
}

static void arm(enum fault f, long at, int when) {
    step = 0;
    fault = f;
    fault_at = at;
    fault_when = (enum when)when;
}

/* ---- what came of it */

static long runs, right, wrong, late;

static void judge(const struct file *f) {
    int is = memcmp(nor, f->image, FLASH) == 0;
    runs++;
    if (!says_complete())
        late++;
    else if (is)
        right++;
    else
        wrong++;
}

static char text[128];

/* A word at the left of a column, or at its right. */
static char *put(char *to, const char *word, uint32_t width, int at_the_right) {
    uint32_t n = (uint32_t)strlen(word), pad = width > n ? width - n : 0;
    memset(to, ' ', n + pad);
    memcpy(to + (at_the_right ? pad : 0), word, n);
    return to + n + pad;
}

static char *put_number(char *to, long n) {
    char digits[12];
    uint32_t i = sizeof digits - 1;
    digits[i] = 0;
    do
        digits[--i] = (char)('0' + n % 10);
    while (n /= 10);
    return put(to, digits + i, 8, 1);
}

static void head_of(const char *name, const char *const *columns, int n) {
    char *to = put(put(text, "", 2, 0), name, 76, 0);
    int i;
    for (i = 0; i < n; i++)
        to = put(to, columns[i], 8, 1);
    memcpy(to, "\n", 2);
    say(text);
}

static void head(const char *loader) {
    static const char *const columns[4] = {"runs", "right", "WRONG", "not yet"};
    head_of(loader, columns, 4);
}

/* What it cost to send a file again, over all runs of a row. */
static void tell_cost(const char *name, struct steps s) {
    char *to = put_number(put_number(put(put(text, "", 2, 0), name, 76, 0), s.erases), s.programs);
    memcpy(to, "\n", 2);
    say(text);
}

static void tell(const char *name, int lesson) {
    char *to = put(put(text, lesson ? "*" : "", 2, 0), name, 76, 0);
    to = put_number(put_number(put_number(put_number(to, runs), right), wrong), late);
    memcpy(to, "\n", 2);
    say(text);
    if ((wrong != 0) != lesson)
        failures++;
    runs = right = wrong = late = 0;
}

static uint32_t every = 1; /* of so many steps one is met */

/* Power lost at each step, in each way; then the file again. What that costs is returned. */
static struct steps cuts(const char *name, const struct file *f, int kept, int lesson) {
    int o, p, w;
    long k;
    cost.erases = cost.programs = 0;
    for (o = 0; o < 3; o++)
        for (p = 0; p < 3; p++)
            for (w = BEFORE; w <= AFTER; w++)
                for (k = 0; k < STEPS; k += every) {
                    begin(1000u * (uint64_t)o + 100u * (uint64_t)p + (uint64_t)w);
                    arm(CUT, k, w);
                    send(f, o);
                    start(kept);
                    again = 1;
                    send_on(f, p);
                    again = 0;
                    judge(f);
                }
    tell(name, lesson);
    return cost;
}

/* And lost again, at each step of the second sending; where not all is asked for, at every second one and in the way of the first. */
static int all;

static void cuts_twice(const char *name, int kept) {
    int o, w, x;
    long k, m;
    for (o = 0; o < 2; o++)
        for (w = BEFORE; w <= AFTER; w++)
            for (x = all ? BEFORE : w; x <= (all ? (int)AFTER : w); x++)
                for (k = 0; k < STEPS; k += every)
                    for (m = 0; m < STEPS; m += all ? 1 : every == 1 ? 2 : every) {
                        begin(50000u + 100u * (uint64_t)o + 10u * (uint64_t)w + (uint64_t)x);
                        arm(CUT, k, w);
                        send(&first, o);
                        start(kept);
                        arm(CUT, m, x);
                        send(&first, 1 - o);
                        if (!dark)
                            at_the_cut = loader_kept;
                        start(kept);
                        send_on(&first, o);
                        judge(&first);
                    }
    tell(name, 0);
}

/* The driver fails or lies at each step, in each way. */
static void driver(const char *name, enum fault f, int lesson) {
    int o, w;
    long k;
    for (o = 0; o < 3; o++)
        for (w = BEFORE; w <= (f == LIE_ONCE ? BITS : AFTER); w++)
            for (k = 0; k < STEPS; k += every) {
                begin(7000u + 10u * (uint64_t)o + (uint64_t)w);
                arm(f, k, w);
                send_on(&first, o);
                judge(&first);
            }
    tell(name, lesson);
}

/* One bit of what is kept flipped, before each arrival. */
static void flips(const char *name, int lesson) {
    uint32_t list[2 * N], at, bit, i, n;
    int o;
    for (o = 0; o < 2; o++)
        for (at = 0; at <= N; at += every)
            for (bit = 0; bit < 112 + N + SECTORS; bit += every) {
                begin(9000u + (uint64_t)o);
                n = order(o, list);
                if (at >= n)
                    continue;
                for (i = 0; i < n; i++) {
                    if (i == at && bit < 112)
                        loader_kept.transfer[bit / 8] ^= (uint8_t)(1u << bit % 8);
                    else if (i == at && bit < 112 + N)
                        loader_kept.seen[(bit - 112) / 8] ^= (uint8_t)(128u >> (bit - 112) % 8);
                    else if (i == at)
                        loader_kept.sectors[0] ^= (uint8_t)(128u >> (bit - 112 - N));
                    if (block(first.block[list[i]]) == 0)
                        break;
                }
                send_on(&first, 0);
                judge(&first);
            }
    tell(name, lesson);
}

/* The first file stopped after k blocks; then of another so many blocks, and the last file until it is complete. */
static void others(const char *name, const struct file *x, uint32_t blocks, const struct file *last, int lesson) {
    uint32_t list[2 * N], k, i, n;
    int o;
    for (o = 0; o < 3; o++)
        for (k = 0; k < N; k += every) {
            begin(20000u + (uint64_t)o);
            n = order(o, list);
            for (i = 0; i < n && i < k; i++)
                block(first.block[list[i]]);
            for (i = 0; i < blocks; i++)
                block(x->block[i]);
            if (last != x)
                told_complete = 0;
            send_on(last, o);
            judge(last);
        }
    tell(name, lesson);
}

/* A file with a region for each sector is right in the same faults, and saves steps: beside the plain file's. */
static void regions(struct steps plain) {
    static const char *const columns[2] = {"erases", "pages"};
    struct steps saving;
    head("a file with a region for each sector");
    careless = 1;
    cuts("a careless loader: power lost, RAM lost", &with_regions, 0, 0);
    careless = 0;
    saving = cuts("examples/loader: power lost, RAM lost", &with_regions, 0, 0);
    cuts("examples/loader: power lost, transfer and maps kept", &with_regions, 1, 0);
    head_of("what examples/loader erased and programmed again after RAM was lost", columns, 2);
    tell_cost("a plain file", plain);
    tell_cost("a file with a region for each sector", saving);
    if (saving.erases >= plain.erases || saving.programs >= plain.programs)
        failures++;
}

/* 0 where the rows that are lessons are WRONG, and no other, and a file with regions saves steps. */
static int faults(void) {
    struct steps plain;
    uint32_t i;
    seed = 1;
    for (i = 0; i < FLASH; i++)
        old[i] = (uint8_t)any();
    make(&first, UF2_FAMILY_ARM_S, N, 11);
    make(&other_build, UF2_FAMILY_ARM_S, N, 12);
    make(&other_family, UF2_FAMILY_DATA, N, 13);
    make(&other_total, UF2_FAMILY_ARM_S, N + 1, 14);
    make_regions();
    head("a careless loader");
    careless = 1;
    cuts("power lost, RAM lost", &first, 0, 0);
    cuts("power lost, transfer and maps kept, and used", &first, 1, 1);
    driver("the driver fails once, and the transfer is dropped", FAIL_ONCE, 0);
    goes_on = 1;
    driver("the driver fails once, and the loader goes on", FAIL_ONCE, 1);
    goes_on = 0;
    driver("the driver fails for ever", FAIL_FOR_EVER, 0);
    driver("the driver says that it went well, and did not", LIE_ONCE, 1);
    flips("a bit of transfer or maps flipped", 1);
    others("half of a file of another family in between", &other_family, N / 2, &first, 0);
    others("half of a file of another total in between", &other_total, N / 2, &first, 0);
    others("another build of the same size, after the first was stopped", &other_build, N, &other_build, 1);
    head("examples/loader");
    careless = 0;
    plain = cuts("power lost, RAM lost", &first, 0, 0);
    cuts_twice("the same, and lost again at steps of the second sending", 0);
    cuts("power lost, transfer and maps kept", &first, 1, 0);
    cuts_twice("the same, and lost again at steps of the second sending", 1);
    driver("the driver fails once", FAIL_ONCE, 0);
    driver("the driver fails for ever", FAIL_FOR_EVER, 0);
    driver("the driver says that it went well, and did not", LIE_ONCE, 0);
    flips("a bit of transfer or maps flipped", 0);
    others("half of a file of another family in between", &other_family, N / 2, &first, 0);
    others("half of a file of another total in between", &other_total, N / 2, &first, 0);
    others("another build of the same size, after the first was stopped", &other_build, N, &other_build, 0);
    others("half of another build of the same size in between", &other_build, N / 2, &first, 0);
    regions(plain);
    return failures != 0;
}

#ifdef FAULTS_BOARD
int main(void) {
    every = SHORT;
    return faults();
}
#else
int main(int argc, char **argv) {
    all = argc > 1 && strcmp(argv[1], "all") == 0;
    if (argc > 1 && strcmp(argv[1], "short") == 0)
        every = SHORT;
    return faults();
}
#endif
