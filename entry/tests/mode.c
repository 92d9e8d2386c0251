/*
 * The caller's floating-point mode: whatever it is, seals and bags get the answers of the default mode, and
 * it is the same after the call as before it. C and C++. Numbers are written by their bits, so that the test
 * itself computes nothing in the mode that it tries.
 *
 *     mode [flushing]         with the word, the program itself has to start in a mode that flushes to zero
 */
#include <stdio.h>
#include <string.h>

#include "snaldrek.h"

#define ZERO 0x0000000000000000u
#define LEAST 0x0000000000000001u        /* 5e-324 */
#define TINY 0x0000000000000400u         /* 2^-1064, below every normal number */
#define TWO_TO_MINUS_532 0x1eb0000000000000u
#define A_BIT 0x3c30000000000000u        /* 2^-60 */
#define ONE 0x3ff0000000000000u
#define ONE_TENTH 0x3fb999999999999au
#define THREE_TENTHS 0x3fd3333333333333u
#define THREE 0x4008000000000000u
#define NOT_A_NUMBER 0x7ff8000000000000u
#define UNTOUCHED 0xfff4000000000123u

struct trial {
    const char *what;
    uint8_t gate;
    uint64_t low, high, raw, gain, offset;
    uint32_t answer;
    uint64_t pull;
};

static const struct trial trials[] = {
    {"a product that rounds up", 2, THREE_TENTHS, THREE_TENTHS, ONE_TENTH, THREE, ZERO, 23, UNTOUCHED},
    {"a sum that rounds down", 2, ONE, ONE, ONE, ONE, A_BIT, 0, ONE},
    {"a limit that is not quite zero", 1, LEAST, ZERO, ZERO, ONE, ZERO, 23, UNTOUCHED},
    {"a reading that is not quite zero", 1, LEAST, ZERO, TINY, ONE, ZERO, 0, TINY},
    {"a product that is not quite zero", 1, LEAST, ZERO, TWO_TO_MINUS_532, TWO_TO_MINUS_532, ZERO, 0, TINY},
    {"a reading that is no number", 0, ZERO, ZERO, NOT_A_NUMBER, ONE, ZERO, 22, UNTOUCHED},
    {"a limit that is no number", 1, NOT_A_NUMBER, ZERO, ONE, ONE, ZERO, 21, UNTOUCHED},
    {"a gate of no kind", 3, ZERO, ZERO, ONE, ONE, ZERO, 20, UNTOUCHED},
};

static uint8_t ledger[SNALDREK_LEDGER_BYTES];
static uint8_t roll[SNALDREK_ROW_BYTES];
static uint8_t report[SNALDREK_REPORT_BYTES];
static int failures;

static uint32_t mode(void)
{
    uint32_t now;
    __asm__ volatile("stmxcsr %0" : "=m"(now));
    return now;
}

static void set_mode(uint32_t next) { __asm__ volatile("ldmxcsr %0" : : "m"(next)); }

static double number(uint64_t bits)
{
    double x;
    memcpy(&x, &bits, sizeof x);
    return x;
}

static void write_64(uint8_t *at, uint64_t bits)
{
    int i;
    for (i = 0; i < 8; i++)
        at[i] = (uint8_t)(bits >> (8 * i));
}

/* A bag with this seal and no case. The seal's body is its end. */
static void write_bag(uint8_t bag[36], const struct trial *t)
{
    static const uint8_t contents[11] = {1, 0, 1, 11, 0, 0, 0, 25, 0, 0, 0};
    memcpy(bag, contents, sizeof contents);
    bag[11] = t->gate;
    write_64(bag + 12, t->low);
    write_64(bag + 20, t->high);
    write_64(bag + 28, t->raw);
}

static void expect(int right, const char *what, const struct trial *t, uint32_t tried)
{
    if (right)
        return;
    failures++;
    printf("mode %04x, %s: %s\n", (unsigned)tried, t->what, what);
}

static void try_in(uint32_t tried, const struct trial *t)
{
    uint8_t bag[36];
    uint64_t bits = UNTOUCHED;
    double pull, gain = number(t->gain), offset = number(t->offset);
    uint32_t of_seal, of_bag, after_seal, after_bag, before = mode();
    write_bag(bag, t);
    memcpy(&pull, &bits, sizeof pull);
    set_mode(tried);
    of_seal = snaldrek_seal(bag + 11, 25, gain, offset, &pull);
    after_seal = mode();
    of_bag = snaldrek_bag(bag, sizeof bag, gain, offset, ledger, sizeof ledger, NULL, 0, roll, sizeof roll, report,
                          sizeof report);
    after_bag = mode();
    set_mode(before);
    memcpy(&bits, &pull, sizeof bits);
    expect(of_seal == t->answer, "the seal's answer", t, tried);
    expect(bits == t->pull, "the pull", t, tried);
    expect(after_seal == tried, "the mode after the seal", t, tried);
    expect(of_bag == t->answer, "the bag's answer", t, tried);
    expect(after_bag == tried, "the mode after the bag", t, tried);
}

/* Rounding in bits 13 and 14, flushing results in 15 and operands in 6, masks in 7 to 12, what was noted in
   0 to 5. Every rounding and flushing with all masks, with each one missing and with none. */
static void try_every_mode(const struct trial *t)
{
    uint32_t rounding, flushing, unmasked, masks;
    for (rounding = 0; rounding < 4; rounding++)
        for (flushing = 0; flushing < 4; flushing++)
            for (unmasked = 0; unmasked < 8; unmasked++) {
                masks = unmasked == 0 ? 0x3f : unmasked == 7 ? 0 : 0x3fu & ~(1u << (unmasked - 1));
                masks = rounding << 13 | (flushing & 1) << 15 | (flushing >> 1) << 6 | masks << 7;
                try_in(masks, t);
                try_in(masks | (0x3fu & (masks >> 7)), t);
            }
}

/* Mistakes of the caller: a null pointer of length 0 is an empty buffer, and a pull has to be somewhere. */
static void try_null(void)
{
    static const struct trial none = {"null pointers", 0, 0, 0, 0, 0, 0, 0, 0};
    double pull = 0;
    expect(snaldrek_open(NULL, 0, NULL, 0) == 51 + 256 * SNALDREK_BUFFER_LEDGER, "no ledger", &none, mode());
    expect(snaldrek_root(NULL, 0, NULL, 0) == 51 + 256 * SNALDREK_BUFFER_LEDGER, "no ledger's root", &none, mode());
    expect(snaldrek_root(ledger, sizeof ledger, NULL, 0) == 51 + 256 * SNALDREK_BUFFER_ROOT, "no root", &none, mode());
    expect(snaldrek_judge(NULL, 0, ledger, sizeof ledger, NULL, 0, NULL, 0) == 1, "no case", &none, mode());
    expect(snaldrek_close(ledger, sizeof ledger, NULL, 0, NULL, 0) == 2, "no roll", &none, mode());
    expect(snaldrek_seal(NULL, 0, 1, 0, &pull) == 20, "no body", &none, mode());
    expect(snaldrek_seal(NULL, 0, 1, 0, NULL) == 51 + 256 * SNALDREK_BUFFER_PULL, "no pull", &none, mode());
    expect(snaldrek_bag(NULL, 0, 1, 0, ledger, sizeof ledger, NULL, 0, NULL, 0, NULL, 0) ==
               51 + 256 * SNALDREK_BUFFER_REPORT, "no report", &none, mode());
    expect(snaldrek_bag(NULL, 0, 1, 0, ledger, sizeof ledger, NULL, 0, NULL, 0, report, sizeof report) == 20,
           "no bag", &none, mode());
    expect(snaldrek_hash(NULL, 0, NULL, 0) == 51 + 256 * SNALDREK_BUFFER_DIGEST, "no digest", &none, mode());
    expect(snaldrek_hash(NULL, 0, report, sizeof report) == 0 && report[0] == 0xe3 && report[31] == 0x55,
           "the SHA-256 of nothing", &none, mode());
    expect(snaldrek_tally(NULL, 0, 0) == 51 + 256 * SNALDREK_BUFFER_TALLY, "no tally", &none, mode());
    expect(snaldrek_day(NULL, 0, 0, 1, 0) == 53, "no list", &none, mode());
}

int main(int argc, char **argv)
{
    size_t i;
    if (argc > 1 && strcmp(argv[1], "flushing") == 0 && (mode() & 0x8040) != 0x8040) {
        printf("the program does not start in a mode that flushes to zero\n");
        return 2;
    }
    if (snaldrek_open(ledger, sizeof ledger, roll, sizeof roll) != SNALDREK_ACCEPTED)
        return 2;
    for (i = 0; i < sizeof trials / sizeof *trials; i++) {
        try_in(mode(), &trials[i]);
        try_every_mode(&trials[i]);
    }
    try_null();
    return failures > 0;
}
