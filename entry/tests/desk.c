/*
 * The desk. A sample's case is made a draft in both editions, with other bytes in all that is worked out: what is
 * written is that very case, and a fresh ledger accepts it. Each refusal is given at its place, alone and with all that
 * come after it; so are lengths that are not one edition's, and null pointers. A refusal changes no byte, and nothing
 * is ever written before the buffer or behind it.
 *
 *     desk BAG                a bag whose first case passes on a fresh ledger, of the first edition, its old notes
 *                             without a value
 */
#include <stdio.h>
#include <string.h>

#include "snaldrek.h"

#define FIRST SNALDREK_CASE_FIRST_EDITION_BYTES
#define SECOND SNALDREK_CASE_SECOND_EDITION_BYTES
#define LONGEST (FIRST + 1)

/* Where a case of the first edition has what is worked out, 32 bytes each: nullifiers, commitments, tags, then the old
   notes' addresses and the new notes' rho. */
static const size_t worked_out[] = {48, 80, 112, 144, 240, 272, 1866, 2934, 4010, 4114};

/* Its proof, behind which all stands earlier in the second edition; its public values, its notes and phi. */
#define PROOF 304
#define IN 0
#define OUT 8
#define OLD_NOTE_1 1834
#define OLD_NOTE_2 2902
#define OLD_NOTE_BYTES 1068
#define OLD_VALUE 64
#define POSITION 136
#define NEW_NOTE_1 3970
#define NEW_VALUE 32
#define PHI 4178

/* Up to two numbers that are put into a draft, each of so many bytes; and whether its second old note is then the first
   one, but for the top bits of the key. */
struct trial {
    const char *what;
    uint32_t number, place;
    struct {
        size_t at, bytes;
        uint64_t number;
    } put[2];
    int is_twice;
};

#define TOO_MUCH (SNALDREK_MONEY_MAX_ZATOSHI + 1)

/* In the order in which they are asked. */
#define TRIALS 11
static const struct trial trials[TRIALS] = {
    {"both public values", SNALDREK_BOTH_PUBLIC_VALUES, 0, {{IN, 8, 1}, {OUT, 8, 1}}, 0},
    {"too much in", SNALDREK_PUBLIC_VALUE_TOO_HIGH, 1, {{IN, 8, TOO_MUCH}, {OUT, 8, 0}}, 0},
    {"too much out", SNALDREK_PUBLIC_VALUE_TOO_HIGH, 2, {{IN, 8, 0}, {OUT, 8, TOO_MUCH}}, 0},
    {"one note twice", SNALDREK_NULLIFIERS_EQUAL, 0, {{0, 0, 0}, {0, 0, 0}}, 1},
    {"key 1", SNALDREK_OUT_OF_RANGE, 1, {{OLD_NOTE_1, 1, 0x10}, {0, 0, 0}}, 0},
    {"position 1", SNALDREK_OUT_OF_RANGE, 1, {{OLD_NOTE_1 + POSITION, 4, 1 << 29}, {0, 0, 0}}, 0},
    {"key 2", SNALDREK_OUT_OF_RANGE, 2, {{OLD_NOTE_2, 1, 0x80}, {0, 0, 0}}, 0},
    {"phi", SNALDREK_OUT_OF_RANGE, 3, {{PHI, 1, 0x10}, {0, 0, 0}}, 0},
    {"path 1", SNALDREK_PATH_WRONG, 1, {{OLD_NOTE_1 + OLD_VALUE, 8, 1}, {0, 0, 0}}, 0},
    {"path 2", SNALDREK_PATH_WRONG, 2, {{OLD_NOTE_2 + OLD_VALUE, 8, 1}, {0, 0, 0}}, 0},
    {"the balance", SNALDREK_NOT_BALANCED, 0, {{NEW_NOTE_1 + NEW_VALUE, 8, 1}, {0, 0, 0}}, 0},
};

#define BEFORE 64
static uint8_t bag[SNALDREK_BAG_MAX_BYTES], sample[FIRST], right[FIRST], draft[LONGEST];
static uint8_t room[BEFORE + LONGEST + BEFORE], untouched[sizeof room];
static uint8_t *const buffer = room + BEFORE;
static int failures;

static void expect(int is_right, const char *what, size_t length)
{
    if (is_right)
        return;
    failures++;
    printf("%s: %lu bytes\n", what, (unsigned long)length);
}

/* Where a byte of the first edition stands in a file of so many bytes. */
static size_t in_edition(size_t at, size_t length) { return at < PROOF ? at : at - (FIRST - length); }

/* The sample in an edition, and a draft of it with a byte in all that is worked out. */
static void write_draft(size_t length, int byte)
{
    size_t i;
    memcpy(right, sample, PROOF);
    memcpy(right + PROOF, sample + PROOF + (FIRST - length), length - PROOF);
    memset(draft, byte, sizeof draft);
    memcpy(draft, right, length);
    for (i = 0; i < sizeof worked_out / sizeof *worked_out; i++)
        memset(draft + in_edition(worked_out[i], length), byte, 32);
}

static void bend(const struct trial *t, size_t length)
{
    size_t i, k;
    for (i = 0; i < 2; i++)
        for (k = 0; k < t->put[i].bytes; k++)
            draft[in_edition(t->put[i].at, length) + k] = (uint8_t)(t->put[i].number >> (8 * k));
    if (t->is_twice) {
        memcpy(draft + in_edition(OLD_NOTE_2, length), draft + in_edition(OLD_NOTE_1, length), OLD_NOTE_BYTES);
        draft[in_edition(OLD_NOTE_2, length)] ^= 0xf0;
    }
}

/* The desk on a room that is filled with one byte. */
static uint32_t ask(const uint8_t *lent, size_t length, uint8_t *to, size_t to_length)
{
    memcpy(room, untouched, sizeof room);
    return snaldrek_write_case(lent, length, to, to_length);
}

static void expect_refused(uint32_t answer, const struct trial *t, size_t length)
{
    expect(answer == t->number + 256 * t->place, t->what, length);
    expect(memcmp(room, untouched, sizeof room) == 0, "the buffer after a refusal", length);
}

/* Only the buffer is written. */
static int is_written(size_t length)
{
    return memcmp(buffer, right, length) == 0 && memcmp(room, untouched, BEFORE) == 0 &&
           memcmp(buffer + length, untouched, sizeof room - BEFORE - length) == 0;
}

static uint32_t judge(const uint8_t *file, size_t length)
{
    uint8_t ledger[SNALDREK_LEDGER_BYTES], table[2 * SNALDREK_ROW_BYTES], roll[SNALDREK_ROW_BYTES];
    snaldrek_open(ledger, sizeof ledger, roll, sizeof roll);
    return snaldrek_judge(file, length, ledger, sizeof ledger, table, sizeof table, roll, sizeof roll);
}

static void try_written(size_t length)
{
    static const int bytes[] = {0, 0x5a, 0xff};
    size_t i;
    for (i = 0; i < sizeof bytes / sizeof *bytes; i++) {
        write_draft(length, bytes[i]);
        expect(ask(draft, length, buffer, length) == SNALDREK_ACCEPTED, "the draft", length);
        expect(is_written(length), "the case", length);
        expect(judge(buffer, length) == SNALDREK_ACCEPTED, "the case judged", length);
    }
}

/* Alone, and then with all that come after it. */
static void try_refused(size_t length)
{
    int i, with;
    for (with = 0; with < 2; with++) {
        write_draft(length, 0x5a);
        for (i = TRIALS - 1; i >= 0; i--) {
            if (!with)
                write_draft(length, 0x5a);
            bend(&trials[i], length);
            expect_refused(ask(draft, length, buffer, length), &trials[i], length);
        }
    }
}

/* Only where both lengths are those of one edition a case is written; and no null pointer is followed. */
static void try_lengths(size_t edition)
{
    static const struct trial misfit = {"the lengths", SNALDREK_WRONG_LENGTH, 0, {{0, 0, 0}, {0, 0, 0}}, 0};
    static const size_t lengths[] = {0, SECOND - 1, SECOND, SECOND + 1, FIRST - 1, FIRST, FIRST + 1};
    const size_t count = sizeof lengths / sizeof *lengths;
    size_t i, k;
    write_draft(edition, 0x5a);
    for (i = 0; i < count; i++)
        for (k = 0; k < count; k++)
            if (i != k || (lengths[i] != FIRST && lengths[i] != SECOND))
                expect_refused(ask(draft, lengths[i], buffer, lengths[k]), &misfit, lengths[k]);
    expect_refused(ask(NULL, 0, buffer, edition), &misfit, edition);
    expect_refused(ask(draft, edition, NULL, 0), &misfit, edition);
    expect_refused(ask(NULL, 0, NULL, 0), &misfit, edition);
}

int main(int argc, char **argv)
{
    static const size_t editions[] = {FIRST, SECOND};
    FILE *in = argc > 1 ? fopen(argv[1], "rb") : NULL;
    size_t i;
    if (!in || fread(bag, 1, sizeof bag, in) < 20 || snaldrek_read_32(bag + 16) != sizeof sample)
        return 2;
    memcpy(sample, bag + snaldrek_read_32(bag + 12), sizeof sample);
    memset(untouched, 0xa5, sizeof untouched);
    for (i = 0; i < sizeof editions / sizeof *editions; i++) {
        try_written(editions[i]);
        try_refused(editions[i]);
        try_lengths(editions[i]);
    }
    return failures > 0;
}
