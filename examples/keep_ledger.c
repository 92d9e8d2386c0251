/*
 * A host in C that keeps its ledger in a file and loses nothing when the power goes: judges the cases of a
 * bag one by one, and answers each only after the ledger that it left is stored.
 *
 *     keep_ledger STORE BAG       STORE is made where there is none
 *
 * The file has two slots, written by turns. A slot is a head of 48 bytes (the SHA-256 of all that follows,
 * the slot's turn, the length of the rest) and then the ledger's bytes, its table and its roll. The head is
 * written last. A slot that was torn does not check, and the other one, which is older by one turn, is taken.
 * A whole slot is written for each accepted case, so table and roll have far from all the room that there can be.
 */
#define _POSIX_C_SOURCE 200809L
#include <fcntl.h>
#include <inttypes.h>
#include <stdio.h>
#include <string.h>
#include <unistd.h>

#include "snaldrek.h"

#define TURN SNALDREK_DIGEST_BYTES
#define LENGTH (TURN + 8)
#define LEDGER (LENGTH + 8)
#define TABLE (LEDGER + SNALDREK_LEDGER_BYTES)
#define TABLE_BYTES (2048 * SNALDREK_ROW_BYTES)
#define ROLL (TABLE + TABLE_BYTES)
#define ROLL_BYTES (1024 * SNALDREK_ROW_BYTES)
#define SLOT (ROLL + ROLL_BYTES)
#define PATH_BYTES 4096

static uint8_t slot[SLOT], other[SLOT];
static uint8_t bag[SNALDREK_BAG_MAX_BYTES + 1];

/* Say what failed, and give the exit status for it. */
static int failed(const char *what)
{
    perror(what);
    return 2;
}

static int not_printed(void)
{
    perror("standard output");
    return 1;
}

static void put_64(uint8_t *at, uint64_t number)
{
    int i;
    for (i = 0; i < 8; i++)
        at[i] = (uint8_t)(number >> (8 * i));
}

static void digest_of(const uint8_t *image, uint8_t digest[SNALDREK_DIGEST_BYTES])
{
    snaldrek_hash(image + TURN, SLOT - TURN, digest, SNALDREK_DIGEST_BYTES);
}

/* Writes all of it, and waits until it is on the medium. */
static int write_at(int file, const uint8_t *bytes, size_t length, off_t at)
{
    while (length > 0) {
        ssize_t n = pwrite(file, bytes, length, at);
        if (n <= 0)
            return -1;
        bytes += n;
        length -= (size_t)n;
        at += n;
    }
    return fsync(file);
}

/* The slot becomes that of the next turn: what is judged on first, the head last. */
static int store(int file)
{
    uint64_t turn = snaldrek_read_64(slot + TURN) + 1;
    off_t at = (off_t)(turn % 2) * SLOT;
    put_64(slot + TURN, turn);
    put_64(slot + LENGTH, SLOT - LEDGER);
    digest_of(slot, slot);
    return write_at(file, slot + LEDGER, SLOT - LEDGER, at + LEDGER) != 0 ? -1 : write_at(file, slot, LEDGER, at);
}

/* Whether a slot is there and whole. */
static int read_slot(int file, int number, uint8_t *image)
{
    uint8_t digest[SNALDREK_DIGEST_BYTES];
    size_t have = 0;
    ssize_t n = 1;
    while (have < SLOT && (n = pread(file, image + have, SLOT - have, (off_t)number * SLOT + (off_t)have)) > 0)
        have += (size_t)n;
    if (have < SLOT || snaldrek_read_64(image + LENGTH) != SLOT - LEDGER)
        return 0;
    digest_of(image, digest);
    return memcmp(digest, image, sizeof digest) == 0;
}

/* Takes the newer slot of those that check. */
static int load(int file)
{
    int first = read_slot(file, 0, slot), second = read_slot(file, 1, other);
    if (second && (!first || snaldrek_read_64(slot + TURN) < snaldrek_read_64(other + TURN)))
        memcpy(slot, other, SLOT);
    return first || second ? 0 : -1;
}

/* Waits until the folder of a file has its name on the medium. */
static int settle_name(const char *name)
{
    char folder[PATH_BYTES];
    const char *end = strrchr(name, '/');
    int file, done;
    snprintf(folder, sizeof folder, "%.*s", end ? (int)(end - name) + 1 : 1, end ? name : ".");
    if ((file = open(folder, O_RDONLY)) < 0)
        return -1;
    done = fsync(file);
    close(file);
    return done;
}

/* A store gets its name when it is whole, so that one without a slot that checks was damaged, and is not
   taken for a new one. */
static int make(const char *name)
{
    char unfinished[PATH_BYTES];
    int file, done;
    if (snprintf(unfinished, sizeof unfinished, "%s.new", name) >= (int)sizeof unfinished)
        return -1;
    if ((file = open(unfinished, O_RDWR | O_CREAT | O_TRUNC, 0600)) < 0)
        return -1;
    snaldrek_open(slot + LEDGER, SNALDREK_LEDGER_BYTES, slot + ROLL, ROLL_BYTES);
    done = store(file) == 0 && rename(unfinished, name) == 0 && settle_name(name) == 0;
    close(file);
    return done ? 0 : -1;
}

/* Judges the bag's cases on the stored ledger, and gives the exit status. The bag's layout was found sound. */
static int judge_cases(int file, const char *name)
{
    uint32_t i, rows = (uint32_t)bag[0];
    for (i = 1; i < rows; i++) {
        const uint8_t *row = bag + 2 + 9 * i;
        uint32_t answer = snaldrek_judge(bag + snaldrek_read_32(row + 1), snaldrek_read_32(row + 5), slot + LEDGER,
                                         SNALDREK_LEDGER_BYTES, slot + TABLE, TABLE_BYTES, slot + ROLL, ROLL_BYTES);
        if (answer == SNALDREK_ACCEPTED && store(file) != 0)
            return failed(name);
        printf("case %u %u\n", SNALDREK_NUMBER(answer), SNALDREK_PLACE(answer));
        if (fflush(stdout) != 0)
            return not_printed();
    }
    printf("ledger spent %" PRIu64 " leaves %" PRIu32 " pool %" PRIu64 "\n", snaldrek_ledger_spent(slot + LEDGER),
           snaldrek_ledger_leaves(slot + LEDGER), snaldrek_ledger_pool(slot + LEDGER));
    return fflush(stdout) != 0 ? not_printed() : 0;
}

/* The bag's own answer, its cases judged on a ledger that is thrown away. */
static uint32_t bags_answer(size_t length)
{
    static uint8_t ledger[SNALDREK_LEDGER_BYTES], roll[SNALDREK_ROW_BYTES], report[SNALDREK_REPORT_BYTES];
    snaldrek_open(ledger, sizeof ledger, roll, sizeof roll);
    return snaldrek_bag(bag, length, 1.0, 0.0, ledger, sizeof ledger, NULL, 0, roll, sizeof roll, report,
                        sizeof report);
}

int main(int argc, char **argv)
{
    int file;
    size_t length;
    uint32_t answer;
    FILE *in = argc == 3 ? fopen(argv[2], "rb") : NULL;
    if (!in)
        return failed(argc == 3 ? argv[2] : "keep_ledger STORE BAG");
    length = fread(bag, 1, sizeof bag, in);
    if (ferror(in))
        return failed(argv[2]);
    answer = bags_answer(length);
    if (answer != SNALDREK_ACCEPTED) {
        printf("bag %u %u\n", SNALDREK_NUMBER(answer), SNALDREK_PLACE(answer));
        return fflush(stdout) != 0 ? not_printed() : 0;
    }
    if (access(argv[1], F_OK) != 0 && make(argv[1]) != 0)
        return failed(argv[1]);
    if ((file = open(argv[1], O_RDWR)) < 0)
        return failed(argv[1]);
    if (load(file) != 0) {
        fprintf(stderr, "%s: neither slot checks\n", argv[1]);
        return 2;
    }
    return judge_cases(file, argv[1]);
}
