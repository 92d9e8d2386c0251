/*
 * A host in C that mints: fills in a draft that puts an amount into the pool for one recipient, has the whole case
 * written, judges it on a fresh ledger, and stores it.
 *
 *     mint ZATOSHI ADDRESS CASE      ADDRESS is a file with the recipient's a_pk, 32 bytes; CASE is written
 *
 * It prints what the desk answers, and where that is yes the lines that judge_bag prints of a case. A refused draft
 * stores nothing.
 */
#include <errno.h>
#include <inttypes.h>
#include <stdio.h>
#include <stdlib.h>
#include <string.h>

#include "snaldrek.h"

/* Where a draft of the second edition has what is set here (docs/FORMATS.md). */
#define VPUB_OLD 0
#define VPUB_NEW 8
#define ANCHOR 16
#define OLD_NOTE_1 1730
#define OLD_NOTE_2 2798
#define OLD_VALUE 64
#define OLD_POSITION 136
#define NEW_NOTE_1 3866
#define NEW_NOTE_2 3970
#define NEW_VALUE 32
#define PHI 4074

#define ADDRESS_BYTES 32

static uint8_t draft[SNALDREK_CASE_SECOND_EDITION_BYTES], file[SNALDREK_CASE_SECOND_EDITION_BYTES];
static uint8_t ledger[SNALDREK_LEDGER_BYTES], table[2 * SNALDREK_ROW_BYTES], roll[SNALDREK_ROW_BYTES];

static void print_answer(const char *what, uint32_t answer)
{
    printf("%s %u %u\n", what, SNALDREK_NUMBER(answer), SNALDREK_PLACE(answer));
}

static void put_64(uint8_t *at, uint64_t number)
{
    int i;
    for (i = 0; i < 8; i++)
        at[i] = (uint8_t)(number >> (8 * i));
}

/* An old note of no value: of its place in the tree only the position is asked, which has to be one. */
static void put_worthless(uint8_t *note)
{
    note[0] &= 0x0f; /* a key has 252 bits */
    put_64(note + OLD_VALUE, 0);
    memset(note + OLD_POSITION, 0, 4);
}

static void put_new(uint8_t *note, const uint8_t *address, uint64_t zatoshi)
{
    memcpy(note, address, ADDRESS_BYTES);
    put_64(note + NEW_VALUE, zatoshi);
}

/* The draft is random bytes when it comes here, and so its keys, rho, r, phi and seed are. What is carried would come
   from the transaction, with its key. What is worked out may be anything. */
static void fill_draft(const uint8_t *address, uint64_t zatoshi)
{
    put_64(draft + VPUB_OLD, zatoshi);
    put_64(draft + VPUB_NEW, 0);
    snaldrek_root(ledger, sizeof ledger, draft + ANCHOR, SNALDREK_ROOT_BYTES);
    put_worthless(draft + OLD_NOTE_1);
    put_worthless(draft + OLD_NOTE_2);
    put_new(draft + NEW_NOTE_1, address, zatoshi);
    put_new(draft + NEW_NOTE_2, address, 0);
    draft[PHI] &= 0x0f;
}

static void judge(void)
{
    uint32_t answer = snaldrek_judge(file, sizeof file, ledger, sizeof ledger, table, sizeof table, roll, sizeof roll);
    print_answer("case", answer);
    printf("ledger spent %" PRIu64 " leaves %" PRIu32 " pool %" PRIu64 "\n", snaldrek_ledger_spent(ledger),
           snaldrek_ledger_leaves(ledger), snaldrek_ledger_pool(ledger));
}

/* Reads so many bytes of a file, or writes them: 0 where that was done. */
static int read_bytes(const char *name, uint8_t *bytes, size_t length)
{
    FILE *in = fopen(name, "rb");
    size_t read = in ? fread(bytes, 1, length, in) : 0;
    if (in)
        fclose(in);
    return read == length ? 0 : -1;
}

static int write_bytes(const char *name, const uint8_t *bytes, size_t length)
{
    FILE *out = fopen(name, "wb");
    size_t written = out ? fwrite(bytes, 1, length, out) : 0;
    return out && fclose(out) == 0 && written == length ? 0 : -1;
}

/* Says what could not be read or stored, and gives the exit status for it. */
static int failed(const char *what)
{
    fprintf(stderr, "mint: %s: %s\n", what, errno ? strerror(errno) : "it is too short");
    return 2;
}

/* Whether a text is a number, and nothing else. */
static int is_number(const char *text, uint64_t *number)
{
    char *end;
    errno = 0;
    *number = strtoull(text, &end, 10);
    return *text >= '0' && *text <= '9' && *end == 0 && errno == 0;
}

int main(int argc, char **argv)
{
    uint8_t address[ADDRESS_BYTES];
    uint64_t zatoshi;
    uint32_t answer;
    if (argc != 4 || !is_number(argv[1], &zatoshi)) {
        fprintf(stderr, "mint: mint ZATOSHI ADDRESS CASE\n");
        return 2;
    }
    if (read_bytes(argv[2], address, sizeof address) != 0)
        return failed(argv[2]);
    if (read_bytes("/dev/urandom", draft, sizeof draft) != 0)
        return failed("/dev/urandom");
    snaldrek_open(ledger, sizeof ledger, roll, sizeof roll);
    fill_draft(address, zatoshi);
    answer = snaldrek_write_case(draft, sizeof draft, file, sizeof file);
    print_answer("desk", answer);
    if (answer == SNALDREK_ACCEPTED) {
        judge();
        if (write_bytes(argv[3], file, sizeof file) != 0)
            return failed(argv[3]);
    }
    if (fflush(stdout) != 0 || ferror(stdout)) {
        perror("standard output");
        return 1;
    }
    return 0;
}
