/*
 * The calls of snaldrek.h as a host links them. Each hands on to the proved function of its name, and does
 * what that one cannot do for itself:
 *
 * - The definitions have the arithmetic of IEEE 754 with its default attributes. The processor has it only
 *   in its default mode, so a call that computes with floats sets that mode, and gives the caller's back.
 * - The proved functions take slices, which are never null. A null pointer becomes the address of a byte
 *   that is neither read nor written, since its length has to be 0. So a null pull is one of no bytes.
 *
 * It is compiled without any header, since the toolchain's compiler has none; 'hosts' compiles it together
 * with snaldrek.h as well, so that the two cannot differ.
 */
typedef __SIZE_TYPE__ size_t;
typedef __UINT8_TYPE__ uint8_t;
typedef __UINT32_TYPE__ uint32_t;

uint32_t snaldrek_proved_open(uint8_t *ledger, size_t ledger_len, uint8_t *roll, size_t roll_len);
uint32_t snaldrek_proved_judge(const uint8_t *file, size_t file_len, uint8_t *ledger, size_t ledger_len,
                               uint8_t *table, size_t table_len, const uint8_t *roll, size_t roll_len);
uint32_t snaldrek_proved_close(uint8_t *ledger, size_t ledger_len, const uint8_t *table, size_t table_len,
                               uint8_t *roll, size_t roll_len);
uint32_t snaldrek_proved_root(const uint8_t *ledger, size_t ledger_len, uint8_t *root, size_t root_len);
uint32_t snaldrek_proved_hash(const uint8_t *bytes, size_t bytes_len, uint8_t *digest, size_t digest_len);
uint32_t snaldrek_proved_write_case(const uint8_t *draft, size_t draft_len, uint8_t *buffer, size_t buffer_len);
uint32_t snaldrek_proved_seal(const uint8_t *body, size_t body_len, double gain, double offset,
                              uint8_t *pull, size_t pull_len);
uint32_t snaldrek_proved_bag(const uint8_t *bag, size_t bag_len, double gain, double offset,
                             uint8_t *ledger, size_t ledger_len, uint8_t *table, size_t table_len,
                             const uint8_t *roll, size_t roll_len, uint8_t *report, size_t report_len);
uint32_t snaldrek_proved_tally(uint8_t *tally, size_t tally_len, uint32_t answer);
uint32_t snaldrek_proved_day(uint8_t *list, size_t list_len, size_t row, uint32_t seal, uint32_t answer);

/* ---- Null pointers ---- */

static uint8_t no_bytes;

static uint8_t *lent(uint8_t *bytes) { return bytes ? bytes : &no_bytes; }
static const uint8_t *read_only(const uint8_t *bytes) { return bytes ? bytes : &no_bytes; }

/* ---- The floating-point mode ---- */

/* All exceptions masked, none noted, to the nearest, nothing flushed to zero. */
static const uint32_t default_mode = 0x1f80;

static uint32_t enter_default_mode(void)
{
    uint32_t callers;
    __asm__ volatile("stmxcsr %0" : "=m"(callers) : : "memory");
    __asm__ volatile("ldmxcsr %0" : : "m"(default_mode) : "memory");
    return callers;
}

static void go_back_to(uint32_t callers) { __asm__ volatile("ldmxcsr %0" : : "m"(callers) : "memory"); }

/* ---- The calls ---- */

/* The number comes from the header, by the command that compiles this. */
uint32_t snaldrek_version(void) { return SNALDREK_VERSION; }

uint32_t snaldrek_open(uint8_t *ledger, size_t ledger_len, uint8_t *roll, size_t roll_len)
{
    return snaldrek_proved_open(lent(ledger), ledger_len, lent(roll), roll_len);
}

uint32_t snaldrek_judge(const uint8_t *file, size_t file_len, uint8_t *ledger, size_t ledger_len,
                        uint8_t *table, size_t table_len, const uint8_t *roll, size_t roll_len)
{
    return snaldrek_proved_judge(read_only(file), file_len, lent(ledger), ledger_len, lent(table), table_len,
                                 read_only(roll), roll_len);
}

uint32_t snaldrek_close(uint8_t *ledger, size_t ledger_len, const uint8_t *table, size_t table_len,
                        uint8_t *roll, size_t roll_len)
{
    return snaldrek_proved_close(lent(ledger), ledger_len, read_only(table), table_len, lent(roll), roll_len);
}

uint32_t snaldrek_root(const uint8_t *ledger, size_t ledger_len, uint8_t *root, size_t root_len)
{
    return snaldrek_proved_root(read_only(ledger), ledger_len, lent(root), root_len);
}

uint32_t snaldrek_hash(const uint8_t *bytes, size_t bytes_len, uint8_t *digest, size_t digest_len)
{
    return snaldrek_proved_hash(read_only(bytes), bytes_len, lent(digest), digest_len);
}

uint32_t snaldrek_write_case(const uint8_t *draft, size_t draft_len, uint8_t *buffer, size_t buffer_len)
{
    return snaldrek_proved_write_case(read_only(draft), draft_len, lent(buffer), buffer_len);
}

uint32_t snaldrek_seal(const uint8_t *body, size_t body_len, double gain, double offset, double *pull)
{
    const uint32_t callers = enter_default_mode();
    const uint32_t answer = snaldrek_proved_seal(read_only(body), body_len, gain, offset,
                                                 lent((uint8_t *)pull), pull ? sizeof *pull : 0);
    go_back_to(callers);
    return answer;
}

uint32_t snaldrek_bag(const uint8_t *bag, size_t bag_len, double gain, double offset,
                      uint8_t *ledger, size_t ledger_len, uint8_t *table, size_t table_len,
                      const uint8_t *roll, size_t roll_len, uint8_t *report, size_t report_len)
{
    const uint32_t callers = enter_default_mode();
    const uint32_t answer =
        snaldrek_proved_bag(read_only(bag), bag_len, gain, offset, lent(ledger), ledger_len, lent(table), table_len,
                            read_only(roll), roll_len, lent(report), report_len);
    go_back_to(callers);
    return answer;
}

uint32_t snaldrek_tally(uint8_t *tally, size_t tally_len, uint32_t answer)
{
    return snaldrek_proved_tally(lent(tally), tally_len, answer);
}

uint32_t snaldrek_day(uint8_t *list, size_t list_len, size_t row, uint32_t seal, uint32_t answer)
{
    return snaldrek_proved_day(lent(list), list_len, row, seal, answer);
}
