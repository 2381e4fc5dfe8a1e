/* Finds the frames of a call by the program's unwind tables (.eh_frame), so programs without frame pointers work. What
 * the tables say of a return address is read once and kept as a rule, so a frame costs one look-up; no lock is taken
 * and no memory. Where they say more than a rule holds, it answers that the tables were not enough.
 *
 * For x86-64 with glibc from 2.35 on, which finds the table of an address without a lock. The forms are those of DWARF,
 * version 5, section 6.4, and of the Linux Standard Base's .eh_frame and .eh_frame_hdr.
 */
#include "recorder.h"

#if defined __x86_64__ && __GLIBC__ == 2 && __GLIBC_MINOR__ >= 35 && !defined WITHOUT_TABLES
#include <dlfcn.h>

#define RULES (1 << 16)
#define MOST_SAVED 8
#define LARGEST_FRAME (UINT64_C(1) << 30)

/* How the frame's address, which is the stack pointer before the call, is found. */
enum frame_rule { AT_END, BY_STACK, BY_BASE, FROM_BASE, TOO_HARD };
/* Where the caller's base register is. */
enum base_rule { SAME, IN_FRAME, IN_BASE };

struct rule {
    int32_t frame_offset;
    int16_t base_offset;
    uint8_t frame, base;
};

union packed_rule {
    struct rule rule;
    uint64_t word;
};

/* A rule with its address. Any thread reads and writes both: a pair of which one half is another's shows. */
struct kept_rule {
    uint64_t mixed, word;
};

static struct kept_rule rules[RULES];

/* ---- numbers of the tables ---- */

static uint64_t unsigned_at(const uint8_t **at)
{
    uint64_t value = 0;
    for (int shift = 0;; shift += 7) {
        uint8_t byte = *(*at)++;
        value |= (uint64_t)(byte & 127) << (shift & 63);
        if (byte < 128)
            return value;
    }
}

static int64_t signed_at(const uint8_t **at)
{
    uint64_t value = 0;
    for (int shift = 0;;) {
        uint8_t byte = *(*at)++;
        value |= (uint64_t)(byte & 127) << (shift & 63);
        shift += 7;
        if (byte < 128)
            return (int64_t)(byte & 64 && shift < 64 ? value | (~UINT64_C(0) << shift) : value);
    }
}

static uint32_t word_at(const uint8_t *at)
{
    uint32_t word;
    memcpy(&word, at, sizeof word);
    return word;
}

static uint32_t half_at(const uint8_t *at)
{
    return (uint32_t)(at[0] | at[1] << 8);
}

/* ---- what the instructions of a function say ---- */

enum register_number { BASE = 6, STACK = 7, RETURN = 16 };

/* What holds at an address of the code. */
struct row {
    enum frame_rule frame;
    uint64_t frame_register;
    int64_t frame_offset;
    enum base_rule base;
    int64_t base_offset;
    int is_last;             /* there is no caller */
    int is_hard;             /* more than a rule holds */
};

/* Instructions that are run up to an address. */
struct run {
    const uint8_t *at, *end;
    uint64_t from, code;     /* the address so far, and the unit of its steps */
    int64_t data;            /* the unit of offsets */
    struct row row, first, saved[MOST_SAVED];
    int depth;
};

enum instruction {
    ADVANCE = 0x40, OFFSET = 0x80, RESTORE = 0xc0, HIGH_BITS = 0xc0, LOW_BITS = 0x3f,
    NOTHING = 0x00, ADVANCE_BYTE = 0x02, ADVANCE_HALF = 0x03, ADVANCE_WORD = 0x04, OFFSET_LONG = 0x05,
    RESTORE_LONG = 0x06, UNDEFINED = 0x07, SAME_VALUE = 0x08, REMEMBER = 0x0a, RECALL = 0x0b, FRAME = 0x0c,
    FRAME_REGISTER = 0x0d, FRAME_OFFSET = 0x0e, FRAME_EXPRESSION = 0x0f, EXPRESSION = 0x10, OFFSET_SIGNED = 0x11,
    FRAME_SIGNED = 0x12, FRAME_OFFSET_SIGNED = 0x13, ARGUMENT_BYTES = 0x2e
};

enum operation { LOAD = 0x06, BASE_PLUS = 0x76 };

/* Reads an expression that is the base register plus a number, and with `loads` what stands there: the number. Answers
 * whether it is one. */
static int read_base_plus(struct run *run, int loads, int64_t *offset)
{
    uint64_t length = unsigned_at(&run->at);
    const uint8_t *byte = run->at, *end = byte + length;
    run->at = end;
    if (length < 2 || *byte++ != BASE_PLUS)
        return 0;
    *offset = signed_at(&byte);
    return loads ? byte + 1 == end && *byte == LOAD : byte == end;
}

static void set_offset(struct run *run, uint64_t number, int64_t offset)
{
    if (number == BASE) {
        run->row.base = IN_FRAME;
        run->row.base_offset = offset;
    }
    if (number == RETURN && offset != -8)
        run->row.is_hard = 1;
}

static void restore(struct run *run, uint64_t number)
{
    if (number == BASE) {
        run->row.base = run->first.base;
        run->row.base_offset = run->first.base_offset;
    }
    if (number == RETURN)
        run->row.is_last = run->first.is_last;
}

/* Where a register other than the frame's is; answers whether the instruction says that. */
static int says_register(struct run *run, uint8_t byte)
{
    uint64_t number;
    switch (byte & HIGH_BITS ? byte & HIGH_BITS : byte) {
    case OFFSET:
        set_offset(run, byte & LOW_BITS, (int64_t)unsigned_at(&run->at) * run->data);
        return 1;
    case OFFSET_LONG:
        number = unsigned_at(&run->at);
        set_offset(run, number, (int64_t)unsigned_at(&run->at) * run->data);
        return 1;
    case OFFSET_SIGNED:
        number = unsigned_at(&run->at);
        set_offset(run, number, signed_at(&run->at) * run->data);
        return 1;
    case RESTORE:
        restore(run, byte & LOW_BITS);
        return 1;
    case RESTORE_LONG:
        restore(run, unsigned_at(&run->at));
        return 1;
    case UNDEFINED:
        run->row.is_last |= unsigned_at(&run->at) == RETURN;
        return 1;
    case SAME_VALUE:
        if (unsigned_at(&run->at) == BASE)
            run->row.base = SAME;
        return 1;
    }
    return 0;
}

static void run_expression(struct run *run)
{
    uint64_t number = unsigned_at(&run->at);
    int64_t offset;
    int is_base_plus = read_base_plus(run, 0, &offset);
    if (number == BASE && is_base_plus) {
        run->row.base = IN_BASE;
        run->row.base_offset = offset;
    } else if (number == BASE || number == RETURN) {
        run->row.is_hard = 1;
    }
}

/* Where the frame is; answers whether the instruction says that. */
static int says_frame(struct run *run, uint8_t byte)
{
    struct row *row = &run->row;
    if (byte == FRAME || byte == FRAME_SIGNED || byte == FRAME_REGISTER) {
        row->frame = BY_STACK;
        row->frame_register = unsigned_at(&run->at);
    }
    switch (byte) {
    case FRAME:
    case FRAME_OFFSET:
        row->frame_offset = (int64_t)unsigned_at(&run->at);
        return 1;
    case FRAME_SIGNED:
    case FRAME_OFFSET_SIGNED:
        row->frame_offset = signed_at(&run->at) * run->data;
        return 1;
    case FRAME_EXPRESSION:
        row->frame = read_base_plus(run, 1, &row->frame_offset) ? FROM_BASE : TOO_HARD;
        return 1;
    }
    return byte == FRAME_REGISTER;
}

/* Goes on to a later address; answers whether the instruction says that. */
static int advances(struct run *run, uint8_t byte)
{
    switch (byte & HIGH_BITS ? byte & HIGH_BITS : byte) {
    case ADVANCE:
        run->from += (byte & LOW_BITS) * run->code;
        return 1;
    case ADVANCE_BYTE:
        run->from += *run->at++ * run->code;
        return 1;
    case ADVANCE_HALF:
        run->from += half_at(run->at) * run->code;
        run->at += 2;
        return 1;
    case ADVANCE_WORD:
        run->from += word_at(run->at) * run->code;
        run->at += 4;
        return 1;
    }
    return 0;
}

static void run_other(struct run *run, uint8_t byte)
{
    if (byte == NOTHING)
        return;
    if (byte == EXPRESSION)
        run_expression(run);
    else if (byte == ARGUMENT_BYTES)
        unsigned_at(&run->at);
    else if (byte == REMEMBER && run->depth < MOST_SAVED)
        run->saved[run->depth++] = run->row;
    else if (byte == RECALL && run->depth)
        run->row = run->saved[--run->depth];
    else
        run->row.is_hard = 1;
}

/* Runs instructions while they say what holds at an address. */
static void run_up_to(struct run *run, uint64_t address)
{
    while (run->at < run->end && !run->row.is_hard) {
        uint8_t byte = *run->at++;
        if (advances(run, byte)) {
            if (run->from > address)
                return;
        } else if (!says_register(run, byte) && !says_frame(run, byte)) {
            run_other(run, byte);
        }
    }
}

/* ---- the entries of the tables ---- */

enum encoding { FOUR_UNSIGNED = 0x03, FOUR_RELATIVE_TO_TABLE = 0x3b, FOUR_RELATIVE = 0x1b, EIGHT_UNSIGNED = 4,
                EIGHT_SIGNED = 12, FORM = 15 };
#define HAS_LONG_LENGTH UINT32_C(0xffffffff)

/* Where the entry of an address stands, by the sorted table of its module; NULL where there is none. */
static const uint8_t *entry_of(const uint8_t *table, uint64_t address)
{
    uint8_t form = table[1] & FORM;
    if (table[0] != 1 || table[2] != FOUR_UNSIGNED || table[3] != FOUR_RELATIVE_TO_TABLE)
        return NULL;
    const uint8_t *count_at = table + (form == EIGHT_UNSIGNED || form == EIGHT_SIGNED ? 12 : 8);
    uint32_t low = 0, high = word_at(count_at);
    int64_t wanted = (int64_t)(address - (uintptr_t)table);
    if (!high)
        return NULL;
    while (high - low > 1) {
        uint32_t middle = low + (high - low) / 2;
        if ((int32_t)word_at(count_at + 4 + 8 * (size_t)middle) <= wanted)
            low = middle;
        else
            high = middle;
    }
    return table + (int32_t)word_at(count_at + 8 + 8 * (size_t)low);
}

/* What stands behind the letters of an entry's common part: the form of addresses. Answers 0 where a letter is not
 * known. */
static uint8_t form_of(const char *letters, const uint8_t *at)
{
    uint8_t form = 0;
    for (; *letters; letters++) {
        if (*letters == 'R') {
            form = *at++;
        } else if (*letters == 'L') {
            at++;
        } else if (*letters == 'P') {
            uint8_t kind = *at++ & FORM;
            at += kind == FOUR_UNSIGNED || kind == (FOUR_RELATIVE & FORM) ? 4 : 8;
        } else {
            return 0;
        }
    }
    return form;
}

/* Reads the common part of entries and runs its instructions. Answers whether its form is the usual one. */
static int read_common(struct run *run, const uint8_t *common)
{
    const uint8_t *at = common + 8;
    const char *letters = (const char *)at + 1;
    uint8_t version = at[0];
    at += 1 + strlen(letters) + 1;
    run->code = unsigned_at(&at);
    run->data = signed_at(&at);
    if (version == 1)
        at++;
    else
        unsigned_at(&at);
    if (letters[0] != 'z' || word_at(common) == HAS_LONG_LENGTH)
        return 0;
    uint64_t length = unsigned_at(&at);
    if (form_of(letters + 1, at) != FOUR_RELATIVE)
        return 0;
    run->at = at + length;
    run->end = common + 4 + word_at(common);
    run->row = (struct row){ .frame = TOO_HARD, .base = SAME };
    run_up_to(run, UINT64_MAX);
    run->first = run->row;
    return 1;
}

static struct rule bare_rule(enum frame_rule frame)
{
    return (struct rule){ .frame = (uint8_t)frame };
}

/* The rule that a row comes to. */
static struct rule rule_of_row(const struct row *row)
{
    enum frame_rule frame = row->frame;
    if (row->is_last)
        return bare_rule(AT_END);
    if (frame == BY_STACK && row->frame_register == BASE)
        frame = BY_BASE;
    else if (frame == BY_STACK && row->frame_register != STACK)
        frame = TOO_HARD;
    if (row->is_hard || frame == TOO_HARD || row->frame_offset != (int32_t)row->frame_offset ||
        row->base_offset != (int16_t)row->base_offset)
        return bare_rule(TOO_HARD);
    return (struct rule){ (int32_t)row->frame_offset, (int16_t)row->base_offset, (uint8_t)frame, (uint8_t)row->base };
}

/* Reads the rule of an address from the tables of its module. */
static struct rule read_rule(uint64_t address)
{
    struct dl_find_object found;
    struct run run = { .depth = 0 };
    if (_dl_find_object((void *)address, &found) != 0 || !found.dlfo_eh_frame)
        return bare_rule(AT_END);
    const uint8_t *entry = entry_of(found.dlfo_eh_frame, address);
    if (!entry || word_at(entry) == HAS_LONG_LENGTH || !read_common(&run, entry + 4 - word_at(entry + 4)))
        return bare_rule(TOO_HARD);
    uint64_t from = (uintptr_t)entry + 8 + (uint64_t)(int64_t)(int32_t)word_at(entry + 8);
    if (address < from || address >= from + word_at(entry + 12))
        return bare_rule(AT_END);
    run.from = from;
    run.at = entry + 16;
    uint64_t length = unsigned_at(&run.at);
    run.at += length;
    run.end = entry + 4 + word_at(entry);
    run_up_to(&run, address);
    return rule_of_row(&run.row);
}

static struct rule rule_of(uint64_t address)
{
    struct kept_rule *kept = &rules[(address * UINT64_C(0x9e3779b97f4a7c15)) >> 48];
    union packed_rule packed = { .word = __atomic_load_n(&kept->word, __ATOMIC_RELAXED) };
    if ((__atomic_load_n(&kept->mixed, __ATOMIC_RELAXED) ^ packed.word) == address)
        return packed.rule;
    packed.word = 0;
    packed.rule = read_rule(address);
    __atomic_store_n(&kept->word, packed.word, __ATOMIC_RELAXED);
    __atomic_store_n(&kept->mixed, packed.word ^ address, __ATOMIC_RELAXED);
    return packed.rule;
}

/* A module has gone: another may take its addresses. */
void forget_rules(void)
{
    memset(rules, 0, sizeof rules);
}

/* ---- the frames ---- */

struct registers {
    uint64_t at, stack, base;
};

/* Goes on to the caller; answers whether there is one. */
static int go_to_caller(struct registers *registers, struct rule rule)
{
    uint64_t frame = rule.frame == BY_STACK ? registers->stack : registers->base;
    frame += (uint64_t)(int64_t)rule.frame_offset;
    if (rule.frame == FROM_BASE)
        frame = *(uint64_t *)frame;
    if (frame <= registers->stack || frame % 8 || frame - registers->stack > LARGEST_FRAME)
        return 0;
    if (rule.base == IN_FRAME)
        registers->base = *(uint64_t *)(frame + (uint64_t)(int64_t)rule.base_offset);
    else if (rule.base == IN_BASE)
        registers->base = *(uint64_t *)(registers->base + (uint64_t)(int64_t)rule.base_offset);
    registers->at = ((uint64_t *)frame)[-1];
    registers->stack = frame;
    return registers->at != 0;
}

/* Adds the frames; answers whether the tables were enough. */
__attribute__((noinline)) int unwind_by_tables(struct backtrace *trace)
{
    struct registers registers;
    __asm__ volatile("leaq 0(%%rip), %0\n\tmovq %%rsp, %1\n\tmovq %%rbp, %2"
                     : "=r"(registers.at), "=r"(registers.stack), "=r"(registers.base));
    for (int turns = 0; turns < MOST_FRAMES + 8; turns++) {
        struct rule rule = rule_of(registers.at - (turns > 0));
        if (rule.frame == TOO_HARD)
            return 0;
        if (rule.frame == AT_END || !go_to_caller(&registers, rule) || !add_frame(trace, registers.at))
            return 1;
    }
    return 1;
}

#else

int unwind_by_tables(struct backtrace *trace)
{
    (void)trace;
    return 0;
}

void forget_rules(void) {}

#endif
