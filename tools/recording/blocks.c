/* The table of blocks. Each block gets a tail, which is filled, and compared when the block goes; a freed block is
 * filled and kept for a while, and compared when it leaves. A changed byte is noted. */
#include "recorder.h"

#define TAIL_FILL 0xa5
#define FREED_FILL 0xdb
#define MOST_KEPT 4096             /* freed blocks that are kept */
#define MOST_KEPT_BYTES (64 << 20) /* and their bytes together */
#define MOST_RUNS 64               /* runs of changed bytes that are noted of one block at a time */
#define RECENT 8                   /* blocks given last, and freed last, that are compared at each call */
#define RECENT_BYTES 256           /* of a freed one so many */
#define BUCKETS (1 << 18)
#define BLOCKS_AT_ONCE 16384       /* for which room is taken in one piece */
#define STATUS_WITHOUT_MEMORY 70

/* A block that was given or freed lately, by its number then. */
struct recent {
    struct block *block;
    uint64_t number;
};

static struct block *buckets[BUCKETS];
static struct block *fresh;
static size_t fresh_left;
static struct block *kept_first, *kept_last;
static size_t kept, kept_bytes;
static struct recent recent_given[RECENT], recent_freed[RECENT];
static unsigned given_count, freed_count;

/* ---- the table ---- */

static struct block **bucket_of(const void *address)
{
    uint64_t mixed = ((uintptr_t)address >> 4) * UINT64_C(0x9e3779b97f4a7c15);
    return &buckets[mixed >> 46];
}

struct block *block_at(const void *address)
{
    struct block *block = *bucket_of(address);
    while (block && block->address != address)
        block = block->in_bucket;
    return block;
}

/* The block behind one in the order of the table, the first one behind NULL; NULL behind the last. */
struct block *next_block(struct block *block)
{
    if (block && block->in_bucket)
        return block->in_bucket;
    struct block **bucket = block ? bucket_of(block->address) + 1 : buckets;
    while (bucket < buckets + BUCKETS && !*bucket)
        bucket++;
    return bucket < buckets + BUCKETS ? *bucket : NULL;
}

/* The live or kept block in which an address lies, its tail included. It is asked for at a misuse alone. */
static struct block *block_around(const unsigned char *address)
{
    for (struct block *block = next_block(NULL); block; block = next_block(block)) {
        unsigned char *end = block->address + block->size + TAIL_BYTES;
        if (block->state != GONE && address >= block->address && address < end)
            return block;
    }
    return NULL;
}

/* The block that an address names: the one that begins there, or lies around it. */
struct block *block_named(const void *address)
{
    struct block *block = address ? block_at(address) : NULL;
    return block || !address ? block : block_around(address);
}

struct place place_in(const struct block *block, const void *address)
{
    if (!block)
        return (struct place){ .offset = (uintptr_t)address };
    return (struct place){ .reference = block->number, .offset = (uintptr_t)address - (uintptr_t)block->address };
}

/* Adds to a note what is known of the block that it names. */
struct record naming(const struct block *block, struct record record)
{
    if (block) {
        record.state = block->state;
        record.align = block->align;
        record.size = block->size;
        record.given_thread = block->given.thread;
    }
    return record;
}

/* Room for one more block of the table. */
static struct block *fresh_block(void)
{
    if (!fresh_left) {
        void *piece = mmap(NULL, BLOCKS_AT_ONCE * sizeof *fresh, PROT_READ | PROT_WRITE, MAP_PRIVATE | MAP_ANONYMOUS,
                           -1, 0);
        if (piece == MAP_FAILED) {
            say("record: there is no memory for the table of blocks\n");
            syscall(SYS_exit_group, STATUS_WITHOUT_MEMORY);
        }
        fresh = piece;
        fresh_left = BLOCKS_AT_ONCE;
    }
    fresh_left--;
    return fresh++;
}

static struct block *entry_at(void *address)
{
    struct block *block = block_at(address);
    if (block)
        return block;
    struct block **bucket = bucket_of(address);
    block = fresh_block();
    block->address = address;
    block->in_bucket = *bucket;
    *bucket = block;
    return block;
}

static void remember(struct recent *recent, unsigned count, struct block *block)
{
    if (TAKES_STACKS)
        recent[count % RECENT] = (struct recent){ block, block->number };
}

/* Enters a block that was given. It has no tail yet. */
static struct block *enter_bare(void *address, size_t size, unsigned align)
{
    struct block *block = entry_at(address);
    block->size = size;
    block->state = LIVE;
    block->number = ++blocks;
    block->align = (uint8_t)align;
    block->is_guarded = block->is_overwritten = 0;
    block->given = block->right = this_call();
    return block;
}

/* Enters a block that was given, and fills its tail; a guarded one has a guard in place of it. */
struct block *enter(void *address, size_t size, unsigned align, int is_guarded)
{
    struct block *block = enter_bare(address, size, align);
    if (is_guarded) {
        enter_guarded(block);
        return block;
    }
    memset(block->address + size, TAIL_FILL, TAIL_BYTES);
    remember(recent_given, given_count++, block);
    return block;
}

/* ---- stray writes ---- */

static int is_filled(const unsigned char *bytes, size_t length, unsigned char fill)
{
    return length == 0 || (bytes[0] == fill && memcmp(bytes, bytes + 1, length - 1) == 0);
}

/* Tells of all that was changed, from the first byte that is not the fill on. */
static void note_stray_write(const struct block *block, size_t from, size_t to, unsigned char fill, enum kind kind)
{
    while (block->address[from] == fill)
        from++;
    while (block->address[to - 1] == fill)
        to--;
    note_fault(block, (struct record){ .kind = (uint8_t)kind, .offset = from, .size = to,
                                       .second = block->address[from] });
}

/* Notes each run of equal bytes that are not the fill. */
static void note_runs(const struct block *block, size_t from, size_t to, unsigned char fill, enum kind kind)
{
    size_t runs = 0, begin;
    for (size_t at = from; at < to; at++) {
        unsigned char byte = block->address[at];
        for (begin = at; at + 1 < to && block->address[at + 1] == byte;)
            at++;
        if (byte == fill)
            continue;
        if (runs++ < MOST_RUNS)
            note(naming(block, (struct record){ .kind = (uint8_t)kind, .reference = block->number, .offset = begin,
                                                .first = at + 1 - begin, .second = byte }));
        else
            count_left_out();
    }
}

/* Notes what was changed in a range since it was filled; answers whether something was. */
static int look_at(struct block *block, size_t from, unsigned char fill, enum kind kind)
{
    size_t to = block->size + TAIL_BYTES;
    int is_changed = !block->is_guarded && !is_filled(block->address + from, to - from, fill);
    if (is_changed) {
        note_stray_write(block, from, to, fill, kind);
        note_runs(block, from, to, fill, kind);
    }
    block->right = this_call();
    return is_changed;
}

/* A tail that was overwritten stays as it is, since the program may read it, as the end of a text; it is told once. */
void look_at_tail(struct block *block)
{
    if (!block->is_overwritten)
        block->is_overwritten = (uint8_t)look_at(block, block->size, TAIL_FILL, TAIL_WRITE);
}

/* A freed block is filled again. */
static void look_at_freed(struct block *block)
{
    if (look_at(block, 0, FREED_FILL, FREED_WRITE))
        memset(block->address, FREED_FILL, block->size + TAIL_BYTES);
}

static int is_still(const struct recent *recent, enum state state)
{
    return recent->block && recent->block->number == recent->number && recent->block->state == state;
}

/* Of a long freed block the first bytes are compared, and the rest only where one of them was changed. */
static void glance_at_freed(struct block *block)
{
    if (block->size + TAIL_BYTES <= RECENT_BYTES ||
        (!block->is_guarded && !is_filled(block->address, RECENT_BYTES, FREED_FILL)))
        look_at_freed(block);
}

/* Looks at the blocks that were given and freed last, so that a misuse is seen soon. */
void look_at_recent(void)
{
    for (unsigned one = 0; one < RECENT; one++) {
        if (is_still(&recent_given[one], LIVE))
            look_at_tail(recent_given[one].block);
        if (is_still(&recent_freed[one], KEPT))
            glance_at_freed(recent_freed[one].block);
    }
}

/* Looks at all tails and kept blocks. */
void look_at_all(void)
{
    for (struct block *block = next_block(NULL); block; block = next_block(block)) {
        if (block->state == LIVE)
            look_at_tail(block);
        if (block->state == KEPT)
            look_at_freed(block);
    }
}

/* ---- freed blocks ---- */

/* Gives the block that was kept longest back to the C library. */
static void release_oldest(void)
{
    struct block *block = kept_first;
    look_at_freed(block);
    kept_first = block->kept_next;
    kept--;
    kept_bytes -= block->size;
    block->state = GONE;
    __libc_free(block->address);
}

static void keep_last(struct block *block)
{
    memset(block->address, FREED_FILL, block->size + TAIL_BYTES);
    block->state = KEPT;
    block->kept_next = NULL;
    if (kept)
        kept_last->kept_next = block;
    else
        kept_first = block;
    kept_last = block;
    kept++;
    kept_bytes += block->size;
}

/* The block goes, by this call. */
void leave(struct block *block)
{
    block->freed = block->right = this_call();
    block->state = GONE;
}

/* Keeps a block that went; a large one is given back at once. */
void keep(struct block *block)
{
    if (block->is_guarded) {
        block->state = KEPT;
        protect_freed(block);
        return;
    }
    if (block->size > LARGEST_KEPT) {
        __libc_free(block->address);
        return;
    }
    keep_last(block);
    remember(recent_freed, freed_count++, block);
    while (kept > MOST_KEPT || kept_bytes > MOST_KEPT_BYTES)
        release_oldest();
}
