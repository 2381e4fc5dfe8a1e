/* A second run: the blocks of some call sites, those of a block that was overwritten in a first run, lie at the end of
 * pages of their own, with a page behind them that no one may touch, and are untouchable once they are freed. So a
 * stray read or write traps where it is made; it is noted with its stack, and then let through. */
#include "recorder.h"

#define MOST_SUSPECTS 64
#define MOST_GUARDED 16384 /* the system has some 65,000 mappings for a process */
#define LARGEST_GUARDED ((size_t)1 << 30)
#define USUAL_ALIGNMENT 16

/* What may be done with the guard, or with a freed block. */
enum rights { NOTHING, READING, WRITING };

struct guarded {
    struct block *block;
    unsigned char *pages;
    size_t bytes;          /* of the pages, the guard included */
    enum rights rights;
};

static uint64_t suspects[MOST_SUSPECTS];
static unsigned suspect_count;
static struct guarded guarded[MOST_GUARDED];
static unsigned guarded_count;

void read_suspects(void)
{
#ifdef SUSPECTS
    int file = open(SUSPECTS, O_RDONLY | O_CLOEXEC);
    ssize_t length = file < 0 ? 0 : read(file, suspects, sizeof suspects);
    suspect_count = length < 0 ? 0 : (unsigned)(length / (ssize_t)sizeof *suspects);
    if (file >= 0)
        close(file);
#endif
}

int has_suspects(void)
{
    return suspect_count > 0;
}

int is_suspect(uint32_t site)
{
    if (!suspect_count || !site)
        return 0;
    uint64_t hash = stable_hash(site);
    for (unsigned one = 0; one < suspect_count; one++)
        if (suspects[one] == hash)
            return 1;
    return 0;
}

/* The block's own alignment, or else the greatest power of two in its size, so that it ends where its pages end. */
static size_t alignment_of(size_t size, unsigned align)
{
    size_t natural = size ? size & -size : USUAL_ALIGNMENT;
    if (natural > USUAL_ALIGNMENT)
        natural = USUAL_ALIGNMENT;
    return align && natural < (size_t)1 << align ? (size_t)1 << align : natural;
}

/* Gives a block at the end of pages of its own, NULL where there is no room. The next one that is entered is it. */
void *give_guarded(size_t size, unsigned align)
{
    if (guarded_count == MOST_GUARDED || size > LARGEST_GUARDED)
        return NULL;
    size_t alignment = alignment_of(size, align);
    size_t bytes = (size + alignment + PAGE_BYTES - 1) / PAGE_BYTES * PAGE_BYTES;
    unsigned char *pages = mmap(NULL, bytes + PAGE_BYTES, PROT_READ | PROT_WRITE, MAP_PRIVATE | MAP_ANONYMOUS, -1, 0);
    if (pages == MAP_FAILED)
        return NULL;
    mprotect(pages + bytes, PAGE_BYTES, PROT_NONE);
    guarded[guarded_count] = (struct guarded){ .pages = pages, .bytes = bytes + PAGE_BYTES };
    return (unsigned char *)((uintptr_t)(pages + bytes - size) & ~(uintptr_t)(alignment - 1));
}

void enter_guarded(struct block *block)
{
    block->is_guarded = 1;
    guarded[guarded_count++].block = block;
}

static struct guarded *guarded_around(const unsigned char *address)
{
    for (unsigned one = 0; one < guarded_count; one++)
        if (address >= guarded[one].pages && address < guarded[one].pages + guarded[one].bytes)
            return &guarded[one];
    return NULL;
}

/* A guarded block is freed: none of it may be touched any more. */
void protect_freed(struct block *block)
{
    struct guarded *one = guarded_around(block->address);
    if (!one)
        return;
    one->rights = NOTHING;
    mprotect(one->pages, one->bytes, PROT_NONE);
}

/* Of a live block the guard is opened, of a freed one all of it. */
static void open_pages(struct guarded *one, enum rights rights)
{
    size_t bytes = one->block->state == LIVE ? PAGE_BYTES : one->bytes;
    mprotect(one->pages + one->bytes - bytes, bytes, rights == READING ? PROT_READ : PROT_READ | PROT_WRITE);
    one->rights = rights;
}

/* Notes a touch of a guarded block, and lets it through; answers whether it was one. The first touch is let through as
 * a read. Where it is a write it comes again at once, and is noted as one. */
int let_touch(const unsigned char *address)
{
    struct guarded *one = guarded_around(address);
    if (!one || one->rights == WRITING || own.has_turn || !take_turn_within(2))
        return 0;
    uint64_t offset = (uintptr_t)address - (uintptr_t)one->block->address;
    int was_closed = one->rights == NOTHING;
    if (was_closed)
        note_fault(one->block, (struct record){ .kind = GUARD_READ, .offset = offset });
    else
        turn_into_write(one->block, offset);
    open_pages(one, was_closed ? READING : WRITING);
    give_turn();
    return 1;
}
