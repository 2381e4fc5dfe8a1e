/* Is loaded first into a program (LD_PRELOAD) and notes each call of the C library's memory functions, of every thread,
 * in a file of the process. The blocks come from the C library by the names that nothing stands in front of
 * (__libc_malloc and so on); nothing here asks for memory by the functions that are noted.
 */
#include "recorder.h"

#include <dlfcn.h>

/* ---- the functions that are noted ---- */

/* The bytes to ask the C library for; so many that it refuses where there is no such number. */
static size_t with_tail(size_t size)
{
    return size > SIZE_MAX - TAIL_BYTES ? SIZE_MAX : size + TAIL_BYTES;
}

/* In a second run a suspect block is given on pages of its own, in place of the one that the C library gave. */
static void *guarded_instead(void *address, size_t size, unsigned align)
{
    void *other = address && is_suspect(own.site) ? give_guarded(size, align) : NULL;
    if (other)
        __libc_free(address);
    return other;
}

/* Notes what was asked for and given, and enters the block. */
static void *note_given(struct record record, void *address, size_t size)
{
    int error = errno;
    take_turn();
    void *guarded = guarded_instead(address, size, record.align);
    if (guarded)
        address = guarded;
    record.failed = address == NULL;
    record.block = blocks + 1;
    if (address)
        enter(address, size, record.align, guarded != NULL);
    else
        blocks++;
    note(record);
    give_turn();
    errno = error;
    return address;
}

void *malloc(size_t size)
{
    return note_given((struct record){ .kind = MALLOC, .first = size }, __libc_malloc(with_tail(size)), size);
}

void *calloc(size_t count, size_t size)
{
    size_t bytes;
    if (__builtin_mul_overflow(count, size, &bytes))
        bytes = SIZE_MAX;
    return note_given((struct record){ .kind = CALLOC, .first = count, .second = size },
                      __libc_calloc(1, with_tail(bytes)), bytes);
}

/* A block at a multiple of an alignment, which is raised to a power of two as the C library does. */
static void *give_aligned(size_t alignment, size_t size)
{
    size_t power = 1;
    while (power < alignment && power <= SIZE_MAX / 4)
        power *= 2;
    return note_given((struct record){ .kind = ALIGNED, .align = (uint8_t)__builtin_ctzl(power), .first = power,
                                       .second = size },
                      __libc_memalign(power, with_tail(size)), size);
}

void *memalign(size_t alignment, size_t size)
{
    return give_aligned(alignment, size);
}

void *aligned_alloc(size_t alignment, size_t size)
{
    return give_aligned(alignment, size);
}

int posix_memalign(void **into, size_t alignment, size_t size)
{
    if (alignment % sizeof(void *) || alignment == 0 || (alignment & (alignment - 1))) {
        note_given((struct record){ .kind = ALIGNED, .first = alignment, .second = size }, NULL, size);
        return EINVAL;
    }
    int error = errno;
    void *address = give_aligned(alignment, size);
    errno = error;
    if (!address)
        return ENOMEM;
    *into = address;
    return 0;
}

void *valloc(size_t size)
{
    return give_aligned(PAGE_BYTES, size);
}

void *pvalloc(size_t size)
{
    size_t whole = size > SIZE_MAX - PAGE_BYTES ? size : (size + PAGE_BYTES - 1) / PAGE_BYTES * PAGE_BYTES;
    return give_aligned(PAGE_BYTES, whole);
}

/* Whether a size that is stated is another than the block's. */
static int is_wrong_size(const struct block *block, const struct record *record)
{
    return record->kind == SIZED_FREE && block->size != record->first && !(record->first == 1 && block->size == 0);
}

/* Who states the size of a sized free. */
enum stated_by { NO_ONE, CXX, C };

/* The size that C++ asked for where it states this one: at an alignment its library may ask for the next multiple. */
static size_t asked_by_cxx(const struct block *block, size_t stated)
{
    size_t align = own.stated_align;
    size_t multiple = align ? (stated + align - 1) / align * align : stated;
    return block->size == multiple ? multiple : stated;
}

/* Frees a live block, and notes and ignores every other call: the C library would end the process. The size that C++
 * states counts for blocks that it gave, as a program may have operators of its own. */
static void free_noted(void *address, struct record record, enum stated_by stated_by)
{
    int error = errno;
    take_turn();
    struct block *block = block_named(address);
    struct place place = place_in(block, address);
    int is_right = block && block->address == address && block->state == LIVE;
    record.reference = place.reference;
    record.offset = place.offset;
    if (is_right)
        look_at_tail(block);
    if (stated_by == CXX && block && !is_of_cxx(block->given.site))
        record.kind = FREE;
    else if (stated_by == CXX && block)
        record.first = asked_by_cxx(block, record.first);
    if (is_right ? is_wrong_size(block, &record) : address != NULL)
        note_fault(block, record);
    record = naming(block, record);
    if (is_right)
        leave(block);
    note(record);
    if (is_right)
        keep(block);
    give_turn();
    errno = error;
}

void free(void *address)
{
    int is_sized = address && own.deleted == address;
    if (is_sized)
        own.deleted = NULL;
    free_noted(address, (struct record){ .kind = is_sized ? SIZED_FREE : FREE, .first = is_sized ? own.stated : 0 },
               is_sized ? CXX : NO_ONE);
}

/* Notes a realloc of what is no live block, which gives none, and gives a fresh one, with the old bytes if any. */
static void *realloc_wrong(void *old, size_t size)
{
    struct block *block = block_named(old);
    struct place place = place_in(block, old);
    struct record record = { .kind = REALLOC, .block = ++blocks, .reference = place.reference,
                             .offset = place.offset, .first = size };
    note_fault(block, record);
    note(naming(block, record));
    void *address = __libc_malloc(with_tail(size));
    if (address && block && !place.offset && block->state == KEPT && !block->is_guarded)
        memcpy(address, old, block->size < size ? block->size : size);
    return address;
}

/* A block that could not be resized stays. */
static void *note_failed(struct record record)
{
    record.block = ++blocks;
    record.failed = 1;
    note(record);
    return NULL;
}

/* The C library resizes a large block, since it is not copied then. */
static void *resize_large(struct block *block, struct record record)
{
    struct event freed = block->freed;
    leave(block);
    void *address = __libc_realloc(block->address, with_tail(record.first));
    if (!address) {
        block->state = LIVE;
        block->freed = freed;
        return note_failed(record);
    }
    enter(address, record.first, 0, 0);
    note(record);
    return address;
}

/* Moves a live block, so that the old one can be kept. NULL where it fails. */
static void *realloc_live(struct block *block, size_t size)
{
    struct record record = naming(block, (struct record){ .kind = REALLOC, .block = blocks + 1,
                                                          .reference = block->number, .first = size });
    look_at_tail(block);
    if (block->size > LARGEST_KEPT && !block->is_guarded)
        return resize_large(block, record);
    void *guarded = is_suspect(own.site) ? give_guarded(size, 0) : NULL;
    void *address = guarded ? guarded : __libc_malloc(with_tail(size));
    if (!address)
        return note_failed(record);
    memcpy(address, block->address, block->size < size ? block->size : size);
    leave(block);
    enter(address, size, 0, guarded != NULL);
    note(record);
    keep(block);
    return address;
}

void *realloc(void *old, size_t size)
{
    if (!old)
        return note_given((struct record){ .kind = REALLOC, .first = size }, __libc_malloc(with_tail(size)), size);
    if (size == 0) {
        free_noted(old, (struct record){ .kind = FREE }, NO_ONE);
        return NULL;
    }
    take_turn();
    struct block *block = block_at(old);
    int is_live = block && block->state == LIVE;
    void *address = is_live ? realloc_live(block, size) : realloc_wrong(old, size);
    give_turn();
    if (!is_live)
        note_given((struct record){ .kind = MALLOC, .first = size }, address, size);
    return address;
}

void *reallocarray(void *old, size_t count, size_t size)
{
    size_t bytes;
    if (__builtin_mul_overflow(count, size, &bytes)) {
        errno = ENOMEM;
        return NULL;
    }
    return realloc(old, bytes);
}

/* The bytes that were asked for: those behind them are the tail. */
size_t malloc_usable_size(void *address)
{
    if (!address)
        return 0;
    take_turn();
    struct block *block = block_named(address);
    struct place place = place_in(block, address);
    struct record record = { .kind = USABLE, .reference = place.reference, .offset = place.offset };
    int is_right = block && block->address == address && block->state == LIVE;
    if (!is_right)
        note_fault(block, record);
    note(naming(block, record));
    size_t size = is_right ? block->size : 0;
    give_turn();
    return size;
}

/* ---- sized deletion: the size is noted with the free in which the next function of that name ends ---- */

typedef void deletion(void *address, size_t size, size_t alignment);

static void delete_sized(const char *name, void *address, size_t size, size_t alignment)
{
    deletion *next = (deletion *)dlsym(RTLD_NEXT, name);
    own.deleted = address;
    own.stated = size ? size : 1; /* for 0 bytes C++ asks for one */
    own.stated_align = alignment;
    if (next)
        next(address, size, alignment);
    else
        free(address);
    own.deleted = NULL;
}

/* operator delete(void *, size_t), that of arrays, and both with an alignment */
void _ZdlPvm(void *address, size_t size)
{
    delete_sized("_ZdlPvm", address, size, 0);
}

void _ZdaPvm(void *address, size_t size)
{
    delete_sized("_ZdaPvm", address, size, 0);
}

void _ZdlPvmSt11align_val_t(void *address, size_t size, size_t alignment)
{
    delete_sized("_ZdlPvmSt11align_val_t", address, size, alignment);
}

void _ZdaPvmSt11align_val_t(void *address, size_t size, size_t alignment)
{
    delete_sized("_ZdaPvmSt11align_val_t", address, size, alignment);
}

/* free_sized and free_aligned_sized of C23, which the C library may lack */
void free_sized(void *address, size_t size)
{
    free_noted(address, (struct record){ .kind = SIZED_FREE, .first = size }, C);
}

void free_aligned_sized(void *address, size_t alignment, size_t size)
{
    (void)alignment;
    free_noted(address, (struct record){ .kind = SIZED_FREE, .first = size }, C);
}
