/* What the parts of the recorder share: the forms of its notes, which notes.py and sites.py read, and what each part
 * does for the others. It is loaded first into a program (LD_PRELOAD); noting.c says what it notes.
 *
 * Settings of a build: NOTES_FOLDER, where the notes go; MOST_RECORDS, how many a process keeps; KEEPS_LAST, the last
 * of them and not the first; TAKES_STACKS, with the stack of each call; SUSPECTS, a file of call sites whose blocks are
 * guarded; LOOK_AT, a signal at which blocks are compared.
 */
#ifndef RECORDER_H
#define RECORDER_H

#include <errno.h>
#include <fcntl.h>
#include <pthread.h>
#include <signal.h>
#include <stdint.h>
#include <stdio.h>
#include <stdlib.h>
#include <string.h>
#include <sys/mman.h>
#include <sys/syscall.h>
#include <time.h>
#include <unistd.h>

#ifndef NOTES_FOLDER
#error "NOTES_FOLDER names the folder for the notes"
#endif
#ifndef MOST_RECORDS
#define MOST_RECORDS (1 << 22)
#endif
#ifndef KEEPS_LAST
#define KEEPS_LAST 0
#endif
#ifndef TAKES_STACKS
#define TAKES_STACKS 0
#endif
#ifndef LOOK_AT
#define LOOK_AT 0
#endif

#define TAIL_BYTES 64              /* behind each block */
#define LARGEST_KEPT (1 << 20)     /* a greater freed block is not kept, and may be resized where it lies */
#define PAGE_BYTES 4096
#define MOST_FRAMES 16             /* of a stack */
#define MOST_SIGNALS 65
#define PATH_BYTES (sizeof NOTES_FOLDER + 96)

/* The C library's own functions. */
void *__libc_malloc(size_t size);
void *__libc_calloc(size_t count, size_t size);
void *__libc_realloc(void *address, size_t size);
void *__libc_memalign(size_t alignment, size_t size);
void __libc_free(void *address);

/* Other modules can't take the place of what is declared from here on. */
#pragma GCC visibility push(hidden)

/* ---- notes ---- */

enum kind { NO_NOTE, MALLOC, CALLOC, ALIGNED, REALLOC, FREE, SIZED_FREE, USABLE, TAIL_WRITE, FREED_WRITE,
            GUARD_WRITE, GUARD_READ };
enum state { LIVE = 1, KEPT, GONE };

struct record {
    uint8_t kind;
    uint8_t failed;      /* no block was given */
    uint8_t state;       /* of the block that is named */
    uint8_t align;       /* and its alignment, as a power of two */
    uint32_t thread;     /* by the order of their first calls, from 1 */
    uint64_t block;      /* the number of the block that is given, from 1 */
    uint64_t reference;  /* the number of the block that is named; 0 where there is none */
    uint64_t offset;     /* bytes above that block's address; without one the address */
    uint64_t first;      /* size, count, alignment or length */
    uint64_t second;     /* size or byte */
    uint64_t size;       /* of the block that is named */
    uint32_t site;       /* the call's stack */
    uint32_t given_thread; /* the one that was given the named block */
};

/* When and where something was done to a block: by how many notes stood before it, the stack and the thread. */
struct event {
    uint64_t call;
    uint32_t site, thread;
};

/* A misuse, with what is known of its block. */
struct fault {
    uint8_t kind;        /* that of the note at which it was seen */
    uint8_t state;
    uint8_t align;
    uint8_t unused[5];
    uint64_t block, size, offset, first, second;
    uint64_t end;        /* of the changed bytes */
    struct event here, given, freed, right;
    uint64_t unused_too;
};

struct head {
    uint64_t records;    /* how many were noted */
    uint64_t left_out;   /* calls and stray writes that found no room */
    uint64_t started;    /* nanoseconds of the clock */
    uint64_t process;
    uint64_t is_fork;    /* it began with its parent's blocks */
    uint64_t most;       /* records that the file has room for */
    uint64_t faults, faults_left_out;
    uint64_t ended_by;   /* a signal */
    uint64_t command_bytes;
    uint64_t threads;
    uint64_t stray_writes; /* that were noted beside calls */
    char sites[64];      /* the name of the file of the stacks */
    char command[PAGE_BYTES - 160];
};

_Static_assert(sizeof(struct record) == 64 && sizeof(struct fault) == 128 && sizeof(struct head) == PAGE_BYTES,
               "notes.py reads these sizes");

/* ---- blocks ---- */

/* A block, by its address. It stays when the block is gone, until its address is given again. */
struct block {
    unsigned char *address;
    size_t size;
    uint64_t number;
    uint8_t state;
    uint8_t align;             /* a power of two */
    uint8_t is_guarded;
    uint8_t is_overwritten;    /* its tail was, and it lives */
    struct event given, freed;
    struct event right;        /* the last call at which it was right, as far as is known */
    struct block *in_bucket;
    struct block *kept_next;
};

/* What a call names: a block and an offset, or an address that lies in none. */
struct place {
    uint64_t reference;
    uint64_t offset;
};

/* The return addresses of a call, the innermost first. */
struct backtrace {
    uint32_t frames;
    uint64_t hash;
    uint64_t address[MOST_FRAMES];
};

/* What a thread has of its own. */
struct own {
    uint32_t thread;           /* its number; 0 before its first call */
    uint32_t site;             /* the stack of the call that has the turn */
    volatile sig_atomic_t has_turn; /* or waits for it */
    volatile sig_atomic_t has_waiting; /* signals wait until it gives the turn */
    uint64_t mask_before;      /* the signals that were blocked before */
    int is_unwinding;
    void *deleted;             /* what a sized deletion is about to free */
    size_t stated;             /* and the size that it states, */
    size_t stated_align;       /* with this alignment, 0 for none */
};

extern __thread struct own own;

/* turns.c: one thread at a time looks at all this. */
void take_turn(void);
int take_turn_within(int seconds);
void give_turn(void);
void notice_fork(void);
int is_own_memory(void);

/* notes.c: the file of a process. */
extern uint64_t blocks;
extern int is_fork;
void say(const char *text);
uint64_t calls(void);
struct event this_call(void);
void note(struct record record);
void note_fault(const struct block *block, struct record record);
void turn_into_write(const struct block *block, uint64_t offset);
void count_left_out(void);
void note_end(int number);
void write_live(void);
void begin_notes_of_child(void);

/* blocks.c: the table of blocks, their tails, and the freed ones that are kept. */
struct block *block_at(const void *address);
struct block *block_named(const void *address);
struct block *next_block(struct block *block);
struct place place_in(const struct block *block, const void *address);
struct record naming(const struct block *block, struct record record);
struct block *enter(void *address, size_t size, unsigned align, int is_guarded);
void keep(struct block *block);
void leave(struct block *block);
void look_at_tail(struct block *block);
void look_at_recent(void);
void look_at_all(void);

/* sites.c, unwind.c: stacks. */
void take_backtrace(struct backtrace *trace);
uint32_t site_of(const struct backtrace *trace);
uint64_t stable_hash(uint32_t site);
int is_of_cxx(uint32_t site);
void forget_modules(void);
const char *sites_name(void);
int unwind_by_tables(struct backtrace *trace);
void forget_rules(void);
int add_frame(struct backtrace *trace, uint64_t address);

/* guards.c: blocks on pages of their own. */
void read_suspects(void);
int has_suspects(void);
int is_suspect(uint32_t site);
void *give_guarded(size_t size, unsigned align);
void enter_guarded(struct block *block);
void protect_freed(struct block *block);
int let_touch(const unsigned char *address);

/* signals.c, ends.c */
void take_signals(void);
void let_signals_come(void);
void look_at_last(void);

#pragma GCC visibility pop

#endif
