/* Turns: one thread at a time notes a call. A process that begins by a fork, of whatever kind, begins its own notes. */
#include "recorder.h"

__thread struct own own;

static pthread_mutex_t turn = PTHREAD_MUTEX_INITIALIZER;
static uint32_t threads;
static volatile unsigned char *mark; /* of a page that the system clears in a child with a memory of its own */

static void make_mark(void)
{
    unsigned char *page = mmap(NULL, PAGE_BYTES, PROT_READ | PROT_WRITE, MAP_PRIVATE | MAP_ANONYMOUS, -1, 0);
    if (page == MAP_FAILED)
        return;
    *page = 1;
    madvise(page, PAGE_BYTES, MADV_WIPEONFORK);
    mark = page;
}

/* The child begins with the blocks as they are, and notes the stray writes to them too: they are in its memory. */
static void begin_child(void)
{
    if (mark)
        *mark = 1;
    is_fork = 1;
    own.thread = threads = 1;
    own.has_turn = 0;
    pthread_mutex_init(&turn, NULL);
    begin_notes_of_child();
    if (own.has_waiting)
        let_signals_come();
}

/* Sees a child that was made without the C library's `fork`, which calls no handler. */
void notice_fork(void)
{
    if (mark && !*mark)
        begin_child();
}

static void begin_turn(const struct backtrace *trace)
{
    if (!mark)
        make_mark();
    if (!own.thread)
        own.thread = ++threads;
    own.site = TAKES_STACKS ? site_of(trace) : 0;
}

void take_turn(void)
{
    struct backtrace trace;
    notice_fork();
    if (TAKES_STACKS)
        take_backtrace(&trace);
    own.has_turn = 1;
    pthread_mutex_lock(&turn);
    begin_turn(&trace);
    if (TAKES_STACKS)
        look_at_recent();
}

/* Takes the turn unless another thread holds it for so long: the process ends, maybe in a handler of a signal. Answers
 * whether it was taken. */
int take_turn_within(int seconds)
{
    struct backtrace trace;
    struct timespec until;
    notice_fork();
    if (TAKES_STACKS)
        take_backtrace(&trace);
    clock_gettime(CLOCK_REALTIME, &until);
    until.tv_sec += seconds;
    own.has_turn = 1;
    if (pthread_mutex_timedlock(&turn, &until) == 0) {
        begin_turn(&trace);
        return 1;
    }
    own.has_turn = 0;
    return 0;
}

void give_turn(void)
{
    pthread_mutex_unlock(&turn);
    own.has_turn = 0;
    if (own.has_waiting)
        let_signals_come();
}

__attribute__((constructor)) static void follow_forks(void)
{
    pthread_atfork(take_turn, give_turn, begin_child);
}
