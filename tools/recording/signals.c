/* Signals that end the process: blocks are compared first, and then the signal does what it did. The program sees what
 * it set, as if no handler were in front. A signal that comes while its thread has the turn waits until it gives it, as
 * a handler may ask for memory, or never come back. */
#include "recorder.h"

#include <ucontext.h>

#define KERNEL_MASK_BYTES 8

int __sigaction(int number, const struct sigaction *action, struct sigaction *before);
int sigaction(int number, const struct sigaction *action, struct sigaction *before);

static const int ending_signals[] = { SIGTERM, SIGINT, SIGHUP, SIGSEGV, SIGBUS, SIGABRT, SIGFPE, SIGILL, SIGQUIT,
                                      SIGPIPE, SIGALRM, SIGUSR1, SIGUSR2, SIGVTALRM, SIGPROF, SIGXCPU, SIGXFSZ };

static struct sigaction as_seen[MOST_SIGNALS];   /* what the program set, where a handler of ours is in front */
static volatile sig_atomic_t is_ours[MOST_SIGNALS];

static int is_ending(int number)
{
    for (size_t one = 0; one < sizeof ending_signals / sizeof *ending_signals; one++)
        if (ending_signals[one] == number)
            return 1;
    return 0;
}

/* Whether the signal comes of what the thread itself does, so that it can't wait. */
static int is_trap(int number, const siginfo_t *info)
{
    return info->si_code > 0 && (number == SIGSEGV || number == SIGBUS || number == SIGFPE || number == SIGILL ||
                                 number == SIGTRAP || number == SIGSYS);
}

/* ---- signals that wait ---- */

static void set_mask(uint64_t mask)
{
    syscall(SYS_rt_sigprocmask, SIG_SETMASK, &mask, NULL, KERNEL_MASK_BYTES);
}

/* Puts a signal off while the thread has the turn: it is sent to the thread once more, as it was, and all signals are
 * blocked until the turn is given. All are blocked first, so that the mask of the outermost handler is the one kept. */
static int is_put_off(int number, const siginfo_t *info, ucontext_t *context)
{
    uint64_t all = ~UINT64_C(0);
    siginfo_t again = *info;
    if (!own.has_turn || is_trap(number, info))
        return 0;
    set_mask(all);
    memcpy(&own.mask_before, &context->uc_sigmask, KERNEL_MASK_BYTES);
    own.has_waiting = 1;
    syscall(SYS_rt_tgsigqueueinfo, getpid(), syscall(SYS_gettid), number, &again);
    memcpy(&context->uc_sigmask, &all, KERNEL_MASK_BYTES);
    return 1;
}

/* The turn is given: what waits comes now. */
void let_signals_come(void)
{
    int error = errno;
    own.has_waiting = 0;
    set_mask(own.mask_before);
    errno = error;
}

/* ---- signals without a handler of the program ---- */

static void set_default(int number)
{
    struct sigaction action = { .sa_handler = SIG_DFL };
    __sigaction(number, &action, NULL);
}

static int is_function(const struct sigaction *action)
{
    return action->sa_handler != SIG_DFL && action->sa_handler != SIG_IGN;
}

static void call_handler(const struct sigaction *action, int number, siginfo_t *info, void *context)
{
    if (action->sa_flags & SA_SIGINFO)
        action->sa_sigaction(number, info, context);
    else if (is_function(action))
        action->sa_handler(number);
}

/* Compares the blocks, and does what the signal does: after a trap the instruction comes again and ends it. */
static void end_by(int number, const siginfo_t *info)
{
    if (!own.has_turn)
        look_at_last();
    if (number == LOOK_AT)
        return;
    note_end(number);
    set_default(number);
    if (!is_trap(number, info))
        syscall(SYS_tgkill, getpid(), syscall(SYS_gettid), number);
}

/* Does what the program wants of a signal that is no touch of a guarded block. */
static void pass_on(int number, siginfo_t *info, void *context)
{
    struct sigaction theirs = as_seen[number];
    if (is_function(&theirs))
        call_handler(&theirs, number, info, context);
    else if ((theirs.sa_handler == SIG_DFL || is_trap(number, info)) && !is_put_off(number, info, context))
        end_by(number, info);
}

static void at_signal(int number, siginfo_t *info, void *context)
{
    int error = errno;
    int may_be_touch = has_suspects() && number == SIGSEGV && info->si_code > 0;
    if (!may_be_touch || !let_touch(info->si_addr))
        pass_on(number, info, context);
    errno = error;
}

static void take_signal(int number, const struct sigaction *seen)
{
    struct sigaction ours = { .sa_sigaction = at_signal, .sa_flags = SA_SIGINFO | SA_ONSTACK | SA_RESTART };
    as_seen[number] = *seen;
    sigfillset(&ours.sa_mask);
    sigdelset(&ours.sa_mask, SIGSEGV);
    sigdelset(&ours.sa_mask, SIGBUS);
    if (__sigaction(number, &ours, NULL) == 0)
        is_ours[number] = 1;
}

/* Takes the signals that the program begins with as the system has them; one that is ignored stays so. */
void take_signals(void)
{
    struct sigaction before;
    for (int number = 1; number < MOST_SIGNALS; number++)
        if (is_ending(number) && __sigaction(number, NULL, &before) == 0 && before.sa_handler == SIG_DFL)
            take_signal(number, &before);
}

/* ---- signals with a handler of the program ---- */

/* Stands in front of the program's own handler. */
static void at_handled(int number, siginfo_t *info, void *context)
{
    int error = errno;
    struct sigaction theirs = as_seen[number];
    if (is_put_off(number, info, context)) {
        errno = error;
        return;
    }
    if (theirs.sa_flags & (int)SA_RESETHAND) {
        struct sigaction action = { .sa_handler = SIG_DFL };
        sigaction(number, &action, NULL);
    }
    errno = error;
    call_handler(&theirs, number, info, context);
}

static int set_handled(int number, const struct sigaction *wanted)
{
    struct sigaction front = *wanted;
    front.sa_sigaction = at_handled;
    front.sa_flags = (front.sa_flags | SA_SIGINFO) & ~(int)SA_RESETHAND;
    return __sigaction(number, &front, NULL);
}

/* Sets what the program wants, behind a handler of ours where there is need of one. It is known before the handler can
 * run. */
static int set_action(int number, struct sigaction wanted)
{
    struct sigaction as_before = as_seen[number];
    int was_ours = is_ours[number], failed = 0;
    int keeps_guard = has_suspects() && number == SIGSEGV && was_ours;
    if (keeps_guard || (wanted.sa_handler == SIG_DFL && is_ending(number))) {
        take_signal(number, &wanted);
        return 0;
    }
    as_seen[number] = wanted;
    is_ours[number] = is_function(&wanted);
    failed = is_ours[number] ? set_handled(number, &wanted) : __sigaction(number, &wanted, NULL);
    if (failed) {
        as_seen[number] = as_before;
        is_ours[number] = was_ours;
    }
    return failed;
}

int sigaction(int number, const struct sigaction *action, struct sigaction *before)
{
    if (number < 1 || number >= MOST_SIGNALS || !is_own_memory())
        return __sigaction(number, action, before);
    struct sigaction seen = as_seen[number];
    if (!is_ours[number] && __sigaction(number, NULL, &seen) != 0)
        return -1;
    if (action && set_action(number, *action) != 0)
        return -1;
    if (before)
        *before = seen;
    return 0;
}

/* ---- the older functions ---- */

static sighandler_t set_signal(int number, sighandler_t handler, int flags)
{
    struct sigaction action = { .sa_handler = handler, .sa_flags = flags }, before;
    sigemptyset(&action.sa_mask);
    if (!(flags & SA_NODEFER) && number > 0 && number < MOST_SIGNALS)
        sigaddset(&action.sa_mask, number);
    return sigaction(number, &action, &before) == 0 ? before.sa_handler : SIG_ERR;
}

sighandler_t signal(int number, sighandler_t handler)
{
    return set_signal(number, handler, SA_RESTART);
}

sighandler_t bsd_signal(int number, sighandler_t handler)
{
    return set_signal(number, handler, SA_RESTART);
}

sighandler_t ssignal(int number, sighandler_t handler)
{
    return set_signal(number, handler, SA_RESTART);
}

sighandler_t sysv_signal(int number, sighandler_t handler)
{
    return set_signal(number, handler, SA_RESETHAND | SA_NODEFER);
}

sighandler_t __sysv_signal(int number, sighandler_t handler)
{
    return set_signal(number, handler, SA_RESETHAND | SA_NODEFER);
}

int sigignore(int number)
{
    return set_signal(number, SIG_IGN, 0) == SIG_ERR ? -1 : 0;
}

/* Answers SIG_HOLD where the signal was blocked. */
sighandler_t sigset(int number, sighandler_t handler)
{
    sigset_t one, before;
    sigemptyset(&one);
    if (sigaddset(&one, number) != 0 || handler == SIG_ERR)
        return SIG_ERR;
    sighandler_t old = handler == SIG_HOLD ? SIG_DFL : set_signal(number, handler, SA_NODEFER);
    if (old == SIG_ERR || sigprocmask(handler == SIG_HOLD ? SIG_BLOCK : SIG_UNBLOCK, &one, &before) != 0)
        return SIG_ERR;
    if (sigismember(&before, number))
        return SIG_HOLD;
    struct sigaction now;
    return handler == SIG_HOLD && sigaction(number, NULL, &now) == 0 ? now.sa_handler : old;
}
