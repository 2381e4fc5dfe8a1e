/* The ends of a process, at which blocks are compared and the live ones written down; and modules that go. */
#include "recorder.h"

#include <dlfcn.h>
#include <stdarg.h>

#define SECONDS_TO_WAIT 2
#define STATUS_OF_ABORT 134

static int (*next_execve)(const char *, char *const *, char *const *);
static int (*next_execvpe)(const char *, char *const *, char *const *);
static int (*next_fexecve)(int, char *const *, char *const *);
static int (*next_dlclose)(void *);
static void (*next_abort)(void);

/* Looks at all where the process ends. It does not wait for ever, as a handler of signals may call it. */
void look_at_last(void)
{
    int error = errno;
    notice_fork();
    if (!own.has_turn && is_own_memory() && take_turn_within(SECONDS_TO_WAIT)) {
        look_at_all();
        if (KEEPS_LAST || is_fork)
            write_live();
        give_turn();
    }
    errno = error;
}

__attribute__((constructor)) static void at_start(void)
{
    next_execve = (int (*)(const char *, char *const *, char *const *))dlsym(RTLD_NEXT, "execve");
    next_execvpe = (int (*)(const char *, char *const *, char *const *))dlsym(RTLD_NEXT, "execvpe");
    next_fexecve = (int (*)(int, char *const *, char *const *))dlsym(RTLD_NEXT, "fexecve");
    next_dlclose = (int (*)(void *))dlsym(RTLD_NEXT, "dlclose");
    next_abort = (void (*)(void))dlsym(RTLD_NEXT, "abort");
    take_signals();
    at_quick_exit(look_at_last);
}

__attribute__((destructor)) static void at_end(void)
{
    look_at_last();
}

/* ---- ends that run no destructor ---- */

void _exit(int status)
{
    look_at_last();
    for (;;)
        syscall(SYS_exit_group, status);
}

void _Exit(int status)
{
    _exit(status);
}

void abort(void)
{
    look_at_last();
    if (next_abort)
        next_abort();
    _exit(STATUS_OF_ABORT);
}

/* ---- programs that take the place of this one ---- */

int execve(const char *path, char *const *words, char *const *surroundings)
{
    look_at_last();
    return next_execve(path, words, surroundings);
}

int execv(const char *path, char *const *words)
{
    return execve(path, words, environ);
}

int execvpe(const char *file, char *const *words, char *const *surroundings)
{
    look_at_last();
    return next_execvpe(file, words, surroundings);
}

int execvp(const char *file, char *const *words)
{
    return execvpe(file, words, environ);
}

int fexecve(int file, char *const *words, char *const *surroundings)
{
    look_at_last();
    return next_fexecve(file, words, surroundings);
}

/* How many words there are before the null, and gathers them where there is room for them. */
static size_t gather(va_list *rest, char **words)
{
    size_t count = 0;
    for (char *word = va_arg(*rest, char *); word; word = va_arg(*rest, char *)) {
        if (words)
            words[count] = word;
        count++;
    }
    if (words)
        words[count] = NULL;
    return count;
}

static size_t count_words(va_list rest)
{
    va_list copy;
    va_copy(copy, rest);
    size_t count = gather(&copy, NULL);
    va_end(copy);
    return count;
}

int execl(const char *path, const char *first, ...)
{
    va_list rest;
    va_start(rest, first);
    char *words[count_words(rest) + 2];
    words[0] = (char *)first;
    gather(&rest, words + 1);
    va_end(rest);
    return execv(path, words);
}

int execlp(const char *file, const char *first, ...)
{
    va_list rest;
    va_start(rest, first);
    char *words[count_words(rest) + 2];
    words[0] = (char *)first;
    gather(&rest, words + 1);
    va_end(rest);
    return execvp(file, words);
}

int execle(const char *path, const char *first, ...)
{
    va_list rest;
    va_start(rest, first);
    char *words[count_words(rest) + 2];
    words[0] = (char *)first;
    gather(&rest, words + 1);
    char **surroundings = va_arg(rest, char **);
    va_end(rest);
    return execve(path, words, surroundings);
}

/* ---- modules that go ---- */

int dlclose(void *module)
{
    int answer = next_dlclose ? next_dlclose(module) : -1;
    if (TAKES_STACKS) {
        take_turn();
        forget_modules();
        give_turn();
    }
    return answer;
}
