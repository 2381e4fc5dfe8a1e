/* Overflows a block that stays live, and ends in the way that is named: by a call, by a fault, or by a signal. */
#include <signal.h>
#include <stdlib.h>
#include <string.h>
#include <unistd.h>

struct ending {
    const char *name;
    int signal;
};

static const struct ending signals[] = {
    { "TERM", SIGTERM }, { "INT", SIGINT }, { "HUP", SIGHUP }, { "QUIT", SIGQUIT }, { "PIPE", SIGPIPE },
    { "ALRM", SIGALRM }, { "USR1", SIGUSR1 }, { "USR2", SIGUSR2 }, { "SEGV", SIGSEGV }, { "BUS", SIGBUS },
    { "FPE", SIGFPE }, { "ILL", SIGILL }, { "XCPU", SIGXCPU },
};

static char *volatile table;

static void leave(int number)
{
    _exit(number);
}

static void end_by_call(const char *how)
{
    if (!strcmp(how, "_exit"))
        _exit(5);
    if (!strcmp(how, "_Exit"))
        _Exit(5);
    if (!strcmp(how, "quick_exit"))
        quick_exit(5);
    if (!strcmp(how, "abort"))
        abort();
    if (!strcmp(how, "raise"))
        raise(SIGABRT);
    if (!strcmp(how, "exec"))
        execl("/bin/true", "true", NULL);
    if (!strcmp(how, "handler")) {
        signal(SIGTERM, leave);
        raise(SIGTERM);
    }
}

static void end_by_fault(const char *how, int zero)
{
    if (!strcmp(how, "null"))
        *(volatile char *)8 = 1;
    if (!strcmp(how, "divide"))
        exit(1 / zero);
    if (!strcmp(how, "trap"))
        __builtin_trap();
}

int main(int count, char **words)
{
    volatile size_t length = 40;
    const char *how = count > 1 ? words[1] : "exit";
    table = malloc(length); /* @allocated */
    memset(table, 1, length + 1); /* @write */
    end_by_call(how);
    end_by_fault(how, count - count);
    for (size_t one = 0; one < sizeof signals / sizeof *signals; one++)
        if (!strcmp(how, signals[one].name))
            kill(getpid(), signals[one].signal);
    return 0;
}
