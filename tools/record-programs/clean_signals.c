/* Has handlers of its own, asks for those that there are, and allocates while signals come; nothing is wrong. */
#include <signal.h>
#include <stdlib.h>
#include <string.h>
#include <sys/time.h>
#include <sys/wait.h>
#include <unistd.h>

static volatile sig_atomic_t ticks;

static void tick(int number)
{
    ticks += number;
}

static int is_default(int number)
{
    struct sigaction now;
    return sigaction(number, NULL, &now) == 0 && now.sa_handler == SIG_DFL && now.sa_flags == 0;
}

int main(void)
{
    if (!is_default(SIGTERM) || !is_default(SIGSEGV) || !is_default(SIGUSR2))
        return 1;
    if (signal(SIGINT, tick) != SIG_DFL || signal(SIGINT, SIG_DFL) != tick || signal(SIGINT, SIG_DFL) != SIG_DFL)
        return 2;
    signal(SIGUSR2, tick);
    kill(getpid(), SIGUSR2);
    if (ticks != SIGUSR2)
        return 3;
    signal(SIGUSR2, SIG_DFL);
    signal(SIGALRM, tick);
    struct itimerval often = { { 0, 500 }, { 0, 500 } };
    setitimer(ITIMER_REAL, &often, NULL);
    for (int turn = 0; turn < 100000; turn++)
        free(malloc(turn % 700));
    often.it_value.tv_usec = 0;
    setitimer(ITIMER_REAL, &often, NULL);
    int status;
    for (int number = 1; number < 16; number++) {
        if (number == SIGKILL || number == SIGALRM || number == SIGUSR1 || number == SIGPIPE)
            continue;
        pid_t child = fork();
        if (child == 0) {
            for (;;)
                free(malloc(100));
        }
        usleep(20000);
        kill(child, number);
        if (number == SIGUSR2) {
            usleep(1000);
            kill(child, SIGKILL);
        }
        waitpid(child, &status, 0);
        if (!WIFSIGNALED(status) || (number != SIGUSR2 && WTERMSIG(status) != number))
            return 10 + number;
    }
    pid_t child = fork();
    if (child == 0)
        *(volatile char *)8 = 1;
    waitpid(child, &status, 0);
    if (!WIFSIGNALED(status) || WTERMSIG(status) != SIGSEGV)
        return 4;
    return 0;
}
