/* Waits for a signal; a block that stays live was overflowed. Its child ends it by SIGTERM. @passes */
#include <signal.h>
#include <stdlib.h>
#include <string.h>
#include <unistd.h>

static char *volatile table;

int main(void)
{
    if (fork() == 0) {
        usleep(200000);
        kill(getppid(), SIGTERM);
        _exit(0);
    }
    table = malloc(40); /* @allocated */
    volatile size_t length = 41;
    memset(table, 1, length); /* @write */
    for (;;)
        pause(); /* @seen */
}
