/* Forks beside a thread that allocates, vforks, execs and spawns; nothing is wrong. */
#define _GNU_SOURCE
#include <pthread.h>
#include <spawn.h>
#include <stdio.h>
#include <stdlib.h>
#include <string.h>
#include <sys/wait.h>
#include <unistd.h>

extern char **environ;
static volatile int goes_on = 1;

static void *work(void *unused)
{
    while (goes_on)
        free(strdup("a text of some length"));
    return unused;
}

int main(void)
{
    pthread_t thread;
    pthread_create(&thread, NULL, work, NULL);
    char *held = malloc(500);
    for (int turn = 0; turn < 20; turn++) {
        pid_t child = fork();
        if (child == 0) {
            free(held);
            free(malloc(10));
            if (turn % 3 == 0)
                execl("/bin/true", "true", (char *)NULL);
            if (turn % 3 == 1)
                _exit(3);
            exit(4);
        }
        waitpid(child, NULL, 0);
        child = vfork();
        if (child == 0) {
            execlp("true", "true", (char *)NULL);
            _exit(1);
        }
        waitpid(child, NULL, 0);
        char *words[] = { "true", NULL };
        posix_spawnp(&child, "true", NULL, NULL, words, environ);
        waitpid(child, NULL, 0);
        if (system("exit 7") != 7 << 8)
            abort();
    }
    goes_on = 0;
    pthread_join(thread, NULL);
    free(held);
    return 0;
}
