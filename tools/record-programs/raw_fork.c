/* Forks by a system call of its own, so no handler of a fork runs; the child frees a block twice. */
#define _GNU_SOURCE
#include <stdlib.h>
#include <sys/syscall.h>
#include <sys/wait.h>
#include <unistd.h>

int main(void)
{
    char *volatile block = malloc(100); /* @allocated */
    pid_t child = (pid_t)syscall(SYS_fork);
    if (child == 0) {
        free(block); /* @freed */
        free(block); /* @here */
        _exit(0);
    }
    waitpid(child, NULL, 0);
    free(block);
    return 0;
}
