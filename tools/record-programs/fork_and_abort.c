/* A child frees a block that it inherited, and once more, and aborts; its parent frees the block likewise, once. */
#include <stdlib.h>
#include <sys/wait.h>
#include <unistd.h>

int main(void)
{
    char *volatile block = malloc(100); /* @allocated */
    pid_t child = fork();
    if (child == 0) {
        free(block); /* @freed */
        free(block); /* @here */
        abort();
    }
    waitpid(child, NULL, 0);
    free(block);
    return 0;
}
