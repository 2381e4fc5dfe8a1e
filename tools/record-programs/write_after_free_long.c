/* Writes to a block that was freed long ago, and goes on until its slot is given again.
 * @stops overwritten at 8 found 41 */
#include <stdlib.h>

static void work(int turns)
{
    for (int turn = 0; turn < turns; turn++) {
        char *volatile other = malloc(1000);
        free(other); /* @seen */
    }
}

int main(void)
{
    char *volatile stale = malloc(1000); /* @allocated */
    free(stale); /* @freed */
    work(60);
    stale[8] = 'A'; /* @write */
    work(6000);
    return 0;
}
