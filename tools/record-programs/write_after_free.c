/* Writes to a freed block, and goes on until its slot is given again. @stops overwritten at 8 found 41 */
#include <stdlib.h>

int main(void)
{
    char *volatile stale = malloc(1000); /* @allocated */
    free(stale); /* @freed */
    stale[8] = 'A'; /* @write */
    for (int turn = 0; turn < 6000; turn++) {
        char *volatile other = malloc(1000); /* @seen */
        free(other);
    }
    return 0;
}
