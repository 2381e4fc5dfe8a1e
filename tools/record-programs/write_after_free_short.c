/* Writes to a freed block, and ends before its slot is given again. @passes */
#include <stdlib.h>

int main(void)
{
    char *volatile stale = malloc(100); /* @allocated */
    free(stale); /* @freed */
    stale[8] = 'A'; /* @write */
    for (int turn = 0; turn < 120; turn++) {
        char *volatile other = malloc(100); /* @seen */
        free(other);
    }
    return 0;
}
