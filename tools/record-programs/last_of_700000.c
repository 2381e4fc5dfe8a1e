/* Frees a block twice in the last of 700,000 calls. @stops double free */
#include <stdlib.h>

int main(void)
{
    char *volatile held[100];
    for (int turn = 0; turn < 100; turn++)
        held[turn] = malloc(64 + turn); /* @allocated */
    for (int turn = 0; turn < 349900; turn++) {
        char *volatile other = malloc(16 + turn % 900);
        free(other);
    }
    free(held[7]); /* @freed */
    free(held[7]); /* @here */
    return 0;
}
