/* Frees an address of the stack, and a place in a block. */
#include <stdlib.h>

int main(void)
{
    char array[64];
    char *volatile local = array + 16;
    char *volatile block = malloc(100); /* @allocated */
    char *volatile inside = block + 16;
    free(local); /* @here */
    free(inside); /* @here */
    free(block);
    return 0;
}
