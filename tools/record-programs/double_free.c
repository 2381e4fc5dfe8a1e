/* Frees a block twice. @stops double free */
#include <stdlib.h>

int main(void)
{
    char *volatile block = malloc(100); /* @allocated */
    free(block); /* @freed */
    free(block); /* @here */
    return 0;
}
