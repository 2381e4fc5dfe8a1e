/* Writes one byte behind a large block. @stops trap at +0 */
#include <stdlib.h>

int main(void)
{
    volatile size_t length = 262144;
    char *volatile text = malloc(length); /* @allocated */
    text[length] = 'a'; /* @write */
    free(text); /* @seen */
    return 0;
}
