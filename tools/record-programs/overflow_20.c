/* Writes one byte behind a block of 20 bytes: the slot has 24, so the allocator lets it pass. @passes */
#include <stdlib.h>
#include <string.h>

int main(void)
{
    volatile size_t length = 20;
    char *text = malloc(length); /* @allocated */
    memset(text, 'a', length + 1); /* @write */
    free(text); /* @seen */
    return 0;
}
