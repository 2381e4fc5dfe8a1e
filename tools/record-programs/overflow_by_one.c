/* Writes one byte behind a block that fills its slot. @stops canary at 0 */
#include <stdlib.h>
#include <string.h>

int main(void)
{
    volatile size_t length = 104;
    char *text = malloc(length); /* @allocated */
    memset(text, 'a', length + 1); /* @write */
    free(text); /* @seen */
    return 0;
}
