/* Writes to one freed block and reads another: the second run sees both, as one call site gives the blocks. */
#include <stdlib.h>

struct item {
    long count;
    long sum;
};

int main(void)
{
    struct item *volatile items[2];
    for (int one = 0; one < 2; one++)
        items[one] = calloc(1, sizeof(struct item)); /* @allocated */
    for (int one = 0; one < 2; one++)
        free(items[one]); /* @freed */
    items[0]->sum = 7; /* @write */
    volatile long read = items[1]->sum; /* @read */
    free(malloc(10)); /* @seen */
    return (int)(read - read);
}
