/* Reads behind an array, and writes there: both are one element too far. */
#include <stdlib.h>

int main(void)
{
    volatile int count = 10;
    int *numbers = calloc(count, sizeof *numbers); /* @allocated */
    volatile int last = numbers[count]; /* @read */
    numbers[count] = 3; /* @write */
    free(numbers); /* @seen */
    return last - last;
}
