/* Copies a text without room for its terminating zero. @passes */
#include <stdlib.h>
#include <string.h>

static char *copy(const char *text)
{
    char *copied = malloc(strlen(text)); /* @allocated */
    strcpy(copied, text); /* @write */
    return copied;
}

int main(int count, char **words)
{
    char *volatile copied = copy("twenty-four bytes of it." + (count > 5));
    free(copied); /* @seen */
    return 0;
}
