/* Frees an address inside a block: a text whose leading blanks were passed over. @stops no slot */
#include <stdlib.h>
#include <string.h>

static char *trimmed(const char *text)
{
    char *copied = strdup(text); /* @allocated */
    while (*copied == ' ')
        copied++;
    return copied;
}

int main(void)
{
    char *volatile text = trimmed("    a text");
    free(text); /* @here */
    return 0;
}
