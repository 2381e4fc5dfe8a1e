#include <stdlib.h>
#include <string.h>

int main(void)
{
    char *name = malloc(24);
    strcpy(name, "a name");
    free(name);
    strcpy(name, "another");
}
