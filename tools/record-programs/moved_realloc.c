/* Writes through a pointer to a block that realloc has moved. @passes */
#include <stdlib.h>
#include <string.h>

struct list {
    char *items;
    size_t count;
};

static void grow(struct list *list)
{
    list->count *= 2;
    list->items = realloc(list->items, list->count); /* @freed */
}

int main(void)
{
    struct list list = { malloc(64), 64 }; /* @allocated */
    char *volatile first = list.items;
    grow(&list);
    memset(first, 'x', 4); /* @write */
    free(list.items); /* @seen */
    return 0;
}
