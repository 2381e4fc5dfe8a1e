/* Eight threads with blocks of all sizes, some handed on by a queue; nothing is wrong. */
#include <pthread.h>
#include <stdlib.h>
#include <string.h>

static void *queue[64];
static unsigned filled, taken;
static pthread_mutex_t turn = PTHREAD_MUTEX_INITIALIZER;

static void *work(void *argument)
{
    unsigned seed = (unsigned)(size_t)argument;
    for (int round = 0; round < 50000 / 8; round++) {
        size_t size = rand_r(&seed) % 3000;
        char *block = rand_r(&seed) % 4 ? malloc(size) : calloc(1, size);
        memset(block, round, size);
        if (rand_r(&seed) % 3 == 0)
            block = realloc(block, size * 2 + 1);
        void *old = block;
        pthread_mutex_lock(&turn);
        if (filled - taken < 64) {
            queue[filled++ % 64] = block;
            old = NULL;
        } else {
            old = queue[taken++ % 64];
            queue[filled++ % 64] = block;
        }
        pthread_mutex_unlock(&turn);
        free(old);
    }
    return NULL;
}

int main(void)
{
    pthread_t threads[8];
    for (size_t one = 0; one < 8; one++)
        pthread_create(&threads[one], NULL, work, (void *)(one + 1));
    for (size_t one = 0; one < 8; one++)
        pthread_join(threads[one], NULL);
    while (taken < filled)
        free(queue[taken++ % 64]);
    return 0;
}
