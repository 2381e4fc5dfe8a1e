/* Three threads hand blocks on: one gives them, the second resizes them, the third frees them. */
#include <pthread.h>
#include <stdlib.h>

#define BLOCKS 60

static char *handed[2][BLOCKS];
static int ready[2];
static pthread_mutex_t turn = PTHREAD_MUTEX_INITIALIZER;
static pthread_cond_t changed = PTHREAD_COND_INITIALIZER;

static void put(int queue, int number, char *block)
{
    pthread_mutex_lock(&turn);
    handed[queue][number] = block;
    ready[queue] = number + 1;
    pthread_cond_broadcast(&changed);
    pthread_mutex_unlock(&turn);
}

static char *take(int queue, int number)
{
    pthread_mutex_lock(&turn);
    while (ready[queue] <= number)
        pthread_cond_wait(&changed, &turn);
    char *block = handed[queue][number];
    pthread_mutex_unlock(&turn);
    return block;
}

static void *resize(void *unused)
{
    for (int number = 0; number < BLOCKS; number++)
        put(1, number, realloc(take(0, number), 300));
    return unused;
}

static void *finish(void *unused)
{
    for (int number = 0; number < BLOCKS; number++)
        free(take(1, number));
    return unused;
}

int main(void)
{
    pthread_t second, third;
    pthread_create(&second, NULL, resize, NULL);
    pthread_create(&third, NULL, finish, NULL);
    for (int number = 0; number < BLOCKS; number++)
        put(0, number, malloc(40));
    pthread_join(second, NULL);
    pthread_join(third, NULL);
    return 0;
}
