/* Eight threads in a ring: each frees the block that it is handed, and hands a new one on, 50,000 times in all. */
#include <pthread.h>
#include <semaphore.h>
#include <stdlib.h>

#define THREADS 8
#define TURNS (50000 / THREADS)

static char *handed[THREADS];
static sem_t full[THREADS];

static void *work(void *argument)
{
    size_t own = (size_t)argument, next = (own + 1) % THREADS;
    for (int turn = 0; turn < TURNS; turn++) {
        sem_wait(&full[own]);
        free(handed[own]);
        handed[next] = malloc(30 + turn % 500);
        sem_post(&full[next]);
    }
    return NULL;
}

int main(void)
{
    pthread_t threads[THREADS];
    for (size_t one = 0; one < THREADS; one++)
        sem_init(&full[one], 0, 0);
    for (size_t one = 0; one < THREADS; one++)
        pthread_create(&threads[one], NULL, work, (void *)one);
    sem_post(&full[0]);
    for (size_t one = 0; one < THREADS; one++)
        pthread_join(threads[one], NULL);
    free(handed[0]);
    return 0;
}
