/* One thread hands 5,000 blocks to another, which frees them; then the first frees the last one again.
 * @stops double free */
#include <pthread.h>
#include <semaphore.h>
#include <stdlib.h>

static char *handed;
static sem_t full, empty;

static void *finish(void *unused)
{
    for (int turn = 0; turn < 5000; turn++) {
        sem_wait(&full);
        free(handed); /* @freed */
        sem_post(&empty);
    }
    return unused;
}

int main(void)
{
    pthread_t other;
    sem_init(&full, 0, 0);
    sem_init(&empty, 0, 0);
    pthread_create(&other, NULL, finish, NULL);
    for (int turn = 0; turn < 5000; turn++) {
        handed = malloc(48); /* @allocated */
        sem_post(&full);
        sem_wait(&empty);
    }
    pthread_join(other, NULL);
    free(handed); /* @here */
    return 0;
}
