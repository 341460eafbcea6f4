/* Locks and unlocks the platform's mutex, beside which bench/run shows a turn: THREADS threads, 1 to 64, add one under it TIMES
 * times each. One alone is a second thread too, since a process of one thread locks without atomic steps. It prints how much they
 * added. */
#include <pthread.h>
#include <stdio.h>
#include <stdlib.h>

static pthread_mutex_t mutex = PTHREAD_MUTEX_INITIALIZER;
static volatile unsigned long long count;
static unsigned long times;

static void *add(void *unused)
{
    for (unsigned long i = 0; i < times; i++) {
        pthread_mutex_lock(&mutex);
        count++;
        pthread_mutex_unlock(&mutex);
    }
    return unused;
}

int main(int words, char **word)
{
    pthread_t made[64];
    int threads = words == 3 ? atoi(word[1]) : 0;
    if (threads < 1 || threads > 64) {
        fprintf(stderr, "usage: lock THREADS TIMES\n");
        return 2;
    }
    times = strtoul(word[2], NULL, 10);
    for (int i = 0; i < threads; i++) {
        if (pthread_create(&made[i], NULL, add, NULL) != 0) {
            return 1;
        }
    }
    for (int i = 0; i < threads; i++) {
        pthread_join(made[i], NULL);
    }
    printf("%llu\n", count);
    return 0;
}
