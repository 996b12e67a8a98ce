/* Two threads that hand each other a turn, with one mutex and two conditions: what a turn costs at least.
   plain TURNS prints how many turns there were, and their nanoseconds. */
#include <pthread.h>
#include <stdio.h>
#include <stdlib.h>
#include <time.h>

static pthread_mutex_t lock = PTHREAD_MUTEX_INITIALIZER;
static pthread_cond_t asked = PTHREAD_COND_INITIALIZER;
static pthread_cond_t answered = PTHREAD_COND_INITIALIZER;
static int is_asked;
static long turns;

static void *answer(void *unused)
{
    for (long turn = 0; turn < turns; turn++) {
        pthread_mutex_lock(&lock);
        while (!is_asked)
            pthread_cond_wait(&asked, &lock);
        is_asked = 0;
        pthread_cond_signal(&answered);
        pthread_mutex_unlock(&lock);
    }
    return unused;
}

static void ask(void)
{
    for (long turn = 0; turn < turns; turn++) {
        pthread_mutex_lock(&lock);
        is_asked = 1;
        pthread_cond_signal(&asked);
        while (is_asked)
            pthread_cond_wait(&answered, &lock);
        pthread_mutex_unlock(&lock);
    }
}

int main(int count, char **words)
{
    struct timespec begin, end;
    pthread_t other;
    if (count != 2 || (turns = atol(words[1])) <= 0)
        return 2;
    clock_gettime(CLOCK_MONOTONIC, &begin);
    if (pthread_create(&other, NULL, answer, NULL) != 0)
        return 1;
    ask();
    pthread_join(other, NULL);
    clock_gettime(CLOCK_MONOTONIC, &end);
    printf("%ld turns %lld ns\n", turns, (end.tv_sec - begin.tv_sec) * 1000000000LL + end.tv_nsec - begin.tv_nsec);
    return 0;
}
