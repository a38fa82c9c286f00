/* Times ark_fft in place: a line `name<TAB>size<TAB>nanoseconds` each, the least of many batches, with numbers that look drawn.
 * The lines `threads_1` and `threads_4` have the time of so many calls on so many threads, over that of one call. */
#define _POSIX_C_SOURCE 199309L
#include "ark_poly.h"
#include <inttypes.h>
#include <pthread.h>
#include <stdio.h>
#include <stdlib.h>
#include <time.h>

enum { BATCHES = 30, MOST_THREADS = 4 };

static double now(void) {
    struct timespec it;
    clock_gettime(CLOCK_MONOTONIC, &it);
    return (double)it.tv_sec * 1e9 + (double)it.tv_nsec;
}

/* n elements below any of the primes that are timed. */
static uint64_t *list_of(uint64_t field, size_t n) {
    size_t width = ark_words(field);
    uint64_t *words = calloc(n * width, sizeof *words), state = 61;
    if (words == NULL) exit(2);
    for (size_t i = 0; i < n; i++) {
        state = state * UINT64_C(6364136223846793005) + UINT64_C(1442695040888963407);
        words[i * width] = state >> 34;
    }
    return words;
}

/* The least time of a call. */
static double time_of(uint64_t field, size_t n, int calls) {
    size_t width = ark_words(field);
    uint64_t *words = list_of(field, n), one[ARK_MOST_WORDS] = {1, 0, 0, 0};
    double least = 0;
    for (int batch = 0; batch < BATCHES; batch++) {
        double begin = now();
        for (int i = 0; i < calls; i++)
            if (ark_fft(field, words, n * width, one, width) != ARK_OK) exit(1);
        double each = (now() - begin) / calls;
        if (batch == 0 || each < least) least = each;
    }
    free(words);
    return least;
}

struct job {
    uint64_t field;
    size_t n;
    int calls;
};

static void *work(void *argument) {
    const struct job *job = argument;
    size_t width = ark_words(job->field);
    uint64_t *words = list_of(job->field, job->n), one[ARK_MOST_WORDS] = {1, 0, 0, 0};
    for (int i = 0; i < job->calls; i++)
        if (ark_fft(job->field, words, job->n * width, one, width) != ARK_OK) exit(1);
    free(words);
    return NULL;
}

/* The least time in which each of so many threads makes all of its calls, over the calls of one. */
static double time_of_threads(int count, struct job job) {
    double least = 0;
    for (int batch = 0; batch < 8; batch++) {
        pthread_t threads[MOST_THREADS];
        double begin = now();
        for (int i = 0; i < count; i++)
            if (pthread_create(&threads[i], NULL, work, &job)) exit(2);
        for (int i = 0; i < count; i++) pthread_join(threads[i], NULL);
        double each = (now() - begin) / job.calls;
        if (batch == 0 || each < least) least = each;
    }
    return least;
}

int main(void) {
    static const struct {
        const char *name;
        uint64_t field;
    } fields[] = {{"babybear_fft", ARK_BABYBEAR}, {"goldilocks_fft", ARK_GOLDILOCKS}, {"bls12_381_fft", ARK_BLS12_381_FR}};
    static const struct {
        size_t n;
        int calls;
    } sizes[] = {{1 << 10, 200}, {1 << 12, 50}, {1 << 16, 3}};
    for (size_t i = 0; i < sizeof fields / sizeof *fields; i++)
        for (size_t j = 0; j < sizeof sizes / sizeof *sizes; j++)
            printf("%s\t%zu\t%.0f\n", fields[i].name, sizes[j].n, time_of(fields[i].field, sizes[j].n, sizes[j].calls));
    struct job job = {ARK_BABYBEAR, 1 << 14, 200};
    printf("threads_1\t%zu\t%.0f\n", job.n, time_of_threads(1, job));
    printf("threads_4\t%zu\t%.0f\n", job.n, time_of_threads(4, job));
    return 0;
}
