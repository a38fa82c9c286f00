/* Eight threads at once, each over lists of its own: all rows, each thread from another one on. Then all over one list, each
 * over rows of its own. */
#include "rows.h"
#include <pthread.h>

enum { THREADS = 8, ROUNDS = 2 };

static struct row *rows;
static size_t row_count;

static void *run(void *number) {
    size_t begin = *(size_t *)number * row_count / THREADS;
    for (size_t i = 0; i < ROUNDS * row_count; i++) {
        const struct row *row = &rows[(begin + i) % row_count];
        struct made it = make(row);
        int right = call(row, &it) == row->status && is_left(row, &it);
        drop_made(row, &it);
        if (!right) return number;
    }
    return NULL;
}

/* A list of THREADS * SHARE rows of as many items. */
enum { LOG = 6, SIDE = 1 << LOG, SHARE = SIDE / THREADS };
static uint64_t list[SIDE * SIDE];
static const uint64_t offset = 7;

static void *run_rows(void *number) {
    size_t first = *(size_t *)number * SHARE;
    uint64_t *words = list + first * SIDE;
    return ark_fft_rows(ARK_BABYBEAR, words, SHARE * SIDE, LOG, LOG, first, &offset, 1) == ARK_OK ? NULL : number;
}

/* Whether a thread found something wrong. */
static int in_threads(void *(*run)(void *)) {
    pthread_t threads[THREADS];
    size_t numbers[THREADS];
    int failed = 0;
    for (size_t i = 0; i < THREADS; i++) {
        numbers[i] = i;
        if (pthread_create(&threads[i], NULL, run, &numbers[i])) exit(2);
    }
    for (size_t i = 0; i < THREADS; i++) {
        void *wrong;
        pthread_join(threads[i], &wrong);
        failed |= wrong != NULL;
    }
    return failed;
}

static int one_list_fails(void) {
    static uint64_t whole[SIDE * SIDE];
    for (size_t i = 0; i < SIDE * SIDE; i++) list[i] = whole[i] = i * i;
    int failed = ark_fft(ARK_BABYBEAR, whole, SIDE * SIDE, &offset, 1) != ARK_OK
                 || ark_fft_columns(ARK_BABYBEAR, list, SIDE * SIDE, LOG, LOG, &offset, 1) != ARK_OK || in_threads(run_rows);
    for (size_t i = 0; i < SIDE * SIDE; i++) failed |= list[i] != whole[i / SIDE + i % SIDE * SIDE];
    return failed;
}

int main(int count, char **words) {
    if (count != 2) return puts("the file of answers is wanted"), 2;
    rows = read_rows(words[1], &row_count);
    int failed = in_threads(run);
    drop_rows(rows, row_count);
    failed |= one_list_fails();
    puts(failed ? "a thread had a wrong answer" : "8 threads had the right answers");
    return failed;
}
