/* Every call that succeeds, with each of its requests for memory refused in turn: that one alone, and it with all later ones.
 * The answer is then ARK_MEMORY, with nothing written, or, where the call did without, the right one. All blocks are given
 * back. Linked with -Wl,--wrap=malloc,--wrap=realloc,--wrap=free. */
#include "rows.h"

void *__real_malloc(size_t n);
void *__real_realloc(void *p, size_t n);
void __real_free(void *p);
void *__wrap_malloc(size_t n);
void *__wrap_realloc(void *p, size_t n);
void __wrap_free(void *p);

static int inside, all_later;
static long first_refused, asked, refused, held;

static int refuses(void) {
    if (!inside) return 0;
    asked++;
    if (all_later ? asked < first_refused : asked != first_refused) return 0;
    refused++;
    return 1;
}

void *__wrap_malloc(size_t n) {
    void *p = refuses() ? NULL : __real_malloc(n);
    held += inside && p != NULL;
    return p;
}

void *__wrap_realloc(void *p, size_t n) {
    void *q = refuses() ? NULL : __real_realloc(p, n);
    held += inside && p == NULL && q != NULL;
    return q;
}

void __wrap_free(void *p) {
    held -= inside && p != NULL;
    __real_free(p);
}

/* Whether nothing was written. */
static int is_kept(const struct row *row, const struct made *it) {
    struct made before = make(row);
    int kept = 1;
    for (size_t i = 0; i < row->left_count; i++) kept = kept && same(it->left[i], before.left[i]);
    for (size_t i = 0; i < row->given_count; i++) kept = kept && same(it->given[i], row->given[i]);
    drop_made(row, &before);
    return kept;
}

int main(int count, char **words) {
    size_t row_count;
    unsigned long tried = 0, healed = 0;
    if (count != 2) return puts("the file of answers is wanted"), 2;
    struct row *rows = read_rows(words[1], &row_count);
    for (size_t i = 0; i < row_count; i++) {
        if (rows[i].status != ARK_OK) continue;
        for (all_later = 0; all_later < 2; all_later++)
            for (first_refused = 1;; first_refused++) {
                struct made it = make(&rows[i]);
                asked = refused = held = 0;
                inside = 1;
                ark_status status = call(&rows[i], &it);
                inside = 0;
                int right = status == ARK_OK ? is_left(&rows[i], &it) : status == ARK_MEMORY && refused && is_kept(&rows[i], &it);
                if (!right || held != 0) {
                    printf("wrong: line %zu, %s, request %ld, status %" PRIu32 ", %ld blocks held\n", i + 1, rows[i].call,
                           first_refused, status, held);
                    return 1;
                }
                drop_made(&rows[i], &it);
                if (!refused) break;
                tried++;
                healed += status == ARK_OK;
            }
    }
    drop_rows(rows, row_count);
    printf("%lu refusals, of which %lu were done without\n", tried, healed);
    return 0;
}
