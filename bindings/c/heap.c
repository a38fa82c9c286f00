/* The memory of the library, over malloc, realloc and free: the three functions that its archive asks for. It asks for sizes
 * below 2^63 and alignments that divide 16, to which malloc aligns its blocks on 64-bit machines. */
#include <stdbool.h>
#include <stddef.h>
#include <stdlib.h>

struct tried {
    bool ok;
    void *p;
};

struct tried rattle_alloc(size_t n, size_t align);
struct tried rattle_realloc(void *p, size_t kept, size_t n, size_t align);
void rattle_dealloc(void *p);

/* Where a refused request points: the library takes it that no answer is NULL, and follows none that is not ok. */
static const char nowhere = 0;

static struct tried answer(void *p) {
    struct tried tried = {p != NULL, p != NULL ? p : (void *)&nowhere};
    return tried;
}

/* A block of no bytes takes `align` of them, so that it has an address of its own. */
struct tried rattle_alloc(size_t n, size_t align) {
    return answer(malloc(n ? n : align));
}

/* The first `kept` bytes stay, as realloc keeps all; where it is refused, the block is as it was. */
struct tried rattle_realloc(void *p, size_t kept, size_t n, size_t align) {
    (void)kept;
    return answer(realloc(p, n ? n : align));
}

void rattle_dealloc(void *p) {
    free(p);
}
