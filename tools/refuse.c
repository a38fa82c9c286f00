// Refuses requests for memory of the program that it is loaded into, by LD_PRELOAD.
//
// REFUSE_NTH    the first request that is refused, counted from 1; without it none is refused by its number
// REFUSE_MANY   how many are refused from that one on: 1 where it is not set, and 0 for all later ones
// REFUSE_ABOVE  each request for more bytes than this is refused
// REFUSE_CALL   requests are counted, and refused, only between the lines `call` and `called` that the program writes to
//               standard output
//
// At the end it writes a line to standard output: how many requests were counted, how many of them were refused, and how
// many bytes the largest asked for.
//
// It needs no header and no library, so that the kit's own compiler makes it.
typedef unsigned long size;
extern void *__libc_malloc(size), *__libc_calloc(size, size), *__libc_realloc(void *, size);
extern char *getenv(const char *);
extern long atol(const char *);
extern long syscall(long, ...);

enum { WRITE = 1, STANDARD_OUTPUT = 1 };

static long nth, many = 1, requests, refusals;
static size above, largest;
static int counts = 1;

static long number(const char *name, long otherwise) {
    const char *word = getenv(name);
    return word ? atol(word) : otherwise;
}

__attribute__((constructor)) static void start(void) {
    nth = number("REFUSE_NTH", 0);
    many = number("REFUSE_MANY", 1);
    above = (size)number("REFUSE_ABOVE", 0);
    counts = !getenv("REFUSE_CALL");
}

// Whether a request for so many bytes is refused.
static int refuses(size n) {
    int refused;
    if (!counts) return 0;
    requests++;
    if (n > largest) largest = n;
    refused = (nth > 0 && requests >= nth && (many == 0 || requests - nth < many)) || (above > 0 && n > above);
    refusals += refused;
    return refused;
}

void *malloc(size n) { return refuses(n) ? 0 : __libc_malloc(n); }

void *calloc(size m, size n) { return refuses(n && m > (size)-1 / n ? (size)-1 : m * n) ? 0 : __libc_calloc(m, n); }

void *realloc(void *p, size n) { return refuses(n) ? 0 : __libc_realloc(p, n); }

static int is_text(const char *bytes, size n, const char *text) {
    size i;
    for (i = 0; i < n && text[i]; i++)
        if (bytes[i] != text[i]) return 0;
    return i == n && !text[i];
}

long write(int file, const void *bytes, size n) {
    if (file == STANDARD_OUTPUT && getenv("REFUSE_CALL")) {
        if (is_text(bytes, n, "call\n")) counts = 1;
        if (is_text(bytes, n, "called\n")) counts = 0;
    }
    return syscall(WRITE, file, bytes, n);
}

long __write(int file, const void *bytes, size n) { return write(file, bytes, n); }

static void report(size value, char after) {
    char text[24];
    int at = 24;
    text[--at] = after;
    do text[--at] = '0' + value % 10;
    while (value /= 10);
    syscall(WRITE, STANDARD_OUTPUT, text + at, 24 - at);
}

__attribute__((destructor)) static void end(void) {
    report(requests, ' ');
    report(refusals, ' ');
    report(largest, '\n');
}
