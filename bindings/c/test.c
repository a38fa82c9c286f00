/* The answers of a file, one call after another, and longer lists by what calls say of each other. */
#include "rows.h"

static int failures;

static void expect(int holds, const char *what, uint64_t field, size_t n) {
    if (holds) return;
    failures++;
    printf("failed: %s, field %" PRIu64 ", %zu\n", what, field, n);
}

static void test_rows(const char *path) {
    unsigned long seen[ARK_REFUSED + 1] = {0};
    size_t count;
    struct row *rows = read_rows(path, &count);
    for (size_t i = 0; i < count; i++) {
        struct made it = make(&rows[i]);
        ark_status status = call(&rows[i], &it);
        if (status != rows[i].status || !is_left(&rows[i], &it)) {
            failures++;
            printf("failed: line %zu, %s over %" PRIu64 ", status %" PRIu32 "\n", i + 1, rows[i].call, rows[i].field, status);
        }
        if (status <= ARK_REFUSED) seen[status]++;
        drop_made(&rows[i], &it);
    }
    for (ark_status status = ARK_OK; status <= ARK_REFUSED; status++)
        expect(status == ARK_MEMORY || seen[status] > 0, "a status that no row has", 0, status);
    printf("%zu rows\n", count);
    drop_rows(rows, count);
}

static const uint64_t fields[] = {ARK_F5,         ARK_F433,       ARK_F65537,   ARK_BABYBEAR,
                                  ARK_KOALABEAR, ARK_GOLDILOCKS, ARK_BN254_FR, ARK_BLS12_381_FR};
enum { FIELDS = sizeof fields / sizeof *fields };

/* Numbers below the prime: those of four words are below 2^252. */
static struct list drawn(uint64_t field, size_t n) {
    static uint64_t state = 1;
    size_t words = ark_words(field);
    struct list it = list_of(n * words);
    for (size_t i = 0; i < it.len; i++) {
        state ^= state << 13;
        state ^= state >> 7;
        state ^= state << 17;
        it.words[i] = words == 1 ? state % field : i % 4 == 3 ? state >> 4 : state;
    }
    return it;
}

static struct list element(uint64_t field, uint64_t x) {
    struct list it = list_of(ark_words(field));
    memset(it.words, 0, it.len * sizeof(uint64_t));
    it.words[0] = x;
    return it;
}

/* The longest lists that are tried. */
static size_t greatest(uint64_t field) {
    return field == ARK_F5 ? 4 : field == ARK_F433 ? 16 : 256;
}

/* The value at 2. */
static struct list at_two(uint64_t field, struct list coefficients) {
    struct list two = element(field, 2), value = element(field, 0);
    expect(ark_evaluate(field, OF(coefficients), OF(two), OF(value)) == ARK_OK, "evaluate", field, coefficients.len);
    drop(two);
    return value;
}

/* A transform and its inverse, and the value at 2 by the weights of the values: the sum of products of weights and values is
 * the middle coefficient of a product whose one factor is in reverse. */
static void test_transform(uint64_t field, size_t n) {
    size_t words = ark_words(field);
    struct list offset = element(field, 3), two = element(field, 2), c = drawn(field, n), v = copy_of(c);
    struct list reversed = list_of(v.len), weights = list_of(v.len), sums = list_of((2 * n - 1) * words), sum = element(field, 0),
                value = at_two(field, c);
    expect(ark_fft(field, OF(v), OF(offset)) == ARK_OK, "fft", field, n);
    expect(ark_lagrange(field, OF(offset), OF(two), OF(weights)) == ARK_OK, "lagrange", field, n);
    for (size_t i = 0; i < n; i++)
        memcpy(reversed.words + i * words, v.words + (n - 1 - i) * words, words * sizeof(uint64_t));
    if (2 * n - 1 <= greatest(field)) {
        expect(ark_multiply(field, OF(weights), OF(reversed), OF(sums)) == ARK_OK, "multiply", field, n);
        memcpy(sum.words, sums.words + (n - 1) * words, words * sizeof(uint64_t));
        expect(same(sum, value), "weighted values", field, n);
    }
    expect(ark_ifft(field, OF(v), OF(offset)) == ARK_OK && same(v, c), "ifft of fft", field, n);
    drop(offset);
    drop(two);
    drop(c);
    drop(v);
    drop(reversed);
    drop(weights);
    drop(sums);
    drop(sum);
    drop(value);
}

typedef ark_status columns_call(uint64_t, uint64_t *, size_t, uint32_t, uint32_t, const uint64_t *, size_t);
typedef ark_status rows_call(uint64_t, uint64_t *, size_t, uint32_t, uint32_t, uint64_t, const uint64_t *, size_t);

/* A list's columns from one to another, through a block of their own. */
static void do_columns(columns_call *call, uint64_t field, struct list it, const uint32_t *logs, size_t from, size_t to) {
    size_t words = ark_words(field), r = (size_t)1 << logs[0], row = words << logs[1], width = (to - from) * words;
    struct list offset = element(field, 3), block = list_of(r * width);
    uint64_t *first = it.words + from * words;
    for (size_t i = 0; i < r; i++) memcpy(block.words + i * width, first + i * row, width * sizeof(uint64_t));
    expect(call(field, OF(block), logs[0], logs[1], OF(offset)) == ARK_OK, "columns", field, r);
    for (size_t i = 0; i < r; i++) memcpy(first + i * row, block.words + i * width, width * sizeof(uint64_t));
    drop(offset);
    drop(block);
}

/* A list's rows one by one, the last one first. */
static void do_rows(rows_call *call, uint64_t field, struct list it, const uint32_t *logs) {
    size_t row = ark_words(field) << logs[1];
    struct list offset = element(field, 3);
    for (size_t i = (size_t)1 << logs[0]; i-- > 0;)
        expect(call(field, it.words + i * row, row, logs[0], logs[1], i, OF(offset)) == ARK_OK, "rows", field, i);
    drop(offset);
}

/* A transform in parts, and back, of a list that is read as rows in all ways. */
static void test_parts(uint64_t field, uint32_t log) {
    size_t words = ark_words(field), n = (size_t)1 << log;
    struct list offset = element(field, 3), c = drawn(field, n), v = copy_of(c);
    expect(ark_fft(field, OF(v), OF(offset)) == ARK_OK, "fft", field, n);
    for (uint32_t log_rows = 0; log_rows <= log; log_rows++) {
        const uint32_t logs[2] = {log_rows, log - log_rows};
        size_t columns = (size_t)1 << logs[1];
        struct list it = copy_of(c);
        do_columns(ark_fft_columns, field, it, logs, columns / 3, columns);
        do_columns(ark_fft_columns, field, it, logs, 0, columns / 3);
        do_rows(ark_fft_rows, field, it, logs);
        for (size_t i = 0; i < n; i++) {
            const uint64_t *place = v.words + (i / columns + (i % columns << log_rows)) * words;
            expect(!memcmp(it.words + i * words, place, words * sizeof(uint64_t)), "the whole of parts", field, i);
        }
        do_rows(ark_ifft_rows, field, it, logs);
        do_columns(ark_ifft_columns, field, it, logs, columns / 3, columns);
        do_columns(ark_ifft_columns, field, it, logs, 0, columns / 3);
        expect(same(it, c), "parts taken back", field, n);
        drop(it);
    }
    drop(offset);
    drop(c);
    drop(v);
}

/* The value of a product is the product of the values, and the product over one factor the other. */
static void test_product(uint64_t field, size_t n) {
    size_t words = ark_words(field);
    struct list a = drawn(field, n), b = drawn(field, n), product = list_of((2 * n - 1) * words), quotient = list_of(product.len),
                remainder = list_of(b.len);
    if (b.words[b.len - words] == 0) b.words[b.len - words] = 1; /* or the quotient is of a lower degree */
    expect(ark_multiply(field, OF(a), OF(b), OF(product)) == ARK_OK, "multiply", field, n);
    struct list of_a = at_two(field, a), of_b = at_two(field, b), of_product = at_two(field, product), times = element(field, 0);
    expect(ark_multiply(field, OF(of_a), OF(of_b), OF(times)) == ARK_OK, "multiply", field, 1);
    expect(same(times, of_product), "value of a product", field, n);
    expect(ark_divide(field, OF(product), OF(b), OF(quotient), OF(remainder)) == ARK_OK, "divide", field, n);
    for (size_t i = 0; i < quotient.len; i++)
        expect(quotient.words[i] == (i < a.len ? a.words[i] : 0), "quotient of a product", field, n);
    for (size_t i = 0; i < remainder.len; i++) expect(remainder.words[i] == 0, "no remainder", field, n);
    drop(a);
    drop(b);
    drop(product);
    drop(quotient);
    drop(remainder);
    drop(of_a);
    drop(of_b);
    drop(of_product);
    drop(times);
}

/* A product by its values, of factors of half as many coefficients. */
static void test_values(uint64_t field, size_t n) {
    size_t half = n / 2 * ark_words(field);
    struct list offset = element(field, 3), a = drawn(field, n), b = drawn(field, n), product = list_of(a.len);
    memset(a.words + half, 0, half * sizeof(uint64_t));
    memset(b.words + half, 0, half * sizeof(uint64_t));
    expect(ark_multiply(field, a.words, half, b.words, half, OF(product)) == ARK_OK, "multiply", field, n);
    expect(ark_fft(field, OF(a), OF(offset)) == ARK_OK && ark_fft(field, OF(b), OF(offset)) == ARK_OK, "fft", field, n);
    expect(ark_multiply_values(field, OF(a), OF(b)) == ARK_OK, "multiply values", field, n);
    expect(ark_ifft(field, OF(a), OF(offset)) == ARK_OK && same(a, product), "a product by its values", field, n);
    drop(offset);
    drop(a);
    drop(b);
    drop(product);
}

/* Two variables bound one after the other, or at once. */
static void test_table(uint64_t field, size_t n) {
    size_t words = ark_words(field);
    struct list table = drawn(field, n), point = drawn(field, 2), half = list_of(n / 2 * words), quarter = list_of(n / 4 * words),
                at_once = list_of(n / 4 * words);
    expect(ark_multilinear_fix(field, OF(table), OF(point), OF(at_once)) == ARK_OK, "two variables", field, n);
    expect(ark_multilinear_fix(field, OF(table), point.words, words, OF(half)) == ARK_OK, "the first", field, n);
    expect(ark_multilinear_fix(field, OF(half), point.words + words, words, OF(quarter)) == ARK_OK, "the second", field, n);
    expect(same(quarter, at_once), "the same", field, n);
    drop(table);
    drop(point);
    drop(half);
    drop(quarter);
    drop(at_once);
}

/* A table by all its entries, the last one first. */
static void test_entries(uint64_t field, size_t n) {
    size_t words = ark_words(field), m = 0;
    while ((size_t)1 << m < n) m++;
    struct list table = drawn(field, n), point = drawn(field, m), indices = list_of(n), values = list_of(table.len),
                value = element(field, 0), found = element(field, 0);
    for (size_t i = 0; i < n; i++) {
        indices.words[i] = n - 1 - i;
        memcpy(values.words + i * words, table.words + (n - 1 - i) * words, words * sizeof(uint64_t));
    }
    expect(ark_multilinear_evaluate(field, OF(table), OF(point), OF(value)) == ARK_OK, "table", field, n);
    expect(ark_multilinear_evaluate_sparse(field, OF(indices), OF(values), OF(point), OF(found)) == ARK_OK, "entries", field, n);
    expect(same(found, value), "the same value", field, n);
    drop(table);
    drop(point);
    drop(indices);
    drop(values);
    drop(value);
    drop(found);
}

/* The sum of the product of two tables: the middle coefficient of a product of polynomials. Its proof is reduced to the true
 * value, and refused of another sum, of another statement and where a byte is changed. */
static void test_sum(uint64_t field, uint32_t num_vars) {
    const uint8_t said[] = {'t', 'a', 'b', 'l', 'e', 's'};
    size_t words = ark_words(field), width = ark_challenge_words(field), n = (size_t)1 << num_vars, last = (n - 1) * words;
    uint64_t size = 0;
    expect(ark_sum_proof_size(field, num_vars, 2, &size) == ARK_OK, "proof size", field, num_vars);
    struct list tables = drawn(field, 2 * n), addend = list_of(words + 3), sum = element(field, 0), reversed = list_of(n * words),
                product = list_of((2 * n - 1) * words), point = list_of(num_vars * width), value = list_of(width),
                own = list_of(width);
    uint8_t *proof = (uint8_t *)reserve((size_t)size);
    for (size_t i = 0; i < words; i++) addend.words[i] = i == 0;
    for (size_t i = 0; i < 3; i++) addend.words[words + i] = i == 0 ? 2 : i - 1;
    for (size_t i = 0; i < n; i++)
        memcpy(reversed.words + last - i * words, tables.words + (n + i) * words, words * sizeof(uint64_t));
    expect(ark_multiply(field, tables.words, n * words, OF(reversed), OF(product)) == ARK_OK, "multiply", field, n);
    expect(ark_sum_prove(field, said, 1, said, sizeof said, num_vars, 2, OF(tables), OF(addend), proof, (size_t)size, OF(sum))
               == ARK_OK,
           "prove", field, num_vars);
    expect(!memcmp(sum.words, product.words + last, words * sizeof(uint64_t)), "the sum", field, num_vars);
#define VERIFIED(statement_len) \
    ark_sum_verify(field, said, 1, said, statement_len, num_vars, 2, OF(sum), proof, (size_t)size, OF(point), OF(value))
    proof[num_vars ? 16 : 0] ^= 1; /* (the first round's first value) */
    expect(VERIFIED(sizeof said) == ARK_REFUSED, "a byte changed", field, num_vars);
    proof[num_vars ? 16 : 0] ^= 1;
    sum.words[0] ^= 1;
    expect(VERIFIED(sizeof said) == ARK_REFUSED || num_vars == 0, "another sum", field, num_vars);
    sum.words[0] ^= 1;
    expect(VERIFIED(1) == ARK_REFUSED || num_vars < 2, "another statement", field, num_vars);
    expect(VERIFIED(sizeof said) == ARK_OK, "verify", field, num_vars);
#undef VERIFIED
    expect(ark_sum_value(field, num_vars, 2, OF(tables), OF(addend), OF(point), OF(own)) == ARK_OK, "value", field, num_vars);
    expect(same(own, value), "the true value", field, num_vars);
    drop(tables);
    drop(addend);
    drop(sum);
    drop(reversed);
    drop(product);
    drop(point);
    drop(value);
    drop(own);
    free(proof);
}

/* A codeword begins with its message, and comes back where as much of the message is lost as can be. */
static void test_systematic(uint64_t field, size_t n) {
    size_t words = ark_words(field), k = (n + 1) / 2;
    struct list message = drawn(field, k), word = list_of(n * words), holed = list_of(n * words);
    uint8_t *erased = (uint8_t *)reserve(n);
    expect(ark_code_encode_systematic(field, OF(message), OF(word)) == ARK_OK, "systematic", field, n);
    expect(!memcmp(word.words, message.words, message.len * sizeof(uint64_t)), "the message first", field, n);
    for (size_t i = 0; i < n; i++) erased[i] = i < n - k;
    for (size_t i = 0; i < word.len; i++) holed.words[i] = i < (n - k) * words ? 0 : word.words[i];
    expect(ark_code_restore(field, OF(holed), erased, n, k) == ARK_OK && same(holed, word), "systematic restored", field, n);
    drop(message);
    drop(word);
    drop(holed);
    free(erased);
}

/* Any k of n pieces, the last ones and the first ones, give the file back; a byte that is changed shows. */
static void test_pieces(uint64_t k, uint64_t n, size_t len) {
    const uint8_t label[] = {'p', 'i', 'e', 'c', 'e', 's'};
    uint64_t first, last, found = 0, state = 1;
    expect(ark_piece_size(k, n, 0, sizeof label, len, &first) == ARK_OK, "piece size", k, n);
    expect(ark_piece_size(k, n, n - 1, sizeof label, len, &last) == ARK_OK, "piece size", k, n);
    size_t size = (size_t)(k * first + (n - k) * last), some = (size_t)(k * (k == n ? first : last));
    uint8_t *file = (uint8_t *)reserve(len + 1), *joined = (uint8_t *)reserve(len + 1), *pieces = (uint8_t *)reserve(size);
    for (size_t i = 0; i < len; i++) {
        state ^= state << 13;
        state ^= state >> 7;
        state ^= state << 17;
        file[i] = i % 3 ? (uint8_t)state : 0xff;
    }
    memset(joined, 0, len + 1);
    expect(ark_split(k, n, label, sizeof label, file, len, pieces, size) == ARK_OK, "split", k, n);
    expect(ark_file_size(n, pieces, size, &found) == ARK_OK && found == len, "file size", k, n);
    expect(ark_join(k, n, pieces, size, joined, len) == ARK_OK && !memcmp(joined, file, len), "join of all", k, n);
    if (n >= 2 * k || n == k) {
        memset(joined, 0, len + 1);
        const uint8_t *end = pieces + size - some;
        expect(ark_join(k, n, end, some, joined, len) == ARK_OK && !memcmp(joined, file, len), "join of the last", k, n);
    }
    joined[0] = (uint8_t)(len ? file[0] + 1 : 7);
    pieces[24 + sizeof label - 1] ^= 1; /* (in the first piece's label) */
    expect(ark_join(k, n, pieces, size, joined, len) == ARK_DAMAGED, "a damaged piece", k, n);
    expect(joined[0] == (uint8_t)(len ? file[0] + 1 : 7), "nothing written", k, n);
    free(file);
    free(joined);
    free(pieces);
}

int main(int count, char **words) {
    if (count != 2) return puts("the file of answers is wanted"), 2;
    expect(ark_version() == ARK_VERSION, "version", 0, ark_version());
    expect(ARK_VERSION == 0x000500, "version of the header", 0, ARK_VERSION);
    for (size_t i = 0; i < FIELDS; i++) expect(ark_words(fields[i]) == (i < 6 ? 1 : 4), "words", fields[i], i);
    expect(ark_words(7) == 0 && ark_words(0) == 0, "words of no field", 7, 0);
    static const size_t challenge_words[] = {0, 0, 0, 4, 4, 2, 4, 4};
    for (size_t i = 0; i < FIELDS; i++)
        expect(ark_challenge_words(fields[i]) == challenge_words[i], "words of a challenge", fields[i], i);
    expect(ark_challenge_words(7) == 0 && ark_challenge_words(0) == 0, "challenges of no field", 7, 0);
    /* lists of no items may be NULL */
    uint64_t f = ARK_BABYBEAR, value = 1, point = 2;
    expect(ark_evaluate(f, NULL, 0, &point, 1, &value, 1) == ARK_OK && value == 0, "no coefficients", f, 0);
    expect(ark_evaluate(f, &point, 1, NULL, 0, NULL, 0) == ARK_OK, "no points", f, 0);
    expect(ark_multiply_values(f, NULL, 0, NULL, 0) == ARK_OK, "no values", f, 0);
    expect(ark_fft(f, NULL, 0, &point, 1) == ARK_NO_DOMAIN, "no items", f, 0);
    expect(ark_fft_columns(f, NULL, 0, 1, 1, &point, 1) == ARK_OK, "no columns", f, 0);
    expect(ark_ifft_rows(f, NULL, 0, 1, 1, 2, &point, 1) == ARK_OK, "no rows", f, 0);
    uint8_t proof[8];
    value = 1;
    expect(ark_sum_prove(f, NULL, 0, NULL, 0, 0, 1, NULL, 0, NULL, 0, proof, sizeof proof, &value, 1) == ARK_OK && value == 0,
           "no tables, no addends", f, 0);
    test_rows(words[1]);
    for (size_t i = 0; i < FIELDS; i++)
        for (uint32_t log = 0; (size_t)1 << log <= greatest(fields[i]); log++) test_parts(fields[i], log);
    for (size_t i = 0; i < FIELDS; i++)
        for (size_t n = 1; n <= greatest(fields[i]); n *= 2) {
            test_transform(fields[i], n);
            if (2 * n <= greatest(fields[i])) test_product(fields[i], n);
            if (n >= 2) test_values(fields[i], n);
            if (n >= 4) test_table(fields[i], n);
            test_entries(fields[i], n);
            test_systematic(fields[i], n);
        }
    for (size_t i = 0; i < FIELDS; i++)
        for (uint32_t m = 0; m <= 7 && ark_challenge_words(fields[i]); m++) test_sum(fields[i], m);
    for (size_t len = 0; len < 20000; len = 3 * len + 1) {
        test_pieces(1, 1, len);
        test_pieces(1, 3, len);
        test_pieces(3, 8, len);
        test_pieces(4, 5, len);
        test_pieces(20, 40, len);
    }
    expect(ark_split(1, 1, NULL, 0, NULL, 0, NULL, 0) == ARK_LENGTH, "no room", 1, 1);
    expect(ark_join(1, 1, NULL, 0, NULL, 0) == ARK_NOT_PIECES, "no pieces", 1, 1);
    printf("%d failures\n", failures);
    return failures != 0;
}
