/* The rows of answers.txt, and the calls that they ask for. C99 that is C++ too. */
#ifndef ROWS_H
#define ROWS_H

#include "ark_poly.h"
#include <inttypes.h>
#include <stdio.h>
#include <stdlib.h>
#include <string.h>

enum { MOST_LISTS = 5, GUARD = 2 };
#define GUARD_WORD UINT64_C(0x5ca1ab1edeadbeef)
#define OLD_WORD UINT64_C(0xfeedfacecafef00d)

/* A list between words that no call may touch. */
struct list {
    uint64_t *words;
    size_t len;
};

struct row {
    char call[32];
    uint64_t field;
    ark_status status;
    struct list given[MOST_LISTS], left[MOST_LISTS];
    size_t given_count, left_count;
};

static void *reserve(size_t n) {
    void *p = malloc(n);
    if (p == NULL) {
        puts("the test itself has no memory");
        exit(2);
    }
    return p;
}

static struct list list_of(size_t len) {
    struct list it;
    it.words = (uint64_t *)reserve((len + 2 * GUARD) * sizeof(uint64_t)) + GUARD;
    it.len = len;
    for (size_t i = 0; i < len; i++) it.words[i] = OLD_WORD;
    for (size_t i = 0; i < GUARD; i++) it.words[len + i] = *(it.words - 1 - i) = GUARD_WORD;
    return it;
}

static void drop(struct list it) {
    free(it.words - GUARD);
}

static struct list copy_of(struct list it) {
    struct list copy = list_of(it.len);
    if (it.len) memcpy(copy.words, it.words, it.len * sizeof(uint64_t));
    return copy;
}

static int same(struct list a, struct list b) {
    if (a.len != b.len) return 0;
    for (size_t i = 0; i < a.len; i++)
        if (a.words[i] != b.words[i]) return 0;
    for (size_t i = 0; i < GUARD; i++)
        if (a.words[a.len + i] != GUARD_WORD || *(a.words - 1 - i) != GUARD_WORD) return 0;
    return 1;
}

/* The lists that a part of a line spells, `-` for a word that isn't known; how many they are. */
static size_t read_lists(const char *text, const char *end, struct list *lists) {
    size_t count = 0;
    for (;;) {
        const char *stop = text;
        size_t len = 0;
        while (stop < end && *stop != '|') stop++;
        for (const char *at = text; at < stop; at++) len += *at != ' ' && (at == text || at[-1] == ' ');
        lists[count] = list_of(len);
        for (size_t i = 0; i < len; i++) {
            while (*text == ' ') text++;
            if (*text == '-') text++;
            else {
                char *after;
                lists[count].words[i] = strtoull(text, &after, 16);
                text = after;
            }
        }
        count++;
        if (stop == end || count == MOST_LISTS) return count;
        text = stop + 1;
    }
}

static int read_row(const char *line, struct row *row) {
    int used = 0;
    if (sscanf(line, "%31s %" SCNu64 " %" SCNu32 ":%n", row->call, &row->field, &row->status, &used) < 3 || used == 0) return 0;
    const char *middle = strchr(line, '>'), *end = line + strcspn(line, "\n");
    if (middle == NULL) return 0;
    row->given_count = read_lists(line + used, middle, row->given);
    row->left_count = read_lists(middle + 1, end, row->left);
    return 1;
}

/* All rows of a file. */
static struct row *read_rows(const char *path, size_t *count) {
    size_t room = 1 << 12, longest = 1 << 16;
    struct row *rows = (struct row *)reserve(room * sizeof *rows);
    char *line = (char *)reserve(longest);
    FILE *file = fopen(path, "r");
    *count = 0;
    if (file == NULL) {
        printf("%s can't be read\n", path);
        exit(2);
    }
    while (fgets(line, (int)longest, file) != NULL) {
        if (*count == room || !read_row(line, &rows[*count])) {
            printf("no row: %s", line);
            exit(2);
        }
        ++*count;
    }
    fclose(file);
    free(line);
    return rows;
}

static void drop_rows(struct row *rows, size_t count) {
    for (size_t i = 0; i < count; i++) {
        for (size_t j = 0; j < rows[i].given_count; j++) drop(rows[i].given[j]);
        for (size_t j = 0; j < rows[i].left_count; j++) drop(rows[i].left[j]);
    }
    free(rows);
}

/* What a row's call is made with: lists of its own for what is written, and their bytes where the call takes bytes. */
struct made {
    struct list given[MOST_LISTS], left[MOST_LISTS];
    uint8_t *bytes[MOST_LISTS], *written;
};

static int is_in_place(const struct row *row) {
    return strstr(row->call, "fft") != NULL || !strcmp(row->call, "multiply_values") || !strcmp(row->call, "code_restore");
}

/* Whether the call is over pieces of a file, whose lists are of bytes. */
static int is_of_pieces(const struct row *row) {
    return !strcmp(row->call, "split") || !strcmp(row->call, "join") || !strcmp(row->call, "file_size");
}

/* Whether it is over sums. */
static int is_of_sums(const struct row *row) {
    return !strncmp(row->call, "sum_", 4);
}

static uint8_t *bytes_of(struct list it) {
    uint8_t *bytes = (uint8_t *)reserve(it.len + 1);
    for (size_t i = 0; i < it.len; i++) bytes[i] = (uint8_t)it.words[i];
    return bytes;
}

static struct made make(const struct row *row) {
    struct made it;
    memset(&it, 0, sizeof it);
    for (size_t i = 0; i < row->given_count; i++) it.given[i] = copy_of(row->given[i]);
    for (size_t i = 0; i < row->left_count; i++)
        it.left[i] = i == 0 && is_in_place(row) ? copy_of(row->given[0]) : list_of(row->left[i].len);
    if (!strncmp(row->call, "code_", 5) || is_of_pieces(row) || is_of_sums(row))
        for (size_t i = 0; i < row->given_count; i++) it.bytes[i] = bytes_of(it.given[i]);
    if (is_of_pieces(row) || is_of_sums(row)) it.written = bytes_of(it.left[0]);
    return it;
}

static void drop_made(const struct row *row, struct made *it) {
    for (size_t i = 0; i < row->given_count; i++) drop(it->given[i]);
    for (size_t i = 0; i < row->left_count; i++) drop(it->left[i]);
    for (size_t i = 0; i < MOST_LISTS; i++) free(it->bytes[i]);
    free(it->written);
}

/* A list as two arguments. */
#define OF(list) (list).words, (list).len

/* Puts the bytes that a call wrote into the list's words, and leaves the old ones for those that it left. */
static ark_status wrote(ark_status status, struct list into, const uint8_t *written) {
    for (size_t i = 0; i < into.len; i++)
        if (status == ARK_OK || written[i] != (uint8_t)OLD_WORD) into.words[i] = written[i];
    return status;
}

static ark_status call(const struct row *row, struct made *it) {
    const char *name = row->call;
    uint64_t f = row->field;
    struct list a = it->given[0], b = it->given[1], c = it->given[2], d = it->given[3], e = it->given[4];
    struct list x = it->left[0], y = it->left[1];
    const uint8_t *second = it->bytes[1], *third = it->bytes[2], *fifth = it->bytes[4];
    uint32_t log_rows = b.len > 1 ? (uint32_t)b.words[0] : 0, log_columns = b.len > 1 ? (uint32_t)b.words[1] : 0;
    uint32_t num_vars = a.len > 1 ? (uint32_t)a.words[0] : 0, degree = a.len > 1 ? (uint32_t)a.words[1] : 0;
    if (!strcmp(name, "domain_size")) return ark_domain_size(f, a.words[0], x.words);
    if (!strcmp(name, "fft")) return ark_fft(f, OF(x), OF(b));
    if (!strcmp(name, "ifft")) return ark_ifft(f, OF(x), OF(b));
    if (!strcmp(name, "fft_columns")) return ark_fft_columns(f, OF(x), log_rows, log_columns, OF(c));
    if (!strcmp(name, "ifft_columns")) return ark_ifft_columns(f, OF(x), log_rows, log_columns, OF(c));
    if (!strcmp(name, "fft_rows")) return ark_fft_rows(f, OF(x), log_rows, log_columns, b.words[2], OF(c));
    if (!strcmp(name, "ifft_rows")) return ark_ifft_rows(f, OF(x), log_rows, log_columns, b.words[2], OF(c));
    if (!strcmp(name, "multiply")) return ark_multiply(f, OF(a), OF(b), OF(x));
    if (!strcmp(name, "multiply_values")) return ark_multiply_values(f, OF(x), OF(b));
    if (!strcmp(name, "divide")) return ark_divide(f, OF(a), OF(b), OF(x), OF(y));
    if (!strcmp(name, "evaluate")) return ark_evaluate(f, OF(a), OF(b), OF(x));
    if (!strcmp(name, "interpolate")) return ark_interpolate(f, OF(a), OF(b), OF(x));
    if (!strcmp(name, "lagrange")) return ark_lagrange(f, OF(a), OF(b), OF(x));
    if (!strcmp(name, "multilinear_evaluate")) return ark_multilinear_evaluate(f, OF(a), OF(b), OF(x));
    if (!strcmp(name, "multilinear_evaluate_sparse")) return ark_multilinear_evaluate_sparse(f, OF(a), OF(b), OF(c), OF(x));
    if (!strcmp(name, "multilinear_fix")) return ark_multilinear_fix(f, OF(a), OF(b), OF(x));
    if (!strcmp(name, "code_encode")) return ark_code_encode(f, OF(a), OF(x));
    if (!strcmp(name, "code_encode_systematic")) return ark_code_encode_systematic(f, OF(a), OF(x));
    if (!strcmp(name, "code_restore")) return ark_code_restore(f, OF(x), second, b.len, c.words[0]);
    if (!strcmp(name, "code_message")) return ark_code_message(f, OF(a), second, b.len, OF(x));
    if (!strcmp(name, "piece_size"))
        return ark_piece_size(a.words[0], a.words[1], a.words[2], a.words[3], a.words[4], x.words);
    if (!strcmp(name, "split"))
        return wrote(ark_split(a.words[0], a.words[1], second, b.len, third, c.len, it->written, x.len), x, it->written);
    if (!strcmp(name, "join"))
        return wrote(ark_join(a.words[0], a.words[1], second, b.len, it->written, x.len), x, it->written);
    if (!strcmp(name, "file_size")) return ark_file_size(a.words[0], second, b.len, x.words);
    if (!strcmp(name, "sum_proof_size")) return ark_sum_proof_size(f, num_vars, degree, x.words);
    if (!strcmp(name, "sum_prove"))
        return wrote(ark_sum_prove(f, second, b.len, third, c.len, num_vars, degree, OF(d), OF(e), it->written, x.len, OF(y)), x,
                     it->written);
    if (!strcmp(name, "sum_verify"))
        return ark_sum_verify(f, second, b.len, third, c.len, num_vars, degree, OF(d), fifth, e.len, OF(x), OF(y));
    if (!strcmp(name, "sum_value")) return ark_sum_value(f, num_vars, degree, OF(b), OF(c), OF(d), OF(x));
    printf("no call: %s\n", name);
    exit(2);
}

/* Whether the call left what the row says. (After any status but ARK_OK a row's words that aren't known are the old ones.) */
static int is_left(const struct row *row, const struct made *it) {
    for (size_t i = 0; i < row->left_count; i++)
        if (!same(it->left[i], row->left[i])) return 0;
    for (size_t i = 0; i < row->given_count; i++)
        if (!same(it->given[i], row->given[i])) return 0;
    return 1;
}

#endif
