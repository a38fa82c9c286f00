/* Polynomials, transforms, multilinear extensions, sum-checks and Reed-Solomon codes over prime fields, and files in pieces.
 * SPDX-License-Identifier: MIT OR Apache-2.0
 *
 * Each call is proved to do what is said of it here, for callers that keep to these rules:
 *
 * - A pointer with a length is to that many items, aligned as C aligns them, which nothing else writes while the call runs,
 *   nor reads where the call writes them. With length 0 it may be NULL, and with no other.
 * - A list that is written overlaps no other list of the same call. Lists that are only read may overlap.
 * - No call is made from a signal handler, nor in the child of a fork of a process with threads.
 *
 * Several threads may call at once, on lists of their own: the library keeps nothing between calls. No call ends the
 * program, prints, or takes a lock of its own.
 *
 * Elements. A field is a prime p, its elements the numbers below p. A list of elements is a list of 64-bit words in the
 * machine's byte order: one word an element where p is below 2^64, and four otherwise, the low one first. Each number is
 * itself (no Montgomery form). The length `.._len` of such a list counts words, that of a list of bytes counts bytes, and what
 * is said of n elements is about n * ark_words(field) words.
 *
 * Statuses. Whatever can be wrong is judged in the order of the enum below: first whether there is such a field, then
 * lengths, then whether each number is below p, and so on; ARK_ADDENDS alone comes right behind lengths. ARK_MEMORY has no
 * condition: it comes where memory was refused. A call that answers anything but ARK_OK has written nothing. ARK_MEMORY may
 * come from every call, and from every call over a field ARK_NO_FIELD and, where there are lists of elements, ARK_LENGTH for
 * a part of an element (in `addends` it is ARK_ADDENDS) and ARK_NOT_REDUCED; each names the others.
 *
 * Domains. The domain of n elements is offset * w^i for i = 0 .. n - 1, where w = g^((p - 1) / n) and g is the field's
 * generator below. There is one for each power of two up to the field's greatest; the field of 433 elements has those of
 * 2^a * 3^b elements, a <= 4 and b <= 3, too. */
#ifndef ARK_POLY_H
#define ARK_POLY_H

#include <stddef.h>
#include <stdint.h>

#ifdef __cplusplus
extern "C" {
#endif

/* The version of these declarations. While the major one is 0, the minor one changes where a caller may have to. */
#define ARK_VERSION_MAJOR 0
#define ARK_VERSION_MINOR 5
#define ARK_VERSION_PATCH 0
#define ARK_VERSION ((ARK_VERSION_MAJOR << 16) | (ARK_VERSION_MINOR << 8) | ARK_VERSION_PATCH)

/* The fields: a prime of one word is named by itself, one of four words by a number that is no prime. Those of four words are
 * 0x30644e72e131a029b85045b68181585d2833e84879b9709143e1f593f0000001 (BN254) and
 * 0x73eda753299d7d483339d80809a1d80553bda402fffe5bfeffffffff00000001 (BLS12-381).
 *                                                          p                        g     greatest power of two */
#define ARK_F5 UINT64_C(5)                               /* 5                        2     2^2 */
#define ARK_F433 UINT64_C(433)                           /* 433                      5     2^4 */
#define ARK_F65537 UINT64_C(65537)                       /* 2^16 + 1                 3     2^16 */
#define ARK_BABYBEAR UINT64_C(2013265921)                /* 15 * 2^27 + 1            31    2^27 */
#define ARK_KOALABEAR UINT64_C(2130706433)               /* 127 * 2^24 + 1           3     2^24 */
#define ARK_GOLDILOCKS UINT64_C(18446744069414584321)    /* 2^64 - 2^32 + 1          7     2^32 */
#define ARK_BN254_FR UINT64_C(254)                       /* the scalars of BN254     5     2^28 */
#define ARK_BLS12_381_FR UINT64_C(12381)                 /* those of BLS12-381       7     2^32 */

/* The most words that an element has. */
#define ARK_MOST_WORDS 4

/* No number is ever used again for another meaning. */
typedef uint32_t ark_status;
enum {
    ARK_OK = 0,
    ARK_MEMORY = 1,       /* memory was refused */
    ARK_NO_FIELD = 2,     /* no field has this name */
    ARK_LENGTH = 3,       /* a length is no multiple of the field's words, or not what the call asks for */
    ARK_NOT_REDUCED = 4,  /* a number isn't below p */
    ARK_NO_DOMAIN = 5,    /* no domain of the field has so many elements, or the offset is zero */
    ARK_ZERO_DIVISOR = 6, /* the divisor is the zero polynomial */
    ARK_EQUAL_POINTS = 7, /* two points are equal */
    ARK_TOO_FEW = 8,      /* a codeword has too few places left */
    ARK_NO_CODEWORD = 9,  /* no codeword has what is left of a word */
    ARK_NOT_PIECES = 10,  /* the bytes are not as many pieces as give a file back */
    ARK_DAMAGED = 11,     /* a piece has not the digest that is listed for it */
    ARK_ADDENDS = 12,     /* the words are no products of these tables, or not of this degree */
    ARK_REFUSED = 13      /* the bytes are no proof of the sum */
};

/* The version of the library, as ARK_VERSION has that of the declarations. */
uint32_t ark_version(void);

/* How many words an element of the field has, and 0 where there is no such field. */
size_t ark_words(uint64_t field);

/* Writes the least size of a domain with at least so many elements: a power of two wherever there is one.
 * ARK_NO_DOMAIN where all are smaller. */
ark_status ark_domain_size(uint64_t field, uint64_t at_least, uint64_t *size);

/* Puts in place of n coefficients, the lowest first, the values at the n elements of the domain with this offset, which is
 * one element. `ark_ifft` puts in place of n values the only n coefficients with these values.
 * ARK_LENGTH where the offset isn't one element, ARK_NO_DOMAIN where no domain has n elements or the offset is zero. */
ark_status ark_fft(uint64_t field, uint64_t *words, size_t len, const uint64_t *offset, size_t offset_len);
ark_status ark_ifft(uint64_t field, uint64_t *words, size_t len, const uint64_t *offset, size_t offset_len);

/* Transforms in parts, which threads or machines may do apart. A list of n = 2^(log_rows + log_columns) elements is read as
 * r = 2^log_rows rows of c = 2^log_columns elements: item (i, j) is its element i * c + j. Let h be the offset, and w that of
 * the domain of n elements. After all columns and then all rows, item (i, j) is element i + r * j of what ark_fft makes of the
 * list. All rows of ark_ifft_rows and then all columns of ark_ifft_columns take this back. A call does one block, of any
 * columns or of rows that follow each other, and takes memory for some three blocks of columns, or two of rows.
 *
 * `words` are k columns, as r rows of k elements. Each column is transformed as by ark_fft or ark_ifft with offset h^c.
 * ARK_LENGTH where the offset isn't one element, log_rows + log_columns is above 63, or the number of elements is no multiple
 * of r, ARK_NO_DOMAIN where no domain has n elements or the offset is zero. */
ark_status ark_fft_columns(uint64_t field, uint64_t *words, size_t words_len, uint32_t log_rows, uint32_t log_columns,
                           const uint64_t *offset, size_t offset_len);
ark_status ark_ifft_columns(uint64_t field, uint64_t *words, size_t words_len, uint32_t log_rows, uint32_t log_columns,
                            const uint64_t *offset, size_t offset_len);

/* `words` are whole rows, the first of which is row number `first`. Row i is transformed as by ark_fft or ark_ifft with offset
 * h * w^i.
 * ARK_LENGTH where the offset isn't one element, log_rows + log_columns is above 63, the number of elements is no multiple of
 * c, or first + the number of rows is above r, ARK_NO_DOMAIN where no domain has n elements or the offset is zero. */
ark_status ark_fft_rows(uint64_t field, uint64_t *words, size_t words_len, uint32_t log_rows, uint32_t log_columns,
                        uint64_t first, const uint64_t *offset, size_t offset_len);
ark_status ark_ifft_rows(uint64_t field, uint64_t *words, size_t words_len, uint32_t log_rows, uint32_t log_columns,
                         uint64_t first, const uint64_t *offset, size_t offset_len);

/* The product of two polynomials: coefficient k is the sum of left[i] * right[j] over i + j = k, and zeros fill what is left.
 * ARK_LENGTH where left and right have more than one element more than product. */
ark_status ark_multiply(uint64_t field, const uint64_t *left, size_t left_len, const uint64_t *right, size_t right_len,
                        uint64_t *product, size_t product_len);

/* Multiplies each element of `values` by the one at the same place of `others`. Where both are values of polynomials at the same
 * points, in any order, as that in which ark_fft_rows leaves them, these are the values of the product.
 * ARK_LENGTH where the lists differ in length. */
ark_status ark_multiply_values(uint64_t field, uint64_t *values, size_t values_len, const uint64_t *others, size_t others_len);

/* Quotient and remainder: dividend = quotient * divisor + remainder, where the remainder has a lower degree than the
 * divisor. Zeros fill what is left; zeros at the end of dividend and divisor don't matter.
 * ARK_LENGTH where the quotient isn't as long as the dividend or the remainder as the divisor, ARK_ZERO_DIVISOR where the
 * divisor is zeros alone, or empty. */
ark_status ark_divide(uint64_t field, const uint64_t *dividend, size_t dividend_len, const uint64_t *divisor,
                      size_t divisor_len, uint64_t *quotient, size_t quotient_len, uint64_t *remainder, size_t remainder_len);

/* values[i] is the polynomial's value at points[i], for one point or many, equal ones too.
 * ARK_LENGTH where values and points differ in length. */
ark_status ark_evaluate(uint64_t field, const uint64_t *coefficients, size_t coefficients_len, const uint64_t *points,
                        size_t points_len, uint64_t *values, size_t values_len);

/* The only n coefficients of a polynomial that has these n values at these n points.
 * ARK_LENGTH where the three lists differ in length, ARK_EQUAL_POINTS where two points are equal. */
ark_status ark_interpolate(uint64_t field, const uint64_t *points, size_t points_len, const uint64_t *values, size_t values_len,
                           uint64_t *coefficients, size_t coefficients_len);

/* weights[i] is the value at the point of the i-th Lagrange polynomial of the domain of n elements with this offset: the sum
 * of weights[i] * values[i] is the value at the point of the polynomial below degree n with these values over the domain.
 * The point may be one of the domain.
 * ARK_LENGTH where offset or point isn't one element, ARK_NO_DOMAIN where no domain has n elements or the offset is zero. */
ark_status ark_lagrange(uint64_t field, const uint64_t *offset, size_t offset_len, const uint64_t *point, size_t point_len,
                        uint64_t *weights, size_t weights_len);

/* The value at a point of m elements of the only multilinear polynomial in m variables with these 2^m values at the corners:
 * place i has the value at the corner whose variable j is bit j of i.
 * ARK_LENGTH where the table hasn't 2^m elements or the value isn't one. */
ark_status ark_multilinear_evaluate(uint64_t field, const uint64_t *table, size_t table_len, const uint64_t *point,
                                    size_t point_len, uint64_t *value, size_t value_len);

/* The same by the values that aren't zero: values[i] is that at the corner whose place in the table is indices[i], and all
 * others are zero. The indices, one word each, stand in any order; where one comes again, its last value counts. The memory goes
 * with the values' number, not with 2^m.
 * ARK_LENGTH where there aren't as many indices as values, m is above 63, an index isn't below 2^m, or the value isn't one. */
ark_status ark_multilinear_evaluate_sparse(uint64_t field, const uint64_t *indices, size_t indices_len, const uint64_t *values,
                                           size_t values_len, const uint64_t *point, size_t point_len, uint64_t *value,
                                           size_t value_len);

/* Binds the first k variables to the k elements of the point: the table, of 2^(m - k) elements, of the polynomial in the
 * other variables, of which the first is then variable 0.
 * ARK_LENGTH where the table hasn't 2^m elements for an m at or above k, or the result hasn't 2^(m - k). */
ark_status ark_multilinear_fix(uint64_t field, const uint64_t *table, size_t table_len, const uint64_t *point, size_t point_len,
                               uint64_t *result, size_t result_len);

/* Sum-checks: that a sum of products of tables, over all corners, is this number, by a proof in bytes that a verifier takes
 * without an answer. Each challenge is drawn by SHA-256 from what was said before it (Fiat-Shamir).
 *
 * A sum is over m variables, 0 <= m <= 63. `tables` are tables of 2^m elements, one after another, in each of which place i has
 * the value at the corner whose variable j is bit j of i. `addends` are their products, one after another: of each its
 * coefficient, which is one element, then in one word the number of its factors, and a word for each factor, the place of its
 * table, the first one being 0. A table may be a factor several times, and an addend without factors is its coefficient at every
 * corner. The degree d, 0 < d < 65536, is the number of factors of the longest addend, and 1 where none has any. A prover takes
 * 2^m steps and more, even where there is no table.
 *
 * A challenge is an element of a field of 2^123 elements or more, which the sum's field lies in: with a y such that y^4 = 11 over
 * ARK_BABYBEAR, y^4 = 3 over ARK_KOALABEAR, y^2 = 7 over ARK_GOLDILOCKS. ARK_BN254_FR and ARK_BLS12_381_FR have their own
 * elements as challenges, and other fields have none: for these calls they are ARK_NO_FIELD. An element is its coefficients, each
 * an element of the sum's field: those of 1, y^2, y and y^3, or of 1 and y.
 *
 * How many words a challenge has, and 0 where the field has none. */
size_t ark_challenge_words(uint64_t field);

/* Writes how many bytes a proof has.
 * ARK_LENGTH where m is above 63 or the degree none of 1 .. 65535. */
ark_status ark_sum_proof_size(uint64_t field, uint32_t num_vars, uint32_t degree, uint64_t *size);

/* Writes the sum, one element, and a proof of it, which ark_sum_verify accepts with the same label, statement, m and degree. The
 * label names the protocol. The statement must FIX TABLES AND ADDENDS, as their own bytes or a commitment to them do: otherwise a
 * prover may choose tables after it sees the challenges.
 * ARK_LENGTH where m is above 63, the degree none of 1 .. 65535, `tables` no whole tables, the proof has another size, or the sum
 * isn't one element, ARK_ADDENDS where the addends have another degree, are no products, or name a table that isn't there. */
ark_status ark_sum_prove(uint64_t field, const uint8_t *label, size_t label_len, const uint8_t *statement, size_t statement_len,
                         uint32_t num_vars, uint32_t degree, const uint64_t *tables, size_t tables_len, const uint64_t *addends,
                         size_t addends_len, uint8_t *proof, size_t proof_len, uint64_t *sum, size_t sum_len);

/* Whether the bytes are a proof of this sum. If so it writes what is left to check: a point of m challenges, and the value that
 * the sum of products of the tables' multilinear polynomials must have there. If it has, the sum is true, or one of the m
 * challenges is one of at most d unlucky elements of its field. A prover gets its point by this call too.
 * ARK_LENGTH where m is above 63, the degree none of 1 .. 65535, the sum isn't one element, the proof has another size, the point
 * isn't m challenges or the value one, ARK_REFUSED where the bytes are no proof. Of a proof that comes from elsewhere ARK_LENGTH
 * is a refusal, too, and after ARK_MEMORY nothing is known of it. */
ark_status ark_sum_verify(uint64_t field, const uint8_t *label, size_t label_len, const uint8_t *statement, size_t statement_len,
                          uint32_t num_vars, uint32_t degree, const uint64_t *sum, size_t sum_len, const uint8_t *proof,
                          size_t proof_len, uint64_t *point, size_t point_len, uint64_t *value, size_t value_len);

/* Writes the value of the sum of products at a point of m challenges: the one that ark_sum_verify leaves to check. Of one table,
 * with one addend of coefficient 1 and this factor alone, it is the table's own value there.
 * ARK_LENGTH where m is above 63, the degree none of 1 .. 65535, `tables` no whole tables, the point isn't m challenges or the
 * value one, ARK_ADDENDS as above. */
ark_status ark_sum_value(uint64_t field, uint32_t num_vars, uint32_t degree, const uint64_t *tables, size_t tables_len,
                         const uint64_t *addends, size_t addends_len, const uint64_t *point, size_t point_len, uint64_t *value,
                         size_t value_len);

/* Reed-Solomon codes. The codeword of a message of k elements, 1 <= k <= n, has n: the values of the polynomial with these
 * coefficients at the domain of n elements, with offset 1. Any k places of it tell the rest.
 * ARK_LENGTH where k is none of 1 .. n, ARK_NO_DOMAIN where no domain has n elements. */
ark_status ark_code_encode(uint64_t field, const uint64_t *message, size_t message_len, uint64_t *word, size_t word_len);

/* The only codeword whose first k elements are the message: the same code in systematic form. `ark_code_restore` takes it as any
 * codeword. The statuses are those of ark_code_encode. */
ark_status ark_code_encode_systematic(uint64_t field, const uint64_t *message, size_t message_len, uint64_t *word,
                                      size_t word_len);

/* Fills the lost places of one word or many: `words` are words of n elements each, one after another, and `erased` has n
 * bytes, of which byte i isn't 0 where place i of every word is lost. A lost place counts for nothing, but holds a number
 * below p, as 0. Many words of one call cost less than as many calls. Lost places are restored, and wrong ones are not
 * corrected.
 * ARK_LENGTH where `words` isn't one or more words or k is none of 1 .. n, ARK_NO_DOMAIN where no domain has n elements,
 * ARK_TOO_FEW where fewer than k places are left, ARK_NO_CODEWORD where more than k are left in a word, and no codeword has
 * them. */
ark_status ark_code_restore(uint64_t field, uint64_t *words, size_t words_len, const uint8_t *erased, size_t erased_len,
                            uint64_t k);

/* The messages, of k elements each, one after another, of words as above: as many as there are words. The statuses are those
 * of ark_code_restore. */
ark_status ark_code_message(uint64_t field, const uint64_t *words, size_t words_len, const uint8_t *erased, size_t erased_len,
                            uint64_t *messages, size_t messages_len);

/* Files in pieces: any k of n pieces give a file back, 1 <= k <= n <= 65536. A piece is a header, a label of fewer than 65536
 * bytes, its part of the file, and a trailer with the SHA-256 of all n pieces. The label is the same in all, and says what the
 * caller likes of the file. The first k pieces have the file's own bytes. Pieces stand in one list, one after another.
 *
 * Writes how many bytes piece `number` of 0 .. n - 1 has, of a file of `len` bytes, fewer than 2^62. The first k pieces have
 * the same length, and so have the others.
 * ARK_LENGTH where there is no such piece. */
ark_status ark_piece_size(uint64_t k, uint64_t n, uint64_t number, uint64_t label_len, uint64_t len, uint64_t *size);

/* Writes all n pieces of a file with this label, from piece 0 on.
 * ARK_LENGTH where there are no such pieces, or `pieces` isn't as long as all of them. */
ark_status ark_split(uint64_t k, uint64_t n, const uint8_t *label, size_t label_len, const uint8_t *file, size_t file_len,
                     uint8_t *pieces, size_t pieces_len);

/* Writes how many bytes the file has that the list has pieces of, as the trailer says at the list's end.
 * ARK_LENGTH where n is above 65536, ARK_NOT_PIECES where the list doesn't end with a trailer of n pieces. */
ark_status ark_file_size(uint64_t n, const uint8_t *pieces, size_t pieces_len, uint64_t *len);

/* Writes the file of k or more of its pieces, which are whole, in any order. The first k are read, and the last one's trailer.
 * If this trailer is the file's, whatever else the list has, what is written is the file, or else one of the k pieces differs
 * from the file's piece at its place and has its SHA-256.
 * ARK_LENGTH where k is none of 1 .. n, n is above 65536, or the file has another length by this trailer, ARK_NOT_PIECES where
 * the list doesn't begin with k pieces of this k and n that differ, or doesn't end with a trailer, ARK_DAMAGED where one of the
 * first k has not its digest of the trailer. */
ark_status ark_join(uint64_t k, uint64_t n, const uint8_t *pieces, size_t pieces_len, uint8_t *file, size_t file_len);

#ifdef __cplusplus
}
#endif
#endif
