/* Bopkheul: Hensel factors and Weierstrass pairs of polynomials over F_p[[X]], by proved code.
 *
 * A power series has n words, that at t being its coefficient of X^t. A row polynomial is the series at Y^0, Y^1, .. up to Y^d, one after the other; d is
 * its degree bound. A slice is a pointer and then its count of words (or bytes); a count of 0 takes any pointer, NULL too. The slice that a call
 * writes must not overlap any other that it is given. Nothing is allocated, and nothing is kept from call to call.
 *
 * The result of a call is 64 bits wide:
 *   accepted   high half 0, low half the answer: the number of words written, or what the function's comment says;
 *   refused    high half the refusal's number (enum bk_refusal), low half its detail. Then no word was written.
 * Words past those that an accepted call writes are untouched.
 *
 * Link with the archive that `rt lib` writes in crates/capi (x86-64 Linux); the README says how.
 */
#ifndef BOPKHEUL_H
#define BOPKHEUL_H

#include <stddef.h>
#include <stdint.h>

/* The version of this interface. */
#define BK_VERSION_MAJOR 0
#define BK_VERSION_MINOR 1

#ifdef __cplusplus
extern "C" {
#endif

/* Why a call is refused. Checks run in the order of the numbers, but 17 to 19 come right after 4, 21 right after 6, and 24 right after 3; where a call is lent a
 * sheet and takes from it what it needs, 13 comes first, 20 before 6, and 22 before 10. 23 is not in use. */
enum bk_refusal {
    BK_ACCEPTED = 0,
    BK_MODULUS_RANGE = 1,  /* p is below 2 or above 16,777,215 */
    BK_COMPOSITE = 2,      /* p is composite; detail: its least divisor above 1 */
    BK_DEGREE = 3,         /* a degree bound, or a product's, is above 32; for opening a sheet and for counts also 0 */
    BK_TERMS = 4,          /* n is outside 1..256 */
    BK_ROWS = 5,           /* an input has more or fewer words than d and n give it, or there are not d lengths; replay: the words are no list of calls that fit */
    BK_UNREDUCED = 6,      /* some coefficient, root or number is not below p; detail: the first one's position from 0, inputs counted on in the order given, and 0 for a corrected entry */
    BK_NOT_MONIC = 7,      /* opening: row d is not 1, 0, 0, .. */
    BK_ROOT_LIST = 8,      /* opening: the roots are none, more than d, or not strictly rising */
    BK_UNSPLIT = 9,        /* opening: f at X = 0 is no product of the Y - root, each taken at least once; finding: it is no product of Y - c, whatever the c */
    BK_SHORT = 10,         /* the output is too short; detail: the words (or bytes) needed */
    BK_FLAT = 11,          /* pair: f has no row that is other than 0 at X = 0 */
    BK_NO_UNIT = 12,       /* quotient: the divisor is 0, or its least power of X is above the dividend's; inverse: the series begins with 0, the number is 0 */
    BK_SPOILED = 13,       /* the words are no sound sheet; or, continuing a pair, not its first h terms followed by zeros, or h is above n */
    BK_BEYOND = 14,        /* the terms wanted are 0, more than n, or for a sheet more than its least known length */
    BK_BEHIND = 15,        /* the terms wanted are fewer than those there */
    BK_NO_FACTOR = 16,     /* there is no factor of this index */
    BK_UNREADABLE = 17,    /* read: the text is no formula, or has more than 4,096 bytes */
    BK_DEEP = 18,          /* read: the brackets are more than 32 deep */
    BK_HIGH = 19,          /* read: some part of the formula has a degree above 32 in Y */
    BK_ENTRY = 20,         /* there is no such entry to correct */
    BK_KNOWN_TERMS = 21,   /* a count of known terms or a row's known length is outside 1..n, or a word past it is not 0 */
    BK_MULTIPLE_ROOT = 22, /* roots: some root at X = 0 has a power above 1; detail: the least such root */
    BK_MANY = 24           /* counts: there are more than 65,536 polynomials */
};

static inline uint32_t bk_refused(uint64_t result) { return (uint32_t)(result >> 32); } /* 0 where the call was accepted */
static inline uint32_t bk_answer(uint64_t result) { return (uint32_t)result; }          /* the answer, or the refusal's detail */

/* Numbers modulo p. The answer is the number. */
uint64_t bk_sum(uint32_t p, uint32_t value, uint32_t other);
uint64_t bk_difference(uint32_t p, uint32_t value, uint32_t other);
uint64_t bk_product(uint32_t p, uint32_t value, uint32_t other);
uint64_t bk_inverse(uint32_t p, uint32_t value);

/* Series: g + h, g - h, g * h, g / h, 1 / g. All n words are written, and the answer is n; but g / h, where the least power of X in h is e, is known to n - e
 * terms only: that is then the answer, and 0 stands in the last e words. Sum and product are told how many terms of each operand are known, which is n where
 * all are; those past them must be 0. The terms known in both, as many as the lesser of the two counts, are those of the sum or product, and 0 stands after
 * them. */
uint64_t bk_series_sum(uint32_t p, uint32_t n, const uint32_t *g, size_t g_count, uint32_t g_known, const uint32_t *h, size_t h_count, uint32_t h_known, uint32_t *out, size_t out_count);
uint64_t bk_series_difference(uint32_t p, uint32_t n, const uint32_t *g, size_t g_count, const uint32_t *h, size_t h_count, uint32_t *out, size_t out_count);
uint64_t bk_series_product(uint32_t p, uint32_t n, const uint32_t *g, size_t g_count, uint32_t g_known, const uint32_t *h, size_t h_count, uint32_t h_known, uint32_t *out, size_t out_count);
uint64_t bk_series_quotient(uint32_t p, uint32_t n, const uint32_t *g, size_t g_count, const uint32_t *h, size_t h_count, uint32_t *out, size_t out_count);
uint64_t bk_series_inverse(uint32_t p, uint32_t n, const uint32_t *g, size_t g_count, uint32_t *out, size_t out_count);

/* Row polynomials: f + g, f - g, f * g with the bounds d1 and d2, f(Y + c). The answer is the number of words written. */
uint64_t bk_rows_sum(uint32_t p, uint32_t d, uint32_t n, const uint32_t *f, size_t f_count, const uint32_t *g, size_t g_count, uint32_t *out, size_t out_count);
uint64_t bk_rows_difference(uint32_t p, uint32_t d, uint32_t n, const uint32_t *f, size_t f_count, const uint32_t *g, size_t g_count, uint32_t *out, size_t out_count);
uint64_t bk_rows_product(uint32_t p, uint32_t d1, uint32_t d2, uint32_t n, const uint32_t *f, size_t f_count, const uint32_t *g, size_t g_count, uint32_t *out, size_t out_count);
uint64_t bk_rows_shift(uint32_t p, uint32_t d, uint32_t n, const uint32_t *f, size_t f_count, uint32_t c, uint32_t *out, size_t out_count);

/* A polynomial as it is typed, (Y^2-X)*(Y+3) - 2*X*Y for example: what the formula comes to modulo p and X^n. A sum is terms with + or - between them, and perhaps
 * one sign before the first; a term is powers with * between them; a power is an element, or an element, ^ and a number up to 255; an element is a number of 1 to
 * 9 decimal digits, X, Y, or a sum in brackets. Blanks may stand anywhere but inside a number; a 0 byte after the text is not to be counted. Anything to the power
 * 0 is 1. The answer is the degree in Y, which is 0 for the polynomial 0. Rows 0 to the degree are written, (degree + 1)n words, so 33n words are always enough.
 * Refused by 1, 2, 4, 17, 18, 19 or 10, in this order. 19 looks at every part by its value modulo p and X^n, also at parts that cancel later: at each element; where
 * it is raised to a power, at that power and all lower ones from 1 up; at the product of each term's first factors, and the sum of each sum's first terms, however
 * many. It calls itself for brackets, and needs at most 1 MB of stack, for texts made to need it; a usual one needs 0.4 MB. */
uint64_t bk_read(uint32_t p, uint32_t n, const uint8_t *text, size_t text_count, uint32_t *out, size_t out_count);

/* The Weierstrass pair f = P * A modulo X^w, in d + 1 rows: P's below its leading 1, then A's, columns from w up 0. The answer is the order of f, the
 * degree of P. With h = 0 it starts: whatever `out` holds is ignored, and all its rows are written. With h >= 1 it goes on from the pair of f to h terms,
 * which `out` holds: only columns h..w-1 change. */
uint64_t bk_pair(uint32_t p, uint32_t d, uint32_t n, const uint32_t *f, size_t f_count, uint32_t h, uint32_t w, uint32_t *out, size_t out_count);

/* A factor sheet with r factors takes exactly 11 + d + 2r + (2d + 1)n words: eleven header words (p, d, n, terms worked, r, offsets of roots, polynomial and
 * factors, twice the total, and the least length), then the known lengths of rows 0..d-1 of the polynomial, root and power of each factor, the d + 1 rows of
 * the polynomial, and the d rows of the factors below their leading 1, columns from the terms worked up 0. Words past the total are free. Open writes a sheet
 * with one term, from f monic of degree d, the known lengths of its rows 0..d-1 and its roots at X = 0, and answers the total. A length is from 1 to n, and is
 * n where all of the row is known; the row's words past it must be 0. Positions in the detail of 6 are counted along the rows and then the roots. */
uint64_t bk_sheet_open(uint32_t p, uint32_t d, uint32_t n, const uint32_t *f, size_t f_count, const uint32_t *lengths, size_t lengths_count, const uint32_t *roots, size_t roots_count, uint32_t *out, size_t out_count);
/* The same without a list of roots: all roots of f at X = 0 are found, and what open writes with the list of them is written. BK_UNSPLIT then says that there is
 * no such list: f at X = 0 does not split into lines Y - c, whatever the c. BK_ROOT_LIST is never given. The total depends on the number of roots:
 * 11 + 3d + (2d + 1)n words are always enough. Positions in the detail of 6 are counted along the rows. */
uint64_t bk_sheet_find(uint32_t p, uint32_t d, uint32_t n, const uint32_t *f, size_t f_count, const uint32_t *lengths, size_t lengths_count, uint32_t *out, size_t out_count);
/* Works the factors out to w terms, from those there; w is at most the least length, word 10. The answer is w. */
uint64_t bk_sheet_extend(uint32_t *sheet, size_t sheet_count, uint32_t w);
/* Puts another entry into row j, column t of the polynomial, j below d, t from 1 up and below the row's known length, word 11 + j. The factors are then those of
 * the corrected polynomial, to as many terms as before, and their number is the answer. Columns of factors that come before t do not depend on the entry, so only
 * those from t on are changed, and none where t is not among the terms worked. Refused by 13, 20 or 6, in this order. */
uint64_t bk_sheet_correct(uint32_t *sheet, size_t sheet_count, uint32_t j, uint32_t t, uint32_t entry);
/* 1 where the words begin with a sound sheet, else 0; it refuses nothing. */
uint64_t bk_sheet_test(const uint32_t *sheet, size_t sheet_count);
/* Factor i, counted from 0: writes its root, its power, and start and length, in words of the sheet, of the part that holds its rows below the
 * leading 1. The answer is 4. Refused by 10, 13 or 16, in this order. */
uint64_t bk_sheet_factor(const uint32_t *sheet, size_t sheet_count, uint32_t i, uint32_t *out, size_t out_count);
/* That part is a row polynomial whose bound is one below the power, and these pass it on where it stands: times g, of bound e, and at Y + c. Modulus, bound
 * and n are the sheet's. The answer is the number of words written. Refused by 13 or 16, and then as bk_rows_product and bk_rows_shift are; positions in
 * the detail of 6 are counted from the first word of the part. */
uint64_t bk_sheet_factor_times(const uint32_t *sheet, size_t sheet_count, uint32_t i, uint32_t e, const uint32_t *g, size_t g_count, uint32_t *out, size_t out_count);
uint64_t bk_sheet_factor_shift(const uint32_t *sheet, size_t sheet_count, uint32_t i, uint32_t c, uint32_t *out, size_t out_count);
/* The roots of the polynomial as series, where all of them are simple at X = 0, that is, of power 1: then there are d, and for each root c, in rising order, a row of n
 * words is written, the one series s that begins with c and has f(s) = 0 modulo X^k, k being the terms worked; columns from k up are 0. The answer is the number of
 * words, rn, with r = d. Refused by 13, 22 or 10, in this order. */
uint64_t bk_sheet_roots(const uint32_t *sheet, size_t sheet_count, uint32_t *out, size_t out_count);
/* A list of calls, five words for each: the number of words lent to it, which are the sheet's first ones; its kind, 0 for extend or 1 for correct; and w, 0, 0 or
 * j, t and the entry. It writes two words for each call: 0 and the answer, or the refusal's number and detail. Refused by 5: the words are no multiple of five, or
 * some call lends more words than there are, is of neither kind, or is an extend whose last two words are not both 0. */
uint64_t bk_sheet_replay(uint32_t *sheet, size_t sheet_count, const uint32_t *calls, size_t calls_count, uint32_t *answers, size_t answers_count);

/* How often it splits. Of the p^d monic polynomials in Y of degree d over F_p, word 0 counts those that are no product of lines Y - c, and word r, from 1 to d,
 * those that are one and have exactly r distinct roots. All words together are p^d; the answer is their number, d + 1. Where coefficients at X = 0 are drawn by
 * lot, a share of 1 - out[0] / p^d of the polynomials splits, and a share of out[d] / p^d has d distinct roots, all simple. Refused by 1, 2, 3, 24 or 10, in this
 * order; by 24 where p^d is above 65,536. */
uint64_t bk_counts(uint32_t p, uint32_t d, uint32_t *out, size_t out_count);

/* The listing of a job file of either kind, with fields of 16 bits or, after a first word of 0, of 32. Where the job names no roots (r = 0) they are found. For a
 * refused job it is the one line `refused NUMBER DETAIL`. The answer is the number of bytes written; the only refusal of the call itself is 10. */
uint64_t bk_list(const uint8_t *job, size_t job_count, uint8_t *out, size_t out_count);
/* The listing of the roots of the same job, as series. After the first line of bk_list's there is a line for each root, `Y =` and its n entries, a blank before each; an
 * entry is printed as the number v that is congruent to it and has -p/2 < v <= p/2. Where bk_list's is a line `refused NUMBER DETAIL` this is the same line, and where
 * some root has a power above 1 it is `refused 22 ROOT`, with the least such root. The answer is the number of bytes written; the only refusal of the call itself is
 * 10. 9,216 bytes are always enough. */
uint64_t bk_list_roots(const uint8_t *job, size_t job_count, uint8_t *out, size_t out_count);
/* The answer key of typed lines: `MODULUS TERMS`, two numbers of 1 to 9 decimal digits with blanks between them and perhaps around them, then a line feed, and after
 * it a polynomial as bk_read takes it, at whose very end one line feed may stand. It is what bk_list gives for the job with the rows of this polynomial and r = 0.
 * Where the lines are refused it is the one line `refused NUMBER DETAIL`: by 17 where there are more than 4,160 bytes or the first line is another; then by 1, 2, 4
 * (terms outside 1..64), 17, 18, 19, 3 (degree outside 1..12), 7 or 9, in this order. The answer is the number of bytes written; the only refusal of the call itself
 * is 10. 9,216 bytes are always enough. */
uint64_t bk_key(const uint8_t *input, size_t input_count, uint8_t *out, size_t out_count);

/* From here on nothing that a caller needs to read.
 *
 * The archive's functions take no NULL. So each name that takes slices stands for a function of this header, which calls the archive's with the
 * address of a word of its own for every slice whose count is 0. No word is read or written there. */
static inline const uint32_t *bk_words_in(const uint32_t *words, size_t count) {
    static const uint32_t none = 0;
    return count ? words : &none;
}
static inline uint32_t *bk_words_out(uint32_t *words, size_t count) {
    static uint32_t none = 0;
    return count ? words : &none;
}
static inline const uint8_t *bk_bytes_in(const uint8_t *bytes, size_t count) {
    static const uint8_t none = 0;
    return count ? bytes : &none;
}
static inline uint8_t *bk_bytes_out(uint8_t *bytes, size_t count) {
    static uint8_t none = 0;
    return count ? bytes : &none;
}

static inline uint64_t bk_series_sum_any(uint32_t p, uint32_t n, const uint32_t *g, size_t g_count, uint32_t g_known, const uint32_t *h, size_t h_count, uint32_t h_known, uint32_t *out, size_t out_count) {
    return bk_series_sum(p, n, bk_words_in(g, g_count), g_count, g_known, bk_words_in(h, h_count), h_count, h_known, bk_words_out(out, out_count), out_count);
}
static inline uint64_t bk_series_difference_any(uint32_t p, uint32_t n, const uint32_t *g, size_t g_count, const uint32_t *h, size_t h_count, uint32_t *out, size_t out_count) {
    return bk_series_difference(p, n, bk_words_in(g, g_count), g_count, bk_words_in(h, h_count), h_count, bk_words_out(out, out_count), out_count);
}
static inline uint64_t bk_series_product_any(uint32_t p, uint32_t n, const uint32_t *g, size_t g_count, uint32_t g_known, const uint32_t *h, size_t h_count, uint32_t h_known, uint32_t *out, size_t out_count) {
    return bk_series_product(p, n, bk_words_in(g, g_count), g_count, g_known, bk_words_in(h, h_count), h_count, h_known, bk_words_out(out, out_count), out_count);
}
static inline uint64_t bk_series_quotient_any(uint32_t p, uint32_t n, const uint32_t *g, size_t g_count, const uint32_t *h, size_t h_count, uint32_t *out, size_t out_count) {
    return bk_series_quotient(p, n, bk_words_in(g, g_count), g_count, bk_words_in(h, h_count), h_count, bk_words_out(out, out_count), out_count);
}
static inline uint64_t bk_series_inverse_any(uint32_t p, uint32_t n, const uint32_t *g, size_t g_count, uint32_t *out, size_t out_count) {
    return bk_series_inverse(p, n, bk_words_in(g, g_count), g_count, bk_words_out(out, out_count), out_count);
}
static inline uint64_t bk_rows_sum_any(uint32_t p, uint32_t d, uint32_t n, const uint32_t *f, size_t f_count, const uint32_t *g, size_t g_count, uint32_t *out, size_t out_count) {
    return bk_rows_sum(p, d, n, bk_words_in(f, f_count), f_count, bk_words_in(g, g_count), g_count, bk_words_out(out, out_count), out_count);
}
static inline uint64_t bk_rows_difference_any(uint32_t p, uint32_t d, uint32_t n, const uint32_t *f, size_t f_count, const uint32_t *g, size_t g_count, uint32_t *out, size_t out_count) {
    return bk_rows_difference(p, d, n, bk_words_in(f, f_count), f_count, bk_words_in(g, g_count), g_count, bk_words_out(out, out_count), out_count);
}
static inline uint64_t bk_rows_product_any(uint32_t p, uint32_t d1, uint32_t d2, uint32_t n, const uint32_t *f, size_t f_count, const uint32_t *g, size_t g_count, uint32_t *out, size_t out_count) {
    return bk_rows_product(p, d1, d2, n, bk_words_in(f, f_count), f_count, bk_words_in(g, g_count), g_count, bk_words_out(out, out_count), out_count);
}
static inline uint64_t bk_rows_shift_any(uint32_t p, uint32_t d, uint32_t n, const uint32_t *f, size_t f_count, uint32_t c, uint32_t *out, size_t out_count) {
    return bk_rows_shift(p, d, n, bk_words_in(f, f_count), f_count, c, bk_words_out(out, out_count), out_count);
}
static inline uint64_t bk_read_any(uint32_t p, uint32_t n, const uint8_t *text, size_t text_count, uint32_t *out, size_t out_count) {
    return bk_read(p, n, bk_bytes_in(text, text_count), text_count, bk_words_out(out, out_count), out_count);
}
static inline uint64_t bk_pair_any(uint32_t p, uint32_t d, uint32_t n, const uint32_t *f, size_t f_count, uint32_t h, uint32_t w, uint32_t *out, size_t out_count) {
    return bk_pair(p, d, n, bk_words_in(f, f_count), f_count, h, w, bk_words_out(out, out_count), out_count);
}
static inline uint64_t bk_sheet_open_any(uint32_t p, uint32_t d, uint32_t n, const uint32_t *f, size_t f_count, const uint32_t *lengths, size_t lengths_count, const uint32_t *roots, size_t roots_count, uint32_t *out, size_t out_count) {
    return bk_sheet_open(p, d, n, bk_words_in(f, f_count), f_count, bk_words_in(lengths, lengths_count), lengths_count, bk_words_in(roots, roots_count), roots_count, bk_words_out(out, out_count), out_count);
}
static inline uint64_t bk_sheet_find_any(uint32_t p, uint32_t d, uint32_t n, const uint32_t *f, size_t f_count, const uint32_t *lengths, size_t lengths_count, uint32_t *out, size_t out_count) {
    return bk_sheet_find(p, d, n, bk_words_in(f, f_count), f_count, bk_words_in(lengths, lengths_count), lengths_count, bk_words_out(out, out_count), out_count);
}
static inline uint64_t bk_sheet_extend_any(uint32_t *sheet, size_t sheet_count, uint32_t w) {
    return bk_sheet_extend(bk_words_out(sheet, sheet_count), sheet_count, w);
}
static inline uint64_t bk_sheet_correct_any(uint32_t *sheet, size_t sheet_count, uint32_t j, uint32_t t, uint32_t entry) {
    return bk_sheet_correct(bk_words_out(sheet, sheet_count), sheet_count, j, t, entry);
}
static inline uint64_t bk_sheet_test_any(const uint32_t *sheet, size_t sheet_count) {
    return bk_sheet_test(bk_words_in(sheet, sheet_count), sheet_count);
}
static inline uint64_t bk_sheet_factor_any(const uint32_t *sheet, size_t sheet_count, uint32_t i, uint32_t *out, size_t out_count) {
    return bk_sheet_factor(bk_words_in(sheet, sheet_count), sheet_count, i, bk_words_out(out, out_count), out_count);
}
static inline uint64_t bk_sheet_factor_times_any(const uint32_t *sheet, size_t sheet_count, uint32_t i, uint32_t e, const uint32_t *g, size_t g_count, uint32_t *out, size_t out_count) {
    return bk_sheet_factor_times(bk_words_in(sheet, sheet_count), sheet_count, i, e, bk_words_in(g, g_count), g_count, bk_words_out(out, out_count), out_count);
}
static inline uint64_t bk_sheet_factor_shift_any(const uint32_t *sheet, size_t sheet_count, uint32_t i, uint32_t c, uint32_t *out, size_t out_count) {
    return bk_sheet_factor_shift(bk_words_in(sheet, sheet_count), sheet_count, i, c, bk_words_out(out, out_count), out_count);
}
static inline uint64_t bk_sheet_roots_any(const uint32_t *sheet, size_t sheet_count, uint32_t *out, size_t out_count) {
    return bk_sheet_roots(bk_words_in(sheet, sheet_count), sheet_count, bk_words_out(out, out_count), out_count);
}
static inline uint64_t bk_sheet_replay_any(uint32_t *sheet, size_t sheet_count, const uint32_t *calls, size_t calls_count, uint32_t *answers, size_t answers_count) {
    return bk_sheet_replay(bk_words_out(sheet, sheet_count), sheet_count, bk_words_in(calls, calls_count), calls_count, bk_words_out(answers, answers_count), answers_count);
}
static inline uint64_t bk_counts_any(uint32_t p, uint32_t d, uint32_t *out, size_t out_count) {
    return bk_counts(p, d, bk_words_out(out, out_count), out_count);
}
static inline uint64_t bk_list_any(const uint8_t *job, size_t job_count, uint8_t *out, size_t out_count) {
    return bk_list(bk_bytes_in(job, job_count), job_count, bk_bytes_out(out, out_count), out_count);
}
static inline uint64_t bk_list_roots_any(const uint8_t *job, size_t job_count, uint8_t *out, size_t out_count) {
    return bk_list_roots(bk_bytes_in(job, job_count), job_count, bk_bytes_out(out, out_count), out_count);
}
static inline uint64_t bk_key_any(const uint8_t *input, size_t input_count, uint8_t *out, size_t out_count) {
    return bk_key(bk_bytes_in(input, input_count), input_count, bk_bytes_out(out, out_count), out_count);
}

#define bk_series_sum bk_series_sum_any
#define bk_series_difference bk_series_difference_any
#define bk_series_product bk_series_product_any
#define bk_series_quotient bk_series_quotient_any
#define bk_series_inverse bk_series_inverse_any
#define bk_rows_sum bk_rows_sum_any
#define bk_rows_difference bk_rows_difference_any
#define bk_rows_product bk_rows_product_any
#define bk_rows_shift bk_rows_shift_any
#define bk_read bk_read_any
#define bk_pair bk_pair_any
#define bk_sheet_open bk_sheet_open_any
#define bk_sheet_find bk_sheet_find_any
#define bk_sheet_extend bk_sheet_extend_any
#define bk_sheet_correct bk_sheet_correct_any
#define bk_sheet_test bk_sheet_test_any
#define bk_sheet_factor bk_sheet_factor_any
#define bk_sheet_factor_times bk_sheet_factor_times_any
#define bk_sheet_factor_shift bk_sheet_factor_shift_any
#define bk_sheet_roots bk_sheet_roots_any
#define bk_sheet_replay bk_sheet_replay_any
#define bk_counts bk_counts_any
#define bk_list bk_list_any
#define bk_list_roots bk_list_roots_any
#define bk_key bk_key_any

#ifdef __cplusplus
}
#endif

#endif
