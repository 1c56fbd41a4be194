/* The engine's operations in straightforward C, with the same checks: words of 32 bits, sums of products in 64, one reduction for each coefficient. Its sheets are
 * document 01's, with stored cofactors: a sheet is tested by multiplying the chain of factors and cofactors back, and extended link by link along that chain, each
 * column of a link by synthetic division. */
#include "baseline.h"

#include <stdbool.h>
#include <string.h>

enum { MAX_ROWS = 33, HEADER = 10 };

static uint64_t refuse(uint32_t number, uint32_t detail) { return (uint64_t)number << 32 | detail; }

/* --- numbers --- */

enum { PRIMES_BELOW = 4096 }; /* its square is above every modulus */
static uint32_t primes[PRIMES_BELOW];
static size_t prime_count;

static void sieve(void) {
    static bool composite[PRIMES_BELOW];
    for (uint32_t q = 2; q < PRIMES_BELOW; q++) {
        if (composite[q]) continue;
        primes[prime_count++] = q;
        for (uint32_t m = q * q; m < PRIMES_BELOW; m += q) composite[m] = true;
    }
}

static uint32_t least_divisor(uint32_t p) {
    if (!prime_count) sieve();
    for (size_t i = 0; i < prime_count && primes[i] * primes[i] <= p; i++)
        if (p % primes[i] == 0) return primes[i];
    return p;
}

static uint32_t least_divisor_by_every_number(uint32_t p) {
    for (uint32_t d = 2; d * d <= p; d++)
        if (p % d == 0) return d;
    return p;
}

static uint32_t inverse_of(uint32_t p, uint32_t a) {
    uint64_t m = a, c = 1;
    while (m > 1) {
        c = c * (p - p / m) % p;
        m = p % m;
    }
    return (uint32_t)c;
}

static uint64_t judge(uint32_t p, uint32_t (*divisor)(uint32_t)) {
    if (p < 2 || p > 16777215) return refuse(1, 0);
    uint32_t d = divisor(p);
    return d < p ? refuse(2, d) : 0;
}

static uint64_t check_modulus(uint32_t p) { return judge(p, least_divisor); }

static bool all_below(uint32_t q, const uint32_t *s, size_t count) {
    for (size_t i = 0; i < count; i++)
        if (s[i] >= q) return false;
    return true;
}

static uint64_t check_words(uint32_t p, const uint32_t *s, size_t count, size_t before) {
    for (size_t i = 0; i < count; i++)
        if (s[i] >= p) return refuse(6, (uint32_t)(before + i));
    return 0;
}

static uint64_t sum(uint64_t r, uint32_t p, uint32_t value, uint32_t other) {
    if (r || (r = check_words(p, (uint32_t[]){value, other}, 2, 0))) return r;
    return (value + other) % p;
}

uint64_t base_sum(uint32_t p, uint32_t value, uint32_t other) { return sum(check_modulus(p), p, value, other); }

uint64_t base_sum_by_every_number(uint32_t p, uint32_t value, uint32_t other) { return sum(judge(p, least_divisor_by_every_number), p, value, other); }

/* --- series --- */

/* g_0 h_(k-1) + .. + g_(k-1) h_0, not reduced. */
static uint64_t dot(const uint32_t *g, const uint32_t *h, size_t k) {
    uint64_t sum = 0;
    for (size_t i = 0; i < k; i++) sum += (uint64_t)g[i] * h[k - 1 - i];
    return sum;
}

static bool is_known(const uint32_t *s, uint32_t n, uint32_t known) { return known >= 1 && known <= n && all_below(1, s + known, n - known); }

/* Where all terms are known, the counts are n. */
static uint64_t check_known(uint32_t p, uint32_t n, const uint32_t *g, size_t g_count, uint32_t g_known, const uint32_t *h, size_t h_count, uint32_t h_known, size_t room) {
    uint64_t r = check_modulus(p);
    if (r) return r;
    if (n < 1 || n > 256) return refuse(4, 0);
    if (g_count != n || (h && h_count != n)) return refuse(5, 0);
    if ((r = check_words(p, g, n, 0)) || (h && (r = check_words(p, h, n, n)))) return r;
    if (!is_known(g, n, g_known) || (h && !is_known(h, n, h_known))) return refuse(21, 0);
    return room < n ? refuse(10, n) : 0;
}

static uint64_t check_series(uint32_t p, uint32_t n, const uint32_t *g, size_t g_count, const uint32_t *h, size_t h_count, size_t room) {
    return check_known(p, n, g, g_count, n, h, h_count, n, room);
}

uint64_t base_series_product(uint32_t p, uint32_t n, const uint32_t *g, size_t g_count, uint32_t g_known, const uint32_t *h, size_t h_count, uint32_t h_known, uint32_t *out, size_t out_count) {
    uint64_t r = check_known(p, n, g, g_count, g_known, h, h_count, h_known, out_count);
    if (r) return r;
    uint32_t known = g_known < h_known ? g_known : h_known;
    for (uint32_t t = 0; t < known; t++) out[t] = (uint32_t)(dot(g, h, t + 1) % p);
    memset(out + known, 0, (n - known) * sizeof *out);
    return n;
}

uint64_t base_series_inverse(uint32_t p, uint32_t n, const uint32_t *g, size_t g_count, uint32_t *out, size_t out_count) {
    uint64_t r = check_series(p, n, g, g_count, NULL, 0, out_count);
    if (r) return r;
    if (g[0] == 0) return refuse(12, 0);
    uint64_t inverse = inverse_of(p, g[0]);
    for (uint32_t t = 0; t < n; t++) {
        uint64_t one = t == 0;
        out[t] = (uint32_t)((one + p - dot(g + 1, out, t) % p) * inverse % p);
    }
    return n;
}

/* The least power of X; n where all words are 0. */
static uint32_t least_power(const uint32_t *s, uint32_t n) {
    uint32_t e = 0;
    while (e < n && s[e] == 0) e++;
    return e;
}

uint64_t base_series_quotient(uint32_t p, uint32_t n, const uint32_t *f, size_t f_count, const uint32_t *g, size_t g_count, uint32_t *out, size_t out_count) {
    uint64_t r = check_series(p, n, f, f_count, g, g_count, out_count);
    if (r) return r;
    uint32_t e = least_power(g, n), known = n - e;
    if (e == n || least_power(f, n) < e) return refuse(12, 0);
    uint64_t inverse = inverse_of(p, g[e]);
    for (uint32_t t = 0; t < known; t++) out[t] = (uint32_t)((f[e + t] + p - dot(g + e + 1, out, t) % p) * inverse % p);
    memset(out + known, 0, e * sizeof *out);
    return known;
}

/* --- rows --- */

/* Row j of f * g: the products of row i of f and row j - i of g, columns skip..skip + count - 1 of each, as one sum. */
static uint64_t passes(const uint32_t *f, size_t f_rows, const uint32_t *g, size_t g_rows, size_t n, size_t j, size_t skip, size_t count) {
    uint64_t sum = 0;
    size_t end = j + 1 < f_rows ? j + 1 : f_rows;
    for (size_t i = j + 1 > g_rows ? j + 1 - g_rows : 0; i < end; i++) sum += dot(f + i * n + skip, g + (j - i) * n + skip, count);
    return sum;
}

/* --- one column of a split, (Y - c)^m * B + P * A = E. p is below 2^24, so a product needs 64 bits. --- */

/* Horner's scheme: word 0 becomes the value at c, the others the quotient by Y - c. */
static void horner(uint32_t p, uint32_t c, uint32_t *e, size_t size) {
    for (size_t j = size - 1; j-- > 0;) e[j] = (uint32_t)((e[j] + (uint64_t)c * e[j + 1]) % p);
}

/* E becomes P and, from word m on, B. `inverse` is 1 / A(c), and a the quotient of A by Y - c. */
static void solve(uint32_t p, uint32_t c, uint32_t inverse, const uint32_t *a, size_t a_size, size_t m, uint32_t *e, size_t size) {
    for (size_t i = 0; i < m; i++) {
        horner(p, c, e + i, size - i);
        uint64_t minus_q = (p - (uint64_t)e[i] * inverse % p) % p;
        e[i] = (uint32_t)((p - minus_q) % p);
        for (size_t j = 0; j < a_size; j++) e[i + 1 + j] = (uint32_t)((e[i + 1 + j] + minus_q * a[j]) % p);
    }
    for (size_t i = m; i-- > 0;)
        for (size_t j = i; j + 1 < m; j++) e[j] = (uint32_t)((e[j] + (uint64_t)(p - c) * e[j + 1]) % p);
}

/* As often as c is a root it is divided out; nothing is left to find where f is 1. */
uint32_t base_roots(uint32_t p, uint32_t d, const uint32_t *f, uint32_t *roots, uint32_t *powers) {
    uint32_t left[MAX_ROWS], count = 0;
    size_t degree = d;
    memcpy(left, f, (d + 1) * sizeof *left);
    for (uint32_t c = 0; c < p && degree > 0; c++) {
        uint32_t power = 0;
        for (;;) {
            uint64_t value = left[degree];
            for (size_t j = degree; j-- > 0;) value = (left[j] + value * c) % p;
            if (value) break;
            horner(p, c, left, degree + 1);
            memmove(left, left + 1, degree-- * sizeof *left);
            power++;
        }
        if (power) {
            roots[count] = c;
            powers[count++] = power;
        }
    }
    return count;
}

/* Column t of f less the products of the columns between: what the columns t of P and A have to come to. */
static void gather(uint32_t p, const uint32_t *f, const uint32_t *low, size_t m, const uint32_t *high, size_t k, size_t n, size_t t, uint32_t *e, size_t size) {
    for (size_t j = 0; j < size; j++) {
        uint64_t sum = passes(low, m, high, k, n, j, 1, t - 1);
        e[j] = (uint32_t)((f[j * n + t] + (p - sum % p)) % p);
    }
}

static void store_column(const uint32_t *e, size_t size, size_t n, size_t t, uint32_t *rows) {
    for (size_t j = 0; j < size; j++) rows[j * n + t] = e[j];
}

/* Columns from..to - 1 of the split source = (Y - c)^m.. * cofactor; `lead` is the cofactor's leading 1 where its rows leave that out. */
static void lift(uint32_t p, uint32_t c, const uint32_t *source, uint32_t *low, size_t m, uint32_t *high, size_t k, bool lead, size_t n, size_t from, size_t to) {
    uint32_t a[MAX_ROWS], e[MAX_ROWS];
    for (size_t j = 0; j < k; j++) a[j] = high[j * n];
    size_t size = k;
    if (lead) a[size++] = 1;
    horner(p, c, a, size);
    uint32_t inverse = inverse_of(p, a[0]);
    for (size_t t = from; t < to; t++) {
        gather(p, source, low, m, high, k, n, t, e, m + k);
        solve(p, c, inverse, a + 1, size - 1, m, e, m + k);
        store_column(e, m, n, t, low);
        store_column(e + m, k, n, t, high);
    }
}

/* Rows worked to k terms: below p in the columns worked, 0 in the others. */
static bool rows_fit(uint32_t p, const uint32_t *rows, size_t count, size_t n, size_t k) {
    for (size_t j = 0; j < count; j++, rows += n)
        if (!all_below(p, rows, k) || !all_below(1, rows + k, n - k)) return false;
    return true;
}

/* The source is the product of Y^m + low and high, to so many terms; `lead` as above. */
static bool split_fits(uint32_t p, const uint32_t *source, const uint32_t *low, size_t m, const uint32_t *high, size_t k, bool lead, size_t n, size_t terms) {
    for (size_t j = 0; j < m + k; j++)
        for (size_t t = 0; t < terms; t++) {
            uint64_t sum = passes(low, m, high, k, n, j, 0, t + 1);
            if (j >= m) sum += high[(j - m) * n + t];
            if (lead && j >= k) sum += low[(j - k) * n + t];
            if (sum % p != source[j * n + t]) return false;
        }
    return true;
}

/* --- the pair --- */

static bool pair_fits(uint32_t p, const uint32_t *f, size_t rows, size_t n, size_t order, size_t h, const uint32_t *out) {
    if (!rows_fit(p, out, rows, n, h) || out[order * n] == 0) return false;
    for (size_t j = 0; j < order; j++)
        if (out[j * n] != 0) return false;
    return split_fits(p, f, out, order, out + order * n, rows - order, false, n, h);
}

uint64_t base_pair(uint32_t p, uint32_t d, uint32_t n, const uint32_t *f, size_t f_count, uint32_t h, uint32_t w, uint32_t *out, size_t out_count) {
    uint64_t r = check_modulus(p);
    if (r) return r;
    if (d > 32) return refuse(3, 0);
    if (n < 1 || n > 256) return refuse(4, 0);
    size_t rows = d + 1, words = rows * n;
    if (f_count != words) return refuse(5, 0);
    if ((r = check_words(p, f, words, 0))) return r;
    if (out_count < words) return refuse(10, (uint32_t)words);
    size_t order = 0;
    while (order < rows && f[order * n] == 0) order++;
    if (order == rows) return refuse(11, 0);
    if (h > n || (h > 0 && !pair_fits(p, f, rows, n, order, h, out))) return refuse(13, 0);
    if (w < 1 || w > n) return refuse(14, 0);
    if (w < h) return refuse(15, 0);
    if (h == 0) {
        memset(out, 0, words * sizeof *out);
        for (size_t j = 0; j < rows; j++) out[j * n] = f[j * n];
        h = 1;
    }
    lift(p, 0, f, out, order, out + order * n, rows - order, false, n, h, w);
    return order;
}

/* --- the sheet --- */

/* Where the rows of link i stand: source = factor * cofactor. One factor makes one link, whose cofactor is 1. */
struct link {
    uint32_t root;
    size_t power, codegree;
    size_t source, low, high;
};

static uint32_t root(const uint32_t *s, size_t i) { return s[HEADER + 2 * i]; }
static uint32_t power(const uint32_t *s, size_t i) { return s[HEADER + 2 * i + 1]; }
static size_t links(const uint32_t *s) { return s[4] < 2 ? 1 : s[4] - 1; }

static struct link link_of(const uint32_t *s, size_t i) {
    size_t n = s[2], r = s[4], before = 0, left = s[1], cofactors = s[8], source = s[6];
    for (size_t l = 0; l < i; l++) {
        before += power(s, l);
        left -= power(s, l);
        source = cofactors;
        cofactors += left * n;
    }
    size_t m = power(s, i), low = s[7] + before * n;
    size_t high = i + 2 < r ? cofactors : low + m * n;
    return (struct link){root(s, i), m, left - m, source, low, high};
}

static bool shape_fits(const uint32_t *s, size_t count) {
    if (count < HEADER || check_modulus(s[0])) return false;
    size_t d = s[1], n = s[2], k = s[3], r = s[4];
    if (d < 1 || d > 32 || n > 256 || k < 1 || k > n || r < 1 || r > d || count < HEADER + 2 * r) return false;
    size_t left = d, cofactor_rows = 0;
    for (size_t i = 0; i < r; i++) {
        size_t m = power(s, i);
        if (m < 1 || m > left) return false;
        left -= m;
        if (i + 2 < r) cofactor_rows += left;
    }
    size_t cofactors = HEADER + 2 * r + (2 * d + 1) * n, total = cofactors + cofactor_rows * n;
    return left == 0 && s[5] == HEADER && s[6] == HEADER + 2 * r && s[7] == HEADER + 2 * r + (d + 1) * n && s[8] == cofactors && s[9] == total
        && count >= total;
}

static bool roots_fit(const uint32_t *s) {
    for (size_t i = 0; i < s[4]; i++)
        if (root(s, i) >= s[0] || (i > 0 && root(s, i) <= root(s, i - 1))) return false;
    return true;
}

/* The words below p, factor and cofactor rows worked to k terms, and the top row of the polynomial 1, 0, 0, .. */
static bool words_fit(const uint32_t *s) {
    size_t n = s[2], top = s[6] + s[1] * n;
    return all_below(s[0], s + s[6], (s[1] + 1) * n) && s[top] == 1 && all_below(1, s + top + 1, n - 1)
        && rows_fit(s[0], s + s[7], (s[9] - s[7]) / n, n, s[3]);
}

/* The product of (Y - c)^m over factors first..last - 1; the result is its degree. */
static size_t multiply_lines(const uint32_t *s, size_t first, size_t last, uint32_t product[MAX_ROWS]) {
    uint64_t p = s[0];
    size_t degree = 0;
    memset(product, 0, MAX_ROWS * sizeof *product);
    product[0] = 1;
    for (size_t i = first; i < last; i++)
        for (size_t e = 0; e < power(s, i); e++, degree++)
            for (size_t j = degree + 2; j-- > 0;) product[j] = (uint32_t)(((j ? product[j - 1] : 0) + (p - root(s, i)) * product[j]) % p);
    return degree;
}

/* Each factor at X = 0 is (Y - c)^m. */
static bool lines_fit(const uint32_t *s) {
    const uint32_t *rows = s + s[7];
    for (size_t i = 0; i < s[4]; i++) {
        uint32_t line[MAX_ROWS];
        size_t m = multiply_lines(s, i, i + 1, line);
        for (size_t j = 0; j < m; j++, rows += s[2])
            if (rows[0] != line[j]) return false;
    }
    return true;
}

static bool link_fits(const uint32_t *s, struct link l) {
    return split_fits(s[0], s + l.source, s + l.low, l.power, s + l.high, l.codegree, true, s[2], s[3]);
}

uint64_t base_sheet_test(const uint32_t *s, size_t count) {
    if (!shape_fits(s, count) || !roots_fit(s) || !words_fit(s) || !lines_fit(s)) return 0;
    for (size_t i = 0; i < links(s); i++)
        if (!link_fits(s, link_of(s, i))) return 0;
    return 1;
}

uint64_t base_sheet_extend(uint32_t *s, size_t count, uint32_t w) {
    if (!base_sheet_test(s, count)) return refuse(13, 0);
    if (w < 1 || w > s[2]) return refuse(14, 0);
    if (w < s[3]) return refuse(15, 0);
    for (size_t i = 0; i < links(s); i++) {
        struct link l = link_of(s, i);
        lift(s[0], l.root, s + l.source, s + l.low, l.power, s + l.high, l.codegree, true, s[2], s[3], w);
    }
    s[3] = w;
    return w;
}

/* The columns from t up of factors and cofactors are lifted once more; those before it are right. */
uint64_t base_sheet_correct(uint32_t *s, size_t count, uint32_t j, uint32_t t, uint32_t entry) {
    if (!base_sheet_test(s, count)) return refuse(13, 0);
    if (j >= s[1] || t < 1 || t >= s[2]) return refuse(20, 0);
    if (entry >= s[0]) return refuse(6, 0);
    s[s[6] + j * s[2] + t] = entry;
    if (t >= s[3]) return s[3];
    for (uint32_t *row = s + s[7]; row < s + s[9]; row += s[2]) memset(row + t, 0, (s[3] - t) * sizeof *row);
    for (size_t i = 0; i < links(s); i++) {
        struct link l = link_of(s, i);
        lift(s[0], l.root, s + l.source, s + l.low, l.power, s + l.high, l.codegree, true, s[2], t, s[3]);
    }
    return s[3];
}

/* --- a fresh sheet, which is not timed: what it is given is right --- */

/* Writes the product of (Y - c)^m over factors first..last - 1 to column 0 of the next rows, and gives the row after them. */
static uint32_t *put_product(const uint32_t *s, size_t first, size_t last, uint32_t *rows) {
    uint32_t product[MAX_ROWS];
    size_t degree = multiply_lines(s, first, last, product);
    for (size_t j = 0; j < degree; j++, rows += s[2]) rows[0] = product[j];
    return rows;
}

static void put_header(uint32_t p, uint32_t d, uint32_t n, const uint32_t *powers, uint32_t count, uint32_t *s) {
    uint32_t polynomial = HEADER + 2 * count, factors = polynomial + (d + 1) * n, cofactors = factors + d * n, total = cofactors;
    for (uint32_t i = 0, left = d; i + 2 < count; i++) {
        left -= powers[i];
        total += left * n;
    }
    memcpy(s, (uint32_t[HEADER]){p, d, n, 1, count, HEADER, polynomial, factors, cofactors, total}, HEADER * sizeof *s);
}

uint64_t base_sheet_open(uint32_t p, uint32_t d, uint32_t n, const uint32_t *f, const uint32_t *roots, const uint32_t *powers, uint32_t count, uint32_t *s) {
    put_header(p, d, n, powers, count, s);
    memset(s + HEADER, 0, (s[9] - HEADER) * sizeof *s);
    for (size_t i = 0; i < count; i++) {
        s[HEADER + 2 * i] = roots[i];
        s[HEADER + 2 * i + 1] = powers[i];
    }
    memcpy(s + s[6], f, (d + 1) * n * sizeof *s);
    uint32_t *rows = s + s[7];
    for (size_t i = 0; i < count; i++) rows = put_product(s, i, i + 1, rows);
    for (size_t i = 1; i + 1 < count; i++) rows = put_product(s, i, count, rows);
    return s[9];
}
