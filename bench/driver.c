/* Times the engine and its C version on the same inputs in one run, alternating, and prints a Markdown table of medians. It stops where they differ. */
#define _POSIX_C_SOURCE 199309L
#include "baseline.h"
#include "bopkheul.h"
#include "others.h"

#include <stdbool.h>
#include <stdio.h>
#include <stdlib.h>
#include <string.h>
#include <time.h>

enum { D = 32, ORDER = 16, SHORT_N = 8, MAX_N = 256, WORDS = 200000, SAMPLES = 41, FEW_SAMPLES = 3 };

static const uint32_t MODULI[] = {65521, 16777213}; /* the largest primes of two bytes and of three */
enum { MODULI_COUNT = sizeof MODULI / sizeof *MODULI };
static uint32_t p;

static const double SAMPLE_SECONDS = 0.002; /* a sample repeats a short call until it takes this long */

/* --- inputs --- */

static uint64_t state = 1;

static uint32_t random_word(void) {
    uint64_t z = state += 0x9e3779b97f4a7c15;
    z = (z ^ z >> 30) * 0xbf58476d1ce4e5b9;
    z = (z ^ z >> 27) * 0x94d049bb133111eb;
    return (uint32_t)((z ^ z >> 31) % p);
}

static void fill(uint32_t *words, size_t count) {
    for (size_t i = 0; i < count; i++) words[i] = random_word();
}

/* Side 0 is the engine, side 1 the C version or a library. */
static uint32_t g[MAX_N], h[MAX_N], f[(D + 1) * MAX_N], lengths[D], roots[D], powers[D];
static uint32_t fresh[2][WORDS]; /* what a call begins with, where it works in place: each side's own sheet or pair */
static uint32_t out[2][WORDS];
static size_t words[2]; /* of fresh and out */
static uint64_t answers[2];
static uint32_t n;

/* How far a sheet or a pair is worked before its call; NOTHING where the call begins with none. */
enum start { NOTHING, ONE_TERM, HALF, FULL };

struct benchmark {
    const char *name;
    void (*input)(const struct benchmark *b);
    uint64_t (*call)(int side);
    bool (*same)(void); /* whether both sides' results are identical */
    uint32_t roots;     /* of a sheet, all of the same power; 0 for what is not a sheet */
    enum start start;
};

static void stop_unless(bool holds, const struct benchmark *b, const char *what) {
    if (holds) return;
    printf("%s, N = %u: %s\n", b->name, n, what);
    exit(1);
}

static void no_input(const struct benchmark *b) { (void)b; }

static void series_input(const struct benchmark *b) {
    (void)b;
    fill(g, n);
    fill(h, n);
    g[0] = 1 + random_word() % (p - 1);
    words[0] = words[1] = n;
}

/* Both with X^(n/2) in common. */
static void common_input(const struct benchmark *b) {
    series_input(b);
    memset(g, 0, n / 2 * sizeof *g);
    memset(h, 0, n / 2 * sizeof *h);
    g[n / 2] = 1 + random_word() % (p - 1);
}

static uint32_t terms_at(enum start start) { return start == NOTHING ? 0 : start == ONE_TERM ? 1 : start == HALF ? n / 2 : n; }

static uint32_t degree = D, order = ORDER; /* of the polynomial whose pair is wanted */

static uint64_t pair_to(int side, enum start from, enum start to, uint32_t *rows) {
    return (side ? base_pair : bk_pair)(p, degree, n, f, words[side], terms_at(from), terms_at(to), rows, words[side]);
}

static void pair_input(const struct benchmark *b) {
    words[0] = words[1] = (degree + 1) * n;
    fill(f, words[0]);
    for (size_t j = 0; j < order; j++) f[j * n] = 0;
    f[order * n] = 1 + random_word() % (p - 1);
    if (b->start == NOTHING) return;
    for (int side = 0; side < 2; side++)
        stop_unless(pair_to(side, NOTHING, b->start, fresh[side]) == order, b, "the pair to continue is refused");
}

static void draw_roots(uint32_t count) {
    for (uint32_t i = 0; i < count; i++) {
        roots[i] = 1000 * (i + 1) + random_word() % 1000;
        powers[i] = D / count;
    }
}

/* Monic, at X = 0 as the roots and powers say, and elsewhere at random. */
static void draw_polynomial(uint32_t count) {
    uint64_t start[D + 1] = {1};
    uint32_t degree = 0;
    for (uint32_t i = 0; i < count; i++)
        for (uint32_t m = 0; m < powers[i]; m++) {
            degree++;
            for (uint32_t j = degree + 1; j-- > 0;) start[j] = ((j ? start[j - 1] : 0) + start[j] * (p - roots[i])) % p;
        }
    fill(f, D * n);
    memset(f + D * n, 0, n * sizeof *f);
    for (uint32_t j = 0; j <= D; j++) f[j * n] = (uint32_t)start[j];
}

/* Each side opens its own sheet of the same polynomial, all of it known, and works it as far as the call wants it. */
static void sheet_input(const struct benchmark *b) {
    draw_roots(b->roots);
    draw_polynomial(b->roots);
    for (uint32_t j = 0; j < D; j++) lengths[j] = n;
    uint64_t opened = bk_sheet_open(p, D, n, f, (D + 1) * n, lengths, D, roots, b->roots, fresh[0], WORDS);
    stop_unless(!bk_refused(opened), b, "the engine refuses to open the sheet");
    words[0] = bk_answer(opened);
    words[1] = base_sheet_open(p, D, n, f, roots, powers, b->roots, fresh[1]);
    uint32_t w = terms_at(b->start);
    stop_unless(bk_sheet_extend(fresh[0], words[0], w) == w, b, "the engine refuses to extend the sheet");
    stop_unless(base_sheet_extend(fresh[1], words[1], w) == w, b, "the C version refuses to extend the sheet");
}

/* --- the calls --- */

/* Nearly all of its time goes into judging the modulus. The answer is 1. */
static uint64_t sum(int side) { return (side ? base_sum : bk_sum)(p, p - 1, 2); }

static uint64_t product(int side) {
    return (side ? base_series_product : bk_series_product)(p, n, g, n, n, h, n, n, out[side], n);
}

static uint64_t inverse(int side) {
    return (side ? base_series_inverse : bk_series_inverse)(p, n, g, n, out[side], n);
}

static uint64_t quotient(int side) {
    return (side ? base_series_quotient : bk_series_quotient)(p, n, h, n, g, n, out[side], n);
}

static uint64_t pair(int side) { return pair_to(side, NOTHING, FULL, out[side]); }

static uint64_t second_half(int side) { return pair_to(side, HALF, FULL, out[side]); }

static uint64_t no_further(int side) { return pair_to(side, FULL, FULL, out[side]); }

static uint64_t extend(int side) {
    return (side ? base_sheet_extend : bk_sheet_extend)(out[side], words[side], n);
}

/* Row 0, in the column in the middle. */
static uint64_t correct(int side) {
    return (side ? base_sheet_correct : bk_sheet_correct)(out[side], words[side], 0, n / 2, (f[n / 2] + 1) % p);
}

static uint64_t test(int side) {
    return (side ? base_sheet_test : bk_sheet_test)(out[side], words[side]);
}

/* --- results --- */

static bool same_words(void) { return !memcmp(out[0], out[1], words[0] * sizeof **out); }

/* p, D, N, k and r; then, from where word 5 says, roots, powers, polynomial and factors, which end where the engine's sheet ends and the cofactors of the other
 * begin. */
static bool same_sheet(void) {
    size_t from[2] = {out[0][5], out[1][5]}, count = words[0] - from[0];
    return out[1][8] == from[1] + count && !memcmp(out[0], out[1], 5 * sizeof **out) && !memcmp(out[0] + from[0], out[1] + from[1], count * sizeof **out);
}

/* Where a call's answer is all that it gives. */
static bool no_words(void) { return true; }

static const struct benchmark JUDGING = {"sum of two numbers", no_input, sum, no_words, 0, NOTHING};

static const struct benchmark BENCHMARKS[] = {
    {"series product", series_input, product, same_words, 0, NOTHING},
    {"series inverse", series_input, inverse, same_words, 0, NOTHING},
    {"series quotient", series_input, quotient, same_words, 0, NOTHING},
    {"series quotient, X^(N/2) in common", common_input, quotient, same_words, 0, NOTHING},
    {"pair, D = 32, d = 16", pair_input, pair, same_words, 0, NOTHING},
    {"pair continued N/2 to N, D = 32, d = 16", pair_input, second_half, same_words, 0, HALF},
    {"extend 1 to N, 32 simple roots", sheet_input, extend, same_sheet, 32, ONE_TERM},
    {"extend 1 to N, 8 roots of power 4", sheet_input, extend, same_sheet, 8, ONE_TERM},
    {"extend 1 to N, 2 roots of power 16", sheet_input, extend, same_sheet, 2, ONE_TERM},
    {"extend N/2 to N, 32 simple roots", sheet_input, extend, same_sheet, 32, HALF},
    {"extend N/2 to N, 8 roots of power 4", sheet_input, extend, same_sheet, 8, HALF},
    {"extend N/2 to N, 2 roots of power 16", sheet_input, extend, same_sheet, 2, HALF},
    {"correct column N/2 of a full sheet, 32 simple roots", sheet_input, correct, same_sheet, 32, FULL},
    {"correct column N/2 of a full sheet, 8 roots of power 4", sheet_input, correct, same_sheet, 8, FULL},
    {"correct column N/2 of a full sheet, 2 roots of power 16", sheet_input, correct, same_sheet, 2, FULL},
    {"test of a full sheet, 32 simple roots", sheet_input, test, same_sheet, 32, FULL},
    {"test of a full sheet, 8 roots of power 4", sheet_input, test, same_sheet, 8, FULL},
    {"test of a full sheet, 2 roots of power 16", sheet_input, test, same_sheet, 2, FULL},
};
enum { COUNT = sizeof BENCHMARKS / sizeof *BENCHMARKS };

/* --- timing --- */

/* Time that this thread had the processor, so that other programs' turns are not counted. */
static double now(void) {
    struct timespec t;
    clock_gettime(CLOCK_THREAD_CPUTIME_ID, &t);
    return t.tv_sec + t.tv_nsec * 1e-9;
}

static int rising(const void *a, const void *b) {
    double x = *(const double *)a, y = *(const double *)b;
    return (x > y) - (x < y);
}

static double median(double *samples, int count) {
    qsort(samples, (size_t)count, sizeof *samples, rising);
    return samples[count / 2];
}

/* The sheet, or the pair, is copied back from the saved one before the clock starts, on both sides. */
static double sample(const struct benchmark *b, int side, int repeats) {
    if (b->start != NOTHING) memcpy(out[side], fresh[side], words[side] * sizeof **out);
    double start = now();
    for (int i = 0; i < repeats; i++) answers[side] = b->call(side);
    return (now() - start) / repeats;
}

/* What is worked further is changed by its call, so a sample of it is one call. */
static int repeats_for(const struct benchmark *b) {
    if (b->start == ONE_TERM || b->start == HALF) return 1;
    double one = sample(b, 0, 1);
    return one < SAMPLE_SECONDS ? (int)(SAMPLE_SECONDS / one) + 1 : 1;
}

/* No answer is 0 here: test says yes, the others answer N, the order, or the terms known. */
static void check_same(const struct benchmark *b) {
    stop_unless(answers[0] == answers[1] && answers[0] && !bk_refused(answers[0]), b, "the answers differ, or are a refusal or no");
    stop_unless(b->same(), b, "the results differ");
}

struct medians {
    double seconds[2];
    double ratio; /* of samples taken one after the other, so that a change of the machine's pace strikes both */
};

static bool slow; /* whether the other side is so slow that a few samples of one call have to do */

static struct medians take_turns(const struct benchmark *b) {
    double samples[2][SAMPLES], ratios[SAMPLES];
    int count = slow ? FEW_SAMPLES : SAMPLES, repeats = slow ? 1 : repeats_for(b);
    for (int i = 0; i < count; i++) {
        for (int turn = 0; turn < 2; turn++) {
            int side = (i + turn) % 2;
            samples[side][i] = sample(b, side, repeats);
        }
        check_same(b);
        ratios[i] = samples[0][i] / samples[1][i];
    }
    return (struct medians){{median(samples[0], count), median(samples[1], count)}, median(ratios, count)};
}

static struct medians measure(const struct benchmark *b) {
    memset(out, 0, sizeof out);
    b->input(b);
    return take_turns(b);
}

/* A row of the table, after the time at half the N, or 0. */
static struct medians table_row(const struct benchmark *b, double judging, double half) {
    struct medians m = measure(b);
    printf("| %s | %u | %.2f | %.0f %% | %.2f | %.2f |", b->name, n, m.seconds[0] * 1e6, 100 * judging / m.seconds[0], m.seconds[1] * 1e6, m.ratio);
    if (half > 0) printf(" %.2f", m.seconds[0] / half);
    printf(" |\n");
    fflush(stdout);
    return m;
}

static double benchmark_table(void) {
    n = 0;
    struct medians judging = measure(&JUDGING);
    printf("\np = %u. To judge it costs %.2f us (the sum of two numbers; C %.2f us), once in each call.\n\n", p, judging.seconds[0] * 1e6, judging.seconds[1] * 1e6);
    printf("| Operation | N | engine, us | of it judging p | C, us | engine / C | time against half the N |\n|---|---|---|---|---|---|---|\n");
    double worst = 0;
    for (int i = 0; i < COUNT; i++) {
        double half = 0;
        for (n = 64; n <= MAX_N; n *= 2) {
            struct medians m = table_row(&BENCHMARKS[i], judging.seconds[0], half);
            half = m.seconds[0];
            if (m.ratio > worst) worst = m.ratio;
        }
    }
    return worst;
}

/* --- other libraries --- */

static const struct other *library;

static uint64_t library_product(int side) {
    if (side == 0) return product(0);
    library->product();
    return n;
}

static uint64_t library_inverse(int side) {
    if (side == 0) return inverse(0);
    library->inverse();
    return n;
}

static bool same_as_library(void) {
    library->give(out[1]);
    return same_words();
}

static const struct benchmark NEAREST[] = {
    {"series product", series_input, library_product, same_as_library, 0, NOTHING},
    {"series inverse", series_input, library_inverse, same_as_library, 0, NOTHING},
};

static void library_rows(void) {
    n = MAX_N;
    for (size_t i = 0; i < sizeof NEAREST / sizeof *NEAREST; i++) {
        const struct benchmark *b = &NEAREST[i];
        b->input(b);
        library->load(p, n, g, h);
        struct medians m = take_turns(b);
        printf("| %s | %s | %u | %u | %.2f | %.2f | %.2f |\n", library->name, b->name, p, n, m.seconds[0] * 1e6, m.seconds[1] * 1e6, m.ratio);
    }
}

static const struct other *const LIBRARIES[] = {
#ifdef HAVE_FLINT
    &flint_series,
#endif
#ifdef HAVE_NTL
    &ntl_series,
#endif
#ifdef HAVE_PARI
    &pari_series,
#endif
    NULL,
};

static void library_table(void) {
    if (!LIBRARIES[0]) {
        printf("\nFLINT, NTL and PARI are not installed (Debian: libflint-dev, libntl-dev, libpari-dev), so nothing is said of them.\n");
        return;
    }
    printf("\n| Library | Nearest operation | p | N | engine, us | library, us | engine / library |\n|---|---|---|---|---|---|---|\n");
    for (int i = 0; LIBRARIES[i]; i++) {
        library = LIBRARIES[i];
        for (size_t m = 0; m < MODULI_COUNT; m++) {
            p = MODULI[m];
            library_rows();
        }
    }
    printf("\nHow they differ: the libraries judge nothing (no check of p, of lengths or of coefficients), keep their polynomials in a form of their own with the\n"
           "modulus prepared, may use methods that grow more slowly than N^2, and were compiled by Debian. Their Hensel lifting goes from Z/p to Z/p^k\n"
           "(FLINT's fmpz_poly_hensel_lift, NTL's MultiLift, PARI's polhensellift), which is another problem; FLINT's factoring over F_p has a lifting of\n"
           "polynomials in two variables inside (n_bpoly_mod_hlift), which is not timed here. None of their headers names a Weierstrass preparation. So the\n"
           "lift, the pair and the test stand without an opponent.\n");
}

/* --- the shortest calls, of which judging the modulus is the most --- */

static uint64_t sum_by_every_number(int side) { return side ? base_sum_by_every_number(p, p - 1, 2) : sum(0); }

static uint64_t library_prime(int side) { return side ? (uint64_t)library->is_prime(p) : sum(0); }

static void short_rows(const struct benchmark *b, const char *other) {
    static const uint32_t JUDGED[] = {7, 101, 251, 65521, 16777213};
    for (size_t i = 0; i < sizeof JUDGED / sizeof *JUDGED; i++) {
        p = JUDGED[i];
        struct medians m = measure(b);
        printf("| %s | %s | %u | %.1f | %.1f | %.2f |\n", b->name, other, p, m.seconds[0] * 1e9, m.seconds[1] * 1e9, m.ratio);
    }
}

/* The engine against C, and its sum of two numbers against the libraries' tests for primes, which answer 1 as well. */
static void short_table(void) {
    static const struct benchmark EVERY = {"sum of two numbers", no_input, sum_by_every_number, no_words, 0, NOTHING};
    static const struct benchmark LIBRARY = {"sum of two numbers", no_input, library_prime, no_words, 0, NOTHING};
    static const struct benchmark PAIR = {"pair", pair_input, pair, same_words, 0, NOTHING};
    static const struct benchmark SAME = {"pair continued N to N, which changes nothing", pair_input, no_further, same_words, 0, FULL};
    printf("\n| The shortest calls | other | p | engine, ns | other, ns | engine / other |\n|---|---|---|---|---|---|\n");
    n = SHORT_N;
    short_rows(&BENCHMARKS[0], "C, N = 8");
    degree = 2;
    order = 1;
    short_rows(&PAIR, "C, D = 2, d = 1, N = 8");
    short_rows(&SAME, "C, D = 2, d = 1, N = 8");
    short_rows(&JUDGING, "C, by the primes up to the root");
    short_rows(&EVERY, "C, by every number up to the root");
    for (int i = 0; LIBRARIES[i]; i++) {
        library = LIBRARIES[i];
        library->load(MODULI[0], 1, g, h); /* which starts a library that has to be started */
        short_rows(&LIBRARY, library->name);
    }
}

/* --- finding the roots, with one column, so that nothing else takes time --- */

struct finding {
    const char *name;
    uint32_t p, roots; /* so many, all of one power */
    enum { SPLIT, QUADRATIC, ANY } shape; /* nothing but roots; Y^2 - 2 beside them; any polynomial instead */
};

static const struct finding FINDINGS[] = {
    {"32 simple roots", 65521, 32, SPLIT},
    {"32 simple roots", 16777213, 32, SPLIT},
    {"8 roots of power 4", 16777213, 8, SPLIT},
    {"one root of power 32", 16777213, 1, SPLIT},
    {"30 simple roots and a quadratic without roots", 16777213, 30, QUADRATIC}, /* 2 is no square modulo 16777213 */
    {"any polynomial", 16777213, 0, ANY},
};

static void draw_finding(const struct finding *x) {
    p = x->p;
    n = 1;
    for (uint32_t i = 0; i < x->roots; i++) {
        uint32_t part = p / x->roots;
        roots[i] = part * i + random_word() % part;
        powers[i] = (x->shape == QUADRATIC ? D - 2 : D) / x->roots;
    }
    draw_polynomial(x->roots);
    if (x->shape == QUADRATIC)
        for (uint32_t j = D + 1; j-- > 0;) f[j] = (uint32_t)(((j > 1 ? f[j - 2] : 0) + (uint64_t)(p - 2) * f[j]) % p);
    if (x->shape == ANY) fill(f, D);
    f[D] = 1;
    for (uint32_t j = 0; j < D; j++) lengths[j] = 1;
}

static uint64_t found; /* the engine's result */
static uint32_t other_roots[D], other_powers[D], other_count;

/* That a polynomial does not split is an answer here. */
static uint64_t find(void) {
    found = bk_sheet_find(p, D, n, f, D + 1, lengths, D, out[0], WORDS);
    return !bk_refused(found) || bk_refused(found) == BK_UNSPLIT ? 1 : found;
}

static uint64_t scan(int side) {
    if (side == 0) return find();
    other_count = base_roots(p, D, f, other_roots, other_powers);
    return 1;
}

static uint64_t library_roots(int side) {
    if (side == 0) return find();
    library->find_roots();
    return 1;
}

/* The engine's sheet has these roots and powers; or it has none, and the powers do not come to D. */
static bool same_roots(void) {
    uint32_t together = 0;
    for (uint32_t i = 0; i < other_count; i++) together += other_powers[i];
    if (together != D) return bk_refused(found) == BK_UNSPLIT;
    bool same = !bk_refused(found) && out[0][4] == other_count;
    for (uint32_t i = 0; same && i < other_count; i++) {
        const uint32_t *entry = out[0] + out[0][5] + 2 * i;
        same = entry[0] == other_roots[i] && entry[1] == other_powers[i];
    }
    return same;
}

static bool same_library_roots(void) {
    other_count = library->give_roots(other_roots, other_powers);
    return same_roots();
}

static void finding_row(const struct finding *x, const char *other, uint64_t (*call)(int side), bool (*same)(void)) {
    struct benchmark b = {x->name, no_input, call, same, 0, NOTHING};
    struct medians m = take_turns(&b);
    printf("| %s | %u | %s | %.1f | %.1f | %.4f |\n", x->name, p, other, m.seconds[0] * 1e6, m.seconds[1] * 1e6, m.ratio);
    fflush(stdout);
}

static void finding_table(void) {
    printf("\n| Finding the roots, D = %d, N = 1 | p | other | engine, us | other, us | engine / other |\n|---|---|---|---|---|---|\n", D);
    for (size_t i = 0; i < sizeof FINDINGS / sizeof *FINDINGS; i++) {
        const struct finding *x = &FINDINGS[i];
        draw_finding(x);
        slow = true;
        finding_row(x, "C, every number tried", scan, same_roots);
        slow = false;
        for (int l = 0; LIBRARIES[l]; l++) {
            library = LIBRARIES[l];
            library->load_monic(p, D, f);
            finding_row(x, library->name, library_roots, same_library_roots);
        }
    }
    printf("\nOf a polynomial that does not split the engine says so, and the others name the roots that there are. Samples of the C version are %d of one call.\n", FEW_SAMPLES);
}

int main(void) {
    printf("D = %d; medians of %d samples of processor time, engine and C (gcc -O3 -march=x86-64) in turn on the same input, results identical.\n"
           "Each has its own sheet of the same polynomial: the C version's is document 01's, with cofactors. A ratio is the median of the ratios of two samples\n"
           "taken one after the other.\n", D, SAMPLES);
    for (size_t i = 0; i < MODULI_COUNT; i++) {
        p = MODULI[i];
        double worst = benchmark_table();
        printf("\nThe largest ratio is %.2f.\n", worst);
    }
    short_table();
    finding_table();
    library_table();
    return 0;
}
