/* PARI's Flx: product and inverse modulo X^n, and Flx_roots, the powers by division; and uisprime. */
#include "others.h"

#include <pari/pari.h>

static GEN g, h, result;
static long columns;
static ulong modulus;
static pari_sp top;

static GEN polynomial(const uint32_t *words) {
    GEN f = cgetg(columns + 2, t_VECSMALL);
    f[1] = 0;
    for (long t = 0; t < columns; t++) f[t + 2] = words[t];
    return Flx_renormalize(f, columns + 2);
}

static void load(uint32_t p, uint32_t n, const uint32_t *first, const uint32_t *second) {
    if (!top) pari_init(64000000, 0);
    columns = n;
    modulus = p;
    g = polynomial(first);
    h = polynomial(second);
    top = avma;
}

static void product(void) {
    set_avma(top);
    result = Flxn_mul(g, h, columns, modulus);
}

static void inverse(void) {
    set_avma(top);
    result = Flxn_inv(g, columns, modulus);
}

static void give(uint32_t *out) {
    for (long t = 0; t < columns; t++) out[t] = t + 2 < lg(result) ? (uint32_t)result[t + 2] : 0;
}

static int is_prime(uint32_t p) { return uisprime(p); }

static GEN monic;
static uint32_t found_powers[64];

static void load_monic(uint32_t p, uint32_t degree, const uint32_t *f) {
    load(p, degree + 1, f, f);
    monic = g;
}

static void find_roots(void) {
    set_avma(top);
    result = Flx_roots(monic, modulus);
    GEN left = monic;
    for (long i = 1; i < lg(result); i++)
        for (found_powers[i - 1] = 0;; found_powers[i - 1]++) {
            ulong rest;
            GEN quotient = Flx_div_by_X_x(left, result[i], modulus, &rest);
            if (rest || degpol(left) < 1) break;
            left = quotient;
        }
}

static uint32_t give_roots(uint32_t *to, uint32_t *powers) {
    for (long i = 1; i < lg(result); i++) put_root((uint32_t)result[i], found_powers[i - 1], to, powers, (uint32_t)(i - 1));
    return (uint32_t)(lg(result) - 1);
}

const struct other pari_series = {"PARI", load, product, inverse, give, is_prime, load_monic, find_roots, give_roots};
