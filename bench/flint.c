/* FLINT's nmod_poly: product and inverse modulo X^n, and nmod_poly_roots; and n_is_prime. */
#include "others.h"

#include <flint/nmod_poly.h>
#include <flint/nmod_poly_factor.h>
#include <flint/ulong_extras.h>

static nmod_poly_t g, h, result;
static uint32_t columns;

static void set(nmod_poly_t f, uint32_t p, const uint32_t *words) {
    nmod_poly_init(f, p);
    for (uint32_t t = 0; t < columns; t++) nmod_poly_set_coeff_ui(f, t, words[t]);
}

static void load(uint32_t p, uint32_t n, const uint32_t *first, const uint32_t *second) {
    columns = n;
    set(g, p, first);
    set(h, p, second);
    nmod_poly_init2(result, p, n);
}

static void product(void) { nmod_poly_mullow(result, g, h, columns); }
static void inverse(void) { nmod_poly_inv_series(result, g, columns); }

static void give(uint32_t *out) {
    for (uint32_t t = 0; t < columns; t++) out[t] = (uint32_t)nmod_poly_get_coeff_ui(result, t);
}

static int is_prime(uint32_t p) { return n_is_prime(p); }

static nmod_poly_t monic;
static nmod_poly_factor_t found;

static void load_monic(uint32_t p, uint32_t degree, const uint32_t *f) {
    columns = degree + 1;
    set(monic, p, f);
    nmod_poly_factor_init(found);
}

static void find_roots(void) { nmod_poly_roots(found, monic, 1); }

static uint32_t give_roots(uint32_t *to, uint32_t *powers) {
    for (slong i = 0; i < found->num; i++) put_root((uint32_t)nmod_neg(nmod_poly_get_coeff_ui(found->p + i, 0), monic->mod), (uint32_t)found->exp[i], to, powers, (uint32_t)i);
    return (uint32_t)found->num;
}

const struct other flint_series = {"FLINT", load, product, inverse, give, is_prime, load_monic, find_roots, give_roots};
