// NTL's zz_pX: product and inverse modulo X^n, and FindRoots after SquareFreeDecomp and a gcd with X^p - X; and ProbPrime, ten trials.
#include "others.h"

#include <NTL/ZZ.h>
#include <NTL/lzz_pX.h>
#include <NTL/lzz_pXFactoring.h>

using namespace NTL;

static zz_pX g, h, result;
static long columns;

static void set(zz_pX &f, const uint32_t *words) {
    clear(f);
    for (long t = 0; t < columns; t++) SetCoeff(f, t, to_zz_p(static_cast<long>(words[t])));
}

static void load(uint32_t p, uint32_t n, const uint32_t *first, const uint32_t *second) {
    columns = n;
    zz_p::init(p);
    set(g, first);
    set(h, second);
}

static void product() { MulTrunc(result, g, h, columns); }
static void inverse() { InvTrunc(result, g, columns); }

static void give(uint32_t *out) {
    for (long t = 0; t < columns; t++) out[t] = static_cast<uint32_t>(rep(coeff(result, t)));
}

static int is_prime(uint32_t p) { return ProbPrime(static_cast<long>(p)) != 0; }

static zz_pX monic;
static vec_zz_p found;
static Vec<long> found_powers;

static void load_monic(uint32_t p, uint32_t degree, const uint32_t *f) {
    columns = degree + 1;
    zz_p::init(p);
    set(monic, f);
}

// FindRoots wants a product of unlike lines.
static void find_roots() {
    vec_pair_zz_pX_long parts;
    SquareFreeDecomp(parts, monic);
    found.SetLength(0);
    found_powers.SetLength(0);
    for (long i = 0; i < parts.length(); i++) {
        zz_pX power, lines;
        if (deg(parts[i].a) == 1) {
            lines = parts[i].a;
        } else {
            zz_pXModulus modulus(parts[i].a);
            PowerXMod(power, zz_p::modulus(), modulus);
            SetCoeff(power, 1, coeff(power, 1) - 1);
            lines = GCD(power, parts[i].a);
        }
        if (deg(lines) < 1) continue;
        vec_zz_p here = FindRoots(lines);
        for (long l = 0; l < here.length(); l++) {
            append(found, here[l]);
            append(found_powers, parts[i].b);
        }
    }
}

static uint32_t give_roots(uint32_t *to, uint32_t *powers) {
    for (long i = 0; i < found.length(); i++) put_root(static_cast<uint32_t>(rep(found[i])), static_cast<uint32_t>(found_powers[i]), to, powers, static_cast<uint32_t>(i));
    return static_cast<uint32_t>(found.length());
}

extern "C" const struct other ntl_series = {"NTL", load, product, inverse, give, is_prime, load_monic, find_roots, give_roots};
