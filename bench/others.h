/* Other libraries' nearest operations, for those that were found when the benchmark was compiled. */
#ifndef OTHERS_H
#define OTHERS_H

#include <stdint.h>

#ifdef __cplusplus
extern "C" {
#endif

struct other {
    const char *name;
    void (*load)(uint32_t p, uint32_t n, const uint32_t *g, const uint32_t *h); /* not timed */
    void (*product)(void);
    void (*inverse)(void);
    void (*give)(uint32_t *out); /* the last result; not timed */
    int (*is_prime)(uint32_t p);
    void (*load_monic)(uint32_t p, uint32_t degree, const uint32_t *f); /* over F_p, the lowest coefficient first; not timed */
    void (*find_roots)(void); /* of it, with their powers */
    uint32_t (*give_roots)(uint32_t *roots, uint32_t *powers); /* the last result in rising order, and how many there are; not timed */
};

extern const struct other flint_series, ntl_series, pari_series;

/* Puts a root among the first `count`, which rise, with its power. */
static inline void put_root(uint32_t root, uint32_t power, uint32_t *roots, uint32_t *powers, uint32_t count) {
    for (; count > 0 && roots[count - 1] > root; count--) {
        roots[count] = roots[count - 1];
        powers[count] = powers[count - 1];
    }
    roots[count] = root;
    powers[count] = power;
}

#ifdef __cplusplus
}
#endif

#endif
