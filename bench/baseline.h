/* The engine's operations in straightforward C: the opponent of the benchmark. Results are as in bopkheul.h; a sheet is laid out as in document 01, with cofactors. */
#ifndef BASELINE_H
#define BASELINE_H

#include <stddef.h>
#include <stdint.h>

uint64_t base_sum(uint32_t p, uint32_t value, uint32_t other);
/* The same, with p judged by every number up to its root, as the engine did before F-7. */
uint64_t base_sum_by_every_number(uint32_t p, uint32_t value, uint32_t other);
uint64_t base_series_product(uint32_t p, uint32_t n, const uint32_t *g, size_t g_count, uint32_t g_known, const uint32_t *h, size_t h_count, uint32_t h_known, uint32_t *out, size_t out_count);
uint64_t base_series_inverse(uint32_t p, uint32_t n, const uint32_t *g, size_t g_count, uint32_t *out, size_t out_count);
uint64_t base_series_quotient(uint32_t p, uint32_t n, const uint32_t *f, size_t f_count, const uint32_t *g, size_t g_count, uint32_t *out, size_t out_count);
uint64_t base_pair(uint32_t p, uint32_t d, uint32_t n, const uint32_t *f, size_t f_count, uint32_t h, uint32_t w, uint32_t *out, size_t out_count);
/* Writes the roots of a monic f over F_p, of degree d, the lowest coefficient first, each with its power and in rising order, by trying every number, and answers how
 * many there are. It judges nothing. */
uint32_t base_roots(uint32_t p, uint32_t d, const uint32_t *f, uint32_t *roots, uint32_t *powers);
/* Writes a sheet with one term, and answers its number of words. It judges nothing. */
uint64_t base_sheet_open(uint32_t p, uint32_t d, uint32_t n, const uint32_t *f, const uint32_t *roots, const uint32_t *powers, uint32_t count, uint32_t *sheet);
uint64_t base_sheet_extend(uint32_t *sheet, size_t sheet_count, uint32_t w);
uint64_t base_sheet_correct(uint32_t *sheet, size_t sheet_count, uint32_t j, uint32_t t, uint32_t entry);
uint64_t base_sheet_test(const uint32_t *sheet, size_t sheet_count);

#endif
