/* Splits Y^2 - 1 - X modulo 7 and prints its factors to 8 terms, and its roots, which are simple. The roots at X = 0, which are 1 and 6, are found; at the end a sheet
 * is opened with the list of them, which gives the same words. */
#include "bopkheul.h"

#include <stdio.h>
#include <string.h>

enum { P = 7, D = 2, N = 8, WORDS = 256 };

static int refused(const char *call, uint64_t result) {
    if (bk_refused(result) == BK_ACCEPTED) return 0;
    fprintf(stderr, "%s: refused %u, detail %u\n", call, bk_refused(result), bk_answer(result));
    return 1;
}

static void print_row(const uint32_t *row) {
    for (int t = 0; t < N; t++) printf(" %u", row[t]);
    printf("\n");
}

static void print_factor(const uint32_t *sheet, const uint32_t factor[4]) {
    printf("root %u power %u\n", factor[0], factor[1]);
    const uint32_t *row = sheet + factor[2];
    for (uint32_t j = 0; j < factor[1]; j++, row += N) {
        printf("Y^%u:", j);
        print_row(row);
    }
}

int main(void) {
    const uint32_t f[(D + 1) * N] = {6, 6, [D * N] = 1}; /* row 0 is -1 - X, row 1 is 0, row 2 is 1 */
    const uint32_t lengths[D] = {N, N}; /* of rows 0 and 1 all terms are known */
    uint32_t sheet[WORDS] = {0};
    if (refused("find", bk_sheet_find(P, D, N, f, (D + 1) * N, lengths, D, sheet, WORDS))) return 1;
    if (refused("extend", bk_sheet_extend(sheet, WORDS, N))) return 1;
    for (uint32_t i = 0; i < sheet[4]; i++) {
        uint32_t factor[4];
        if (refused("factor", bk_sheet_factor(sheet, WORDS, i, factor, 4))) return 1;
        print_factor(sheet, factor);
    }

    uint32_t series[D * N]; /* a row for each root, of which there are D */
    if (refused("roots", bk_sheet_roots(sheet, WORDS, series, D * N))) return 1;
    for (int i = 0; i < D; i++) {
        printf("Y =");
        print_row(series + i * N);
    }

    const uint32_t roots[] = {1, 6};
    uint32_t listed[WORDS] = {0};
    if (refused("open", bk_sheet_open(P, D, N, f, (D + 1) * N, lengths, D, roots, 2, listed, WORDS))) return 1;
    if (refused("extend", bk_sheet_extend(listed, WORDS, N))) return 1;
    printf("with the roots listed: %s\n", memcmp(sheet, listed, sizeof sheet) ? "another sheet" : "the same sheet");
    return 0;
}
