/* A slice of no words may be NULL. With an output of none, a call says how many words it needs; and every call takes NULL for every slice. */
#include "bopkheul.h"

#include <stdio.h>

enum { P = 7, D = 2, N = 8 };

static void say(const char *call, uint64_t result) {
    if (bk_refused(result) == BK_ACCEPTED) {
        printf("%s: %u\n", call, bk_answer(result));
    } else {
        printf("%s: refused %u, detail %u\n", call, bk_refused(result), bk_answer(result));
    }
}

static void words_needed(void) {
    const uint32_t f[(D + 1) * N] = {6, 6, [D * N] = 1}; /* Y^2 - 1 - X */
    const uint32_t lengths[D] = {N, N}, roots[] = {1, 6};
    say("find", bk_sheet_find(P, D, N, f, (D + 1) * N, lengths, D, NULL, 0));
    say("open", bk_sheet_open(P, D, N, f, (D + 1) * N, lengths, D, roots, 2, NULL, 0));
    say("pair", bk_pair(P, D, N, f, (D + 1) * N, 0, N, NULL, 0));
    say("open, no roots", bk_sheet_open(P, D, N, f, (D + 1) * N, lengths, D, NULL, 0, NULL, 0));
    say("find, no lengths", bk_sheet_find(P, D, N, f, (D + 1) * N, NULL, 0, NULL, 0));
    say("open, no lengths", bk_sheet_open(P, D, N, f, (D + 1) * N, NULL, 0, roots, 2, NULL, 0));
}

static void nothing_given(void) {
    say("series sum", bk_series_sum(P, N, NULL, 0, N, NULL, 0, N, NULL, 0));
    say("series difference", bk_series_difference(P, N, NULL, 0, NULL, 0, NULL, 0));
    say("series product", bk_series_product(P, N, NULL, 0, N, NULL, 0, N, NULL, 0));
    say("series quotient", bk_series_quotient(P, N, NULL, 0, NULL, 0, NULL, 0));
    say("series inverse", bk_series_inverse(P, N, NULL, 0, NULL, 0));
    say("rows sum", bk_rows_sum(P, D, N, NULL, 0, NULL, 0, NULL, 0));
    say("rows difference", bk_rows_difference(P, D, N, NULL, 0, NULL, 0, NULL, 0));
    say("rows product", bk_rows_product(P, D, D, N, NULL, 0, NULL, 0, NULL, 0));
    say("rows shift", bk_rows_shift(P, D, N, NULL, 0, 1, NULL, 0));
    say("read", bk_read(P, N, NULL, 0, NULL, 0));
    say("pair", bk_pair(P, D, N, NULL, 0, 0, N, NULL, 0));
    say("sheet find", bk_sheet_find(P, D, N, NULL, 0, NULL, 0, NULL, 0));
    say("sheet open", bk_sheet_open(P, D, N, NULL, 0, NULL, 0, NULL, 0, NULL, 0));
    say("sheet extend", bk_sheet_extend(NULL, 0, N));
    say("sheet correct", bk_sheet_correct(NULL, 0, 0, 1, 0));
    say("sheet test", bk_sheet_test(NULL, 0));
    say("sheet factor", bk_sheet_factor(NULL, 0, 0, NULL, 0));
    say("sheet factor times", bk_sheet_factor_times(NULL, 0, 0, D, NULL, 0, NULL, 0));
    say("sheet factor shift", bk_sheet_factor_shift(NULL, 0, 0, 1, NULL, 0));
    say("sheet roots", bk_sheet_roots(NULL, 0, NULL, 0));
    say("sheet replay", bk_sheet_replay(NULL, 0, NULL, 0, NULL, 0));
    say("counts", bk_counts(P, D, NULL, 0));
    say("list", bk_list(NULL, 0, NULL, 0));
    say("list roots", bk_list_roots(NULL, 0, NULL, 0));
    say("key", bk_key(NULL, 0, NULL, 0));
}

int main(void) {
    words_needed();
    nothing_given();
    return 0;
}
