/*
 * Ties before a search: variables that always go together are put into the rows as one, and each solution is
 * read back by the tie list.
 *
 *     cc -std=c99 -Wall -Wextra -Iinclude examples/tied.c crates/capi/out/libcapi.a -o tied
 *     ./tied | diff examples/tied.expected -
 *
 * The model: receipts of 30, 25, 20, 10 and 15 tons for a notice of at most 75. The first two are of one car
 * and go together or not at all; the fourth goes just when the third stays.
 */
#include <stdio.h>
#include <string.h>

#include "astrolabe.h"

enum { N = 5, M = 3, BUDGET = 1000 };

static const int32_t bounds[2 * N] = {0, 1, 0, 1, 0, 1, 0, 1, 0, 1};

static const int32_t given_coefs[M * N] = {
    30, 25, 20, 10, 15, /* at most 75 tons */
    1,  -1, 0,  0,  0,  /* the first two together */
    0,  0,  1,  1,  0,  /* one of the third and the fourth */
};

static const int32_t given_rhs[M] = {75, 0, 1};

static const uint8_t kinds[M] = {ASTROLABE_ROW_KIND_AT_MOST, ASTROLABE_ROW_KIND_EQUAL, ASTROLABE_ROW_KIND_EQUAL};

/* Whether a point meets every row. */
static int meets_rows(const int32_t *coefs, const int32_t *rhs, const int32_t *x)
{
    for (size_t r = 0; r < M; r++) {
        int32_t sum = 0;
        for (size_t j = 0; j < N; j++)
            sum += coefs[r * N + j] * x[j];
        if (sum > rhs[r] || (kinds[r] == ASTROLABE_ROW_KIND_EQUAL && sum < rhs[r]))
            return 0;
    }
    return 1;
}

/* The value of variable j by its ties, followed from tie to tie. A list that calls made has no circle. */
static int32_t value(const uint16_t *ties, const int32_t *x, size_t j)
{
    int opposite = 0;
    while (ties[j]) {
        size_t literal = ties[j] - 1u;
        opposite ^= literal % 2 == 0;
        j = literal / 2;
    }
    return opposite ? 1 - x[j] : x[j];
}

/* Prints the solutions, one for each choice of the variables that are not replaced; their number. */
static unsigned solve(const int32_t *coefs, const int32_t *rhs, const uint16_t *ties)
{
    unsigned solutions = 0;
    for (unsigned bits = 0; bits < 1u << N; bits++) {
        int32_t x[N];
        int chosen = 1;
        for (size_t j = 0; j < N; j++) {
            x[j] = (int32_t)(bits >> j & 1);
            chosen &= !(ties[j] && x[j]); /* a replaced variable is in no row: leave it at 0 */
        }
        if (!chosen || !meets_rows(coefs, rhs, x))
            continue;
        printf("solution %u:", ++solutions);
        for (size_t j = 0; j < N; j++)
            printf(" %d", (int)value(ties, x, j));
        putchar('\n');
    }
    return solutions;
}

int main(void)
{
    int32_t box[2 * N], coefs[M * N], rhs[M];
    uint8_t table[4 * N * N] = {0};
    uint16_t ties[N] = {0};
    uint64_t answer[ASTROLABE_ANSWER_LEN];
    memcpy(box, bounds, sizeof box);
    memcpy(coefs, given_coefs, sizeof coefs);
    memcpy(rhs, given_rhs, sizeof rhs);

    /* Probes fill the table. */
    for (uint32_t k = 0; k < N; k++) {
        uint32_t refused = astrolabe_probe(N, M, box, 2 * N, coefs, M * N, rhs, M, kinds, M, table, sizeof table, k,
                                           BUDGET, answer, ASTROLABE_ANSWER_LEN);
        if (refused)
            return 2;
    }
    /* Ties of each two of them. */
    for (uint32_t k = 0; k < N; k++)
        for (uint32_t j = 0; j < N; j++) {
            uint32_t refused = astrolabe_tie(N, M, box, 2 * N, coefs, M * N, rhs, M, kinds, M, table, sizeof table,
                                             ties, N, k, j, answer, ASTROLABE_ANSWER_LEN);
            if (refused)
                return 2;
            if (answer[0] == ASTROLABE_TIE_TIED)
                printf("x%u is %sx%u\n", (unsigned)j, ties[j] % 2 ? "1 - " : "", (unsigned)k);
        }
    for (size_t r = 0; r < M; r++) {
        printf("row %u:", (unsigned)r);
        for (size_t j = 0; j < N; j++)
            printf(" %d", (int)coefs[r * N + j]);
        printf(" %s %d\n", kinds[r] == ASTROLABE_ROW_KIND_EQUAL ? "=" : "<=", (int)rhs[r]);
    }
    puts("with ties");
    unsigned reduced = solve(coefs, rhs, ties);

    /* The same of the model as it was given, with no tie. */
    puts("as given");
    memset(ties, 0, sizeof ties);
    unsigned given = solve(given_coefs, given_rhs, ties);
    printf("%u solutions with ties, %u without\n", reduced, given);
    return reduced == given ? 0 : 1;
}
