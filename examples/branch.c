/*
 * A small branch and bound without the bound: all integer points of a model, found by a depth-first
 * search that propagates a prepared model at each node.
 *
 *     cc -std=c99 -Wall -Wextra -Iinclude examples/branch.c crates/capi/out/libcapi.a -o branch
 *     ./branch | diff examples/branch.expected -
 *
 * The model: five warehouse receipts of 30, 25, 20, 15 and 10 tons go to a notice whole or not at all,
 * filled up with at most two lots of 5 tons, so that the notice gets exactly 55 tons: one row, which says
 * = and not <=. At most three receipts; the first two are of one car and cannot both go; the fourth goes
 * only with the third.
 */
#include <stdio.h>
#include <string.h>

#include "astrolabe.h"

enum { N = 6, M = 4, BUDGET = 1000 };

typedef int32_t Box[2 * N]; /* l0 u0 l1 u1 .. */

static const Box root = {0, 1, 0, 1, 0, 1, 0, 1, 0, 1, 0, 2};

static const int32_t coefs[M * N] = {
    30, 25, 20, 15, 10, 5, /* exactly 55 tons */
    1,  1,  1,  1,  1,  0, /* at most three receipts */
    1,  1,  0,  0,  0,  0, /* not both of the first two */
    0,  0,  -1, 1,  0,  0, /* the fourth only with the third */
};

static const int32_t rhs[M] = {55, 3, 1, 0};

static const uint8_t kinds[M] = {ASTROLABE_ROW_KIND_EQUAL}; /* the others, 0, are ASTROLABE_ROW_KIND_AT_MOST */

/* The prepared model. One is enough for the whole tree: the boxes of its calls may come in any order. */
static uint32_t workspace[ASTROLABE_WORKSPACE_LEN];

static unsigned nodes, solutions;

/* The first variable that is not fixed, or N. */
static size_t first_unfixed(const Box box)
{
    size_t j = 0;
    while (j < N && box[2 * j] == box[2 * j + 1])
        j++;
    return j;
}

static void print_solution(const Box box)
{
    printf("solution %u:", ++solutions);
    for (size_t j = 0; j < N; j++)
        printf(" %d", (int)box[2 * j]);
    putchar('\n');
}

/* The bounds that the propagation moved, each with the row that moved it last: "x2>=1 by row 0". */
static void print_moved(const Box box, const uint32_t *reasons)
{
    for (size_t i = 0; i < 2 * N; i++)
        if (reasons[i] != ASTROLABE_NO_ROW)
            printf(", x%u%s%d by row %u", (unsigned)(i / 2), i % 2 == 0 ? ">=" : "<=", (int)box[i], (unsigned)reasons[i]);
}

/* Propagates one node and searches below it. The box is the node's own copy. 0, or a refusal. */
static uint32_t search(Box box, unsigned depth)
{
    uint64_t answer[ASTROLABE_ANSWER_LEN];
    uint32_t reasons[2 * N];
    uint32_t refused = astrolabe_prepared_propagate(workspace, ASTROLABE_WORKSPACE_LEN, box, 2 * N, BUDGET,
                                                    reasons, 2 * N, answer, ASTROLABE_ANSWER_LEN);
    if (refused)
        return refused;

    printf("%*snode %u: ", 2 * (int)depth, "", ++nodes);
    if (answer[0] == ASTROLABE_PROPAGATE_INFEASIBLE) {
        printf("infeasible by row %u, passes %u, moved %u\n", (unsigned)answer[3], (unsigned)answer[1],
               (unsigned)answer[2]);
        return ASTROLABE_OK;
    }
    size_t j = first_unfixed(box);
    if (j == N) {
        print_solution(box);
        return ASTROLABE_OK;
    }
    printf("branch on x%u, passes %u, moved %u", (unsigned)j, (unsigned)answer[1], (unsigned)answer[2]);
    print_moved(box, reasons);
    putchar('\n');

    /* x <= middle on one branch, x > middle on the other; each searches its own copy of the bounds. */
    int32_t middle = box[2 * j] + (box[2 * j + 1] - box[2 * j]) / 2;
    Box branch;
    memcpy(branch, box, sizeof branch);
    branch[2 * j + 1] = middle;
    refused = search(branch, depth + 1);
    if (refused)
        return refused;
    memcpy(branch, box, sizeof branch);
    branch[2 * j] = middle + 1;
    return search(branch, depth + 1);
}

/* Whether a point meets every row. */
static int meets_rows(const int32_t *x)
{
    for (size_t r = 0; r < M; r++) {
        int32_t sum = 0;
        for (size_t j = 0; j < N; j++)
            sum += coefs[r * N + j] * x[j];
        if (sum > rhs[r] || (kinds[r] == ASTROLABE_ROW_KIND_EQUAL && sum < rhs[r]))
            return 0;
    }
    return 1;
}

/* The number of integer points, by looking at every point of the box. */
static unsigned enumerate(void)
{
    int32_t x[N];
    unsigned points = 0;
    for (size_t j = 0; j < N; j++)
        x[j] = root[2 * j];
    for (;;) {
        points += meets_rows(x);
        size_t j = 0;
        while (j < N && x[j] == root[2 * j + 1]) { /* the next point, as an odometer counts */
            x[j] = root[2 * j];
            j++;
        }
        if (j == N)
            return points;
        x[j]++;
    }
}

int main(void)
{
    Box box;
    memcpy(box, root, sizeof box);
    uint32_t refused = astrolabe_prepare(N, M, root, 2 * N, coefs, M * N, rhs, M, kinds, M,
                                         workspace, ASTROLABE_WORKSPACE_LEN);
    if (!refused)
        refused = search(box, 0);
    if (refused) {
        fprintf(stderr, "refused by check %u\n", (unsigned)refused);
        return 2;
    }
    unsigned points = enumerate();
    printf("%u nodes, %u solutions, %u by enumeration\n", nodes, solutions, points);
    return solutions == points ? 0 : 1;
}
