/*
 * A real solver calls the library at every node: GLPK's branch and cut, three times side by side,
 *     raw                     the model as the file has it,
 *     reduced at the root     after astrolabe_rounds, with the same columns and the same objective,
 *     reduced at every node   the same, prepared once and propagated in GLPK's callback at GLP_IPREPRO.
 * The optimum must be the same three times.
 *
 *     cc -std=c99 -Iinclude examples/glpk.c crates/capi/out/libcapi.a -lglpk -lm -o glpk
 *     ./glpk p0033.mps
 *
 * It takes MPS files whose columns are all integer and bounded and whose numbers are whole; the command `astrolabe` has
 * sentences for all others and scales fractions. GLPK's own preprocessing of nodes is switched off, since it would hide
 * what the library does. This program is outside the proofs.
 */
#include <glpk.h>
#include <math.h>
#include <stdio.h>
#include <stdlib.h>
#include <string.h>
#include <time.h>

#include "astrolabe.h"

enum { MAX_N = ASTROLABE_MAX_VARIABLES, MAX_M = ASTROLABE_MAX_ROWS, BUDGET = 1000, ROUNDS = 8 };

/* A model in the library's buffers. */
typedef struct {
    size_t n, m;
    int32_t bounds[2 * MAX_N], coefs[MAX_M * MAX_N], rhs[MAX_M];
    uint8_t kinds[MAX_M], table[4 * MAX_N * MAX_N];
} Model;

/* A model that was prepared, for the calls at the nodes. */
typedef struct {
    size_t n;
    uint32_t workspace[ASTROLABE_WORKSPACE_LEN];
} Prepared;

/* What the callback needs at a node. */
typedef struct {
    Prepared *prepared; /* NULL: no propagation */
    int last_row;       /* an empty row, 0 >= 0; made 0 >= 1 it ends a node that has no integer point */
    int nodes;
    unsigned infeasible;
} Search;

static void stop(const char *what)
{
    fprintf(stderr, "glpk: %s\n", what);
    exit(3);
}

static void stop_refused(uint32_t refused)
{
    if (refused) {
        fprintf(stderr, "glpk: refused %u\n", (unsigned)refused);
        exit(2);
    }
}

/* A whole number of 32 bits, or the end of the program. The library has its own limits, which are narrower. */
static int32_t whole(double value)
{
    if (!(fabs(value) <= 2147483647.0) || value != floor(value))
        stop("a number is no whole one, or there is none (a bound that is missing)");
    return (int32_t)value;
}

/* Adds row i of the problem, times sign, as a row of the library. */
static void add_row(Model *model, glp_prob *problem, int i, int32_t sign, double bound, uint8_t kind)
{
    int columns[1 + MAX_N];
    double values[1 + MAX_N];
    if (model->m == MAX_M)
        stop("too many rows");
    int count = glp_get_mat_row(problem, i, columns, values);
    for (int k = 1; k <= count; k++)
        model->coefs[model->m * model->n + (size_t)columns[k] - 1] = sign * whole(values[k]);
    model->rhs[model->m] = sign * whole(bound);
    model->kinds[model->m++] = kind;
}

/* The problem in the library's buffers: a >= row is its negated <= row, a range is two rows. */
static void take(Model *model, glp_prob *problem)
{
    memset(model, 0, sizeof *model);
    if (glp_get_num_cols(problem) > MAX_N)
        stop("too many columns");
    model->n = (size_t)glp_get_num_cols(problem);
    for (int j = 1; j <= (int)model->n; j++) {
        if (glp_get_col_kind(problem, j) == GLP_CV)
            stop("a column is continuous");
        model->bounds[2 * j - 2] = whole(glp_get_col_lb(problem, j));
        model->bounds[2 * j - 1] = whole(glp_get_col_ub(problem, j));
    }
    for (int i = 1; i <= glp_get_num_rows(problem); i++) {
        int type = glp_get_row_type(problem, i);
        if (type == GLP_FX)
            add_row(model, problem, i, 1, glp_get_row_ub(problem, i), ASTROLABE_ROW_KIND_EQUAL);
        if (type == GLP_UP || type == GLP_DB)
            add_row(model, problem, i, 1, glp_get_row_ub(problem, i), ASTROLABE_ROW_KIND_AT_MOST);
        if (type == GLP_LO || type == GLP_DB)
            add_row(model, problem, i, -1, glp_get_row_lb(problem, i), ASTROLABE_ROW_KIND_AT_MOST);
    }
}

/* The rounds of the program `reduce`. Whether there can be an integer point. */
static int reduce(Model *model)
{
    uint64_t answer[ASTROLABE_ANSWER_LEN];
    size_t n = model->n, m = model->m;
    uint32_t refused = astrolabe_rounds(n, m, model->bounds, 2 * n, model->coefs, m * n, model->rhs, m,
                                        model->kinds, m, model->table, 4 * n * n, ROUNDS,
                                        answer, ASTROLABE_ANSWER_LEN);
    stop_refused(refused);
    return answer[0] != ASTROLABE_ROUNDS_INFEASIBLE;
}

static void set_bounds(glp_prob *problem, int j, int32_t lower, int32_t upper)
{
    glp_set_col_bnds(problem, j, lower == upper ? GLP_FX : GLP_DB, lower, upper);
}

/* A problem with the reduced rows and bounds, and the raw one's columns, names and objective. */
static glp_prob *with_model(glp_prob *raw, const Model *model)
{
    glp_prob *problem = glp_create_prob();
    glp_copy_prob(problem, raw, GLP_ON);
    int rows = glp_get_num_rows(problem), all[1 + 2 * MAX_M];
    if (rows > 2 * MAX_M)
        stop("too many rows");
    for (int i = 1; i <= rows; i++)
        all[i] = i;
    if (rows)
        glp_del_rows(problem, rows, all);
    for (int j = 1; j <= (int)model->n; j++)
        set_bounds(problem, j, model->bounds[2 * j - 2], model->bounds[2 * j - 1]);
    for (size_t r = 0; r < model->m; r++) {
        int columns[1 + MAX_N], count = 0, i = glp_add_rows(problem, 1);
        double values[1 + MAX_N];
        for (size_t j = 0; j < model->n; j++)
            if (model->coefs[r * model->n + j]) {
                columns[++count] = (int)j + 1;
                values[count] = model->coefs[r * model->n + j];
            }
        glp_set_mat_row(problem, i, count, columns, values);
        glp_set_row_bnds(problem, i, model->kinds[r] == ASTROLABE_ROW_KIND_EQUAL ? GLP_FX : GLP_UP,
                         model->rhs[r], model->rhs[r]);
    }
    return problem;
}

/* Prepares the rows for the nodes, once: from then on a call is lent the workspace and a box only. */
static void prepare(Prepared *prepared, const Model *model)
{
    size_t n = model->n, m = model->m;
    uint32_t refused = astrolabe_prepare(n, m, model->bounds, 2 * n, model->coefs, m * n, model->rhs, m,
                                         model->kinds, m, prepared->workspace, ASTROLABE_WORKSPACE_LEN);
    stop_refused(refused);
    prepared->n = n;
}

/*
 * All that the library does at a node: it narrows the box. Whether there can be an integer point; moved says whether a bound
 * did. GLPK goes through its nodes in an order of its own, and the workspace takes them in any. No reasons are asked for.
 */
static int narrow(Prepared *prepared, int32_t *box, int *moved)
{
    uint64_t answer[ASTROLABE_ANSWER_LEN];
    uint32_t refused = astrolabe_prepared_propagate(prepared->workspace, ASTROLABE_WORKSPACE_LEN, box, 2 * prepared->n,
                                                    BUDGET, NULL, 0, answer, ASTROLABE_ANSWER_LEN);
    stop_refused(refused);
    *moved = answer[2] > 0;
    return answer[0] != ASTROLABE_PROPAGATE_INFEASIBLE;
}

/* Propagates the node's box and hands the narrower bounds back to GLPK. */
static void propagate(Prepared *prepared, glp_prob *problem, Search *search)
{
    int32_t box[2 * MAX_N];
    int moved;
    size_t n = prepared->n;
    for (size_t j = 0; j < n; j++) { /* whole: GLPK branches between whole numbers */
        box[2 * j] = (int32_t)glp_get_col_lb(problem, (int)j + 1);
        box[2 * j + 1] = (int32_t)glp_get_col_ub(problem, (int)j + 1);
    }
    if (!narrow(prepared, box, &moved)) {
        search->infeasible++;
        glp_set_row_bnds(problem, search->last_row, GLP_LO, 1, 0);
    } else if (moved) {
        for (size_t j = 0; j < n; j++)
            set_bounds(problem, (int)j + 1, box[2 * j], box[2 * j + 1]);
    }
}

static void at_node(glp_tree *tree, void *info)
{
    Search *search = info;
    glp_ios_tree_size(tree, NULL, NULL, &search->nodes);
    if (glp_ios_reason(tree) == GLP_IPREPRO && search->prepared)
        propagate(search->prepared, glp_ios_get_prob(tree), search);
}

/* One search, and its line. The optimum, or infinity where there is no integer point. */
static double solve(const char *way, glp_prob *original, Prepared *prepared)
{
    glp_prob *problem = glp_create_prob();
    glp_copy_prob(problem, original, GLP_ON);
    Search search = {prepared, glp_add_rows(problem, 1), 0, 0};
    glp_set_row_bnds(problem, search.last_row, GLP_LO, 0, 0);

    glp_iocp options;
    glp_init_iocp(&options);
    options.msg_lev = GLP_MSG_ERR;
    options.pp_tech = GLP_PP_NONE;
    options.cb_func = at_node;
    options.cb_info = &search;

    clock_t start = clock();
    double relaxation = INFINITY, optimum = INFINITY;
    if (glp_simplex(problem, NULL) == 0 && glp_get_status(problem) == GLP_OPT) {
        relaxation = glp_get_obj_val(problem);
        if (glp_intopt(problem, &options))
            stop("GLPK gave up");
        if (glp_mip_status(problem) == GLP_OPT)
            optimum = glp_mip_obj_val(problem);
    }
    printf("%-24s %12.2f %12.2f %9d %9.3f\n", way, relaxation, optimum, search.nodes,
           (double)(clock() - start) / CLOCKS_PER_SEC);
    glp_delete_prob(problem);
    return optimum;
}

int main(int count, char **words)
{
    static Model model;
    static Prepared prepared;
    if (count != 2)
        stop("one MPS file, please");
    glp_term_out(GLP_OFF);
    glp_prob *raw = glp_create_prob();
    if (glp_read_mps(raw, GLP_MPS_DECK, NULL, words[1]) && glp_read_mps(raw, GLP_MPS_FILE, NULL, words[1]))
        stop("cannot read the file");

    take(&model, raw);
    printf("%-24s %12s %12s %9s %9s\n", "", "relaxation", "optimum", "nodes", "seconds");
    double first = solve("raw", raw, NULL);
    if (!reduce(&model)) {
        printf("none\n");
        return isinf(first) ? 1 : 3;
    }
    glp_prob *reduced = with_model(raw, &model);
    double second = solve("reduced at the root", reduced, NULL);
    prepare(&prepared, &model);
    double third = solve("reduced at every node", reduced, &prepared);
    glp_delete_prob(reduced);
    glp_delete_prob(raw);
    int same = (isinf(first) && isinf(second) && isinf(third)) ||
               (fabs(first - second) < 1e-6 && fabs(first - third) < 1e-6);
    printf("%s\n", same ? "the same optimum three times" : "THE OPTIMA DIFFER");
    return same ? 0 : 3;
}
