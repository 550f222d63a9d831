/*
 * astrolabe.h - a proved presolve library for 0-1 and small-integer linear models.
 *
 * Link with libcapi.a (`tools/library`). C99 or later, C++98 or later.
 *
 *     cc -Iinclude program.c crates/capi/out/libcapi.a
 *
 * THE MODEL. n variables (1 to 128) with whole bounds, m rows (0 to 120), each row
 *     sum of coefficient x variable <= right-hand side, or
 *     sum of coefficient x variable  = right-hand side, by its kind.
 * It lives in the caller's memory, in flat buffers; nothing is kept between calls but what a caller's workspace
 * holds of a prepared model.
 *
 *     buffer   type       count   what                                            range of each number
 *     bounds   int32_t    2n      l0 u0 l1 u1 ..: lower and upper bounds;         -32,768 .. 32,767,
 *                                 together they are the box                       u - l at most 4,096
 *     coefs    int32_t    m*n     the rows' coefficients, row after row           -1,000,000 .. 1,000,000
 *     rhs      int32_t    m       the rows' right-hand sides                      -1,000,000,000 .. 1,000,000,000
 *     kinds    uint8_t    m       the rows' kinds: ASTROLABE_ROW_KIND_..          0 (<=) or 1 (=)
 *     table    uint8_t    4n^2    the implication table: byte p*2n + q is 1       0 or 1
 *                                 when literal p implies literal q; the literal
 *                                 "variable k is v" has the number 2k + v.
 *                                 Start it with all 0
 *     ties     uint16_t   n       the tie list: place j is 0, or 1 plus the number    0 .. 2n
 *                                 of the literal that holds just when variable j
 *                                 is 1. Start it with all 0
 *     calls    uint32_t   4 each  call records: kind, row, variable, budget       any
 *     classes  uint8_t    1 each  what each record did: ASTROLABE_CLASS_..        0 .. 3
 *     proposals int32_t   n each  proposed allocations, one after the other       any
 *     verdicts uint32_t   2 each  what each proposal gets, see "Proposed
 *                                 allocations" below
 *     book     uint8_t    16+     a model as a file, see "Books" below
 *     pages    uint8_t    4,860 each  a model on paper, see "Pages for the floor" below
 *     workspace uint32_t  16,768  a prepared model, see "Prepared models" below   any
 *     reasons  uint32_t   0 or 2n the row that moved each bound, see there; 0 or 4n of a probe,
 *                                 2n for each of its sides
 *     answer   uint64_t   12      the answer; places that a call does not use
 *                                 are set to 0
 *
 * THE EMPTY BOX (01's void box) has every lower bound 1 and every upper bound 0. It is the only box
 * with a lower bound above its upper, and it says that the model has no integer point. A call that
 * finds the model infeasible leaves this box behind.
 *
 * A FREE BINARY VARIABLE (01's free 0-1) is one whose bounds are now 0 and 1.
 *
 * AN EQUALITY ROW, kind 1, says = where a row of kind 0 says <=. Its <= form is the row of kind 0 with the
 * same numbers; its negated form is the row of kind 0 with each coefficient and the right-hand side
 * negated. Propagating it propagates the one and then the other.
 *
 * A TIED VARIABLE (astrolabe_tie) is put into the rows as another one or as 1 minus it, and place j of the tie
 * list says which. From then on the model is its box, its rows and its ties: an integer point, or a fractional
 * one, meets the ties too. No other call is lent the list, and no book holds it.
 *
 * WHAT IS PROMISED, and proved for every input: each call does exactly what the specification
 * (document 01, and 02 where it changes 01) says; the integer points after it are those before it, and
 * no fractional point is added; a call answers INFEASIBLE only where no integer point exists.
 *
 * REFUSALS. Every function returns ASTROLABE_OK (0), or the number of the first check that fails. The
 * order of the checks is that of the numbers but for those that came later: 19 and 20 stand after 4 (the
 * entry read first decides), 22 straight before 5, 23 straight after 7, 16 and 17 after 9, 21 straight after 10,
 * 18 straight after 11:
 *     1 2 3 4 19 20 22 5 6 7 23 8 9 16 17 10 21 11 18 12 13 14 15
 * Each function's comment lists the checks that it makes, in its order. On a refusal no lent number
 * changes, the answer's places among them. All that is lent is checked in every call, so a model can be
 * changed freely between calls; of a workspace see "Prepared models".
 *
 * THE CALLER'S FAULT, which no check can see and for which nothing is promised:
 *     - a pointer that is NULL, or does not point to as many elements as its count says, where the
 *       count is above 0 (with a count of 0 a pointer may be NULL);
 *     - buffers that overlap each other;
 *     - a pointer that is not aligned for its type;
 *     - another thread that writes a lent buffer, or reads one that the call writes, meanwhile.
 *
 * THREADS. There is no shared state: any number of threads may call at once, each on its own buffers.
 * Buffers that a call takes as const may be shared by calls.
 */
#ifndef ASTROLABE_H
#define ASTROLABE_H

#include <stddef.h>
#include <stdint.h>

#ifdef __cplusplus
extern "C" {
#endif

/* ---------------------------------------------------------------------------------------------
 * Version: of this header and of the library that goes with it. CHANGES.md says what changed.
 */

#define ASTROLABE_VERSION_MAJOR 0
#define ASTROLABE_VERSION_MINOR 1
#define ASTROLABE_VERSION_PATCH 0

/* ---------------------------------------------------------------------------------------------
 * Limits
 */

#define ASTROLABE_MAX_VARIABLES 128
#define ASTROLABE_MAX_ROWS 120
#define ASTROLABE_MIN_BOUND (-32768)
#define ASTROLABE_MAX_BOUND 32767
#define ASTROLABE_MAX_WIDTH 4096     /* u - l of a variable */
#define ASTROLABE_MAX_COEF 1000000   /* and its negative */
#define ASTROLABE_MAX_RHS 1000000000 /* and its negative */
/* The largest budget. It is never spent: the widest box, 128 variables of 4,096, takes at most 524,289 passes. */
#define ASTROLABE_MAX_BUDGET 8388481
/* Kinds of a row, in `kinds`. */
#define ASTROLABE_ROW_KIND_AT_MOST 0 /* sum <= right-hand side */
#define ASTROLABE_ROW_KIND_EQUAL 1   /* sum = right-hand side */
/* The most records of a list for astrolabe_plan_run; astrolabe_run takes any number. */
#define ASTROLABE_MAX_PLANNED_RECORDS 1000000
/* The most proposals of astrolabe_check_allocations. */
#define ASTROLABE_MAX_PROPOSALS 64
/* The count of every answer buffer. */
#define ASTROLABE_ANSWER_LEN 12
/* The bytes of a book's trailer. */
#define ASTROLABE_TRAILER_LEN 16
/* The count of every workspace of a prepared model, whatever n and m are. */
#define ASTROLABE_WORKSPACE_LEN 16768

/* ---------------------------------------------------------------------------------------------
 * Refusals: 01's "Checks in their order", and 02's. Each function's comment has those that apply to it,
 * in the order in which they are made.
 */

#define ASTROLABE_OK 0                           /* accepted */
#define ASTROLABE_REFUSED_SHORT_BOOK 1           /* the book has under 16 bytes */
#define ASTROLABE_REFUSED_BOOK_LENGTH 2          /* the trailer's length is not the book's */
#define ASTROLABE_REFUSED_SIZE 3                 /* n is not 1 to 128, or m is over 120 */
#define ASTROLABE_REFUSED_BOOK_LAYOUT 4          /* an offset or the length is not what n and m give */
#define ASTROLABE_REFUSED_BUFFER_LENGTH 5        /* a lent buffer has not exactly the count needed */
#define ASTROLABE_REFUSED_BOUND 6                /* a bound is outside its range */
#define ASTROLABE_REFUSED_CROSSED_BOUNDS 7       /* a lower bound is above its upper in a box not empty */
#define ASTROLABE_REFUSED_COEFFICIENT 8          /* a coefficient is outside its range */
#define ASTROLABE_REFUSED_RIGHT_HAND_SIDE 9      /* a right-hand side is outside its range */
#define ASTROLABE_REFUSED_TABLE_BYTE 10          /* a table byte is neither 0 nor 1 */
#define ASTROLABE_REFUSED_KIND 11                /* the kind is not 1 to 5; of a record of astrolabe_run only */
#define ASTROLABE_REFUSED_ROW 12                 /* the row is not below m */
#define ASTROLABE_REFUSED_VARIABLE 13            /* the variable is not below n */
#define ASTROLABE_REFUSED_VARIABLE_NOT_FREE 14   /* in a box that is not empty: the variable is not free binary */
#define ASTROLABE_REFUSED_BUDGET 15              /* the budget is not 1 to 8,388,481 */
#define ASTROLABE_REFUSED_ROW_KIND 16            /* a kind byte is above 1; made after 9 */
#define ASTROLABE_REFUSED_EQUALITY_ROW 17        /* an = row is to be written into a book; made straight after 16 */
#define ASTROLABE_REFUSED_RETIRED_KIND 18        /* kind 4 or 5 of a record of astrolabe_run; made straight after 11 */
#define ASTROLABE_REFUSED_COLUMN 19              /* of a sparse book: a column is not below n or not above the one
                                                    before; made straight after 4 */
#define ASTROLABE_REFUSED_ZERO_COEFFICIENT 20    /* of a sparse book: an entry's coefficient is 0; made with 19, the
                                                    entry read first deciding, and in one entry the column */
#define ASTROLABE_REFUSED_TIE_PLACE 21           /* a place of the tie list is above 2n; made straight after 10 */
#define ASTROLABE_REFUSED_PROPOSAL_COUNT 22      /* the count of proposals is not 1 to 64; made straight before 5 */
#define ASTROLABE_REFUSED_VARIABLE_TOO_WIDE 23   /* u - l of a variable is over 4,096; made straight after 7 */

/* ---------------------------------------------------------------------------------------------
 * Propagation
 */

/* Cases of astrolabe_propagate_row, answer[0]. */
#define ASTROLABE_ROW_INFEASIBLE 0 /* 01's None: the box is empty now */
#define ASTROLABE_ROW_TIGHTENED 1  /* 01's Narrowed: bounds moved */
#define ASTROLABE_ROW_UNCHANGED 2  /* 01's Same */

/*
 * Propagates row `row` over the box once (01's visit): every variable's bounds are narrowed to what the
 * row and the other variables' bounds allow, rounded to whole numbers. An = row is propagated as its <=
 * form and then, over the box that this left, as its negated form; where one of them is infeasible the row
 * is, and INFEASIBLE still means only that no integer point exists. Propagated again it can move more.
 *
 *     bounds      written   narrowed, or made the empty box
 *     answer[0]   ASTROLABE_ROW_INFEASIBLE, _TIGHTENED or _UNCHANGED
 *     answer[1]   the bounds moved: those that differ before and after. TIGHTENED: 1 to n, of an = row 1 to
 *                 2n; else 0
 *
 * Refused by 3 5 6 7 23 8 9 16 12, in this order. On the empty box: infeasible.
 */
uint32_t astrolabe_propagate_row(size_t n, size_t m,
                                 int32_t *bounds, size_t bounds_len,
                                 const int32_t *coefs, size_t coefs_len,
                                 const int32_t *rhs, size_t rhs_len,
                                 const uint8_t *kinds, size_t kinds_len,
                                 uint32_t row,
                                 uint64_t *answer, size_t answer_len);

/* Cases of astrolabe_propagate, answer[0]. */
#define ASTROLABE_PROPAGATE_INFEASIBLE 0   /* 01's None: the box is empty now */
#define ASTROLABE_PROPAGATE_CONVERGED 1    /* 01's Settled: no row would change the box */
#define ASTROLABE_PROPAGATE_BUDGET_SPENT 2 /* 01's Spent: the budget's passes are made, and a row would still change the box */

/*
 * Propagates all rows, upwards, pass after pass, until a pass moves nothing, a row is infeasible, or
 * `budget` passes are made (01's settle).
 *
 *     bounds      written   narrowed, or made the empty box
 *     answer[0]   ASTROLABE_PROPAGATE_..
 *     answer[1]   the passes made, 1 to budget; a pass that an infeasible row breaks off counts
 *     answer[2]   the bounds moved, summed over the rows' propagations: a bound counts each time that it
 *                 moves. An infeasible row adds nothing; what moved before it, in its pass too, is in the
 *                 sum. At least answer[1] - 1, at most the total width that was lost: 32 bits hold it
 *
 * Refused by 3 5 6 7 23 8 9 16 15, in this order. On the empty box: infeasible with 1 pass, 0 moved.
 */
uint32_t astrolabe_propagate(size_t n, size_t m,
                             int32_t *bounds, size_t bounds_len,
                             const int32_t *coefs, size_t coefs_len,
                             const int32_t *rhs, size_t rhs_len,
                             const uint8_t *kinds, size_t kinds_len,
                             uint32_t budget,
                             uint64_t *answer, size_t answer_len);

/* ---------------------------------------------------------------------------------------------
 * Probing
 */

/* Cases of astrolabe_probe, answer[0]. */
#define ASTROLABE_PROBE_INFEASIBLE 0    /* 01's None: neither side is feasible, the box is empty now */
#define ASTROLABE_PROBE_FIXED 1         /* 01's Fixed: only one side is feasible, and its box is the new one */
#define ASTROLABE_PROBE_BOTH_FEASIBLE 2 /* 01's Both: the new box is the smallest that contains both sides */

/*
 * Probes the free binary variable `variable`: each side v (0, 1) is the box with the variable set to v,
 * propagated with `budget`. Where both sides are feasible, the variable being v implies what side v
 * fixes of the other free binary variables; that and its contrapositive go into the table.
 *
 *     bounds      written   the new box
 *     table       written   bytes go from 0 to 1, where both sides are feasible
 *     answer[0]   ASTROLABE_PROBE_..
 *     answer[1]   FIXED: the value v; BOTH_FEASIBLE: the number of table bytes that went from 0 to 1;
 *                 INFEASIBLE: 0
 *     answer[2]   the passes of side 0
 *     answer[3]   1 where side 0 spent its budget, else 0; 0 where side 0 is infeasible
 *     answer[4]   the bounds that the propagation of side 0 moved, as answer[2] of astrolabe_propagate; that
 *                 the variable is set is not counted
 *     answer[5]   the passes of side 1
 *     answer[6]   1 where side 1 spent its budget, else 0; 0 where side 1 is infeasible
 *     answer[7]   the bounds that the propagation of side 1 moved
 *
 * Refused by 3 5 6 7 23 8 9 16 10 13 14 15, in this order. On the empty box: infeasible, all else 0.
 */
uint32_t astrolabe_probe(size_t n, size_t m,
                         int32_t *bounds, size_t bounds_len,
                         const int32_t *coefs, size_t coefs_len,
                         const int32_t *rhs, size_t rhs_len,
                         const uint8_t *kinds, size_t kinds_len,
                         uint8_t *table, size_t table_len,
                         uint32_t variable, uint32_t budget,
                         uint64_t *answer, size_t answer_len);

/* Answers of astrolabe_is_probing_fixpoint, answer[0]. */
#define ASTROLABE_FIXPOINT_NO 0  /* a row or a probe would still change the box */
#define ASTROLABE_FIXPOINT_YES 1 /* 01's at rest */
/* What a no carries, answer[1]. */
#define ASTROLABE_FIXPOINT_NO_BY_ROW 0      /* the lowest row that changes the box, or is infeasible */
#define ASTROLABE_FIXPOINT_NO_BY_VARIABLE 1 /* no row does; the lowest free binary variable whose sides fail */

/*
 * Says whether the box is a probing fixpoint (01's at rest): it is empty; or no row narrows it and, for
 * each free binary variable, both sides propagated to their ends are feasible and give back this box
 * as the smallest that contains both. Writes nothing but the answer; takes no budget, since none could be spent.
 * The search through the rows, and through the variables after them, ends at the first that shows a no.
 *
 *     answer[0]   ASTROLABE_FIXPOINT_NO or _YES
 *     answer[1]   of a no, ASTROLABE_FIXPOINT_NO_BY_..; else 0
 *     answer[2]   of a no, the number of that row or variable; else 0
 *
 * Refused by 3 5 6 7 23 8 9 16, in this order.
 */
uint32_t astrolabe_is_probing_fixpoint(size_t n, size_t m,
                                       const int32_t *bounds, size_t bounds_len,
                                       const int32_t *coefs, size_t coefs_len,
                                       const int32_t *rhs, size_t rhs_len,
                                       const uint8_t *kinds, size_t kinds_len,
                                       uint64_t *answer, size_t answer_len);

/* ---------------------------------------------------------------------------------------------
 * Rows. What these two write holds for this box and every box inside it, and for no other: do not
 * carry a row that was tightened or removed at one branch over to another.
 */

/* Cases of astrolabe_tighten_coefficient, answer[0]. */
#define ASTROLABE_TIGHTEN_INFEASIBLE 0 /* 01's None: the box is the empty one */
#define ASTROLABE_TIGHTEN_TIGHTENED 1  /* 01's Sharpened */
#define ASTROLABE_TIGHTEN_UNCHANGED 2  /* 01's Same */

/*
 * Tightens the coefficient of the free binary variable `variable` in row `row` (01's sharpen): the same
 * integer points, fewer fractional ones. A positive coefficient takes the right-hand side down with
 * it, a negative one does not. An = row stays as it is: UNCHANGED.
 *
 *     coefs       written   one coefficient
 *     rhs         written   one right-hand side, where the coefficient is positive
 *     answer[0]   ASTROLABE_TIGHTEN_..
 *
 * Refused by 3 5 6 7 23 8 9 16 12 13 14, in this order. On the empty box: infeasible.
 */
uint32_t astrolabe_tighten_coefficient(size_t n, size_t m,
                                       const int32_t *bounds, size_t bounds_len,
                                       int32_t *coefs, size_t coefs_len,
                                       int32_t *rhs, size_t rhs_len,
                                       const uint8_t *kinds, size_t kinds_len,
                                       uint32_t row, uint32_t variable,
                                       uint64_t *answer, size_t answer_len);

/* Cases of astrolabe_remove_redundant_row, answer[0]. */
#define ASTROLABE_REMOVE_INFEASIBLE 0 /* 01's None: the box is the empty one */
#define ASTROLABE_REMOVE_REMOVED 1    /* 01's Dropped: a number changed */
#define ASTROLABE_REMOVE_UNCHANGED 2  /* 01's Same: the row is needed, or says 0 <= 0 already */

/*
 * Removes row `row` where the box alone implies it (01's drop): its coefficients, its right-hand side and
 * its kind become 0. The row keeps its place, m stays. An = row is removed only where its sum is the
 * right-hand side at every point of the box; a row 0 = 0 is removed, since its kind changes.
 *
 *     coefs       written   one row
 *     rhs         written   one right-hand side
 *     kinds       written   one kind
 *     answer[0]   ASTROLABE_REMOVE_..
 *
 * Refused by 3 5 6 7 23 8 9 16 12, in this order. On the empty box: infeasible.
 */
uint32_t astrolabe_remove_redundant_row(size_t n, size_t m,
                                        const int32_t *bounds, size_t bounds_len,
                                        int32_t *coefs, size_t coefs_len,
                                        int32_t *rhs, size_t rhs_len,
                                        uint8_t *kinds, size_t kinds_len,
                                        uint32_t row,
                                        uint64_t *answer, size_t answer_len);

/* ---------------------------------------------------------------------------------------------
 * Tied variables
 */

/* Cases of astrolabe_tie, answer[0]. */
#define ASTROLABE_TIE_TIED 1      /* 02's Tied */
#define ASTROLABE_TIE_UNCHANGED 2 /* 02's Same */

/*
 * Ties variable `j` to variable `k` where the table says that j always equals k, or always 1 - k: k at 0 gives
 * j at w, and k at 1 gives j at 1 - w, with w 0 for k and 1 for 1 - k; where it says both, w is 0. That is put
 * into every row: the coefficient of k becomes a_k + a_j (w = 0), or a_k - a_j with the right-hand side less a_j
 * (w = 1), and the coefficient of j becomes 0. Place j of the list becomes 1 plus the number of the literal of k
 * that holds just when j is 1: 2k + 2 (w = 0) or 2k + 1 (w = 1). Kinds, bounds and table stay; j stays free.
 *
 * UNCHANGED, and nothing changes: the table does not say so; k is j; k or j is not free binary (so always on the
 * empty box) or is replaced already (its place is not 0); a coefficient or right-hand side of some row would leave
 * its limits. A k that others are tied to can be tied itself later: then their places still name it.
 *
 * With a table that calls on this model filled from all 0, and the list as they left it, whole values in the box
 * meet the new rows and ties exactly when they met the old ones. With any other table no point is added, and
 * some may be lost. Make ties before the branches part, and give each branch its copy of the list.
 *
 *     coefs       written   the columns of k and j
 *     rhs         written   where w is 1
 *     ties        written   place j
 *     answer[0]   ASTROLABE_TIE_TIED or _UNCHANGED
 *
 * Refused by 3 5 6 7 23 8 9 16 10 21 13 (k, then j), in this order.
 */
uint32_t astrolabe_tie(size_t n, size_t m,
                       const int32_t *bounds, size_t bounds_len,
                       int32_t *coefs, size_t coefs_len,
                       int32_t *rhs, size_t rhs_len,
                       const uint8_t *kinds, size_t kinds_len,
                       const uint8_t *table, size_t table_len,
                       uint16_t *ties, size_t ties_len,
                       uint32_t k, uint32_t j,
                       uint64_t *answer, size_t answer_len);

/* ---------------------------------------------------------------------------------------------
 * Prepared models, for a call at every branch. astrolabe_prepare checks a model once and writes its rows into a
 * lent workspace; the two other calls are then lent the workspace and bounds only. They say, count and leave what
 * astrolabe_propagate and astrolabe_probe do on the model that was prepared, with these bounds. What they save is
 * work: bounds are compared with the last box that the workspace knows, and only rows are looked at that a bound
 * which differs could make move another one.
 *
 * A WORKSPACE is ASTROLABE_WORKSPACE_LEN numbers of the caller's memory. Nothing else is kept anywhere: copy it by
 * memcpy, write it to a file, throw it away. Two threads need two workspaces, since every call writes into its own;
 * a copy goes on from where the original stood. A workspace that was prepared for a model stays prepared for that
 * model through any number of calls, whatever bounds they are lent, also refused and infeasible ones: the bounds of
 * a call need not lie inside those of the call before. To change a row, prepare again.
 *
 * ANY OTHER CONTENT. Whether a workspace was written by astrolabe_prepare is asked of its count and of its first
 * three numbers only, and it is refused by 5 where they are not ours. Behind a head that is ours the numbers may be
 * anything (a file that was cut and glued, memory that another part of the program wrote): then the call still
 * reads and writes only what it is lent, and it ends; but nothing is promised of what it answers, nor of the bounds
 * and the workspace after it. So keep a workspace as you keep a pointer.
 */

/* No row: in `reasons`, in answer[3] of astrolabe_prepared_propagate, in answer[8] and [9] of _prepared_probe. */
#define ASTROLABE_NO_ROW 4294967295u

/*
 * Checks a model and writes its rows into the workspace, whatever that held before. The bounds are checked as the rest
 * is, and not kept: each call is lent its own. No answer: the returned number says all.
 *
 *     workspace   written   exactly ASTROLABE_WORKSPACE_LEN numbers
 *
 * Refused by 3 5 6 7 23 8 9 16, in this order; the workspace's count is 5, with the others.
 */
uint32_t astrolabe_prepare(size_t n, size_t m,
                           const int32_t *bounds, size_t bounds_len,
                           const int32_t *coefs, size_t coefs_len,
                           const int32_t *rhs, size_t rhs_len,
                           const uint8_t *kinds, size_t kinds_len,
                           uint32_t *workspace, size_t workspace_len);

/*
 * Propagates all rows of the prepared model, as astrolabe_propagate does. Told beside it, where a list is lent for
 * it: for each bound the row that moved it last. A search's analysis of a conflict begins at the row that was
 * infeasible and goes back by the reasons.
 *
 *     workspace   written   stays prepared for its model
 *     bounds      written   2n numbers, n being the prepared model's: narrowed, or made the empty box
 *     reasons     written   0 numbers, and nothing is told; or 2n: number i is the row that moved bound i last,
 *                           ASTROLABE_NO_ROW where no row did. An infeasible row moves nothing; where it ended the
 *                           call, the reasons are those of the bounds that had moved before the box was made empty
 *     answer[0]   ASTROLABE_PROPAGATE_..
 *     answer[1]   the passes made
 *     answer[2]   the bounds moved: these three as in astrolabe_propagate
 *     answer[3]   of INFEASIBLE the row that was; ASTROLABE_NO_ROW where none was: the lent box was empty, or the
 *                 call ended otherwise
 *
 * Refused by 5 (a workspace that is not ours, or a wrong count) 6 7 23 15, in this order.
 */
uint32_t astrolabe_prepared_propagate(uint32_t *workspace, size_t workspace_len,
                                      int32_t *bounds, size_t bounds_len,
                                      uint32_t budget,
                                      uint32_t *reasons, size_t reasons_len,
                                      uint64_t *answer, size_t answer_len);

/*
 * Probes a free binary variable of the prepared model, as astrolabe_probe does: its two sides, the table and the
 * answer are those. Told beside it, where a list is lent for it: for each bound of each side the row that moved it
 * last in that side. A bound of the new box, but for the variable's own, moved exactly if it moved in each side that
 * is feasible. Where a side is infeasible, the analysis of that conflict begins at its row.
 *
 *     workspace   written   stays prepared for its model
 *     bounds      written   2n numbers: the new box
 *     table       written   4n^2 bytes: bytes go from 0 to 1, where both sides are feasible
 *     reasons     written   0 numbers, and nothing is told; or 4n: number i is the row that moved bound i last in side
 *                           0, number 2n + i in side 1, each as in astrolabe_prepared_propagate; ASTROLABE_NO_ROW
 *                           where no row did: the side has the bound that was lent, or the one it set the variable to
 *     answer[0] to answer[7]   as in astrolabe_probe
 *     answer[8]   the row that was infeasible in side 0; ASTROLABE_NO_ROW where none was: the side is feasible, or
 *                 the lent box was empty, and no side was tried
 *     answer[9]   the same of side 1
 *
 * Refused by 5 (a workspace that is not ours, or a wrong count) 6 7 23 10 13 14 15, in this order.
 */
uint32_t astrolabe_prepared_probe(uint32_t *workspace, size_t workspace_len,
                                  int32_t *bounds, size_t bounds_len,
                                  uint8_t *table, size_t table_len,
                                  uint32_t variable, uint32_t budget,
                                  uint32_t *reasons, size_t reasons_len,
                                  uint64_t *answer, size_t answer_len);

/* ---------------------------------------------------------------------------------------------
 * Many calls at once
 */

/* Kinds of a call record, its first number. A field that a kind lacks may hold anything. */
#define ASTROLABE_KIND_PROPAGATE_ROW 1        /* 01's visit: row */
#define ASTROLABE_KIND_PROPAGATE 2            /* 01's settle: budget */
#define ASTROLABE_KIND_PROBE 3                /* 01's probe: variable, budget */
#define ASTROLABE_KIND_TIGHTEN_COEFFICIENT 4  /* 01's sharpen: retired from lists, refused by 18 */
#define ASTROLABE_KIND_REMOVE_REDUNDANT_ROW 5 /* 01's drop: retired from lists, refused by 18 */

/*
 * Makes the calls of a list one after another (01's run sheet), each on what the one before it left. A
 * record is four numbers: kind, row, variable, budget; `calls_len` counts numbers, four a record. A
 * record that one of the checks 11 18 12 13 14 15, in this order, refuses changes nothing, and the run
 * goes on. Kinds 4 and 5 are retired from lists: a row tightened or removed for one branch's box can be
 * wrong in the next. Make those calls directly, by astrolabe_tighten_coefficient and
 * astrolabe_remove_redundant_row, before the branches part. So a list writes no row.
 *
 *     bounds, table   written   as the calls do
 *     answer[0]   calls refused
 *     answer[1]   calls that answered infeasible (01's None)
 *     answer[2]   other calls that changed a bound or a table byte
 *     answer[3]   other calls that changed nothing
 *
 * The four add up to calls_len / 4. An empty list is accepted.
 * The list as a whole is refused by 3 5 6 7 23 8 9 16 10, in this order; a calls_len that is not a multiple
 * of four is 5.
 */
uint32_t astrolabe_run(size_t n, size_t m,
                       int32_t *bounds, size_t bounds_len,
                       const int32_t *coefs, size_t coefs_len,
                       const int32_t *rhs, size_t rhs_len,
                       const uint8_t *kinds, size_t kinds_len,
                       uint8_t *table, size_t table_len,
                       const uint32_t *calls, size_t calls_len,
                       uint64_t *answer, size_t answer_len);

/* Classes of the records of a list, in `classes`. Each is the place of its count in the answer. */
#define ASTROLABE_CLASS_REFUSED 0    /* refused; it changed nothing */
#define ASTROLABE_CLASS_INFEASIBLE 1 /* answered infeasible (01's None) */
#define ASTROLABE_CLASS_CHANGED 2    /* changed a bound or a table byte */
#define ASTROLABE_CLASS_UNCHANGED 3  /* changed nothing */

/*
 * Makes the calls of a list as astrolabe_run does, and also says what each record did: classes[i] is the
 * class of record i, ASTROLABE_CLASS_... `classes_len` is calls_len / 4.
 *
 *     bounds, table   written   as the calls do
 *     classes         written   a byte a record
 *     answer[0..3]    as in astrolabe_run: answer[c] is how often class c occurs
 *
 * Refused as astrolabe_run is; a classes_len that is not the number of records is 5.
 */
uint32_t astrolabe_run_classes(size_t n, size_t m,
                               int32_t *bounds, size_t bounds_len,
                               const int32_t *coefs, size_t coefs_len,
                               const int32_t *rhs, size_t rhs_len,
                               const uint8_t *kinds, size_t kinds_len,
                               uint8_t *table, size_t table_len,
                               const uint32_t *calls, size_t calls_len,
                               uint8_t *classes, size_t classes_len,
                               uint64_t *answer, size_t answer_len);

/* Cases of astrolabe_rounds, answer[0]. */
#define ASTROLABE_ROUNDS_INFEASIBLE 0    /* 01's None: the box is empty now */
#define ASTROLABE_ROUNDS_UNCHANGED 1     /* the last round changed nothing */
#define ASTROLABE_ROUNDS_LIMIT_REACHED 2 /* `limit` rounds are made and the last changed something, or limit is 0 */

/* The limit that is none: the rounds of every model end below it. */
#define ASTROLABE_NO_LIMIT UINT64_MAX

/*
 * Makes the rounds of the program `reduce`: propagate with 1,000 passes; remove each redundant row;
 * tighten each row at each variable that is free then; probe each variable that is free then with 1,000
 * passes. It ends after a round that changed nothing, after `limit` rounds, or at infeasible. Any limit
 * is accepted: `reduce` itself has ASTROLABE_NO_LIMIT, which is never reached, `reduce8` has 8; with 0 no
 * call is made at all.
 *
 *     bounds, coefs, rhs, kinds, table   written   as the calls do; the table is kept and extended
 *     answer[0]   ASTROLABE_ROUNDS_..
 *     answer[1]   the rounds made, the last one included
 *     answer[2]   1 if the budget of a side of a probe in the last round was spent, else 0
 *
 * With ASTROLABE_ROUNDS_UNCHANGED and answer[2] 0 the model is at rest: astrolabe_is_probing_fixpoint
 * says yes.
 *
 * Refused by 3 5 6 7 23 8 9 16 10, in this order.
 */
uint32_t astrolabe_rounds(size_t n, size_t m,
                          int32_t *bounds, size_t bounds_len,
                          int32_t *coefs, size_t coefs_len,
                          int32_t *rhs, size_t rhs_len,
                          uint8_t *kinds, size_t kinds_len,
                          uint8_t *table, size_t table_len,
                          uint64_t limit,
                          uint64_t *answer, size_t answer_len);

/* ---------------------------------------------------------------------------------------------
 * Clique rows
 */

/*
 * Writes the clique rows of the table into a list of 2n rows, and zeros after them. Two literals of
 * different variables are joined where the table says that each implies the other's opposite. From each
 * literal, upwards, a clique is grown: all literals are tried upwards from 0 and taken when joined to all
 * taken so far. Cliques of three or more are written in the order grown, each set once, as
 *
 *     sum of the variables meant at 1 - sum of those meant at 0 <= 1 - the number of the latter
 *
 * No literal could be added to a clique. For a table that calls on a model filled from one that is all 0,
 * every integer point of the model meets each row (of a model with ties: every one that meets the ties);
 * for a table from elsewhere only the listing is promised.
 *
 *     clique_coefs  written   2n*n: row i has its n coefficients at i*n, each -1, 0 or 1
 *     clique_rhs    written   2n
 *     answer[0]     the number of rows written, 0 to 2n
 *
 * Refused by 3 (n alone) 5 10, in this order; then the list stays as it is.
 */
uint32_t astrolabe_cliques(size_t n,
                           const uint8_t *table, size_t table_len,
                           int32_t *clique_coefs, size_t clique_coefs_len,
                           int32_t *clique_rhs, size_t clique_rhs_len,
                           uint64_t *answer, size_t answer_len);

/* ---------------------------------------------------------------------------------------------
 * Size and passes told beforehand. These three read no row and make no pass: a planner calls them before
 * a book is loaded.
 */

/*
 * Tells from the 16 trailer bytes of a book the length of each buffer that its n and m fix, in elements.
 *
 *     answer[0]   n
 *     answer[1]   m
 *     answer[2]   bounds        2n
 *     answer[3]   coefs         m*n
 *     answer[4]   rhs           m
 *     answer[5]   kinds         m
 *     answer[6]   table         4n^2
 *     answer[7]   ties          n: a place of 16 bits for each variable
 *     answer[8]   clique_coefs  2n*n: the coefficients of 2n clique rows
 *     answer[9]   clique_rhs    2n: their right-hand sides
 *     answer[10]  the book's bytes, ASTROLABE_BOOK_LEN(n, m)
 *
 * Refused by 1 5 (more than 16 bytes, or a wrong answer_len) 3 4, in this order.
 */
uint32_t astrolabe_plan_lengths(const uint8_t *bytes, size_t bytes_len,
                                uint64_t *answer, size_t answer_len);

/*
 * Tells the total width of the bounds, and a budget that is never spent: astrolabe_propagate with it, on
 * any model with these bounds, does not answer BUDGET_SPENT.
 *
 *     answer[0]   the total width: the sum of u - l, 0 for the empty box; at most 524,288
 *     answer[1]   the budget: the width plus 1
 *
 * Refused by 3 (n alone) 5 6 7 23, in this order.
 */
uint32_t astrolabe_plan_width(size_t n,
                              const int32_t *bounds, size_t bounds_len,
                              uint64_t *answer, size_t answer_len);

/*
 * Tells an upper limit on the passes that astrolabe_run makes with this list, on any model with these
 * bounds and with any table: each record of kind PROPAGATE, refused or not, counts the lesser of its budget
 * and the width plus 1, each of kind PROBE twice that. The passes made never exceed it.
 *
 *     answer[0]   the total width
 *     answer[1]   the budget that is never spent
 *     answer[2]   the passes at most; it may need more than 32 bits
 *
 * Refused by 3 (n alone) 5 6 7 23, in this order; a calls_len that is not a multiple of four, or that is
 * over 4 * ASTROLABE_MAX_PLANNED_RECORDS, is 5.
 */
uint32_t astrolabe_plan_run(size_t n,
                            const int32_t *bounds, size_t bounds_len,
                            const uint32_t *calls, size_t calls_len,
                            uint64_t *answer, size_t answer_len);

/* ---------------------------------------------------------------------------------------------
 * Proposed allocations. Up to 64 lists of n numbers, each held against the model.
 */

/* Cases of a verdict, verdicts[2c]. */
#define ASTROLABE_VERDICT_INSIDE 0  /* an integer point of the model */
#define ASTROLABE_VERDICT_OUTSIDE 1 /* outside the box; verdicts[2c + 1] is the lowest such variable */
#define ASTROLABE_VERDICT_BREAKS 2  /* inside the box; verdicts[2c + 1] is the lowest row that does not hold */

/*
 * Holds proposals against a model: box and rows, by the rows' kinds. Ties are not read. There is no answer: the
 * verdicts and the returned number say all. Each proposal gets what it alone would get. The rows are read
 * once for all of them.
 *
 *     proposals   const     count * n numbers, one proposal after the other; any numbers
 *     count                 1 to 64
 *     verdicts    written   2 * count numbers: a case, and a variable or a row (0 where it is inside)
 *
 * A proposal gets ASTROLABE_VERDICT_INSIDE exactly if it is an integer point of the model. So it gets the same
 * yes or no against a model and against what the calls above (the rounds among them) made of it.
 *
 * Refused by 3 22 5 6 7 23 8 9 16, in this order.
 */
uint32_t astrolabe_check_allocations(size_t n, size_t m,
                                     const int32_t *bounds, size_t bounds_len,
                                     const int32_t *coefs, size_t coefs_len,
                                     const int32_t *rhs, size_t rhs_len,
                                     const uint8_t *kinds, size_t kinds_len,
                                     const int32_t *proposals, size_t proposals_len,
                                     uint32_t count,
                                     uint32_t *verdicts, size_t verdicts_len);

/* ---------------------------------------------------------------------------------------------
 * Books. A model as a file, little-endian: the bounds, l and u of each variable; then for each row its
 * right-hand side and its n coefficients; 32 bits each, two's complement. The last 16 bytes are the
 * trailer, unsigned: offset of the bounds (0) and of the rows (8n), 32 bits each; n and m, 16 bits
 * each; length of the book, 32 bits. The table is not in it, and no kinds are: this is the first edition,
 * whose rows are all <= rows.
 */

/* The bytes of the book of n variables and m rows; n and m within their limits. */
#define ASTROLABE_BOOK_LEN(n, m) (8 * (size_t)(n) + (size_t)(m) * (4 + 4 * (size_t)(n)) + ASTROLABE_TRAILER_LEN)

/*
 * Reads n and m from the 16 trailer bytes alone, to know what buffers astrolabe_book_read needs.
 *
 *     answer[0]   n
 *     answer[1]   m
 *
 * Refused by 1 5 (more than 16 bytes, or a wrong answer_len) 3 4, in this order.
 */
uint32_t astrolabe_book_trailer(const uint8_t *bytes, size_t bytes_len,
                                uint64_t *answer, size_t answer_len);

/*
 * Reads a book into the buffers of a model.
 *
 *     bounds, coefs, rhs, kinds   written   the model; counts as the book's n and m give them; every kind is 0
 *     answer[0]   n
 *     answer[1]   m
 *
 * Refused by 1 2 3 4 5 6 7 23 8 9, in this order; from 6 on they are of the book's numbers. A stored book
 * with a variable over 4,096 wide is refused by 23 and must be retyped.
 */
uint32_t astrolabe_book_read(const uint8_t *book, size_t book_len,
                             int32_t *bounds, size_t bounds_len,
                             int32_t *coefs, size_t coefs_len,
                             int32_t *rhs, size_t rhs_len,
                             uint8_t *kinds, size_t kinds_len,
                             uint64_t *answer, size_t answer_len);

/*
 * Writes a model into a book. There is no answer: the returned number says all. Reading the book gives
 * back the model, and writing the model of an accepted book gives back its bytes.
 *
 *     book        written   exactly ASTROLABE_BOOK_LEN(n, m) bytes
 *
 * Refused by 3 5 6 7 23 8 9 16 17, in this order: a model with an = row has no book of this edition.
 */
uint32_t astrolabe_book_write(size_t n, size_t m,
                              const int32_t *bounds, size_t bounds_len,
                              const int32_t *coefs, size_t coefs_len,
                              const int32_t *rhs, size_t rhs_len,
                              const uint8_t *kinds, size_t kinds_len,
                              uint8_t *book, size_t book_len);

/* ---------------------------------------------------------------------------------------------
 * Sparse books, the second edition: the same bounds and the same trailer, and between them for each row its
 * right-hand side (32 bits), its kind (8), a count (16), and then a column (16) and a coefficient (32) for
 * each coefficient that is not 0, columns rising. Which edition a file is in is not written in it: a caller
 * knows, or tells it by which trailer or reading is accepted. With no rows both are the same bytes.
 */

/*
 * Reads n and m from the 16 trailer bytes alone, to know what buffers astrolabe_sparse_read needs.
 *
 *     answer[0]   n
 *     answer[1]   m
 *
 * Refused by 1 5 (more than 16 bytes, or a wrong answer_len) 3 4, in this order; 4 is of the offsets only.
 */
uint32_t astrolabe_sparse_trailer(const uint8_t *bytes, size_t bytes_len,
                                  uint64_t *answer, size_t answer_len);

/*
 * Reads a sparse book into the buffers of a model.
 *
 *     bounds, coefs, rhs, kinds   written   the model; counts as the book's n and m give them
 *     answer[0]   n
 *     answer[1]   m
 *
 * Refused by 1 2 3 4 19 20 5 6 7 23 8 9 16, in this order. 4: an offset is wrong, or the walk over the rows
 * does not end at the trailer; it is finished before any entry is looked at. 19 and 20 are one check: the
 * entry read first decides, and in one entry the column.
 */
uint32_t astrolabe_sparse_read(const uint8_t *book, size_t book_len,
                               int32_t *bounds, size_t bounds_len,
                               int32_t *coefs, size_t coefs_len,
                               int32_t *rhs, size_t rhs_len,
                               uint8_t *kinds, size_t kinds_len,
                               uint64_t *answer, size_t answer_len);

/*
 * Writes a model, = rows too, into a sparse book. There is no answer: the returned number says all. Reading
 * the book gives back the model, and writing the model of an accepted book gives back its bytes.
 *
 *     book        written   exactly as many bytes as astrolabe_sparse_length tells
 *
 * Refused by 3 5 6 7 23 8 9 16, in this order.
 */
uint32_t astrolabe_sparse_write(size_t n, size_t m,
                                const int32_t *bounds, size_t bounds_len,
                                const int32_t *coefs, size_t coefs_len,
                                const int32_t *rhs, size_t rhs_len,
                                const uint8_t *kinds, size_t kinds_len,
                                uint8_t *book, size_t book_len);

/*
 * How long the sparse book of a model is: 8n + 7m + 16 bytes, and 6 for each coefficient that is not 0; at
 * most 94,040.
 *
 *     answer[0]   bytes
 *
 * Refused by 3 5 6 7 23 8 9 16, in this order.
 */
uint32_t astrolabe_sparse_length(size_t n, size_t m,
                                 const int32_t *bounds, size_t bounds_len,
                                 const int32_t *coefs, size_t coefs_len,
                                 const int32_t *rhs, size_t rhs_len,
                                 const uint8_t *kinds, size_t kinds_len,
                                 uint64_t *answer, size_t answer_len);

/*
 * How long the sparse edition of a first-edition book is.
 *
 *     answer[0]   bytes
 *
 * Refused by 1 2 3 4 5 (a wrong answer_len) 6 7 23 8 9, in this order.
 */
uint32_t astrolabe_book_to_sparse_length(const uint8_t *book, size_t book_len,
                                         uint64_t *answer, size_t answer_len);

/*
 * Turns a first-edition book into a sparse one. There is no answer: the returned number says all. Turning it
 * back gives the same bytes.
 *
 *     to          written   exactly as many bytes as astrolabe_book_to_sparse_length tells
 *
 * Refused by 1 2 3 4 5 (to_len) 6 7 23 8 9, in this order.
 */
uint32_t astrolabe_book_to_sparse(const uint8_t *from, size_t from_len,
                                  uint8_t *to, size_t to_len);

/*
 * Turns a sparse book whose rows are all <= rows into a first-edition one. There is no answer: the returned
 * number says all. Turning it back gives the same bytes.
 *
 *     to          written   exactly ASTROLABE_BOOK_LEN(n, m) bytes
 *
 * Refused by 1 2 3 4 19 20 5 (to_len) 6 7 23 8 9 16 17, in this order.
 */
uint32_t astrolabe_sparse_to_book(const uint8_t *from, size_t from_len,
                                  uint8_t *to, size_t to_len);

/* ---------------------------------------------------------------------------------------------
 * Pages for the floor: the bounds, and what each variable implies at 1, as ASCII text on paper. A page has 60
 * lines of 80 columns, space filled, each ended by a line feed. Line 1 of each page is the page number, from 1,
 * in columns 75 to 80. Then each variable has its line, upwards:
 *
 *     columns 1 to 6     the variable, from 0; right-aligned, as are the next two
 *             8 to 14    its lower bound
 *             16 to 22   its upper bound
 *             24 to 71   up to eight literals that "this variable is 1" implies by the table, rising, six columns
 *                        each: + for "is 1" or - for "is 0", then the variable, then spaces
 *
 * Further literals go on lines of their own, with columns 1 to 23 empty. The last page is filled with empty lines.
 * The rows are not printed. The numbers on the pages give back the bounds and those implications, all of them and no
 * others.
 */

/* The bytes of a page, and the most pages that there are. */
#define ASTROLABE_PAGE_LEN 4860
#define ASTROLABE_MAX_PAGES 70

/*
 * Tells the number of pages.
 *
 *     answer[0]   the number of pages, 1 to ASTROLABE_MAX_PAGES
 *
 * Refused by 3 (n alone) 5 10, in this order.
 */
uint32_t astrolabe_page_count(size_t n,
                              const uint8_t *table, size_t table_len,
                              uint64_t *answer, size_t answer_len);

/*
 * Writes the pages. pages_len is ASTROLABE_PAGE_LEN times their number. No answer: the returned number says all.
 *
 * Refused by 3 (n alone) 5 6 7 23 10, in this order. For 5 the pages are counted by the table's bytes that are 1;
 * any other byte is left to 10.
 */
uint32_t astrolabe_write_pages(size_t n,
                               const int32_t *bounds, size_t bounds_len,
                               const uint8_t *table, size_t table_len,
                               uint8_t *pages, size_t pages_len);

#ifdef __cplusplus
}
#endif

#endif /* ASTROLABE_H */
