/*
 * A program outside the repository, which finds the installed library by pkg-config:
 *
 *     cc outside.c $(pkg-config --cflags --libs astrolabe) -o outside
 */
#include <astrolabe.h>
#include <stdio.h>

int main(void)
{
    int32_t bounds[] = {0, 1, 0, 1}, coefs[] = {3, 2}, rhs[] = {4}; /* 3x + 2y <= 4 */
    uint8_t kinds[] = {ASTROLABE_ROW_KIND_AT_MOST}, table[4 * 2 * 2] = {0};
    uint64_t answer[ASTROLABE_ANSWER_LEN];
    uint32_t refused = astrolabe_rounds(2, 1, bounds, 4, coefs, 2, rhs, 1, kinds, 1, table, 16, 8,
                                        answer, ASTROLABE_ANSWER_LEN);
    printf("refused %u, %u rounds: %dx + %dy <= %d\n", (unsigned)refused, (unsigned)answer[1],
           (int)coefs[0], (int)coefs[1], (int)rhs[0]);
    return refused != 0;
}
