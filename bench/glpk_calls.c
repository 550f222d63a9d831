/*
 * Beside examples/glpk.c, linked with -Wl,--wrap=astrolabe_prepared_propagate: counts the prepared calls and prints their number at the
 * end. bench/run divides the instructions of the calls by it; the calls pass through here, and what that takes is not in them.
 */
#include <stdio.h>

#include "astrolabe.h"

uint32_t __real_astrolabe_prepared_propagate(uint32_t *workspace, size_t workspace_len, int32_t *bounds, size_t bounds_len,
                                             uint32_t budget, uint32_t *reasons, size_t reasons_len, uint64_t *answer, size_t answer_len);

static unsigned long calls;

uint32_t __wrap_astrolabe_prepared_propagate(uint32_t *workspace, size_t workspace_len, int32_t *bounds, size_t bounds_len,
                                             uint32_t budget, uint32_t *reasons, size_t reasons_len, uint64_t *answer, size_t answer_len)
{
    calls++;
    return __real_astrolabe_prepared_propagate(workspace, workspace_len, bounds, bounds_len, budget, reasons, reasons_len, answer,
                                               answer_len);
}

__attribute__((destructor)) static void tell(void)
{
    printf("calls %lu\n", calls);
}
