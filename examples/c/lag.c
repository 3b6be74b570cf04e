/*
 * Agents that fall behind. Two flows of 10 Mbit/s change places on two links of 15: for each lag, how many steps the plan has, and
 * whether it still does where the switches are a step further behind.
 *
 *     tools/library
 *     cc -Iinclude examples/c/lag.c target/staticlib/libpavuneshil.a -o lag
 */
#include "pavuneshil.h"

#include <inttypes.h>
#include <stdio.h>

#if PAVUNESHIL_VERSION != 2
#error "written for version 2"
#endif

/* a number for each line of the text */
static const uint64_t network[] = {1, 333, 0, 2, 2, 4, 15, 15, 0, 10, 0, 10, /* two links, two flows, four tunnels */
                                   0, 1, 10, 0, 0, 2, 0, 10,                 /* flow 0: from link 0 to link 1 */
                                   1, 2, 10, 0, 1, 1, 0, 10};                /* flow 1: from link 1 to link 0 */

#define NUMBERS (sizeof network / sizeof network[0])

static uint64_t plan[PAVUNESHIL_PLAN_NUMBERS];
static uint8_t marks[PAVUNESHIL_MARKS];

int main(void)
{
    uint64_t lag, answer[4];
    size_t plan_len, tunnel;

    for (lag = 1; lag <= 5; lag++) {
        pavuneshil_make_plan(lag, network, NUMBERS, plan, PAVUNESHIL_PLAN_NUMBERS, answer);
        if (answer[0] == PAVUNESHIL_REFUSED) {
            printf("lag %" PRIu64 ": refused %" PRIu64 "\n", lag, answer[1]);
            continue;
        }
        plan_len = answer[1];
        printf("lag %" PRIu64 ": %" PRIu64 " steps", lag, plan[2]);
        pavuneshil_check_plan(lag + 1, network, NUMBERS, plan, plan_len, marks, PAVUNESHIL_MARKS, answer);
        if (answer[0] == PAVUNESHIL_REFUSED && answer[1] == 7) {
            printf("; lag %" PRIu64 " overloads link %" PRIu64 " in step %" PRIu64 " by tunnel", lag + 1, answer[3],
                   answer[2]);
            for (tunnel = 0; tunnel < 4; tunnel++)
                if (marks[tunnel])
                    printf(" %d", (int)tunnel);
        }
        printf("\n");
    }
    return 0;
}
