/*
 * Plans the swap: two flows of 10 Mbit/s change places on two links of 15. Reads the network text, makes the plan,
 * checks it, and prints the plan text; after a refusal it prints the three lines of the refusal instead.
 *
 *     tools/library
 *     cc -Iinclude examples/c/plan.c target/staticlib/libpavuneshil.a -o plan
 */
#include "pavuneshil.h"

#include <inttypes.h>
#include <stdio.h>
#include <string.h>

static const char swap[] = "net=1\n"
                           "scratch=333\n"
                           "overrun=0\n"
                           "links=2\n"
                           "flows=2\n"
                           "tunnels=4\n"
                           "cap=15\n"
                           "cap=15\n"
                           "class=0\n"
                           "rate=10\n"
                           "class=0\n"
                           "rate=10\n"
                           "flow=0\n"
                           "via=0000000000000001\n"
                           "old=10\n"
                           "new=0\n"
                           "flow=0\n"
                           "via=0000000000000002\n"
                           "old=0\n"
                           "new=10\n"
                           "flow=1\n"
                           "via=0000000000000002\n"
                           "old=10\n"
                           "new=0\n"
                           "flow=1\n"
                           "via=0000000000000001\n"
                           "old=0\n"
                           "new=10\n";

/* every switch has finished a step before the next begins */
static const uint64_t lag = 1;

static uint64_t network[PAVUNESHIL_NETWORK_NUMBERS];
static uint64_t plan[PAVUNESHIL_PLAN_NUMBERS];
static uint8_t marks[PAVUNESHIL_MARKS];
static uint8_t text[PAVUNESHIL_TEXT_BYTES];

static int refused(const uint64_t answer[4])
{
    if (answer[0] != PAVUNESHIL_REFUSED)
        return 0;
    printf("refused=%" PRIu64 "\nplace=%" PRIu64 "\nsecond=%" PRIu64 "\n", answer[1], answer[2], answer[3]);
    return 1;
}

int main(void)
{
    uint64_t answer[4];
    size_t network_len, plan_len;

    pavuneshil_read_network((const uint8_t *)swap, strlen(swap), network, PAVUNESHIL_NETWORK_NUMBERS, answer);
    if (refused(answer))
        return 1;
    network_len = answer[1];

    pavuneshil_make_plan(lag, network, network_len, plan, PAVUNESHIL_PLAN_NUMBERS, answer);
    if (refused(answer))
        return 1;
    plan_len = answer[1];

    pavuneshil_check_plan(lag, network, network_len, plan, plan_len, marks, PAVUNESHIL_MARKS, answer);
    if (refused(answer))
        return 1;

    pavuneshil_write_plan(plan, plan_len, text, PAVUNESHIL_TEXT_BYTES, answer);
    if (refused(answer))
        return 1;
    fwrite(text, 1, answer[1], stdout);
    return 0;
}
