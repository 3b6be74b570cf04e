/*
 * A fair hand-out: desk 2 submits three jobs before desk 5 submits its first, and still the two are served in turn. A job
 * is told how many go before it if nobody submits again: so it is for the last, while two of desk 5 come before number 3
 * of desk 2. Each desk has job numbers of its own. Then one call of each kind that is refused. Prints a line for each call.
 *
 *     tools/library
 *     cc -Iinclude examples/c/desks.c target/staticlib/libpavuneshil.a -o desks
 */
#include "pavuneshil.h"

#include <inttypes.h>
#include <stdio.h>

static pavuneshil_desks desks;

static int refused(const uint64_t answer[4])
{
    if (answer[0] != PAVUNESHIL_REFUSED)
        return 0;
    printf("refused=%" PRIu64 " place=%" PRIu64 " second=%" PRIu64 "\n", answer[1], answer[2], answer[3]);
    return 1;
}

static void submit(uint64_t desk, uint32_t tag)
{
    uint64_t answer[4];

    printf("desk %" PRIu64 " submits tag %" PRIu32 ": ", desk, tag);
    pavuneshil_desks_submit(&desks, desk, tag, answer);
    if (!refused(answer))
        printf("number %" PRIu64 ", %" PRIu64 " before it\n", answer[1], answer[2]);
}

static void hand_out(void)
{
    uint64_t answer[4];

    printf("hand-out: ");
    pavuneshil_desks_hand_out(&desks, answer);
    if (!refused(answer))
        printf("desk %" PRIu64 ", number %" PRIu64 ", tag %" PRIu64 "\n", answer[1], answer[2], answer[3]);
}

int main(void)
{
    uint32_t tag;

    pavuneshil_desks_empty(&desks);

    submit(2, 201);
    submit(2, 202);
    submit(2, 203);
    submit(5, 501);
    submit(5, 502);
    while (desks.waiting[2] > 0 || desks.waiting[5] > 0)
        hand_out();

    hand_out();     /* nothing waits */
    submit(8, 801); /* the desks are 0 to 7 */
    for (tag = 701; tag <= 705; tag++)
        submit(7, tag); /* four may wait, the fifth is refused */
    return 0;
}
