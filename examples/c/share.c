/*
 * Sharing a flow: some 100 Mbit/s among four services. Each is met while the demands add up to at most that; then the small
 * demands are met and the others are cut to one level, the units left over going to the first of them. Then one call of
 * each kind that is refused. Prints a line for each call.
 *
 *     tools/library
 *     cc -Iinclude examples/c/share.c target/staticlib/libpavuneshil.a -o share
 */
#include "pavuneshil.h"

#include <inttypes.h>
#include <stdio.h>

static void share(uint64_t rate, const uint64_t *demands, size_t count, size_t room)
{
    uint64_t shares[PAVUNESHIL_SERVICES];
    uint64_t answer[4];
    size_t i;

    printf("%" PRIu64 " among", rate);
    for (i = 0; i < count; i++)
        printf(" %" PRIu64, demands[i]);
    pavuneshil_share(rate, demands, count, shares, room, answer);
    if (answer[0] == PAVUNESHIL_REFUSED) {
        printf(": refused=%" PRIu64 " place=%" PRIu64 " second=%" PRIu64 "\n", answer[1], answer[2], answer[3]);
        return;
    }
    printf(":");
    for (i = 0; i < answer[1]; i++)
        printf(" %" PRIu64, shares[i]);
    printf("\n");
}

int main(void)
{
    const uint64_t modest[] = {40, 10, 20, 30};
    const uint64_t eager[] = {80, 10, 60, 50};
    const uint64_t wild[] = {80, 10, 10000001, 50};

    share(100, modest, 4, PAVUNESHIL_SERVICES);
    share(99, modest, 4, PAVUNESHIL_SERVICES);
    share(100, eager, 4, PAVUNESHIL_SERVICES);
    share(101, eager, 4, PAVUNESHIL_SERVICES);

    share(100, modest, 0, PAVUNESHIL_SERVICES);    /* no service */
    share(10000001, wild, 4, PAVUNESHIL_SERVICES); /* the rate, before the demand */
    share(100, wild, 4, PAVUNESHIL_SERVICES);      /* service 3 */
    share(100, modest, 4, 3);                      /* room for three */
    return 0;
}
