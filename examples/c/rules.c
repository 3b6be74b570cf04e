/*
 * Stages rule tables: two switches with room for 4 and 6 rules, a quarter of which is to stay free. One tunnel is kept,
 * three are added and three removed. Reads the rules text, prints each tunnel's stage and then, stage after stage, how many
 * rules each switch holds. Then some calls that are refused.
 *
 *     tools/library
 *     cc -Iinclude examples/c/rules.c target/staticlib/libpavuneshil.a -o rules
 */
#include "pavuneshil.h"

#include <inttypes.h>
#include <stdio.h>
#include <string.h>

enum { SWITCHES = 2, TUNNELS = 7, KEEP = 1, ADD = 2, REMOVE = 3 };

static const char text[] = "rules=1\n"
                           "slack=250\n"
                           "switches=2\n"
                           "tunnels=7\n"
                           "room=4\n"
                           "room=6\n"
                           "via=0000000000000003\n"
                           "kind=1\n"
                           "via=0000000000000003\n"
                           "kind=2\n"
                           "via=0000000000000001\n"
                           "kind=2\n"
                           "via=0000000000000002\n"
                           "kind=2\n"
                           "via=0000000000000001\n"
                           "kind=3\n"
                           "via=0000000000000003\n"
                           "kind=3\n"
                           "via=0000000000000002\n"
                           "kind=3\n";

static uint64_t list[PAVUNESHIL_RULES_NUMBERS];
static uint64_t stages[PAVUNESHIL_STAGES];

static uint64_t kind(int tunnel)
{
    return list[4 + SWITCHES + 2 * tunnel + 1];
}

static int refused(const uint64_t answer[4])
{
    if (answer[0] != PAVUNESHIL_REFUSED)
        return 0;
    printf("refused=%" PRIu64 " place=%" PRIu64 " second=%" PRIu64 "\n", answer[1], answer[2], answer[3]);
    return 1;
}

/* The rules that a switch holds in a stage with its adding done, and with its removing done or not. */
static int held(int at, uint64_t stage, int removed)
{
    int rules = 0;
    int t;

    for (t = 0; t < TUNNELS; t++)
        if ((list[4 + SWITCHES + 2 * t] >> at) & 1)
            rules += kind(t) == KEEP || (kind(t) == ADD && stages[t] <= stage) ||
                     (kind(t) == REMOVE && (stages[t] > stage || (stages[t] == stage && !removed)));
    return rules;
}

static void read_and_print(const char *lines)
{
    uint64_t answer[4];

    pavuneshil_read_rules((const uint8_t *)lines, strlen(lines), list, PAVUNESHIL_RULES_NUMBERS, answer);
    if (!refused(answer))
        printf("%" PRIu64 " lines\n", answer[1]);
}

static void stage_and_print(size_t length)
{
    uint64_t answer[4];
    int t;

    pavuneshil_stage_rules(list, length, stages, PAVUNESHIL_STAGES, answer);
    if (refused(answer))
        return;
    for (t = 0; t < TUNNELS; t++)
        if (kind(t) == KEEP)
            printf("tunnel %d: kept\n", t);
        else
            printf("tunnel %d: %s in stage %" PRIu64 "\n", t, kind(t) == ADD ? "added" : "removed", stages[t]);
}

int main(void)
{
    uint64_t i;

    read_and_print(text);
    stage_and_print(20);
    for (i = 1; i <= 3; i++) {
        printf("stage %" PRIu64 ": switches hold %d and %d", i, held(0, i, 0), held(1, i, 0));
        printf(", then %d and %d\n", held(0, i, 1), held(1, i, 1));
    }

    list[4] = 3; /* room for 3 rules at switch 0, of which 2 may be used: the old set has 3 there */
    stage_and_print(20);
    list[4] = 4;
    list[5] = 5;
    list[19] = ADD; /* room for 5 at switch 1, of which 3 may be used: the new set has 4 there */
    stage_and_print(20);
    list[19] = 4; /* no kind */
    stage_and_print(20);
    stage_and_print(19);                   /* a number too few */
    read_and_print("# no remarks here\n"); /* a line not in its form */
    return 0;
}
