/*
 * Pavuneshil: even-step update plans for a tunnelled backbone with a printed page of each step, the staging of rule tables,
 * the sharing of a flow among services, and a fair hand-out for eight desks, for C.
 * Link libpavuneshil.a, which `rt lib` makes in crates/pavuneshil. It needs memcpy and memset, and no heap.
 *
 * What holds of every function below is proved of the library's source. None has a precondition on the values: whatever
 * the texts, lists and states hold, and however short the lent output is, the answer says what came of it. What C does
 * not check is left to the caller:
 *   - each pointer points to as many items as the length after it or the bound in its declaration says, or any more,
 *     and is not NULL, also where the length is 0;
 *   - what is written to (out, marks, answer, the parts of a state) overlaps nothing else passed in the same call.
 *
 * A text is bytes. A list has one 64-bit number for each line of the text, in line order. Lengths are in bytes for texts,
 * pages and marks, in numbers for lists. A line of a network or plan text that begins with # is a remark: up to 80 bytes
 * before its line feed, the # among them, at most 32 in a text, anywhere. Lists have none, what is written has none, and a
 * rules text has none.
 *
 * A network's first number, net, is its edition. In edition 1 a flow has two numbers, class and rate; in edition 2 a third,
 * next, the rate that it has after the move. In edition 3, beside that, overrun is followed by unit, 0 or 1, and each cap by
 * held, 0 to cap: what is lent to a repair crew, so that the link has cap - held. With unit 1 the switches change all tunnels
 * of a flow at once, with unit 0 each tunnel for itself. Edition 1 is read as if next equalled rate, and editions 1 and 2 as if
 * unit and held were 0; their lists have no numbers for these.
 *
 * Planner and checker are given a lag, 1 to 4: how many steps the switches may be behind. With lag 1 each has finished a step
 * before the next begins, and a window is a step: the row that it leads from and the one that it leads to. With lag w a window
 * goes from row a to row a + w, or to the last row where that comes sooner; there is one for each a from 0 to steps - w, and one
 * from row 0 where a plan has fewer steps than w. A tunnel, or with unit 1 a flow, may show any row of a window. What passes with
 * a lag passes with every smaller one.
 *
 * The answer is four numbers (the step bound and the desks have other values after PAVUNESHIL_DONE; see there):
 *   { PAVUNESHIL_DONE,    length, 0, 0 }              done; length items of the output were written
 *   { PAVUNESHIL_PLAN,    length, 0, 0 }              a plan; length numbers were written
 *   { PAVUNESHIL_REFUSED, number, place, second }     refused:
 *
 *   number                                      place                        second
 *   1   line not in its form                    line                         0 network, 1 plan, 2 rules
 *   2   value outside its range                 line                         0 network, 1 plan, 2 rules
 *   3   a line is missing, or is too many       first such line              0 network, 1 plan, 2 rules
 *   4   old amounts miss a flow's rate          flow                         0
 *       new amounts miss its next rate          flow                         1
 *   5   plan has another `tunnels`              4                            1
 *   6   a row's sum is not between the rates    row                          flow
 *   7   protected overload                      step                         link
 *   8   overload of all classes                 step                         link
 *   9   no even plan of 1 to 50 steps fits      where the 50-step plan first overloads: step, link
 *   10  lent output too short                   length needed                0
 *   11  the plan has no such step               step                         0
 *   12  no such desk                            desk                         0
 *   13  four jobs of the desk wait already      desk                         0
 *   14  hand-out with nothing waiting           0                            0
 *   18  a set of rules does not fit             switch                       0 old, 1 new
 *   19  lag is not 1 to 4                       lag                          0
 *   21  count of services out of range          0                            0
 *       rate out of range                       0                            1
 *       demand out of range                     first such service           0
 *
 * A longer remark, a 33rd one, or one that the text's end cuts meets 1. In a text, lines count remarks; of a list, a number's
 * position stands for its line. A net other than 1, 2 and 3 meets 2, and so does a held above its cap, on the line of held.
 * A flow without tunnels whose rate or next is not 0 meets 4.
 * A row that a plan lists meets 6 where a flow's amounts add up to less than parts x the lesser of its two rates, or to more
 * than parts x the greater; in edition 1 the two are the same.
 * Lines, steps, stages and services count from 1, rows, links, switches, flows, tunnels and desks from 0. After a refusal
 * everything lent is left as it was, except the marks of a check after 7 and 8. Output beyond the written length is never
 * touched.
 */
#ifndef PAVUNESHIL_H
#define PAVUNESHIL_H

#include <stddef.h>
#include <stdint.h>

#ifdef __cplusplus
extern "C" {
#endif

/*
 * The version of this header. 1, which did not say so, had no lag. A function whose parameters change has another name in the
 * library from then on, so that what was compiled with the header of another version does not link: pavuneshil_make_plan and
 * pavuneshil_check_plan are these two there.
 */
#define PAVUNESHIL_VERSION 2
#define pavuneshil_make_plan pavuneshil_make_plan_at_lag
#define pavuneshil_check_plan pavuneshil_check_plan_at_lag

/* The kinds of answer. */
#define PAVUNESHIL_DONE 0
#define PAVUNESHIL_PLAN 1
#define PAVUNESHIL_REFUSED 2

/* No valid input needs more room than this. */
#define PAVUNESHIL_NETWORK_NUMBERS 615 /* the list of a network */
#define PAVUNESHIL_PLAN_NUMBERS 4708   /* the list of a plan */
#define PAVUNESHIL_RULES_NUMBERS 260   /* the list of rule tables */
#define PAVUNESHIL_TEXT_BYTES 65536    /* any text, with its remarks */
#define PAVUNESHIL_RULES_BYTES 3433    /* a rules text */
#define PAVUNESHIL_MARKS 96            /* the marks of a check */
#define PAVUNESHIL_PAGE_BYTES 6966     /* the page of a step */
#define PAVUNESHIL_STAGES 96           /* the stages of the tunnels */
#define PAVUNESHIL_SERVICES 16         /* the shares of a flow */

/*
 * Reads a network text. Done: out begins with the network's list, which has the number of each line that is no remark.
 * Refused: the first of 1, 2 and 3 that a line meets, line after line (3, then 1, then 2); then 4; then 10.
 */
void pavuneshil_read_network(const uint8_t *text, size_t text_len, uint64_t *out, size_t out_len, uint64_t answer[4]);

/*
 * Reads a plan text. Done: out begins with the plan's list, which has the number of each line that is no remark.
 * Refused: the first of 1, 2 and 3 that a line meets, line after line (3, then 1, then 2); then 10.
 */
void pavuneshil_read_plan(const uint8_t *text, size_t text_len, uint64_t *out, size_t out_len, uint64_t answer[4]);

/*
 * Writes a network's text. Done: out begins with the text of the list, which pavuneshil_read_network reads back.
 * Refused: 2, 3 and 4 as in reading, a number's position standing for its line; then 10.
 */
void pavuneshil_write_network(const uint64_t *list, size_t list_len, uint8_t *out, size_t out_len, uint64_t answer[4]);

/*
 * Writes a plan's text. Done: out begins with the text of the list, which pavuneshil_read_plan reads back.
 * Refused: 2 and 3 as in reading, a number's position standing for its line; then 10.
 */
void pavuneshil_write_plan(const uint64_t *list, size_t list_len, uint8_t *out, size_t out_len, uint64_t answer[4]);

/*
 * Plans. A plan: out begins with the list of the even plan of fewest steps, 1 to 50, in which no link is overloaded,
 * whichever row of a window each tunnel, or with unit 1 each flow, shows. A network that keeps its scratch with overrun 0
 * gets one, given the room, of at most ceil(lag x (1000 - scratch) / scratch) steps, if that is 50 or less: with lag 1 as
 * many as pavuneshil_step_bound says. With overrun it gets one of at most the larger of that and ceil(1000 x lag / overrun),
 * if that is 50 or less.
 * Refused: 19; 2, 3 and 4 of the network's list; then 9, the first overload of the 50-step plan with this lag; then 10.
 */
void pavuneshil_make_plan(uint64_t lag, const uint64_t *network, size_t network_len, uint64_t *out, size_t out_len,
                          uint64_t answer[4]);

/*
 * Checks anybody's plan, given as lists. Done: no link is overloaded, whichever row of a window each tunnel, or with unit 1
 * each flow, shows; marks begins with a 0 for each tunnel.
 * Refused: 19; 2, 3 and 4 of the network; 2 and 3 of the plan; 5; 6, the lowest row, then flow; 10, if marks has fewer
 * bytes than there are tunnels; then 7 or 8, the first overload by step, then link, 7 before 8. The step of an overload in
 * the window from row a is a + 1. After 7 and 8 marks begins with a byte for each tunnel, 1 exactly if it crosses the named
 * link and the largest of its amounts in the window exceeds that of row a, or with unit 1 the largest sum of its flow's
 * amounts across that link, else 0: where each marked tunnel, or with unit 1 the flow of each, shows a row in which it has
 * the largest, and all others show row a, the named link is overloaded.
 */
void pavuneshil_check_plan(uint64_t lag, const uint64_t *network, size_t network_len, const uint64_t *plan,
                           size_t plan_len, uint8_t *marks, size_t marks_len, uint64_t answer[4]);

/*
 * Lays out the page of one step of an accepted plan, given as lists, for a change board that reads paper. The lag is 1.
 * Done: out begins with the page, 43 x (2 + links + tunnels) bytes. Each line has 42 characters, in columns of 6, 6, 10, 10
 * and 10, in which words and numbers stand at the right, and a line feed; there is no empty line:
 *   - a heading, "step link cap protected all", and for each link the step, the link, parts x its capacity, and the most
 *     that interactive and elastic traffic can come to on it in the step, and all traffic. On a link the larger of a
 *     tunnel's two amounts counts, or with unit 1 the larger of a flow's two sums. These three are counted in parts; in
 *     edition 3 the capacity is cap - held;
 *   - a heading, "tunnel flow hops old new", and for each tunnel the tunnel, its flow, how many links it crosses, and its
 *     old and its new as the network has them, not counted in parts.
 * Refused: 2 to 8 as from pavuneshil_check_plan with lag 1, of the whole plan; no marks are lent, so that 7 and 8 leave
 * everything as it was too; then 11, where step is not 1 to the plan's steps; then 10.
 */
void pavuneshil_page(const uint64_t *network, size_t network_len, const uint64_t *plan, size_t plan_len, uint64_t step,
                     uint8_t *out, size_t out_len, uint64_t answer[4]);

/*
 * The step bound. { PAVUNESHIL_DONE, steps, 0, 0 }: a network with this scratch and overrun, both in thousandths, that
 * keeps its scratch needs at most so many even steps, with lag 1.
 * Refused: 2 at place 2 where scratch is not 20 to 500; 2 at place 3 where overrun is neither 0 nor 20 to 500.
 */
void pavuneshil_step_bound(uint64_t scratch, uint64_t overrun, uint64_t answer[4]);

/*
 * Shares a flow: divides its rate among 1 to 16 services. The rate and each service's demand are 0 to 10,000,000. Done:
 * out begins with a share for each service. If the demands add up to at most the rate, each is met. Else the shares add
 * up to the rate: each service gets the lesser of its demand and t, the largest level at which these add up to at most
 * the rate, and the units left go one each to the first services whose demand is above t. So nobody gets more than its
 * demand, nobody short of its demand has over one unit less than another, and none less than one after it.
 * Refused: 21 for the count, then for the rate, then for the first demand out of range; then 10.
 */
void pavuneshil_share(uint64_t rate, const uint64_t *demands, size_t demands_len, uint64_t *out, size_t out_len,
                      uint64_t answer[4]);

/*
 * Reads a rules text: for each switch the rules that it has room for, for each tunnel the switches that it crosses and
 * whether its rules are kept, added or removed. Done: out begins with the text's list, which has the number of each line.
 * There are no remarks: a line that begins with # is not in its form.
 * Refused: the first of 1, 2 and 3 that a line meets, line after line (3, then 1, then 2); then 10.
 */
void pavuneshil_read_rules(const uint8_t *text, size_t text_len, uint64_t *out, size_t out_len, uint64_t answer[4]);

/*
 * Writes a rules text. Done: out begins with the text of the list, which pavuneshil_read_rules reads back.
 * Refused: 2 and 3 as in reading, a number's position standing for its line; then 10.
 */
void pavuneshil_write_rules(const uint64_t *list, size_t list_len, uint8_t *out, size_t out_len, uint64_t answer[4]);

/*
 * Stages the rule tables: tells for each tunnel in which stage its rules go in or out. A tunnel has one rule at every
 * switch that it crosses; the old set is the tunnels kept and removed, the new set those kept and added. Done: out begins
 * with a number for each tunnel, 0 for one that is kept, else its stage, of 1 to ceil(1000 / slack) - 1. In a stage, those
 * to add go in, then those to remove go out. No switch ever holds more rules than its room, whichever of a stage's tunnels
 * have gone and whichever have not; after each stage slack thousandths of every room are free; after the last the switches
 * hold the new set. Wherever both sets leave slack free, stages are given.
 * Refused: 2 and 3 of the list; then 18, where a set's rules at a switch are more than (1000 - slack) x room / 1000, the
 * lowest switch, then the old set before the new one; then 10.
 */
void pavuneshil_stage_rules(const uint64_t *list, size_t list_len, uint64_t *out, size_t out_len, uint64_t answer[4]);

/*
 * A fair hand-out: desks 0 to 7 submit jobs, each with a tag of the caller's choice, and a hand-out takes one of them,
 * the desks in turn. Over any calls from the empty state:
 *   - a desk's jobs are handed out in the order of submission, none twice, and none that was not accepted;
 *   - if nobody submits after it, exactly as many jobs are handed out before a job as its submission was answered;
 *   - whoever submits, at most 8 p + 7 are, where p jobs of its desk are older: at most seven once it is the oldest;
 *   - every job has been handed out once 32 hand-outs have been called after it was accepted;
 *   - a desk's job numbers say nothing of the other desks: its n-th accepted submission, counted from 0, has number
 *     n % 4,294,967,295 + 1, so that of the jobs waiting no two share both desk and number.
 *
 * The state is six parts, and every value of them is a state. A desk has a ring of four places: the job of desk d
 * before which i others of that desk wait is at place 4 * d + (oldest[d] + i) % 4 of numbers and of tags.
 */
typedef struct pavuneshil_desks {
    uint32_t numbers[32]; /* the jobs' numbers */
    uint32_t tags[32];    /* the jobs' tags */
    uint8_t oldest[8];    /* where in its ring a desk's oldest job is; taken modulo 4 */
    uint8_t waiting[8];   /* how many jobs of a desk wait; more than 4 is taken as 4 */
    uint32_t counters[8]; /* the job number that a desk was given last, at first 0 */
    uint8_t last;         /* the desk served last, at first 7; taken modulo 8 */
} pavuneshil_desks;

/*
 * The library's functions take the parts one by one. Those on a pavuneshil_desks, further below, only pass its parts on;
 * they are C, and not proved.
 */

/*
 * Makes the state empty: nothing waits, the round begins at desk 0, and each desk's job numbers at 1.
 */
void pavuneshil_none_waiting(uint32_t numbers[32], uint32_t tags[32], uint8_t oldest[8], uint8_t waiting[8],
                             uint32_t counters[8], uint8_t *last);

/*
 * A desk submits a job. { PAVUNESHIL_DONE, number, before, 0 }: it waits behind the desk's other jobs, and has the
 * desk's next job number, which returns to 1 after 4,294,967,295; so many jobs are handed out before it if nobody
 * submits again.
 * Refused: 12 where desk is not 0 to 7; then 13.
 */
void pavuneshil_submit(uint32_t numbers[32], uint32_t tags[32], uint8_t oldest[8], uint8_t waiting[8],
                       uint32_t counters[8], uint8_t *last, uint64_t desk, uint32_t tag, uint64_t answer[4]);

/*
 * Hands out a job. { PAVUNESHIL_DONE, desk, number, tag }: the oldest job of the first desk with work, going round from
 * the desk after the one served last. It waits no longer, and its desk is now the one served last.
 * Refused: 14.
 */
void pavuneshil_hand_out(uint32_t numbers[32], uint32_t tags[32], uint8_t oldest[8], uint8_t waiting[8],
                         uint32_t counters[8], uint8_t *last, uint64_t answer[4]);

/* Makes the state empty: see pavuneshil_none_waiting. */
static inline void pavuneshil_desks_empty(pavuneshil_desks *desks)
{
    pavuneshil_none_waiting(desks->numbers, desks->tags, desks->oldest, desks->waiting, desks->counters, &desks->last);
}

/* A desk submits a job: see pavuneshil_submit. */
static inline void pavuneshil_desks_submit(pavuneshil_desks *desks, uint64_t desk, uint32_t tag, uint64_t answer[4])
{
    pavuneshil_submit(desks->numbers, desks->tags, desks->oldest, desks->waiting, desks->counters, &desks->last, desk,
                      tag, answer);
}

/* Hands out a job: see pavuneshil_hand_out. */
static inline void pavuneshil_desks_hand_out(pavuneshil_desks *desks, uint64_t answer[4])
{
    pavuneshil_hand_out(desks->numbers, desks->tags, desks->oldest, desks->waiting, desks->counters, &desks->last,
                        answer);
}

#ifdef __cplusplus
}
#endif

#endif
