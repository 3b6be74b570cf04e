/*
 * Prints the page of one step of a plan, for the change board.
 *
 *     page NETWORK_FILE PLAN_FILE STEP
 *
 * reads both texts and prints the page; status 0. After a refusal it prints the three lines of the refusal instead; status 1.
 * What is wrong with the arguments, with a file or with standard output is said on the error stream; status 2.
 *
 *     tools/library
 *     cc -Iinclude examples/c/page.c target/staticlib/libpavuneshil.a -o page
 *     ./page samples/swap/network.txt samples/swap/plan.txt 1
 */
#include "pavuneshil.h"

#include <errno.h>
#include <inttypes.h>
#include <stdio.h>
#include <stdlib.h>
#include <string.h>

enum { PRINTED = 0, REFUSED = 1, TROUBLE = 2 };

static uint8_t text[PAVUNESHIL_TEXT_BYTES];
static uint64_t network[PAVUNESHIL_NETWORK_NUMBERS];
static uint64_t plan[PAVUNESHIL_PLAN_NUMBERS];
static uint8_t page[PAVUNESHIL_PAGE_BYTES];

/* Ends the program, with trouble where not everything could be written. */
static void end(int status)
{
    if (ferror(stdout) || fclose(stdout) != 0) {
        fprintf(stderr, "page: the answer could not be written\n");
        status = TROUBLE;
    }
    exit(status);
}

/* The length that was written, where the answer is no refusal. */
static size_t done(const uint64_t answer[4])
{
    if (answer[0] == PAVUNESHIL_REFUSED) {
        printf("refused=%" PRIu64 "\nplace=%" PRIu64 "\nsecond=%" PRIu64 "\n", answer[1], answer[2], answer[3]);
        end(REFUSED);
    }
    return answer[1];
}

/* Reads a file into text, as far as that has room: no valid text is longer, and one that is cut there is refused. */
static size_t read_file(const char *name)
{
    FILE *file = fopen(name, "rb");
    size_t length = file == NULL ? 0 : fread(text, 1, sizeof text, file);

    if (file == NULL || ferror(file)) {
        fprintf(stderr, "page: %s: %s\n", name, strerror(errno));
        exit(TROUBLE);
    }
    fclose(file);
    return length;
}

/* A number of up to 64 bits from its digits, and nothing beside them. */
static int read_number(const char *word, uint64_t *number)
{
    unsigned long long value;

    if (word[0] == '\0' || strspn(word, "0123456789") != strlen(word))
        return 0;
    errno = 0;
    value = strtoull(word, NULL, 10);
    *number = value;
    return errno == 0 && value <= UINT64_MAX;
}

int main(int count, char **words)
{
    uint64_t step, answer[4];
    size_t length, network_len, plan_len;

    if (count != 4 || !read_number(words[3], &step)) {
        fprintf(stderr, "usage: page NETWORK_FILE PLAN_FILE STEP\n");
        return TROUBLE;
    }

    length = read_file(words[1]);
    pavuneshil_read_network(text, length, network, PAVUNESHIL_NETWORK_NUMBERS, answer);
    network_len = done(answer);

    length = read_file(words[2]);
    pavuneshil_read_plan(text, length, plan, PAVUNESHIL_PLAN_NUMBERS, answer);
    plan_len = done(answer);

    pavuneshil_page(network, network_len, plan, plan_len, step, page, PAVUNESHIL_PAGE_BYTES, answer);
    fwrite(page, 1, done(answer), stdout);
    end(PRINTED);
}
