#include "refusal.h"

#include <inttypes.h>
#include <stdio.h>

#include "tool_log.h"

struct row {
    uint64_t number;
    const char *word;
    const char *ground;
};

/* The last row is that of every other number. */
#define ROW(number, word, ground) {number, word, ground},
static const struct row rows[] = {TL_REFUSALS(ROW) {0, "unknown", "a number that this header does not have"}};

struct list {
    uint64_t list;
    const char *name;
};

#define NAME(list, name) {list, name},
static const struct list lists[] = {TL_LISTS(NAME)};

enum { BENCHMARKS = 4, SECOND = 10 };

static const char *name_of(uint64_t list)
{
    for (size_t i = 0; i < sizeof lists / sizeof *lists; i++) {
        if (lists[i].list == list)
            return lists[i].name;
    }
    return "unknown";
}

static void print_whereabouts(const uint64_t refusal[3])
{
    const uint64_t number = refusal[TL_NUMBER], list = refusal[TL_LIST], place = refusal[TL_PLACE];

    if (list == BENCHMARKS && number == TL_BAD_LENGTH)
        printf("(the benchmarks)");
    else if (list == BENCHMARKS)
        printf("(benchmark %" PRIu64 ")", place);
    else if (list == SECOND && (number == TL_NO_OPENING || number == TL_TOO_FAST))
        printf("(module %" PRIu64 " of the %s)", place, name_of(list));
    else if (list == SECOND)
        printf("(the %s)", name_of(list));
    else if (list > SECOND)
        printf("(record %" PRIu64 " of the %s)", place, name_of(list));
    else
        printf("(list %s, place %" PRIu64 ")", name_of(list), place);
}

void print_refusal(const uint64_t refusal[3])
{
    const struct row *r = rows;
    while (r->number && r->number != refusal[TL_NUMBER])
        r++;
    printf("refused: %" PRIu64 " %s: %s ", refusal[TL_NUMBER], r->word, r->ground);
    print_whereabouts(refusal);
    printf("\n");
}
