/* Which revision of a standard the units were judged by: revisions LOG
 * Prints the module, recipe, start and theoretical time of each standard and the actual units credited to it, and how many these are together; or the
 * refusal in words.
 * Exit status: 0 answered, 1 refused, 2 no log. */
#include <inttypes.h>
#include <stdio.h>

#include "input.h"
#include "refusal.h"
#include "tool_log.h"

enum { RECIPES = 1024 };

/* The start of a standard of this module and recipe: up to `last`, the first time at which it, or one behind it, is in force. */
static uint64_t start_of(uint64_t index, const uint8_t *log, size_t length, size_t module, size_t recipe, uint64_t last)
{
    uint64_t first = 0, standard[2], refusal[3];

    while (first < last) {
        const uint64_t middle = (first + last) / 2;
        if (tl_standard_in_force(log, length, module, recipe, middle, standard, refusal) == 1 && standard[TL_INDEX] >= index)
            last = middle;
        else
            first = middle + 1;
    }
    return first;
}

/* The list rises by module, recipe and start, so that each recipe's standards stand behind those of the one before, up to its newest. */
static int print_table(const uint8_t *log, size_t length)
{
    uint64_t units[TL_MOST_STANDARDS], quantities[5], newest[2], standard[2], refusal[3], index = 0, total = 0;

    if (!tl_credited_units(log, length, units, refusal)) {
        print_refusal(refusal);
        return 1;
    }
    printf("standard module recipe    start, ms   ms a unit     units\n");
    for (size_t m = 0; tl_module_quantities(log, length, m, quantities, refusal); m++) {
        const uint64_t last = quantities[TL_TOTAL] - 1;
        for (size_t recipe = 0; recipe < RECIPES; recipe++) {
            if (tl_standard_in_force(log, length, m, recipe, last, newest, refusal) != 1)
                continue;
            for (; index <= newest[TL_INDEX]; index++) {
                const uint64_t start = start_of(index, log, length, m, recipe, last);
                tl_standard_in_force(log, length, m, recipe, start, standard, refusal);
                printf("%8" PRIu64 " %6zu %6zu %12" PRIu64 " %11" PRIu64 " %9" PRIu64 "\n", index, m, recipe, start, standard[TL_THEORETICAL],
                       units[index]);
                total += units[index];
            }
        }
    }
    printf("%8s %48" PRIu64 "\n", "total", total);
    return 0;
}

int main(int argc, char **argv)
{
    static uint8_t log[TL_LONGEST_LOG + 1];

    if (argc != 2) {
        fprintf(stderr, "usage: revisions LOG\n");
        return 2;
    }
    return print_table(log, read_file(argv[1], log, sizeof log));
}
