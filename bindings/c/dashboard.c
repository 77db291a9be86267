/* A dashboard's table from a log: dashboard LOG
 * Prints the state times and the figures of each module and of the tool, `-` where a figure has no base; or the refusal in words.
 * Exit status: 0 answered, 1 refused, 2 no log. */
#include <inttypes.h>
#include <stdio.h>

#include "input.h"
#include "refusal.h"
#include "tool_log.h"

#define NAME(state, name) name,
static const char *const states[] = {TL_STATES(NAME)};
static const char *const titles[TL_FIGURES] = {"availability", "operational", "rate", "quality", "OEE", "product"};

static void print_times(const uint64_t times[6])
{
    for (int i = 0; i < TL_TIMES; i++)
        printf(" %16" PRIu64, times[i]);
    printf("\n");
}

static void print_figures(const double figures[6], const uint8_t based[4])
{
    for (int i = 0; i < TL_FIGURES; i++) {
        if (i < TL_BASED && !based[i])
            printf(" %12s", "-");
        else
            printf(" %12.6f", figures[i]);
    }
    printf("\n");
}

static int print_tables(const uint8_t *log, size_t length)
{
    uint64_t times[6], refusal[3];
    double figures[6];
    uint8_t based[4];

    if (!tl_examine(log, length, TL_LONGEST_REPORT, refusal)) {
        print_refusal(refusal);
        return 1;
    }

    printf("state times, ms\nmodule");
    for (int i = 0; i < TL_TIMES; i++)
        printf(" %16s", states[i]);
    printf("\n");
    for (size_t m = 0; tl_module_state_times(log, length, m, times, refusal); m++) {
        printf("%6zu", m);
        print_times(times);
    }
    tl_tool_state_times(log, length, times, refusal);
    printf("%6s", "tool");
    print_times(times);

    printf("\nfigures\nmodule");
    for (int i = 0; i < TL_FIGURES; i++)
        printf(" %12s", titles[i]);
    printf("\n");
    for (size_t m = 0; tl_module_figures(log, length, m, figures, based, refusal); m++) {
        printf("%6zu", m);
        print_figures(figures, based);
    }
    tl_tool_figures(log, length, figures, based, refusal);
    printf("%6s", "tool");
    print_figures(figures, based);
    return 0;
}

int main(int argc, char **argv)
{
    static uint8_t log[TL_LONGEST_LOG + 1];

    if (argc != 2) {
        fprintf(stderr, "usage: dashboard LOG\n");
        return 2;
    }
    return print_tables(log, read_file(argv[1], log, sizeof log));
}
