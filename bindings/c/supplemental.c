/* The supplemental figures of a tool: supplemental LOG BENCHMARKS
 * Prints the four of them, or the refusal in words.
 * Exit status: 0 answered, 1 refused, 2 no log or no benchmarks. */
#include <inttypes.h>
#include <stdio.h>

#include "input.h"
#include "refusal.h"
#include "tool_log.h"

static const char *const names[TL_SUPPLEMENTAL] = {"reference", "optimized", "value-added", "total-effective-units"};

int main(int argc, char **argv)
{
    static uint8_t log[TL_LONGEST_LOG + 1], benchmarks[TL_LONGEST_BENCHMARKS + 1];
    size_t log_len, benchmarks_len;
    uint64_t figures[4], refusal[3];

    if (argc != 3) {
        fprintf(stderr, "usage: supplemental LOG BENCHMARKS\n");
        return 2;
    }
    log_len = read_file(argv[1], log, sizeof log);
    benchmarks_len = read_file(argv[2], benchmarks, sizeof benchmarks);
    if (!tl_supplemental(log, log_len, benchmarks, benchmarks_len, figures, refusal)) {
        print_refusal(refusal);
        return 1;
    }
    for (int i = 0; i < TL_SUPPLEMENTAL; i++)
        printf("%s %" PRIu64 ".%04" PRIu64 "\n", names[i], figures[i] / 10000, figures[i] % 10000);
    return 0;
}
