/* One log from consecutive ones: week RESULT LOG LOG..
 * Joins the logs in this sequence, writes the joined log to the file RESULT and prints its report; or prints the refusal in words, behind the name of
 * the log that it is about, and leaves RESULT alone. Where the logs so far are not to be joined with the next one, that is the next one's name.
 * Exit status: 0 joined, 1 refused, 2 no log or no result. */
#include <stdio.h>

#include "input.h"
#include "output.h"
#include "refusal.h"
#include "tool_log.h"

static int refused(const char *name, const uint64_t refusal[3])
{
    printf("%s: ", name);
    print_refusal(refusal);
    return 1;
}

int main(int argc, char **argv)
{
    /* The log so far, and the one that the next is joined to it in. */
    static uint8_t buffers[2][TL_LONGEST_LOG + 1], log[TL_LONGEST_LOG + 1], report[TL_LONGEST_REPORT];
    uint8_t *joined = buffers[0], *other = buffers[1], *last;
    uint64_t length[1], refusal[3];

    if (argc < 4) {
        fprintf(stderr, "usage: week RESULT LOG LOG..\n");
        return 2;
    }
    length[0] = read_file(argv[2], joined, sizeof buffers[0]);
    if (!tl_examine(joined, length[0], TL_LONGEST_REPORT, refusal))
        return refused(argv[2], refusal);
    for (int i = 3; i < argc; i++) {
        const size_t log_len = read_file(argv[i], log, sizeof log);
        if (!tl_join(joined, length[0], log, log_len, other, TL_LONGEST_LOG, length, refusal))
            return refused(argv[i], refusal);
        last = joined;
        joined = other;
        other = last;
    }
    if (!save_file(argv[1], joined, length[0]))
        return 2;
    fwrite(report, 1, tl_report(joined, length[0], report, sizeof report), stdout);
    return 0;
}
