/* A log without the records that say nothing new: pack LOG RESULT
 * Writes the packed log to the file RESULT, which may be LOG, and prints its length and what was dropped; or prints the refusal in words and leaves
 * RESULT alone. Exit status: 0 packed, 1 refused, 2 no log or no result. */
#include <stdio.h>

#include "input.h"
#include "output.h"
#include "refusal.h"
#include "tool_log.h"

/* How many state records and standards the header counts, in the 14 bits from bit 42 on and in the 11 behind them. */
static unsigned states_of(const uint8_t *log)
{
    return (log[5] & 0x3fu) << 8 | log[6];
}

static unsigned standards_of(const uint8_t *log)
{
    return (unsigned)log[7] << 3 | log[8] >> 5;
}

int main(int argc, char **argv)
{
    static uint8_t log[TL_LONGEST_LOG + 1];
    uint64_t length[1], refusal[3];
    size_t log_len;
    unsigned states, standards;

    if (argc != 3) {
        fprintf(stderr, "usage: pack LOG RESULT\n");
        return 2;
    }
    log_len = read_file(argv[1], log, sizeof log);
    states = states_of(log);
    standards = standards_of(log);
    if (!tl_pack(log, log_len, length, refusal)) {
        print_refusal(refusal);
        return 1;
    }
    if (!save_file(argv[2], log, length[0]))
        return 2;
    printf("bytes before %zu\n", log_len);
    printf("bytes after %zu\n", (size_t)length[0]);
    printf("states dropped %u\n", states - states_of(log));
    printf("standards dropped %u\n", standards - standards_of(log));
    return 0;
}
