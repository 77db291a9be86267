/* A shift's log, written as a controller does: writer LOG [PERIOD]
 * Writes the log to the file LOG and prints its report, or prints the refusal in words and leaves the file alone. PERIOD is another length of the
 * shift than 8 hours, in ms.
 * Exit status: 0 written, 1 refused, 2 no file. */
#include <stdio.h>
#include <stdlib.h>

#include "refusal.h"
#include "tool_log.h"

#define MINUTE UINT64_C(60000)
#define HOUR (60 * MINUTE)
#define COUNT(records) (sizeof(records) / sizeof *(records))

/* Sub-state codes. */
enum { REGULAR = 0, NO_PRODUCT = 7, PREVENTIVE = 15, REPAIR = 18 };

/* Module 0 is up for 7 hours of 8 and productive for 3 h + 2 h 36 min; module 1 is up for 5 hours and productive for 4. */
static const struct {
    uint64_t module, code, time;
} states[] = {
    {0, REGULAR, 0},
    {1, NO_PRODUCT, 0},
    {1, REGULAR, 1 * HOUR},
    {0, PREVENTIVE, 3 * HOUR},
    {0, REGULAR, 4 * HOUR},
    {1, REPAIR, 5 * HOUR},
    {0, NO_PRODUCT, 6 * HOUR + 36 * MINUTE},
};

/* Recipe 3 takes 2 minutes at module 0, from hour 4 on 1.5; at module 1 it takes 3. */
static const struct {
    uint64_t module, recipe, start, theoretical;
} standards[] = {
    {0, 3, 0, 2 * MINUTE},
    {0, 3, 4 * HOUR, 3 * MINUTE / 2},
    {1, 3, 0, 3 * MINUTE},
};

/*
 * In minutes: module 0 is credited with 90 x 2 + 90 x 1.5 = 315 for actual and 81 x 2 + 81 x 1.5 = 283.5 for effective units, module 1 with
 * 63 x 3 = 189 for both. So the report has to say
 *   of module 0   420 / 480 = 0.875    336 / 420 = 0.8   315 / 336 = 0.9375   283.5 / 315 = 0.9      283.5 / 480 = 0.590625
 *   of module 1   300 / 480 = 0.625    240 / 300 = 0.8   189 / 240 = 0.7875     189 / 189 = 1          189 / 480 = 0.39375
 *   of the tool   720 / 960 = 0.75     576 / 720 = 0.8   504 / 576 = 0.875    472.5 / 504 = 0.9375   472.5 / 960 = 0.4921875
 */
static const struct {
    uint64_t module, recipe, time, actual, effective;
} units[] = {
    {0, 3, 3 * HOUR, 90, 81},
    {1, 3, 5 * HOUR, 63, 63},
    {0, 3, 6 * HOUR + 36 * MINUTE, 90, 81},
};

/* Writes the log to the front of the buffer. `at` becomes its length. */
static uint32_t write_log(uint8_t *buf, size_t buf_len, uint64_t period, uint64_t at[1], uint64_t refusal[3])
{
    at[0] = 0;
    if (!tl_put_header(buf, buf_len, at[0], period, 2, COUNT(states), COUNT(standards), COUNT(units), at, refusal))
        return 0;
    for (size_t i = 0; i < COUNT(states); i++) {
        if (!tl_put_state(buf, buf_len, at[0], states[i].module, states[i].code, states[i].time, at, refusal))
            return 0;
    }
    for (size_t i = 0; i < COUNT(standards); i++) {
        if (!tl_put_standard(buf, buf_len, at[0], standards[i].module, standards[i].recipe, standards[i].start, standards[i].theoretical, at,
                             refusal))
            return 0;
    }
    for (size_t i = 0; i < COUNT(units); i++) {
        if (!tl_put_unit(buf, buf_len, at[0], units[i].module, units[i].recipe, units[i].time, units[i].actual, units[i].effective, at, refusal))
            return 0;
    }
    return tl_finish_log(buf, buf_len, at[0], refusal);
}

int main(int argc, char **argv)
{
    static uint8_t log[TL_LONGEST_LOG], report[TL_LONGEST_REPORT];
    uint64_t period = 8 * HOUR, length[1], refusal[3];
    FILE *f;
    int good;

    if (argc != 2 && argc != 3) {
        fprintf(stderr, "usage: writer LOG [PERIOD]\n");
        return 2;
    }
    if (argc == 3)
        period = strtoull(argv[2], NULL, 10);
    if (!write_log(log, sizeof log, period, length, refusal)) {
        print_refusal(refusal);
        return 1;
    }
    f = fopen(argv[1], "wb");
    if (!f) {
        perror(argv[1]);
        return 2;
    }
    good = fwrite(log, 1, length[0], f) == length[0];
    if (fclose(f) != 0 || !good) {
        fprintf(stderr, "%s: not written\n", argv[1]);
        return 2;
    }
    fwrite(report, 1, tl_report(log, length[0], report, sizeof report), stdout);
    return 0;
}
