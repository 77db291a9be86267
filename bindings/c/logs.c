#include "logs.h"

#include <stdio.h>
#include <stdlib.h>

#include "tool_log.h"

/* Ends the program unless every record was added. Whether the log is accepted is not asked: some are to be refused. */
static struct written all_added(struct written log, uint32_t added, uint64_t length)
{
    if (!added) {
        fprintf(stderr, "logs.c: a record was not added\n");
        exit(1);
    }
    log.length = length;
    return log;
}

struct written write_records(const struct records *r)
{
    struct written log = {{0}, 0};
    uint64_t at[1] = {0}, refusal[3];
    uint32_t added;

    added = tl_put_header(log.bytes, sizeof log.bytes, at[0], r->period, r->modules, r->states, r->standards, r->units, at, refusal);
    for (size_t i = 0; i < r->states; i++) {
        const uint64_t *v = r->state[i];
        added &= tl_put_state(log.bytes, sizeof log.bytes, at[0], v[0], v[1], v[2], at, refusal);
    }
    for (size_t i = 0; i < r->standards; i++) {
        const uint64_t *v = r->standard[i];
        added &= tl_put_standard(log.bytes, sizeof log.bytes, at[0], v[0], v[1], v[2], v[3], at, refusal);
    }
    for (size_t i = 0; i < r->units; i++) {
        const uint64_t *v = r->unit[i];
        added &= tl_put_unit(log.bytes, sizeof log.bytes, at[0], v[0], v[1], v[2], v[3], v[4], at, refusal);
    }
    return all_added(log, added, at[0]);
}

struct written write_case_w(uint64_t late)
{
    static const uint64_t states[8][3] = {
        {0, 0, 0}, {1, 0, 0}, {2, 0, 0}, {2, 7, 288000000}, {1, 7, 532800000}, {0, 7, 540000000}, {1, 18, 568800000}, {0, 18, 586800000},
    };
    const uint64_t units[3][4] = {{0, 3600000, 280, 261}, {1, 3600000, 290, 278}, {2, late, 150, 150}};
    struct written log = {{0}, 0};
    uint64_t at[1] = {0}, refusal[3];
    uint32_t added;

    added = tl_put_header(log.bytes, sizeof log.bytes, at[0], 604800000, 3, 8, 3, 3, at, refusal);
    for (int i = 0; i < 8; i++)
        added &= tl_put_state(log.bytes, sizeof log.bytes, at[0], states[i][0], states[i][1], states[i][2], at, refusal);
    for (uint64_t m = 0; m < 3; m++)
        added &= tl_put_standard(log.bytes, sizeof log.bytes, at[0], m, 0, 0, 1800000, at, refusal);
    for (int i = 0; i < 3; i++)
        added &= tl_put_unit(log.bytes, sizeof log.bytes, at[0], units[i][0], 0, units[i][1], units[i][2], units[i][3], at, refusal);
    return all_added(log, added, at[0]);
}

struct written write_r1_3(void)
{
    static const uint64_t theoretical[4] = {119988, 144000, 180000, 240012};
    static const uint64_t units[4][3] = {{187200000, 1500, 1500}, {280800000, 600, 600}, {432000000, 800, 800}, {554400000, 500, 480}};
    struct written log = {{0}, 0};
    uint64_t at[1] = {0}, refusal[3];
    uint32_t added;

    added = tl_put_header(log.bytes, sizeof log.bytes, at[0], 604800000, 1, 2, 4, 4, at, refusal);
    added &= tl_put_state(log.bytes, sizeof log.bytes, at[0], 0, 0, 0, at, refusal);
    added &= tl_put_state(log.bytes, sizeof log.bytes, at[0], 0, 7, 558000000, at, refusal);
    for (uint64_t i = 0; i < 4; i++)
        added &= tl_put_standard(log.bytes, sizeof log.bytes, at[0], 0, i, 0, theoretical[i], at, refusal);
    for (uint64_t i = 0; i < 4; i++)
        added &= tl_put_unit(log.bytes, sizeof log.bytes, at[0], 0, i, units[i][0], units[i][1], units[i][2], at, refusal);
    return all_added(log, added, at[0]);
}

struct written write_two_modules(const uint64_t standards[][4], size_t count)
{
    struct written log = {{0}, 0};
    uint64_t at[1] = {0}, refusal[3];
    uint32_t added;

    added = tl_put_header(log.bytes, sizeof log.bytes, at[0], 10, 2, 2, count, 2, at, refusal);
    for (uint64_t m = 0; m < 2; m++)
        added &= tl_put_state(log.bytes, sizeof log.bytes, at[0], m, 0, 0, at, refusal);
    for (size_t i = 0; i < count; i++)
        added &= tl_put_standard(log.bytes, sizeof log.bytes, at[0], standards[i][0], standards[i][1], standards[i][2], standards[i][3], at, refusal);
    for (uint64_t m = 0; m < 2; m++)
        added &= tl_put_unit(log.bytes, sizeof log.bytes, at[0], m, 4, 5, 2, 1, at, refusal);
    return all_added(log, added, at[0]);
}

struct written write_revisions(void)
{
    static const uint64_t standards[8][4] = {
        {0, 3, 0, 5},    {0, 3, 4000, 4}, {0, 3, 6000, 134217727}, {0, 3, 8000, 2},
        {0, 7, 2000, 2}, {1, 3, 4000, 6}, {1, 1023, 9999, 1},      {1, 1023, 99999, 3},
    };
    static const uint64_t units[10][5] = {
        {0, 3, 0, 10, 9},      {0, 3, 3999, 20, 15}, {0, 3, 4000, 30, 1}, {1, 3, 4000, 5, 5},        {0, 3, 5999, 40, 0},
        {0, 3, 8000, 100, 99}, {0, 7, 9998, 7, 0},   {0, 3, 9999, 1, 1},  {1, 1023, 9999, 65535, 0}, {1, 1023, 49999, 34435, 34435},
    };
    struct written log = {{0}, 0};
    uint64_t at[1] = {0}, refusal[3];
    uint32_t added;

    added = tl_put_header(log.bytes, sizeof log.bytes, at[0], 100000, 2, 2, 8, 10, at, refusal);
    for (uint64_t m = 0; m < 2; m++)
        added &= tl_put_state(log.bytes, sizeof log.bytes, at[0], m, 0, 0, at, refusal);
    for (int i = 0; i < 8; i++)
        added &= tl_put_standard(log.bytes, sizeof log.bytes, at[0], standards[i][0], standards[i][1], standards[i][2], standards[i][3], at, refusal);
    for (int i = 0; i < 10; i++)
        added &= tl_put_unit(log.bytes, sizeof log.bytes, at[0], units[i][0], units[i][1], units[i][2], units[i][3], units[i][4], at, refusal);
    return all_added(log, added, at[0]);
}

/* The state of a module at a time: productive, then standby, then under repair. */
static uint64_t code_at(const uint64_t parts[5], uint64_t time)
{
    if (time < parts[2] + parts[3] + parts[4])
        return 0;
    return time < parts[1] + parts[2] + parts[3] + parts[4] ? 7 : 18;
}

struct written write_parts(const uint64_t parts[][5], size_t modules)
{
    struct written log = {{0}, 0};
    uint64_t period = 0, at[1] = {10}, states = 0, refusal[3];
    uint32_t added = 1;

    for (int i = 0; i < 5; i++)
        period += parts[0][i];
    for (uint64_t t = 0; t < period; t++) {
        for (size_t m = 0; m < modules; m++) {
            if (t == 0 || code_at(parts[m], t) != code_at(parts[m], t - 1)) {
                added &= tl_put_state(log.bytes, sizeof log.bytes, at[0], m, code_at(parts[m], t), t, at, refusal);
                states++;
            }
        }
    }
    for (size_t m = 0; m < modules; m++)
        added &= tl_put_standard(log.bytes, sizeof log.bytes, at[0], m, 0, 0, 1, at, refusal);
    for (size_t m = 0; m < modules; m++)
        added &= tl_put_unit(log.bytes, sizeof log.bytes, at[0], m, 0, 0, parts[m][3] + parts[m][4], parts[m][4], at, refusal);
    log.length = at[0];
    added &= tl_put_header(log.bytes, sizeof log.bytes, 0, period, modules, states, modules, modules, at, refusal);
    return all_added(log, added, log.length);
}

struct written write_idle(void)
{
    struct written log = {{0}, 0};
    uint64_t at[1] = {0}, refusal[3];
    uint32_t added;

    added = tl_put_header(log.bytes, sizeof log.bytes, at[0], 86400000, 1, 1, 0, 0, at, refusal);
    added &= tl_put_state(log.bytes, sizeof log.bytes, at[0], 0, 22, 0, at, refusal);
    return all_added(log, added, at[0]);
}
