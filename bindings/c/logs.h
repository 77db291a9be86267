/* Logs for the test and the samples, written through the library's calls. */
#ifndef LOGS_H
#define LOGS_H

#include <stddef.h>
#include <stdint.h>

struct written {
    uint8_t bytes[256];
    size_t length;
};

/* States are module, code, time; standards module, recipe, start, theoretical time; units module, recipe, time, actual, effective. */
struct records {
    uint64_t period, modules;
    size_t states, standards, units;
    uint64_t state[12][3], standard[8][4], unit[8][5];
};

struct written write_records(const struct records *records);

/* Three modules and a week, SEMI E79 R1-2. `late` is the time of its last unit record: 3,600,000, unless it is to be refused. */
struct written write_case_w(uint64_t late);

/* One module, four recipes and a week, SEMI E79 R1-3. */
struct written write_r1_3(void);

/* Ten productive milliseconds of two modules with these standards: module, recipe, start, theoretical time. At time 5 each module reports two units
 * of recipe 4, one of them effective. */
struct written write_two_modules(const uint64_t standards[][4], size_t count);

/* A hundred seconds of two modules with revisions: two that judge no unit, one of them from the last ms on, a unit 1 ms ahead of a start and one at
 * it, one recipe at both modules, and actual units that are not the effective ones. */
struct written write_revisions(void);

/* One or two modules whose period splits, in ms, into the numerators of their losses and OEE: availability, operational, rate, quality, OEE. Each
 * module's five make the period. */
struct written write_parts(const uint64_t parts[][5], size_t modules);

/* One module that was not scheduled all day: no uptime, so operational, rate and quality have no base. */
struct written write_idle(void);

#endif
