/* Tests every function of tool_log.h: the reading ones on case W, a log with no uptime, standards of two modules, and bytes that are refused; the
 * losses on shares with equal remainders too; credited units and the standard in force on revisions; the supplemental figures on R1-3 and on
 * benchmarks with every fault; the writing ones on every width, on every position that matters, and on bytes worked out by hand; joining on two days
 * whose joined records are given, on logs at each bound and past it, and on every log that is refused here; packing on a shift whose packed records are
 * given, on each bit that tells two records apart, on the longest logs, on random ones, and on every log that is refused here. */
#include <inttypes.h>
#include <math.h>
#include <stdio.h>
#include <stdlib.h>
#include <string.h>

#include "logs.h"
#include "tool_log.h"

static unsigned checks, failures;

#define CHECK(fact) check(fact, #fact, __LINE__)

static void check(int fact, const char *text, int line)
{
    checks++;
    if (!fact) {
        failures++;
        printf("test.c:%d: not so: %s\n", line, text);
    }
}

static const char report[] = "module avail oper rate qual oee\n"
                             "0 0.9702 0.9202 0.9333 0.9321 0.7768\n"
                             "1 0.9405 0.9367 0.9797 0.9586 0.8274\n"
                             "2 1.0000 0.4762 0.9375 1.0000 0.4464\n"
                             "tool 0.9702 0.7730 0.9524 0.9569 0.6835\n";

/* Case W, a record on each line: the bytes of samples/case-w.log, which were packed apart from the library. */
static const uint8_t week[121] = {
    0x04, 0x81, 0x90, 0x80, 0x00, 0xc0, 0x08, 0x00, 0x60, 0x03,
    0x00, 0x00, 0x00, 0x00, 0x00, 0x00,
    0x04, 0x00, 0x00, 0x00, 0x00, 0x00,
    0x08, 0x00, 0x00, 0x00, 0x00, 0x00,
    0x08, 0xe0, 0x44, 0xaa, 0x20, 0x00,
    0x04, 0xe0, 0x7f, 0x07, 0x88, 0x00,
    0x00, 0xe0, 0x80, 0xbe, 0xfc, 0x00,
    0x06, 0x40, 0x87, 0x9c, 0xcc, 0x00,
    0x02, 0x40, 0x8b, 0xe7, 0x6e, 0x00,
    0x00, 0x00, 0x00, 0x00, 0x00, 0x00, 0x00, 0x6d, 0xdd, 0x00,
    0x04, 0x00, 0x00, 0x00, 0x00, 0x00, 0x00, 0x6d, 0xdd, 0x00,
    0x08, 0x00, 0x00, 0x00, 0x00, 0x00, 0x00, 0x6d, 0xdd, 0x00,
    0x00, 0x00, 0x00, 0x06, 0xdd, 0xd0, 0x00, 0x23, 0x00, 0x20, 0xa0,
    0x04, 0x00, 0x00, 0x06, 0xdd, 0xd0, 0x00, 0x24, 0x40, 0x22, 0xc0,
    0x08, 0x00, 0x00, 0x06, 0xdd, 0xd0, 0x00, 0x12, 0xc0, 0x12, 0xc0,
};

/* R1-3's benchmarks, one on each line: the bytes of samples/r1-3.benchmarks. */
static const uint8_t r1_3[56] = {
    0x00, 0x3a, 0x96, 0x80, 0x05, 0x7e, 0x40, 0x00, 0x46, 0x50, 0x00, 0x00, 0x4e, 0x20,
    0x00, 0x3a, 0x96, 0x80, 0x04, 0x65, 0x00, 0x00, 0x23, 0x28, 0x00, 0x00, 0x22, 0x60,
    0x00, 0x3a, 0x96, 0x80, 0x03, 0x4b, 0xc0, 0x00, 0x23, 0x28, 0x00, 0x00, 0x2d, 0x50,
    0x00, 0x3a, 0x96, 0x80, 0x07, 0x24, 0x20, 0x00, 0x46, 0x50, 0x00, 0x00, 0x1c, 0x20,
};

static int is(const uint64_t refusal[3], uint64_t number, uint64_t list, uint64_t place)
{
    return refusal[TL_NUMBER] == number && refusal[TL_LIST] == list && refusal[TL_PLACE] == place;
}

static int all(const void *array, size_t size, unsigned char byte)
{
    const unsigned char *a = array;
    for (size_t i = 0; i < size; i++) {
        if (a[i] != byte)
            return 0;
    }
    return 1;
}

/* A copy of exactly `length` bytes on the heap, so that valgrind sees a read or a write past its end. */
static uint8_t *copied(const uint8_t *bytes, size_t length)
{
    uint8_t *copy = malloc(length ? length : 1);
    if (!copy)
        abort();
    memcpy(copy, bytes, length);
    return copy;
}

/* A call for the supplemental figures on slices of just these lengths. Nothing beside the four figures is written, and on a refusal they are not. */
static uint32_t supplemental(const uint8_t *log, size_t log_len, const uint8_t *benchmarks, size_t benchmarks_len, uint64_t figures[4],
                             uint64_t why[3])
{
    uint8_t *lent_log = copied(log, log_len), *lent_benchmarks = copied(benchmarks, benchmarks_len);
    uint64_t lent[6];
    uint32_t answer;

    memset(lent, 0xa5, sizeof lent);
    answer = tl_supplemental(lent_log, log_len, lent_benchmarks, benchmarks_len, lent + 1, why);
    CHECK(all(lent, sizeof *lent, 0xa5) && all(lent + 5, sizeof *lent, 0xa5));
    CHECK(answer == 1 || (answer == 0 && all(lent, sizeof lent, 0xa5)));
    memcpy(figures, lent + 1, 4 * sizeof *figures);
    free(lent_benchmarks);
    free(lent_log);
    return answer;
}

/* Every call on a log that is refused: each says so, gives the reason, and writes nothing else. */
static void refused(const uint8_t *bytes, size_t length, uint64_t number, uint64_t list, uint64_t place)
{
    uint8_t *log = copied(bytes, length), *packed = copied(bytes, length), based[4], *buf = malloc(TL_LONGEST_REPORT);
    uint64_t times[6], quantities[5], losses[5], units[512], listed[1], standard[2], four[4], why[3];
    double figures[6];

    if (!buf)
        abort();
    memset(buf, 0xa5, TL_LONGEST_REPORT);
    memset(times, 0xa5, sizeof times);
    memset(quantities, 0xa5, sizeof quantities);
    memset(losses, 0xa5, sizeof losses);
    memset(units, 0xa5, sizeof units);
    memset(listed, 0xa5, sizeof listed);
    memset(standard, 0xa5, sizeof standard);
    memset(figures, 0xa5, sizeof figures);
    memset(based, 0xa5, sizeof based);

    CHECK(tl_examine(log, length, TL_LONGEST_REPORT, why) == 0 && is(why, number, list, place));
    CHECK(tl_examine(log, length, 0, why) == 0 && is(why, number, list, place));
    CHECK(tl_finish_log(log, length, length, why) == 0 && is(why, number, list, place));
    CHECK(tl_report(log, length, buf, TL_LONGEST_REPORT) == 0);
    CHECK(tl_report(log, length, buf, 0) == 0);
    for (size_t m = 0; m < 2; m++) {
        CHECK(tl_module_state_times(log, length, m, times, why) == 0 && is(why, number, list, place));
        CHECK(tl_module_quantities(log, length, m, quantities, why) == 0 && is(why, number, list, place));
        CHECK(tl_module_figures(log, length, m, figures, based, why) == 0 && is(why, number, list, place));
        CHECK(tl_module_losses(log, length, m, losses, why) == 0 && is(why, number, list, place));
        CHECK(tl_standard_in_force(log, length, m, 0, 0, standard, why) == 0 && is(why, number, list, place));
    }
    CHECK(tl_tool_state_times(log, length, times, why) == 0 && is(why, number, list, place));
    CHECK(tl_tool_quantities(log, length, quantities, why) == 0 && is(why, number, list, place));
    CHECK(tl_tool_figures(log, length, figures, based, why) == 0 && is(why, number, list, place));
    CHECK(tl_tool_losses(log, length, losses, why) == 0 && is(why, number, list, place));
    CHECK(tl_standard_in_force(log, length, SIZE_MAX, SIZE_MAX, UINT64_MAX, standard, why) == 0 && is(why, number, list, place));
    CHECK(tl_credited_units(log, length, units, why) == 0 && is(why, number, list, place));
    CHECK(tl_credited_listing(log, length, buf, TL_LONGEST_REPORT, listed, why) == 0 && is(why, number, list, place));
    CHECK(tl_credited_listing(log, length, buf, 0, listed, why) == 0 && is(why, number, list, place));
    for (size_t room = 0; room <= TL_LONGEST_REPORT; room += TL_LONGEST_REPORT) {
        CHECK(tl_join(log, length, week, sizeof week, buf, room, listed, why) == 0 && is(why, number, list, place));
        CHECK(tl_join(log, length, week, 9, buf, room, listed, why) == 0 && is(why, number, list, place));
        CHECK(tl_join(log, length, log, length, buf, room, listed, why) == 0 && is(why, number, list, place));
        CHECK(tl_join(week, sizeof week, log, length, buf, room, listed, why) == 0 && is(why, number, list + 10, place));
        CHECK(tl_join(week, 9, log, length, buf, room, listed, why) == 0 && is(why, TL_NO_HEADER, 0, 0));
    }
    for (size_t n = 0; n < 15; n += 7)
        CHECK(supplemental(log, length, buf, n, four, why) == 0 && is(why, number, list, place));
    CHECK(tl_pack(packed, length, listed, why) == 0 && is(why, number, list, place) && !memcmp(packed, bytes, length));

    CHECK(all(buf, TL_LONGEST_REPORT, 0xa5));
    CHECK(all(times, sizeof times, 0xa5) && all(quantities, sizeof quantities, 0xa5) && all(losses, sizeof losses, 0xa5));
    CHECK(all(units, sizeof units, 0xa5) && all(listed, sizeof listed, 0xa5) && all(standard, sizeof standard, 0xa5));
    CHECK(all(figures, sizeof figures, 0xa5) && all(based, sizeof based, 0xa5));
    free(buf);
    free(packed);
    free(log);
}

static void case_w(void)
{
    size_t length = sizeof week;
    uint8_t *log = copied(week, length), based[4], *buf;
    uint64_t times[6], quantities[5], losses[5], standard[2], why[3] = {9, 9, 9};
    double figures[6];

    /* the report, in a buffer that it fills, in a longer one, and in one that is a byte short */
    CHECK(tl_examine(log, length, 183, why) == 1 && is(why, 0, 0, 0));
    CHECK(tl_examine(log, length, 182, why) == 0 && is(why, TL_SHORT_BUFFER, 0, 0));
    CHECK(tl_examine(log, length, 0, why) == 0 && is(why, TL_SHORT_BUFFER, 0, 0));
    buf = malloc(183);
    CHECK(buf && tl_report(log, length, buf, 183) == 183 && !memcmp(buf, report, 183));
    free(buf);
    buf = malloc(TL_LONGEST_REPORT);
    memset(buf, 0xa5, TL_LONGEST_REPORT);
    CHECK(tl_report(log, length, buf, 182) == 0 && tl_report(log, length, buf, 0) == 0 && all(buf, TL_LONGEST_REPORT, 0xa5));
    CHECK(tl_report(log, length, buf, TL_LONGEST_REPORT) == 183 && !memcmp(buf, report, 183) && all(buf + 183, TL_LONGEST_REPORT - 183, 0xa5));
    free(buf);

    /* state times */
    const uint64_t module_1[6] = {532800000, 36000000, 0, 0, 36000000, 0};
    const uint64_t tool[6] = {1360800000, 399600000, 0, 0, 54000000, 0};
    CHECK(tl_module_state_times(log, length, 1, times, why) == 1 && is(why, 0, 0, 0) && !memcmp(times, module_1, sizeof times));
    CHECK(tl_tool_state_times(log, length, times, why) == 1 && is(why, 0, 0, 0) && !memcmp(times, tool, sizeof times));

    /* quantities */
    const uint64_t of_1[5] = {604800000, 568800000, 532800000, 522000000, 500400000};
    const uint64_t of_tool[5] = {1814400000, 1760400000, 1360800000, 1296000000, 1240200000};
    CHECK(tl_module_quantities(log, length, 1, quantities, why) == 1 && is(why, 0, 0, 0) && !memcmp(quantities, of_1, sizeof quantities));
    CHECK(tl_tool_quantities(log, length, quantities, why) == 1 && is(why, 0, 0, 0) && !memcmp(quantities, of_tool, sizeof quantities));

    /* figures: the quotients of the quantities, bit for bit */
    CHECK(tl_module_figures(log, length, 1, figures, based, why) == 1 && is(why, 0, 0, 0) && all(based, 4, 1));
    CHECK(figures[TL_AVAILABILITY] == 568800000.0 / 604800000.0 && figures[TL_OPERATIONAL] == 532800000.0 / 568800000.0);
    CHECK(figures[TL_RATE] == 522000000.0 / 532800000.0 && figures[TL_QUALITY] == 500400000.0 / 522000000.0);
    CHECK(figures[TL_OEE] == 500400000.0 / 604800000.0);
    CHECK(figures[TL_PRODUCT] == figures[TL_AVAILABILITY] * figures[TL_OPERATIONAL] * figures[TL_RATE] * figures[TL_QUALITY]);
    CHECK(tl_tool_figures(log, length, figures, based, why) == 1 && is(why, 0, 0, 0) && all(based, 4, 1));
    CHECK(figures[TL_OEE] == 1240200000.0 / 1814400000.0 && figures[TL_AVAILABILITY] == 1760400000.0 / 1814400000.0);

    /* a module that is not there */
    const size_t strays[3] = {3, 64, SIZE_MAX};
    for (int i = 0; i < 3; i++) {
        memset(times, 0xa5, sizeof times);
        memset(quantities, 0xa5, sizeof quantities);
        memset(losses, 0xa5, sizeof losses);
        memset(standard, 0xa5, sizeof standard);
        memset(figures, 0xa5, sizeof figures);
        memset(based, 0xa5, sizeof based);
        CHECK(tl_module_state_times(log, length, strays[i], times, why) == 0 && is(why, TL_STRAY_MODULE, 0, strays[i]));
        CHECK(tl_module_quantities(log, length, strays[i], quantities, why) == 0 && is(why, TL_STRAY_MODULE, 0, strays[i]));
        CHECK(tl_module_figures(log, length, strays[i], figures, based, why) == 0 && is(why, TL_STRAY_MODULE, 0, strays[i]));
        CHECK(tl_module_losses(log, length, strays[i], losses, why) == 0 && is(why, TL_STRAY_MODULE, 0, strays[i]));
        CHECK(tl_standard_in_force(log, length, strays[i], 0, 0, standard, why) == 0 && is(why, TL_STRAY_MODULE, 0, strays[i]));
        CHECK(all(times, sizeof times, 0xa5) && all(quantities, sizeof quantities, 0xa5) && all(losses, sizeof losses, 0xa5));
        CHECK(all(standard, sizeof standard, 0xa5) && all(figures, sizeof figures, 0xa5) && all(based, sizeof based, 0xa5));
    }
    free(log);
}

static void no_uptime(void)
{
    struct written log = write_idle();
    uint8_t based[4];
    uint64_t why[3];
    double figures[6];
    const uint8_t bases[4] = {1, 0, 0, 0};

    CHECK(tl_module_figures(log.bytes, log.length, 0, figures, based, why) == 1 && !memcmp(based, bases, 4));
    CHECK(figures[TL_AVAILABILITY] == 0 && isnan(figures[TL_OPERATIONAL]) && isnan(figures[TL_RATE]) && isnan(figures[TL_QUALITY]));
    CHECK(figures[TL_OEE] == 0 && figures[TL_PRODUCT] == 0);
    CHECK(tl_tool_figures(log.bytes, log.length, figures, based, why) == 1 && !memcmp(based, bases, 4));
}

static void damaged(void)
{
    struct written late = write_case_w(604800000), early = write_case_w(3599999);
    const size_t length = sizeof week;
    uint8_t log[sizeof week + 1] = {0};

    memcpy(log, week, length);
    refused(log, 0, TL_NO_HEADER, 0, 0);
    refused(log, 9, TL_NO_HEADER, 0, 0);
    refused(log, length - 1, TL_BAD_LENGTH, 0, 0);
    refused(log, length + 1, TL_BAD_LENGTH, 0, 0);
    refused(late.bytes, late.length, TL_OUTSIDE, 3, 2);
    refused(early.bytes, early.length, TL_UNSORTED, 3, 2);
    log[0] |= 0xf0;
    refused(log, length, TL_BAD_PERIOD, 0, 0);
    memcpy(log, week, length);
    log[15] |= 1;
    refused(log, length, TL_SPARE, 1, 0);
    memcpy(log, week, length);
    log[length - 1] |= 1;
    refused(log, length, TL_SPARE, 3, 2);
    memcpy(log, week, length);
    log[16] &= 3;
    refused(log, length, TL_SEQUENCE, 1, 1);
}

/* One recipe and start, and each module by its own time: 2 ms a unit at module 0, 3 ms at module 1. */
static void own_times(void)
{
    const uint64_t standards[2][4] = {{0, 4, 0, 2}, {1, 4, 0, 3}};
    const uint64_t of_0[5] = {10, 10, 10, 4, 2}, of_1[5] = {10, 10, 10, 6, 3}, of_tool[5] = {20, 20, 20, 10, 5};
    const struct written log = write_two_modules(standards, 2);
    uint64_t quantities[5], why[3];

    CHECK(tl_module_quantities(log.bytes, log.length, 0, quantities, why) == 1 && !memcmp(quantities, of_0, sizeof quantities));
    CHECK(tl_module_quantities(log.bytes, log.length, 1, quantities, why) == 1 && !memcmp(quantities, of_1, sizeof quantities));
    CHECK(tl_tool_quantities(log.bytes, log.length, quantities, why) == 1 && !memcmp(quantities, of_tool, sizeof quantities));
}

static void refused_standards(const uint64_t standards[][4], size_t count, uint64_t number, uint64_t list, uint64_t place)
{
    const struct written log = write_two_modules(standards, count);
    refused(log.bytes, log.length, number, list, place);
}

/* Each of the two spare bits of the standard at a place. */
static void spare_bits(const uint64_t standards[][4], size_t count, size_t place)
{
    for (unsigned bit = 0; bit < 2; bit++) {
        struct written log = write_two_modules(standards, count);
        log.bytes[10 + 2 * 6 + 10 * place + 9] |= (uint8_t)(1u << bit);
        refused(log.bytes, log.length, TL_SPARE, 2, place);
    }
}

/* Standards refused for a spare bit, for their module or for their sequence by module, and units whose recipe has one in force at the other module
 * alone. The last of `stray` also starts at the period's end. */
static void standards_of_modules(void)
{
    const uint64_t both[2][4] = {{0, 4, 0, 2}, {1, 4, 0, 3}};
    const uint64_t stray[3][4] = {{0, 4, 0, 2}, {1, 4, 0, 3}, {2, 4, 10, 1}}, farthest[3][4] = {{0, 4, 0, 2}, {1, 4, 0, 3}, {63, 4, 0, 1}};
    const uint64_t again[3][4] = {{0, 4, 0, 2}, {1, 4, 0, 3}, {0, 4, 0, 1}}, lower[2][4] = {{1, 4, 0, 3}, {0, 5, 0, 2}};
    const uint64_t of_0[2][4] = {{0, 4, 0, 2}, {1, 5, 0, 3}}, of_1[2][4] = {{0, 5, 0, 2}, {1, 4, 0, 3}}, later[2][4] = {{0, 4, 0, 2}, {1, 4, 6, 3}};

    spare_bits(both, 2, 0);
    spare_bits(both, 2, 1);
    spare_bits(stray, 3, 2);
    refused_standards(stray, 3, TL_STRAY_MODULE, 2, 2);
    refused_standards(farthest, 3, TL_STRAY_MODULE, 2, 2);
    refused_standards(again, 3, TL_TWICE, 2, 2);
    refused_standards(lower, 2, TL_UNSORTED, 2, 1);
    refused_standards(of_0, 2, TL_NO_STANDARD, 3, 1);
    refused_standards(of_1, 2, TL_NO_STANDARD, 3, 0);
    refused_standards(later, 2, TL_NO_STANDARD, 3, 1);
}

static uint64_t field(const uint8_t *bytes, unsigned from, unsigned width)
{
    uint64_t value = 0;
    for (unsigned i = from; i < from + width; i++)
        value = value << 1 | (bytes[i / 8] >> (7 - i % 8) & 1);
    return value;
}

/* Random bytes: the grounds 1 to 5 are worked out here from the header, which hardly any of them outlives. */
static void random_bytes(void)
{
    uint64_t seed = 20261115;
    static uint8_t bytes[1024];

    for (int turn = 0; turn < 2000; turn++) {
        size_t length;
        uint64_t number = 0, why[3];
        for (size_t i = 0; i < sizeof bytes; i++) {
            seed = seed * 6364136223846793005u + 1442695040888963407u;
            bytes[i] = (uint8_t)(seed >> 56);
        }
        length = turn % 4 ? (size_t)(seed >> 40) % sizeof bytes : (size_t)(seed >> 40) % 12;
        if (length < 10) {
            number = TL_NO_HEADER;
        } else {
            uint64_t period = field(bytes, 0, 35), modules = field(bytes, 35, 7);
            uint64_t states = field(bytes, 42, 14), standards = field(bytes, 56, 11), units = field(bytes, 67, 13);
            if (period == 0 || period > 31622400000)
                number = TL_BAD_PERIOD;
            else if (modules == 0 || modules > 64)
                number = TL_BAD_MODULES;
            else if (states > 6000 || standards > 512 || units > 2000)
                number = TL_BAD_COUNTS;
            else if (length != 10 + 6 * states + 10 * standards + 11 * units)
                number = TL_BAD_LENGTH;
        }
        if (number)
            refused(bytes, length, number, 0, 0);
        else
            CHECK(tl_examine(bytes, length, 0, why) == 0 && why[TL_NUMBER] >= TL_SPARE && why[TL_NUMBER] <= TL_UNSORTED);
    }
}

/* ---- the losses */

/* Stands for the tool, where a module is named: no log has it. */
enum { TOOL = TL_MOST_MODULES };

/* The losses and OEE of a module or of the tool, on a log of just its length. Nothing beside the five is written. */
static void losses_are(const struct written *log, size_t module, const uint64_t due[5])
{
    uint8_t *lent_log = copied(log->bytes, log->length);
    uint64_t lent[7], why[3] = {9, 9, 9};
    uint32_t answer;

    memset(lent, 0xa5, sizeof lent);
    if (module == TOOL)
        answer = tl_tool_losses(lent_log, log->length, lent + 1, why);
    else
        answer = tl_module_losses(lent_log, log->length, module, lent + 1, why);
    CHECK(answer == 1 && is(why, 0, 0, 0));
    CHECK(all(lent, sizeof *lent, 0xa5) && all(lent + 6, sizeof *lent, 0xa5));
    CHECK(lent[1 + TL_AVAILABILITY] == due[0] && lent[1 + TL_OPERATIONAL] == due[1] && lent[1 + TL_RATE] == due[2]);
    CHECK(lent[1 + TL_QUALITY] == due[3] && lent[1 + TL_OEE] == due[4]);
    free(lent_log);
}

/* Case W: what SEMI E79 prints in R1-2. In ten-thousandths the exact shares are
 *   0      297.62   773.81   595.24   565.48  7767.86   three missing
 *   1      595.24   595.24   178.57   357.14  8273.81   two
 *   2        0     5238.10   297.62     0     4464.29   one
 *   tool   297.62  2202.38   357.14   307.54  6835.32   two */
static void losses_of_case_w(void)
{
    const struct written log = write_case_w(3600000);
    const uint64_t due[4][5] = {{298, 774, 595, 565, 7768}, {595, 595, 179, 357, 8274}, {0, 5238, 298, 0, 4464}, {298, 2202, 357, 308, 6835}};
    for (size_t m = 0; m < 3; m++)
        losses_are(&log, m, due[m]);
    losses_are(&log, TOOL, due[3]);
}

/* Shares that are small fractions, so that remainders are equal: thirds, sevenths, ninths and others, worked out by hand. */
static void losses_of_fractions(void)
{
    static const struct {
        uint64_t parts[5], due[5];
    } rows[] = {
        {{1, 1, 1, 0, 0}, {3334, 3333, 3333, 0, 0}},
        {{0, 0, 1, 1, 1}, {0, 0, 3334, 3333, 3333}},
        /* three missing: the OEE has 5/7, the others 4/7 */
        {{1, 1, 1, 1, 3}, {1429, 1429, 1428, 1428, 4286}},
        /* the OEE's 4/9 are the largest remainder; the report has 0.4444 */
        {{1, 1, 1, 2, 4}, {1111, 1111, 1111, 2222, 4445}},
        /* three missing, and four remainders of 2/3; the report has 0.1667 */
        {{1, 1, 1, 2, 1}, {1667, 1667, 1667, 3333, 1666}},
        /* two missing, and three remainders of 2/3, of which the nearest doubles make the OEE's the largest */
        {{0, 0, 1, 1, 4}, {0, 0, 1667, 1667, 6666}},
        /* exact halves, two missing; then four missing, and five remainders of 4/5 */
        {{1, 1, 1, 1, 19996}, {1, 1, 0, 0, 9998}},
        {{1, 1, 1, 1, 12496}, {1, 1, 1, 1, 9996}},
        /* nothing missing */
        {{1, 2, 0, 1, 1}, {2000, 4000, 0, 2000, 2000}},
        {{7, 0, 0, 0, 0}, {10000, 0, 0, 0, 0}},
        {{0, 7, 0, 0, 0}, {0, 10000, 0, 0, 0}},
        {{0, 0, 7, 0, 0}, {0, 0, 10000, 0, 0}},
        {{0, 0, 0, 7, 0}, {0, 0, 0, 10000, 0}},
        {{0, 0, 0, 0, 7}, {0, 0, 0, 0, 10000}},
    };
    /* the tool's are 1, 2, 3, 1 and 7 of 14 */
    const uint64_t of_two[2][5] = {{1, 1, 1, 1, 3}, {0, 1, 2, 0, 4}};
    const uint64_t due[3][5] = {{1429, 1429, 1428, 1428, 4286}, {0, 1429, 2857, 0, 5714}, {714, 1429, 2143, 714, 5000}};
    struct written log = write_parts(of_two, 2);

    losses_are(&log, 0, due[0]);
    losses_are(&log, 1, due[1]);
    losses_are(&log, TOOL, due[2]);
    for (size_t i = 0; i < sizeof rows / sizeof *rows; i++) {
        log = write_parts(&rows[i].parts, 1);
        losses_are(&log, 0, rows[i].due);
        losses_are(&log, TOOL, rows[i].due);
    }
}

/* ---- the standards that units were judged by */

/* The credited units of the log's standards, and 0 for those that it does not have; nothing beside the 512 is written. */
static void credited_are(const struct written *log, const uint64_t due[], size_t count)
{
    uint8_t *lent_log = copied(log->bytes, log->length);
    uint64_t lent[1 + TL_MOST_STANDARDS + 1], why[3] = {9, 9, 9};

    memset(lent, 0xa5, sizeof lent);
    CHECK(tl_credited_units(lent_log, log->length, lent + 1, why) == 1 && is(why, 0, 0, 0));
    CHECK(all(lent, sizeof *lent, 0xa5) && all(lent + 1 + TL_MOST_STANDARDS, sizeof *lent, 0xa5));
    CHECK(!memcmp(lent + 1, due, count * sizeof *lent) && all(lent + 1 + count, (TL_MOST_STANDARDS - count) * sizeof *lent, 0));
    free(lent_log);
}

/* The listing in a buffer of just this length: written, or refused where the buffer is shorter. Nothing else changes. */
static void listed_in(const struct written *log, const char *due, size_t room)
{
    static uint8_t filled[TL_CREDITED_LISTING_ROOM];
    const size_t length = strlen(due);
    uint8_t *lent_log = copied(log->bytes, log->length), *buf;
    uint64_t lent[3], why[3] = {9, 9, 9};

    memset(filled, 0xa5, sizeof filled);
    memset(lent, 0xa5, sizeof lent);
    buf = copied(filled, room);
    if (room < length) {
        CHECK(tl_credited_listing(lent_log, log->length, buf, room, lent + 1, why) == 0 && is(why, TL_SHORT_BUFFER, 0, 0));
        CHECK(all(buf, room, 0xa5) && all(lent, sizeof lent, 0xa5));
    } else {
        CHECK(tl_credited_listing(lent_log, log->length, buf, room, lent + 1, why) == 1 && is(why, 0, 0, 0));
        CHECK(lent[1] == length && !memcmp(buf, due, length) && all(buf + length, room - length, 0xa5));
        CHECK(all(lent, sizeof *lent, 0xa5) && all(lent + 2, sizeof *lent, 0xa5));
    }
    free(buf);
    free(lent_log);
}

static void listing_is(const struct written *log, const char *due)
{
    for (size_t room = 0; room < strlen(due) + 3; room++)
        listed_in(log, due, room);
    listed_in(log, due, TL_CREDITED_LISTING_ROOM);
}

/* Of revisions, each recipe of R1-3, each module of case W, and a log without standards. */
static void credited(void)
{
    const uint64_t revisions[8] = {30, 70, 0, 101, 7, 5, 99970, 0}, recipes[4] = {1500, 600, 800, 500}, modules[3] = {280, 290, 150};
    struct written log = write_revisions();

    credited_are(&log, revisions, 8);
    listing_is(&log, "0 30\n1 70\n2 0\n3 101\n4 7\n5 5\n6 99970\n7 0\n");
    log = write_r1_3();
    credited_are(&log, recipes, 4);
    listing_is(&log, "0 1500\n1 600\n2 800\n3 500\n");
    log = write_case_w(3600000);
    credited_are(&log, modules, 3);
    listing_is(&log, "0 280\n1 290\n2 150\n");
    log = write_idle();
    credited_are(&log, modules, 0);
    listing_is(&log, "");
}

/* Stands for the standard in force, where none is. */
enum { NONE = TL_MOST_STANDARDS };

/* Nothing beside the two numbers is written, and where none is in force they are not. */
static void in_force_is(const struct written *log, size_t module, size_t recipe, uint64_t time, uint64_t index, uint64_t theoretical)
{
    uint8_t *lent_log = copied(log->bytes, log->length);
    uint64_t lent[4], why[3] = {9, 9, 9};
    uint32_t answer;

    memset(lent, 0xa5, sizeof lent);
    answer = tl_standard_in_force(lent_log, log->length, module, recipe, time, lent + 1, why);
    CHECK(is(why, 0, 0, 0));
    if (index == NONE) {
        CHECK(answer == 2 && all(lent, sizeof lent, 0xa5));
    } else {
        CHECK(answer == 1 && lent[1 + TL_INDEX] == index && lent[1 + TL_THEORETICAL] == theoretical);
        CHECK(all(lent, sizeof *lent, 0xa5) && all(lent + 3, sizeof *lent, 0xa5));
    }
    free(lent_log);
}

/* At each start, 1 ms ahead of it and past the period. Cut to fewer bits, the last of `past` would be 0, and some recipes 3. */
static void in_force(void)
{
    static const struct {
        size_t module, recipe;
        uint64_t time, index, theoretical;
    } rows[] = {
        {0, 3, 0, 0, 5},         {0, 3, 1, 0, 5},            {0, 3, 3999, 0, 5},         {0, 3, 4000, 1, 4},         {0, 3, 4001, 1, 4},
        {0, 3, 5999, 1, 4},      {0, 3, 6000, 2, 134217727}, {0, 3, 7999, 2, 134217727}, {0, 3, 8000, 3, 2},         {0, 3, 9999, 3, 2},
        {0, 7, 0, NONE, 0},      {0, 7, 1999, NONE, 0},      {0, 7, 2000, 4, 2},         {0, 7, 9999, 4, 2},         {1, 3, 0, NONE, 0},
        {1, 3, 3999, NONE, 0},   {1, 3, 4000, 5, 6},         {1, 3, 8000, 5, 6},         {1, 1023, 9998, NONE, 0},   {1, 1023, 9999, 6, 1},
        {1, 1023, 99998, 6, 1},  {1, 1023, 99999, 7, 3},     {1, 7, 99999, NONE, 0},     {0, 1023, 99999, NONE, 0},
    };
    const uint64_t past[4] = {100000, 0x7ffffffff, UINT64_MAX, UINT64_C(1) << 63};
    const size_t recipes[8] = {0, 2, 4, 1022, 1024 + 3, 65536 + 3, ((size_t)1 << 32) + 3, SIZE_MAX};
    const struct written log = write_revisions(), idle = write_idle();

    for (size_t i = 0; i < sizeof rows / sizeof *rows; i++)
        in_force_is(&log, rows[i].module, rows[i].recipe, rows[i].time, rows[i].index, rows[i].theoretical);
    for (int i = 0; i < 4; i++) {
        in_force_is(&log, 0, 3, past[i], 3, 2);
        in_force_is(&log, 0, 7, past[i], 4, 2);
        in_force_is(&log, 1, 3, past[i], 5, 6);
        in_force_is(&log, 1, 1023, past[i], 7, 3);
        in_force_is(&idle, 0, 0, past[i], NONE, 0);
        for (int r = 0; r < 8; r++) {
            in_force_is(&log, 0, recipes[r], past[i], NONE, 0);
            in_force_is(&log, 1, recipes[r], past[i], NONE, 0);
        }
    }
}

/* ---- the supplemental figures */

static void set_field(uint8_t *bytes, unsigned from, unsigned width, uint64_t value)
{
    for (unsigned i = from + width; i-- > from; value >>= 1)
        bytes[i / 8] = (uint8_t)((bytes[i / 8] & ~(0x80 >> i % 8)) | (value & 1) << (7 - i % 8));
}

/* Makes the times of a benchmark (0 to 2) or its total effective units (3) this value. */
static void set(uint8_t *benchmarks, unsigned benchmark, unsigned which, uint64_t value)
{
    set_field(benchmarks, 112 * benchmark + 27 * which, 27, value);
}

static void figures_are(const struct written *log, const uint8_t *benchmarks, size_t length, uint64_t a, uint64_t b, uint64_t c, uint64_t d)
{
    uint64_t figures[4], why[3] = {9, 9, 9};
    CHECK(supplemental(log->bytes, log->length, benchmarks, length, figures, why) == 1 && is(why, 0, 0, 0));
    CHECK(figures[TL_REFERENCE] == a && figures[TL_OPTIMIZED] == b && figures[TL_VALUE_ADDED] == c && figures[TL_TOTAL_EFFECTIVE_UNITS] == d);
}

static void not_benchmarks(const struct written *log, const uint8_t *benchmarks, size_t length, uint64_t number, uint64_t place)
{
    uint64_t figures[4], why[3];
    CHECK(supplemental(log->bytes, log->length, benchmarks, length, figures, why) == 0 && is(why, number, 4, place));
}

/* The figures of SEMI E79 R1-3, and each fault of each of its benchmarks: at the bound and past it, and as wide as the field. */
static void benchmarks_of_r1_3(void)
{
    const struct written log = write_r1_3();
    const uint64_t theoretical[4] = {119988, 144000, 180000, 240012}, effective[4] = {1500, 600, 800, 480}, widest = 0x7ffffff;
    uint8_t longer[70] = {0}, changed[56];

    figures_are(&log, r1_3, sizeof r1_3, 6706, 4589, 1595, 7733);

    memcpy(longer, r1_3, sizeof r1_3);
    for (size_t length = 0; length <= sizeof longer; length++) {
        if (length != sizeof r1_3)
            not_benchmarks(&log, longer, length, TL_BAD_LENGTH, 0);
    }

    for (unsigned i = 0; i < 4; i++) {
        memcpy(changed, r1_3, sizeof r1_3);
        for (unsigned bit = 0; bit < 4; bit++) {
            set_field(changed, 112 * i + 108, 4, UINT64_C(1) << bit);
            not_benchmarks(&log, changed, sizeof changed, TL_SPARE, i);
        }
        for (unsigned which = 0; which < 3; which++) {
            memcpy(changed, r1_3, sizeof r1_3);
            set(changed, i, which, 0);
            not_benchmarks(&log, changed, sizeof changed, TL_NO_TIME, i);
            set(changed, i, which, theoretical[i] + 1);
            not_benchmarks(&log, changed, sizeof changed, TL_ABOVE_STANDARD, i);
            set(changed, i, which, widest);
            not_benchmarks(&log, changed, sizeof changed, TL_ABOVE_STANDARD, i);
        }
        memcpy(changed, r1_3, sizeof r1_3);
        set(changed, i, 3, effective[i] + 1);
        not_benchmarks(&log, changed, sizeof changed, TL_OVER_COUNTED, i);
        set(changed, i, 3, widest);
        not_benchmarks(&log, changed, sizeof changed, TL_OVER_COUNTED, i);
    }

    /* every bound reached: 525,587,760 ms of 604,800,000, the tool's OEE; then 1 ms for each of 3,380 units, and no total effective units */
    for (unsigned i = 0; i < 4; i++) {
        for (unsigned which = 0; which < 3; which++)
            set(changed, i, which, theoretical[i]);
        set(changed, i, 3, effective[i]);
    }
    figures_are(&log, changed, sizeof changed, 8690, 8690, 8690, 8690);
    for (unsigned i = 0; i < 4; i++) {
        set(changed, i, 1, 1);
        set(changed, i, 3, 0);
    }
    figures_are(&log, changed, sizeof changed, 8690, 0, 8690, 0);
}

/* Several faults at once: those of a benchmark in the sequence of their numbers, and an earlier benchmark ahead of a later one. */
static void first_fault(void)
{
    const struct written log = write_r1_3();
    uint8_t changed[57] = {0};

    memcpy(changed, r1_3, sizeof r1_3);
    set_field(changed, 112 * 2 + 108, 4, 1);
    set(changed, 1, 3, 601);
    set(changed, 1, 2, 144001);
    set(changed, 1, 1, 0);
    set_field(changed, 112 * 1 + 108, 4, 8);
    not_benchmarks(&log, changed, 57, TL_BAD_LENGTH, 0);
    not_benchmarks(&log, changed, 56, TL_SPARE, 1);
    set_field(changed, 112 * 1 + 108, 4, 0);
    not_benchmarks(&log, changed, 56, TL_NO_TIME, 1);
    set(changed, 1, 1, 72000);
    not_benchmarks(&log, changed, 56, TL_ABOVE_STANDARD, 1);
    set(changed, 1, 2, 18000);
    not_benchmarks(&log, changed, 56, TL_OVER_COUNTED, 1);
    set(changed, 1, 3, 600);
    not_benchmarks(&log, changed, 56, TL_SPARE, 2);
}

/* Case W: each module's effective units are judged by its own standard. Of 1,814,400,000 ms, 261 x 1,800,000 + 278 x 900,000 + 150 x 450,000 are
 * 4,340.3 ten-thousandths, 689 x 90,720 are 344.5. */
static void of_all_modules(void)
{
    const struct written log = write_case_w(3600000);
    const uint64_t reference[3] = {1800000, 900000, 450000}, effective[3] = {261, 278, 150};
    uint8_t benchmarks[42] = {0};

    for (unsigned m = 0; m < 3; m++) {
        set(benchmarks, m, 0, reference[m]);
        set(benchmarks, m, 1, 90720);
        set(benchmarks, m, 2, 90719);
        set(benchmarks, m, 3, effective[m]);
    }
    figures_are(&log, benchmarks, sizeof benchmarks, 4340, 345, 344, 6835);
    for (unsigned m = 0; m < 3; m++) {
        set(benchmarks, m, 3, effective[m] + 1);
        not_benchmarks(&log, benchmarks, sizeof benchmarks, TL_OVER_COUNTED, m);
        set(benchmarks, m, 3, effective[m]);
    }
}

static void no_standards(void)
{
    const struct written log = write_idle();
    figures_are(&log, r1_3, 0, 0, 0, 0, 0);
    not_benchmarks(&log, r1_3, 1, TL_BAD_LENGTH, 0);
    not_benchmarks(&log, r1_3, 14, TL_BAD_LENGTH, 0);
}

/* ---- joining */

struct span {
    const uint8_t *bytes;
    size_t length;
};

static struct span all_of(const struct written *log)
{
    return (struct span){log->bytes, log->length};
}

/* A call on slices of just these lengths, which stay, with a buffer of this length that holds `fill`. Joined, with a number of 0, it has `due` at its
 * front and nothing else changes. Refused with another number, list 0 and place 0, nothing changes. */
static void joins(struct span first, struct span second, size_t room, unsigned char fill, uint64_t number, struct span due)
{
    uint8_t *lent_first = copied(first.bytes, first.length), *lent_second = copied(second.bytes, second.length), *buf = malloc(room ? room : 1);
    uint64_t lent[3], why[5];
    const size_t length = number ? 0 : due.length;

    if (!buf)
        abort();
    memset(buf, fill, room);
    memset(lent, fill, sizeof lent);
    memset(why, fill, sizeof why);
    CHECK(tl_join(lent_first, first.length, lent_second, second.length, buf, room, lent + 1, why + 1) == (number == 0));
    CHECK(is(why + 1, number, 0, 0) && all(why, sizeof *why, fill) && all(why + 4, sizeof *why, fill));
    CHECK(number ? all(lent, sizeof lent, fill) : lent[1] == length && all(lent, sizeof *lent, fill) && all(lent + 2, sizeof *lent, fill));
    CHECK(!memcmp(buf, due.bytes, length) && all(buf + length, room - length, fill));
    CHECK(!memcmp(lent_first, first.bytes, first.length) && !memcmp(lent_second, second.bytes, second.length));
    free(buf);
    free(lent_second);
    free(lent_first);
}

/* The joined log in buffers that it fills and in longer ones. Shorter ones are refused. */
static void joined_is(struct span first, struct span second, struct span due)
{
    const size_t length = due.length, rooms[9] = {0, 1, 10, first.length, length - 10, length - 1, length, length + 1, TL_LONGEST_LOG};
    const unsigned char fills[3] = {0x00, 0xff, 0xa5};

    CHECK(length == first.length + second.length - 10);
    for (int n = 0; n < 3; n++) {
        for (int i = 0; i < 9; i++)
            joins(first, second, rooms[i], fills[n], rooms[i] < length ? TL_SHORT_BUFFER : 0, due);
    }
}

/* Refused in a buffer that has room for every log, in one of just the length, and in one of 0 bytes. */
static void not_joined(struct span first, struct span second, uint64_t number)
{
    const size_t rooms[3] = {TL_LONGEST_LOG, first.length + second.length - 10, 0};
    for (int i = 0; i < 3; i++)
        joins(first, second, rooms[i], 0xa5, number, first);
}

/* Each sum of the joined log is that of the first and that of the second, of every module and of the tool. */
static void sums_are_added(struct span first, struct span second, struct span joined, size_t modules)
{
    const struct span logs[3] = {first, second, joined};
    uint64_t times[3][6], quantities[3][5], why[3];

    CHECK(tl_examine(joined.bytes, joined.length, TL_LONGEST_REPORT, why) == 1);
    for (size_t m = 0; m <= modules; m++) {
        for (int i = 0; i < 3; i++) {
            if (m < modules) {
                CHECK(tl_module_state_times(logs[i].bytes, logs[i].length, m, times[i], why) == 1);
                CHECK(tl_module_quantities(logs[i].bytes, logs[i].length, m, quantities[i], why) == 1);
            } else {
                CHECK(tl_tool_state_times(logs[i].bytes, logs[i].length, times[i], why) == 1);
                CHECK(tl_tool_quantities(logs[i].bytes, logs[i].length, quantities[i], why) == 1);
            }
        }
        for (int i = 0; i < TL_TIMES; i++)
            CHECK(times[2][i] == times[0][i] + times[1][i]);
        for (int i = 0; i < TL_QUANTITIES; i++)
            CHECK(quantities[2][i] == quantities[0][i] + quantities[1][i]);
    }
}

/* A day of 1,000 ms and one of 2,000. Module 0 ends the first under repair, module 1 productive, and both begin the second so. Of recipe 3 of module 0
 * both days have a standard at their start, the second's of the time that was in force before, and one of the second's starts is earlier in its day. */
static const struct records day_1 = {
    1000, 2, 6, 3, 3,
    {{0, 0, 0}, {1, 7, 0}, {0, 12, 300}, {1, 3, 300}, {0, 0, 400}, {0, 18, 999}},
    {{0, 3, 0, 5}, {0, 3, 500, 4}, {1, 3, 0, 6}},
    {{0, 3, 250, 20, 15}, {0, 3, 999, 7, 0}, {1, 3, 999, 31, 30}},
};
static const struct records day_2 = {
    2000, 2, 5, 5, 4,
    {{0, 18, 0}, {1, 3, 0}, {0, 5, 1}, {1, 22, 1500}, {0, 7, 1999}},
    {{0, 2, 0, 3}, {0, 3, 0, 4}, {0, 3, 100, 2}, {1, 3, 499, 6}, {1, 1023, 1, 7}},
    {{0, 3, 0, 40, 40}, {0, 3, 99, 2, 1}, {0, 2, 100, 300, 0}, {1, 1023, 1999, 9, 8}},
};
static const struct records both_days = {
    3000, 2, 11, 8, 7,
    {{0, 0, 0}, {1, 7, 0}, {0, 12, 300}, {1, 3, 300}, {0, 0, 400}, {0, 18, 999},
     {0, 18, 1000}, {1, 3, 1000}, {0, 5, 1001}, {1, 22, 2500}, {0, 7, 2999}},
    {{0, 2, 1000, 3}, {0, 3, 0, 5}, {0, 3, 500, 4}, {0, 3, 1000, 4}, {0, 3, 1100, 2}, {1, 3, 0, 6}, {1, 3, 1499, 6}, {1, 1023, 1001, 7}},
    {{0, 3, 250, 20, 15}, {0, 3, 999, 7, 0}, {1, 3, 999, 31, 30},
     {0, 3, 1000, 40, 40}, {0, 3, 1099, 2, 1}, {0, 2, 1100, 300, 0}, {1, 1023, 2999, 9, 8}},
};

static void joined_days(void)
{
    const struct written one = write_records(&day_1), two = write_records(&day_2), both = write_records(&both_days);
    const uint64_t of_one[3] = {20, 7, 31}, of_two[5] = {300, 42, 0, 0, 9}, of_both[8] = {300, 20, 7, 42, 0, 31, 0, 9};

    joined_is(all_of(&one), all_of(&two), all_of(&both));
    sums_are_added(all_of(&one), all_of(&two), all_of(&both), 2);
    credited_are(&one, of_one, 3);
    credited_are(&two, of_two, 5);
    credited_are(&both, of_both, 8);
}

/* Two days that were not scheduled, by their bytes; and two weeks of case W, whose figures are those of one. */
static void joined_to_itself(void)
{
    const uint8_t two_days[22] = {0x01, 0x49, 0x97, 0x00, 0x00, 0x40, 0x02, 0x00, 0x00, 0x00, 0x02, 0xc0, 0x00, 0x00, 0x00, 0x00,
                                  0x02, 0xc0, 0x14, 0x99, 0x70, 0x00};
    const struct written idle = write_idle();
    uint8_t twice[2 * sizeof week - 10], printed[TL_LONGEST_REPORT];
    uint64_t length[1], why[3];

    joined_is(all_of(&idle), all_of(&idle), (struct span){two_days, sizeof two_days});
    CHECK(tl_join(week, sizeof week, week, sizeof week, twice, sizeof twice, length, why) == 1 && length[0] == sizeof twice);
    CHECK(tl_report(twice, sizeof twice, printed, sizeof printed) == 183 && !memcmp(printed, report, 183));
    sums_are_added((struct span){week, sizeof week}, (struct span){week, sizeof week}, (struct span){twice, sizeof twice}, 3);
}

/* Three days: whichever two are joined first, the bytes are the same, and another sequence of the days makes others. */
static void three_days(void)
{
    const struct written days[3] = {write_records(&day_1), write_records(&day_2), write_records(&both_days)};
    const uint8_t *const a = days[0].bytes, *const b = days[1].bytes, *const c = days[2].bytes;
    const size_t n = days[0].length, m = days[1].length, k = days[2].length;
    uint8_t two[1024], front[1024], back[1024];
    uint64_t length[1], why[3];

    CHECK(tl_join(a, n, b, m, two, sizeof two, length, why) && tl_join(two, length[0], c, k, front, sizeof front, length, why));
    CHECK(length[0] == n + m + k - 20);
    CHECK(tl_join(b, m, c, k, two, sizeof two, length, why) && tl_join(a, n, two, length[0], back, sizeof back, length, why));
    CHECK(length[0] == n + m + k - 20 && !memcmp(front, back, n + m + k - 20));
    CHECK(tl_join(b, m, a, n, two, sizeof two, length, why) && tl_join(two, length[0], c, k, back, sizeof back, length, why));
    CHECK(length[0] == n + m + k - 20 && memcmp(front, back, n + m + k - 20));
}

/* Logs with as many records as are asked for: the modules are productive all along, module 0 has a state record each ms and standards for recipes 0, 1,
 * 2 and so on, and makes a unit of recipe 0 each ms. */
struct counts {
    uint64_t modules, period, states, standards, units;
};

/* Writes the log of such a period, or of several on end. */
static struct span write_periods(uint8_t *buf, const struct counts periods[], size_t count)
{
    uint64_t sums[4] = {0}, at[1] = {0}, why[3], offset = 0;
    uint32_t added;

    for (size_t i = 0; i < count; i++) {
        sums[0] += periods[i].period;
        sums[1] += periods[i].states;
        sums[2] += periods[i].standards;
        sums[3] += periods[i].units;
    }
    added = tl_put_header(buf, TL_LONGEST_LOG, at[0], sums[0], periods[0].modules, sums[1], sums[2], sums[3], at, why);
    for (size_t i = 0; i < count; offset += periods[i++].period) {
        for (uint64_t m = 0; m < periods[i].modules; m++)
            added &= tl_put_state(buf, TL_LONGEST_LOG, at[0], m, 0, offset, at, why);
        for (uint64_t t = 1; t <= periods[i].states - periods[i].modules; t++)
            added &= tl_put_state(buf, TL_LONGEST_LOG, at[0], 0, t % 2, offset + t, at, why);
    }
    for (uint64_t recipe = 0; recipe < TL_MOST_STANDARDS; recipe++) {
        offset = 0;
        for (size_t i = 0; i < count; offset += periods[i++].period) {
            if (recipe < periods[i].standards)
                added &= tl_put_standard(buf, TL_LONGEST_LOG, at[0], 0, recipe, offset, 1, at, why);
        }
    }
    offset = 0;
    for (size_t i = 0; i < count; offset += periods[i++].period) {
        for (uint64_t t = 0; t < periods[i].units; t++)
            added &= tl_put_unit(buf, TL_LONGEST_LOG, at[0], 0, 0, offset + t, 1, t % 2, at, why);
    }
    CHECK(added == 1);
    return (struct span){buf, at[0]};
}

/* Each bound met just so and passed by one, by either log; sums of periods that their field does not hold; and several grounds at once, in the sequence
 * 23, 2, 4, 18. */
static void at_the_bounds(void)
{
    static const uint64_t longest = 31622400000, half = 15811200000;
    const struct {
        struct counts logs[2];
        uint64_t number;
    } rows[] = {
        {{{1, half, 3000, 256, 1000}, {1, half, 3000, 256, 1000}}, 0},
        {{{64, 5999, 5936, 511, 1999}, {64, 100, 64, 1, 1}}, 0},
        {{{64, 5999, 64, 1, 1}, {64, 5999, 5936, 511, 1999}}, 0},
        {{{1, longest - 1, 1, 0, 0}, {1, 1, 1, 0, 0}}, 0},
        {{{1, 1, 1, 0, 0}, {1, longest - 1, 1, 512, 2000}}, 0},
        /* 23 */
        {{{2, 10, 2, 0, 0}, {1, 10, 1, 0, 0}}, TL_UNLIKE_TOOLS},
        {{{1, 10, 1, 0, 0}, {2, 10, 2, 0, 0}}, TL_UNLIKE_TOOLS},
        {{{64, 10, 64, 0, 0}, {63, 10, 63, 0, 0}}, TL_UNLIKE_TOOLS},
        {{{1, longest, 6000, 512, 2000}, {2, longest, 6000, 512, 2000}}, TL_UNLIKE_TOOLS},
        {{{2, longest, 2, 0, 0}, {1, longest, 1, 0, 0}}, TL_UNLIKE_TOOLS},
        {{{2, 6000, 6000, 0, 0}, {1, 6000, 6000, 0, 0}}, TL_UNLIKE_TOOLS},
        /* 2: the last three sums have 36 bits, and without the highest they are below the bound */
        {{{1, longest, 1, 0, 0}, {1, 1, 1, 0, 0}}, TL_BAD_PERIOD},
        {{{1, 1, 1, 0, 0}, {1, longest, 1, 0, 0}}, TL_BAD_PERIOD},
        {{{1, half, 1, 0, 0}, {1, half + 1, 1, 0, 0}}, TL_BAD_PERIOD},
        {{{1, half + 6000, 6000, 512, 2000}, {1, half, 6000, 512, 2000}}, TL_BAD_PERIOD},
        {{{1, longest, 1, 0, 0}, {1, longest, 1, 0, 0}}, TL_BAD_PERIOD},
        {{{1, longest, 6000, 512, 2000}, {1, longest, 6000, 512, 2000}}, TL_BAD_PERIOD},
        {{{1, longest, 1, 0, 0}, {1, 2737338369, 1, 0, 0}}, TL_BAD_PERIOD},
        /* 4 */
        {{{1, 6000, 6000, 0, 0}, {1, 6000, 1, 0, 0}}, TL_BAD_COUNTS},
        {{{1, 6000, 1, 0, 0}, {1, 6000, 6000, 0, 0}}, TL_BAD_COUNTS},
        {{{1, 6000, 1, 512, 0}, {1, 6000, 1, 1, 0}}, TL_BAD_COUNTS},
        {{{1, 6000, 1, 1, 0}, {1, 6000, 1, 512, 0}}, TL_BAD_COUNTS},
        {{{1, 6000, 1, 1, 2000}, {1, 6000, 1, 1, 1}}, TL_BAD_COUNTS},
        {{{1, 6000, 1, 1, 1}, {1, 6000, 1, 1, 2000}}, TL_BAD_COUNTS},
        {{{1, half, 6000, 512, 2000}, {1, half, 6000, 512, 2000}}, TL_BAD_COUNTS},
    };
    static uint8_t first[TL_LONGEST_LOG], second[TL_LONGEST_LOG], joined[TL_LONGEST_LOG];

    for (size_t i = 0; i < sizeof rows / sizeof *rows; i++) {
        const struct span one = write_periods(first, rows[i].logs, 1), two = write_periods(second, rows[i].logs + 1, 1);
        if (rows[i].number)
            not_joined(one, two, rows[i].number);
        else
            joined_is(one, two, write_periods(joined, rows[i].logs, 2));
    }
    CHECK(write_periods(joined, rows[0].logs, 2).length == TL_LONGEST_LOG);
}

/* The second day with one value another, in every list and for every ground that a value can bring about, and with spare bits set. `refused` joins it as
 * the first log and as the second, as it does every log. */
static void faulty_days(void)
{
    static const struct {
        int in;
        size_t record, field;
        uint64_t value, number, list, place;
    } faults[] = {
        {0, 0, 0, 0, TL_BAD_PERIOD, 0, 0},     {0, 0, 0, 31622400001, TL_BAD_PERIOD, 0, 0}, {0, 0, 1, 0, TL_BAD_MODULES, 0, 0},
        {0, 0, 1, 65, TL_BAD_MODULES, 0, 0},   {0, 0, 1, 3, TL_NO_OPENING, 0, 2},           {0, 0, 1, 64, TL_NO_OPENING, 0, 2},
        {1, 0, 0, 2, TL_STRAY_MODULE, 1, 0},   {1, 2, 1, 24, TL_STRAY_CODE, 1, 2},          {1, 4, 2, 2000, TL_OUTSIDE, 1, 4},
        {1, 3, 2, 0, TL_SEQUENCE, 1, 3},       {1, 1, 0, 0, TL_SEQUENCE, 1, 1},             {2, 4, 0, 2, TL_STRAY_MODULE, 2, 4},
        {2, 4, 2, 2000, TL_OUTSIDE, 2, 4},     {2, 0, 3, 0, TL_NO_TIME, 2, 0},              {2, 2, 2, 0, TL_TWICE, 2, 2},
        {2, 0, 1, 4, TL_UNSORTED, 2, 1},       {3, 3, 0, 2, TL_STRAY_MODULE, 3, 3},         {3, 3, 2, 2000, TL_OUTSIDE, 3, 3},
        {3, 1, 4, 3, TL_OVER_GOOD, 3, 1},      {3, 2, 1, 5, TL_NO_STANDARD, 3, 2},          {3, 2, 2, 98, TL_UNSORTED, 3, 2},
        {3, 2, 3, 65535, TL_TOO_FAST, 0, 0},   {3, 3, 3, 215, TL_TOO_FAST, 0, 1},
    };
    const size_t at[4] = {10 + 5, 10 + 6 * 4 + 5, 10 + 6 * 5 + 10 * 2 + 9, 10 + 6 * 5 + 10 * 5 + 11 * 3 + 10};
    const uint64_t lists[4] = {1, 1, 2, 3}, places[4] = {0, 4, 2, 3};
    struct written log;

    for (size_t i = 0; i < sizeof faults / sizeof *faults; i++) {
        struct records day = day_2;
        uint64_t *const values[4] = {faults[i].field ? &day.modules : &day.period, day.state[faults[i].record] + faults[i].field,
                                     day.standard[faults[i].record] + faults[i].field, day.unit[faults[i].record] + faults[i].field};
        *values[faults[i].in] = faults[i].value;
        log = write_records(&day);
        refused(log.bytes, log.length, faults[i].number, faults[i].list, faults[i].place);
    }
    for (int i = 0; i < 4; i++) {
        log = write_records(&day_2);
        log.bytes[at[i]] |= 1;
        refused(log.bytes, log.length, TL_SPARE, lists[i], places[i]);
    }
    log = write_records(&day_2);
    set_field(log.bytes, 42, 14, 6001);
    refused(log.bytes, log.length, TL_BAD_COUNTS, 0, 0);
}

/* ---- packing */

/* A log's records, as many as there may be. A state record is module, code, time; a standard module, recipe, start, theoretical time; a unit record
 * module, recipe, time, actual, effective. */
struct lists {
    uint64_t period, modules;
    size_t states, standards, units;
    uint64_t state[6000][3], standard[TL_MOST_STANDARDS][4], unit[2000][5];
};

static struct span write_lists(uint8_t *buf, const struct lists *l)
{
    uint64_t at[1] = {0}, why[3];
    uint32_t added;

    added = tl_put_header(buf, TL_LONGEST_LOG, at[0], l->period, l->modules, l->states, l->standards, l->units, at, why);
    for (size_t i = 0; i < l->states; i++)
        added &= tl_put_state(buf, TL_LONGEST_LOG, at[0], l->state[i][0], l->state[i][1], l->state[i][2], at, why);
    for (size_t i = 0; i < l->standards; i++)
        added &= tl_put_standard(buf, TL_LONGEST_LOG, at[0], l->standard[i][0], l->standard[i][1], l->standard[i][2], l->standard[i][3], at, why);
    for (size_t i = 0; i < l->units; i++)
        added &= tl_put_unit(buf, TL_LONGEST_LOG, at[0], l->unit[i][0], l->unit[i][1], l->unit[i][2], l->unit[i][3], l->unit[i][4], at, why);
    CHECK(added == 1);
    return (struct span){buf, at[0]};
}

/* Of one period, with nothing in its lists. */
static void clear(struct lists *l, uint64_t period, uint64_t modules)
{
    *l = (struct lists){.period = period, .modules = modules};
}

static void add_state(struct lists *l, uint64_t module, uint64_t code, uint64_t time)
{
    uint64_t *v = l->state[l->states++];
    v[0] = module;
    v[1] = code;
    v[2] = time;
}

static void add_standard(struct lists *l, uint64_t module, uint64_t recipe, uint64_t start, uint64_t theoretical)
{
    uint64_t *v = l->standard[l->standards++];
    v[0] = module;
    v[1] = recipe;
    v[2] = start;
    v[3] = theoretical;
}

static void add_unit(struct lists *l, uint64_t module, uint64_t recipe, uint64_t time, uint64_t actual, uint64_t effective)
{
    uint64_t *v = l->unit[l->units++];
    v[0] = module;
    v[1] = recipe;
    v[2] = time;
    v[3] = actual;
    v[4] = effective;
}

/* The records that say something new: each is held against the latest record ahead of it of its module, or of its module and recipe. */
static void pack_lists(struct lists *to, const struct lists *from)
{
    clear(to, from->period, from->modules);
    for (size_t i = 0; i < from->states; i++) {
        const uint64_t *v = from->state[i];
        size_t j = i;
        while (j > 0 && from->state[j - 1][0] != v[0])
            j--;
        if (j == 0 || from->state[j - 1][1] != v[1])
            add_state(to, v[0], v[1], v[2]);
    }
    for (size_t i = 0; i < from->standards; i++) {
        const uint64_t *v = from->standard[i];
        size_t j = i;
        while (j > 0 && (from->standard[j - 1][0] != v[0] || from->standard[j - 1][1] != v[1]))
            j--;
        if (j == 0 || from->standard[j - 1][3] != v[3])
            add_standard(to, v[0], v[1], v[2], v[3]);
    }
    for (size_t i = 0; i < from->units; i++)
        add_unit(to, from->unit[i][0], from->unit[i][1], from->unit[i][2], from->unit[i][3], from->unit[i][4]);
}

/* A call on a buffer of just the log's length: `due` comes to its front and zeros behind it, and nothing beside it changes. */
static void packs(struct span log, struct span due)
{
    uint8_t *buf = copied(log.bytes, log.length);
    uint64_t lent[3], why[5];

    memset(lent, 0xa5, sizeof lent);
    memset(why, 0xa5, sizeof why);
    CHECK(due.length <= log.length);
    CHECK(tl_pack(buf, log.length, lent + 1, why + 1) == 1);
    CHECK(is(why + 1, 0, 0, 0) && all(why, sizeof *why, 0xa5) && all(why + 4, sizeof *why, 0xa5));
    CHECK(lent[1] == due.length && all(lent, sizeof *lent, 0xa5) && all(lent + 2, sizeof *lent, 0xa5));
    CHECK(!memcmp(buf, due.bytes, due.length));
    CHECK(all(buf + due.length, log.length - due.length, 0));
    free(buf);
}

/* Nothing that is answered of modules and tool is another. */
static void sums_stay(struct span log, struct span packed, size_t modules)
{
    uint8_t printed[2][TL_LONGEST_REPORT];
    uint64_t times[2][6], quantities[2][5], losses[2][5], why[3];
    const struct span logs[2] = {log, packed};
    size_t length[2];

    for (size_t m = 0; m <= modules; m++) {
        for (int i = 0; i < 2; i++) {
            if (m < modules) {
                CHECK(tl_module_state_times(logs[i].bytes, logs[i].length, m, times[i], why) == 1);
                CHECK(tl_module_quantities(logs[i].bytes, logs[i].length, m, quantities[i], why) == 1);
                CHECK(tl_module_losses(logs[i].bytes, logs[i].length, m, losses[i], why) == 1);
            } else {
                CHECK(tl_tool_state_times(logs[i].bytes, logs[i].length, times[i], why) == 1);
                CHECK(tl_tool_quantities(logs[i].bytes, logs[i].length, quantities[i], why) == 1);
                CHECK(tl_tool_losses(logs[i].bytes, logs[i].length, losses[i], why) == 1);
            }
        }
        CHECK(!memcmp(times[0], times[1], sizeof times[0]) && !memcmp(quantities[0], quantities[1], sizeof quantities[0]));
        CHECK(!memcmp(losses[0], losses[1], sizeof losses[0]));
    }
    for (int i = 0; i < 2; i++)
        length[i] = tl_report(logs[i].bytes, logs[i].length, printed[i], TL_LONGEST_REPORT);
    CHECK(length[0] > 0 && length[0] == length[1] && !memcmp(printed[0], printed[1], length[0]));
}

/* The log is packed to `due`, which is packed already. With a byte behind it that counts as its own it is refused; one that does not stays. */
static void packed_is(struct span log, struct span due, size_t modules)
{
    uint8_t *longer = calloc(log.length + 1, 1);
    uint64_t length[1], why[3];

    packs(log, due);
    packs(due, due);
    sums_stay(log, due, modules);
    if (!longer)
        abort();
    for (int last = 0; last < 256; last += 255) {
        memcpy(longer, log.bytes, log.length);
        longer[log.length] = (uint8_t)last;
        length[0] = 9;
        CHECK(tl_pack(longer, log.length + 1, length, why) == 0 && is(why, TL_BAD_LENGTH, 0, 0) && length[0] == 9);
        CHECK(!memcmp(longer, log.bytes, log.length) && longer[log.length] == last);
        CHECK(tl_pack(longer, log.length, length, why) == 1 && length[0] == due.length && longer[log.length] == last);
    }
    free(longer);
}

static struct lists unpacked, kept;

/* The log of `unpacked` is packed to that of what pack_lists keeps of it: so many state records and standards. */
static void keeps(size_t states, size_t standards)
{
    static uint8_t log[TL_LONGEST_LOG], due[TL_LONGEST_LOG];

    pack_lists(&kept, &unpacked);
    CHECK(kept.states == states && kept.standards == standards && kept.units == unpacked.units);
    packed_is(write_lists(log, &unpacked), write_lists(due, &kept), unpacked.modules);
}

/* A shift of two modules. Codes are repeated, once in the last ms; module 1 opens with the code that module 0 just got, at 10 goes to another one of
 * the same state, and at 20 to the one that module 0 just got. Recipe 3 is stated three times, revised and revised back; recipe 4 has its time, at both
 * modules, and is stated once more for the last ms. */
static const struct records a_shift = {
    1000, 2, 10, 8, 8,
    {{0, 0, 0}, {1, 0, 0}, {0, 0, 10}, {1, 1, 10}, {0, 7, 20}, {1, 7, 20}, {0, 7, 30}, {0, 0, 40}, {1, 7, 50}, {0, 0, 999}},
    {{0, 3, 0, 5}, {0, 3, 100, 5}, {0, 3, 200, 5}, {0, 3, 300, 4}, {0, 3, 400, 5}, {0, 4, 0, 5}, {1, 4, 0, 5}, {1, 4, 999, 5}},
    {{0, 3, 99, 10, 9}, {0, 3, 100, 20, 15}, {0, 3, 250, 40, 0}, {0, 3, 300, 3, 3}, {0, 4, 300, 7, 1}, {0, 3, 400, 50, 49}, {1, 4, 998, 1, 1},
     {1, 4, 999, 2, 0}},
};
static const struct records the_packed_shift = {
    1000, 2, 6, 5, 8,
    {{0, 0, 0}, {1, 0, 0}, {1, 1, 10}, {0, 7, 20}, {1, 7, 20}, {0, 0, 40}},
    {{0, 3, 0, 5}, {0, 3, 300, 4}, {0, 3, 400, 5}, {0, 4, 0, 5}, {1, 4, 0, 5}},
    {{0, 3, 99, 10, 9}, {0, 3, 100, 20, 15}, {0, 3, 250, 40, 0}, {0, 3, 300, 3, 3}, {0, 4, 300, 7, 1}, {0, 3, 400, 50, 49}, {1, 4, 998, 1, 1},
     {1, 4, 999, 2, 0}},
};

static void packed_shift(void)
{
    const struct written log = write_records(&a_shift), packed = write_records(&the_packed_shift);
    const uint64_t before[8] = {10, 20, 40, 3, 50, 7, 1, 2}, after[5] = {70, 3, 50, 7, 3};

    packed_is(all_of(&log), all_of(&packed), 2);
    credited_are(&log, before, 8);
    credited_are(&packed, after, 5);
}

/* A day that was not scheduled, told three times, by its bytes; the joined days, of which the second's openings and two standards go; and case W, of
 * which nothing does. */
static void packed_by_hand(void)
{
    const uint8_t told[28] = {0x00, 0xa4, 0xcb, 0x80, 0x00, 0x40, 0x03, 0x00, 0x00, 0x00, 0x02, 0xc0, 0x00, 0x00, 0x00, 0x00,
                              0x02, 0xc0, 0x00, 0xdb, 0xba, 0x00, 0x02, 0xc0, 0x01, 0xb7, 0x74, 0x00};
    static const struct records days = {
        3000, 2, 9, 6, 7,
        {{0, 0, 0}, {1, 7, 0}, {0, 12, 300}, {1, 3, 300}, {0, 0, 400}, {0, 18, 999}, {0, 5, 1001}, {1, 22, 2500}, {0, 7, 2999}},
        {{0, 2, 1000, 3}, {0, 3, 0, 5}, {0, 3, 500, 4}, {0, 3, 1100, 2}, {1, 3, 0, 6}, {1, 1023, 1001, 7}},
        {{0, 3, 250, 20, 15}, {0, 3, 999, 7, 0}, {1, 3, 999, 31, 30},
         {0, 3, 1000, 40, 40}, {0, 3, 1099, 2, 1}, {0, 2, 1100, 300, 0}, {1, 1023, 2999, 9, 8}},
    };
    const struct written idle = write_idle(), both = write_records(&both_days), packed = write_records(&days);

    packed_is((struct span){told, sizeof told}, all_of(&idle), 1);
    packed_is(all_of(&both), all_of(&packed), 2);
    packed_is((struct span){week, sizeof week}, (struct span){week, sizeof week}, 3);
}

/* Every code behind every code. */
static void each_code(void)
{
    for (uint64_t before = 0; before < 24; before++) {
        for (uint64_t code = 0; code < 24; code++) {
            clear(&unpacked, 100, 1);
            add_state(&unpacked, 0, before, 0);
            add_state(&unpacked, 0, code, 99);
            keeps(code == before ? 1 : 2, 0);
        }
    }
}

/* Each module has its own code before: of 64 modules one goes on with its code, and the others change; or one changes. */
static void each_module(void)
{
    for (uint64_t own = 0; own < 64; own++) {
        for (int changes = 0; changes < 2; changes++) {
            clear(&unpacked, 100, 64);
            for (uint64_t m = 0; m < 64; m++)
                add_state(&unpacked, m, m % 24, 0);
            for (uint64_t m = 0; m < 64; m++)
                add_state(&unpacked, m, (m + (m == own ? (uint64_t)changes : 1 - (uint64_t)changes)) % 24, 50);
            keeps(changes ? 65 : 127, 0);
        }
    }
}

/* Two standards of one module and recipe that differ in a single bit of their time, and two of one time that differ in a single bit of their module or
 * recipe. The second is stated once more. */
static void each_bit(void)
{
    const uint64_t greatest = (1 << 27) - 1, one = 1;

    for (unsigned bit = 0; bit < 27; bit++) {
        const uint64_t times[2] = {bit ? 1 : 2, greatest};
        for (int i = 0; i < 2; i++) {
            clear(&unpacked, 100, 1);
            add_state(&unpacked, 0, 0, 0);
            add_standard(&unpacked, 0, 3, 0, times[i]);
            add_standard(&unpacked, 0, 3, 1, times[i] ^ one << bit);
            add_standard(&unpacked, 0, 3, 2, times[i] ^ one << bit);
            keeps(1, 2);
        }
    }
    for (unsigned bit = 0; bit < 16; bit++) {
        const uint64_t module = bit < 6 ? one << bit : 0, recipe = bit < 6 ? 0 : one << (bit - 6);
        clear(&unpacked, 100, 64);
        for (uint64_t m = 0; m < 64; m++)
            add_state(&unpacked, m, m % 24, 0);
        add_standard(&unpacked, 0, 0, 0, greatest);
        add_standard(&unpacked, module, recipe, 50, greatest);
        add_standard(&unpacked, module, recipe, 99, greatest);
        keeps(64, 2);
    }
}

/* The longest log of a module that goes on with one code, and of a recipe stated 512 times: one record of each is left. And one of which every record
 * stays, on the longest period. */
static void packed_longest(void)
{
    clear(&unpacked, 6000, 1);
    for (uint64_t t = 0; t < 6000; t++)
        add_state(&unpacked, 0, 5, t);
    for (uint64_t i = 0; i < TL_MOST_STANDARDS; i++)
        add_standard(&unpacked, 0, 1023, 2 * i, 3);
    for (uint64_t i = 0; i < 2000; i++)
        add_unit(&unpacked, 0, 1023, 3 * i, 1, i % 2);
    keeps(1, 1);
    /* the last of each list says something new */
    unpacked.state[5999][1] = 4;
    unpacked.standard[511][3] = 2;
    keeps(2, 2);

    clear(&unpacked, 31622400000, 64);
    for (uint64_t i = 0; i < 6000; i++)
        add_state(&unpacked, i % 64, i / 64 % 24, i < 64 ? 0 : 31622400000 - 6000 + i);
    for (uint64_t i = 0; i < TL_MOST_STANDARDS; i++)
        add_standard(&unpacked, i / 8, 7 + i % 8 / 4, i % 4 * 1000000, 3 + i % 2);
    for (uint64_t i = 0; i < 2000; i++)
        add_unit(&unpacked, i % 64, 8, i / 64 * 1000000, 65535, i);
    keeps(6000, TL_MOST_STANDARDS);
}

static uint64_t below(uint64_t *seed, uint64_t bound)
{
    *seed = *seed * 6364136223846793005u + 1442695040888963407u;
    return (*seed >> 33) % bound;
}

/* Random logs of few codes, recipes and times, so that many records say nothing new. At each ms each recipe has the time in force that it had. */
static void packed_random(void)
{
    static uint8_t log[TL_LONGEST_LOG], due[TL_LONGEST_LOG];
    uint64_t seed = 20261201, was[2], is_now[2], why[3];

    for (int turn = 0; turn < 500; turn++) {
        struct span whole, packed;

        clear(&unpacked, 40, 1 + below(&seed, 3));
        for (uint64_t t = 0; t < 40; t++) {
            for (uint64_t m = 0; m < unpacked.modules; m++) {
                if (t == 0 || below(&seed, 4) == 0)
                    add_state(&unpacked, m, below(&seed, 3) * (uint64_t)(turn % 8), t);
            }
        }
        for (uint64_t m = 0; m < unpacked.modules; m++) {
            for (uint64_t recipe = 0; recipe < 3; recipe++) {
                for (uint64_t t = 0; t < 40; t++) {
                    if (below(&seed, 12) == 0)
                        add_standard(&unpacked, m, recipe, t, 1 + below(&seed, 2));
                }
            }
        }
        pack_lists(&kept, &unpacked);
        whole = write_lists(log, &unpacked);
        packed = write_lists(due, &kept);
        packed_is(whole, packed, unpacked.modules);
        for (uint64_t m = 0; m < unpacked.modules; m++) {
            for (uint64_t i = 0; i < 3 * 40; i++) {
                const uint32_t found = tl_standard_in_force(whole.bytes, whole.length, m, i % 3, i / 3, was, why);
                CHECK(tl_standard_in_force(packed.bytes, packed.length, m, i % 3, i / 3, is_now, why) == found);
                CHECK(found == 2 || was[TL_THEORETICAL] == is_now[TL_THEORETICAL]);
            }
        }
    }
}

/* ---- writing */

/* The adding calls by the list of their records: sizes in bytes, widths in bits. What is left of a record is spare. */
static const struct {
    size_t size;
    unsigned fields, widths[5];
} kinds[4] = {
    {10, 5, {35, 7, 14, 11, 13}},
    {6, 3, {6, 5, 35}},
    {10, 4, {6, 10, 35, 27}},
    {11, 5, {6, 10, 35, 16, 16}},
};

static uint32_t put(int list, uint8_t *buf, size_t buf_len, size_t at, const uint64_t v[5], uint64_t next[1], uint64_t why[3])
{
    switch (list) {
    case 0:
        return tl_put_header(buf, buf_len, at, v[0], v[1], v[2], v[3], v[4], next, why);
    case 1:
        return tl_put_state(buf, buf_len, at, v[0], v[1], v[2], next, why);
    case 2:
        return tl_put_standard(buf, buf_len, at, v[0], v[1], v[2], v[3], next, why);
    default:
        return tl_put_unit(buf, buf_len, at, v[0], v[1], v[2], v[3], v[4], next, why);
    }
}

/* What an adding call is lent, with guards on both sides of each array: a buffer of up to MOST bytes from bytes[GUARD] on, next[1], and why[1] to
 * why[3]. */
enum { GUARD = 32, MOST = 64 };

struct lent {
    uint8_t bytes[GUARD + MOST + GUARD];
    uint64_t next[3], why[5];
};

static struct lent lend(unsigned char fill)
{
    struct lent l;
    memset(l.bytes, fill, sizeof l.bytes);
    memset(l.next, 0xa5, sizeof l.next);
    memset(l.why, 0xa5, sizeof l.why);
    return l;
}

static int same(const struct lent *a, const struct lent *b)
{
    return !memcmp(a->bytes, b->bytes, sizeof a->bytes) && !memcmp(a->next, b->next, sizeof a->next) && !memcmp(a->why, b->why, sizeof a->why);
}

/* A call that adds its record: its values are read back bit by bit, its spare bits are 0, whatever was there, and nothing else changes. */
static void added(int list, const uint64_t values[5], size_t buf_len, size_t at)
{
    const unsigned char fills[3] = {0x00, 0xff, 0xa5};
    const size_t size = kinds[list].size;

    for (int n = 0; n < 3; n++) {
        struct lent was = lend(fills[n]), now = was;
        uint8_t *record = now.bytes + GUARD + at;
        unsigned from = 0;

        CHECK(put(list, now.bytes + GUARD, buf_len, at, values, now.next + 1, now.why + 1) == 1);
        CHECK(is(now.why + 1, 0, 0, 0) && now.next[1] == at + size);
        for (unsigned i = 0; i < kinds[list].fields; i++) {
            CHECK(field(record, from, kinds[list].widths[i]) == values[i]);
            from += kinds[list].widths[i];
        }
        CHECK(field(record, from, (unsigned)(8 * size) - from) == 0);

        memset(record, fills[n], size);
        memset(now.next + 1, 0xa5, sizeof *now.next);
        memset(now.why + 1, 0xa5, 3 * sizeof *now.why);
        CHECK(same(&now, &was));
    }
}

/* A call that adds nothing: it gives the reason, and nothing else changes. */
static void not_added(int list, const uint64_t values[5], size_t buf_len, size_t at, uint64_t number, uint64_t in_list)
{
    struct lent was = lend(0xa5), now = was;

    CHECK(put(list, now.bytes + GUARD, buf_len, at, values, now.next + 1, now.why + 1) == 0);
    CHECK(is(now.why + 1, number, in_list, 0));
    memset(now.why + 1, 0xa5, 3 * sizeof *now.why);
    CHECK(same(&now, &was));
}

/* Records of each kind, worked out by hand: small values, and fields with every bit set beside fields with none. */
static void worked_out(void)
{
    const uint64_t ones_35 = 0x7ffffffff, ones_27 = 0x7ffffff;
    const struct {
        int list;
        uint64_t values[5];
        uint8_t bytes[11];
    } records[] = {
        {0, {1, 2, 3, 4, 5}, {0x00, 0x00, 0x00, 0x00, 0x20, 0x80, 0x03, 0x00, 0x80, 0x05}},
        {0, {ones_35, 0, 0x3fff, 0, 0x1fff}, {0xff, 0xff, 0xff, 0xff, 0xe0, 0x3f, 0xff, 0x00, 0x1f, 0xff}},
        {0, {0, 0x7f, 0, 0x7ff, 0}, {0x00, 0x00, 0x00, 0x00, 0x1f, 0xc0, 0x00, 0xff, 0xe0, 0x00}},
        {1, {1, 2, 3}, {0x04, 0x40, 0x00, 0x00, 0x00, 0x0c}},
        {1, {0x3f, 0, ones_35}, {0xfc, 0x1f, 0xff, 0xff, 0xff, 0xfc}},
        {1, {0, 0x1f, 0}, {0x03, 0xe0, 0x00, 0x00, 0x00, 0x00}},
        {2, {1, 2, 3, 4}, {0x04, 0x02, 0x00, 0x00, 0x00, 0x00, 0x60, 0x00, 0x00, 0x10}},
        {2, {0x3f, 0, ones_35, 0}, {0xfc, 0x00, 0xff, 0xff, 0xff, 0xff, 0xe0, 0x00, 0x00, 0x00}},
        {2, {0, 0x3ff, 0, ones_27}, {0x03, 0xff, 0x00, 0x00, 0x00, 0x00, 0x1f, 0xff, 0xff, 0xfc}},
        {3, {1, 2, 3, 4, 5}, {0x04, 0x02, 0x00, 0x00, 0x00, 0x00, 0x60, 0x00, 0x80, 0x00, 0xa0}},
        {3, {0x3f, 0, ones_35, 0, 0xffff}, {0xfc, 0x00, 0xff, 0xff, 0xff, 0xff, 0xe0, 0x00, 0x1f, 0xff, 0xe0}},
        {3, {0, 0x3ff, 0, 0xffff, 0}, {0x03, 0xff, 0x00, 0x00, 0x00, 0x00, 0x1f, 0xff, 0xe0, 0x00, 0x00}},
    };

    for (size_t i = 0; i < sizeof records / sizeof *records; i++) {
        const size_t size = kinds[records[i].list].size;
        uint8_t buf[11];
        uint64_t next[1], why[3];
        memset(buf, 0xa5, sizeof buf);
        CHECK(put(records[i].list, buf, size, 0, records[i].values, next, why) == 1);
        CHECK(!memcmp(buf, records[i].bytes, size));
    }
}

/* Buffers that are too short, just long enough and longer; positions from 0 to past the end, and so great that their sum with the size wraps. */
static void positions(void)
{
    const uint64_t values[5] = {1, 2, 3, 4, 5};

    for (int list = 0; list < 4; list++) {
        const size_t size = kinds[list].size, lengths[5] = {0, size - 1, size, size + 1, MOST};
        for (int n = 0; n < 5; n++) {
            for (size_t at = 0; at <= MOST + 1; at++) {
                if (at + size <= lengths[n])
                    added(list, values, lengths[n], at);
                else
                    not_added(list, values, lengths[n], at, TL_SHORT_BUFFER, 0);
            }
            for (size_t less = 0; less <= MOST; less++)
                not_added(list, values, lengths[n], SIZE_MAX - less, TL_SHORT_BUFFER, 0);
            for (int bit = 8; bit < 64; bit++)
                not_added(list, values, lengths[n], (size_t)1 << bit, TL_SHORT_BUFFER, 0);
        }
    }
}

/* Each field at its greatest, one past it and wider still, beside fields that are 0 and fields at their greatest, wherever the record is to stand. */
static void widths(void)
{
    const size_t places[5] = {0, 3, MOST, MOST + 1, SIZE_MAX};

    for (int list = 0; list < 4; list++) {
        for (unsigned i = 0; i < kinds[list].fields; i++) {
            const uint64_t greatest = (UINT64_C(1) << kinds[list].widths[i]) - 1;
            for (int others = 0; others < 2; others++) {
                uint64_t values[5] = {0};
                for (unsigned o = 0; others && o < kinds[list].fields; o++)
                    values[o] = (UINT64_C(1) << kinds[list].widths[o]) - 1;
                values[i] = greatest;
                added(list, values, MOST, 3);
                for (int n = 0; n < 5; n++) {
                    for (unsigned bit = kinds[list].widths[i]; bit < 64; bit++) {
                        values[i] = UINT64_C(1) << bit;
                        not_added(list, values, MOST, places[n], TL_TOO_WIDE, (uint64_t)list);
                    }
                    values[i] = UINT64_MAX;
                    not_added(list, values, MOST, places[n], TL_TOO_WIDE, (uint64_t)list);
                    not_added(list, values, 0, places[n], TL_TOO_WIDE, (uint64_t)list);
                }
            }
        }
    }
}

/* What a value means is left to the finishing call, and a refused adding call counts as not made. */
static void written(void)
{
    const struct written log = write_case_w(3600000);
    const uint8_t idle[16] = {0x00, 0xa4, 0xcb, 0x80, 0x00, 0x40, 0x01, 0x00, 0x00, 0x00, 0x02, 0xc0, 0x00, 0x00, 0x00, 0x00};
    uint8_t buf[16];
    uint64_t at[1] = {0}, why[3];

    CHECK(log.length == sizeof week && !memcmp(log.bytes, week, sizeof week));

    CHECK(tl_put_header(buf, sizeof buf, at[0], 86400000, 128, 1, 0, 0, at, why) == 0 && is(why, TL_TOO_WIDE, 0, 0));
    CHECK(tl_put_header(buf, sizeof buf, at[0], 86400000, 1, 1, 0, 0, at, why) == 1 && at[0] == 10);
    CHECK(tl_finish_log(buf, sizeof buf, at[0], why) == 0 && is(why, TL_BAD_LENGTH, 0, 0));
    CHECK(tl_put_unit(buf, sizeof buf, at[0], 0, 0, 0, 0, 0, at, why) == 0 && is(why, TL_SHORT_BUFFER, 0, 0));
    CHECK(tl_put_state(buf, sizeof buf, at[0], 64, 22, 0, at, why) == 0 && is(why, TL_TOO_WIDE, 1, 0));
    CHECK(tl_put_standard(buf, sizeof buf, at[0], 64, 0, 0, 1, at, why) == 0 && is(why, TL_TOO_WIDE, 2, 0));
    CHECK(tl_put_standard(buf, sizeof buf, at[0], 63, 0, 0, 1, at, why) == 0 && is(why, TL_SHORT_BUFFER, 0, 0));
    CHECK(tl_put_state(buf, sizeof buf, at[0], 0, 22, 0, at, why) == 1 && at[0] == 16);
    CHECK(tl_put_state(buf, sizeof buf, at[0], 0, 22, 1, at, why) == 0 && is(why, TL_SHORT_BUFFER, 0, 0) && at[0] == 16);
    CHECK(tl_finish_log(buf, sizeof buf, at[0], why) == 1 && is(why, 0, 0, 0));
    CHECK(!memcmp(buf, idle, sizeof idle));

    CHECK(tl_put_state(buf, sizeof buf, 10, 0, 31, 0, at, why) == 1 && at[0] == 16);
    CHECK(tl_finish_log(buf, sizeof buf, at[0], why) == 0 && is(why, TL_STRAY_CODE, 1, 0));
    CHECK(tl_put_header(buf, sizeof buf, 0, 0x7ffffffff, 127, 6001, 0, 0, at, why) == 1 && at[0] == 10);
    CHECK(tl_finish_log(buf, sizeof buf, at[0], why) == 0 && is(why, TL_BAD_PERIOD, 0, 0));
}

/* Case W at the front of a longer buffer: the bytes before the position decide, and those behind it do not. */
static void finishing(void)
{
    uint8_t *exact = copied(week, sizeof week), buf[160], was[160];
    const size_t past[5] = {sizeof buf + 1, (size_t)1 << 32, ((size_t)1 << 32) + sizeof week, SIZE_MAX - sizeof week, SIZE_MAX};
    uint64_t why[3] = {9, 9, 9};

    CHECK(tl_finish_log(exact, sizeof week, sizeof week, why) == 1 && is(why, 0, 0, 0));
    CHECK(tl_finish_log(exact, sizeof week, sizeof week + 1, why) == 0 && is(why, TL_SHORT_BUFFER, 0, 0));
    free(exact);

    memset(buf, 0xa5, sizeof buf);
    memcpy(buf, week, sizeof week);
    memcpy(was, buf, sizeof buf);
    for (size_t at = 0; at <= sizeof buf; at++) {
        if (at == sizeof week)
            CHECK(tl_finish_log(buf, sizeof buf, at, why) == 1 && is(why, 0, 0, 0));
        else
            CHECK(tl_finish_log(buf, sizeof buf, at, why) == 0 && is(why, at < 10 ? TL_NO_HEADER : TL_BAD_LENGTH, 0, 0));
    }
    for (int i = 0; i < 5; i++)
        CHECK(tl_finish_log(buf, sizeof buf, past[i], why) == 0 && is(why, TL_SHORT_BUFFER, 0, 0));
    CHECK(tl_finish_log(buf, 0, 0, why) == 0 && is(why, TL_NO_HEADER, 0, 0));
    CHECK(tl_finish_log(buf, 0, 1, why) == 0 && is(why, TL_SHORT_BUFFER, 0, 0));
    CHECK(!memcmp(buf, was, sizeof buf));

    /* a log that is refused, and a position past it */
    buf[sizeof week - 1] |= 1;
    CHECK(tl_finish_log(buf, sizeof buf, sizeof week, why) == 0 && is(why, TL_SPARE, 3, 2));
    CHECK(tl_finish_log(buf, sizeof buf, sizeof buf + 1, why) == 0 && is(why, TL_SHORT_BUFFER, 0, 0));
}

/* The header's tables: refusals from 1 on, states from 0 on, and lists from 0 and from 10 on, that count up. */
static void tables(void)
{
#define NUMBER(number, word, ground) number,
#define ENTRY(entry, name) entry,
    const int numbers[] = {TL_REFUSALS(NUMBER)}, lists[] = {TL_LISTS(ENTRY)}, states[] = {TL_STATES(ENTRY)};
    CHECK(sizeof numbers / sizeof *numbers == TL_UNLIKE_TOOLS && sizeof lists / sizeof *lists == 9 && sizeof states / sizeof *states == TL_TIMES);
    CHECK(TL_UNLIKE_TOOLS == 23);
    for (int i = 0; i < TL_UNLIKE_TOOLS; i++)
        CHECK(numbers[i] == i + 1);
    for (int i = 0; i < 9; i++)
        CHECK(lists[i] == (i < 5 ? i : i + 5));
    for (int i = 0; i < TL_TIMES; i++)
        CHECK(states[i] == i);
}

int main(void)
{
    tables();
    worked_out();
    positions();
    widths();
    finishing();
    written();
    case_w();
    no_uptime();
    own_times();
    standards_of_modules();
    losses_of_case_w();
    losses_of_fractions();
    credited();
    in_force();
    benchmarks_of_r1_3();
    first_fault();
    of_all_modules();
    no_standards();
    joined_days();
    joined_to_itself();
    three_days();
    at_the_bounds();
    faulty_days();
    packed_shift();
    packed_by_hand();
    each_code();
    each_module();
    each_bit();
    packed_longest();
    packed_random();
    damaged();
    random_bytes();
    printf("c: %u checks, %u failed\n", checks, failures);
    return failures != 0;
}
