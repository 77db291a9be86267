/*
 * tool_log.h: the packed log of a semiconductor tool, answered: state times, the quantities, efficiencies, losses and supplemental figures of SEMI
 * E79, which standards its units were judged by, and the shift report; written, record by record; joined from two consecutive ones; and rid of the
 * records that say nothing new.
 *
 * Link libtool_log_c.a (x86-64 Linux). It needs nothing but C's memcpy, memmove and memset.
 *
 * Every function takes any sequence of bytes as a log, or as benchmarks, and always returns. It keeps no state, allocates nothing and calls nothing
 * back, so threads may call it at the same time with arrays of their own. It uses less than 64 KiB of stack.
 *
 * What a function answers
 *   1  answered (tl_examine and tl_finish_log: accepted; tl_put_...: added; tl_join: joined; tl_pack: packed). The answer's arrays are filled, and
 *      `refusal` becomes three zeros.
 *   0  refused. `refusal` holds number, list and place, and every other array keeps its content.
 *   2  none is in force (tl_standard_in_force alone). `refusal` becomes three zeros, and every other array keeps its content.
 *   tl_report alone answers a length instead, and takes no `refusal`: tl_examine gives the reason.
 *
 * What a caller can still do wrong
 *   - Pass a null pointer. None is taken, not even for a log, benchmarks or a buffer of 0 bytes.
 *   - Pass an array that is too small. Each has the size written in its parameter, which C does not enforce.
 *   - Pass a length beyond the end of a log, of the benchmarks or of the buffer.
 *   - Pass arrays that overlap one another, a log or the benchmarks, or change any of them from another thread during the call.
 *
 * Times are whole milliseconds (ms). A module is counted from 0. A log has 1 to 64 modules; asked for a module that an accepted log does not have,
 * a function refuses with number 7, list 0 and that module as place, so counting up until then visits every module.
 */
#ifndef TOOL_LOG_H
#define TOOL_LOG_H

#include <stddef.h>
#include <stdint.h>

#ifdef __cplusplus
extern "C" {
#endif

/* The longest report, and so a `buf_len` that suffices for every log. */
#define TL_LONGEST_REPORT 2494
/* The longest log, and so a `buf_len` that suffices for every joined one. TL_LONGEST_LOG + 1 bytes of a longer one are enough to decide that it is
 * refused. */
#define TL_LONGEST_LOG 63130
/* The benchmarks of 512 standards, the most that a log has. Of longer ones a byte more is enough too. */
#define TL_LONGEST_BENCHMARKS 7168
/* A `buf_len` that suffices for the listing of credited units of every log: a line has at most 14 bytes. */
#define TL_CREDITED_LISTING_ROOM 7168
#define TL_MOST_MODULES 64
#define TL_MOST_STANDARDS 512

/* Entries of `times`, in ms: the six states of SEMI E10. X(entry, name) */
#define TL_STATES(X) \
    X(0, "productive") \
    X(1, "standby") \
    X(2, "engineering") \
    X(3, "scheduled down") \
    X(4, "unscheduled down") \
    X(5, "nonscheduled")

enum {
    TL_PRODUCTIVE,
    TL_STANDBY,
    TL_ENGINEERING,
    TL_SCHEDULED,
    TL_UNSCHEDULED,
    TL_NONSCHEDULED,
    TL_TIMES
};

/* Entries of `quantities`, in ms: total time, uptime, production time, and the theoretical production time for actual and for effective units.
 * None is greater than the one before it. */
enum { TL_TOTAL, TL_UPTIME, TL_PRODUCTION, TL_ACTUAL, TL_EFFECTIVE, TL_QUANTITIES };

/* Entries of `figures`. The first four are the efficiencies, and `based` has an entry for each of those. OEE and product always have a value.
 *   availability   uptime over total
 *   operational    production over uptime
 *   rate           actual over production
 *   quality        effective over actual
 *   OEE            effective over total, the nearest double
 *   product        availability by operational, by rate, by quality, each rounded once; 0 where one of them has no base */
enum { TL_AVAILABILITY, TL_OPERATIONAL, TL_RATE, TL_QUALITY, TL_OEE, TL_PRODUCT, TL_FIGURES };
enum { TL_BASED = 4 };

/* Entries of `losses`: TL_AVAILABILITY to TL_OEE, the four losses and the OEE, in ten-thousandths of total time. */
enum { TL_LOSSES = 5 };

/* Entries of `standard`: its index in the log's list, and its theoretical time in ms. */
enum { TL_INDEX, TL_THEORETICAL, TL_STANDARD };

/* Entries of the `figures` of tl_supplemental, in ten-thousandths. */
enum { TL_REFERENCE, TL_OPTIMIZED, TL_VALUE_ADDED, TL_TOTAL_EFFECTIVE_UNITS, TL_SUPPLEMENTAL };

/* Entries of `refusal`. */
enum { TL_NUMBER, TL_LIST, TL_PLACE, TL_REFUSAL };

/* What refusal[TL_LIST] says, from 10 on of the second log of tl_join: its own list plus 10. X(list, name) */
#define TL_LISTS(X) \
    X(0, "none") \
    X(1, "states") \
    X(2, "standards") \
    X(3, "units") \
    X(4, "benchmarks") \
    X(10, "second log") \
    X(11, "second log's states") \
    X(12, "second log's standards") \
    X(13, "second log's units")

/* What refusal[TL_NUMBER] says. X(number, trade word, ground)
 * refusal[TL_PLACE] is the record's or benchmark's index from 0 in its list, or the module for 11 and 16, of either log, and for a 7 with list 0; it
 * is 0 for 1 to 5, 17, 18, 22 and 23. */
#define TL_REFUSALS(X) \
    X(1, "no header", "under 10 bytes") \
    X(2, "period", "0 or over 366 days (31,622,400,000 ms)") \
    X(3, "modules", "0 or over 64") \
    X(4, "counts", "over 6,000 state records, 512 standards or 2,000 unit records") \
    X(5, "length", "bytes other than 10 + 6 states + 10 standards + 11 units; benchmarks: 14 for each standard") \
    X(6, "spare", "a spare bit set") \
    X(7, "stray module", "module at or above the module count") \
    X(8, "stray code", "sub-state code above 23") \
    X(9, "outside", "time or start at or past the period") \
    X(10, "sequence", "time, then module, not above the record before, or not later than its own module's last") \
    X(11, "no opening", "a module whose first record is not at time 0, or that has none") \
    X(12, "no time", "theoretical time 0, or a time of a benchmark 0") \
    X(13, "twice", "module, recipe and start all equal to an earlier standard's") \
    X(14, "over-good", "effective units above actual units") \
    X(15, "no standard", "none in force for a unit record") \
    X(16, "too fast", "a module's actual theoretical time above its production time") \
    X(17, "too great", "a tool sum above 9,007,199,254,740,991 ms") \
    X(18, "short buffer", "report, listing or log longer than the buffer, or a record that does not fit at its position") \
    X(19, "unsorted", "out of rising sequence: standards by module, recipe and start, units by time, module and recipe") \
    X(20, "above standard", "a time of a benchmark above its standard's theoretical time") \
    X(21, "over-counted", "total effective units of a benchmark above the effective units judged by its standard") \
    X(22, "too wide", "a value does not fit its field") \
    X(23, "unlike tools", "two logs to join whose module counts differ")

enum {
    TL_NO_HEADER = 1,
    TL_BAD_PERIOD,
    TL_BAD_MODULES,
    TL_BAD_COUNTS,
    TL_BAD_LENGTH,
    TL_SPARE,
    TL_STRAY_MODULE,
    TL_STRAY_CODE,
    TL_OUTSIDE,
    TL_SEQUENCE,
    TL_NO_OPENING,
    TL_NO_TIME,
    TL_TWICE,
    TL_OVER_GOOD,
    TL_NO_STANDARD,
    TL_TOO_FAST,
    TL_TOO_GREAT,
    TL_SHORT_BUFFER,
    TL_UNSORTED,
    TL_ABOVE_STANDARD,
    TL_OVER_COUNTED,
    TL_TOO_WIDE,
    TL_UNLIKE_TOOLS
};

/*
 * Whether the log is accepted and its report fits a buffer of `room` bytes. Nothing is written but `refusal`.
 * Refused with 18: the log is accepted, and its report is longer than `room`. With any other number: the log itself.
 * With a `room` of TL_LONGEST_REPORT or more the answer is about the log alone.
 */
uint32_t tl_examine(const uint8_t *log, size_t log_len, size_t room, uint64_t refusal[3]);

/*
 * Writes the report to the front of `buf` and answers how many bytes it has, at most TL_LONGEST_REPORT. No 0 byte is added. The bytes of `buf`
 * behind the report keep their content.
 * Answers 0, and no byte of `buf` changes, in just the cases that tl_examine refuses for a `room` of buf_len.
 * The report is text: `module avail oper rate qual oee`, a line for each module, and the tool's line. Its figures are the exact quotients rounded
 * to four places, an exact half going up, and `-` where there is no base. They are not worked out from the doubles of tl_tool_figures.
 */
size_t tl_report(const uint8_t *log, size_t log_len, uint8_t *buf, size_t buf_len);

/*
 * The six state times of a module, in ms, by TL_STATES. Each is the number of the period's milliseconds that the module was in that state; they add
 * up to the period. Refused where the log is.
 */
uint32_t tl_module_state_times(const uint8_t *log, size_t log_len, size_t module, uint64_t times[6], uint64_t refusal[3]);

/* The six state times of the tool, in ms: each is the sum of its modules'. Refused where the log is. */
uint32_t tl_tool_state_times(const uint8_t *log, size_t log_len, uint64_t times[6], uint64_t refusal[3]);

/* The five quantities of a module, in ms: total, uptime, production, actual, effective. Refused where the log is. */
uint32_t tl_module_quantities(const uint8_t *log, size_t log_len, size_t module, uint64_t quantities[5], uint64_t refusal[3]);

/* The five quantities of the tool, in ms: each is the sum of its modules'. Refused where the log is. */
uint32_t tl_tool_quantities(const uint8_t *log, size_t log_len, uint64_t quantities[5], uint64_t refusal[3]);

/*
 * The figures of a module: availability, operational, rate, quality, OEE, product, each from 0 to 1.
 * based[i] is 1 where figures[i] has a base, for i from 0 to 3. It is 0 where the denominator is 0; figures[i] is then NaN, which no comparison
 * takes for a figure, but based[i] is what to test. Refused where the log is.
 */
uint32_t tl_module_figures(const uint8_t *log, size_t log_len, size_t module, double figures[6], uint8_t based[4], uint64_t refusal[3]);

/* The figures of the tool, from its summed quantities and not from its modules' figures. Refused where the log is. */
uint32_t tl_tool_figures(const uint8_t *log, size_t log_len, double figures[6], uint8_t based[4], uint64_t refusal[3]);

/*
 * The losses of a module and its OEE, in ten-thousandths of its total time: the five parts of a bar, which make 10,000.
 *   availability   total - uptime
 *   operational    uptime - production
 *   rate           production - actual
 *   quality        actual - effective
 *   OEE            effective
 * Each starts from 10,000 times this, over total, rounded down. The ten-thousandths that are then missing go one each to the largest remainders, the
 * earlier part winning ties. No other five whole numbers that make 10,000 lie nearer to the exact shares in summed distance.
 * The OEE may differ by 1 from the report's, which is its quotient rounded to the nearest: five rounded so can make more or less than 10,000.
 * Refused where the log is.
 */
uint32_t tl_module_losses(const uint8_t *log, size_t log_len, size_t module, uint64_t losses[5], uint64_t refusal[3]);

/* The losses of the tool and its OEE, from its summed quantities and not from its modules' losses. Refused where the log is. */
uint32_t tl_tool_losses(const uint8_t *log, size_t log_len, uint64_t losses[5], uint64_t refusal[3]);

/*
 * The actual units credited to each standard, by its index in the log's list. Each unit record is judged by one standard, the one in force for its
 * module and recipe at its time, which is credited with its actual units: so the credited units of all standards add up to the actual units of the
 * log. Entries of standards that the log does not have become 0. Refused where the log is.
 */
uint32_t tl_credited_units(const uint8_t *log, size_t log_len, uint64_t units[512], uint64_t refusal[3]);

/*
 * Writes the listing of credited units to the front of `buf`, and how many bytes it has into length[0]. No 0 byte is added. The bytes of `buf` behind
 * the listing keep their content.
 * The listing is text: for each standard, in the log's sequence, a line of its index, a space and its credited units, 0 too. It has no heading, so
 * that of a log without standards has 0 bytes.
 * Refused where the log is, and then with 18: the listing is longer than the buffer.
 */
uint32_t tl_credited_listing(const uint8_t *log, size_t log_len, uint8_t *buf, size_t buf_len, uint64_t length[1], uint64_t refusal[3]);

/*
 * The standard in force for a module, a recipe and a time: of the module's standards for the recipe the one with the latest start at or before the
 * time, which may be past the period. None is in force ahead of the first start, nor for a recipe that the module has no standard for, as every one
 * above 1,023. Answers 1, or 2 where none is in force: test for 1. Refused where the log is. Each call judges the log first.
 */
uint32_t tl_standard_in_force(const uint8_t *log, size_t log_len, size_t module, size_t recipe, uint64_t time, uint64_t standard[2],
                              uint64_t refusal[3]);

/*
 * The supplemental figures of the tool, in ten-thousandths of its total time, rounded to the nearest, an exact half going up. None is over 10,000.
 *   reference, optimized, value-added   over all standards, summed: effective units judged by the standard x that time of its benchmark
 *   total effective units               over all standards, summed: total effective units of its benchmark x the standard's theoretical time
 *
 * The benchmarks are lent as the log is: one for each standard of the log, in the standards' sequence, 14 bytes each. A benchmark is its reference,
 * optimized and value-added time, in ms for each unit, and its total effective units, 27 bits each, most significant bit first, and then 4 spare bits,
 * which are 0. A log without standards takes 0 bytes of benchmarks, and its figures are 0.
 *
 * Refused where the log is, and then with list 4. First, with place 0, 5: the benchmarks are not 14 bytes for each standard. Then benchmark by
 * benchmark, with its index as place, 6: a spare bit is set; 12: one of its three times is 0; 20: one of them is above its standard's; 21: its total
 * effective units are above the effective units judged by its standard. Equal is not above, and total effective units may be 0.
 */
uint32_t tl_supplemental(const uint8_t *log, size_t log_len, const uint8_t *benchmarks, size_t benchmarks_len, uint64_t figures[4],
                         uint64_t refusal[3]);

/*
 * Writing a log. Each of these four adds one record to `buf` at position `at`, in bytes from its front, and fills `next` with the position behind the
 * record: where the next one is to be added. Period, times, starts and theoretical times are in ms; spare bits become 0. No other byte of `buf`
 * changes, and on a refusal none does, nor does `next`.
 * A standard is in force for its own module and recipe alone, from its start on until that of their next one. A log is the header, then the states,
 * standards and units that it counts, from position 0 on:
 *
 *     uint64_t at[1] = {0};
 *     tl_put_header(buf, buf_len, at[0], period, modules, states, standards, units, at, refusal)
 *         && tl_put_state(buf, buf_len, at[0], module, code, time, at, refusal) ...
 *         && tl_finish_log(buf, buf_len, at[0], refusal)
 *
 * Refused with 22, list 0 for the header, 1, 2 or 3 for the others and place 0: a value does not fit its field, whatever the position. Then with 18:
 * the record does not fit the buffer at the position, however large. What a value means is not tested here, nor the sequence of the calls:
 * tl_finish_log tests the bytes that came of them. A log written as above, that it accepts, says what was given to the calls; one whose records were
 * added in another sequence may be accepted too, and say something else.
 * The widths, in bits: period, time and start 35; modules 7; the counts of states 14, of standards 11, of units 13; module 6; code 5; recipe 10;
 * theoretical time 27; actual and effective units 16 each.
 */
uint32_t tl_put_header(uint8_t *buf, size_t buf_len, size_t at, uint64_t period, uint64_t modules, uint64_t states, uint64_t standards, uint64_t units,
                       uint64_t next[1], uint64_t refusal[3]);
uint32_t tl_put_state(uint8_t *buf, size_t buf_len, size_t at, uint64_t module, uint64_t code, uint64_t time, uint64_t next[1], uint64_t refusal[3]);
uint32_t tl_put_standard(uint8_t *buf, size_t buf_len, size_t at, uint64_t module, uint64_t recipe, uint64_t start, uint64_t theoretical,
                         uint64_t next[1], uint64_t refusal[3]);
uint32_t tl_put_unit(uint8_t *buf, size_t buf_len, size_t at, uint64_t module, uint64_t recipe, uint64_t time, uint64_t actual, uint64_t effective,
                     uint64_t next[1], uint64_t refusal[3]);

/*
 * Whether the bytes of `buf` before position `at` are a log that is accepted. Bytes from there on are not looked at, and nothing is written but
 * `refusal`. Refused with 18: the position is past the buffer. With any other number: the log, as tl_examine refuses it.
 */
uint32_t tl_finish_log(const uint8_t *buf, size_t buf_len, size_t at, uint64_t refusal[3]);

/*
 * Joins two consecutive logs of a tool. Writes the joined log to the front of `buf`, and how many bytes it has into length[0]: the two lengths added,
 * less 10. The bytes of `buf` behind it keep their content.
 * `first` is the earlier one. Its period is where the second begins: the second's times and starts move up by it, and the joined period is both. The
 * first's states stand ahead of the second's, and so do its units; the standards of both are merged into their rising sequence, where a standard's
 * index may be another. No record is left out, not even an opening state that goes on with the same code. A log does not say when its period was, so
 * logs that are exchanged, or have a day between them, are joined too.
 * The joined log is accepted. The state times and quantities of each module are the two logs' added, and each standard keeps its credited units.
 *
 * `first` and `second` may be the same bytes. A `buf_len` of TL_LONGEST_LOG suffices. The buffer is apart from both logs, so three are joined with two buffers in turn; which two come first
 * makes no difference to the bytes:
 *
 *     tl_join(monday, monday_len, tuesday, tuesday_len, two, TL_LONGEST_LOG, length, refusal)
 *         && tl_join(two, length[0], wednesday, wednesday_len, three, TL_LONGEST_LOG, length, refusal)
 *
 * Refused where the first log is. Then where the second is, with its list plus 10: list 10 for its 0, and 11, 12 or 13 for its 1, 2 or 3. Then, with
 * list 0 and place 0, 23: their module counts differ; 2: their periods are over 366 days together; 4: they have over 6,000 state records, 512 standards
 * or 2,000 unit records together; 18: the joined log is longer than the buffer. A 2 or a 4 with list 0 may be the first log's own: tl_examine tells.
 */
uint32_t tl_join(const uint8_t *first, size_t first_len, const uint8_t *second, size_t second_len, uint8_t *buf, size_t buf_len, uint64_t length[1],
                 uint64_t refusal[3]);

/*
 * Packs a log where it is: drops each state record whose code is its module's current one, and each standard whose theoretical time is the one in force
 * just before for its module and recipe. The log fills `buf`: buf_len is its length. The records that are kept close up, the header counts them,
 * length[0] becomes the packed log's length, and the bytes of `buf` from there on become 0.
 * Codes are compared, not the six states, and a record with its own module's before it, so that a module's first record is kept. So is a standard where
 * none was in force before, and one of the time of an earlier standard that another has replaced since.
 *
 * The packed log is accepted. At each ms every module has the code that it had, and every module and recipe the theoretical time in force; the period,
 * the module count and the unit records are untouched. So state times, quantities, figures, losses and the report are the log's own. No log that says
 * the same has fewer records, and each accepted one is packed to the same bytes. Packing those again changes none of them, nor the length.
 * Credited units are not kept: those of a dropped standard go to the one before it, and the standards behind it move up in the list. Benchmarks of the
 * log's standards are then those of others.
 *
 *     log_len = fread(log, 1, sizeof log, file);
 *     if (tl_pack(log, log_len, length, refusal))
 *         log_len = length[0];
 *
 * Refused where the log is, and then no byte of `buf` changes. A buffer with bytes behind its log is refused with 5, as any log of another length than
 * its header counts.
 */
uint32_t tl_pack(uint8_t *buf, size_t buf_len, uint64_t length[1], uint64_t refusal[3]);

#ifdef __cplusplus
}
#endif

#endif
