#!/usr/bin/env python3
"""Makes the input of the program `cases` and what it must print: the edge cases of document 01, of R-1 and of R-5, the printed figures of 002 and
of 003's worked example, a tool with a faster chamber, and inputs that are no log, as reports and through the calls for state times, quantities,
doubles and losses; and R1-3 of 002, that tool and the refusals of benchmarks through the call for the supplemental figures. What each must give is
written here from those papers: hours as 002 prints them, doubles and losses from exact fractions. The logs are written by the library, as make.py's
are; of what they must give nothing is taken from it."""

import struct
from fractions import Fraction
from pathlib import Path

from make import HOUR, WEEK, case_w, chamber, guidebook, last_bit_set, log, pack_benchmarks, r1_1, r1_2, r1_3

# The kinds of a case, as crates/cases/src/main.rt has them.
REPORT, MODULE_TIMES, TOOL_TIMES, MODULE_QUANTITIES, TOOL_QUANTITIES, MODULE_DOUBLES, TOOL_DOUBLES, MODULE_LOSSES, TOOL_LOSSES = range(9)
WRITE, PRINT, SUPPLEMENTAL = range(9, 12)
OF_MODULE = MODULE_TIMES, MODULE_QUANTITIES, MODULE_DOUBLES, MODULE_LOSSES
OF_TOOL = TOOL_TIMES, TOOL_QUANTITIES, TOOL_DOUBLES, TOOL_LOSSES
CALLED = {
    MODULE_TIMES: "module times",
    TOOL_TIMES: "tool times",
    MODULE_QUANTITIES: "module quantities",
    TOOL_QUANTITIES: "tool quantities",
    MODULE_DOUBLES: "module doubles",
    TOOL_DOUBLES: "tool doubles",
    MODULE_LOSSES: "module losses",
    TOOL_LOSSES: "tool losses",
}
NO_BASE = 2**64 - 1

HEADING = "module avail oper rate qual oee\n"
LONGEST_REPORT = 2494
ROOM = 200  # enough for three modules
MORE = 4096  # more than every report, and as much as `cases` lends

CASE_W = (
    HEADING
    + "0 0.9702 0.9202 0.9333 0.9321 0.7768\n"
    + "1 0.9405 0.9367 0.9797 0.9586 0.8274\n"
    + "2 1.0000 0.4762 0.9375 1.0000 0.4464\n"
    + "tool 0.9702 0.7730 0.9524 0.9569 0.6835\n"
)
R1_1 = "0.9286 0.9423 0.9841 0.9862 0.8492\n"
GUIDEBOOK = "0.7857 0.7758 0.8245 0.9296 0.4672\n"
PRODUCTIVE = "1.0000 1.0000 0.0000 - 0.0000\n"
FULL_SPEED = "1.0000 1.0000 1.0000 1.0000 1.0000\n"
# The new chamber, in hours: 22 of 24, 20 of 22; 600 x 90 s are 15 of 20, 600 x 60 s are 10 of 20, and all of them 40 of 60; 588 of 600; 588 x 90 s
# are 14.7 of 24, 588 x 60 s are 9.8 of 24, and all of them 39.2 of 72.
CHAMBER = (
    HEADING
    + "0 0.9167 0.9091 0.7500 0.9800 0.6125\n"
    + "1 0.9167 0.9091 0.7500 0.9800 0.6125\n"
    + "2 0.9167 0.9091 0.5000 0.9800 0.4083\n"
    + "tool 0.9167 0.9091 0.6667 0.9800 0.5444\n"
)


def of_one_module(figures):
    return HEADING + "0 " + figures + "tool " + figures


def refused(number, in_list=0, place=0):
    return f"refused {number} list {in_list} at {place}\n"


def changes(count):
    """So many state records of one module, 1 ms apart, all productive."""
    return log(10_000, 1, [(0, 0, time) for time in range(count)], [], [])


def productive(period, modules=1, records=None):
    """Modules that are productive from 0 on."""
    return log(period, modules, [(module, 0, 0) for module in range(modules if records is None else records)], [], [])


def changed(code, time):
    """Ten milliseconds, productive up to a change."""
    return log(10, 1, [(0, 0, 0), (0, code, time)], [], [])


def made(standards, *units):
    """Ten productive milliseconds of module 0, and units of recipe 0."""
    return log(10, 1, [(0, 0, 0)], [(0, 0, *standard) for standard in standards], [(0, 0, *unit) for unit in units])


def full_speed(modules):
    """A millisecond in which each module makes a unit of 1 ms."""
    each = range(modules)
    standards, units = [(module, 0, 0, 1) for module in each], [(module, 0, 0, 1, 1) for module in each]
    return log(1, modules, [(module, 0, 0) for module in each], standards, units)


def up(length, period):
    """One module, productive for so many milliseconds and then nonscheduled."""
    return log(period, 1, [(0, 0, 0), (0, 22, length)], [], [])


def listed(states=((0, 0, 0), (1, 0, 0)), standards=((0, 0, 0, 1), (0, 1, 0, 1), (1, 0, 0, 1), (1, 1, 0, 1)), units=()):
    """Ten milliseconds of two modules and two recipes. Nothing is wrong with it but what is given."""
    return log(10, 2, states, standards, units)


def lines(modules, figures):
    return HEADING + "".join(f"{module} {figures}" for module in range(modules)) + "tool " + figures


def two_rates(*rates):
    """The report of modules 0 and 1, productive all the time, and of the tool, where every unit is effective: OEE is the rate."""
    return HEADING + "".join(f"{name} 1.0000 1.0000 {rate} 1.0000 {rate}\n" for name, rate in zip(("0", "1", "tool"), rates))


assert len(CASE_W) == 183

TWO = [(0, 2), (4, 3)]  # start and theoretical time

# R-1's rising sequence and R-5's standards of one module: name, log, expected text
IN_SEQUENCE = listed(units=[(0, 1, 5, 1, 1), (1, 0, 5, 1, 1), (1, 1, 5, 1, 1), (0, 0, 6, 1, 1)])
UNITS_ALIKE = listed(units=[(0, 0, 5, 1, 1), (0, 0, 5, 2, 1), (0, 0, 6, 1, 1)])
LOWER_RECIPE = listed(standards=[(0, 1, 0, 1), (0, 0, 5, 1)])
LOWER_MODULE = listed(states=[(1, 0, 0), (0, 0, 0)])
ONE_EACH = [(0, 0, 5, 1, 1), (1, 0, 5, 1, 1)]  # of recipe 0
STRAY_STANDARD = listed(standards=[(0, 0, 0, 1), (2, 0, 10, 1)])
OTHER_MODULE = listed(standards=[(0, 0, 0, 1), (1, 1, 0, 1)], units=ONE_EACH)
SEQUENCES = [
    ("in sequence", IN_SEQUENCE, lines(2, "1.0000 1.0000 0.2000 1.0000 0.2000\n")),
    ("openings, a lower module", LOWER_MODULE, refused(10, 1, 1)),
    ("changes, a lower module", listed(states=[(0, 0, 0), (1, 0, 0), (1, 7, 5), (0, 7, 5)]), refused(10, 1, 3)),
    ("standards, a lower recipe", LOWER_RECIPE, refused(19, 2, 1)),
    ("standards, an earlier start", listed(standards=[(0, 0, 5, 1), (0, 0, 4, 1)]), refused(19, 2, 1)),
    ("standards, a lower module", listed(standards=[(1, 0, 0, 1), (0, 1, 5, 1)]), refused(19, 2, 1)),
    ("standards, an equal neighbour", listed(standards=[(0, 0, 5, 1), (0, 0, 5, 2)]), refused(13, 2, 1)),
    ("standards, an equal one further up", listed(standards=[(0, 0, 0, 1), (0, 1, 0, 1), (0, 0, 0, 2)]), refused(13, 2, 2)),
    # 1 and 2 of 10 ms, 3 of 20
    ("standards, one further up that is equal but for its module", listed(standards=[(0, 0, 0, 1), (0, 1, 0, 1), (1, 0, 0, 2)], units=ONE_EACH),
     two_rates("0.1000", "0.2000", "0.1500")),
    # 2 and 3 of 10 ms, 5 of 20
    ("standards, modules rising, recipes falling", listed(standards=[(0, 1, 5, 2), (1, 0, 0, 3)], units=[(0, 1, 5, 1, 1), (1, 0, 5, 1, 1)]),
     two_rates("0.2000", "0.3000", "0.2500")),
    ("standards, 12 ahead of 19", listed(standards=[(0, 1, 0, 1), (0, 0, 0, 0)]), refused(12, 2, 1)),
    ("standards, 7 ahead of 9", STRAY_STANDARD, refused(7, 2, 1)),
    ("standards, 6 ahead of 7", last_bit_set(STRAY_STANDARD, len(STRAY_STANDARD)), refused(6, 2, 1)),
    ("standards, the other spare bit", STRAY_STANDARD[:-1] + bytes([STRAY_STANDARD[-1] | 2]), refused(6, 2, 1)),
    ("units, a recipe of the other module alone", OTHER_MODULE, refused(15, 3, 1)),
    ("units, an earlier time", listed(units=[(0, 0, 5, 1, 1), (1, 1, 4, 1, 1)]), refused(19, 3, 1)),
    ("units, a lower module", listed(units=[(1, 0, 5, 1, 1), (0, 1, 5, 1, 1)]), refused(19, 3, 1)),
    ("units, a lower recipe", listed(units=[(0, 1, 5, 1, 1), (0, 0, 5, 1, 1)]), refused(19, 3, 1)),
    ("units alike, other counts", UNITS_ALIKE, refused(19, 3, 1)),
    ("units, 14 ahead of 19", listed(units=[(0, 0, 5, 1, 1), (0, 0, 4, 1, 2)]), refused(14, 3, 1)),
    ("units, 15 ahead of 19", listed(units=[(0, 0, 5, 1, 1), (0, 2, 4, 1, 1)]), refused(15, 3, 1)),
    ("units, 19 ahead of the next one's 6", UNITS_ALIKE[:-1] + bytes([UNITS_ALIKE[-1] | 1]), refused(19, 3, 1)),
]

# name, log, length of the buffer, expected text; the starred cases of document 01 by their numbers
REPORTS = [
    ("1 no bytes", b"", ROOM, refused(1)),
    ("1 nine bytes", case_w()[:9], ROOM, refused(1)),
    ("2 longest period", productive(31_622_400_000), ROOM, of_one_module(PRODUCTIVE)),
    ("2 too long", productive(31_622_400_001), ROOM, refused(2)),
    ("3 64 modules", productive(1, 64), LONGEST_REPORT, lines(64, PRODUCTIVE)),
    ("3 65 modules", productive(1, 65, 64), ROOM, refused(3)),
    ("5 period less 1", changed(0, 9), ROOM, of_one_module(PRODUCTIVE)),
    ("5 at the period", changed(0, 10), ROOM, refused(9, 1, 1)),
    ("6 code 23", changed(23, 5), ROOM, of_one_module("0.5000 1.0000 0.0000 - 0.0000\n")),
    ("6 code 24", changed(24, 5), ROOM, refused(8, 1, 1)),
    ("7 one module", log(10, 1, [(0, 0, 0), (0, 7, 0)], [], []), ROOM, refused(10, 1, 1)),
    ("7 two modules", productive(10, 2), ROOM, lines(2, PRODUCTIVE)),
    ("8 at the start", made(TWO, (4, 1, 1)), ROOM, of_one_module("1.0000 1.0000 0.3000 1.0000 0.3000\n")),
    ("8 1 ms earlier", made(TWO, (3, 1, 1)), ROOM, of_one_module("1.0000 1.0000 0.2000 1.0000 0.2000\n")),
    ("8 none", made(TWO[1:], (3, 1, 1)), ROOM, refused(15, 3, 0)),
    ("9 all effective", made([(0, 2)], (0, 3, 3)), ROOM, of_one_module("1.0000 1.0000 0.6000 1.0000 0.6000\n")),
    ("9 one more", made([(0, 2)], (0, 3, 4)), ROOM, refused(14, 3, 0)),
    ("10 full speed", made([(0, 2)], (0, 5, 5)), ROOM, of_one_module(FULL_SPEED)),
    ("10 1 ms more", made([(0, 11)], (0, 1, 1)), ROOM, refused(16)),
    ("11 no uptime", log(10, 1, [(0, 22, 0)], [], []), ROOM, of_one_module("0.0000 - - - 0.0000\n")),
    ("12 1 over 20,000", up(1, 20_000), ROOM, of_one_module("0.0001 1.0000 0.0000 - 0.0000\n")),
    ("12 1 over 20,001", up(1, 20_001), ROOM, of_one_module("0.0000 1.0000 0.0000 - 0.0000\n")),
    ("14 99,996 over 100,000", up(99_996, 100_000), ROOM, of_one_module(PRODUCTIVE)),
    ("6,000 state records", changes(6_000), ROOM, of_one_module(PRODUCTIVE)),
    ("6,001 state records", changes(6_001), ROOM, refused(4)),
    ("case W in 4,096 bytes", case_w(), MORE, CASE_W),
    ("case W in 183 bytes", case_w(), 183, CASE_W),
    ("case W in 182 bytes", case_w(), 182, refused(18)),
    ("case W in no bytes", case_w(), 0, refused(18)),
    ("longest report", full_speed(64), LONGEST_REPORT, lines(64, FULL_SPEED)),
    ("longest report, 1 short", full_speed(64), LONGEST_REPORT - 1, refused(18)),
    ("longest report in 4,096 bytes", full_speed(64), MORE, lines(64, FULL_SPEED)),
    ("R1-1", r1_1(), ROOM, of_one_module(R1_1)),
    ("R1-2", r1_2(), ROOM, CASE_W),  # the figures of case W are R1-2's
    ("worked example of 003", guidebook(), ROOM, of_one_module(GUIDEBOOK)),
    ("new chamber", chamber(), ROOM, CHAMBER),
    ("one byte short", case_w()[:-1], ROOM, refused(5)),
    ("one byte long", case_w() + b"\0", ROOM, refused(5)),
    ("one byte long, 4,096 bytes", case_w() + b"\0", MORE, refused(5)),
    ("70,000 bytes", case_w() + bytes(70_000 - 121), ROOM, refused(5)),
    ("70,000 zeros", bytes(70_000), ROOM, refused(2)),
    ("no bytes for no buffer", b"", 0, refused(1)),
    *((name, data, ROOM, text) for name, data, text in SEQUENCES),
]

# the same for `write_report`, which writes nothing for a refused log
WRITES = [
    ("W in 183 bytes, write", case_w(), 183, CASE_W),
    ("W in 182 bytes, write", case_w(), 182, ""),
    ("W in no bytes, write", case_w(), 0, ""),
    ("W cut short, write", case_w()[:-1], ROOM, ""),
    ("longest report, write", full_speed(64), LONGEST_REPORT, lines(64, FULL_SPEED)),
    ("one byte long, write", case_w() + b"\0", MORE, ""),
]

# for `print_report`: name, log, expected text
PRINTS = [
    ("case W, print", case_w(), CASE_W),
    ("R1-2, print", r1_2(), CASE_W),
    ("longest report, print", full_speed(64), lines(64, FULL_SPEED)),
    ("no bytes, print", b"", refused(1)),
    ("code 24, print", changed(24, 5), refused(8, 1, 1)),
    ("one byte long, print", case_w() + b"\0", refused(5)),
    ("units alike, print", UNITS_ALIKE, refused(19, 3, 1)),
]


# ---- the calls for state times, quantities, doubles and losses


def answered(*numbers):
    """An answer: 0 and six numbers, the last 0 where there are five."""
    return (0, *numbers, 0)[:7]


def in_ms(hours):
    """Hours as the papers print them, in whole ms."""
    times = [Fraction(count) * HOUR for count in hours.split()]
    assert all(time.denominator == 1 for time in times)
    return [int(time) for time in times]


def sums(*lists):
    return [sum(column) for column in zip(*lists)]


def nearest(x):
    """The double nearest to a fraction x from 0 to 1, a tie to the even one. Python rounds a fraction so."""
    unit = Fraction(1, 2**52)
    while 0 < x < 2**52 * unit:
        unit /= 2
    return round(x / unit) * unit


def bits(x):
    """The bit pattern of a fraction that is a double, and of None, no base."""
    if x is None:
        return NO_BASE
    assert Fraction(float(x)) == x
    return int.from_bytes(struct.pack(">d", float(x)), "big")


def doubles(total, uptime, production, actual, effective):
    """Document 01, sums and figures: four efficiencies, OEE, and the product, each quotient and each multiplication rounded once."""
    pairs = [(uptime, total), (production, uptime), (actual, production), (effective, actual)]
    four = [nearest(Fraction(n, d)) if d else None for n, d in pairs]
    product = Fraction(0)
    if None not in four:
        product = four[0]
        for factor in four[1:]:
            product = nearest(product * factor)
    return [bits(x) for x in (*four, nearest(Fraction(effective, total)), product)]


def losses(total, uptime, production, actual, effective):
    """R-6: each share of total time, in ten-thousandths, rounded down; the missing ones one each to the largest remainders, the earlier part first."""
    parts = total - uptime, uptime - production, production - actual, actual - effective, effective
    exact = [Fraction(10_000 * part, total) for part in parts]
    shares = [int(share) for share in exact]
    for _ in range(10_000 - sum(shares)):
        i = max(range(5), key=lambda i: exact[i] - shares[i])
        shares[i] += 1
    return shares


def four_calls(name, data, module, times, quantities):
    """The state times, the quantities, the doubles and the losses of a module, or of the tool where the module is None."""
    kinds = OF_TOOL if module is None else OF_MODULE
    answers = [times, quantities, doubles(*quantities), losses(*quantities)]
    return [(kind, f"{name}, {CALLED[kind]}", data, module or 0, answered(*numbers)) for kind, numbers in zip(kinds, answers)]


def turned_back_by(kinds, name, data, module, number, in_list=0, place=0):
    """A log or a module that these calls turn back."""
    return [(kind, f"{name}, {CALLED[kind]}", data, module, (number, in_list, place, 0, 0, 0, 0)) for kind in kinds]


# 002, R1-1.1: productive, standby, engineering, scheduled down, unscheduled down and nonscheduled time.
R1_1_TIMES = in_ms("147.00 6.00 3.00 8.00 4.00 0.00")
# 002, Table R1-1: hours per unit, actual units, effective units. R1-1.2.3 and R1-1.2.4 print the sums as 144.66 and 142.66 hours.
R1_1_UNITS = [("0.03333", 1420, 1400), ("0.04000", 600, 600), ("0.05000", 800, 800), ("0.06667", 500, 480)]
R1_1_ACTUAL = sum(Fraction(hours) * actual for hours, actual, _ in R1_1_UNITS)
R1_1_EFFECTIVE = sum(Fraction(hours) * effective for hours, _, effective in R1_1_UNITS)
assert round(R1_1_ACTUAL, 2) == Fraction("144.66") and round(R1_1_EFFECTIVE, 2) == Fraction("142.66")
# 002, R1-1.1 and R1-1.2: total time, uptime, production time, and the two sums.
R1_1_QUANTITIES = in_ms(f"168.00 156.00 147.00 {R1_1_ACTUAL} {R1_1_EFFECTIVE}")

# 002, R1-2.1, of process modules A, B and C: the six state times in the sequence of R1_1_TIMES.
R1_2_TIMES = [
    in_ms("150.00 10.00 3.00 0.00 5.00 0.00"),
    in_ms("148.00 5.00 5.00 5.00 5.00 0.00"),
    in_ms("80.00 88.00 0.00 0.00 0.00 0.00"),
]
# 002, R1-2.2, of process modules A, B and C, and of the tool.
R1_2_QUANTITIES = [
    in_ms("168.00 163.00 150.00 140.00 130.50"),
    in_ms("168.00 158.00 148.00 145.00 139.00"),
    in_ms("168.00 168.00 80.00 75.00 75.00"),
]
R1_2_TOOL = in_ms("504.00 489.00 378.00 360.00 344.50")

# Document 01, case W: productive from 0 on, standby (code 7) from one record to the next, unscheduled down (code 18) to the period's end.
W_TIMES = [
    (540_000_000, 586_800_000 - 540_000_000, 0, 0, WEEK - 586_800_000, 0),
    (532_800_000, 568_800_000 - 532_800_000, 0, 0, WEEK - 568_800_000, 0),
    (288_000_000, WEEK - 288_000_000, 0, 0, 0, 0),
]
# Case W: the period, the uptime (to the unscheduled down), the productive time, and the units by 1,800,000 ms.
W_QUANTITIES = [
    (WEEK, 586_800_000, 540_000_000, 280 * 1_800_000, 261 * 1_800_000),
    (WEEK, 568_800_000, 532_800_000, 290 * 1_800_000, 278 * 1_800_000),
    (WEEK, WEEK, 288_000_000, 150 * 1_800_000, 150 * 1_800_000),
]
# R-6 prints the tool's.
assert losses(*sums(*W_QUANTITIES)) == [298, 2202, 357, 308, 6835]

# 003, section 2.5: the hours of the states, 28 of them scheduled down. 573 wafers at 2.5 minutes and 1,101 at 3.3 are the 5,065.8 minutes of
# document 01; 524 and 1,030 of them are good.
GUIDEBOOK_TIMES = in_ms("102.4 24.6 5.0 28 8 0")
GUIDEBOOK_QUANTITIES = in_ms(f"168.0 132.0 102.4 {Fraction('5065.8') / 60} {(524 * Fraction('2.5') + 1030 * Fraction('3.3')) / 60}")

# The new chamber: a day of 24 hours, of which each module is productive for 20, has no product for 2 and is under maintenance for 2. Each makes 600
# wafers, 588 of them good, at 90 s, 90 s and 60 s.
CHAMBER_TIMES = in_ms("20 2 0 2 0 0")
CHAMBER_QUANTITIES = [in_ms(f"24 22 20 {Fraction(600 * seconds, 3600)} {Fraction(588 * seconds, 3600)}") for seconds in (90, 90, 60)]

LONGEST_PERIOD = 31_622_400_000
GREATEST = 64 * LONGEST_PERIOD

NO_UPTIME = log(10, 1, [(0, 22, 0)], [], [])
# 73 ms: 45 productive, 14 standby, 14 scheduled down; 30 units of 1 ms, 15 of them good
FOUR_MISSING = log(73, 1, [(0, 0, 0), (0, 6, 45), (0, 14, 59)], [(0, 0, 0, 1)], [(0, 0, 44, 30, 15)])

# kind, name, log, module, expected numbers
CALLS = [
    *four_calls("R1-1", r1_1(), 0, R1_1_TIMES, R1_1_QUANTITIES),
    *four_calls("R1-1", r1_1(), None, R1_1_TIMES, R1_1_QUANTITIES),
    *four_calls("R1-2 A", r1_2(), 0, R1_2_TIMES[0], R1_2_QUANTITIES[0]),
    *four_calls("R1-2 B", r1_2(), 1, R1_2_TIMES[1], R1_2_QUANTITIES[1]),
    *four_calls("R1-2 C", r1_2(), 2, R1_2_TIMES[2], R1_2_QUANTITIES[2]),
    *four_calls("R1-2", r1_2(), None, sums(*R1_2_TIMES), R1_2_TOOL),
    *four_calls("003", guidebook(), 0, GUIDEBOOK_TIMES, GUIDEBOOK_QUANTITIES),
    *four_calls("case W 0", case_w(), 0, W_TIMES[0], W_QUANTITIES[0]),
    *four_calls("case W 1", case_w(), 1, W_TIMES[1], W_QUANTITIES[1]),
    *four_calls("case W 2", case_w(), 2, W_TIMES[2], W_QUANTITIES[2]),
    *four_calls("case W", case_w(), None, sums(*W_TIMES), sums(*W_QUANTITIES)),
    *four_calls("new chamber 2", chamber(), 2, CHAMBER_TIMES, CHAMBER_QUANTITIES[2]),
    *four_calls("new chamber", chamber(), None, sums(*[CHAMBER_TIMES] * 3), sums(*CHAMBER_QUANTITIES)),
    # no base: no uptime, and no unit made
    *four_calls("11 no uptime", NO_UPTIME, 0, (0, 0, 0, 0, 0, 10), (10, 0, 0, 0, 0)),
    *four_calls("11 no uptime", NO_UPTIME, None, (0, 0, 0, 0, 0, 10), (10, 0, 0, 0, 0)),
    *four_calls("no units", productive(10), 0, (10, 0, 0, 0, 0, 0), (10, 10, 10, 0, 0)),
    # one missing ten-thousandth, for which three tie; four missing, and one that ties goes without
    *four_calls("thirds", log(3, 1, [(0, 0, 0), (0, 6, 1), (0, 14, 2)], [], []), None, (1, 1, 0, 1, 0, 0), (3, 2, 1, 0, 0)),
    *four_calls("four missing", FOUR_MISSING, 0, (45, 14, 0, 14, 0, 0), (73, 59, 45, 30, 15)),
    # the greatest sums
    *four_calls("64 modules of 366 days", productive(LONGEST_PERIOD, 64), None, (GREATEST, 0, 0, 0, 0, 0), (GREATEST, GREATEST, GREATEST, 0, 0)),
    # a refused log answers its refusal, also where the module is a stray one
    *turned_back_by(CALLED, "no bytes", b"", 0, 1),
    *turned_back_by(CALLED, "code 24", changed(24, 5), 0, 8, 1, 1),
    *turned_back_by(CALLED, "no standard", made(TWO[1:], (3, 1, 1)), 0, 15, 3, 0),
    *turned_back_by(CALLED, "no opening of module 2", productive(10, 3, 2), 1, 11, 0, 2),
    *turned_back_by(CALLED, "one byte short, module 9", case_w()[:-1], 9, 5),
    *turned_back_by(CALLED, "a lower module", LOWER_MODULE, 0, 10, 1, 1),
    *turned_back_by(CALLED, "a lower recipe", LOWER_RECIPE, 0, 19, 2, 1),
    *turned_back_by(CALLED, "units alike", UNITS_ALIKE, 1, 19, 3, 1),
    *turned_back_by(CALLED, "a stray standard", STRAY_STANDARD, 0, 7, 2, 1),
    *turned_back_by(CALLED, "a recipe of the other module alone", OTHER_MODULE, 0, 15, 3, 1),
    # a module that an accepted log does not have
    *turned_back_by(OF_MODULE, "stray module 3", case_w(), 3, 7, 0, 3),
    *turned_back_by(OF_MODULE, "stray module 2^32 - 1", case_w(), 2**32 - 1, 7, 0, 2**32 - 1),
]

# ---- the supplemental figures

# 002, Table R1-2, in ms: reference, optimized and value-added time, and total effective units, of recipes A to D
R1_3 = [(119_988, 90_000, 36_000, 1250), (119_988, 72_000, 18_000, 550), (119_988, 54_000, 18_000, 725), (119_988, 117_000, 36_000, 450)]
# the new chamber's, in ms: a row for each module
CHAMBER_ROWS = [(60_000, 45_000, 30_000, 588), (60_000, 45_000, 30_000, 580), (60_000, 30_000, 30_000, 500)]
# ten milliseconds, two revisions of recipe 0 and two units: one of 2 ms, one of 3 ms
REVISED = made(TWO, (3, 1, 1), (5, 1, 1))


def by_benchmarks(name, data, benchmarks, *numbers):
    """Benchmarks by their rows, or as bytes, behind a log; the four figures, or a refusal."""
    packed = benchmarks if isinstance(benchmarks, bytes) else pack_benchmarks(benchmarks)
    return SUPPLEMENTAL, name, data + packed, len(data), answered(*numbers, 0, 0) if len(numbers) == 4 else (*numbers, 0, 0, 0, 0)


def but(place, row):
    """R1-3's benchmarks with another row at one place."""
    return [row if i == place else given for i, given in enumerate(R1_3)]


SUPPLEMENTALS = [
    by_benchmarks("R1-3", r1_3(), R1_3, 6706, 4589, 1595, 7733),
    # 2 + 3 of 10 ms, 1 + 1, 1 + 2, and the second unit's 3
    by_benchmarks("each revision by its own benchmark", REVISED, [(2, 1, 1, 0), (3, 1, 2, 1)], 5000, 2000, 3000, 3000),
    # 588 units of each module by its own times, in s: 588 x 180, 588 x 120 and 588 x 90 of 259,200; 588 x 90 + 580 x 90 + 500 x 60
    by_benchmarks("each module by its own benchmark", chamber(), CHAMBER_ROWS, 4083, 2722, 2042, 5213),
    by_benchmarks("benchmarks, units of two modules", chamber(), [(60_000, 45_000, 30_000, 1_176), *CHAMBER_ROWS[1:]], 21, 4, 0),
    by_benchmarks("benchmarks, a time of another module", chamber(), [*CHAMBER_ROWS[:2], (90_000, 30_000, 30_000, 500)], 20, 4, 2),
    by_benchmarks("no standards", productive(10), b"", 0, 0, 0, 0),
    by_benchmarks("no standards, a byte", productive(10), b"\0", 5, 4, 0),
    by_benchmarks("benchmarks, a byte short", r1_3(), pack_benchmarks(R1_3)[:-1], 5, 4, 0),
    by_benchmarks("benchmarks, a byte long", r1_3(), pack_benchmarks(R1_3) + b"\0", 5, 4, 0),
    by_benchmarks("benchmarks, a spare bit", r1_3(), pack_benchmarks(R1_3)[:-1] + b"\x21", 6, 4, 3),
    by_benchmarks("benchmarks, no reference time", r1_3(), but(0, (0, 90_000, 36_000, 1250)), 12, 4, 0),
    by_benchmarks("benchmarks, no optimized time", r1_3(), but(1, (119_988, 0, 18_000, 550)), 12, 4, 1),
    by_benchmarks("benchmarks, no value-added time", r1_3(), but(2, (119_988, 54_000, 0, 725)), 12, 4, 2),
    by_benchmarks("benchmarks, reference above standard", r1_3(), but(0, (119_989, 90_000, 36_000, 1250)), 20, 4, 0),
    by_benchmarks("benchmarks, optimized above standard", r1_3(), but(1, (119_988, 144_001, 18_000, 550)), 20, 4, 1),
    by_benchmarks("benchmarks, value-added above standard", r1_3(), but(3, (119_988, 117_000, 240_013, 450)), 20, 4, 3),
    by_benchmarks("benchmarks, over-counted", r1_3(), but(3, (119_988, 117_000, 36_000, 481)), 21, 4, 3),
    by_benchmarks("benchmarks, all at their bounds", REVISED, [(2, 2, 2, 1), (3, 3, 3, 1)], 5000, 5000, 5000, 5000),
    by_benchmarks("benchmarks, 12 ahead of 20 and 21", REVISED, [(3, 0, 1, 2), (3, 1, 2, 1)], 12, 4, 0),
    by_benchmarks("benchmarks, 20 ahead of 21", REVISED, [(2, 1, 1, 1), (4, 1, 2, 2)], 20, 4, 1),
    by_benchmarks("benchmarks, those of the neighbour", REVISED, [(3, 1, 2, 1), (2, 1, 1, 0)], 20, 4, 0),
    by_benchmarks("the log ahead of its benchmarks", case_w()[:-1], b"", 5, 0, 0),
]

# ---- what has to differ, so that it is seen that the program compares and tells

WRONG_TEXTS = [
    (REPORT, "a figure wrong on purpose", case_w(), ROOM, CASE_W.replace("0.6835", "0.6836")),
    (REPORT, "a place wrong on purpose", changed(24, 5), ROOM, refused(8, 1, 2)),
    (WRITE, "a length wrong on purpose", case_w(), ROOM, CASE_W[:-1]),
    (PRINT, "a number wrong on purpose", case_w()[:-1], 0, refused(6)),
]
WRONG_CALLS = [
    (MODULE_TIMES, "a time wrong on purpose", case_w(), 0, answered(*W_TIMES[0][:5], 1)),
    (TOOL_DOUBLES, "a bit wrong on purpose", case_w(), 0, answered(*doubles(*R1_2_TOOL)[:5], doubles(*R1_2_TOOL)[5] ^ 1)),
    (TOOL_LOSSES, "a share wrong on purpose", case_w(), 0, answered(299, 2202, 357, 308, 6834)),
    by_benchmarks("a ten-thousandth wrong on purpose", r1_3(), R1_3, 6706, 4589, 1596, 7733),
]


def entry(kind, name, data, asked, expected):
    title = name.encode()
    lengths = b"".join(number.to_bytes(4, "big") for number in (asked, len(data), len(expected)))
    return bytes([kind, len(title)]) + lengths + title + data + expected


def text_entry(kind, name, data, room, text):
    return entry(kind, name, data, room, text.encode())


def call_entry(kind, name, data, module, numbers):
    return entry(kind, name, data, module, b"".join(number.to_bytes(8, "big") for number in numbers))


if __name__ == "__main__":
    entries = [
        *(text_entry(REPORT, *case) for case in REPORTS),
        *(text_entry(WRITE, *case) for case in WRITES),
        *(text_entry(PRINT, name, data, 0, text) for name, data, text in PRINTS),
        *(call_entry(*case) for case in CALLS + SUPPLEMENTALS),
        *(text_entry(*case) for case in WRONG_TEXTS),
        *(call_entry(*case) for case in WRONG_CALLS),
    ]
    target = Path(__file__).parent.parent / "crates" / "cases"
    (target / "stdin").write_bytes(len(entries).to_bytes(2, "big") + b"".join(entries))
    told = "".join(f"{case[1]} differs\n" for case in WRONG_TEXTS + WRONG_CALLS)
    (target / "stdout").write_text(f"{told}{len(entries)} cases run\n")
