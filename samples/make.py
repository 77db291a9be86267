#!/usr/bin/env python3
"""Makes the sample logs through the library's writer, and benchmarks for them, beside this script or in another folder: make.py [FOLDER]"""

import sys
from pathlib import Path

sys.path.append(str(Path(__file__).resolve().parent.parent / "bindings" / "python"))
try:
    from tool_log import Writer, pack_benchmarks
except (OSError, AttributeError) as error:  # no shared object, or an older one
    sys.exit(f"{error}\nNo library to write the logs with. First: (cd crates/tool_log_c && rt lib) && bindings/python/build")

SECOND = 1_000
MINUTE = 60 * SECOND
HOUR = 60 * MINUTE
DAY = 24 * HOUR
WEEK = 7 * DAY

# Sub-state codes used here.
REGULAR, REWORK, LOT_ENGINEERING = 0, 2, 5
NO_PRODUCT = 7
PROCESS_ENGINEERING = 12
SET_UP, PREVENTIVE, CONSUMABLES, SCHEDULED_DELAY = 14, 15, 16, 17
REPAIR = 18
UNWORKED_SHIFT, INSTALLATION = 22, 23


def log(period, modules, states, standards, units):
    """States (module, code, time), standards (module, recipe, start, ms), units (module, recipe, time,
    actual, effective). Not finished: some are to be refused."""
    writer = Writer()
    writer.records(period, modules, states, standards, units)
    return writer.written()


def hours(count):
    """Hours as whole ms."""
    return round(count * HOUR)


def in_turn(module, stretches):
    """State records of stretches (code, hours) that follow each other from time 0 on."""
    records, time = [], 0
    for code, length in stretches:
        records.append((module, code, time))
        time += hours(length)
    return records, time


def by_time(*lists):
    """State records by time, those of equal time by module."""
    return sorted((record for records in lists for record in records), key=lambda record: (record[2], record[0]))


def case_w():
    states = [(0, 0, 0), (1, 0, 0), (2, 0, 0), (2, 7, 288_000_000), (1, 7, 532_800_000),
              (0, 7, 540_000_000), (1, 18, 568_800_000), (0, 18, 586_800_000)]
    units = [(0, 0, 3_600_000, 280, 261), (1, 0, 3_600_000, 290, 278), (2, 0, 3_600_000, 150, 150)]
    return log(WEEK, 3, states, [(module, 0, 0, 1_800_000) for module in range(3)], units)


def r1_1():
    """002, R1-1: recipes A to D are 0 to 3."""
    states, end = in_turn(0, [(REGULAR, 70), (NO_PRODUCT, 6), (REGULAR, 50), (PREVENTIVE, 8),
                              (PROCESS_ENGINEERING, 3), (REPAIR, 4), (REGULAR, 27)])
    assert end == WEEK
    standards = [(0, 0, 0, hours(0.03333)), (0, 1, 0, hours(0.04)), (0, 2, 0, hours(0.05)), (0, 3, 0, hours(0.06667))]
    units = [(0, 0, hours(45), 1420, 1400), (0, 1, hours(69), 600, 600),
             (0, 2, hours(125), 800, 800), (0, 3, hours(167), 500, 480)]
    return log(WEEK, 1, states, standards, units)


def r1_2():
    """002, R1-2: process modules A to C are 0 to 2, recipes R1 to R4 are 1 to 4."""
    a, end_a = in_turn(0, [(REGULAR, 150), (NO_PRODUCT, 10), (PROCESS_ENGINEERING, 3), (REPAIR, 5)])
    b, end_b = in_turn(1, [(REGULAR, 148), (NO_PRODUCT, 5), (PROCESS_ENGINEERING, 5), (PREVENTIVE, 5),
                           (REPAIR, 5)])
    c, end_c = in_turn(2, [(REGULAR, 80), (NO_PRODUCT, 88)])
    assert end_a == end_b == end_c == WEEK
    standards = [(0, 1, 0, hours(0.3)), (0, 2, 0, hours(0.2)), (1, 2, 0, hours(0.2)), (1, 3, 0, hours(0.1)),
                 (2, 4, 0, hours(0.15))]
    sequences = [  # (module, recipe) of each step, actual, effective
        ([(0, 1), (1, 2)], 300, 275),
        ([(1, 2), (2, 4)], 100, 100),
        ([(0, 2), (1, 3)], 250, 240),
        ([(1, 3), (2, 4)], 400, 400),
    ]
    units = [(module, recipe, hours(20 * (number + 1)), actual, effective)
             for number, (steps, actual, effective) in enumerate(sequences)
             for module, recipe in steps]
    return log(WEEK, 3, by_time(a, b, c), standards, units)


def r1_3():
    """002, R1-3: recipes A to D are 0 to 3."""
    states, end = in_turn(0, [(REGULAR, 155), (NO_PRODUCT, 13)])
    assert end == WEEK
    standards = [(0, 0, 0, hours(0.03333)), (0, 1, 0, hours(0.04)), (0, 2, 0, hours(0.05)), (0, 3, 0, hours(0.06667))]
    units = [(0, 0, hours(52), 1500, 1500), (0, 1, hours(78), 600, 600),
             (0, 2, hours(120), 800, 800), (0, 3, hours(154), 500, 480)]
    return log(WEEK, 1, states, standards, units)


def guidebook():
    """003, section 2.5: processes A and B are recipes 0 and 1."""
    states, end = in_turn(0, [
        (REGULAR, 20.4), (LOT_ENGINEERING, 4.7), (REWORK, 3.0), (SET_UP, 12), (REGULAR, 68.7),
        (REWORK, 5.6), (NO_PRODUCT, 24.6), (PROCESS_ENGINEERING, 5), (PREVENTIVE, 10),
        (CONSUMABLES, 2), (SCHEDULED_DELAY, 4), (REPAIR, 8)])
    assert end == WEEK
    standards = [(0, 0, 0, round(2.5 * MINUTE)), (0, 1, 0, round(3.3 * MINUTE))]
    units = [(0, 0, hours(20), 427, 425), (0, 0, hours(25), 99, 99), (0, 0, hours(28), 47, 0),
             (0, 1, hours(108), 1033, 1030), (0, 1, hours(114), 68, 0)]
    return log(WEEK, 1, states, standards, units)


def etcher():
    """Recipe 12 takes 300 s a wafer, from hour 48 on 200 s. The later standard comes second."""
    states, end = in_turn(0, [(REGULAR, 44), (PREVENTIVE, 4), (REGULAR, 60), (NO_PRODUCT, 12),
                              (REPAIR, 6), (REGULAR, 36), (NO_PRODUCT, 6)])
    assert end == WEEK
    standards = [(0, 12, 0, 300 * SECOND), (0, 12, hours(48), 200 * SECOND)]
    units = [(0, 12, hours(23), 250, 247), (0, 12, hours(43), 230, 230), (0, 12, hours(71), 300, 296),
             (0, 12, hours(95), 310, 309), (0, 12, hours(107), 150, 150), (0, 12, hours(143), 200, 198),
             (0, 12, hours(161), 160, 160)]
    return log(WEEK, 1, states, standards, units)


def chamber():
    """Recipe 4 takes 90 s a wafer at modules 0 and 1, and 60 s at module 2, the new chamber. Each made 600 wafers, 588 of them good."""
    modules = range(3)
    turns = [in_turn(module, [(REGULAR, 20), (NO_PRODUCT, 2), (PREVENTIVE, 2)]) for module in modules]
    assert all(end == DAY for _, end in turns)
    standards = [(0, 4, 0, 90 * SECOND), (1, 4, 0, 90 * SECOND), (2, 4, 0, 60 * SECOND)]
    units = [(module, 4, time, 300, 294) for time in (10 * HOUR, 20 * HOUR - MINUTE) for module in modules]
    return log(DAY, 3, by_time(*(states for states, _ in turns)), standards, units)


def wide():
    """64 modules, a day, each with standards for five recipes; modules 20, 41 and 62 have no uptime, every tenth makes nothing."""
    states, units = [], []
    for module in range(64):
        if module % 21 == 20:
            states.append((module, UNWORKED_SHIFT, 0))
            continue
        productive = hours(12) + module * 7 * MINUTE
        states.append((module, module % 6, 0))
        states.append((module, 6 + module % 6, productive))
        states.append((module, 14 + module % 8, productive + hours(3)))
        if module % 10 != 9:
            actual = 300 + module
            units.append((module, module % 5, hours(11), actual, actual - module % 4))
    standards = [(module, recipe, 0, (90 + 10 * recipe) * SECOND) for module in range(64) for recipe in range(5)]
    return log(DAY, 64, by_time(states), standards, units)


def longest_records():
    """A leap year of 64 modules with as many records as a log may have. Every 93 hours the modules change, eight at a time. Each module has two
    recipes of four revisions each, one shared with the module before and one with the next, but by its own times. Units come of four modules and
    two recipes at a time, some at the very start of each revision."""
    year = 366 * DAY
    states = [(module, REGULAR, 0) for module in range(64)]
    for change in range(6_000 - 64):
        turn, module = divmod(change, 64)
        code = (7 * (turn // 2) + module) % 24 if turn % 2 == 0 else turn % 6
        states.append((module, code, (turn + 1) * 93 * HOUR + module // 8 * HOUR))
    recipes = [sorted((16 * module + 15, 16 * (module + 1) % 1_024 + 15)) for module in range(64)]
    standards = [(module, recipe, (64 * revision + module // 4) * year // 256, (200 - 10 * revision) * SECOND + recipe - 250 * module)
                 for module in range(64) for recipe in recipes[module] for revision in range(4)]
    units = []
    for unit in range(2_000):
        lot, module = unit // 8, unit // 2 % 64
        actual = 2_500 + 17 * unit % 400 - 10 * module
        units.append((module, recipes[module][unit % 2], lot * year // 256, actual, actual - unit % (module + 2)))
    return year, 64, states, standards, units


def longest():
    made = log(*longest_records())
    assert len(made) == 63_130
    return made


SAME_SHIFT_STATES = [(0, REGULAR, 0), (1, REGULAR, 0), (2, NO_PRODUCT, 0), (2, REGULAR, 1 * HOUR), (1, SET_UP, 3 * HOUR),
                     (1, REGULAR, hours(3.5)), (0, PREVENTIVE, 5 * HOUR), (2, NO_PRODUCT, 5 * HOUR), (0, REGULAR, 6 * HOUR),
                     (1, REPAIR, 7 * HOUR)]
SAME_SHIFT_STANDARDS = [(0, 3, 0, 90 * SECOND), (0, 3, 4 * HOUR, 80 * SECOND), (0, 7, 0, 150 * SECOND), (1, 7, 0, 150 * SECOND),
                        (2, 3, 0, 90 * SECOND), (2, 3, 4 * HOUR, 80 * SECOND)]
SAME_SHIFT_UNITS = [(0, 3, 2 * HOUR, 70, 68), (1, 7, 2 * HOUR, 45, 45), (0, 3, 4 * HOUR, 75, 75), (0, 7, 4 * HOUR, 4, 4),
                    (2, 3, 4 * HOUR, 90, 88), (2, 3, 5 * HOUR, 45, 45), (0, 3, 7 * HOUR, 60, 59), (1, 7, 7 * HOUR, 60, 58)]


def same_shift(states=SAME_SHIFT_STATES, standards=SAME_SHIFT_STANDARDS, units=SAME_SHIFT_UNITS):
    """A shift of three modules and two recipes. Another controller lists the same records in another sequence."""
    return log(8 * HOUR, 3, states, standards, units)


def header_alone(*values):
    writer = Writer()
    writer.header(*values)
    return writer.written()


def shift(period=8 * HOUR, modules=1, states=((0, REGULAR, 0),), standards=((0, 3, 0, MINUTE),), units=((0, 3, HOUR, 60, 58),)):
    """A shift of one module and one recipe. Nothing is wrong with it but what is given."""
    return log(period, modules, states, standards, units)


def last_bit_set(made, length):
    """With the last bit of the first `length` bytes set."""
    return made[: length - 1] + bytes([made[length - 1] | 1]) + made[length:]


# 002, Table R1-2: reference, optimized and value-added hours a unit, and total effective units, of recipes A to D.
R1_3_BENCHMARKS = [(0.03333, 0.025, 0.01, 1250), (0.03333, 0.02, 0.005, 550), (0.03333, 0.015, 0.005, 725), (0.03333, 0.0325, 0.01, 450)]


def benchmarks(rows):
    """Benchmarks of rows as in 002's table, in hours."""
    return pack_benchmarks([(hours(reference), hours(optimized), hours(value_added), units) for reference, optimized, value_added, units in rows])


def r1_3_benchmarks(place=None, row=None):
    """R1-3's, or with another row at one place."""
    return benchmarks(row if i == place else given for i, given in enumerate(R1_3_BENCHMARKS))


def longest_benchmarks():
    """For each of 512 standards its own time, a half and a quarter of it, and all of its effective units."""
    _, _, _, standards, units = longest_records()
    judged = [0] * len(standards)
    for module, recipe, time, _, effective in units:
        judged[max(i for i, standard in enumerate(standards) if standard[:2] == (module, recipe) and standard[2] <= time)] += effective
    made = pack_benchmarks([(time, time // 2, time // 4, effective) for (*_, time), effective in zip(standards, judged)])
    assert len(made) == 7_168
    return made


def idle():
    """A new tool's first week: five days of installation, then nothing to do. It has no standards yet."""
    states, end = in_turn(0, [(INSTALLATION, 120), (NO_PRODUCT, 48)])
    assert end == WEEK
    return log(WEEK, 1, states, [], [])


# Two days of a tool of two modules: period, modules, states, standards, units. Module 0 is regular at both sides of midnight and has recipe 3 by the
# same time, revised at noon of tuesday; module 1 is under repair at the end of monday and set up from then on, and has recipe 3 by another time.
# Recipe 2 is run on monday alone, 4 on tuesday alone. Units are recorded in monday's last ms and at time 0 of tuesday.
MONDAY = (
    DAY, 2,
    [(0, REGULAR, 0), (1, REGULAR, 0), (1, REPAIR, 17 * HOUR), (0, NO_PRODUCT, 20 * HOUR), (0, REGULAR, 23 * HOUR)],
    [(0, 3, 0, 90 * SECOND), (1, 2, 0, 60 * SECOND), (1, 3, 0, 100 * SECOND)],
    [(1, 3, 10 * HOUR, 200, 198), (0, 3, 12 * HOUR, 300, 294), (1, 2, 15 * HOUR, 240, 240), (0, 3, DAY - 1, 320, 314)],
)
TUESDAY = (
    DAY, 2,
    [(0, REGULAR, 0), (1, SET_UP, 0), (1, REGULAR, 2 * HOUR), (1, NO_PRODUCT, 20 * HOUR), (0, PREVENTIVE, 22 * HOUR)],
    [(0, 3, 0, 90 * SECOND), (0, 3, 12 * HOUR, 80 * SECOND), (0, 4, 0, 100 * SECOND), (1, 3, 0, 80 * SECOND)],
    [(0, 3, 0, 10, 10), (0, 4, 6 * HOUR, 60, 57), (0, 3, 12 * HOUR - 1, 340, 336), (0, 3, 12 * HOUR, 20, 20), (1, 3, 17 * HOUR, 500, 495),
     (0, 3, 21 * HOUR, 400, 396)],
)


def joined(first, second):
    """The records of two consecutive logs of one tool as those of one log."""
    period, modules, *lists = first
    later, _, states, standards, units = second
    moved = ([(module, code, time + period) for module, code, time in states],
             [(module, recipe, start + period, theoretical) for module, recipe, start, theoretical in standards],
             [(module, recipe, time + period, *made) for module, recipe, time, *made in units])
    states, standards, units = (own + other for own, other in zip(lists, moved))
    return period + later, modules, states, sorted(standards), units


# A week of a tool of two modules: (code, hours) of their stretches, five days and a weekend.
MINUTES_STRETCHES = [
    [(REGULAR, 7), (REWORK, 2), (REGULAR, 7), (NO_PRODUCT, 5), (UNWORKED_SHIFT, 3)] * 5 + [(UNWORKED_SHIFT, 24), (UNWORKED_SHIFT, 24)],
    [(REGULAR, 235 / 60), (NO_PRODUCT, 1025 / 60), (UNWORKED_SHIFT, 3)] * 5 + [(UNWORKED_SHIFT, 24), (PREVENTIVE, 4), (UNWORKED_SHIFT, 20)],
]


def each_minute(module, stretches):
    """State records of stretches as in_turn's, but those of production are told again every minute."""
    records, time = [], 0
    for code, length in stretches:
        end = time + hours(length)
        records += [(module, code, at) for at in range(time, end, MINUTE if code in (REGULAR, REWORK) else end - time)]
        time = end
    assert time == WEEK
    return records


def minutes_units():
    """Each day of five, 1 ms ahead of the second shift and at the start of the third at module 0, and early in the first at module 1."""
    units = []
    for day in range(0, 5 * DAY, DAY):
        units.append((1, 4, day + 3 * HOUR, 100, 99))
        if day > 0:
            units.append((1, 5, day + 3 * HOUR, 40, 40))
        units.append((0, 3, day + 8 * HOUR - 1, 280, 277))
        units += [(0, 3, day + 16 * HOUR, 250, 250), (0, 4, day + 16 * HOUR, 60, 57)]
    return units


def minutes():
    """Its controller tells the code of production every minute and has no record left. Its schedule states the standards of two recipes each shift."""
    states = by_time(*(each_minute(module, stretches) for module, stretches in enumerate(MINUTES_STRETCHES)))
    assert len(states) == 6_000
    shifts = range(0, WEEK, 8 * HOUR)
    standards = [(0, 3, start, (80 if 2 * DAY <= start < 3 * DAY else 90) * SECOND) for start in shifts]
    standards += [(0, 4, 0, 90 * SECOND)] + [(1, 4, start, 90 * SECOND) for start in shifts] + [(1, 5, DAY, 60 * SECOND)]
    return log(WEEK, 2, states, standards, minutes_units())


def minutes_packed():
    """The same week without the records that say nothing new."""
    states = []
    for day in range(0, 5 * DAY, DAY):
        states += [(0, REGULAR, day), (1, REGULAR, day), (1, NO_PRODUCT, day + 235 * MINUTE), (0, REWORK, day + 7 * HOUR),
                   (0, REGULAR, day + 9 * HOUR), (0, NO_PRODUCT, day + 16 * HOUR), (0, UNWORKED_SHIFT, day + 21 * HOUR),
                   (1, UNWORKED_SHIFT, day + 21 * HOUR)]
    states += [(1, PREVENTIVE, 6 * DAY), (1, UNWORKED_SHIFT, 6 * DAY + 4 * HOUR)]
    standards = [(0, 3, 0, 90 * SECOND), (0, 3, 2 * DAY, 80 * SECOND), (0, 3, 3 * DAY, 90 * SECOND), (0, 4, 0, 90 * SECOND),
                 (1, 4, 0, 90 * SECOND), (1, 5, DAY, 60 * SECOND)]
    return log(WEEK, 2, states, standards, minutes_units())


SAMPLES = {
    "case-w": case_w,
    "r1-1": r1_1,
    "r1-2": r1_2,
    "r1-3": r1_3,
    "guidebook": guidebook,
    "etcher": etcher,
    "chamber": chamber,
    "wide": wide,
    "longest": longest,
    "same-shift": same_shift,
    "idle": idle,
    "monday": lambda: log(*MONDAY),
    "tuesday": lambda: log(*TUESDAY),
    "two-days": lambda: log(*joined(MONDAY, TUESDAY)),
    "minutes": minutes,
    "minutes-packed": minutes_packed,
    # One for each number from 2 to 16.
    "refused-period": lambda: shift(period=367 * DAY),
    "refused-modules": lambda: shift(modules=65),
    "refused-counts": lambda: header_alone(8 * HOUR, 1, 6_001, 1, 1),
    "refused-cut": lambda: case_w()[:-1],
    "refused-spare": lambda: last_bit_set(case_w(), 121),
    "refused-stray-module": lambda: shift(units=[(0, 3, HOUR, 60, 58), (1, 3, HOUR, 60, 58)]),
    "refused-stray-code": lambda: shift(states=[(0, REGULAR, 0), (0, 24, HOUR)]),
    "refused-outside": lambda: shift(units=[(0, 3, HOUR, 60, 58), (0, 3, 8 * HOUR, 60, 58)]),
    "refused-sequence": lambda: shift(states=[(0, REGULAR, 0), (0, NO_PRODUCT, 6 * HOUR), (0, REGULAR, 5 * HOUR)]),
    "refused-no-opening": lambda: shift(modules=2, states=[(0, REGULAR, 0), (1, REGULAR, 1)]),
    "refused-no-time": lambda: shift(standards=[(0, 3, 0, MINUTE), (0, 3, 2 * HOUR, 0)]),
    "refused-twice": lambda: shift(standards=[(0, 3, 0, MINUTE), (0, 3, 0, 50 * SECOND)]),
    "refused-over-good": lambda: shift(units=[(0, 3, HOUR, 58, 60)]),
    "refused-no-standard": lambda: shift(standards=[(0, 2, 0, MINUTE), (0, 3, 2 * HOUR, MINUTE)],
                                         units=[(0, 2, HOUR, 60, 58), (0, 3, 2 * HOUR - 1, 60, 58)]),
    "refused-too-fast": lambda: shift(modules=2, states=[(0, REGULAR, 0), (1, REGULAR, 0), (1, NO_PRODUCT, HOUR)],
                                      standards=[(0, 3, 0, MINUTE), (1, 3, 0, MINUTE)],
                                      units=[(0, 3, HOUR, 400, 396), (1, 3, HOUR, 61, 61)]),
    # For a standard: a spare bit, a module that the tool does not have, and a unit record of a module that has none.
    "refused-standard-spare": lambda: last_bit_set(case_w(), 10 + 8 * 6 + 3 * 10),
    "refused-standard-module": lambda: shift(standards=[(0, 3, 0, MINUTE), (1, 3, 0, MINUTE)]),
    "refused-other-module": lambda: shift(modules=2, states=[(0, REGULAR, 0), (1, REGULAR, 0)],
                                          units=[(0, 3, HOUR, 60, 58), (1, 3, HOUR, 60, 58)]),
    # The same shift with module 1's opening ahead of module 0's, its standards by recipe and start, its units module by module.
    "refused-module-sequence": lambda: same_shift(states=[SAME_SHIFT_STATES[1], SAME_SHIFT_STATES[0], *SAME_SHIFT_STATES[2:]]),
    "refused-unsorted-standards": lambda: same_shift(standards=sorted(SAME_SHIFT_STANDARDS, key=lambda standard: standard[1:3])),
    "refused-unsorted": lambda: same_shift(units=sorted(SAME_SHIFT_UNITS, key=lambda unit: unit[0])),
}

BENCHMARKS = {
    "r1-3": r1_3_benchmarks,
    "longest": longest_benchmarks,
    "idle": lambda: benchmarks([]),
    # R1-3's, one for each number of list 4.
    "refused-benchmark-length": lambda: r1_3_benchmarks()[:-1],
    "refused-benchmark-spare": lambda: last_bit_set(r1_3_benchmarks(), 56),
    "refused-benchmark-no-time": lambda: r1_3_benchmarks(2, (0.03333, 0.015, 0, 725)),
    "refused-above-standard": lambda: r1_3_benchmarks(1, (0.05, 0.02, 0.005, 550)),
    "refused-over-counted": lambda: r1_3_benchmarks(3, (0.03333, 0.0325, 0.01, 481)),
}

if __name__ == "__main__":
    folder = Path(sys.argv[1]) if len(sys.argv) > 1 else Path(__file__).parent
    for kind, samples in ("log", SAMPLES), ("benchmarks", BENCHMARKS):
        for name, make in samples.items():
            (folder / f"{name}.{kind}").write_bytes(make())
