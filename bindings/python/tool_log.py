"""The packed log of a semiconductor tool, answered: state times, the quantities, efficiencies, losses and supplemental figures of SEMI E79, which
standards its units were judged by, and the shift report; written; joined from two consecutive ones; and rid of the records that say nothing new.

A log, and its benchmarks, are any bytes-like object. Each call answers numbers, text or bytes, or raises Refused. Times are whole milliseconds.
A module is counted from 0. write_log makes a log of its records, Writer makes it record by record, join_logs makes it of two logs, pack_log of one that
repeats itself, and pack_benchmarks makes benchmarks.
The shared object libtool_log.so stands beside this file; the environment's TOOL_LOG_LIBRARY names another.
"""

import ctypes
import os
import pathlib
from dataclasses import dataclass
from typing import Optional

LONGEST_REPORT = 2494
LONGEST_LOG = 63130
LONGEST_BENCHMARKS = 7168
CREDITED_LISTING_ROOM = 7168
MOST_STANDARDS = 512

# Which list a refusal's record or benchmark stands in. From 10 on it is one of the second of two logs to join.
LISTS = {
    0: "none",
    1: "states",
    2: "standards",
    3: "units",
    4: "benchmarks",
    10: "second log",
    11: "second log's states",
    12: "second log's standards",
    13: "second log's units",
}

# Number: (trade word, ground).
REFUSALS = {
    1: ("no header", "under 10 bytes"),
    2: ("period", "0 or over 366 days (31,622,400,000 ms)"),
    3: ("modules", "0 or over 64"),
    4: ("counts", "over 6,000 state records, 512 standards or 2,000 unit records"),
    5: ("length", "bytes other than 10 + 6 states + 10 standards + 11 units; benchmarks: 14 for each standard"),
    6: ("spare", "a spare bit set"),
    7: ("stray module", "module at or above the module count"),
    8: ("stray code", "sub-state code above 23"),
    9: ("outside", "time or start at or past the period"),
    10: ("sequence", "time, then module, not above the record before, or not later than its own module's last"),
    11: ("no opening", "a module whose first record is not at time 0, or that has none"),
    12: ("no time", "theoretical time 0, or a time of a benchmark 0"),
    13: ("twice", "module, recipe and start all equal to an earlier standard's"),
    14: ("over-good", "effective units above actual units"),
    15: ("no standard", "none in force for a unit record"),
    16: ("too fast", "a module's actual theoretical time above its production time"),
    17: ("too great", "a tool sum above 9,007,199,254,740,991 ms"),
    18: ("short buffer", "report, listing or log longer than the buffer, or a record that does not fit at its position"),
    19: ("unsorted", "out of rising sequence: standards by module, recipe and start, units by time, module and recipe"),
    20: ("above standard", "a time of a benchmark above its standard's theoretical time"),
    21: ("over-counted", "total effective units of a benchmark above the effective units judged by its standard"),
    22: ("too wide", "a value does not fit its field"),
    23: ("unlike tools", "two logs to join whose module counts differ"),
}


class Refused(Exception):
    """A log, a benchmark or a record turned back: its number (1 to 23), list (0 none, 1 states, 2 standards, 3 units, 4 benchmarks), place, and the
    words for them. For the second of two logs to join the list is 10 more: 10 to 13.

    The place is the record's or benchmark's index from 0, or the module for 11 and 16, of either log, and for a 7 with list 0. It is 0 for 1 to 5,
    17, 18, 22 and 23, whichever record a 22 is about; its list is 0 for the header.
    """

    def __init__(self, number: int, list: int, place: int):
        self.number = number
        self.list = list
        self.place = place
        self.word, self.ground = REFUSALS[number]
        super().__init__(number, list, place)

    def _whereabouts(self) -> str:
        name = LISTS[self.list]
        if name == "benchmarks":
            return "the benchmarks" if self.number == 5 else f"benchmark {self.place}"
        if name == "second log":
            return f"module {self.place} of the second log" if self.number in (11, 16) else "the second log"
        return f"record {self.place} of the {name}" if self.list > 10 else f"list {name}, place {self.place}"

    def __str__(self) -> str:
        return f"refused: {self.number} {self.word}: {self.ground} ({self._whereabouts()})"


@dataclass(frozen=True)
class StateTimes:
    """The six states of SEMI E10, in ms. A module's add up to the period."""

    productive: int
    standby: int
    engineering: int
    scheduled_down: int
    unscheduled_down: int
    nonscheduled: int


@dataclass(frozen=True)
class Quantities:
    """In ms: total time, uptime, production time, and the theoretical production time for actual and for effective units."""

    total: int
    uptime: int
    production: int
    actual: int
    effective: int


@dataclass(frozen=True)
class Figures:
    """The efficiencies, each None where it has no base; the OEE; and the product of the four, 0 where one has no base."""

    availability: Optional[float]
    operational: Optional[float]
    rate: Optional[float]
    quality: Optional[float]
    oee: float
    product: float


@dataclass(frozen=True)
class Losses:
    """The four losses and the OEE, in ten-thousandths of total time. They make 10,000, so this OEE may differ by 1 from the report's."""

    availability: int
    operational: int
    rate: int
    quality: int
    oee: int


@dataclass(frozen=True)
class InForce:
    """A standard: its index in the log's list, and its theoretical time in ms."""

    index: int
    time: int


@dataclass(frozen=True)
class Supplemental:
    """The supplemental figures of the tool, in ten-thousandths of its total time."""

    reference: int
    optimized: int
    value_added: int
    total_effective_units: int


# ---- the C functions

_u32, _u64, _size = ctypes.c_uint32, ctypes.c_uint64, ctypes.c_size_t
_Times, _Quantities, _Losses, _Refusal = ctypes.c_uint64 * 6, ctypes.c_uint64 * 5, ctypes.c_uint64 * 5, ctypes.c_uint64 * 3
_Figures, _Based, _Supplemental, _Next = ctypes.c_double * 6, ctypes.c_uint8 * 4, ctypes.c_uint64 * 4, ctypes.c_uint64 * 1
_Units, _Length, _Standard = ctypes.c_uint64 * MOST_STANDARDS, ctypes.c_uint64 * 1, ctypes.c_uint64 * 2

_library = ctypes.CDLL(os.environ.get("TOOL_LOG_LIBRARY") or str(pathlib.Path(__file__).resolve().parent / "libtool_log.so"))


def _function(name, result, *arguments):
    f = getattr(_library, name)
    f.restype = result
    f.argtypes = (ctypes.c_char_p, _size) + arguments
    return f


_P = ctypes.POINTER
_examine = _function("tl_examine", _u32, _size, _P(_Refusal))
_report = _function("tl_report", _size, ctypes.c_void_p, _size)
_module_state_times = _function("tl_module_state_times", _u32, _size, _P(_Times), _P(_Refusal))
_tool_state_times = _function("tl_tool_state_times", _u32, _P(_Times), _P(_Refusal))
_module_quantities = _function("tl_module_quantities", _u32, _size, _P(_Quantities), _P(_Refusal))
_tool_quantities = _function("tl_tool_quantities", _u32, _P(_Quantities), _P(_Refusal))
_module_figures = _function("tl_module_figures", _u32, _size, _P(_Figures), _P(_Based), _P(_Refusal))
_tool_figures = _function("tl_tool_figures", _u32, _P(_Figures), _P(_Based), _P(_Refusal))
_module_losses = _function("tl_module_losses", _u32, _size, _P(_Losses), _P(_Refusal))
_tool_losses = _function("tl_tool_losses", _u32, _P(_Losses), _P(_Refusal))
_credited_units = _function("tl_credited_units", _u32, _P(_Units), _P(_Refusal))
_credited_listing = _function("tl_credited_listing", _u32, ctypes.c_char_p, _size, _P(_Length), _P(_Refusal))
_standard_in_force = _function("tl_standard_in_force", _u32, _size, _size, _u64, _P(_Standard), _P(_Refusal))
_supplemental = _function("tl_supplemental", _u32, ctypes.c_char_p, _size, _P(_Supplemental), _P(_Refusal))
_put_header = _function("tl_put_header", _u32, _size, _u64, _u64, _u64, _u64, _u64, _P(_Next), _P(_Refusal))
_put_state = _function("tl_put_state", _u32, _size, _u64, _u64, _u64, _P(_Next), _P(_Refusal))
_put_standard = _function("tl_put_standard", _u32, _size, _u64, _u64, _u64, _u64, _P(_Next), _P(_Refusal))
_put_unit = _function("tl_put_unit", _u32, _size, _u64, _u64, _u64, _u64, _u64, _P(_Next), _P(_Refusal))
_finish_log = _function("tl_finish_log", _u32, _size, _P(_Refusal))
_join = _function("tl_join", _u32, ctypes.c_char_p, _size, ctypes.c_char_p, _size, _P(_Length), _P(_Refusal))
_pack = _function("tl_pack", _u32, _P(_Length), _P(_Refusal))


def _bytes(log) -> bytes:
    # The log's own copy: nobody else can change it while the call reads it.
    return bytes(memoryview(log))


def _within(name: str, value: int) -> int:
    # ctypes would cut a number that does not fit.
    if not 0 <= value < 1 << 64:
        raise ValueError(f"a {name} is from 0 to 2**64 - 1, not {value}")
    return value


def _int(name: str, value) -> int:
    # True and False are ints to Python, and no field's value.
    if not isinstance(value, int) or isinstance(value, bool):
        raise TypeError(f"{name} is an int, not {type(value).__name__} {value!r}")
    return value


def _ask(function, log, *arguments) -> int:
    log = _bytes(log)
    refusal = _Refusal()
    flag = function(log, len(log), *arguments, ctypes.byref(refusal))
    if not flag:
        raise Refused(*refusal)
    return flag


def _numbers(answer, array, function, log, *arguments):
    """The answer of the whole numbers that a function puts into an array."""
    numbers = array()
    _ask(function, log, *arguments, ctypes.byref(numbers))
    return answer(*numbers)


# ---- what a dashboard calls


def _lent(buffer: bytearray):
    # An array of at least one byte, since a pointer to none may be null.
    return (ctypes.c_char * len(buffer)).from_buffer(buffer) if buffer else ctypes.create_string_buffer(1)


def examine(log, room: int = LONGEST_REPORT) -> None:
    """Returns where the log is accepted and its report fits `room` bytes, and raises Refused elsewhere."""
    _ask(_examine, log, _within("room", room))


def report_into(log, buffer: bytearray) -> int:
    """Writes the report to the front of the buffer and answers its length. Raises Refused, with no byte changed, where examine does for its length."""
    log = _bytes(log)
    lent = _lent(buffer)
    written = _report(log, len(log), ctypes.addressof(lent), len(buffer))
    if not written:
        examine(log, len(buffer))
    return written


def report(log) -> str:
    """The shift report: a heading, a line for each module, and the tool's line."""
    buffer = bytearray(LONGEST_REPORT)
    return buffer[: report_into(log, buffer)].decode("ascii")


def module_count(log) -> int:
    """How many modules the log has, from 1 to 64."""
    examine(log)
    for module in range(65):
        try:
            module_state_times(log, module)
        except Refused:
            return module
    raise AssertionError("a log has at most 64 modules")


def module_state_times(log, module: int) -> StateTimes:
    return _numbers(StateTimes, _Times, _module_state_times, log, _within("module", module))


def tool_state_times(log) -> StateTimes:
    return _numbers(StateTimes, _Times, _tool_state_times, log)


def module_quantities(log, module: int) -> Quantities:
    return _numbers(Quantities, _Quantities, _module_quantities, log, _within("module", module))


def tool_quantities(log) -> Quantities:
    return _numbers(Quantities, _Quantities, _tool_quantities, log)


def _as_figures(figures, based) -> Figures:
    return Figures(*(f if b else None for f, b in zip(figures, based)), *figures[4:])


def module_figures(log, module: int) -> Figures:
    figures, based = _Figures(), _Based()
    _ask(_module_figures, log, _within("module", module), ctypes.byref(figures), ctypes.byref(based))
    return _as_figures(figures, based)


def tool_figures(log) -> Figures:
    figures, based = _Figures(), _Based()
    _ask(_tool_figures, log, ctypes.byref(figures), ctypes.byref(based))
    return _as_figures(figures, based)


def module_losses(log, module: int) -> Losses:
    return _numbers(Losses, _Losses, _module_losses, log, _within("module", module))


def tool_losses(log) -> Losses:
    return _numbers(Losses, _Losses, _tool_losses, log)


def credited_units(log) -> tuple[int, ...]:
    """The actual units credited to each standard, by its index: to the one in force at a unit record's time. There are 512, with 0 for standards that
    the log does not have, and they add up to the actual units of the log."""
    return _numbers(lambda *units: units, _Units, _credited_units, log)


def credited_listing_into(log, buffer: bytearray) -> int:
    """Writes the listing to the front of the buffer and returns its length. Where the log is refused, or the buffer is shorter, no byte changes."""
    length = _Length()
    _ask(_credited_listing, log, _lent(buffer), len(buffer), ctypes.byref(length))
    return length[0]


def credited_listing(log) -> str:
    """A line of each standard's index and credited units. That of a log without standards is empty."""
    buffer = bytearray(CREDITED_LISTING_ROOM)
    return buffer[: credited_listing_into(log, buffer)].decode("ascii")


def standard_in_force(log, module: int, recipe: int, time: int) -> Optional[InForce]:
    """The module's standard for the recipe with the latest start at or before the time, which may be past the period, or None."""
    standard = _Standard()
    flag = _ask(_standard_in_force, log, _within("module", module), _within("recipe", recipe), _within("time", time), ctypes.byref(standard))
    return InForce(*standard) if flag == 1 else None


def supplemental(log, benchmarks) -> Supplemental:
    """The supplemental figures of the tool. Benchmarks are 14 bytes for each standard of the log, in the standards' sequence: see pack_benchmarks."""
    benchmarks = _bytes(benchmarks)
    return _numbers(Supplemental, _Supplemental, _supplemental, log, benchmarks, len(benchmarks))


def _benchmark(**values) -> bytes:
    bits = 0
    for name, value in values.items():
        if not 0 <= _int(name, value) < 1 << 27:
            raise ValueError(f"{name} is from 0 to 2**27 - 1, not {value}")
        bits = bits << 27 | value
    return (bits << 4).to_bytes(14, "big")


def pack_benchmarks(rows) -> bytes:
    """Benchmarks of their numbers, a row (reference, optimized, value_added, total_effective_units) for each; the three times are in ms a unit.
    A number that does not fit 27 bits is a ValueError, and one that is no int a TypeError. What the numbers mean is tested by supplemental alone."""
    return b"".join(_benchmark(reference=r, optimized=o, value_added=v, total_effective_units=t) for r, o, v, t in rows)


# ---- what a controller calls


class Writer:
    """A log written record by record: the header, then the states, standards and units that it counts, then finish().

    Each of header, state, standard and unit adds one record, or raises Refused and leaves the writer as it was: with 22 where a value does not fit
    its field, negative ones included, and else with 18 where the record does not fit what is left of `size` bytes. What the values mean is tested by
    finish() alone. A value that is no int is a TypeError.
    """

    def __init__(self, size: int = LONGEST_LOG):
        if _int("size", size) < 0:
            raise ValueError(f"a size is from 0 bytes, not {size}")
        self._size = size
        # At least one byte, since a pointer to none may be null.
        self._buffer = ctypes.create_string_buffer(size or 1)
        self._at = 0

    def _put(self, function, **values) -> None:
        values = [_int(name, value) for name, value in values.items()]
        # ctypes would cut a number that does not fit 64 bits. The greatest that does fits no field either.
        values = [value if 0 <= value < 1 << 64 else (1 << 64) - 1 for value in values]
        position, refusal = _Next(), _Refusal()
        if not function(self._buffer, self._size, self._at, *values, ctypes.byref(position), ctypes.byref(refusal)):
            raise Refused(*refusal)
        self._at = position[0]

    def header(self, period: int, modules: int, states: int, standards: int, units: int) -> None:
        """The period in ms, and how many modules, state records, standards and unit records there are."""
        self._put(_put_header, period=period, modules=modules, states=states, standards=standards, units=units)

    def state(self, module: int, code: int, time: int) -> None:
        """From this time on the module has this sub-state code."""
        self._put(_put_state, module=module, code=code, time=time)

    def standard(self, module: int, recipe: int, start: int, theoretical: int) -> None:
        """From this start on a unit of the recipe takes this theoretical time, in ms, at this module alone."""
        self._put(_put_standard, module=module, recipe=recipe, start=start, theoretical=theoretical)

    def unit(self, module: int, recipe: int, time: int, actual: int, effective: int) -> None:
        """Units of the recipe that the module made, judged by its standard in force at this time, and how many of them are effective."""
        self._put(_put_unit, module=module, recipe=recipe, time=time, actual=actual, effective=effective)

    def records(self, period: int, modules: int, states, standards, units) -> None:
        """A header that counts these records, then each of them, up to the first that is refused. They are lists of what the methods above take:
        states (module, code, time), standards (module, recipe, start, theoretical) and units (module, recipe, time, actual, effective)."""
        self.header(period, modules, len(states), len(standards), len(units))
        for add, records in (self.state, states), (self.standard, standards), (self.unit, units):
            for record in records:
                add(*record)

    def written(self) -> bytes:
        """The bytes so far, whether or not they are a log."""
        return self._buffer[: self._at]

    def finish(self) -> bytes:
        """The log, or Refused with the reader's number. Either leaves the writer as it was."""
        refusal = _Refusal()
        if not _finish_log(self._buffer, self._size, self._at, ctypes.byref(refusal)):
            raise Refused(*refusal)
        return self.written()


def write_log(period: int, modules: int, states, standards, units) -> bytes:
    """A finished log of its records, or Refused. The records are those that Writer.records takes."""
    states, standards, units = list(states), list(standards), list(units)
    writer = Writer(10 + 6 * len(states) + 10 * len(standards) + 11 * len(units))
    writer.records(period, modules, states, standards, units)
    return writer.finish()


# ---- one log from two


def join_logs_into(first, second, buffer: bytearray) -> int:
    """Writes the joined log to the front of the buffer and returns its length. Where either log is refused, the two are not to be joined, or the buffer
    is shorter, no byte changes. The buffer may be that of a log."""
    second, length = _bytes(second), _Length()
    _ask(_join, first, second, len(second), _lent(buffer), len(buffer), ctypes.byref(length))
    return length[0]


def join_logs(first, second) -> bytes:
    """One log of two consecutive ones of a tool, the earlier one first. The second's times and starts are moved up by the first's period, and no record
    of either is left out. The second's refusals have list 10 to 13. With list 0, a 23 is about both together, and a 2 or a 4 may be: else it is
    about the first, which examine tells."""
    buffer = bytearray(LONGEST_LOG)
    return bytes(buffer[: join_logs_into(first, second, buffer)])


# ---- a log without the records that say nothing new


def pack_log_in_place(buffer) -> int:
    """Packs the log that fills a writable buffer and returns its new length; the bytes behind it are 0 then. Where the log is refused, no byte changes:
    a buffer with bytes behind its log is one of another length. A buffer that is read only is a TypeError."""
    length, refusal = _Length(), _Refusal()
    with memoryview(buffer) as view, view.cast("B") as lent:
        if not _pack(_lent(lent), len(lent), ctypes.byref(length), ctypes.byref(refusal)):
            raise Refused(*refusal)
    return length[0]


def pack_log(log) -> bytes:
    """The log without each state record whose code is its module's current one, and without each standard whose time is the one in force just before
    for its module and recipe. Each ms keeps its codes and its times in force, so that state times, quantities, figures, losses and the report stay. No
    log that says the same is shorter. The units of a dropped standard are credited to the one before it."""
    buffer = bytearray(_bytes(log))
    return bytes(buffer[: pack_log_in_place(buffer)])
