"""Tests tool_log.py on logs packed here: case W, a log with no uptime, standards of two modules, and bytes that are refused; the losses on all shares
of short periods too, and their picture; credited units and the standard in force on revisions, and their table; the supplemental figures on R1-3 and
on benchmarks with every fault; its writer on what is packed here too; joining on two days whose joined records are given, on the samples, on random
logs, and on logs at each bound and past it; and packing a log on a shift whose packed records are given, on each bit that tells two records apart, on
the samples, on the longest logs and on random ones."""

import array
import enum
import fractions
import itertools
import pathlib
import random
import re
import unittest
import xml.etree.ElementTree

import revisions
import tool_log
from losses import PARTS, picture
from tool_log import Figures, InForce, Losses, Quantities, Refused, StateTimes, Supplemental, Writer
from tool_log import join_logs, join_logs_into, pack_benchmarks, pack_log, pack_log_in_place, supplemental, write_log

ROOT = pathlib.Path(__file__).resolve().parent.parent.parent

REPORT = """module avail oper rate qual oee
0 0.9702 0.9202 0.9333 0.9321 0.7768
1 0.9405 0.9367 0.9797 0.9586 0.8274
2 1.0000 0.4762 0.9375 1.0000 0.4464
tool 0.9702 0.7730 0.9524 0.9569 0.6835
"""


def packed(*fields):
    """Bytes from (value, width) pairs, most significant bit first."""
    bits = "".join(f"{value:0{width}b}" for value, width in fields)
    assert len(bits) % 8 == 0
    return bytes(int(bits[i : i + 8], 2) for i in range(0, len(bits), 8))


def header(period, modules, states, standards, units):
    return packed((period, 35), (modules, 7), (states, 14), (standards, 11), (units, 13))


def state(module, code, time):
    return packed((module, 6), (code, 5), (time, 35), (0, 2))


def standard(module, recipe, start, theoretical, spare=0):
    return packed((module, 6), (recipe, 10), (start, 35), (theoretical, 27), (spare, 2))


def unit(module, recipe, time, actual, effective):
    return packed((module, 6), (recipe, 10), (time, 35), (actual, 16), (effective, 16), (0, 5))


W_STATES = ((0, 0, 0), (1, 0, 0), (2, 0, 0), (2, 7, 288000000), (1, 7, 532800000), (0, 7, 540000000), (1, 18, 568800000), (0, 18, 586800000))
W_STANDARDS = ((0, 0, 0, 1800000), (1, 0, 0, 1800000), (2, 0, 0, 1800000))


def w_units(late=3600000):
    return ((0, 0, 3600000, 280, 261), (1, 0, 3600000, 290, 278), (2, 0, late, 150, 150))


def case_w(late=3600000):
    records = [state(*s) for s in W_STATES] + [standard(*s) for s in W_STANDARDS] + [unit(*u) for u in w_units(late)]
    return header(604800000, 3, 8, 3, 3) + b"".join(records)


def idle():
    return header(86400000, 1, 1, 0, 0) + state(0, 22, 0)


def accepted_samples():
    """The name and the bytes of each sample that is accepted."""
    samples = []
    for path in sorted((ROOT / "samples").glob("*.log")):
        log = path.read_bytes()
        try:
            tool_log.examine(log)
        except Refused:
            continue
        samples.append((path.name, log))
    assert len(samples) >= 8
    return samples


# R1-3: recipes A to D.
THEORETICAL = (119988, 144000, 180000, 240012)
EFFECTIVE = (1500, 600, 800, 480)
BENCHMARKS = ((119988, 90000, 36000, 1250), (119988, 72000, 18000, 550), (119988, 54000, 18000, 725), (119988, 117000, 36000, 450))


def r1_3():
    units = ((187200000, 1500), (280800000, 600), (432000000, 800), (554400000, 500))
    records = [state(0, 0, 0), state(0, 7, 558000000)]
    records += [standard(0, recipe, 0, theoretical) for recipe, theoretical in enumerate(THEORETICAL)]
    records += [unit(0, recipe, time, actual, EFFECTIVE[recipe]) for recipe, (time, actual) in enumerate(units)]
    return header(604800000, 1, 2, 4, 4) + b"".join(records)


def two_modules(*standards):
    """Ten productive milliseconds of two modules. At time 5 each reports two units of recipe 4, one of them effective."""
    records = [state(0, 0, 0), state(1, 0, 0)] + [standard(*s) for s in standards] + [unit(0, 4, 5, 2, 1), unit(1, 4, 5, 2, 1)]
    return header(10, 2, 2, len(standards), 2) + b"".join(records)


def parted(*modules, theoretical=None):
    """A log whose modules split the period, in ms, into the numerators of their losses and OEE: availability, operational, rate, quality, OEE. Units
    take 1 ms, or as many as are given for each module, which divide the last two."""
    period, states, standards, units = sum(modules[0]), [], [], []
    for m, (availability, operational, rate, quality, oee) in enumerate(modules):
        each = theoretical[m] if theoretical else 1
        # Productive, then standby, then under repair.
        codes = {0: 0, rate + quality + oee: 7, period - availability: 18}
        states += [(time, m, code) for time, code in codes.items() if time < period]
        standards.append((m, 0, 0, each))
        units.append((m, 0, 0, (quality + oee) // each, oee // each))
    return write_log(period, len(modules), [(m, code, time) for time, m, code in sorted(states)], standards, units)


def benchmark(*values, spare=0):
    return packed(*((value, 27) for value in values), (spare, 4))


def benchmarks(rows):
    return b"".join(benchmark(*row) for row in rows)


CALLS = (
    tool_log.examine,
    tool_log.report,
    tool_log.module_count,
    tool_log.tool_state_times,
    tool_log.tool_quantities,
    tool_log.tool_figures,
    tool_log.tool_losses,
    tool_log.credited_units,
    tool_log.credited_listing,
    lambda log: tool_log.examine(log, 0),
    lambda log: tool_log.module_state_times(log, 1),
    lambda log: tool_log.module_quantities(log, 1),
    lambda log: tool_log.module_figures(log, 1),
    lambda log: tool_log.module_losses(log, 1),
    lambda log: tool_log.standard_in_force(log, 1, 0, 0),
    lambda log: tool_log.standard_in_force(log, 2**64 - 1, 2**64 - 1, 2**64 - 1),
    lambda log: supplemental(log, b""),
    lambda log: supplemental(log, b"\xa5" * 7),
    lambda log: supplemental(log, b"\xa5" * 14),
    lambda log: join_logs(log, case_w()),
    lambda log: join_logs(log, b""),
    lambda log: join_logs(log, log),
    pack_log,
)


def call_pack(buffer):
    """What the packing call itself answers and makes of a length and a refusal of sevens."""
    length, refusal = tool_log._Length(7), tool_log._Refusal(7, 7, 7)
    return tool_log._pack(tool_log._lent(buffer), len(buffer), length, refusal), length[0], (*refusal,)


class Case(unittest.TestCase):
    def refused(self, number, list, place, call, *arguments):
        with self.assertRaises(Refused) as caught:
            call(*arguments)
        self.assertEqual((caught.exception.number, caught.exception.list, caught.exception.place), (number, list, place))
        return caught.exception


class Calls(Case):
    def turned_back(self, log, number, list=0, place=0):
        """Every call on a log that is refused raises its refusal, and no byte of a buffer changes."""
        for call in CALLS:
            self.refused(number, list, place, call, log)
        buffer = bytearray(b"\xa5" * tool_log.LONGEST_REPORT)
        self.refused(number, list, place, tool_log.report_into, log, buffer)
        self.refused(number, list, place, join_logs_into, log, case_w(), buffer)
        self.refused(number, list + 10, place, join_logs_into, case_w(), log, buffer)
        self.refused(number, list + 10, place, join_logs_into, case_w(), log, bytearray())
        self.assertEqual(buffer, b"\xa5" * tool_log.LONGEST_REPORT)
        self.refused(1, 0, 0, join_logs, b"", log)
        own = bytearray(log)
        self.refused(number, list, place, pack_log_in_place, own)
        self.assertEqual(call_pack(own), (0, 7, (number, list, place)))
        self.assertEqual(own, log)

    def test_report(self):
        log = case_w()
        self.assertEqual(len(log), 121)
        self.assertEqual(tool_log.report(log), REPORT)
        self.assertEqual(tool_log.report(bytearray(log)), REPORT)
        buffer = bytearray(b"\xa5" * 200)
        self.assertEqual(tool_log.report_into(log, buffer), 183)
        self.assertEqual(buffer, REPORT.encode() + b"\xa5" * 17)

    def test_short_buffer(self):
        log = case_w()
        tool_log.examine(log, 183)
        for room in (182, 1, 0):
            self.refused(18, 0, 0, tool_log.examine, log, room)
            buffer = bytearray(b"\xa5" * room)
            self.refused(18, 0, 0, tool_log.report_into, log, buffer)
            self.assertEqual(buffer, b"\xa5" * room)

    def test_numbers(self):
        log = case_w()
        self.assertEqual(tool_log.module_count(log), 3)
        self.assertEqual(tool_log.module_state_times(log, 1), StateTimes(532800000, 36000000, 0, 0, 36000000, 0))
        self.assertEqual(tool_log.tool_state_times(log), StateTimes(1360800000, 399600000, 0, 0, 54000000, 0))
        self.assertEqual(tool_log.module_quantities(log, 1), Quantities(604800000, 568800000, 532800000, 522000000, 500400000))
        self.assertEqual(tool_log.tool_quantities(log), Quantities(1814400000, 1760400000, 1360800000, 1296000000, 1240200000))

    def test_figures(self):
        for m, q in [(0, tool_log.module_quantities(case_w(), 0)), (1, tool_log.module_quantities(case_w(), 1)), (None, tool_log.tool_quantities(case_w()))]:
            f = tool_log.tool_figures(case_w()) if m is None else tool_log.module_figures(case_w(), m)
            a, o, r, u = q.uptime / q.total, q.production / q.uptime, q.actual / q.production, q.effective / q.actual
            self.assertEqual(f, Figures(a, o, r, u, q.effective / q.total, a * o * r * u))

    def test_no_base(self):
        self.assertEqual(tool_log.module_figures(idle(), 0), Figures(0.0, None, None, None, 0.0, 0.0))
        self.assertEqual(tool_log.tool_figures(idle()), Figures(0.0, None, None, None, 0.0, 0.0))

    def test_module_not_there(self):
        for m in (3, 64, 2**64 - 1):
            for call in (tool_log.module_state_times, tool_log.module_quantities, tool_log.module_figures, tool_log.module_losses):
                self.refused(7, 0, m, call, case_w(), m)
            self.refused(7, 0, m, tool_log.standard_in_force, case_w(), m, 0, 0)

    def test_no_64_bits(self):
        for n in (-1, 2**64):
            for name, call, *arguments in (
                ("room", tool_log.examine, n),
                ("module", tool_log.module_state_times, n),
                ("module", tool_log.module_quantities, n),
                ("module", tool_log.module_figures, n),
                ("module", tool_log.module_losses, n),
                ("module", tool_log.standard_in_force, n, 0, 0),
                ("recipe", tool_log.standard_in_force, 0, n, 0),
                ("time", tool_log.standard_in_force, 0, 0, n),
            ):
                with self.assertRaisesRegex(ValueError, f"^a {name} is from 0 to 2\\*\\*64 - 1, not {n}$"):
                    call(case_w(), *arguments)

    def test_damaged(self):
        log = case_w()
        self.turned_back(b"", 1)
        self.turned_back(log[:9], 1)
        self.turned_back(log[:-1], 5)
        self.turned_back(log + b"\0", 5)
        self.turned_back(case_w(late=604800000), 9, 3, 2)
        self.turned_back(case_w(late=3599999), 19, 3, 2)
        self.turned_back(log[:-1] + b"\x01", 6, 3, 2)

    def test_own_times(self):
        # One recipe and start: 2 ms a unit at module 0, 3 ms at module 1.
        log = two_modules((0, 4, 0, 2), (1, 4, 0, 3))
        self.assertEqual(tool_log.module_quantities(log, 0), Quantities(10, 10, 10, 4, 2))
        self.assertEqual(tool_log.module_quantities(log, 1), Quantities(10, 10, 10, 6, 3))
        self.assertEqual(tool_log.tool_quantities(log), Quantities(20, 20, 20, 10, 5))

    def test_standards_of_modules(self):
        own, other = (0, 4, 0, 2), (1, 4, 0, 3)
        for spare in 1, 2, 3:
            self.turned_back(two_modules((*own, spare), other), 6, 2, 0)
            self.turned_back(two_modules(own, (*other, spare)), 6, 2, 1)
            self.turned_back(two_modules(own, other, (2, 4, 10, 0, spare)), 6, 2, 2)
        for module in 2, 63:
            self.turned_back(two_modules(own, other, (module, 4, 10, 0)), 7, 2, 2)
        self.turned_back(two_modules(own, other, own), 13, 2, 2)
        self.turned_back(two_modules(other, (0, 5, 0, 2)), 19, 2, 1)
        # Of each recipe and time only the other module has a standard in force.
        self.turned_back(two_modules(own, (1, 5, 0, 3)), 15, 3, 1)
        self.turned_back(two_modules((0, 5, 0, 2), other), 15, 3, 0)
        self.turned_back(two_modules(own, (1, 4, 6, 3)), 15, 3, 1)

    def test_words(self):
        refused = self.refused(9, 3, 2, tool_log.report, case_w(late=604800000))
        self.assertEqual(str(refused), "refused: 9 outside: time or start at or past the period (list units, place 2)")

    def test_header_says_the_same(self):
        header = (ROOT / "include/tool_log.h").read_text()
        rows = {int(n): (word, ground) for n, word, ground in re.findall(r'X\((\d+), "([^"]*)", "([^"]*)"\)', header)}
        self.assertEqual(rows, tool_log.REFUSALS)
        lists = re.search(r"#define TL_LISTS\(X\)((?: \\\n    X\(.*\))*)\n", header)[1]
        self.assertEqual({int(n): name for n, name in re.findall(r'X\((\d+), "([^"]*)"\)', lists)}, tool_log.LISTS)
        self.assertIn(f"TL_LONGEST_REPORT {tool_log.LONGEST_REPORT}\n", header)
        self.assertIn(f"TL_LONGEST_LOG {tool_log.LONGEST_LOG}\n", header)
        self.assertIn(f"TL_LONGEST_BENCHMARKS {tool_log.LONGEST_BENCHMARKS}\n", header)
        self.assertIn(f"TL_CREDITED_LISTING_ROOM {tool_log.CREDITED_LISTING_ROOM}\n", header)
        self.assertIn(f"TL_MOST_STANDARDS {tool_log.MOST_STANDARDS}\n", header)

    def test_random_bytes(self):
        # The grounds 1 to 5 are worked out here from the header, which hardly any of these outlives.
        source = random.Random(20261115)
        for turn in range(500):
            log = source.randbytes(source.randrange(12) if turn % 4 == 0 else source.randrange(1024))
            bits = int.from_bytes(log[:10], "big")
            period, modules, states, standards, units = bits >> 45, bits >> 38 & 127, bits >> 24 & 16383, bits >> 13 & 2047, bits & 8191
            if len(log) < 10:
                self.turned_back(log, 1)
            elif period == 0 or period > 31622400000:
                self.turned_back(log, 2)
            elif modules == 0 or modules > 64:
                self.turned_back(log, 3)
            elif states > 6000 or standards > 512 or units > 2000:
                self.turned_back(log, 4)
            elif len(log) != 10 + 6 * states + 10 * standards + 11 * units:
                self.turned_back(log, 5)
            else:
                self.assertRaises(Refused, tool_log.examine, log, 0)


# All moves of whole numbers between the parts of a bar, at most two up and one down for each, by how many they add.
MOVES = {n: [moves for moves in itertools.product((-1, 0, 1, 2), repeat=5) if sum(moves) == n] for n in range(5)}


def nearest(parts):
    """The five whole numbers that make 10,000 and lie nearest to the shares of the parts; of several such, those with the greatest earlier parts."""
    total = sum(parts)
    down = [10000 * part // total for part in parts]
    bars = (tuple(map(sum, zip(down, moves))) for moves in MOVES[10000 - sum(down)])
    return max(bars, key=lambda bar: (-sum(abs(total * n - 10000 * part) for n, part in zip(bar, parts)), bar))


class Bars(Case):
    def bars_are(self, log, *due):
        """The losses and OEE of each module, and at last of the tool."""
        *modules, tool = (Losses(availability=a, operational=o, rate=r, quality=q, oee=e) for a, o, r, q, e in due)
        self.assertEqual([tool_log.module_losses(log, m) for m in range(len(modules))], modules)
        self.assertEqual(tool_log.tool_losses(log), tool)
        self.assertEqual(tool_log.module_count(log), len(modules))

    def test_printed(self):
        # What SEMI E79 prints in R1-2 and R1-1.
        due = (298, 774, 595, 565, 7768), (595, 595, 179, 357, 8274), (0, 5238, 298, 0, 4464), (298, 2202, 357, 308, 6835)
        self.bars_are(case_w(), *due)
        self.bars_are((ROOT / "samples/r1-2.log").read_bytes(), *due)
        self.bars_are((ROOT / "samples/r1-1.log").read_bytes(), *[(714, 536, 139, 119, 8492)] * 2)

    def test_fractions(self):
        # Shares that are small fractions, so that remainders are equal: thirds, sevenths, ninths and others, worked out by hand.
        for parts, due in (
            ((1, 1, 1, 0, 0), (3334, 3333, 3333, 0, 0)),
            ((0, 0, 1, 1, 1), (0, 0, 3334, 3333, 3333)),
            # Three missing: the OEE has 5/7, the others 4/7.
            ((1, 1, 1, 1, 3), (1429, 1429, 1428, 1428, 4286)),
            # Exact halves, two missing; then four missing, and five remainders of 4/5.
            ((1, 1, 1, 1, 19996), (1, 1, 0, 0, 9998)),
            ((1, 1, 1, 1, 12496), (1, 1, 1, 1, 9996)),
            ((7, 0, 0, 0, 0), (10000, 0, 0, 0, 0)),
            ((0, 0, 0, 0, 7), (0, 0, 0, 0, 10000)),
        ):
            self.bars_are(parted(parts), due, due)
        # The tool's are 1, 2, 3, 1 and 7 of 14.
        due = (1429, 1429, 1428, 1428, 4286), (0, 1429, 2857, 0, 5714), (714, 1429, 2143, 714, 5000)
        self.bars_are(parted((1, 1, 1, 1, 3), (0, 1, 2, 0, 4)), *due)

    def test_beside_the_report(self):
        # The OEE's remainder is the largest with 4/9; and one of four with 2/3, of which three get one.
        for parts, due, printed in (
            ((1, 1, 1, 2, 4), (1111, 1111, 1111, 2222, 4445), "0.4444"),
            ((1, 1, 1, 2, 1), (1667, 1667, 1667, 3333, 1666), "0.1667"),
        ):
            self.bars_are(parted(parts), due, due)
            self.assertEqual(tool_log.report(parted(parts)).split()[-1], printed)

    def test_all_shares(self):
        for total in range(1, 9):
            for parts in itertools.product(range(total + 1), repeat=5):
                if sum(parts) == total:
                    self.bars_are(parted(parts), nearest(parts), nearest(parts))

    def test_random_shares(self):
        # Up to the longest period and 64 modules.
        source = random.Random(20261127)
        for turn in range(100):
            period, modules, theoretical = (source.randrange(1, 100), source.randrange(1, 31622400000), 31622400000)[turn % 3], [], []
            for _ in range(source.randrange(1, 65)):
                uptime = source.randint(0, period)
                production = source.randint(0, uptime)
                each = source.randint(1, min(2**27 - 1, max(1, production)))
                actual = source.randint(0, min(65535, production // each))
                effective = source.randint(0, actual)
                modules.append((period - uptime, uptime - production, production - actual * each, (actual - effective) * each, effective * each))
                theoretical.append(each)
            tool = [sum(parts) for parts in zip(*modules)]
            self.bars_are(parted(*modules, theoretical=theoretical), *map(nearest, modules), nearest(tool))


# The parts' names, and how wide they are in the picture in DejaVu Sans, a wide sans-serif: measured.
NAMES = {"availability": 1088, "operational": 1139, "rate": 406, "quality": 684, "OEE": 410}


def numbers(element, *names):
    return [int(element.get(name)) for name in names]


class Pictures(Case):
    def bar_is(self, row, bar, colours):
        """A drawn bar has these parts, one behind the other, and is full. The name in a part is all within it."""
        frame, parts = row.find("rect"), row.findall("g")
        x, y, width, height = numbers(frame, "x", "y", "width", "height")
        end = x + 20
        self.assertEqual(len(parts), sum(n > 0 for n in bar))
        for (name, n), part in zip(((name, n) for name, n in zip(NAMES, bar) if n), parts):
            drawn, letters = part.find("rect"), part.find("text")
            self.assertEqual(numbers(drawn, "x", "y", "width", "height"), [end, y + 20, n, height - 40])
            self.assertEqual((drawn.get("fill"), part.find("title").text), (colours[name], f"{name} {n / 10000:.4f}"))
            if letters is not None:
                self.assertEqual(letters.text, name)
                self.assertTrue(end < int(letters.get("x")) < end + n - NAMES[name])
            elif n >= 2 * NAMES[name]:
                self.fail(f"no name in {name} of {n}")
            end += n
        self.assertEqual([end, width], [x + 20 + 10000, 10040])

    def pictured(self, *bars):
        """The bars of modules, and at last of the tool, as they are read off their picture."""
        svg = picture([Losses(*bar) for bar in bars[:-1]], Losses(*bars[-1]))
        self.assertTrue(svg.endswith("</svg>\n"))
        root = xml.etree.ElementTree.fromstring(re.sub(' xmlns="[^"]*"', "", svg))
        left, top, width, height = map(int, root.get("viewBox").split())
        self.assertEqual([left, top, 3 * width, 3 * height], [0, 0, *(50 * n for n in numbers(root, "width", "height"))])
        # Behind the background each part has its frame and its colour, and behind the title and the modules' heading its name.
        colours = dict(zip(NAMES, (swatch.get("fill") for swatch in root.findall("rect")[2::2])))
        self.assertEqual(list(colours.values()), [colour for _, colour, _ in PARTS])
        headings = root.findall("text")[2:]
        self.assertEqual([heading.text for heading in headings], list(NAMES))
        names, rows, under = [*(f"module {m}" for m in range(len(bars) - 1)), "tool"], root.findall("g"), 0
        self.assertEqual(len(rows), len(bars))
        for name, bar, row in zip(names, bars, rows):
            figures = [f"{n / 10000:.4f}" for n in bar]
            self.assertEqual((row.get("role"), row.get("aria-label")), ("img", f"{name}: " + ", ".join(map(" ".join, zip(NAMES, figures)))))
            self.assertEqual([text.text for text in row.findall("text")], [name.split()[-1], *figures])
            self.assertEqual([text.get("x") for text in row.findall("text")[1:]], [heading.get("x") for heading in headings])
            self.bar_is(row, bar, colours)
            y, high = numbers(row.find("rect"), "y", "height")
            self.assertLess(under, y)
            under = y + high
        self.assertLess(under, height)

    def test_in_grey(self):
        # Of 255, by the weights of ITU-R BT.601.
        grey = [sum(weight * byte for weight, byte in zip((299, 587, 114), bytes.fromhex(colour[1:]))) // 1000 for _, colour, _ in PARTS]
        for darker, lighter in zip(grey, grey[1:]):
            self.assertGreater(lighter, darker + 30)

    def test_pictures(self):
        self.pictured((10000, 0, 0, 0, 0), (0, 0, 0, 0, 10000))
        self.pictured((0, 10000, 0, 0, 0), (0, 0, 10000, 0, 0), (0, 0, 0, 10000, 0))
        self.pictured((1, 1, 1, 1, 9996), (298, 2202, 357, 308, 6835))
        source = random.Random(20261128)
        for modules in (1, 2, 64):
            cuts = [sorted(source.choices((0, 1000, 10000, source.randint(0, 10000), source.randint(0, 10000)), k=4)) for _ in range(modules + 1)]
            self.pictured(*([b - a for a, b in zip([0, *cut], [*cut, 10000])] for cut in cuts))


# A hundred seconds of two modules: two standards judge no unit, one of them from the last ms on, a unit is 1 ms ahead of a start and one at it, and
# both modules have recipe 3.
R_STANDARDS = ((0, 3, 0, 5), (0, 3, 4000, 4), (0, 3, 6000, 2**27 - 1), (0, 3, 8000, 2), (0, 7, 2000, 2), (1, 3, 4000, 6), (1, 1023, 9999, 1),
               (1, 1023, 99999, 3))
R_UNITS = ((0, 3, 0, 10, 9), (0, 3, 3999, 20, 15), (0, 3, 4000, 30, 1), (1, 3, 4000, 5, 5), (0, 3, 5999, 40, 0), (0, 3, 8000, 100, 99),
           (0, 7, 9998, 7, 0), (0, 3, 9999, 1, 1), (1, 1023, 9999, 65535, 0), (1, 1023, 49999, 34435, 34435))


def productive(period, modules, standards, units):
    """A log whose modules are productive all the period."""
    return write_log(period, modules, [(m, 0, 0) for m in range(modules)], standards, units)


def latest(standards, module, recipe, time):
    """The standard in force, of all those of the module and recipe that have started."""
    started = [(s[2], InForce(index, s[3])) for index, s in enumerate(standards) if s[:2] == (module, recipe) and s[2] <= time]
    return max(started)[1] if started else None


class Revisions(Case):
    def credited_are(self, log, standards, units):
        """The credited units and their listing are those of the standards and units that the log was made of."""
        due = [0] * len(standards)
        for module, recipe, time, actual, _ in units:
            due[latest(standards, module, recipe, time).index] += actual
        credited = tool_log.credited_units(log)
        self.assertEqual(credited, (*due, *[0] * (512 - len(due))))
        self.assertEqual(sum(credited), sum(actual for *_, actual, _ in units))
        self.assertEqual(tool_log.credited_listing(log), "".join(f"{index} {n}\n" for index, n in enumerate(due)))

    def test_by_hand(self):
        log = productive(100000, 2, R_STANDARDS, R_UNITS)
        credited = tool_log.credited_units(log)
        self.assertEqual((type(credited), len(credited), credited[:8]), (tuple, 512, (30, 70, 0, 101, 7, 5, 99970, 0)))
        self.assertEqual(tool_log.credited_listing(log), "0 30\n1 70\n2 0\n3 101\n4 7\n5 5\n6 99970\n7 0\n")
        self.assertEqual(tool_log.credited_listing(bytearray(log)), tool_log.credited_listing(log))
        for module, recipe, time, due in (
            (0, 3, 0, (0, 5)), (0, 3, 3999, (0, 5)), (0, 3, 4000, (1, 4)), (0, 3, 7999, (2, 2**27 - 1)), (0, 3, 8000, (3, 2)),
            (0, 7, 1999, None), (0, 7, 2000, (4, 2)), (1, 3, 3999, None), (1, 3, 4000, (5, 6)), (1, 7, 99999, None),
            (1, 1023, 9998, None), (1, 1023, 9999, (6, 1)), (1, 1023, 99998, (6, 1)), (1, 1023, 99999, (7, 3)), (1, 1024, 99999, None),
        ):
            self.assertEqual(tool_log.standard_in_force(log, module, recipe, time), due and InForce(*due))
        found = tool_log.standard_in_force(log, module=1, recipe=3, time=2**64 - 1)
        self.assertEqual((found.index, found.time), (5, 6))
        self.assertEqual(tuple(revisions.standards(log)), R_STANDARDS)

    def test_lent(self):
        log = productive(100000, 2, R_STANDARDS, R_UNITS)
        listing = tool_log.credited_listing(log).encode()
        for room in (0, 1, len(listing) - 1):
            buffer = bytearray(b"\xa5" * room)
            self.refused(18, 0, 0, tool_log.credited_listing_into, log, buffer)
            self.assertEqual(buffer, b"\xa5" * room)
        for more in (0, 1, 7168):
            buffer = bytearray(b"\xa5" * (len(listing) + more))
            self.assertEqual(tool_log.credited_listing_into(log, buffer), len(listing))
            self.assertEqual(buffer, listing + b"\xa5" * more)
        self.assertEqual(tool_log.credited_listing_into(idle(), bytearray()), 0)

    def test_no_standards(self):
        self.credited_are(idle(), [], [])
        self.assertEqual(tool_log.credited_listing(idle()), "")
        self.assertIsNone(tool_log.standard_in_force(idle(), 0, 0, 2**64 - 1))
        self.assertEqual(list(revisions.standards(idle())), [])

    def test_samples(self):
        for name, log in accepted_samples():
            with self.subTest(name):
                _, modules, _, listed, units = decoded(log)
                self.credited_are(log, listed, units)
                if modules < 4:
                    self.assertEqual(list(revisions.standards(log)), listed)

    def test_most_standards(self):
        # Revisions of one recipe, and recipes of all modules.
        for modules, listed in (1, [(0, 3, start, 1) for start in range(512)]), (64, [(m, r, 9, 1) for m in range(64) for r in range(8)]):
            units = [(module, recipe, start, index, 0) for index, (module, recipe, start, _) in enumerate(listed)]
            log = productive(200000, modules, listed, units)
            self.credited_are(log, listed, units)
            self.assertEqual(tool_log.credited_units(log), tuple(range(512)))

    def test_random_revisions(self):
        # From one standard for each of many recipes to many revisions of one, and up to 2,000 unit records.
        source = random.Random(20261129)
        for _ in range(60):
            period, modules, most = source.choice((300, 100000, 31622400000)), source.choice((1, 2, 64)), source.choice((1, 20, 512))
            pairs = [(source.randrange(modules), source.choice((0, 3, 1023, source.randrange(1024)))) for _ in range(source.choice((1, 5, most)))]
            drawn = {(*source.choice(pairs), source.choice((0, 7, period - 1, source.randrange(period)))) for _ in range(most)}
            listed = [(*standard, source.choice((1, 2))) for standard in sorted(drawn)]
            made, left = {}, [period] * modules
            for _ in range(source.choice((0, 10, 2000))):
                module, recipe, start, _ = source.choice(listed)
                time = min(period - 1, max(0, start + source.choice((-1, 0, 1, source.randrange(period)))))
                found = latest(listed, module, recipe, time)
                if found and (time, module, recipe) not in made:
                    actual = min(source.choice((0, 1, source.randrange(65536))), left[module] // found.time)
                    left[module] -= actual * found.time
                    made[time, module, recipe] = actual, source.randint(0, actual)
            units = [(module, recipe, time, *made[time, module, recipe]) for time, module, recipe in sorted(made)]
            log = productive(period, modules, listed, units)
            self.credited_are(log, listed, units)
            for module, recipe, start, _ in source.sample(listed, min(len(listed), 5)):
                times = max(0, start - 1), start, start + 1, period - 1, period, start + 2**35, 2**63, 2**64 - 1
                recipes = recipe, recipe ^ 1, *(recipe + 2**bit for bit in (10, 16, 32)), 2**64 - 1
                for m, r, time in itertools.product({module, (module + 1) % modules}, recipes, times):
                    self.assertEqual(tool_log.standard_in_force(log, m, r, time), latest(listed, m, r, time))


def changed(i, which, value):
    """R1-3's benchmarks with one number another."""
    rows = [list(row) for row in BENCHMARKS]
    rows[i][which] = value
    return benchmarks(rows)


class Supplements(Case):
    def turned_back(self, number, place, lent, log=r1_3()):
        return self.refused(number, 4, place, supplemental, log, lent)

    def test_r1_3(self):
        lent = benchmarks(BENCHMARKS)
        self.assertEqual(supplemental(r1_3(), lent), Supplemental(6706, 4589, 1595, 7733))
        self.assertEqual(supplemental(bytearray(r1_3()), memoryview(lent)), Supplemental(6706, 4589, 1595, 7733))

    def test_bounds(self):
        rows = [(theoretical, theoretical, theoretical, effective) for theoretical, effective in zip(THEORETICAL, EFFECTIVE)]
        self.assertEqual(supplemental(r1_3(), benchmarks(rows)), Supplemental(8690, 8690, 8690, 8690))
        rows = [(theoretical, 1, 1, 0) for theoretical in THEORETICAL]
        self.assertEqual(supplemental(r1_3(), benchmarks(rows)), Supplemental(8690, 0, 0, 0))

    def over_counted(self, rows, judged, log):
        """Each benchmark with one unit more than its standard judges."""
        for place, units in enumerate(judged):
            more = [*rows[:place], (*rows[place][:3], units + 1), *rows[place + 1 :]]
            self.turned_back(21, place, benchmarks(more), log)

    def test_all_modules(self):
        # Each module's effective units are judged by its own standard. Of 1,814,400,000 ms, 261 x 1,800,000 + 278 x 900,000 + 150 x 450,000 are
        # 4,340.3 ten-thousandths, 689 x 90,720 are 344.5.
        rows = [(1800000, 90720, 90719, 261), (900000, 90720, 90719, 278), (450000, 90720, 90719, 150)]
        self.assertEqual(supplemental(case_w(), benchmarks(rows)), Supplemental(4340, 345, 344, 6835))
        self.over_counted(rows, (261, 278, 150), case_w())

    def test_revisions(self):
        # The standards judge 3 effective units of module 0, and 2 and 5 from the revision's start on; 2 and 6 of module 1. With 20,000 ms a figure is
        # half its sum.
        log = write_log(10000, 2, [(0, 0, 0), (1, 0, 0)], [(0, 3, 0, 1000), (0, 3, 4000, 500), (1, 3, 0, 800), (1, 7, 0, 250)],
                        [(0, 3, 3999, 3, 3), (0, 3, 4000, 2, 2), (1, 3, 4000, 2, 2), (0, 3, 9000, 5, 5), (1, 7, 9000, 7, 6)])
        rows = [(1000, 500, 10, 2), (400, 300, 20, 7), (700, 50, 40, 1), (200, 1, 30, 0)]
        sums = (3 * 1000 + 7 * 400 + 2 * 700 + 6 * 200, 3 * 500 + 7 * 300 + 2 * 50 + 6 * 1, 3 * 10 + 7 * 20 + 2 * 40 + 6 * 30,
                2 * 1000 + 7 * 500 + 1 * 800)
        self.assertEqual(supplemental(log, benchmarks(rows)), Supplemental(*(total // 2 for total in sums)))
        self.over_counted(rows, (3, 7, 2, 6), log)

    def test_no_standards(self):
        self.assertEqual(supplemental(idle(), b""), Supplemental(0, 0, 0, 0))
        self.turned_back(5, 0, b"\0" * 14, idle())

    def test_faults(self):
        longer = benchmarks(BENCHMARKS) + b"\0" * 14
        for length in range(71):
            if length != 56:
                self.turned_back(5, 0, longer[:length])
        for i in range(4):
            for spare in range(1, 16):
                lent = bytearray(benchmarks(BENCHMARKS))
                lent[14 * i + 13] |= spare
                self.turned_back(6, i, lent)
            for which in range(3):
                self.turned_back(12, i, changed(i, which, 0))
                supplemental(r1_3(), changed(i, which, THEORETICAL[i]))
                self.turned_back(20, i, changed(i, which, THEORETICAL[i] + 1))
                self.turned_back(20, i, changed(i, which, 2**27 - 1))
            for units in (0, EFFECTIVE[i]):
                supplemental(r1_3(), changed(i, 3, units))
            for units in (EFFECTIVE[i] + 1, 2**27 - 1):
                self.turned_back(21, i, changed(i, 3, units))

    def test_first_fault(self):
        def first(number, place, *row, spare=0):
            self.turned_back(number, place, benchmark(*BENCHMARKS[0]) + benchmark(*row, spare=spare) + b"\xff" * 14 + benchmark(*BENCHMARKS[3]))

        first(6, 1, 0, 144001, 18000, 601, spare=8)
        first(12, 1, 0, 144001, 18000, 601)
        first(20, 1, 119988, 144001, 18000, 601)
        first(21, 1, 119988, 72000, 18000, 601)
        first(6, 2, *BENCHMARKS[1])

    def test_words(self):
        refused = self.turned_back(5, 0, b"")
        self.assertEqual(
            str(refused),
            "refused: 5 length: bytes other than 10 + 6 states + 10 standards + 11 units; benchmarks: 14 for each standard (the benchmarks)",
        )
        refused = self.turned_back(12, 0, bytes(56))
        self.assertEqual(str(refused), "refused: 12 no time: theoretical time 0, or a time of a benchmark 0 (benchmark 0)")

    def test_packing(self):
        self.assertEqual(pack_benchmarks(BENCHMARKS), benchmarks(BENCHMARKS))
        self.assertEqual(pack_benchmarks(map(list, BENCHMARKS)), benchmarks(BENCHMARKS))
        self.assertEqual(pack_benchmarks([]), b"")
        source = random.Random(20261117)
        rows = [tuple(source.choice((0, 2**27 - 1, source.getrandbits(27))) for _ in range(4)) for _ in range(512)]
        self.assertEqual(pack_benchmarks(rows), benchmarks(rows))
        self.assertEqual(len(pack_benchmarks(rows)), tool_log.LONGEST_BENCHMARKS)

    def test_not_packed(self):
        names = ("reference", "optimized", "value_added", "total_effective_units")
        for i, name in enumerate(names):
            for value in (2**27, 2**64, -1):
                with self.assertRaisesRegex(ValueError, f"^{name} is from 0 to 2\\*\\*27 - 1, not {value}$"):
                    pack_benchmarks([BENCHMARKS[0], (*BENCHMARKS[1][:i], value, *BENCHMARKS[1][i + 1 :])])
            for value in (1.0, "1", None, True):
                with self.assertRaisesRegex(TypeError, f"^{name} is an int, not {type(value).__name__}"):
                    pack_benchmarks([(*BENCHMARKS[1][:i], value, *BENCHMARKS[1][i + 1 :])])
        for row in ((1, 2, 3), (1, 2, 3, 4, 5)):
            self.assertRaises(ValueError, pack_benchmarks, [row])


# The adding methods by the list of their records: name, widths, and the packing of this file.
KINDS = (
    ("header", (35, 7, 14, 11, 13), header),
    ("state", (6, 5, 35), state),
    ("standard", (6, 10, 35, 27), standard),
    ("unit", (6, 10, 35, 16, 16), unit),
)


def decoded(log):
    """An accepted log's period, modules and records, as write_log takes them."""
    bits = "".join(f"{byte:08b}" for byte in log)

    def fields(at, widths):
        values = []
        for width in widths:
            values.append(int(bits[at : at + width], 2))
            at += width
        return tuple(values)

    period, modules, *counts = fields(0, KINDS[0][1])
    lists, at = [], 80
    for count, size, (_, widths, _) in zip(counts, (48, 80, 88), KINDS[1:]):
        lists.append([fields(at + size * i, widths) for i in range(count)])
        at += size * count
    return period, modules, *lists


class Writing(Case):
    def not_added(self, writer, number, list, method, *values):
        """A method that is refused leaves the writer as it was."""
        written = writer.written()
        self.refused(number, list, 0, getattr(writer, method), *values)
        self.assertEqual(writer.written(), written)

    def test_case_w(self):
        log = write_log(604800000, 3, W_STATES, W_STANDARDS, w_units())
        self.assertIs(type(log), bytes)
        self.assertEqual(log, case_w())
        self.assertEqual(tool_log.report(log), REPORT)
        # any iterables will do
        self.assertEqual(write_log(604800000, 3, iter(W_STATES), iter(W_STANDARDS), map(list, w_units())), case_w())

    def test_record_by_record(self):
        writer = Writer()
        self.assertEqual(writer.written(), b"")
        self.refused(1, 0, 0, writer.finish)
        writer.header(period=86400000, modules=1, states=1, standards=0, units=0)
        self.assertEqual(writer.written(), header(86400000, 1, 1, 0, 0))
        self.refused(5, 0, 0, writer.finish)
        writer.state(module=0, code=22, time=0)
        self.assertEqual(writer.finish(), idle())
        self.assertEqual(writer.finish(), idle())
        writer.standard(module=1, recipe=2, start=3, theoretical=4)
        self.refused(5, 0, 0, writer.finish)
        writer.unit(module=1, recipe=2, time=3, actual=4, effective=5)
        self.assertEqual(writer.written(), idle() + standard(1, 2, 3, 4) + unit(1, 2, 3, 4, 5))

    def test_standard_by_hand(self):
        # 6 bits of the module, 10 of the recipe, 35 of the start, 27 of the theoretical time, 2 spare.
        for values, due in (
            ((1, 2, 3, 4), "04 02 00 00 00 00 60 00 00 10"),
            ((63, 0, 2**35 - 1, 0), "fc 00 ff ff ff ff e0 00 00 00"),
            ((0, 1023, 0, 2**27 - 1), "03 ff 00 00 00 00 1f ff ff fc"),
        ):
            writer = Writer()
            writer.standard(*values)
            self.assertEqual(writer.written(), bytes.fromhex(due))

    def test_random_values(self):
        source = random.Random(20261116)
        for method, widths, pack in KINDS:
            for _ in range(500):
                values = [source.getrandbits(width) for width in widths]
                writer = Writer(11)
                getattr(writer, method)(*values)
                self.assertEqual(writer.written(), pack(*values))

    def test_too_wide(self):
        # Cut to 64 bits, the last two of these would be 5.
        never = (2**40, -1, -(2**63), 2**64 - 1, 2**64, 2**64 + 5, 5 - 2**64)
        for list, (method, widths, pack) in enumerate(KINDS):
            greatest = [2**width - 1 for width in widths]
            for i, width in enumerate(widths):
                for values in (greatest, [0] * len(widths)):
                    full, writer = Writer(0), Writer(20)
                    writer.state(1, 2, 3)
                    for value in (2**width, *never):
                        wide = values[:i] + [value] + values[i + 1 :]
                        self.not_added(writer, 22, list, method, *wide)
                        self.not_added(full, 22, list, method, *wide)
                    most = values[:i] + [greatest[i]] + values[i + 1 :]
                    getattr(writer, method)(*most)
                    self.assertEqual(writer.written(), state(1, 2, 3) + pack(*most))

    def test_full(self):
        for method, widths, pack in KINDS:
            values = [1] * len(widths)
            size = len(pack(*values))
            for room in (0, size - 1, size, 2 * size - 1):
                writer = Writer(room)
                for _ in range(room // size):
                    getattr(writer, method)(*values)
                self.not_added(writer, 18, 0, method, *values)
                self.assertEqual(writer.written(), pack(*values) * (room // size))
        # a shorter record still fits
        writer = Writer(16)
        writer.header(86400000, 1, 1, 0, 0)
        self.not_added(writer, 18, 0, "unit", 0, 0, 0, 0, 0)
        writer.state(0, 22, 0)
        self.assertEqual(writer.finish(), idle())
        # the size that is lent by default
        writer = Writer()
        for _ in range(5738):
            writer.unit(0, 0, 0, 0, 0)
        writer.state(0, 0, 0)
        self.not_added(writer, 18, 0, "standard", 0, 0, 0, 0)
        self.assertEqual(len(writer.written()), 63124)
        writer.state(0, 0, 0)
        self.assertEqual(len(writer.written()), tool_log.LONGEST_LOG)

    def test_up_to_the_first_refused(self):
        writer = Writer(10 + 6 + 10)
        self.refused(18, 0, 0, writer.records, 10, 1, [(0, 0, 0), (0, 7, 1)], [(0, 3, 0, 1)], [(0, 3, 0, 1, 1)])
        # Four bytes are left behind two state records: no room for the standard.
        self.assertEqual(len(writer.written()), 10 + 6 + 6)
        writer = Writer()
        self.refused(22, 1, 0, writer.records, 10, 1, [(0, 0, 0), (64, 7, 1)], [(0, 3, 0, 1)], [])
        self.assertEqual(len(writer.written()), 10 + 6)

    def test_no_int(self):
        class Index:
            def __index__(self):
                return 1

        for method, widths, _ in KINDS:
            for i in range(len(widths)):
                for value in (1.0, "1", b"1", None, True, False, fractions.Fraction(1), [1], Index()):
                    writer = Writer()
                    writer.state(1, 2, 3)
                    # A value that is too wide comes first, and is not looked at.
                    with self.assertRaisesRegex(TypeError, "is an int, not " + type(value).__name__):
                        getattr(writer, method)(*[-1] * i, value, *[1] * (len(widths) - i - 1))
                    self.assertEqual(writer.written(), state(1, 2, 3))
        with self.assertRaisesRegex(TypeError, "^time is an int, not float 1.5$"):
            Writer().state(0, 0, 1.5)
        self.assertRaises(TypeError, write_log, 10, 1, [(0, 0)], [], [])
        self.assertRaises(TypeError, write_log, 10, 1, [(0, 0, 0)], [(0, 0, 1)], [])
        self.assertRaises(TypeError, Writer, 1.0)
        self.assertRaises(ValueError, Writer, -1)

    def test_named_codes(self):
        codes = enum.IntEnum("codes", {"UNWORKED_SHIFT": 22})
        self.assertEqual(write_log(86400000, 1, [(0, codes.UNWORKED_SHIFT, 0)], [], []), idle())

    def test_refused_logs(self):
        self.refused(9, 3, 2, write_log, 604800000, 3, W_STATES, W_STANDARDS, w_units(late=604800000))
        self.refused(19, 3, 2, write_log, 604800000, 3, W_STATES, W_STANDARDS, w_units(late=3599999))
        self.refused(2, 0, 0, write_log, 0, 3, W_STATES, W_STANDARDS, w_units())
        self.refused(11, 0, 0, write_log, 10, 1, [], [], [])
        self.refused(8, 1, 0, write_log, 10, 1, [(0, 24, 0)], [], [])
        # Counts that fit their fields are the reader's to refuse, also those of a log that is longer than the longest.
        self.refused(4, 0, 0, write_log, 20000, 1, [(0, 0, time) for time in range(16383)], [], [])
        self.refused(22, 0, 0, write_log, 20000, 1, [(0, 0, time) for time in range(16384)], [], [])
        self.refused(22, 1, 0, write_log, 10, 1, [(64, 0, 0)], [], [])
        self.refused(22, 2, 0, write_log, 10, 1, [], [(0, 0, 0, 2**27)], [])
        self.refused(22, 2, 0, write_log, 10, 1, [], [(64, 0, 0, 1)], [])
        self.refused(22, 3, 0, write_log, 10, 1, [], [], [(0, 0, 0, 0, -1)])

    def test_words(self):
        refused = self.refused(22, 3, 0, Writer().unit, 64, 0, 0, 0, 0)
        self.assertEqual(str(refused), "refused: 22 too wide: a value does not fit its field (list units, place 0)")

    def test_samples_rewritten(self):
        for name, log in accepted_samples():
            with self.subTest(name):
                self.assertEqual(write_log(*decoded(log)), log)


# Two days: period, modules, states, standards, units. Module 0 ends the first under repair, module 1 productive, and both begin the second so. Of
# recipe 3 of module 0 both days have a standard at their start, the second's of the time that was in force before, and one of the second's starts is
# earlier in its day.
DAY_1 = (1000, 2, [(0, 0, 0), (1, 7, 0), (0, 12, 300), (1, 3, 300), (0, 0, 400), (0, 18, 999)], [(0, 3, 0, 5), (0, 3, 500, 4), (1, 3, 0, 6)],
         [(0, 3, 250, 20, 15), (0, 3, 999, 7, 0), (1, 3, 999, 31, 30)])
DAY_2 = (2000, 2, [(0, 18, 0), (1, 3, 0), (0, 5, 1), (1, 22, 1500), (0, 7, 1999)],
         [(0, 2, 0, 3), (0, 3, 0, 4), (0, 3, 100, 2), (1, 3, 499, 6), (1, 1023, 1, 7)],
         [(0, 3, 0, 40, 40), (0, 3, 99, 2, 1), (0, 2, 100, 300, 0), (1, 1023, 1999, 9, 8)])
BOTH_DAYS = (3000, 2,
             [(0, 0, 0), (1, 7, 0), (0, 12, 300), (1, 3, 300), (0, 0, 400), (0, 18, 999),
              (0, 18, 1000), (1, 3, 1000), (0, 5, 1001), (1, 22, 2500), (0, 7, 2999)],
             [(0, 2, 1000, 3), (0, 3, 0, 5), (0, 3, 500, 4), (0, 3, 1000, 4), (0, 3, 1100, 2), (1, 3, 0, 6), (1, 3, 1499, 6), (1, 1023, 1001, 7)],
             [(0, 3, 250, 20, 15), (0, 3, 999, 7, 0), (1, 3, 999, 31, 30),
              (0, 3, 1000, 40, 40), (0, 3, 1099, 2, 1), (0, 2, 1100, 300, 0), (1, 1023, 2999, 9, 8)])

LONGEST_PERIOD = 31622400000


def bytes_of(period, modules, states, standards, units):
    records = [state(*s) for s in states] + [standard(*s) for s in standards] + [unit(*u) for u in units]
    return header(period, modules, len(states), len(standards), len(units)) + b"".join(records)


def joined(first, second):
    """Two logs' records as those of one, or the number of the refusal."""
    period, modules, *lists = first
    later, others, *more = second
    # A record's time is its third field in every list.
    moved = ([(*record[:2], record[2] + period, *record[3:]) for record in records] for records in more)
    states, standards, units = (own + other for own, other in zip(lists, moved))
    if modules != others:
        return 23
    if period + later > LONGEST_PERIOD:
        return 2
    if len(states) > 6000 or len(standards) > 512 or len(units) > 2000:
        return 4
    return period + later, modules, states, sorted(standards), units


def sums(log):
    """All time and theoretical sums of each module, and at last of the tool."""
    modules = range(tool_log.module_count(log))
    times = [tool_log.module_state_times(log, m) for m in modules] + [tool_log.tool_state_times(log)]
    quantities = [tool_log.module_quantities(log, m) for m in modules] + [tool_log.tool_quantities(log)]
    return [list(vars(answer).values()) for answer in times + quantities]


def credits(log):
    """The credited units of each standard, by its module, recipe, start and time."""
    return dict(zip(decoded(log)[3], tool_log.credited_units(log)))


class Joining(Case):
    def joins(self, first, second, due):
        """The joined log in buffers that it fills, and in longer ones whose other bytes stay. Shorter ones are refused, and stay."""
        self.assertEqual(join_logs(first, second), due)
        self.assertEqual(len(due), len(first) + len(second) - 10)
        for fill in (b"\x00", b"\xff", b"\xa5"):
            for room in (0, 1, 10, len(first), len(due) - 1):
                buffer = bytearray(fill * room)
                self.refused(18, 0, 0, join_logs_into, first, second, buffer)
                self.assertEqual(buffer, fill * room)
            for more in (0, 1, 63130):
                buffer = bytearray(fill * (len(due) + more))
                self.assertEqual(join_logs_into(first, second, buffer), len(due))
                self.assertEqual(buffer, due + fill * more)

    def turned_back(self, first, second, number):
        self.refused(number, 0, 0, join_logs, first, second)
        for room in (0, len(first) + len(second) - 10, tool_log.LONGEST_LOG):
            buffer = bytearray(b"\xa5" * room)
            self.refused(number, 0, 0, join_logs_into, first, second, buffer)
            self.assertEqual(buffer, b"\xa5" * room)

    def joined_or_not(self, first, second):
        """Two logs of these records are joined, or refused, as `joined` says, and their sums and credits are kept."""
        due = joined(first, second)
        first, second = bytes_of(*first), bytes_of(*second)
        if isinstance(due, int):
            return self.turned_back(first, second, due)
        log = join_logs(first, second)
        self.assertEqual(log, bytes_of(*due))
        self.assertEqual(sums(log), [[a + b for a, b in zip(own, other)] for own, other in zip(sums(first), sums(second))])
        period = decoded(first)[0]
        moved = {(module, recipe, start + period, time): units for (module, recipe, start, time), units in credits(second).items()}
        self.assertEqual(credits(log), {**credits(first), **moved})

    def test_days(self):
        first, second = bytes_of(*DAY_1), bytes_of(*DAY_2)
        self.joins(first, second, bytes_of(*BOTH_DAYS))
        self.joined_or_not(DAY_1, DAY_2)
        self.assertEqual(tool_log.credited_units(first)[:3], (20, 7, 31))
        self.assertEqual(tool_log.credited_units(second)[:5], (300, 42, 0, 0, 9))
        self.assertEqual(tool_log.credited_units(join_logs(first, second))[:8], (300, 20, 7, 42, 0, 31, 0, 9))
        self.assertIs(type(join_logs(first, second)), bytes)
        self.assertEqual(join_logs(bytearray(first), memoryview(second)), join_logs(first, second))
        self.assertEqual(join_logs(join_logs(first, second), first), join_logs(first, join_logs(second, first)))

    def test_in_place(self):
        # A log is copied first, so the buffer may be its own.
        first, second = bytes_of(*DAY_1), bytes_of(*DAY_2)
        buffer = bytearray(first + b"\xa5" * 1000)
        length = join_logs_into(memoryview(buffer)[: len(first)], second, buffer)
        self.assertEqual(buffer[:length], bytes_of(*BOTH_DAYS))
        self.refused(2, 10, 0, join_logs_into, buffer[:length], header(0, 1, 0, 0, 0), buffer)
        self.assertEqual(buffer[:length], bytes_of(*BOTH_DAYS))

    def test_by_bytes(self):
        due = bytes.fromhex("01499700004002000000 02c000000000 02c014997000")
        self.joins(idle(), idle(), due)
        twice = join_logs(case_w(), case_w())
        self.assertEqual((len(twice), tool_log.report(twice)), (232, REPORT))

    def test_samples(self):
        logs = [(name, log, decoded(log)) for name, log in accepted_samples()]
        for (name, first, own), (other, second, more) in itertools.product(logs, repeat=2):
            with self.subTest(f"{name} and {other}"):
                due = joined(own, more)
                if isinstance(due, int):
                    self.refused(due, 0, 0, join_logs, first, second)
                else:
                    self.assertEqual(join_logs(first, second), bytes_of(*due))

    def test_random_logs(self):
        source = random.Random(20261130)
        for turn in range(300):
            modules, pairs = source.choice((1, 2, 2, 3, 64)), [(source.randrange(3), source.choice((0, 3, 1023))) for _ in range(5)]
            days = []
            for _ in range(2):
                period = source.choice((40, 1000, 1000000, LONGEST_PERIOD // 2, source.randrange(100, LONGEST_PERIOD)))
                modules = modules if turn % 10 else source.choice((1, 2, 3))
                times = sorted(source.randrange(1, period) for _ in range(source.choice((0, 5, 30))))
                changes = {(time, source.randrange(modules)) for time in times}
                states = [(m, 0, 0) for m in range(modules)] + [(m, source.randrange(24), time) for time, m in sorted(changes)]
                keys = {(min(m, modules - 1), r, source.choice((0, 0, 5, period - 1, source.randrange(period)))) for m, r in pairs}
                standards = [(*key, source.choice((1, 2, 3))) for key in sorted(keys)]
                # Few units, so that all modules have the time for them: with none they have none.
                made = {(source.choice((start, period - 1)), m, r): source.choice((0, 1)) for m, r, start, _ in standards}
                units = [(m, r, time, made[time, m, r], source.randint(0, made[time, m, r])) for time, m, r in sorted(made)]
                days.append((period, modules, states, standards, units))
                try:
                    tool_log.examine(bytes_of(*days[-1]))
                except Refused:
                    days[-1] = (period, modules, states, standards, [(*u[:3], 0, 0) for u in units])
            self.joined_or_not(*days)

    def test_bounds(self):
        def log(modules, period, states, standards, units):
            changes = [(m, 0, 0) for m in range(modules)] + [(0, time % 2, time) for time in range(1, states - modules + 1)]
            return period, modules, changes, [(0, r, 0, 1) for r in range(standards)], [(0, 0, time, 1, time % 2) for time in range(units)]

        half, full = LONGEST_PERIOD // 2, (6000, 512, 2000)
        for due, first, second in (
            (None, log(1, half, 3000, 256, 1000), log(1, half, 3000, 256, 1000)),
            (None, log(64, 5999, 5936, 511, 1999), log(64, 100, 64, 1, 1)),
            (None, log(64, 5999, 64, 1, 1), log(64, 5999, 5936, 511, 1999)),
            (None, log(1, LONGEST_PERIOD - 1, 1, 0, 0), log(1, 1, 1, 0, 0)),
            (None, log(1, 1, 1, 0, 0), log(1, LONGEST_PERIOD - 1, 1, 512, 2000)),
            (23, log(2, 10, 2, 0, 0), log(1, 10, 1, 0, 0)),
            (23, log(63, 10, 63, 0, 0), log(64, 10, 64, 0, 0)),
            (23, log(1, LONGEST_PERIOD, *full), log(2, LONGEST_PERIOD, *full)),
            (23, log(1, LONGEST_PERIOD, 1, 0, 0), log(2, LONGEST_PERIOD, 2, 0, 0)),
            (23, log(1, 6000, *full), log(2, 6000, *full)),
            # The last three sums have 36 bits, and without the highest they are below the bound.
            (2, log(1, LONGEST_PERIOD, 1, 0, 0), log(1, 1, 1, 0, 0)),
            (2, log(1, half, 1, 0, 0), log(1, half + 1, 1, 0, 0)),
            (2, log(1, half + 6000, *full), log(1, half, *full)),
            (2, log(1, LONGEST_PERIOD, 1, 0, 0), log(1, LONGEST_PERIOD, 1, 0, 0)),
            (2, log(1, LONGEST_PERIOD, *full), log(1, LONGEST_PERIOD, *full)),
            (2, log(1, LONGEST_PERIOD, 1, 0, 0), log(1, 2**35 + 1 - LONGEST_PERIOD, 1, 0, 0)),
            (4, log(1, 6000, 6000, 0, 0), log(1, 6000, 1, 0, 0)),
            (4, log(1, 6000, 1, 0, 0), log(1, 6000, 6000, 0, 0)),
            (4, log(1, 6000, 1, 512, 0), log(1, 6000, 1, 1, 0)),
            (4, log(1, 6000, 1, 1, 0), log(1, 6000, 1, 512, 0)),
            (4, log(1, 6000, 1, 1, 2000), log(1, 6000, 1, 1, 1)),
            (4, log(1, 6000, 1, 1, 1), log(1, 6000, 1, 1, 2000)),
            (4, log(1, half, *full), log(1, half, *full)),
        ):
            if due:
                self.turned_back(bytes_of(*first), bytes_of(*second), due)
            else:
                self.joins(bytes_of(*first), bytes_of(*second), bytes_of(*joined(first, second)))

    def test_refused_second(self):
        # The second day with one value another: list, record, field, value, and the refusal.
        first = bytes_of(*DAY_1)
        for list, record, field, value, *due in (
            (0, 2, 1, 24, 8, 11, 2), (0, 4, 2, 2000, 9, 11, 4), (0, 3, 2, 0, 10, 11, 3), (0, 0, 0, 2, 7, 11, 0),
            (1, 4, 0, 2, 7, 12, 4), (1, 4, 2, 2000, 9, 12, 4), (1, 0, 3, 0, 12, 12, 0), (1, 2, 2, 0, 13, 12, 2), (1, 0, 1, 4, 19, 12, 1),
            (2, 3, 0, 2, 7, 13, 3), (2, 3, 2, 2000, 9, 13, 3), (2, 1, 4, 3, 14, 13, 1), (2, 2, 1, 5, 15, 13, 2), (2, 2, 2, 98, 19, 13, 2),
            (2, 2, 3, 65535, 16, 10, 0), (2, 3, 3, 215, 16, 10, 1),
        ):
            period, modules, *lists = DAY_2
            changed = [*lists[list][record][:field], value, *lists[list][record][field + 1 :]]
            lists[list] = [*lists[list][:record], changed, *lists[list][record + 1 :]]
            self.refused(*due, join_logs, first, bytes_of(period, modules, *lists))
            # Its own number stays, and comes ahead of what both together would be refused for.
            self.refused(*due, join_logs, idle(), bytes_of(period, modules, *lists))
        self.refused(2, 10, 0, join_logs, first, bytes_of(0, *DAY_2[1:]))
        self.refused(3, 10, 0, join_logs, first, bytes_of(DAY_2[0], 65, *DAY_2[2:]))
        self.refused(4, 10, 0, join_logs, first, bytes_of(DAY_2[0], 2, [(0, 0, 0)] * 6001, [], []))
        self.refused(11, 10, 2, join_logs, first, bytes_of(DAY_2[0], 3, *DAY_2[2:]))

    def test_words(self):
        for second, words in (
            (b"", "1 no header: under 10 bytes (the second log)"),
            (bytes_of(2000, 64, *DAY_2[2:]), "11 no opening: a module whose first record is not at time 0, or that has none (module 2 of the second log)"),
            (bytes_of(*DAY_2[:4], [(1, 1023, 1, 65535, 0)]),
             "16 too fast: a module's actual theoretical time above its production time (module 1 of the second log)"),
            (bytes_of(2000, 2, [(0, 24, 0)], [], []), "8 stray code: sub-state code above 23 (record 0 of the second log's states)"),
            (bytes_of(2000, 2, DAY_2[2], [(0, 3, 0, 1), (0, 3, 0, 1)], []),
             "13 twice: module, recipe and start all equal to an earlier standard's (record 1 of the second log's standards)"),
            (bytes_of(*DAY_2[:4], [(0, 3, 2000, 1, 1)]),
             "9 outside: time or start at or past the period (record 0 of the second log's units)"),
            (idle(), "23 unlike tools: two logs to join whose module counts differ (list none, place 0)"),
        ):
            with self.assertRaises(Refused) as caught:
                join_logs(bytes_of(*DAY_1), second)
            self.assertEqual(str(caught.exception), "refused: " + words)


# A shift of two modules. Codes are repeated, once in the last ms; module 1 opens with the code that module 0 just got, at 10 goes to another one of the
# same state, and at 20 to the one that module 0 just got. Recipe 3 is stated three times, revised and revised back; recipe 4 has its time, at both
# modules, and is stated once more for the last ms.
A_SHIFT = (1000, 2,
           [(0, 0, 0), (1, 0, 0), (0, 0, 10), (1, 1, 10), (0, 7, 20), (1, 7, 20), (0, 7, 30), (0, 0, 40), (1, 7, 50), (0, 0, 999)],
           [(0, 3, 0, 5), (0, 3, 100, 5), (0, 3, 200, 5), (0, 3, 300, 4), (0, 3, 400, 5), (0, 4, 0, 5), (1, 4, 0, 5), (1, 4, 999, 5)],
           [(0, 3, 99, 10, 9), (0, 3, 100, 20, 15), (0, 3, 250, 40, 0), (0, 3, 300, 3, 3), (0, 4, 300, 7, 1), (0, 3, 400, 50, 49),
            (1, 4, 998, 1, 1), (1, 4, 999, 2, 0)])
PACKED_SHIFT = (1000, 2,
                [(0, 0, 0), (1, 0, 0), (1, 1, 10), (0, 7, 20), (1, 7, 20), (0, 0, 40)],
                [(0, 3, 0, 5), (0, 3, 300, 4), (0, 3, 400, 5), (0, 4, 0, 5), (1, 4, 0, 5)],
                A_SHIFT[4])


def kept(records, key, value):
    """The records whose value is not the one that the latest record ahead of it with their key has."""
    before, rest = {}, []
    for record in records:
        if before.get(record[:key]) != record[value]:
            rest.append(record)
        before[record[:key]] = record[value]
    return rest


def packed_records(period, modules, states, standards, units):
    """The records of a log that say something new: by module the code, by module and recipe the theoretical time."""
    return period, modules, kept(states, 1, 1), kept(standards, 2, 3), units


def told(states, modules, period):
    """The code of each module at each ms."""
    return [[next(code for m, code, since in reversed(states) if m == module and since <= time) for time in range(period)] for module in range(modules)]


class Packing(Case):
    def packs(self, log, due):
        """The packed log, apart and in place: zeros are behind it. What is packed stays as it is."""
        packed = pack_log(log)
        self.assertIs(type(packed), bytes)
        self.assertEqual(packed, due)
        buffer = bytearray(log)
        self.assertEqual(pack_log_in_place(buffer), len(due))
        self.assertEqual(buffer, due + bytes(len(log) - len(due)))
        self.assertEqual(call_pack(bytearray(due)), (1, len(due), (0, 0, 0)))

    def packed_is(self, records, due):
        """The log of these records is packed to that of `due`, which is packed already, and both answer alike."""
        log, packed = bytes_of(*records), bytes_of(*due)
        self.packs(log, packed)
        self.packs(packed, packed)
        self.assertEqual(sums(packed), sums(log))
        self.assertEqual(tool_log.report(packed), tool_log.report(log))
        self.assertEqual(tool_log.tool_losses(packed), tool_log.tool_losses(log))

    def keeps(self, records, states, standards):
        """So many state records and standards say something new."""
        due = packed_records(*records)
        self.assertEqual((len(due[2]), len(due[3])), (states, standards))
        self.packed_is(records, due)

    def test_shift(self):
        self.packed_is(A_SHIFT, PACKED_SHIFT)
        self.assertEqual(tool_log.credited_units(bytes_of(*A_SHIFT))[:9], (10, 20, 40, 3, 50, 7, 1, 2, 0))
        self.assertEqual(tool_log.credited_units(pack_log(bytes_of(*A_SHIFT)))[:6], (70, 3, 50, 7, 3, 0))

    def test_by_bytes(self):
        # A day that was not scheduled, told three times.
        day = bytes.fromhex("00a4cb80004003000000 02c000000000 02c000dbba00 02c001b77400")
        self.packs(day, idle())
        self.packs(idle(), idle())
        self.packs(case_w(), case_w())

    def test_joined_days(self):
        # The second's openings, and the standards that it states once more, are gone.
        period, modules, states, standards, units = BOTH_DAYS
        states = [record for record in states if record not in ((0, 18, 1000), (1, 3, 1000))]
        standards = [record for record in standards if record not in ((0, 3, 1000, 4), (1, 3, 1499, 6))]
        self.packed_is(BOTH_DAYS, (period, modules, states, standards, units))
        self.assertEqual(pack_log(join_logs(bytes_of(*DAY_1), bytes_of(*DAY_2))), bytes_of(period, modules, states, standards, units))

    def test_lent(self):
        log, packed = bytes_of(*A_SHIFT), bytes_of(*PACKED_SHIFT)
        zeros = bytes(len(log) - len(packed))
        own = bytearray(log)
        for given in (own, memoryview(own), memoryview(log)):
            self.assertEqual(pack_log(given), packed)
        self.assertEqual(own, log)
        # a part of a buffer, which is all that changes
        longer = bytearray(b"\xa5" * 7 + log + b"\xa5" * 7)
        self.assertEqual(pack_log_in_place(memoryview(longer)[7:-7]), len(packed))
        self.assertEqual(longer, b"\xa5" * 7 + packed + zeros + b"\xa5" * 7)
        # items of other sizes are taken as their bytes
        numbers = array.array("H", log)
        self.assertEqual(pack_log_in_place(numbers), len(packed))
        self.assertEqual(numbers.tobytes(), packed + zeros)
        for given in (log, memoryview(log), memoryview(bytearray(2 * len(log)))[::2], "log", None, 5):
            self.assertRaises(TypeError, pack_log_in_place, given)
        self.assertEqual(log, bytes_of(*A_SHIFT))

    def test_longer_buffer(self):
        for log in (bytes_of(*A_SHIFT), bytes_of(*PACKED_SHIFT), idle()):
            for behind in (b"\0", b"\xa5", b"\0" * 1000, log):
                buffer = bytearray(log + behind)
                self.refused(5, 0, 0, pack_log_in_place, buffer)
                self.assertEqual(buffer, log + behind)
                self.refused(5, 0, 0, pack_log, log + behind)

    def test_lent_no_longer(self):
        # A buffer can be resized once it was packed or refused, while the refusal is at hand too.
        buffer = bytearray(idle() + b"\0")
        refused = self.refused(5, 0, 0, pack_log_in_place, buffer)
        del buffer[-1]
        self.assertEqual(pack_log_in_place(buffer), 16)
        buffer.append(0)
        self.assertEqual((refused.number, len(buffer)), (5, 17))

    def test_each_code(self):
        for before, code in itertools.product(range(24), repeat=2):
            self.keeps((100, 1, [(0, before, 0), (0, code, 99)], [], []), 1 if code == before else 2, 0)

    def test_each_module(self):
        # Of 64 modules one goes on with its code, and the others change; or one changes.
        openings = [(module, module % 24, 0) for module in range(64)]
        for own in range(64):
            for others in 0, 1:
                later = [(module, (module + (1 - others if module == own else others)) % 24, 50) for module in range(64)]
                self.keeps((100, 64, openings + later, [], []), 127 if others else 65, 0)

    def test_each_bit(self):
        # Two standards that differ in a single bit of their time, and two that differ in one of their module or recipe. The second is stated once more.
        greatest = 2**27 - 1
        for bit in range(27):
            for time in (1 if bit else 2, greatest):
                self.keeps((100, 1, [(0, 0, 0)], [(0, 3, 0, time), (0, 3, 1, time ^ 1 << bit), (0, 3, 2, time ^ 1 << bit)], []), 1, 2)
        openings = [(module, module % 24, 0) for module in range(64)]
        for other in [(1 << bit, 0) for bit in range(6)] + [(0, 1 << bit) for bit in range(10)]:
            self.keeps((100, 64, openings, [(0, 0, 0, greatest), (*other, 50, greatest), (*other, 99, greatest)], []), 64, 2)

    def test_longest(self):
        units = [(0, 1023, 3 * i, 1, i % 2) for i in range(2000)]
        states, standards = [(0, 5, time) for time in range(6000)], [(0, 1023, 2 * i, 3) for i in range(512)]
        self.keeps((6000, 1, states, standards, units), 1, 1)
        self.keeps((6000, 1, states[:-1] + [(0, 4, 5999)], standards[:-1] + [(0, 1023, 1022, 2)], units), 2, 2)
        states = [(i % 64, i // 64 % 24, 0 if i < 64 else LONGEST_PERIOD - 6000 + i) for i in range(6000)]
        standards = [(i // 8, 7 + i % 8 // 4, i % 4 * 1000000, 3 + i % 2) for i in range(512)]
        units = [(i % 64, 8, i // 64 * 1000000, 65535, i) for i in range(2000)]
        self.keeps((LONGEST_PERIOD, 64, states, standards, units), 6000, 512)

    def test_samples(self):
        for name, log in accepted_samples():
            with self.subTest(name):
                self.packed_is(decoded(log), packed_records(*decoded(log)))

    def test_random_logs(self):
        # At each ms each module keeps its code and each recipe its time in force, and no record is left that could go.
        source = random.Random(20261201)
        for turn in range(300):
            period, modules = 40, source.choice((1, 2, 3))
            codes = source.sample(range(24), source.choice((1, 2, 3)))
            states = [(m, source.choice(codes), t) for t in range(period) for m in range(modules) if t == 0 or source.random() < 0.3]
            keys = [(m, r, t) for m in range(modules) for r in (0, 5, 1023) for t in range(period) if source.random() < 0.1]
            standards = [(*key, source.choice((1, 2))) for key in keys]
            self.packed_is((period, modules, states, standards, []), packed_records(period, modules, states, standards, []))

            log = bytes_of(period, modules, states, standards, [])
            _, _, kept_states, kept_standards, _ = decoded(pack_log(log))
            codes = told(states, modules, period)
            self.assertEqual(told(kept_states, modules, period), codes)
            self.assertEqual(len(kept_states), modules + sum(a != b for of_module in codes for a, b in itertools.pairwise(of_module)))
            changes = 0
            for m, r in itertools.product(range(modules), (0, 5, 1023)):
                was, now = [[latest(of_log, m, r, t) for t in range(period)] for of_log in (standards, kept_standards)]
                self.assertEqual([found and found.time for found in now], [found and found.time for found in was])
                times = [None] + [found and found.time for found in was]
                changes += sum(a != b for a, b in itertools.pairwise(times))
            self.assertEqual(len(kept_standards), changes)


if __name__ == "__main__":
    unittest.main()
