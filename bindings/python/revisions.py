"""Which revision of a standard the units were judged by: revisions.py LOG. Exit status: 0 answered, 1 refused.

Prints the module, recipe, start and theoretical time of each standard and the actual units credited to it, and how many these are together; or the
refusal in words.
"""

import bisect
import functools
import sys

import tool_log
from reading import read

RECIPES = 1024
NONE = tool_log.InForce(-1, 0)


def standards(log):
    """Module, recipe, start and theoretical time of each standard, asked for. The list rises by module, recipe and start, so that each recipe's
    standards stand behind those of the one before, up to its newest."""
    index, period = 0, tool_log.module_quantities(log, 0).total
    for module in range(tool_log.module_count(log)):
        for recipe in range(RECIPES):
            in_force = functools.partial(tool_log.standard_in_force, log, module, recipe)
            newest = in_force(period) or NONE
            while index <= newest.index:
                start = bisect.bisect_left(range(period), index, key=lambda time: (in_force(time) or NONE).index)
                yield module, recipe, start, in_force(start).time
                index += 1


def main():
    log = read(sys.argv[1], tool_log.LONGEST_LOG)
    try:
        units = tool_log.credited_units(log)
    except tool_log.Refused as refused:
        print(refused)
        return 1
    print("standard module recipe    start, ms   ms a unit     units")
    for index, (module, recipe, start, time) in enumerate(standards(log)):
        print(f"{index:8} {module:6} {recipe:6} {start:12} {time:11} {units[index]:9}")
    print(f"{'total':>8} {sum(units):48}")
    return 0


if __name__ == "__main__":
    sys.exit(main())
