"""A dashboard's table from a log: dashboard.py LOG. Exit status: 0 answered, 1 refused."""

import dataclasses
import sys

import tool_log
from reading import read


def line(name, cells, width):
    print(f"{name:>6}" + "".join(f" {cell:>{width}}" for cell in cells))


def figure(value):
    return "-" if value is None else f"{value:.6f}"


def main():
    log = read(sys.argv[1], tool_log.LONGEST_LOG)
    try:
        modules = range(tool_log.module_count(log))
    except tool_log.Refused as refused:
        print(refused)
        return 1

    print("state times, ms")
    line("module", (field.name.replace("_", " ") for field in dataclasses.fields(tool_log.StateTimes)), 16)
    for m in modules:
        line(m, dataclasses.astuple(tool_log.module_state_times(log, m)), 16)
    line("tool", dataclasses.astuple(tool_log.tool_state_times(log)), 16)

    print("\nfigures")
    line("module", ("availability", "operational", "rate", "quality", "OEE", "product"), 12)
    for m in modules:
        line(m, map(figure, dataclasses.astuple(tool_log.module_figures(log, m))), 12)
    line("tool", map(figure, dataclasses.astuple(tool_log.tool_figures(log))), 12)
    return 0


if __name__ == "__main__":
    sys.exit(main())
