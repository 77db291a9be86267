"""The supplemental figures of a tool: supplemental.py LOG BENCHMARKS. Exit status: 0 answered, 1 refused."""

import dataclasses
import sys

import tool_log
from reading import places, read


def main():
    log, benchmarks = read(sys.argv[1], tool_log.LONGEST_LOG), read(sys.argv[2], tool_log.LONGEST_BENCHMARKS)
    try:
        figures = tool_log.supplemental(log, benchmarks)
    except tool_log.Refused as refused:
        print(refused)
        return 1
    for name, figure in dataclasses.asdict(figures).items():
        print(name.replace("_", "-"), places(figure))
    return 0


if __name__ == "__main__":
    sys.exit(main())
