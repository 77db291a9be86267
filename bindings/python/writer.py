"""A shift's log, written as a controller does: writer.py LOG [PERIOD]. The shift, and what its report has to say, are those of c/writer.c.

Writes the log to the file LOG and prints its report, or prints the refusal in words and leaves the file alone. PERIOD is another length of the shift
than 8 hours, in ms. Exit status: 0 written, 1 refused.
"""

import sys

import tool_log

MINUTE = 60_000
HOUR = 60 * MINUTE

# Sub-state codes.
REGULAR, NO_PRODUCT, PREVENTIVE, REPAIR = 0, 7, 15, 18

STATES = [
    (0, REGULAR, 0),
    (1, NO_PRODUCT, 0),
    (1, REGULAR, 1 * HOUR),
    (0, PREVENTIVE, 3 * HOUR),
    (0, REGULAR, 4 * HOUR),
    (1, REPAIR, 5 * HOUR),
    (0, NO_PRODUCT, 6 * HOUR + 36 * MINUTE),
]
STANDARDS = [(0, 3, 0, 2 * MINUTE), (0, 3, 4 * HOUR, 3 * MINUTE // 2), (1, 3, 0, 3 * MINUTE)]
UNITS = [(0, 3, 3 * HOUR, 90, 81), (1, 3, 5 * HOUR, 63, 63), (0, 3, 6 * HOUR + 36 * MINUTE, 90, 81)]


def main():
    period = int(sys.argv[2]) if len(sys.argv) > 2 else 8 * HOUR
    try:
        log = tool_log.write_log(period, 2, STATES, STANDARDS, UNITS)
    except tool_log.Refused as refused:
        print(refused)
        return 1
    with open(sys.argv[1], "wb") as f:
        f.write(log)
    print(tool_log.report(log), end="")
    return 0


if __name__ == "__main__":
    sys.exit(main())
