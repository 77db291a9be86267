"""One log from consecutive ones: week.py RESULT LOG LOG.. Exit status: 0 joined, 1 refused, 2 too few names, or a file that cannot be read or written.

Joins the logs in this sequence, writes the joined log to the file RESULT and prints its report; or prints the refusal in words, behind the name of the
log that it is about, and leaves RESULT alone. Where the logs so far are not to be joined with the next one, that is the next one's name.
"""

import sys

import tool_log
from reading import read
from saving import save


def main():
    if len(sys.argv) < 4:
        print("usage: week.py RESULT LOG LOG..", file=sys.stderr)
        return 2
    result, name, *others = sys.argv[1:]
    joined = read(name, tool_log.LONGEST_LOG)
    try:
        tool_log.examine(joined)
        for name in others:
            joined = tool_log.join_logs(joined, read(name, tool_log.LONGEST_LOG))
    except tool_log.Refused as refused:
        print(f"{name}: {refused}")
        return 1
    save(result, joined)
    print(tool_log.report(joined), end="")
    return 0


if __name__ == "__main__":
    try:
        sys.exit(main())
    except OSError as error:
        print(f"week.py: {error}", file=sys.stderr)
        sys.exit(2)
