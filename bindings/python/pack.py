"""A log without the records that say nothing new: pack.py LOG RESULT. Exit status: 0 packed, 1 refused, 2 not two names, or a file that cannot be read
or written.

Writes the packed log to the file RESULT, which may be LOG, and prints its length and what was dropped; or prints the refusal in words and leaves RESULT
alone.
"""

import sys

import tool_log
from reading import read
from saving import save


def counts(log):
    """How many state records and standards the header of a log counts, in the 14 bits from bit 42 on and in the 11 behind them."""
    bits = int.from_bytes(log[:10], "big")
    return bits >> 24 & 0x3FFF, bits >> 13 & 0x7FF


def main():
    if len(sys.argv) != 3:
        print("usage: pack.py LOG RESULT", file=sys.stderr)
        return 2
    name, result = sys.argv[1:]
    log = read(name, tool_log.LONGEST_LOG)
    try:
        packed = tool_log.pack_log(log)
    except tool_log.Refused as refused:
        print(refused)
        return 1
    save(result, packed)
    (states, standards), (kept_states, kept_standards) = counts(log), counts(packed)
    print("bytes before", len(log))
    print("bytes after", len(packed))
    print("states dropped", states - kept_states)
    print("standards dropped", standards - kept_standards)
    return 0


if __name__ == "__main__":
    try:
        sys.exit(main())
    except OSError as error:
        print(f"pack.py: {error}", file=sys.stderr)
        sys.exit(2)
