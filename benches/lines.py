#!/usr/bin/env python3
"""lines.py PROGRAM: the instructions (callgrind) of a line `drop r0`: to be read, and to be read, done and written.

It is what 99,000 such lines take more than 9,000, each. Of lines that are read alone the last one is at fault. The status is 1
where that takes more than is asked."""
import re
import subprocess
import sys

MANY, FEW = 99_000, 9_000
ASKED = 220


def instructions(program, mode, lines):
    words = ["valgrind", "--tool=callgrind", "--callgrind-out-file=/dev/null", program, mode]
    done = subprocess.run(words, input=lines.encode(), stdout=subprocess.DEVNULL, stderr=subprocess.PIPE)
    return int(re.search(rb"Collected : (\d+)", done.stderr)[1])


def each(program, mode, last):
    """The instructions of a line, where the last is another one."""
    many, few = (instructions(program, mode, "drop r0\n" * number + last) for number in (MANY, FEW))
    return (many - few) / (MANY - FEW)


def main(words):
    if len(words) != 1:
        sys.exit(__doc__)
    read = each(words[0], "solo", "dorp r0\n")
    print("| a line `drop r0` | instructions | asked |\n|---|---|---|")
    print(f"| is read | {read:.0f} | {ASKED} |")
    for mode in ("solo", "run"):
        print(f"| is read, done and written by `{mode}` | {each(words[0], mode, ''):.0f} | |", flush=True)
    sys.exit(read > ASKED)


if __name__ == "__main__":
    main(sys.argv[1:])
