#!/usr/bin/env python3
"""collect.py [--counts | --times] PROGRAM [OLDER]: what collections and lookups cost, in instructions (callgrind) and in time of the
processor; or in instructions alone, or the rows of collections in time alone.

It is what a script takes more than another without them. Times are the least and the median of some runs of all programs in turn.
CoreCLR's collections stand beside them where `conformance/coreclr/machine/build` made its program; it compacts in each, and times
them itself. The status is 1 where a row costs more than is asked, or, with an older program, 3 % more than by that."""
import os
import re
import statistics
import subprocess
import sys
import tempfile

sys.dont_write_bytecode = True
import scripts

sys.path.insert(0, os.path.join(os.path.dirname(os.path.abspath(__file__)), "..", "conformance", "coreclr", "machine"))
import place

RUNS = 31
FULL = (b"tablefull", b"heapfull")

# The most instructions of a row, and the most of CoreCLR's time that a collection of each generation may take.
ASKED = {"`collect 2`, 10,000 strong handles": 1_900_000, "`collect 2`, 8,000 dependent handles of one": 2_600_000,
         "`collect 2`, 5,000 old, strong handles": 1_700_000, "`collect 2`, 5,000 old, dependent too": 2_900_000,
         "`collect 0`, 5,000 young": 1_500_000, "`collect 0`, 5,000 old, strong handles": 7_000,
         "`collect 2`, chain of 4,000, worse order": 3_000_000}
OF_CORECLR = {"young": 0.8, "collect 2": 0.8, "collect 0": 0.4}
DEARER = 1.03


def text_of(program, script):
    """What a script prints; it must have room, or what is measured is not what its name says."""
    with open(script) as lines:
        done = subprocess.run([program, "solo"], stdin=lines, stdout=subprocess.PIPE)
    if done.returncode != 0 or any(word in done.stdout for word in FULL):
        sys.exit(f"{program} ends with {done.returncode}, or its heap or table is full: {script}")
    return done.stdout


def instructions(words, script):
    with open(script) as lines:
        done = subprocess.run(["valgrind", "--tool=callgrind", "--callgrind-out-file=/dev/null"] + words, stdin=lines,
                              stdout=subprocess.DEVNULL, stderr=subprocess.PIPE, text=True, check=True)
    return int(re.search(r"Collected : (\d+)", done.stderr)[1])


def microseconds(program, script):
    """The time of the processor that a script takes."""
    with open(script) as lines:
        running = subprocess.Popen([program, "solo"], stdin=lines, stdout=subprocess.DEVNULL)
        used = os.wait4(running.pid, 0)[2]
    return (used.ru_utime + used.ru_stime) * 1e6


def coreclr_microseconds(program, row, script):
    """The time of the processor of one of CoreCLR's collections, as it measures it."""
    with open(script) as lines:
        done = subprocess.run([program, "collections", str(row.often)], stdin=lines, stdout=subprocess.PIPE, check=True)
    return float(done.stdout)


def counted(programs, coreclr, row, paths):
    """The instructions of a row by each program, and by CoreCLR's."""
    words = [[program, "solo"] for program in programs] + ([[coreclr, "collections", str(row.often)]] if coreclr else [])
    return [(instructions(of_program, paths[0]) - instructions(of_program, paths[1])) / row.often for of_program in words]


def timed(programs, coreclr, row, paths):
    """The least and the median microseconds of a row by each program, and by CoreCLR's."""
    times, theirs = [[[] for _ in paths] for _ in programs], []
    for _ in range(RUNS):
        for program, of_program in zip(programs, times):
            for path, of_path in zip(paths, of_program):
                of_path.append(microseconds(program, path))
        theirs += [coreclr_microseconds(coreclr, row, paths[0])] if coreclr else []
    ours = [[(number(full) - number(less)) / row.often for number in (min, statistics.median)] for full, less in times]
    return ours + ([[min(theirs), statistics.median(theirs)]] if coreclr else [])


def most_of_coreclr(name):
    """How much of CoreCLR's time a row may take."""
    return next((most for word, most in OF_CORECLR.items() if word in name), None)


def faults(row, counts, times, has_older, has_coreclr):
    """What of a row is not as asked."""
    if counts and counts[0] > ASKED.get(row.name, counts[0]):
        yield f"{row.name}: {counts[0]:,.0f} instructions, {ASKED[row.name]:,} are asked"
    if counts and has_older and counts[0] > DEARER * counts[1]:
        yield f"{row.name}: {counts[0]:,.0f} instructions, {counts[1]:,.0f} by the older program"
    for what, ours, theirs in zip(("least", "median"), times[0], times[-1]) if has_coreclr and times else ():
        if ours > most_of_coreclr(row.name) * theirs:
            yield f"{row.name}: {ours:,.1f} µs are {ours / theirs:.2f} of CoreCLR's, {what} of {RUNS} runs"


def show(name, counts, times, columns):
    written = [f"{count:,.0f}" for count in counts] + ["-"] * (columns - len(counts))
    written += [f"{least:,.1f}, {median:,.1f}" for least, median in times] + ["-"] * (columns - len(times))
    print("|", " | ".join([name] + written), "|", flush=True)


def measure(programs, coreclr, row, paths, ways):
    """The counts of a row and its times, by each program and, where it is a row of collections alone, by CoreCLR's."""
    for path in paths:
        if len({text_of(program, path) for program in programs}) > 1:
            sys.exit(f"the programs print different texts: {row.name}")
    beside = coreclr if row.collects else None
    counts = counted(programs, beside, row, paths) if "--counts" in ways else []
    return counts, timed(programs, beside, row, paths) if row.timed and "--times" in ways else []


def main(words):
    programs = [word for word in words if not word.startswith("--")]
    ways = [word for word in words if word.startswith("--")] or ["--counts", "--times"]
    if len(programs) not in (1, 2) or not {*ways} <= {"--counts", "--times"}:
        sys.exit("usage: collect.py [--counts | --times] PROGRAM [OLDER]")
    coreclr = place.coreclr() if os.path.exists(place.NOTE) else None
    names = [os.path.basename(program) for program in programs] + (["CoreCLR"] if coreclr else [])
    heads = [f"instructions, {name}" for name in names] + [f"µs, {name}: least, median" for name in names]
    print("|", " | ".join(["what"] + heads), "|")
    print("|---" * (1 + len(heads)) + "|")
    wrong = []
    with tempfile.TemporaryDirectory() as folder:
        for row, paths in scripts.write_all(folder):
            if "--counts" not in ways and not (row.timed and row.collects):
                continue
            counts, times = measure(programs, coreclr, row, paths, ways)
            show(row.name, counts, times, len(names))
            wrong += faults(row, counts, times, len(programs) > 1, coreclr is not None and row.collects)
    print("", *wrong, sep="\n")
    sys.exit(1 if wrong else 0)


if __name__ == "__main__":
    main(sys.argv[1:])
