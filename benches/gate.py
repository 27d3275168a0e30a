#!/usr/bin/env python3
"""gate.py OLD NEW [--coreclr PROGRAM] [--only PART..]: what callers at the gate cost, by two builds of hdt in turn, beside what is
asked.

The parts: `loads`, with four, two and one processors; `futexes`, their calls of the system; `lone`, `run` of one caller beside
`solo`, with its instructions; `starving`, how many collections a caller waits through that drops beside one that collects, at
real-time priority, where it has a processor whenever it can run, and as this is called; and `replays`, 1,000 by each build.
CoreCLR's load is in turn with both, where its program is given or `conformance/coreclr/machine/build` made one. It needs perf or
strace, valgrind, taskset and chrt, and nothing else running. The status is 1 where something is not as asked."""
import argparse
import os
import re
import shutil
import statistics
import subprocess
import sys
import tempfile
import time

HERE = os.path.dirname(os.path.abspath(__file__))
TOP = os.path.dirname(HERE)
RUNS = 15
FUTEX_RUNS = 12
STARVING_RUNS = 60
# Of the older build, of which nothing is asked.
OLD_STARVING_RUNS = 6
DROPS = 100_000
REPLAYS = 1_000
PROCESSORS = {4: "0-3", 2: "0,1", 1: "0"}
LOAD = "load callers 4 commands 96748 made 12000 live 0 collections 748 sum 18006000\n"
# What is asked: the load to the old one's, the ratio to CoreCLR to the old one's, futex calls, `run` to `solo`, instructions of
# `run` to the old one's, collections between two lines of one caller: of futex calls and collections the most, of the others the
# median.
LOADS_ASKED = {4: 0.62, 2: 0.8}
RATIO_ASKED = 0.6
FUTEX_ASKED = 1_000
RUN_ASKED = 1.25
INSTRUCTIONS_ASKED = 1.03
COLLECTIONS_ASKED = 20


class Asked:
    """The rows of the tables, with what is asked beside what was found."""

    def __init__(self):
        self.failed = False

    def head(self, *names):
        print(f"\n| {' | '.join(names)} |\n|{'---|' * len(names)}", flush=True)

    def row(self, *cells, found=None, asked=None):
        if asked is not None:
            good = found <= asked
            self.failed |= not good
            cells += (f"{found:.2f}" if isinstance(found, float) else f"{found:,}", f"{asked:,}{'' if good else ', NOT MET'}")
        print(f"| {' | '.join(str(cell) for cell in cells)} |", flush=True)


def milliseconds(words, text=None):
    """The time that a program takes by the clock, and what it prints."""
    start = time.monotonic()
    done = subprocess.run(words, stdin=open(text) if text else subprocess.DEVNULL, capture_output=True, text=True)
    if done.returncode != 0:
        sys.exit(f"{words} ends with status {done.returncode}")
    return (time.monotonic() - start) * 1e3, done.stdout


def load(words, processors):
    taken, written = milliseconds(["taskset", "-c", PROCESSORS[processors], *words])
    if written != LOAD:
        sys.exit(f"{words} writes {written!r}")
    return taken


def futex_calls(program, processors):
    """The futex calls of a load, counted by perf, or by strace where perf cannot."""
    words = ["taskset", "-c", PROCESSORS[processors], program, "load", "--rounds", "3000"]
    done = subprocess.run(["perf", "stat", "-x", ",", "-e", "syscalls:sys_enter_futex", *words], capture_output=True, text=True) \
        if shutil.which("perf") else None
    if done and done.returncode == 0 and re.search(r"^\d+,", done.stderr, re.M):
        return int(re.search(r"^(\d+),", done.stderr, re.M)[1])
    done = subprocess.run(["strace", "-f", "--seccomp-bpf", "-c", "-e", "trace=futex", *words], capture_output=True, text=True)
    found = re.search(r"(\d+)\s+(?:\d+\s+)?futex$", done.stderr, re.M)
    return int(found[1]) if found else 0


def instructions(words, text):
    tool = ["valgrind", "--tool=callgrind", "--callgrind-out-file=/dev/null"]
    with open(text) as lines:
        done = subprocess.run(tool + words, stdin=lines, stdout=subprocess.DEVNULL, stderr=subprocess.PIPE, text=True, check=True)
    return int(re.search(r"Collected : (\d+)", done.stderr)[1])


def processors_of(count):
    return f"{count} processor{'s' if count > 1 else ''}"


def loads(asked, old, new, coreclr):
    asked.head("`load --rounds 3000`", "old, ms", "new, ms", "CoreCLR, ms", "new to old", "asked")
    for processors in PROCESSORS:
        programs = {"old": [old, "load", "--rounds", "3000"], "new": [new, "load", "--rounds", "3000"]}
        if coreclr:
            programs["coreclr"] = [coreclr, "load", "3000"]
        times = {name: [] for name in programs}
        for _ in range(RUNS):
            for name, words in programs.items():
                times[name].append(load(words, processors))
        medians = {name: statistics.median(taken) for name, taken in times.items()}
        shown = [f"{medians[name]:.1f}" if name in medians else "-" for name in ("old", "new", "coreclr")]
        cells = [processors_of(processors), *shown]
        ratio = medians["new"] / medians["old"]
        if processors in LOADS_ASKED:
            asked.row(*cells, found=ratio, asked=LOADS_ASKED[processors])
        else:
            asked.row(*cells, f"{ratio:.2f}", "-")
        if coreclr and processors == 4:
            by_old, by_new = medians["old"] / medians["coreclr"], medians["new"] / medians["coreclr"]
            asked.row("the same, to CoreCLR", f"{by_old:.2f}", f"{by_new:.2f}", "1", found=by_new / by_old, asked=RATIO_ASKED)


def futexes(asked, old, new, _coreclr):
    asked.head("futex calls of a load", "old, mean", "least", "most", "new, mean", "least", "most", "asked")
    for processors in PROCESSORS:
        calls = [[futex_calls(program, processors) for _ in range(FUTEX_RUNS)] for program in (old, new)]
        cells = [processors_of(processors)]
        for of_program in calls:
            cells += [f"{statistics.mean(of_program):,.0f}", f"{min(of_program):,}", f"{max(of_program):,}"]
        asked.row(*cells[:-1], found=max(calls[1]), asked=FUTEX_ASKED)


def one_caller(asked, old, new, _coreclr):
    asked.head(f"{DROPS:,} `drop` of one caller", "old", "new", "found", "asked")
    with tempfile.NamedTemporaryFile("w") as script:
        script.write("drop r0\n" * DROPS)
        script.flush()
        times = {(program, mode): [] for program in (old, new) for mode in ("run", "solo")}
        for _ in range(RUNS):
            for program, mode in times:
                times[program, mode].append(milliseconds([program, mode], script.name)[0])
        medians = {key: statistics.median(taken) for key, taken in times.items()}
        for mode in ("run", "solo"):
            asked.row(f"`{mode}`, ms", f"{medians[old, mode]:.1f}", f"{medians[new, mode]:.1f}", "-", "-")
        ratios = [medians[program, "run"] / medians[program, "solo"] for program in (old, new)]
        asked.row("`run` to `solo`", f"{ratios[0]:.2f}", f"{ratios[1]:.2f}", found=ratios[1], asked=RUN_ASKED)
        counts = [instructions([program, "run"], script.name) for program in (old, new)]
        asked.row("`run`, instructions", *(f"{count:,}" for count in counts), found=counts[1] / counts[0], asked=INSTRUCTIONS_ASKED)


def starved(program, words):
    """The most collections between two lines of one of three that drop, in a run in which all were at work."""
    called = [os.path.join(TOP, "trials", "starving"), program, "--collections", "300", "--fields", "0", *words]
    written = subprocess.run(called, capture_output=True, text=True).stdout
    return max((int(wait) for wait in re.findall(r"at most (\d+)", written)), default=None)


def starving(asked, old, new, _coreclr):
    asked.head("300 collections beside three that drop: most between two lines of one", "runs", "least", "median",
               f"over {COLLECTIONS_ASKED}", "most", "asked")
    rows = [("old, at real-time priority", old, ["--real-time"], OLD_STARVING_RUNS),
            ("new, at real-time priority", new, ["--real-time"], STARVING_RUNS), ("new, as this is called", new, [], STARVING_RUNS)]
    for name, program, words, often in rows:
        most = [run for _ in range(often) if (run := starved(program, words)) is not None]
        if not most:
            sys.exit(f"{name}: there was no run in which all three were at work")
        cells = [name, len(most), min(most), int(statistics.median(most)), sum(run > COLLECTIONS_ASKED for run in most)]
        if program == old:
            asked.row(*cells, max(most), "-")
        else:
            asked.row(*cells, found=max(most), asked=COLLECTIONS_ASKED)


def replays(asked, old, new, _coreclr):
    print()
    for name, program in (("old", old), ("new", new)):
        words = [os.path.join(TOP, ".ci", "replay"), "--runs", str(REPLAYS), program]
        done = subprocess.run(words, capture_output=True, text=True)
        asked.failed |= done.returncode != 0
        print(f"{REPLAYS:,} replays by {name}: {'right' if done.returncode == 0 else done.stdout + done.stderr}")


def built_coreclr():
    try:
        with open(os.path.join(TOP, "conformance", "coreclr", "machine", "out", "folder")) as note:
            return os.path.join(note.read().strip(), "coreclr")
    except OSError:
        return None


PARTS = {"loads": loads, "futexes": futexes, "lone": one_caller, "starving": starving, "replays": replays}


def main():
    words = argparse.ArgumentParser(description=__doc__)
    words.add_argument("old")
    words.add_argument("new")
    words.add_argument("--coreclr", default=built_coreclr())
    words.add_argument("--only", nargs="+", choices=PARTS, default=PARTS)
    given = words.parse_args()
    old, new = os.path.abspath(given.old), os.path.abspath(given.new)
    asked = Asked()
    for part in given.only:
        PARTS[part](asked, old, new, given.coreclr)
    sys.exit(asked.failed)


if __name__ == "__main__":
    main()
