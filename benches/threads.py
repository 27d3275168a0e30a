#!/usr/bin/env python3
"""threads.py [--runs N] [--milliseconds N] LIBRARY..: what threads pay that call one host of the C library without a break. Each
with an end of a shared host, beside as many that call a host of their own under one pthread_mutex_t, in turn; medians. And what a
call takes one thread alone by a host of its own, by the mutex and by an end: the least of many short windows in turn. LIBRARY is what the program is linked with, in this order: libhdt_c.a liblibc_c.a. It
needs cc, and a machine on which nothing else runs. The status is 1 where a call by an end alone takes over 15 nanoseconds more
than on a host of its own, or more than under a mutex that nobody else takes; or where several ends together, or the one that
gets least, make fewer calls than with the mutex."""
import argparse
import os
import statistics
import subprocess
import sys
import tempfile

HERE = os.path.dirname(os.path.abspath(__file__))
CALLS = ["handle_get", "handle_new", "mix"]
THREADS = [2, 4, 8]
# Nanoseconds that an end alone may take more a call than a host of its own.
ASKED = 15


def measured(program, way, call, threads, milliseconds):
    """Calls a second in all, of the thread that made least, and busy answers a second."""
    words = [program, way, call, str(threads), str(milliseconds)]
    return list(map(float, subprocess.run(words, capture_output=True, text=True, check=True).stdout.split()))


def alone(program, call):
    """Nanoseconds a call by a host of its own, by the mutex and by an end of a shared host."""
    ran = subprocess.run([program, "alone", call], capture_output=True, text=True, check=True)
    return list(map(float, ran.stdout.split()))


def medians(program, call, options):
    """By way and number of threads, the medians of several runs in turn."""
    ways = [(way, threads) for threads in THREADS for way in ("mutex", "shared")]
    runs = {way: [] for way in ways}
    for _ in range(options.runs):
        for way in ways:
            runs[way].append(measured(program, way[0], call, way[1], options.milliseconds))
    return {way: [statistics.median(column) for column in zip(*them)] for way, them in runs.items()}


def missed_alone(call, own, mutex, shared):
    """What is asked of a call by an end alone and not met."""
    if shared > own + ASKED:
        yield f"{call} by an end alone: {shared:.1f} ns, on a host of its own {own:.1f}"
    if shared > mutex:
        yield f"{call} by an end alone: {shared:.1f} ns, under a mutex {mutex:.1f}"


def missed(call, of):
    """What is asked of ends together and not met."""
    for threads in THREADS:
        for place, whose in enumerate(["all", "the least"]):
            ends, mutex = of["shared", threads][place], of["mutex", threads][place]
            if ends < mutex:
                yield f"{call}, {threads} threads, {whose}: {ends / 1e6:.2f} million a second, with a mutex {mutex / 1e6:.2f}"


def row(call, threads, of):
    mutex, shared = of["mutex", threads], of["shared", threads]
    shown = [f"`{call}`", str(threads), *(f"{it / 1e6:.2f}" for it in (mutex[0], shared[0], mutex[1], shared[1]))]
    return f"| {' | '.join([*shown, f'{1000 * shared[2] / shared[0]:.2f}'])} |"


def table(titles):
    print(f"| {' | '.join(titles)} |\n|{'---|' * len(titles)}")


def main(options):
    with tempfile.TemporaryDirectory() as folder:
        program = f"{folder}/threads_bench"
        words = ["cc", "-O2", "-std=c11", "-Wall", "-Wextra", "-Werror", "-pthread", f"-I{HERE}/../crates/hdt_c"]
        subprocess.run([*words, f"{HERE}/threads.c", *options.libraries, "-o", program], check=True)
        faults = []
        table(["ns a call, one thread", "own", "mutex", "shared", "over own"])
        for call in CALLS:
            times = alone(program, call)
            print(f"| `{call}` | {' | '.join(f'{it:.1f}' for it in (*times, times[2] - times[0]))} |", flush=True)
            faults += missed_alone(call, *times)
        print()
        table(["millions of calls a second", "threads", "mutex", "shared", "mutex, least", "shared, least", "busy of 1,000"])
        for call in CALLS:
            of = medians(program, call, options)
            for threads in THREADS:
                print(row(call, threads, of), flush=True)
            faults += missed(call, of)
    for fault in faults:
        print(f"threads.py: {fault}", file=sys.stderr)
    sys.exit(1 if faults else 0)


if __name__ == "__main__":
    WORDS = argparse.ArgumentParser(usage=__doc__)
    WORDS.add_argument("--runs", type=int, default=5)
    WORDS.add_argument("--milliseconds", type=int, default=300)
    WORDS.add_argument("libraries", nargs="+")
    main(WORDS.parse_args())
