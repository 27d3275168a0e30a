#!/usr/bin/env python3
"""pairs.py: millions of pairs a second, each a handle that is made and freed, for 1, 2 and 4 threads and batches of 1, 32 and 256.

By `hd_pairs`, which `rt run` in crates/hd_pairs builds; by `ceiling`, the same words and step orders in plain Rust, which cargo
builds; and by CoreCLR's handle table, where `conformance/coreclr/machine/build` made its program. Medians of five runs of all
three in turn, by the clock: of the first two with the start of their process, of CoreCLR's with that of its threads. The status is
1 where `hd_pairs` makes less than 0.9 of what `ceiling` makes."""
import os
import statistics
import subprocess
import sys
import time

HERE = os.path.dirname(os.path.abspath(__file__))
TOP = os.path.dirname(HERE)
OWN = os.path.join(TOP, "crates", "hd_pairs", "out", "hd_pairs")
CEILING = os.path.join(HERE, "ceiling", "target", "release", "ceiling")
sys.path.insert(0, os.path.join(TOP, "conformance", "coreclr", "machine"))
sys.dont_write_bytecode = True
import place

RUNS = 5
# So many pairs of each thread that the start of a process is little beside them.
PAIRS = {1: 4_000_000, 32: 400_000, 256: 400_000}
ASKED = 0.9


def printed(words):
    return float(subprocess.run(words, capture_output=True, text=True, check=True).stdout)


def made(program, threads, batch):
    """Millions of pairs a second of a program that prints how many it made."""
    start = time.monotonic()
    pairs = printed([program, str(threads), str(PAIRS[batch]), str(batch)])
    return pairs / (time.monotonic() - start) / 1e6


def medians(coreclr, threads, batch):
    runs = {"hd_pairs": [], "ceiling": [], "CoreCLR": []}
    for _ in range(RUNS):
        runs["hd_pairs"].append(made(OWN, threads, batch))
        runs["ceiling"].append(made(CEILING, threads, batch))
        runs["CoreCLR"] += [printed([coreclr, "pairs", str(threads), str(batch)])] if coreclr else []
    return {name: statistics.median(each) for name, each in runs.items() if each}


def main():
    subprocess.run(["cargo", "build", "-q", "--release", "--offline"], cwd=os.path.join(HERE, "ceiling"), check=True)
    coreclr = place.coreclr() if os.path.exists(place.NOTE) else None
    few = False
    print("| threads | batch | hd_pairs | ceiling | CoreCLR | to ceiling | to CoreCLR |\n|---|---|---|---|---|---|---|")
    for batch in PAIRS:
        for threads in (1, 2, 4):
            of = medians(coreclr, threads, batch)
            shown = [f"{of[name]:.2f}" if name in of else "-" for name in ("hd_pairs", "ceiling", "CoreCLR")]
            shown += [f"{of['hd_pairs'] / of[name]:.2f}" if name in of else "-" for name in ("ceiling", "CoreCLR")]
            print(f"| {threads} | {batch} | {' | '.join(shown)} |", flush=True)
            few |= of["hd_pairs"] < ASKED * of["ceiling"]
    sys.exit(few)


if __name__ == "__main__":
    main()
