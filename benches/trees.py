#!/usr/bin/env python3
"""trees.py LIBRARY..: binary trees by the C library (uses/trees) and over bdwgc, in turn: nanoseconds an object (the least of 11
runs of each), collections and peak memory. LIBRARY is what the program is linked with, in this order: libhdt_c.a liblibc_c.a. It
needs cc and libgc. The status is 1 where an object takes over three times as long as over bdwgc, where there were fewer than 20
collections, or where more than twice bdwgc's memory was in use."""
import os
import re
import subprocess
import sys
import tempfile
import time

HERE = os.path.dirname(os.path.abspath(__file__))
DEPTH, ROUNDS, CELLS = "12", "600", "100000"
RUNS = 11
ASKED_RATIO, ASKED_COLLECTIONS, ASKED_MEMORY = 3, 20, 2


def peak_of(process):
    """The peak memory of a process so far, in KB; 0 once it has ended. (What wait4 says counts the memory that it began with, of
    the process that made it.)"""
    try:
        with open(f"/proc/{process}/status", encoding="utf-8") as status:
            return int((re.search(r"VmHWM:\s+(\d+)", status.read()) or ["", "0"])[1])
    except OSError:
        return 0


def run(words):
    """Seconds of processor, peak memory in KB (looked at each 20 ms) and what was printed."""
    peak, ended = 0, 0
    with subprocess.Popen(words, stdout=subprocess.PIPE, text=True) as made:
        while not ended:
            peak = max(peak, peak_of(made.pid))
            time.sleep(0.02)
            ended, status, usage = os.wait4(made.pid, os.WNOHANG)
        made.returncode = os.waitstatus_to_exitcode(status)
        text = made.stdout.read()
    if made.returncode:
        sys.exit(f"{words}: status {made.returncode}")
    return usage.ru_utime + usage.ru_stime, peak, text


def main(libraries):
    with tempfile.TemporaryDirectory() as folder:
        cc = ["cc", "-O2", "-std=c11", "-Wall", "-Wextra", "-Werror"]
        host = [f"-I{HERE}/../crates/hdt_c", f"{HERE}/../uses/trees/trees.c", *libraries]
        subprocess.run([*cc, *host, "-o", f"{folder}/hdt"], check=True)
        subprocess.run([*cc, f"{HERE}/trees_bdwgc.c", "-lgc", "-o", f"{folder}/bdwgc"], check=True)
        runs = {"hdt": [], "bdwgc": []}
        for _ in range(RUNS):
            runs["hdt"].append(run([f"{folder}/hdt", DEPTH, ROUNDS, CELLS]))
            runs["bdwgc"].append(run([f"{folder}/bdwgc", DEPTH, ROUNDS]))
    objects = int(ROUNDS) * (2 ** (int(DEPTH) + 1) - 1)
    least = {name: min(seconds for seconds, _, _ in them) * 1e9 / objects for name, them in runs.items()}
    peak = {name: max(memory for _, memory, _ in them) for name, them in runs.items()}
    # "N nodes, N collections", and for a host "of generation 0, N of all".
    counts = {name: list(map(int, re.findall(r"\d+(?= collections| of all)", them[0][2]))) for name, them in runs.items()}
    print("| by | ns an object | collections | peak memory, KB |\n|---|---|---|---|")
    for name in runs:
        print(f"| {name} | {least[name]:.1f} | {' and '.join(map(str, counts[name]))} | {peak[name]:,} |")
    ratio = least["hdt"] / least["bdwgc"]
    print(f"\n{ratio:.2f} times bdwgc, with {peak['hdt'] / peak['bdwgc']:.2f} times its memory")
    sys.exit(ratio > ASKED_RATIO or sum(counts["hdt"]) < ASKED_COLLECTIONS or peak["hdt"] > ASKED_MEMORY * peak["bdwgc"])


if __name__ == "__main__":
    if len(sys.argv) < 2:
        sys.exit(__doc__)
    main(sys.argv[1:])
