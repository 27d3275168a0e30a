#!/usr/bin/env python3
"""scheme.py LIBRARY..: the interpreter of uses/scheme by the C library and over bdwgc, in turn: seconds of the processor that
three programs take (the least of 31 runs of each), and peak memory. LIBRARY is what it is linked with, in this order: libhdt_c.a
liblibc_c.a. It needs cc and libgc. The status is 1 where a program takes over 1.5 times as long as over bdwgc."""
import os
import subprocess
import sys
import tempfile

from trees import run

HERE = os.path.dirname(os.path.abspath(__file__))
SCHEME = f"{HERE}/../uses/scheme"
PROGRAMS = {"fib": "32", "sort": "20000", "closures": "200000"}
RUNS = 31
ASKED_RATIO = 1.5


def main(libraries):
    missed = []
    with tempfile.TemporaryDirectory() as folder:
        cc = ["cc", "-O2", "-std=c11", "-Wall", "-Wextra", "-Werror", f"{SCHEME}/scheme.c"]
        subprocess.run([*cc, f"-I{HERE}/../crates/hdt_c", *libraries, "-o", f"{folder}/hdt"], check=True)
        memory = f'-DMEMORY="{HERE}/scheme_bdwgc.h"'
        subprocess.run([*cc, memory, "-lgc", "-o", f"{folder}/bdwgc"], check=True)
        print("| program | hdt, s | bdwgc, s | ratio | hdt, KB | bdwgc, KB |\n|---|---|---|---|---|---|")
        for name, argument in PROGRAMS.items():
            runs = {"hdt": [], "bdwgc": []}
            for _ in range(RUNS):
                for by, them in runs.items():
                    them.append(run([f"{folder}/{by}", f"{SCHEME}/{name}.scm", argument]))
            if runs["hdt"][0][2] != runs["bdwgc"][0][2]:
                sys.exit(f"{name}: the texts are not the same")
            least = {by: min(seconds for seconds, _, _ in them) for by, them in runs.items()}
            peak = {by: max(memory for _, memory, _ in them) for by, them in runs.items()}
            ratio = least["hdt"] / least["bdwgc"]
            if ratio > ASKED_RATIO:
                missed.append(name)
            row = [f"{least['hdt']:.2f}", f"{least['bdwgc']:.2f}", f"{ratio:.2f}", f"{peak['hdt']:,}", f"{peak['bdwgc']:,}"]
            print(f"| {name} {argument} | {' | '.join(row)} |", flush=True)
    if missed:
        sys.exit(f"scheme.py: more than {ASKED_RATIO} times as long as over bdwgc: {', '.join(missed)}")


if __name__ == "__main__":
    if len(sys.argv) < 2:
        sys.exit(__doc__)
    main(sys.argv[1:])
