#!/usr/bin/env python3
"""host.py [--only CALL..] [--counts | --times] [--before LIBRARY] [--coreclr PROGRAM] [--jni PROGRAM] [--mono PROGRAM] LIBRARY..:
what each call of the C library costs, one thread. Instructions a call (callgrind of 200,000 calls less as many of `hdt_abi` with
the same operands) of one object and one handle (near), and of objects of 1 to 61 fields and 1,000 live handles of all kinds at
random (scattered); and nanoseconds a call that the processor gave the thread, near, beside those of CoreCLR's machine, of JNI and
of mono's embedding API, in turn. LIBRARY is what the program is linked with, in this order: libhdt_c.a liblibc_c.a; --before names
another libhdt_c.a, whose near figures get a column; with --counts no time is taken, and with --times no instructions are counted.
PROGRAM is what conformance/coreclr/machine/build made, or benches/host_jni.c or host_mono.c built. It needs cc and valgrind. The
status is 1 where a call takes more than what is asked of it, scattered more than a tenth above."""
import argparse
import collections
import os
import re
import statistics
import subprocess
import sys
import tempfile

HERE = os.path.dirname(os.path.abspath(__file__))
COUNTED = 200_000
# These walk: fewer calls tell.
WALKING = {"trim": 20_000, "list": 20_000, "list_cleared": 20_000, "root_of": 200, "collect": 2_000}
# So many objects fill the heap five times; the first time its regions are taken.
NUMBERS = {**WALKING, **dict.fromkeys(["object_new", "new_two", "make_two", "new_ten", "make_ten"], 1_000_000)}
TIMED = 5_000_000
RUNS = 5
# Instructions, in both scenes (a tenth more where they are scattered).
ASKED = {"handle_get": 40, "handle_new": 150, "handle_set": 80, "object_new": 115, "field_set": 55, "field_get": 50,
         "value_get": 30, "value_set": 30, "local_copy": 25, "local_clear": 25, "static_get": 40, "static_set": 40,
         "local_pass": 44, "locals_clear": 80}
# And so many more than another call takes.
OVER = {"field_load": ("field_get", 12), "handle_load": ("handle_get", 8), "make_two": ("new_two", 56),
        "make_ten": ("new_ten", 248)}
# An object's fields are zeroed, so what is asked of `object_new` is of one with two.
NEAR_ALONE = {"object_new"}
OTHERS_MAKE = {"handle_get", "handle_new", "object_new", "field_set"}


def instructions(program, scene, call):
    """Instructions a call, with those of the loop."""
    times = NUMBERS.get(call, COUNTED)
    counts = []
    for number in (0, times):
        with tempfile.TemporaryDirectory() as folder:
            words = ["valgrind", "--tool=callgrind", f"--callgrind-out-file={folder}/out", program, scene, call, str(number)]
            done = subprocess.run(words, capture_output=True, text=True)
        if done.returncode != 0:
            sys.exit(f"{scene} {call}: {done.stderr}")
        counts.append(int(re.search(r"Collected : (\d+)", done.stderr).group(1)))
    return (counts[1] - counts[0]) / times


def asked_of(call, column, found):
    """What is asked of a call in a column, or nothing."""
    base, more = OVER.get(call, (None, 0))
    return found[base][column] + more if base in found else ASKED.get(call)


def others_of(options):
    """Who else makes the calls, with the words that have it make them."""
    found = [("CoreCLR", [options.coreclr, "calls"])] if options.coreclr else []
    found += [("JNI", [options.jni])] if options.jni else []
    return found + ([("mono", [options.mono])] if options.mono else [])


def nanoseconds(words, call):
    return float(subprocess.run([*words, call, str(TIMED)], capture_output=True, text=True, check=True).stdout)


def timed(program, call, others):
    """The medians of several runs in turn, of this library first."""
    times = collections.defaultdict(list)
    for _ in range(RUNS):
        times["hdt"].append(nanoseconds([program, "near"], call))
        for name, words in others if call in OTHERS_MAKE else []:
            times[name].append(nanoseconds(words, call))
    return [f"{statistics.median(times[name]):.1f}" if name in times else "" for name in ["hdt", *(name for name, _ in others)]]


def built(folder, name, libraries):
    words = ["cc", "-O2", "-std=c11", "-Wall", "-Wextra", "-Werror", f"-I{HERE}/../crates/hdt_c", f"{HERE}/host.c"]
    subprocess.run(words + [*libraries, "-o", f"{folder}/{name}"], check=True)
    return f"{folder}/{name}"


def main(options):
    missed, found, others, scenes = [], {}, others_of(options), ["near", "scattered"]
    with tempfile.TemporaryDirectory() as folder:
        program = built(folder, "host_bench", options.libraries)
        measured = [(program, scene) for scene in scenes]
        if options.before:
            measured.insert(0, (built(folder, "host_before", [options.before, *options.libraries[1:]]), "near"))
        calls = subprocess.run([program, "calls"], capture_output=True, text=True, check=True).stdout.split()
        measured = [] if options.times else measured
        base = [instructions(*it, "abi") for it in measured]
        counted = [] if options.times else [*(["before"] if options.before else []), "instructions", "scattered", "asked"]
        titles = ["call", *counted, "ns", *(f"ns, {name}" for name, _ in others)]
        print(f"| {' | '.join(titles)} |\n|{'---|' * len(titles)}")
        for call in options.only or calls[1:]:
            shown = [f"`{call}`"]
            if measured:
                each = [instructions(*it, call) - less for it, less in zip(measured, base)]
                found[call] = each
                near, far = (asked_of(call, column, found) for column in (-2, -1))
                if near and (each[-2] > near or call not in NEAR_ALONE and each[-1] > 1.1 * far):
                    missed.append(call)
                shown += [*(f"{it:,.1f}" for it in each), f"{near:,.0f}" if near else ""]
            is_timed = call not in WALKING and not options.counts
            shown += timed(program, call, others) if is_timed else [""] * (1 + len(others))
            print(f"| {' | '.join(shown)} |", flush=True)
    if missed:
        print(f"host.py: more than what is asked: {', '.join(missed)}", file=sys.stderr)
    sys.exit(1 if missed else 0)


if __name__ == "__main__":
    WORDS = argparse.ArgumentParser(usage=__doc__)
    WORDS.add_argument("--only", nargs="+", metavar="CALL")
    WORDS.add_argument("--counts", action="store_true")
    WORDS.add_argument("--times", action="store_true")
    WORDS.add_argument("--before", metavar="LIBRARY")
    WORDS.add_argument("--coreclr")
    WORDS.add_argument("--jni")
    WORDS.add_argument("--mono")
    WORDS.add_argument("libraries", nargs="+")
    main(WORDS.parse_args())
