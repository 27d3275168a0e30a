#!/usr/bin/env python3
"""Times how long `audit` takes for texts of 100,000 lines with a collection every 100, over 10,000 live objects; and for texts that
do the same again and again once the objects are made, with the instructions of each time (callgrind, where valgrind is there).

    audit.py PROGRAM
"""
import re
import resource
import shutil
import subprocess
import sys

LINES = 100_000
LIVE = 10_000
EVERY = 100

# For how often the commands of `AGAIN` the time is asked, how often they are counted, and the most seconds.
OFTEN = 90_000
COUNTED = 9
SECONDS = 60


def handles():
    """Each object has a strong handle."""
    for _ in range(LIVE):
        yield from ("new r0 2", "hnew h0 strong r0")


def chain():
    """Each object references the one before, and a register the last."""
    for _ in range(LIVE):
        yield from ("copy r1 r0", "new r0 2", "set r0 0 r1")


def dependents():
    """Half of the objects have a strong handle, and the others are kept by a dependent handle of one of them each."""
    for _ in range(LIVE // 2):
        yield from ("new r0 2", "hnew h0 strong r0", "new r1 2", "hnew h1 dep r0 r1")


def entries():
    """The same by entries of the weak table, whose keys are looked up later."""
    for _ in range(LIVE // 2):
        yield from ("new r0 2", "hnew h0 strong r0", "new r1 2", "cadd r0 r1")


def script(make):
    """The objects, and then fields that are stored and garbage that is made, with a collection in each hundred lines."""
    made, number = make(), 0
    for line in range(1, LINES + 1):
        if line % EVERY == 0:
            yield "collect 2"
            continue
        command = next(made, None)
        if command is None:
            command = ("new r2 1", "set r2 0 r0", "set r0 1 r2", "gen r2")[number % 4]
            number += 1
        yield command


def idle():
    """One list of objects, which are old."""
    yield from chain()
    yield from ("collect 2", "collect 2")


def anchored():
    """The same objects, with a strong handle each."""
    for _ in range(LIVE):
        yield from ("copy r1 r0", "new r0 2", "set r0 0 r1", "hnew h0 strong r0")


def one_edge():
    """The same, and one more in a field of the last, without a handle."""
    yield from anchored()
    yield from ("new r1 0", "set r0 1 r1")


def one_young():
    """The same list with a strong handle each, and old."""
    yield from anchored()
    yield from ("collect 2", "collect 2")


# What is made, and the commands that come again and again.
AGAIN = (
    (idle, ("collect 0",)),
    (anchored, ("gcroot r0",)),
    (one_edge, ("gcroot r1",)),
    (one_young, ("new r2 0", "drop r2", "collect 0")),
)


def given_to_audit(program, commands):
    """What `audit` reads: a script, and the text of its run."""
    lines = "\n".join(commands) + "\n"
    return lines + "=\n" + seconds([program, "solo", "--slots"], lines)[0]


def instructions(program, given):
    """The instructions of a whole audit."""
    words = ["valgrind", "--tool=callgrind", "--callgrind-out-file=/dev/null", program, "audit"]
    ran = subprocess.run(words, input=given, capture_output=True, text=True, check=True)
    return int(re.search(r"Collected : (\d+)", ran.stderr).group(1))


def again(program, make, commands):
    """A row: the processor's time of a text as long as it may be, what OFTEN times would take, and the instructions of each."""
    made, row = list(make()), list(commands)
    often = (LINES - len(made)) // len(row)
    before = seconds([program, "audit"], given_to_audit(program, made))[1]
    verdict, audit = seconds([program, "audit"], given_to_audit(program, made + row * often))
    said = f"{make.__name__}, {often:,} times `{'; '.join(row)}`: audit {audit:.2f} s, {verdict.strip()}"
    said += f", so {(audit - before) * OFTEN / often:.1f} s of at most {SECONDS} for {OFTEN:,}"
    if shutil.which("valgrind"):
        counts = [instructions(program, given_to_audit(program, made + row * count)) for count in (0, COUNTED)]
        said += f", {(counts[1] - counts[0]) // COUNTED:,} instructions each"
    return said


def seconds(words, given):
    """What was printed, and the processor's time."""
    before = resource.getrusage(resource.RUSAGE_CHILDREN)
    ran = subprocess.run(words, input=given, capture_output=True, text=True, check=False)
    after = resource.getrusage(resource.RUSAGE_CHILDREN)
    if ran.returncode != 0:
        sys.exit(f"{words}: status {ran.returncode}, {ran.stdout[-100:]}")
    return ran.stdout, after.ru_utime + after.ru_stime - before.ru_utime - before.ru_stime


def main(words):
    if len(words) != 1:
        sys.exit(__doc__)
    for make in (handles, chain, dependents, entries):
        lines = "\n".join(script(make)) + "\n"
        text, solo = seconds([words[0], "solo", "--slots"], lines)
        verdict, audit = seconds([words[0], "audit"], lines + "=\n" + text)
        live = text.splitlines()[-1]
        print(f"{make.__name__}: solo {solo:.2f} s, audit {audit:.2f} s, {verdict.strip()}, {live}", flush=True)
    for make, commands in AGAIN:
        print(again(words[0], make, commands), flush=True)


if __name__ == "__main__":
    main(sys.argv[1:])
