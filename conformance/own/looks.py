#!/usr/bin/env python3
"""What `hdv` shows, beside the machine of machine.py.

    looks.py HDV COUNT SEED SCRIPT...     `show`, `path` and `graph` of scripts and of COUNT random ones

`show` is compared without ages, chains, regions and cards, and `path` and `graph` to the byte, but for the order of a graph's
lines.
"""
import random
import subprocess
import sys

from machine import Machine, script_of

DROPPED = {"AGE", "REGIONS", "CARDS"}


def run(words, text, status=(0,)):
    ran = subprocess.run(words, input=text, capture_output=True, text=True, check=False)
    if ran.returncode not in status:
        sys.exit(f"looks: {' '.join(words)} ends with status {ran.returncode}: {ran.stderr}")
    return ran.stdout


def tables(text):
    """The tables of a `show`, but that of the regions, without the columns that the machine does not compute."""
    found = []
    for table in text.split("\n\n"):
        rows = [line.split() for line in table.splitlines()]
        if rows[0][0] == "REGION":
            continue
        kept = [place for place, name in enumerate(rows[0]) if name not in DROPPED]
        rows = [[row[place] for place in kept] for row in rows]
        found.append(rows[:1] + sorted(rows[1:]) if rows[0][:2] == ["KIND", "BLOCK"] else rows)
    return found


def same(name, printed, wanted):
    if printed != wanted:
        pair = next((pair for pair in zip(printed, wanted) if pair[0] != pair[1]), (printed[len(wanted):], wanted[len(printed):]))
        sys.exit(f"looks: {name}: {pair[0]} and not {pair[1]}")


def compare(name, program, lines, limits=(1000000, 256)):
    """Compares what is shown of a script."""
    text = "\n".join(lines) + "\n"
    options = ["--heap", str(limits[0]), "--blocks", str(limits[1])]
    machine = Machine(*limits)
    machine.text(lines)
    same(f"show {name}", tables(run([program, "show"] + options, text)), machine.shown())
    made = [(caller, serial) for caller in range(16) for serial in range(1, machine.made[caller] + 2)]
    ids = made[:120] + [(15, 7)]
    wanted = [line for identity in ids for line in machine.path(identity)]
    words = ["{}.{}".format(*identity) for identity in ids]
    same(f"path {name}", run([program, "path"] + words + options, text).splitlines(), wanted)
    same(f"graph {name}", sorted(run([program, "graph"] + options, text).splitlines()), sorted(machine.graph()))
    grouped = run([program, "graph", "--by", "generation"] + options, text).splitlines()
    same(f"graph {name} by generation", sorted(grouped), sorted(machine.graph("generation")))


def shows(program, count, seed, names):
    for name in names:
        with open(name, encoding="utf-8") as script:
            compare(name, program, script.read().splitlines())
    for number in range(count):
        chance = random.Random(f"{seed} {number}")
        limits = chance.choice([60, 300, 1000000]), chance.choice([1, 2, 3, 4, 8, 256])
        compare(f"script {number} of {seed}", program, script_of(chance), limits)
    print(f"looks: {len(names) + count} scripts are shown as the machine has them")


def main(words):
    if len(words) < 3:
        sys.exit(__doc__)
    shows(words[0], int(words[1]), words[2], words[3:])


if __name__ == "__main__":
    main(sys.argv[1:])
