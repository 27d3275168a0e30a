"""Random scripts of what a public .NET API can do, and texts as lines."""
import os
import random
import sys

import place

sys.path.insert(0, os.path.join(place.ROOT, "conformance", "own"))
from machine import commands, weak_commands  # noqa: E402

LACKING = ("hvar", "hup", "hdown", "addr", "trim", "gcroot")


def can(line):
    """Whether .NET has public calls for a command."""
    words = line.split()
    return words[0] not in LACKING and not (words[0] == "hnew" and words[2] in ("var", "ref"))


def listed(chance):
    """A list of objects, the first of which alone stays in a register."""
    yield "new r0 2" + chance.choice(["", " fin"])
    for _ in range(chance.randrange(2, 6)):
        yield from ("new r1 2" + chance.choice(["", "", " fin"]), f"set r1 {chance.randrange(2)} r0", "copy r0 r1")
    yield "drop r1"


def chained(chance):
    """Objects that dependent handles or entries attach to one another, in any order, and of which one stays at most."""
    yield from (f"new r{register} 1" for register in range(4))
    links = [(at, (at + 1) % 4) for at in range(chance.choice([3, 4]))]
    for a, b in chance.sample(links, len(links)):
        yield f"hnew h{a} dep r{a} r{b}" if chance.randrange(2) else f"cadd r{a} r{b}"
    yield from (f"drop r{register}" for register in chance.sample(range(4), 4 - chance.randrange(2)))


def aged(chance):
    """What is there becomes old, and then an old object and a handle reference a young one."""
    yield from (f"collect {generation}" for generation in chance.choice([[0], [0, 1], [1, 1], [2, 2]]))
    yield from ("new r4 1" + chance.choice(["", " fin"]), f"set r{chance.randrange(4)} 0 r4", f"hset h{chance.randrange(5)} r4",
                "drop r4")


def steps(chance, weak):
    """One command, or several with one purpose."""
    number = chance.random()
    if number < 0.04:
        return list(chance.choice([listed, chained, aged])(chance))
    return [line for line in (weak_commands(chance) if number < weak else [chance.choice(commands(chance))]) if can(line)]


def script(seed, number, threads):
    """The script of a number, of those of a seed: of one caller or three in turn, or of 2 to 8 in threads."""
    chance = random.Random(f"{seed} {number} {threads}")
    weak, lines = chance.choice([0.1, 0.3, 0.5]), []
    callers = chance.choice([2, 3, 4, 8]) if threads else chance.choice([1, 1, 3])
    often = chance.choice([60, 150] if threads else [100, 300])
    for caller in range(callers):
        lines.append(f"caller {caller}")
        for _ in range(often):
            lines += steps(chance, weak)
    return "".join(line + "\n" for line in lines)
