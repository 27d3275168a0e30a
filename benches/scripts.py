#!/usr/bin/env python3
"""scripts.py FOLDER: writes the scripts of collect.py.

Objects of two fields reference the one before and the first. Old objects were moved by two collections before."""
import os
import sys
from typing import NamedTuple

BESIDE = {"strong handles": [], "weak short too": ["hnew h1 short r0"], "dependent too": ["hnew h1 dep r0 r1"]}
AGED = ["drop r0", "drop r1", "drop r2", "collect 2", "collect 2"]
MOST = 100000


class Row(NamedTuple):
    """What is measured: a script does it so often, and one without it else does the same.

    Where that one takes more memory, the difference in time is none of the collections. CoreCLR's program has collections alone."""
    name: str
    script: list
    without: list
    often: int
    timed: bool = True
    collects: bool = False


def collected(name, before, repeated, often, timed=True):
    """A collection that is the last of the repeated lines: a `drop` stands in its place in the other script."""
    without = before + (repeated[:-1] + ["drop r15"]) * often
    return Row(name, before + repeated * often, without, often, timed, not any(line.startswith("cadd") for line in before))


def graph(objects, beside, tenth=()):
    """Objects of two fields, each with a strong handle and what comes beside it, every tenth with some more."""
    lines = ["new r2 2"]
    for number in range(objects):
        lines += ["new r0 2", "hnew h0 strong r0", "set r0 0 r1", "set r0 1 r2"] + beside
        lines += list(tenth) * (number % 10 == 0) + ["copy r1 r0"]
    return lines


def chain(handles, order):
    """Each object but the first is kept by a dependent handle of the one before, and the first by a strong handle.

    In the good order the first object's handle comes first. In the worse order it comes last, so that a pass over all handles
    finds one object."""
    if order == "good":
        return ["new r0 0", "hnew h0 strong r0"] + ["new r1 0", "hnew h1 dep r0 r1", "copy r0 r1"] * handles
    return ["new r1 0"] + ["new r0 0", "hnew h1 dep r0 r1", "copy r1 r0"] * handles + ["hnew h0 strong r0"]


def of_fields():
    """Objects of two fields."""
    for generation in (0, 2):
        for objects in (1000, 5000):
            often = 2000 if generation == 0 else 100_000 // objects
            for name, beside in BESIDE.items():
                yield collected(f"`collect {generation}`, {objects:,} old, {name}", graph(objects, beside) + AGED,
                                [f"collect {generation}"], often)
    gone, idle = (["new r0 0", then] * 8000 for then in ("copy r2 r1", "cadd r0 r1"))
    for name, beside in (("strong handles", []), ("after 8,000 that went", gone), ("beside 8,000 idle slots", idle)):
        before = graph(10, []) + beside + AGED
        yield collected(f"`collect 0`, 10 old, {name}", before, ["collect 0"], 2000)
        lines = [["new r0 0", "cadd r0 r0"] + last for last in (["drop r0", "collect 0"], ["cremove r0", "drop r0"])]
        taken, removed = (before + four * 1000 for four in lines)
        yield Row(f"`collect 0` that takes a key, 10 old, {name}", taken, removed, 1000)
    pins = graph(5000, [], ["hnew h1 pinned r0"])
    yield collected("`collect 2`, 5,000 old, every tenth pinned too", pins + AGED, ["collect 2"], 20)
    yield collected("`collect 0`, 5,000 young", [], ["new r0 2", "hnew h0 strong r0"] * 5000 + ["collect 0"], 3)


def without_fields():
    """Objects without fields: many, by handles of one object, and chains."""
    strong = ["new r0 0", "hnew h0 strong r0"]
    yield collected("`collect 2`, 10,000 strong handles", strong * 10000 + AGED, ["collect 2"], 20)
    yield collected("`collect 2`, 8,000 dependent handles of one", strong + ["new r1 0", "hnew h1 dep r0 r1"] * 8000 + AGED,
                    ["collect 2"], 20)
    for order, handles, often in (("good", 4000, 20), ("worse", 2000, 2), ("worse", 4000, 2)):
        row = collected(f"`collect 2`, chain of {handles:,}, {order} order", chain(handles, order) + AGED, ["collect 2"], often)
        # CoreCLR goes over all dependent handles again and again, for 0.1 seconds in the good order.
        yield row._replace(collects=False)


def churn():
    """New objects that are soon gone."""
    new = ["new r0 0"]
    for objects in (50, 150):
        yield collected(f"`collect 0` after {objects} new objects", [], new * objects + ["collect 0"], 500, timed=False)
    fewer = new * 50 + ["drop r15"] * 100 + ["collect 0"]
    yield Row("100 more new objects, with their `new`", (new * 150 + ["collect 0"]) * 500, fewer * 500, 500)
    some = ["new r0 2", "hnew h0 short r0", "set r0 0 r1", "new r1 1", "hnew h1 strong r1", "copy r2 r0", "hget r3 h0",
            "hfree h0", "hfree h1"]
    yield Row("100 commands, the last a `collect 0`", (some * 11 + ["collect 0"]) * 1000, [], 1000)


def lookups():
    """Keys in a ring, each with an entry of the one value, that are looked up one after another, 10,000 times. The other script has
    no line in the place of a look-up, since what a `drop` there costs less than before would be counted against the look-up."""
    for keys in (10, 100, 1000):
        ring = ["new r2 0", "new r1 1", "copy r3 r1", "cadd r1 r2"]
        ring += ["new r0 1", "set r0 0 r1", "cadd r0 r2", "copy r1 r0"] * (keys - 1) + ["set r3 0 r1"]
        before = ["drop r15"] * (5000 - len(ring)) + ring
        found, without = (before + (line + ["get r1 r1 0"]) * 10000 for line in (["cfind r4 r1"], []))
        yield Row(f"`cfind` among {keys:,} entries, with its line", found, without, 10000)


def searched(name, before, often):
    """Searches for what keeps the object in r15: a `drop` stands in the place of each in the other script."""
    return Row(f"`gcroot`, {name}", before + ["gcroot r15"] * often, before + ["drop r14"] * often, often)


def linked(objects):
    """A chain by fields, with its first object in a static and its last in r15."""
    return ["new r0 1", "copy r15 r0"] + ["new r1 1", "set r1 0 r0", "copy r0 r1"] * (objects - 1) + ["sput 0 r0"]


def tree(objects):
    """Each object has ten fields: object k references 10 k + 1 to 10 k + 10. The first is in a static, the last in r15."""
    lines, left = ["new r0 10", "sput 0 r0"], [(child, 1) for child in range(1, 11)]
    while left:
        number, level = left.pop()
        lines += [f"new r{level} 10", f"set r{level - 1} {(number - 1) % 10} r{level}"]
        lines += [f"copy r15 r{level}"] if number == objects - 1 else []
        left += [(child, level + 1) for child in range(10 * number + 1, min(10 * number + 11, objects))]
    return lines


def searches():
    """What keeps the last object that a search comes to, one that nothing leads to, and an anchor beside handles of others."""
    first, pair, anchor = ["new r0 0", "sput 0 r0"], ["new r1 0", "hnew h1 dep r0 r1"], ["new r15 0", "sput 0 r15"]
    for objects, often in ((1000, 20), (10000, 5)):
        yield searched(f"chain of {objects:,} by fields", linked(objects), often)
        yield searched(f"tree of {objects:,}", tree(objects), often)
        yield searched(f"{objects:,} anchors", ["new r0 0", "hnew h0 strong r0"] * objects + ["new r15 0"], often)
    for handles, often in ((800, 20), (8000, 5)):
        attached = first + (pair + ["copy r0 r1"]) * handles + ["copy r15 r0"]
        yield searched(f"chain of {handles:,} dependent handles", attached, often)
        yield searched(f"{handles:,} dependent handles of one", first + pair + ["copy r15 r1"] + pair * (handles - 1), often)
        yield searched(f"an anchor beside {handles:,} dependent handles", ["new r0 0"] + pair * handles + anchor, often)
        idle = ["new r0 0", "cadd r0 r1"] * handles + ["drop r0", "collect 2"]
        yield searched(f"an anchor beside {handles:,} idle slots", idle + anchor, often)


def rows():
    return [*of_fields(), *without_fields(), *churn(), *lookups(), *searches()]


def write_all(folder):
    """Writes both scripts of each row, and returns the rows with their paths."""
    written = []
    for number, row in enumerate(rows()):
        paths = [os.path.join(folder, f"{number:02}{end}.hdt") for end in ("", "-without")]
        for path, lines in zip(paths, (row.script, row.without)):
            if len(lines) > MOST:
                sys.exit(f"{row.name}: {len(lines)} lines")
            with open(path, "w") as script:
                script.writelines(line + "\n" for line in lines)
        written.append((row, paths))
    return written


if __name__ == "__main__":
    if len(sys.argv) != 2:
        sys.exit("usage: scripts.py FOLDER")
    for row, paths in write_all(sys.argv[1]):
        print(row.name, *paths)
