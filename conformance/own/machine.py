#!/usr/bin/env python3
"""The machine of docs/machine.md for callers one after another, in plain maps and lists, beside `hdt solo` and `hdv`.

    machine.py SCRIPT...              compares the text of each script with SCRIPT.stdout
    machine.py COUNT SEED PROGRAM     has the program do COUNT random scripts, and compares each text

Texts are compared to the byte, but for the numbers of `addr`. What `hdv` shows of a script is compared by
`conformance/own/looks.py`: `shown`, `path` and `graph` compute it, without ages, chains, regions and cards.
"""
import random
import re
import subprocess
import sys
from collections import Counter

KINDS = ["short", "long", "strong", "pinned", "var", "ref", "dep"]
PAIRED = ["var", "ref", "dep"]
STRENGTHS = KINDS[:4]
ROWS = 64


class Thing:
    """An object, with its identity as caller and serial."""

    def __init__(self, identity, fields, registered):
        self.identity = identity
        self.fields = [None] * fields
        self.registered = registered
        self.value = 0
        self.generation = 0

    def size(self):
        return len(self.fields) + 3


class Handle:
    """A handle, and in `extra` its strength, count or secondary."""

    def __init__(self, kind, target, extra):
        self.kind = kind
        self.target = target
        self.extra = extra

    def role(self):
        """The kind that it is like: one of the four strengths, or dependent."""
        if self.kind == "ref":
            return "strong" if self.extra > 0 else "long"
        return self.extra if self.kind == "var" else self.kind

    def holds(self):
        return self.role() in ("strong", "pinned")


class Refused(Exception):
    pass


class Machine:
    def __init__(self, heap, blocks):
        self.heap, self.blocks = heap, blocks
        self.things = {}
        self.uses = {}
        self.handles = {}
        self.entries = {}
        self.statics, self.board = [None] * 16, [None] * 16
        self.registers = [[None] * 16 for _ in range(16)]
        self.slots = [[None] * 16 for _ in range(16)]
        self.made = Counter()
        self.queue = []
        self.collections = 0

    def text(self, lines):
        """The text of a script."""
        lists, caller = {}, 0
        for line in lines:
            words = line.split("#")[0].split()
            if words[:1] == ["caller"]:
                caller = int(words[1])
            elif words:
                lists.setdefault(caller, []).append(words)
        text = []
        for caller in sorted(lists):
            text += [f"{caller} {number} {self.reply(caller, words)}" for number, words in enumerate(lists[caller], 1)]
        return text + [f"end handles {len(self.handles)} objects {len(self.things)} collections {self.collections}"]

    def reply(self, caller, words):
        """The reply to a command; a register is its number."""
        self.caller, self.object, self.slot = caller, self.registers[caller], self.slots[caller]
        bare = [word.lstrip("rh") for word in words[1:]]
        try:
            return getattr(self, words[0])(*(int(number) if number.isdigit() else word for number, word in zip(bare, words[1:])))
        except Refused as refused:
            return str(refused)

    def told(self, thing):
        return "obj {}.{}".format(*thing.identity) if thing else "null"

    def answer(self, register, thing):
        self.object[register] = thing
        return self.told(thing)

    def some(self, register):
        if self.object[register] is None:
            raise Refused("nullref")
        return self.object[register]

    # Objects.

    def new(self, register, fields, fin=None):
        used, size = sum(thing.size() for thing in self.things.values()), fields + 3
        if used + size > self.heap:
            raise Refused(f"heapfull {used} {size}")
        self.made[self.caller] += 1
        thing = Thing((self.caller, self.made[self.caller]), fields, fin is not None)
        self.things[thing.identity] = thing
        return self.answer(register, thing)

    def fields(self, register, index):
        fields = self.some(register).fields
        if index >= len(fields):
            raise Refused("badfield")
        return fields

    def set(self, register, index, value):
        self.fields(register, index)[index] = self.object[value]
        return "ok"

    def get(self, register, thing, index):
        return self.answer(register, self.fields(thing, index)[index])

    def val(self, register, value):
        self.some(register).value = value
        return "ok"

    def read(self, register):
        return f"value {self.some(register).value}"

    def gen(self, register):
        return f"gen {self.some(register).generation}"

    def suppress(self, register):
        self.some(register).registered = False
        return "ok"

    def reregister(self, register):
        self.some(register).registered = True
        return "ok"

    def copy(self, register, other):
        self.object[register] = self.object[other]
        return "ok"

    def drop(self, register):
        self.object[register] = None
        return "ok"

    def sput(self, place, register):
        self.statics[place] = self.object[register]
        return "ok"

    def sget(self, register, place):
        return self.answer(register, self.statics[place])

    def final(self, register):
        self.object[register] = self.queue.pop(0) if self.queue else None
        return self.told(self.object[register]) if self.object[register] else "none"

    # Handles and their blocks.

    def is_free(self, slot):
        return slot not in self.handles and slot not in self.entries

    def free_slot(self, kind):
        """The least free slot of a kind, whose blocks may become one or two more."""
        for block in sorted(block for block, use in self.uses.items() if use == kind):
            for slot in range(ROWS * block, ROWS * block + ROWS):
                if self.is_free(slot):
                    return slot
        need = 2 if kind in PAIRED else 1
        unused = [block for block in range(1, self.blocks + 1) if block not in self.uses][:need]
        if len(unused) < need:
            raise Refused(f"tablefull {len(self.uses)}")
        self.uses.update(zip(unused, (kind, "extra")))
        return ROWS * unused[0]

    def hnew(self, register, kind, target, second=None):
        slot, target = self.free_slot(kind), self.object[target]
        extra = {"var": second, "ref": 1, "dep": self.object[second] if kind == "dep" and target else None}.get(kind)
        self.handles[slot] = Handle(kind, target, extra)
        self.slot[register] = slot
        return "ok"

    def handle(self, register, *kinds):
        slot = self.slot[register]
        if slot is None:
            raise Refused("empty")
        if slot not in self.handles:
            raise Refused("notlive")
        if kinds and self.handles[slot].kind not in kinds:
            raise Refused("wrongkind")
        return self.handles[slot]

    def hget(self, register, handle):
        return self.answer(register, self.handle(handle).target)

    def hdep(self, register, handle):
        return self.answer(register, self.handle(handle, "dep").extra)

    def hset(self, register, target):
        handle, target = self.handle(register), self.object[target]
        if handle.kind == "dep" and target:
            raise Refused("wrongkind")
        handle.target, handle.extra = target, None if handle.kind == "dep" else handle.extra
        return "ok"

    def hsec(self, register, second):
        handle = self.handle(register, "dep")
        if handle.target is None:
            raise Refused("nullref")
        handle.extra = self.object[second]
        return "ok"

    def hvar(self, register, strength):
        self.handle(register, "var").extra = strength
        return "ok"

    def hup(self, register, by=1):
        handle = self.handle(register, "ref")
        if handle.extra + by < 0:
            raise Refused("countzero")
        handle.extra += by
        return f"value {handle.extra}"

    def hdown(self, register):
        return self.hup(register, -1)

    def hfree(self, register):
        self.handle(register)
        del self.handles[self.slot[register]]
        self.slot[register] = None
        return "ok"

    def hput(self, place, register):
        self.board[place] = self.slot[register]
        return "ok"

    def hpick(self, register, place):
        self.slot[register] = self.board[place]
        return "ok"

    def addr(self, register):
        handle = self.handle(register)
        if handle.role() != "pinned":
            raise Refused("wrongkind")
        if handle.target is None:
            raise Refused("nullref")
        return "addr"

    def trim(self, kind):
        for block in sorted(block for block, use in self.uses.items() if use == kind):
            if all(self.is_free(slot) for slot in range(ROWS * block, ROWS * block + ROWS)):
                del self.uses[block]
                return "value 1"
        return "value 0"

    # The weak table.

    def entry(self, register):
        """The slot of a key's entry, or None."""
        key = self.some(register)
        return next((slot for slot, entry in self.entries.items() if entry[0] is key), None)

    def cadd(self, key, value):
        if self.entry(key) is not None:
            raise Refused("present")
        idle = [slot for slot, entry in self.entries.items() if entry[0] is None]
        slot = min(idle) if idle else self.free_slot("dep")
        self.entries[slot] = (self.object[key], self.object[value])
        return "ok"

    def cfind(self, register, key):
        slot = self.entry(key)
        told = self.answer(register, self.entries[slot][1] if slot is not None else None)
        return told if slot is not None else "absent"

    def cremove(self, key):
        slot = self.entry(key)
        if slot is None:
            return "absent"
        self.entries[slot] = (None, None)
        return "ok"

    # Edges, and why an object lives.

    def edges(self):
        """A function to all that fields, dependent handles and entries lead to from an object, nulls too."""
        led = {}
        pairs = [(handle.target, handle.extra) for handle in self.handles.values() if handle.kind == "dep"]
        for target, second in pairs + list(self.entries.values()):
            led.setdefault(target, []).append(second)
        return lambda thing: thing.fields + led.get(thing, [])

    def gcroot(self, register):
        goal, led = self.some(register), self.edges()
        anchors = self.statics + self.queue + [handle.target for handle in self.handles.values() if handle.holds()]
        layer, met, length = {thing: thing.identity for thing in anchors if thing}, set(), 0
        while layer and goal not in layer:
            met.update(layer)
            further = {}
            for thing, start in layer.items():
                for other in led(thing):
                    if other and other not in met:
                        further[other] = min(start, further.get(other, start))
            layer, length = further, length + 1
        return "root {}.{} {}".format(*layer[goal], length) if layer else "unrooted"

    # Collections.

    def reached(self, start):
        """All that chains of edges lead to."""
        led, found, left = self.edges(), set(), list(start)
        while left:
            thing = left.pop()
            if thing is not None and thing not in found:
                found.add(thing)
                left += led(thing)
        return found

    def kept_by(self, n):
        """What a collection reaches, what it resurrects, in rising identity, and what it keeps."""
        things = list(self.things.values())
        roots = [thing for register in self.registers for thing in register] + self.statics + self.queue
        roots += [handle.target for handle in self.handles.values() if handle.holds()]
        reach = self.reached(roots + [thing for thing in things if thing.generation > n])
        revived = sorted((thing for thing in things if thing.registered and thing not in reach), key=lambda thing: thing.identity)
        return reach, revived, self.reached(reach | set(revived))

    def collect(self, n):
        things, handles = list(self.things.values()), list(self.handles.values())
        reach, revived, kept = self.kept_by(n)
        cleared = Counter()
        for handle in handles:
            if handle.target and not handle.holds() and handle.target not in (reach if handle.role() == "short" else kept):
                cleared[handle.role()] += 1
                handle.target, handle.extra = None, None if handle.kind == "dep" else handle.extra
        for slot, (key, _) in self.entries.items():
            if key and key not in kept:
                cleared["dep"] += 1
                self.entries[slot] = (None, None)
        for thing in revived:
            thing.registered = False
        self.queue += revived
        survived = [thing for thing in kept if thing.generation <= n]
        for thing in survived:
            thing.generation = min(thing.generation + 1, 2)
        self.things = {thing.identity: thing for thing in things if thing in kept}
        self.collections += 1
        return (f"kept {len(survived)} removed {len(things) - len(kept)} short {cleared['short']} long {cleared['long']} "
                f"dep {cleared['dep']} revived {len(revived)}")


    # What a debugger shows.

    def pinned(self):
        return {handle.target for handle in self.handles.values() if handle.role() == "pinned" and handle.target}

    def shown(self):
        """The tables of a state, each a header and rows of words, without ages, chains, regions and cards."""
        kinds = [self.kind_row(kind) for kind in KINDS]
        generations = [self.generation_row(str(generation), {generation}) for generation in range(3)]
        registers = [[str(caller), f"{letter}{index}", word(has)]
                     for letter, all_of in (("r", self.registers), ("h", self.slots))
                     for caller in range(16) for index, has in enumerate(all_of[caller]) if has is not None]
        return [
            [["SLOT", "KIND", "TARGET", "EXTRA"]] + [[str(slot), handle.kind, word(handle.target), word(handle.extra)]
                                                     for slot, handle in sorted(self.handles.items())],
            [["KIND", "HANDLES", "BLOCKS", "FREE"]] + kinds + [["all"] + total(kinds)],
            [["KIND", "BLOCK", "HANDLES", "ENTRIES", "FREE", "ROWS"]] + sorted(self.block_row(block) for block in self.uses),
            [["GENERATION", "OBJECTS", "CELLS", "PINNED"]] + generations + [["all"] + total(generations)],
            [["QUEUED", "OBJECT"]] + [[str(place), word(thing)] for place, thing in enumerate(self.queue, 1)],
            [["ENTRY", "KEY", "VALUE"]] + [[str(slot), word(key) if key else "idle", word(value)]
                                           for slot, (key, value) in sorted(self.entries.items())],
            [["CALLER", "REGISTER", "HAS"]] + registers,
            [["STATIC", "OBJECT"]] + [[str(place), word(thing)] for place, thing in enumerate(self.statics) if thing],
            [["BOARD", "SLOT"]] + [[str(place), word(slot)] for place, slot in enumerate(self.board) if slot is not None],
        ]

    def taken(self, block, slots):
        return sum(slot // ROWS == block for slot in slots)

    def kind_row(self, kind):
        blocks = [block for block, use in self.uses.items() if use == kind]
        handles = sum(self.taken(block, self.handles) for block in blocks)
        entries = sum(self.taken(block, self.entries) for block in blocks)
        return [kind, str(handles), str(len(blocks)), str(ROWS * len(blocks) - handles - entries)]

    def block_row(self, block):
        if self.uses[block] == "extra":
            return ["data", str(block), "-", "-", "-", "-"]
        free = [row for row in range(ROWS) if self.is_free(ROWS * block + row)]
        counts = [self.taken(block, self.handles), self.taken(block, self.entries), len(free)]
        return [self.uses[block], str(block)] + [str(count) for count in counts] + [ranges(free)]

    def generation_row(self, name, generations):
        things = [thing for thing in self.things.values() if thing.generation in generations]
        counts = [len(things), sum(thing.size() for thing in things), len(self.pinned().intersection(things))]
        return [name] + [str(count) for count in counts]

    def links(self, thing):
        """What edges lead to from an object, each with the least field, or else the least slot, that leads there."""
        found = {}
        pairs = [(slot, "dep", handle.target, handle.extra) for slot, handle in self.handles.items() if handle.kind == "dep"]
        pairs += [(slot, "entry", key, value) for slot, (key, value) in self.entries.items()]
        for slot, name, target, second in sorted(pairs, key=lambda pair: pair[0]):
            if target is thing and second:
                found.setdefault(second, f"{name} {slot}")
        for index in reversed(range(len(thing.fields))):
            if thing.fields[index]:
                found[thing.fields[index]] = f"field {index}"
        return found

    def anchor(self, thing):
        """What makes an object an anchor, or None: the least static, the least slot, or the queue."""
        if thing in self.statics:
            return f"static {self.statics.index(thing)}"
        slots = [slot for slot, handle in self.handles.items() if handle.holds() and handle.target is thing]
        if slots:
            return f"slot {min(slots)} {self.handles[min(slots)].kind}"
        return "queue" if thing in self.queue else None

    def path(self, identity):
        """A shortest chain to an object, of these the least by identities."""
        name = "{}.{}".format(*identity)
        if identity not in self.things:
            return [f"path {name} " + ("gone" if 0 < identity[1] <= self.made[identity[0]] else "unknown")]
        goal = self.things[identity]
        chains = {thing: [thing] for thing in self.things.values() if self.anchor(thing)}
        layer = dict(chains)
        while layer and goal not in chains:
            further = {}
            for thing, chain in layer.items():
                for other in self.links(thing):
                    if other not in chains:
                        longer = chain + [other]
                        further[other] = min(longer, further.get(other, longer), key=lambda one: [it.identity for it in one])
            chains.update(further)
            layer = further
        if goal not in chains:
            return [f"path {name} unrooted"]
        chain = chains[goal]
        lines = [f"path {name} edges {len(chain) - 1}", f"  {self.anchor(chain[0])} -> {word(chain[0])}"]
        return lines + [f"  {word(one)} {self.links(one)[other]} -> {word(other)}" for one, other in zip(chain, chain[1:])]

    def graph(self, by=None):
        """The lines of a graph, by clusters or not, in any order."""
        lines = ["digraph heap {", "  rankdir=LR;", "  node [shape=box];", "}"]
        kept, pinned = self.kept_by(2)[2], self.pinned()
        for generation in range(3) if by == "generation" else []:
            lines.append(f'  subgraph cluster_{generation} {{ label="generation {generation}"; }}')
        for thing in self.things.values():
            label = f"{word(thing)}\\ngeneration {thing.generation}\\ncells {thing.size()}" + ("\\npinned" if thing in pinned else "")
            grey = "" if thing in kept else " color=grey fontcolor=grey"
            node = f'"{word(thing)}" [label="{label}"{grey}];'
            lines.append(f"  subgraph cluster_{thing.generation} {{ {node} }}" if by == "generation" else f"  {node}")
            lines += [f'  "{word(thing)}" -> "{word(other)}" [label="{index}"];' for index, other in enumerate(thing.fields) if other]
        for slot, handle in self.handles.items():
            style = {"strong": "solid", "pinned": "solid", "short": "dashed", "long": "dashed", "dep": "dotted"}[handle.role()]
            lines += self.slot_lines(slot, handle.kind, handle.target, style)
            if handle.kind == "dep" and handle.target and handle.extra:
                lines.append(f'  "{word(handle.target)}" -> "{word(handle.extra)}" [style=dotted label="dep {slot}"];')
        for slot, (key, value) in self.entries.items():
            lines += self.slot_lines(slot, "entry" if key else "idle", key, "dotted")
            if key and value:
                lines.append(f'  "{word(key)}" -> "{word(value)}" [style=dotted label="entry {slot}"];')
        roots = [(f"static {place}", thing) for place, thing in enumerate(self.statics)]
        roots += [(f"queue {place}", thing) for place, thing in enumerate(self.queue, 1)]
        roots += [(f"{caller} r{index}", thing) for caller in range(16) for index, thing in enumerate(self.registers[caller])]
        for name, thing in roots:
            if thing:
                lines += [f'  "{name}" [shape=plaintext];', f'  "{name}" -> "{word(thing)}";']
        return lines

    @staticmethod
    def slot_lines(slot, name, target, style):
        lines = [f'  "slot {slot}" [shape=ellipse label="{slot} {name}"];']
        return lines + ([f'  "slot {slot}" -> "{word(target)}" [style={style}];'] if target else [])


def word(has):
    """An object, a slot, a strength, a count or nothing as a word of a table."""
    if isinstance(has, Thing):
        return "{}.{}".format(*has.identity)
    return "-" if has is None else str(has)


def total(rows):
    return [str(sum(int(row[column]) for row in rows)) for column in range(1, len(rows[0]))]


def ranges(numbers):
    """Numbers that rise as ranges with commas between them."""
    found = []
    for number in numbers:
        if found and found[-1][1] + 1 == number:
            found[-1][1] = number
        else:
            found.append([number, number])
    return ",".join(f"{low}-{high}" if high > low else str(low) for low, high in found) or "-"


def commands(chance):
    """One of each command, some twice, with registers of five."""
    r, h = ([f"{letter}{chance.randrange(5)}" for _ in range(4)] for letter in "rh")
    kind, place, strength = chance.choice(KINDS), chance.randrange(5), chance.choice(STRENGTHS)
    make = f"hnew {h[0]} {kind} {r[0]}" + {"dep": f" {r[1]}", "var": f" {strength}"}.get(kind, "")
    new = f"new {r[0]} {chance.randrange(4)}" + chance.choice(["", "", " fin"])
    return [new, new, make, make, f"set {r[0]} {chance.randrange(3)} {r[1]}", f"get {r[0]} {r[1]} {chance.randrange(3)}",
            f"copy {r[0]} {r[1]}", f"drop {r[0]}", f"drop {r[0]}", f"sput {place} {r[0]}", f"sget {r[0]} {place}",
            f"hget {r[0]} {h[0]}", f"hset {h[0]} {r[0]}", f"hsec {h[0]} {r[0]}", f"hdep {r[0]} {h[0]}", f"hvar {h[0]} {strength}",
            f"hup {h[0]}", f"hdown {h[0]}", f"hfree {h[0]}", f"hfree {h[0]}", f"hput {place} {h[0]}", f"hpick {h[0]} {place}",
            f"addr {h[0]}", f"trim {strength}", f"final {r[0]}", f"gen {r[0]}", f"val {r[0]} {place}", f"read {r[0]}",
            f"suppress {r[0]}", f"reregister {r[0]}", f"gcroot {r[0]}", f"gcroot {r[1]}", f"collect {chance.randrange(3)}", f"collect {chance.randrange(3)}"]


def weak_commands(chance):
    """Commands on the weak table, half of the time after a new object."""
    r = [f"r{chance.randrange(5)}" for _ in range(2)]
    new = [f"new {r[0]} {chance.randrange(3)}" + chance.choice(["", "", " fin"])] * chance.randrange(2)
    return new + [chance.choice([f"cadd {r[0]} {r[1]}"] * 3 + [f"cfind {r[1]} {r[0]}", f"cfind r5 {r[0]}", f"cremove {r[0]}"])]


def script_of(chance):
    """A random script of one caller or three, with more or less of the weak table."""
    weak, lines, often = chance.choice([0.15, 0.3, 0.6]), [], chance.choice([100, 400])
    for caller in range(chance.choice([1, 1, 3])):
        lines.append(f"caller {caller}")
        for _ in range(often):
            lines += weak_commands(chance) if chance.random() < weak else [chance.choice(commands(chance))]
    return lines


def compare(name, printed, wanted):
    printed = re.sub(r" addr \d+$", " addr", printed, flags=re.MULTILINE).splitlines()
    if printed != wanted:
        at = next((at for at, pair in enumerate(zip(printed, wanted)) if pair[0] != pair[1]), min(len(printed), len(wanted)))
        sys.exit(f"machine: {name}: {printed[at:at + 1]} and not {wanted[at:at + 1]}")


def compare_random(count, seed, program):
    lines = 0
    for number in range(count):
        chance = random.Random(f"{seed} {number}")
        limits = chance.choice([60, 300, 1000000]), chance.choice([1, 2, 3, 4, 8, 256])
        words = [program, "solo", "--heap", str(limits[0]), "--blocks", str(limits[1])]
        script = script_of(chance)
        ran = subprocess.run(words, input="\n".join(script) + "\n", capture_output=True, text=True, check=True)
        wanted = Machine(*limits).text(script)
        compare(f"script {number} of {seed}", ran.stdout, wanted)
        lines += len(wanted)
    print(f"machine: {count} scripts and {lines} lines are alike")


def main(words):
    if len(words) == 3 and words[0].isdigit():
        compare_random(int(words[0]), words[1], words[2])
        return
    for name in words:
        with open(name, encoding="utf-8") as script, open(name + ".stdout", encoding="utf-8") as text:
            compare(name, text.read(), Machine(1000000, 256).text(script))
    print(f"machine: {len(words)} texts are alike")


if __name__ == "__main__":
    main(sys.argv[1:])
