"""Random scripts: what a generator knows of registers, statics and handles, so that most commands find what they need."""
import random

KINDS = ["short", "long", "strong", "pinned", "var", "ref", "dep"]
STRENGTHS = ["short", "long", "strong", "pinned"]
OBJECTS, HANDLES, SHARED = 8, 16, 16

# How often each kind of step comes, by theme. A theme that leaves a word out never has it.
COMMON = {"new": 12, "set": 12, "get": 6, "drop": 14, "copy": 3, "val": 1, "read": 1, "sput": 2, "sget": 2, "gen": 3,
          "hget": 6, "hset": 4, "hfree": 3, "collect": 8, "list": 1, "old": 1}
THEMES = {
    "weak": {"kinds": ["short", "long", "strong"], "hnew": 14, "many": 1},
    "pinned": {"kinds": ["pinned", "short", "long", "strong", "pinned"], "hnew": 14, "many": 1},
    "dependent": {"kinds": ["dep", "dep", "dep", "short", "long", "strong"], "hnew": 14, "hdep": 6, "hsec": 5, "chain": 2,
                  "many": 1},
    "variable": {"kinds": ["var", "var", "var", "strong", "short"], "hnew": 14, "hvar": 12, "many": 1},
    "counted": {"kinds": ["ref", "ref", "ref", "strong", "long"], "hnew": 14, "hup": 4, "hdown": 8, "many": 1},
    "finalization": {"kinds": ["short", "long", "dep", "strong", "ref"], "hnew": 12, "suppress": 4, "reregister": 5, "final": 9,
                     "hdep": 3, "hsec": 3, "chain": 1, "fin": 0.6},
    "attached": {"kinds": ["dep", "short", "long", "strong"], "hnew": 6, "cadd": 14, "cfind": 8, "cremove": 3, "hdep": 2,
                 "hsec": 2, "final": 3, "chain": 2, "fin": 0.2},
    "everything": {"kinds": KINDS, "hnew": 14, "hdep": 3, "hsec": 3, "hvar": 5, "hup": 2, "hdown": 3, "suppress": 2,
                   "reregister": 2, "final": 4, "chain": 1, "many": 1, "hput": 2, "hpick": 2, "cadd": 2, "cfind": 2, "cremove": 1,
                   "fin": 0.25},
}
# What a full line says besides, and callers in threads: they make and free handles more often.
JUDGED = {"addr": 2, "gcroot": 2, "trim": 0.5}
IN_THREADS = {**JUDGED, "hnew": 20, "hfree": 10, "churn": 1.5, "hput": 2, "hpick": 2, "cadd": 2, "cfind": 2, "cremove": 1,
              "collect": 3, "many": 0.3, "old": 0.3}


class Token:
    """A handle: its kind, and whether it was freed. Registers and the board may share one, and in threads who knows which."""

    def __init__(self, kind, shared=False):
        self.kind, self.freed, self.shared = kind, False, shared


class Script:
    """With `judged` it has commands whose answers are no single text, and with `threads` it is for callers in threads: none frees
    a handle that was on the board."""

    def __init__(self, rng, length, judged=False, threads=0):
        self.rng, self.length, self.threads = rng, length, threads
        self.theme = rng.choice(sorted(THEMES))
        self.words = dict(THEMES[self.theme])
        self.kinds = self.words.pop("kinds")
        self.fin = self.words.pop("fin", 0.1)
        self.weights = {**COMMON, **self.words, **(IN_THREADS if threads else JUDGED if judged else {})}
        self.only_full = rng.random() < 0.1
        self.lines, self.commands = [], 0
        self.statics, self.board = [None] * SHARED, [None] * SHARED

    def text(self):
        callers = self.threads or self.rng.choice([1, 1, 1, 2, 3])
        burst = self.rng.choice(self.kinds) if self.threads and self.rng.random() < 0.5 else None
        for caller in range(callers):
            if callers > 1:
                self.lines.append(f"caller {caller}")
            # What a register has: None for null, else how many fields the object in it has, or -1 where that is not known.
            self.objects, self.handles = [None] * OBJECTS, [None] * HANDLES
            until = self.length * (caller + 1) // callers
            if burst:
                self.burst(burst)
            while self.commands < until:
                step = self.rng.choices(list(self.weights), list(self.weights.values()))[0]
                getattr(self, "step_" + step)()
        return "".join(line + "\n" for line in self.lines)

    def say(self, *words):
        self.lines.append(" ".join(str(word) for word in words))
        self.commands += 1

    def any(self):
        return self.rng.randrange(OBJECTS)

    def some(self):
        """A register that has an object, mostly."""
        found = [r for r in range(OBJECTS) if self.objects[r] is not None]
        return self.rng.choice(found) if found and self.rng.random() < 0.93 else self.any()

    def handle(self, kinds=KINDS):
        """A register with a handle of one of the kinds, mostly, and never one whose slot was freed; None where there is none."""
        usable = [h for h in range(HANDLES) if self.handles[h] is None or not self.handles[h].freed]
        found = [h for h in usable if self.handles[h] is not None and self.handles[h].kind in kinds]
        if found and self.rng.random() < 0.95:
            return self.rng.choice(found)
        return self.rng.choice(usable) if usable else None

    # Objects.

    def new(self, register, fields):
        self.say("new", f"r{register}", fields, *(["fin"] if self.rng.random() < self.fin else []))
        self.objects[register] = fields

    def step_new(self):
        self.new(self.any(), self.rng.choice([0, 1, 1, 2, 2, 3, 5]) if self.rng.random() < 0.98 else 61)

    def field(self, register):
        fields = self.objects[register]
        known = fields is not None and fields > 0
        return self.rng.randrange(fields if known and self.rng.random() < 0.97 else 3)

    def step_set(self):
        into = self.some()
        self.say("set", f"r{into}", self.field(into), f"r{self.some()}")

    def step_get(self):
        into, of = self.any(), self.some()
        self.say("get", f"r{into}", f"r{of}", self.field(of))
        self.objects[into] = -1 if self.objects[of] is not None else self.objects[into]

    def step_copy(self):
        into, of = self.any(), self.some()
        self.say("copy", f"r{into}", f"r{of}")
        self.objects[into] = self.objects[of]

    def step_drop(self):
        register = self.some()
        self.say("drop", f"r{register}")
        self.objects[register] = None

    def step_val(self):
        self.say("val", f"r{self.some()}", self.rng.randrange(100))

    def step_read(self):
        self.say("read", f"r{self.some()}")

    def step_gen(self):
        if not self.only_full:
            self.say("gen", f"r{self.some()}")

    def step_sput(self):
        at, of = self.rng.randrange(SHARED), self.some() if self.rng.random() < 0.6 else self.any()
        self.say("sput", at, f"r{of}")
        self.statics[at] = self.objects[of]

    def step_sget(self):
        known = [s for s in range(SHARED) if self.statics[s] is not None]
        into, at = self.any(), self.rng.choice(known) if known else self.rng.randrange(SHARED)
        self.say("sget", f"r{into}", at)
        self.objects[into] = self.statics[at]

    def step_suppress(self):
        self.say("suppress", f"r{self.some()}")

    def step_reregister(self):
        self.say("reregister", f"r{self.some()}")

    def step_final(self):
        into = self.any()
        self.say("final", f"r{into}")
        self.objects[into] = -1

    def step_collect(self):
        self.say("collect", 2 if self.only_full else self.rng.choice([0, 0, 0, 0, 1, 1, 1, 2, 2]))

    # Handles.

    def make(self, register, kind, target):
        extra = {"var": self.rng.choice(STRENGTHS), "dep": f"r{self.some()}"}.get(kind)
        self.say("hnew", f"h{register}", kind, f"r{target}", *([extra] if extra else []))
        self.handles[register] = Token(kind)

    def step_hnew(self):
        self.make(self.rng.randrange(HANDLES), self.rng.choice(self.kinds), self.some())

    def loads(self, word, kinds=KINDS):
        into, handle = self.any(), self.handle(kinds)
        if handle is not None:
            self.say(word, f"r{into}", f"h{handle}")
            self.objects[into] = -1

    def step_hget(self):
        self.loads("hget")

    def step_hdep(self):
        self.loads("hdep", ["dep"])

    def step_hset(self):
        handle = self.handle([kind for kind in KINDS if kind != "dep" or self.rng.random() < 0.2])
        if handle is not None:
            self.say("hset", f"h{handle}", f"r{self.some() if self.rng.random() < 0.85 else self.any()}")

    def step_hsec(self):
        handle = self.handle(["dep"])
        if handle is not None:
            self.say("hsec", f"h{handle}", f"r{self.some()}")

    def step_hvar(self):
        handle = self.handle(["var"])
        if handle is not None:
            self.say("hvar", f"h{handle}", self.rng.choice(STRENGTHS))

    def step_hup(self):
        handle = self.handle(["ref"])
        if handle is not None:
            self.say("hup", f"h{handle}")

    def step_hdown(self):
        handle = self.handle(["ref"])
        if handle is not None:
            self.say("hdown", f"h{handle}")

    def step_hfree(self):
        handle = self.handle()
        if handle is not None and not (self.handles[handle] and self.handles[handle].shared):
            self.say("hfree", f"h{handle}")
            if self.handles[handle] is not None:
                self.handles[handle].freed = True
            self.handles[handle] = None

    def step_hput(self):
        handle, at = self.handle(), self.rng.randrange(SHARED)
        if handle is not None:
            self.say("hput", at, f"h{handle}")
            self.board[at] = self.handles[handle]
            if self.handles[handle] and self.threads:
                self.handles[handle].shared = True

    def step_hpick(self):
        if self.threads:
            register = self.rng.randrange(HANDLES)
            self.say("hpick", f"h{register}", self.rng.randrange(SHARED))
            self.handles[register] = Token(self.rng.choice(self.kinds), shared=True)
            return
        usable = [at for at in range(SHARED) if self.board[at] is not None and not self.board[at].freed]
        if usable:
            at, register = self.rng.choice(usable), self.rng.randrange(HANDLES)
            self.say("hpick", f"h{register}", at)
            self.handles[register] = self.board[at]

    # What a full line says besides.

    def step_addr(self):
        handle = self.handle(["pinned", "pinned", "var"])
        if handle is not None:
            self.say("addr", f"h{handle}")

    def step_gcroot(self):
        self.say("gcroot", f"r{self.some()}")

    def step_trim(self):
        self.say("trim", self.rng.choice(STRENGTHS))

    # The weak table.

    def step_cadd(self):
        self.say("cadd", f"r{self.some()}", f"r{self.some()}")

    def step_cfind(self):
        into = self.any()
        self.say("cfind", f"r{into}", f"r{self.some()}")
        self.objects[into] = -1

    def step_cremove(self):
        self.say("cremove", f"r{self.some()}")

    # Several commands with one purpose.

    def step_churn(self):
        """Many handles of one kind are made, and most are freed at once, so that banks of the cache are filled and emptied."""
        kind, free = self.rng.choice(self.kinds), [h for h in range(HANDLES) if self.handles[h] is None]
        for _ in range(self.rng.randrange(1, 6)):
            for register in free:
                self.make(register, kind, self.some())
            for register in free:
                if self.rng.random() < 0.9:
                    self.say("hfree", f"h{register}")
                    self.handles[register] = None

    def step_list(self):
        """A list of objects, the first of which alone stays in a register."""
        first, next_one = self.any(), self.any()
        self.new(first, 2)
        for _ in range(self.rng.randrange(2, 8)):
            self.new(next_one, 2)
            self.say("set", f"r{next_one}", self.rng.randrange(2), f"r{first}")
            self.say("copy", f"r{first}", f"r{next_one}")
            self.objects[first] = 2
        self.say("drop", f"r{next_one}")
        self.objects[next_one] = None

    def step_old(self):
        """What is there becomes old, and then an old object and a handle reference a young one."""
        for generation in [2, 2] if self.only_full else self.rng.choice([[0], [0, 1], [1, 1], [2, 2]]):
            self.say("collect", generation)
        into, young = self.some(), self.any()
        self.new(young, 1)
        self.say("set", f"r{into}", self.field(into), f"r{young}")
        self.step_hset()
        self.say("drop", f"r{young}")
        self.objects[young] = None

    def step_chain(self):
        """Dependent handles, each of which attaches an object to the next, made in any order."""
        length = self.rng.randrange(3, OBJECTS)
        for register in range(length):
            self.new(register, self.rng.randrange(2))
        links = [(a, (a + 1) % length) for a in range(length if self.rng.random() < 0.3 else length - 1)]
        self.rng.shuffle(links)
        for a, b in links:
            register = self.rng.randrange(HANDLES)
            self.say("hnew", f"h{register}", "dep", f"r{a}", f"r{b}")
            self.handles[register] = Token("dep")
        for register in self.rng.sample(range(length), length - self.rng.randrange(2)):
            self.say("drop", f"r{register}")
            self.objects[register] = None

    def burst(self, kind):
        """All callers begin with many handles of one kind, and free them after collections, by which the others have theirs: in
        all they are more than the cache has room for."""
        self.new(0, 1)
        for register in range(HANDLES):
            self.make(register, kind, 0)
        for _ in range(3):
            self.say("collect", 0)
        for register in range(HANDLES):
            self.say("hfree", f"h{register}")
            self.handles[register] = None

    def step_many(self):
        """Many handles of one kind, so that they take more than one clump or block."""
        if self.rng.random() < 0.25:
            kind, register = self.rng.choice(self.kinds), self.rng.randrange(HANDLES)
            for _ in range(self.rng.randrange(10, 70)):
                self.make(register, kind, self.some())


def script(seed, number, length):
    """The script of a number, of those of a seed."""
    return Script(random.Random(f"{seed}/{number}"), length).text()


def heap_of(number):
    """How many cells the heap has for it: mostly as many as hdt has by default."""
    return [30, 100, 300][number // 4 % 3] if number % 4 == 3 else 1000000


def judged_script(seed, number, in_threads):
    """The same, with commands that have many right answers, for callers in turn or for 2 to 16 in threads."""
    rng = random.Random(f"{seed}/{number}/judged/{in_threads}")
    threads = rng.choice([2, 3, 4, 8, 16]) if in_threads else 0
    each = rng.choice([60, 120, 240])
    return Script(rng, each * threads if threads else rng.choice([100, 300, 600]), True, threads).text()
