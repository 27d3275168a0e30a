"""Reads contracts and definitions: the items of a crate's code, the definitions of its `specs/`, and what cites what."""
import collections
import functools
import os
import re
import sys

TOP = os.path.dirname(os.path.dirname(os.path.abspath(__file__)))
# The public calls whose clauses are the headline: the run, its callers, and the table under them.
HEADLINE = [("hd_run", "top"), ("hd_run", "run"), ("hd_run", "load"),
            ("hd_gate", "Shared::open"), ("hd_gate", "Shared::call"), ("hd_gate", "Shared::close"),
            ("hd_world", "World::open"), ("hd_world", "World::apply"), ("hd_world", "World::journal")]
WORD = re.compile(r"[^\W\d][\w'-]*(?<!-)")
IMPORT = re.compile(r"^[ \t]*(?:ghost )?(?:pub )?use Rattle\.(\w+)\.(specs|proofs)(?:\.([\w.]+?))?(?:\.\{([^}]*)\}| as (\w+))[;]?[ \t]*$", re.M)
ANTT_HEAD = re.compile(r"^(?:unfoldable |opaque )*(?:abbrev|def|record|data|pub record|pub data|pub abbrev|lemma|syntax)\b(.*)$")
RUST_HEAD = re.compile(
    r"^(?P<indent>[ ]*)(?:pub(?:\([a-z]+\))? )?(?:unsafe )?(?:extern \"C\" )?(?P<what>fn|struct|enum|trait|impl|type)\b(?P<rest>.*)$")


def text_of(path):
    with open(path, encoding="utf-8") as text:
        return text.read()


def crates():
    return sorted(os.listdir(f"{TOP}/crates"))


def imports_of(text):
    """What a file's imports call each name: the crate, its part, the path to a module, and the name there (none for a module)."""
    found = {}
    for crate, part, path, names, alias in IMPORT.findall(text):
        if alias:
            found[alias] = (crate, part, path, None)
        for name in re.split(r"\s*,\s*", names.strip()) if names else []:
            # In braces a name may stand with the path to its module, or the rest of it.
            there, _, here = name.partition(" as ")
            *way, there = [it for it in (path or "").split(".") + there.strip().split(".") if it]
            found[here.strip() or there] = (crate, part, ".".join(way), there)
    return found


class Antt:
    """A file of definitions: what each of its names stands for, as text."""

    def __init__(self, path):
        text = re.sub(r"--.*", "", text_of(path))
        self.imports, self.bodies = imports_of(text), {}
        name, modules = None, []
        for line in text.split("\n"):
            # What stands in a module with parameters is indented by two more.
            if line.strip():
                indent = len(line) - len(line.lstrip())
                modules = [it for it in modules if it < indent]
                line = line[2 * len(modules):]
                if line.startswith("module "):
                    modules.append(indent)
            if line and not line[0].isspace() and not line.startswith(("use ", "module ")):
                head = ANTT_HEAD.match(line)
                if head:
                    name = next(iter(WORD.findall(head[1].replace("pub ", "", 1))), None)
                    if name in ("record", "data", "abbrev"):
                        name = WORD.findall(head[1])[1]
                else:
                    # A lemma is headed by its name and a colon, a clause of what is there by its name.
                    first = re.match(rf"(?:unfoldable |opaque )*(?:pub )?({WORD.pattern})( :)?", line)
                    name = first[1] if first and (first[2] or first[1] in self.bodies) else name
            if name:
                self.bodies[name] = self.bodies.get(name, "") + line + "\n"
        # A constructor or field stands for the definition that it is part of.
        self.parts = {part: whole for whole, body in self.bodies.items()
                      for part in re.findall(r"^\s+(?:pub )?([\w'-]+) :", body, re.M)
                      if re.match(r"(unfoldable |pub )*data", body)}


class Rust:
    """A file of code: its items with their signatures, clauses and ghost items, without bodies of functions."""

    def __init__(self, path):
        self.path = path
        text = re.sub(r"//.*", "", text_of(path))
        self.imports, self.uses = imports_of(text), set(re.findall(r"\b[A-Z]\w*\b", " ".join(re.findall(r"^use [^;]*;", text, re.M | re.S))))
        self.items = collections.defaultdict(str)
        lines, at, owner = text.split("\n"), 0, None
        while at < len(lines):
            head = RUST_HEAD.match(lines[at])
            if not head:
                at += 1
                continue
            indent, what = head["indent"], head["what"]
            block = self.block(lines, at, indent)
            if what == "impl":
                owner = self.owner_of(head["rest"])
                # What commands use of a machine stands below what callers see of it, and is nothing to believe.
                if "ghost" in block and " for " in block.split("{")[0] and "impl Parts for" not in block:
                    self.items[owner] += self.ghosts(block, owner == "World")
                at += 1
            elif what == "fn":
                name = re.match(r"\s*(\w+)", head["rest"])[1]
                self.items[f"{owner}::{name}" if indent else name] += self.signature(block, indent)
                at += block.count("\n") + 1
            elif what == "trait":
                owner = re.match(r"\s*(\w+)", head["rest"])[1]
                self.items[owner] += block
                at += block.count("\n") + 1
            else:
                # The free slots of a host are in no clause: what contracts see of it leaves them out.
                block = re.sub(r"\n +pub\(crate\) pool: Pool,", "", block) if head["rest"].startswith(" Host ") else block
                self.items[re.match(r"\s*(\w+)", head["rest"])[1]] += re.sub(r"\bby \{[^}]*\}", "", block)
                at += block.count("\n") + 1

    @staticmethod
    def owner_of(rest):
        """The type of an `impl`."""
        rest = re.sub(r"^<[^{]*?>\s+(?=[A-Z])", "", rest.strip())
        rest = rest.split(" for ")[-1]
        return re.match(r"\s*(\w+)", rest)[1]

    @staticmethod
    def block(lines, at, indent):
        """The lines of an item, to the one that closes it."""
        taken = [lines[at]]
        if lines[at].rstrip().endswith(";"):
            return taken[0]
        for line in lines[at + 1:]:
            taken.append(line)
            if line == f"{indent}{{}}" or re.match(rf"{indent}[}}\)]", line) and (line.strip() in ("}", ");") or line.rstrip().endswith((";", "}"))):
                break
        return "\n".join(taken)

    @staticmethod
    def signature(block, indent):
        """A function's head and clauses, without its body."""
        return re.split(rf"\n{indent}{{\n", block)[0]

    @staticmethod
    def ghosts(block, keeps_invariant):
        """The ghost items of an `impl`, without its functions. An invariant is proved, and nothing to believe; that of a world is
        part of the headline."""
        block = re.sub(r"\n( +)(?:pub )?fn [\s\S]*?\n\1}", "", block)
        return block if keeps_invariant else re.sub(r"\n +ghost invariant = \{[\s\S]*?\};", "", block)


@functools.lru_cache(maxsize=None)
def antt(crate, part, module):
    path = f"{TOP}/crates/{crate}/{part}/{module.replace('.', '/')}.antt"
    return Antt(path) if os.path.isfile(path) else None


@functools.lru_cache(maxsize=None)
def rust(crate):
    folder = f"{TOP}/crates/{crate}/src"
    return [Rust(f"{folder}/{name}") for name in sorted(os.listdir(folder)) if name.endswith(".rt") and "tests" not in name]


def contract(crate, call):
    """The head and the clauses of a call, or nothing."""
    return "".join(it.items.get(call, "") for it in rust(crate))


def lines_of(definition):
    """How many lines a definition has, without comments and empty ones."""
    return sum(1 for line in antt(*definition[:3]).bodies.get(definition[3], "").split("\n") if line.strip())


def below():
    found = {}
    for line in text_of(f"{TOP}/crates.txt").splitlines():
        name, _, rest = line.partition(":")
        if name and not name.startswith("#"):
            found[name.split()[0]] = [it for it in rest.split() if it.startswith("hd_")]
    return found


class Walk:
    """What was come to, by whom."""

    def __init__(self, calls):
        self.found, self.todo, self.below = {}, [], below()
        for crate, call in calls:
            self.add(("call", crate, call), None)
        while self.todo:
            item = self.todo.pop()
            getattr(self, f"in_{item[0]}")(item)

    def add(self, item, by):
        if item not in self.found:
            self.found[item] = by
            self.todo.append(item)

    def in_call(self, item):
        _, crate, call = item
        files = [it for it in rust(crate) if call in it.items]
        if not files:
            sys.exit(f"claims: {crate} has no call {call}")
        for file in files:
            self.cite(item, crate, file, file.items[call])

    def in_type(self, item):
        _, crate, name = item
        for file in rust(crate):
            if name in file.items:
                self.cite(item, crate, file, file.items[name])

    def cite(self, item, crate, file, text):
        """Follows what a text of code names."""
        for word in {*WORD.findall(re.sub(r"ghost use [^;]*;", "", text))}:
            if word in file.imports:
                self.named(file.imports[word], item)
            elif word[0].isupper():
                self.type_named(crate, word, file, item)

    def type_named(self, crate, word, file, item):
        for other in [crate, *self.below.get(crate, [])]:
            if (other == crate or word in file.uses) and any(word in it.items for it in rust(other)):
                self.add(("type", other, word), item)

    def named(self, at, item):
        crate, part, path, name = at
        if crate not in self.below:
            return
        pieces = path.split(".")
        if pieces[0] in ("declared", "contracts"):
            for word in [name, *pieces]:
                if word and any(word in it.items for it in rust(crate)) and word[0].isupper():
                    self.add(("type", crate, word), item)
        elif name and antt(crate, part, path):
            self.add(("name", crate, part, path, name), item)

    def in_name(self, item):
        _, crate, part, path, name = item
        file = antt(crate, part, path)
        name = file.parts.get(name, name)
        for word in {*WORD.findall(file.bodies.get(name, ""))} - {name}:
            if word in file.bodies or word in file.parts:
                self.add(("name", crate, part, path, file.parts.get(word, word)), item)
            elif word in file.imports:
                self.named(file.imports[word], item)

    def why(self, name):
        """By which citations the first definition of that name came in."""
        item, steps = next((it for it in self.found if it[-1] == name), None), []
        while item:
            steps.append(" ".join(item[1:]))
            item = self.found[item]
        return steps

    def definitions(self):
        """Each definition as its crate, its part, its file and its name."""
        return {item[1:] for item in self.found if item[0] == "name"}

    def named_so(self, name):
        """The texts of the definitions of that name."""
        return [antt(*it[:3]).bodies.get(it[3], "") for it in self.definitions() if it[3] == name]

    def by_file(self):
        files = collections.defaultdict(lambda: collections.defaultdict(set))
        for crate, part, path, name in self.definitions():
            files[crate][path if part == "specs" else f"{part}/{path}"].add(name)
        return files

    def listed(self):
        """Each crate with its files, as docs/claims.md has them."""
        files = self.by_file()
        return [f"- {crate}: {', '.join(f'`{it}`' for it in sorted(files[crate]))}" for crate in self.below if crate in files]
