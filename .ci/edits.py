"""Edits: each makes a line of a crate wrong, and the prover must refuse it. Those in a crate's `must-fail/` are owed, and each gate
tries them; those in `edits/`, in a folder for each crate, are tried by `trials/edits`."""
import glob
import os
import re

from citations import TOP, crates, text_of

# What a row of a table in docs/DECISIONS.md names last.
OWED = re.compile(r"^\|.*\| `(\w+/\w+)` \|$", re.M)
KEYS = ("file: ", "old: ", "new:")


def places(crate, name):
    """Where an edit of a crate may stand."""
    return [f"crates/{crate}/must-fail/{name}.edit", f"edits/{crate}/{name}.edit"]


def is_edit(token):
    """Whether it is an edit of a crate, as `crate/name`."""
    crate, _, name = token.partition("/")
    return any(os.path.isfile(f"{TOP}/{it}") for it in places(crate, name))


def all_edits():
    """Each edit as its file, its crate and its name."""
    for folder in ("crates/*/must-fail", "edits/*"):
        for path in sorted(glob.glob(f"{TOP}/{folder}/*")):
            inside = os.path.relpath(path, TOP)
            yield inside, inside.split("/")[1], os.path.basename(path).removesuffix(".edit")


def pairs_of(text):
    """The pairs of an edit, each as its file, the old and the new text, and what of it cannot be read."""
    file, old, pairs, wrong = None, None, [], []
    for line in filter(str.strip, text.split("\n")):
        key = next((it for it in KEYS if line.startswith(it)), None)
        rest = line.removeprefix(key or "")
        if key == "file: ":
            file = rest.strip()
        elif key == "old: " and rest:
            old = rest
        elif key == "new:" and file and old:
            pairs.append((file, old, rest.removeprefix(" ")))
            old = None
        else:
            wrong.append(f"has the line {line.strip()}")
    if not pairs or old is not None:
        wrong.append("has no file:, no old: or no new:")
    return pairs, wrong


def misfits(path, crate):
    """Where an edit does not fit: each old text has to stand once in its file, after what the pairs before it made of that."""
    pairs, wrong = pairs_of(text_of(f"{TOP}/{path}"))
    texts, was = {}, {}
    for file, old, new in pairs:
        source = f"{TOP}/crates/{crate}/{file}"
        if not re.match(r"(src|specs|proofs)/", file) or not os.path.isfile(source):
            wrong.append(f"names {file}, which is no file of {crate}")
            continue
        if file not in texts:
            texts[file] = was[file] = text_of(source)
        if texts[file].count(old) != 1:
            wrong.append(f"has a text that is {texts[file].count(old)} times in {file}, and not once: {old.strip()}")
        texts[file] = texts[file].replace(old, new)
    if not wrong and texts == was:
        wrong.append("changes nothing")
    return wrong


def bad_edits():
    """What of an edit does not fit the sources, or stands elsewhere than it should; and whether the owed ones are those of the table."""
    names = {}
    for path, crate, name in all_edits():
        if crate not in crates() or not path.endswith(".edit"):
            yield f"{path} is no edit of a crate"
            continue
        if (crate, name) in names:
            yield f"{path}: {names[crate, name]} has its name"
        names[crate, name] = path
        yield from (f"{path} {it}" for it in misfits(path, crate))
    tried = [f"{crate}/{name}" for (crate, name), path in names.items() if path == places(crate, name)[0]]
    listed = OWED.findall(text_of(f"{TOP}/docs/DECISIONS.md"))
    if sorted(tried) != sorted(listed):
        odd = sorted(set(tried) ^ set(listed)) or ["one twice"]
        yield f"docs/DECISIONS.md lists other edits than those in must-fail/: {', '.join(odd)}"
