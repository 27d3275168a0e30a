"""What the pages name: links, files, calls, clauses, definitions, options, words and blocks of the code. Each has to be there."""
import functools
import glob
import os
import re
import subprocess
import tempfile

from citations import TOP, antt, contract, crates, rust, text_of
from edits import is_edit

TICKED = re.compile(r"`([^`\n]*)`")
NAME = r"[A-Za-z_][\w'-]*"
# Names of .NET, of CoreCLR, of the toolchain and of the system, which no code here has.
OUTSIDE = set("""
    .ReRegisterForFinalize AddOrUpdate AddRef ConditionalWeakTable Dictionary Ref_AgeHandles TryAdd GetOrAdd WeakReference
    trackResurrection VHT_ _LONG _PINNED AddrOfPinnedObject arith assumption ground subst doc nice python3 rattle dac8208d650f15bf
    kit-13f logic mutant grep allow-holes fact tidy plant your GetValue
    DeleteLocalRef PushLocalFrame NewGlobalRef NewWeakGlobalRef NewLocalRef DeleteGlobalRef DeleteWeakGlobalRef IsSameObject
    GetPrimitiveArrayCritical ReferenceEquals mono_array_addr mono_gc_collect mono_gchandle_new_v2 mono_gchandle_new_weakref_v2
    GetObjectField GetLongField GetObjectClass NewObject SetObjectField PopLocalFrame mono_field_get_value
    mono_object_new gchandles GetGCMemoryInfo mono_gc_get_used_size
    mono_gchandle_get_target_v2 mono_gchandle_set_target mono_gchandle_free_v2 _find JNIEnv AttachCurrentThread mono_thread_attach
""".split())
PATHS_OUTSIDE = {"external/corert", "out/machine"}
# A register in a form of a command, as in `get rD rO I`.
OPERAND = re.compile(r"[rh][A-Z]")
PLACES = ["", "src/", "specs/", "proofs/"]
# Lines of C on a page: what stands before them and after them. The highest status of their calls is that of the program.
BEFORE_C = '''#include "hdt.h"
static hdt_status worst;
static hdt_status noted(hdt_status status) { if (status > worst) worst = status; return status; }
'''
AFTER_C = "    return (int)worst;\n}\n"
# What a comment beside a line says of a value.
STATED = re.compile(r"//.*?\b(\w[\w.]* [=!]= \w+)$")


def unwrapped(page):
    """The page with each item of a list on one line."""
    return re.sub(r"\n  +(?=\S)", " ", page)


@functools.lru_cache(maxsize=None)
def tracked():
    found = subprocess.run(["git", "ls-files", "-co", "--exclude-standard"], cwd=TOP, capture_output=True, text=True, check=True)
    return [it for it in found.stdout.split("\n") if it and not it.startswith("wip/") and os.path.isfile(f"{TOP}/{it}")]


def pages():
    return [it for it in tracked() if it.endswith(".md")]


def code_of(path):
    """The text of a file without its comments."""
    try:
        text = text_of(f"{TOP}/{path}")
    except UnicodeDecodeError:
        return ""
    comment = {".rt": "//", ".antt": "--", ".cpp": "//", ".h": "//", ".c": "//", ".cs": "//"}.get(os.path.splitext(path)[1], "#")
    return re.sub(rf"{comment}.*", "", text)


@functools.lru_cache(maxsize=None)
def code():
    return "\n".join(code_of(it) for it in tracked() if not it.endswith((".md", ".stdout", ".hdt", ".audit", "/pages.py")))


@functools.lru_cache(maxsize=None)
def words():
    """The words of the code, the names of files and folders, and the names from outside."""
    found = set(re.findall(r"[^\W\d][\w'-]*", code())) | set(re.findall(r"[^\W\d]\w*", code()))
    for path in tracked():
        for part in path.split("/"):
            found |= {part, *re.split(r"[.-]", part)}
    return found | OUTSIDE


def is_word(word):
    return word in words() or word.isupper() or OPERAND.fullmatch(word) is not None or len(word) == 1


def is_path(token, page):
    """Whether a path is that of a file or folder: from the top, from the page, in some crate, or in a folder of hosts."""
    built = re.match(r"(?:\.\./)*(?:crates/(\w+)|conformance/dotnet)/out/", token)
    if built:
        return built[1] is None or built[1] in crates()
    folders = [TOP, f"{TOP}/{os.path.dirname(page)}", *glob.glob(f"{TOP}/crates/*"), *glob.glob(f"{TOP}/conformance/coreclr/machine")]
    return token in PATHS_OUTSIDE or any(glob.glob(f"{it}/{token}") for it in folders) or is_in_crate(token)


def is_in_crate(token):
    """Whether it is a file of definitions, an edit or a test of a crate, as `crate/name`."""
    crate, _, name = token.partition("/")
    if crate not in crates():
        return False
    folder = f"{TOP}/crates/{crate}"
    tests = [text_of(it) for it in glob.glob(f"{folder}/src/*.rt")]
    return is_edit(token) or antt(crate, "specs", name) is not None \
        or any(re.search(rf"\bfn {re.escape(name)}\b", it) for it in tests)


def is_call(token):
    """Whether it is a call or a type of a crate, or one from outside that the code names."""
    first, _, rest = token.partition("::")
    if first in crates():
        parts = rest.split("::")
        return bool(contract(first, rest)) or all(is_word(it) for it in parts)
    owner, _, method = token.rpartition("::")
    for file in [it for crate in crates() for it in rust(crate)]:
        if token in file.items or re.search(rf"\bfn {re.escape(method)}\b", file.items.get(owner, "")):
            return True
    return re.search(rf"\b{re.escape(token)}\b", code()) is not None


@functools.lru_cache(maxsize=None)
def fields():
    """The fields of all records, as `Record.field` and as `.field`."""
    found = set()
    for crate in crates():
        for path in glob.glob(f"{TOP}/crates/{crate}/specs/*.antt"):
            for name, body in antt(crate, "specs", os.path.basename(path)[:-5]).bodies.items():
                for field in re.findall(r"^\s+(?:pub )?([\w'-]+) :", body, re.M):
                    found |= {f"{name}.{field}", f".{field}"}
    return found


def is_known(token, page):
    if re.fullmatch(r"--[a-z-]+", token):
        return token in code() or token[2:] in words()
    if re.fullmatch(r"[\w.*-]*(?:/[\w.*-]*)+", token):
        return is_path(token, page)
    if re.fullmatch(rf"{NAME}(?:::{NAME})+", token):
        return is_call(token)
    if re.fullmatch(rf"(?:{NAME})?\.{NAME}", token):
        return token in words() or token in fields() or all(is_word(it) for it in token.split(".") if it)
    # A command or a text: each path, each option, and each word that is no placeholder.
    named = re.findall(r"(?<![\w/.-])(?:[\w.-]+/)+[\w.-]+|--[a-z][a-z-]*|(?<![\w-])[^\W\d]\w*'*", token)
    return all(is_known(it, page) if "/" in it or it.startswith("--") else is_word(it) for it in named)


def slug(heading):
    return re.sub(r"[^\w\- ]", "", heading.strip().lower()).replace(" ", "-")


def bad_links(page, text):
    for target in re.findall(r"\]\(([^)\s]+)\)", text):
        if re.match(r"[a-z]+:", target):
            continue
        path, _, anchor = target.partition("#")
        at = os.path.normpath(f"{TOP}/{os.path.dirname(page)}/{path}") if path else f"{TOP}/{page}"
        if not os.path.exists(at):
            yield f"{page} links to {target}, which is not there"
        elif anchor and anchor not in [slug(it) for it in re.findall(r"^#+ (.*)$", text_of(at), re.M)]:
            yield f"{page} links to {target}, which has no such heading"


def bad_page(page):
    text = unwrapped(text_of(f"{TOP}/{page}"))
    yield from bad_links(page, text)
    for line in "\n".join(fences(text)).split("\n"):
        path = re.match(r"(?:sh |python3 )?((?:[\w.-]+/)+[\w.-]+)(?: |$)", line)
        if path and not is_path(path[1], page):
            yield f"{page}: {path[1]} is not there"
    text = re.sub(r"^```.*?^```", "", text, flags=re.M | re.S)
    # A line of a paragraph may end within a name.
    text = re.sub(r"\n(?!\n|[#|]|- )", " ", text)
    for token in TICKED.findall(text):
        if not is_known(token, page):
            yield f"{page}: `{token}` is not there"
    for crate, file in re.findall(r"\b(hd_\w+),? `((?:src/|specs/|proofs/)?\w+\.(?:rt|antt))`", text):
        if crate in crates() and not any(os.path.isfile(f"{TOP}/crates/{crate}/{it}{file}") for it in PLACES):
            yield f"{page}: {crate} has no {file}"
    for crate in sorted(set(re.findall(r"(?<![\w/`])hd_[a-z]+\b", text)) - set(crates()) - words()):
        yield f"{page}: {crate} is no crate"


def bad_numbers():
    """The decisions are numbered from 1 on, each once, and those that a page cites are there."""
    numbers = [int(it) for it in re.findall(r"^- \*\*(\d+)\.", text_of(f"{TOP}/docs/DECISIONS.md"), re.M)]
    if sorted(numbers) != list(range(1, len(numbers) + 1)):
        yield "docs/DECISIONS.md: the decisions are not numbered from 1 on, each once"
    for page in pages():
        for number in re.findall(r"\b[dD]ecisions? (\d+)\b", text_of(f"{TOP}/{page}")):
            if int(number) not in numbers:
                yield f"{page} cites decision {number}, which is not there"


def fences(text):
    return re.findall(r"^```.*?\n(.*?)^```", text, re.M | re.S)


def plain(text):
    return "\n".join(line.strip() for line in text.splitlines() if line.strip()) + "\n"


def bad_rust():
    """Each block of Rust in a page of calls stands in a source, whatever its indentation."""
    sources = [plain(text_of(it)) for it in glob.glob(f"{TOP}/crates/*/src/**/*.rt", recursive=True)]
    for page in [it for it in pages() if os.path.basename(it) == "CALLING.md"]:
        for block in re.findall(r"^```rust\n(.*?)^```", text_of(f"{TOP}/{page}"), re.M | re.S):
            if not any(plain(block) in it for it in sources):
                yield f"{page}: no source has the block that begins with {block.strip().splitlines()[0]}"


def bad_pages():
    for page in pages():
        yield from bad_page(page)
    yield from bad_rust()
    yield from bad_numbers()


def bad_example():
    """Whether a script that stands beside its text is that of the examples."""
    wanted = [text_of(f"{TOP}/examples/first.hdt{it}").splitlines() for it in ("", ".stdout")]
    blocks = [[(re.split(" {2,}", line, maxsplit=1) + [""])[:2] for line in it.splitlines()] for it in fences(text_of(f"{TOP}/README.md"))]
    if wanted not in [[[line[at] for line in it if line[at]] for at in (0, 1)] for it in blocks]:
        yield "README.md has no block with examples/first.hdt beside its text"


def bad_runs(program):
    """Calls of the built program in code blocks are made, and one in a paragraph prints the block after it."""
    name = os.path.basename(program).split(".")[0]
    built, made = f"crates/{name}/out/{name} ", 0

    def run(call):
        return subprocess.run(["sh", "-c", call.replace(built, f"{program} ", 1)], cwd=TOP, capture_output=True, text=True, check=False)

    if name == "hdt":
        yield from bad_example()
    for page in pages():
        text = text_of(f"{TOP}/{page}")
        for line in [it for it in "\n".join(fences(text)).split("\n") if it.startswith(built)]:
            ran, made = run(line.split("  #")[0]), made + 1
            if ran.returncode != 0 or ran.stderr:
                yield f"{page}: {line} ends with status {ran.returncode}"
        for call, block in re.findall(rf"`({re.escape(built)}[^`]*)`[^`]*:\n\n```\n(.*?)^```", text, re.M | re.S):
            ran, made = run(call.replace("\n", " ")), made + 1
            if ran.stdout != block or ran.stderr:
                yield f"{page}: {call} prints otherwise than the block after it"
    if not made:
        yield f"no page makes a call of {name}"


def c_lines():
    """The lines of C of each page, and those at the head of the header."""
    for page in pages():
        for block in re.findall(r"^```c\n(.*?)^```", text_of(f"{TOP}/{page}"), re.M | re.S):
            yield page, block
    head = re.search(r'^ \*   #include "hdt.h"\n((?: \*   .*\n)+)', text_of(f"{TOP}/crates/hdt_c/hdt.h"), re.M)
    yield "crates/hdt_c/hdt.h", re.sub(r"^ \*   ", "", head[1], flags=re.M)


def bad_c(libraries):
    """Lines of C on a page are built over the archives and run: each call is done, and what a comment says of a value is so."""
    for page, block in c_lines():
        calls = sorted(set(re.findall(r"\b(hdt_\w+)\(", block)) - {"hdt_close"})
        macros = "".join(f"#define {it}(...) noted({it}(__VA_ARGS__))\n" for it in calls)
        lines = []
        for line in block.splitlines():
            stated = STATED.search(line)
            lines += [line] + ([f"if (!({stated[1]})) worst = 99;"] if stated else [])
        with tempfile.TemporaryDirectory() as folder:
            with open(f"{folder}/lines.c", "w", encoding="utf-8") as text:
                text.write(BEFORE_C + macros + "int main(void) {\n" + "\n".join(lines) + "\n" + AFTER_C)
            made = ["cc", "-std=c11", "-Wall", "-Wextra", "-Werror", f"-I{TOP}/crates/hdt_c", f"{folder}/lines.c", *libraries, "-o",
                    f"{folder}/lines"]
            built = subprocess.run(made, cwd=TOP, capture_output=True, text=True, check=False)
            if built.returncode != 0:
                yield f"{page}: its lines of C do not build: {built.stderr.strip()}"
                continue
            status = subprocess.run([f"{folder}/lines"], check=False).returncode
            if not calls or status != 0:
                yield f"{page}: its lines of C end with status {status}"
