"""What both trials share: runs of the program behind the shim, and what its text may be."""
import os
import re
import struct
import subprocess
import sys
import tempfile
from pathlib import Path

HERE = Path(__file__).resolve().parent
TOP = HERE.parent
FAULT = b"fault memory\n"
# The reply of a collection, the last line of a run, and the numbers that depend on the order of callers in threads.
REPORT = re.compile(rb"kept \d+ removed \d+ short \d+ long \d+ dep \d+ revived \d+")
LAST = re.compile(rb"end handles \d+ objects \d+ collections \d+")


class Run:
    """One run of the program: its status, its text, its words on standard error, and what the shim counted."""

    def __init__(self, status, text, error, counts):
        self.status, self.text, self.error = status, text, error
        self.requests, self.refused, self.reads, self.writes, self.failed = counts


class Trial:
    """The program, the shim that is built for it, and the file of counts that they share."""

    def __init__(self, program):
        self.program = program
        self.folder = tempfile.TemporaryDirectory()
        self.shim = os.path.join(self.folder.name, "shim.so")
        subprocess.run(["gcc", "-Wall", "-O2", "-shared", "-fPIC", "-o", self.shim, HERE / "shim.c"], check=True)
        self.counts = os.path.join(self.folder.name, "counts")

    def judged(self, script):
        """A script, the line that divides, and the full text that the program prints for it."""
        given = script.read_bytes()
        text = subprocess.run([self.program, "solo", "--slots"], input=given, capture_output=True, check=True).stdout
        path = Path(self.folder.name, f"{script.stem}.audit")
        path.write_bytes(given + b"=\n" + text)
        return path

    def run(self, words, script, **asked):
        with open(self.counts, "wb") as file:
            file.write(bytes(40))
        environment = dict(os.environ, LD_PRELOAD=self.shim, TRIAL_COUNTS=self.counts)
        environment.update({"TRIAL_" + name.upper(): str(value) for name, value in asked.items()})
        try:
            with open(script or os.devnull, "rb") as source:
                done = subprocess.run([self.program, *words], stdin=source, capture_output=True, env=environment, timeout=60)
            status, text, error = done.returncode, done.stdout, done.stderr
        except subprocess.TimeoutExpired as late:
            status, text, error = "no end", late.stdout or b"", late.stderr or b""
        with open(self.counts, "rb") as file:
            return Run(status, text, error, struct.unpack("5Q", file.read(40)))


class Case:
    """A mode with its words and its script, and the text and the status that it has where nothing fails."""

    def __init__(self, words, script, text, status=0):
        self.words, self.script, self.text, self.status = words, script, text, status
        self.mode = words[0]
        self.lines = text.splitlines(keepends=True)
        # The commands of each caller, by the lines of the script.
        self.commands, caller = {}, 0
        for line in (script.read_bytes() if script else b"").splitlines():
            parts = line.split(b"#")[0].split()
            if parts and parts[0] == b"caller":
                caller = int(parts[1])
            elif parts:
                self.commands.setdefault(caller, []).append(parts[0])
        # The lines of commands: by callers in turn in the text that `solo` has.
        self.entries = self.lines[: sum(len(commands) for commands in self.commands.values())]

    def name(self):
        return " ".join(self.words), self.script.name if self.script else "none"

    def is_whole(self, text):
        """The usual text."""
        if self.mode != "run":
            return text == self.text
        lines = text.splitlines(keepends=True)
        done = self.callers_did(lines[:-1])
        whole = done is not None and all(done[caller] == len(commands) for caller, commands in self.commands.items())
        return whole and plain(lines[-1]) == plain(self.lines[-1])

    def callers_did(self, lines):
        """How many commands each caller did by these lines, each caller's a beginning of its own; none where they are not."""
        own = {caller: [line for line in self.entries if line.startswith(b"%d " % caller)] for caller in self.commands}
        done = dict.fromkeys(self.commands, 0)
        for line in lines:
            caller = int(line.split()[0]) if line[:1].isdigit() else -1
            if caller not in own or done[caller] == len(own[caller]):
                return None
            want = own[caller][done[caller]]
            if (plain(line) if self.mode == "run" else line) != (plain(want) if self.mode == "run" else want):
                return None
            done[caller] += 1
        if self.mode != "run" and lines != self.entries[: len(lines)]:
            return None
        return done

    def stops_for_memory(self, lines):
        """The lines are of a run that stopped: where there are any, what comes next takes memory."""
        done = self.callers_did(lines)
        if done is None:
            return False
        left = [commands[done[caller]] for caller, commands in sorted(self.commands.items()) if done[caller] < len(commands)]
        if not left:
            return self.mode == "roots"
        next_ones = left if self.mode == "run" else left[:1]
        return not lines or all(command in (b"new", b"collect", b"gcroot") for command in next_ones)


def plain(line):
    """A line without the numbers of a collection, and without the number of objects."""
    line = REPORT.sub(b"collected", line)
    return re.sub(rb"objects \d+", b"objects", line) if LAST.match(line) else line


def cases(trial):
    """The modes, each with its scripts. What is judged is two examples, and the full text of a script."""
    examples = TOP / "examples"
    text = lambda script: Path(f"{script}.stdout").read_bytes()
    host, finals, callers = examples / "host.hdt", examples / "resurrection.hdt", HERE / "four_callers.hdt"
    weak, leak = examples / "weak_table.hdt", examples / "leak.hdt"
    load = b"load callers 4 commands 516 made 64 live 0 collections 4 sum 544\n"
    return [
        Case(["solo"], host, text(host)),
        Case(["solo"], finals, text(finals)),
        Case(["solo"], weak, text(weak)),
        Case(["solo"], leak, text(leak)),
        Case(["solo"], callers, text(callers)),
        Case(["roots"], host, text(host) + Path(f"{host}.roots").read_bytes()),
        Case(["run"], callers, text(callers)),
        Case(["load", "--rounds", "16"], None, load),
        Case(["audit"], examples / "freed_between.audit", b"run yes\n"),
        Case(["audit"], examples / "slot_twice.audit", b"run no 4\n", 7),
        Case(["audit"], trial.judged(host), b"run yes\n"),
        Case(["audit"], trial.judged(weak), b"run yes\n"),
        Case(["audit"], trial.judged(leak), b"run yes\n"),
    ]


def start():
    """The program to be tried: the first word, or the one that `rt ci` leaves."""
    sys.stdout.reconfigure(line_buffering=True)
    program = Path(sys.argv[1] if len(sys.argv) > 1 else TOP / "crates/hdt/out/hdt").resolve()
    if not program.is_file():
        sys.exit(f"{program} is not built: run rt ci first, or name the program")
    return Trial(program)
