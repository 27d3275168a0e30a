"""Scripts by CoreCLR with full lines, and what hdt says of their texts."""
import collections
import subprocess

import place

LONGEST = 60


class Judge:
    """The two programs, and what was judged."""

    def __init__(self, coreclr, hdt, threads, compact):
        ways = (["--threads"] if threads else []) + (["--compact"] if compact else [])
        self.machine, self.hdt, self.compact = [coreclr, "answers", "--slots"] + ways, hdt, compact
        self.lines, self.changes, self.full, self.yes, self.cuts = 0, 0, 0, 0, collections.Counter()
        self.commands, self.reports = collections.Counter(), collections.Counter()

    def text(self, script, heap):
        """The text, from which line on it says nothing of the machine, and why; or None and why there is no text."""
        try:
            text, notes, status = place.run(self.machine + ["--heap", str(heap)], script, LONGEST)
        except subprocess.TimeoutExpired:
            return "", None, f"no end within {LONGEST} s"
        if status != 0:
            return text, None, f"status {status} {notes.strip()}"
        lines = text.splitlines()
        for note in notes.splitlines():
            _, caller, number, why = note.split(" ", 3)
            if not self.compact:
                return text, None, why
            return text, next(i for i, line in enumerate(lines, 1) if line.startswith(f"{caller} {number} ")), why
        return text, None, None

    def verdict(self, script, heap):
        """The text, and what is wrong with it: a line, or why the program ended; or None for a run, and from a demotion on."""
        text, cut, why = self.text(script, heap)
        if cut is None and why is not None:
            return text, why
        said, error, status = place.run([self.hdt, "audit", "--heap", str(heap)], f"{script}=\n{text}")
        if status not in (0, 7):
            place.stop(f"hdt audit: status {status}: {said}{error}")
        if status == 0:
            self.yes += 1
            return text, None
        line = int(said.split()[2])
        if cut is not None and line >= cut:
            self.cuts[why] += 1
            return text, None
        return text, line

    def add(self, script, text):
        """Counts what a run did."""
        lines = [line.split() for line in text.splitlines()]
        self.lines += len(lines)
        self.full += text.count(" heapfull ")
        self.changes += sum(a[0] != b[0] for a, b in zip(lines, lines[1:-1]))
        self.commands.update(line.split()[0] for line in script.splitlines() if not line.startswith("caller"))
        for words in lines:
            if words[2:3] == ["kept"]:
                self.reports.update({word: int(number) for word, number in zip(words[2::2], words[3::2])})

    def shrink(self, script, heap):
        """A script that is judged to be no run and of which no line, and no run of lines, can be left out."""
        lines = script.splitlines()
        size = len(lines) // 2
        while size > 0:
            at, shorter = 0, False
            while at < len(lines):
                fewer = lines[:at] + lines[at + size:]
                if self.verdict("".join(line + "\n" for line in fewer), heap)[1] is not None:
                    lines, shorter = fewer, True
                else:
                    at += size
            size = size if shorter and size == 1 else size // 2
        return "".join(line + "\n" for line in lines)

    def summary(self, seconds):
        scripts = self.yes + self.cuts.total()
        print(f"{scripts} scripts, {seconds:.0f} s: {self.lines} lines judged, {self.changes} changes of caller, "
              f"{self.full} heapfull")
        print("commands: " + ", ".join(f"{word} {count}" for word, count in sorted(self.commands.items())))
        print("collections: " + ", ".join(f"{word} {count}" for word, count in self.reports.items()))
        print(f"run yes {self.yes}" + "".join(f", run no from {why} {count}" for why, count in sorted(self.cuts.items())))


def pairs(script, text):
    """Each printed line with its command, which the end line has not."""
    lists, caller = collections.defaultdict(list), "0"
    for line in script.splitlines():
        if line.startswith("caller "):
            caller = line.split()[1]
        else:
            lists[caller].append(line)
    for line in text.splitlines():
        words = line.split()
        yield "" if words[0] == "end" else lists[words[0]][int(words[1]) - 1], line


def found_as(script, text, wrong):
    """The line that is not right, with its command; or why there is none."""
    if isinstance(wrong, str):
        return wrong
    lines = list(pairs(script, text))
    return "line {}: `{}`, `{}`".format(wrong, *lines[wrong - 1]) if wrong <= len(lines) else f"line {wrong} is missing"


def show(script, text, wrong):
    """Each printed line beside its command, up to the one that is not right."""
    if isinstance(wrong, str):
        print(wrong)
        return
    for number, (command, line) in enumerate(list(pairs(script, text))[:wrong], 1):
        print(f"{command:24}{line}{'   <-- run no ' + str(wrong) if number == wrong else ''}")
