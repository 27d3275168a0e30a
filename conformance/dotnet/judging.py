"""Scripts by .NET, and what hdt says of their texts."""
import collections

import place


class Judge:
    """The two programs, and what was judged."""

    def __init__(self, machine, hdt, threads):
        self.machine, self.hdt = [machine] + (["--threads"] if threads else []), hdt
        self.lines, self.changes = 0, 0
        self.commands, self.reports = collections.Counter(), collections.Counter()

    def verdict(self, script, may_end=False):
        """The text, and the line that is not right there, or None for a run. A machine with a fault may end with no text."""
        text, error, status = place.run(self.machine, script)
        if may_end and status != 0:
            return "", 1
        if status != 0 or error:
            place.stop(f"status {status}: {error.strip()}, by the script\n\n{script}")
        said, error, status = place.run([self.hdt, "audit"], f"{script}=\n{text}")
        if status not in (0, 7):
            place.stop(f"hdt audit: status {status}: {said}{error}")
        return text, None if status == 0 else int(said.split()[2])

    def add(self, script, text):
        """Counts what a run did."""
        lines = [line.split() for line in text.splitlines()]
        self.lines += len(lines)
        self.changes += sum(a[0] != b[0] for a, b in zip(lines, lines[1:-1]))
        self.commands.update(line.split()[0] for line in script.splitlines() if not line.startswith("caller"))
        for words in lines:
            if words[2:3] == ["kept"]:
                self.reports.update({word: int(number) for word, number in zip(words[2::2], words[3::2])})

    def shrink(self, script):
        """A script that is judged to be no run and of which no line, and no run of lines, can be left out."""
        lines = script.splitlines()
        size = len(lines) // 2
        while size > 0:
            at, shorter = 0, False
            while at < len(lines):
                fewer = lines[:at] + lines[at + size:]
                if self.verdict("".join(line + "\n" for line in fewer))[1] is not None:
                    lines, shorter = fewer, True
                else:
                    at += size
            size = size if shorter and size == 1 else size // 2
        return "".join(line + "\n" for line in lines)

    def summary(self, done, seconds):
        print(f"{done} scripts, {seconds:.0f} s: {self.lines} lines judged, {self.changes} changes of caller")
        print("commands: " + ", ".join(f"{word} {count}" for word, count in sorted(self.commands.items())))
        print("collections: " + ", ".join(f"{word} {count}" for word, count in self.reports.items()))


def pairs(script, text):
    """Each printed line with its command, which the end line has not."""
    lists, caller = collections.defaultdict(list), "0"
    for line in script.splitlines():
        if line.startswith("caller "):
            caller = line.split()[1]
        else:
            lists[caller].append(line)
    for line in text.splitlines():
        words = line.split()
        yield "" if words[0] == "end" else lists[words[0]][int(words[1]) - 1], line


def found_as(script, text, wrong):
    """The line that is not right, with its command."""
    lines = list(pairs(script, text))
    command, line = lines[wrong - 1] if wrong <= len(lines) else ("", "")
    return f"line {wrong}: `{command}`, `{line}`" if line else "the program ends, or a line is missing"


def show(script, text, wrong):
    """Each printed line beside its command, up to the one that is not right."""
    for number, (command, line) in enumerate(list(pairs(script, text))[:wrong], 1):
        print(f"{command:24}{line}{'   <-- run no ' + str(wrong) if number == wrong else ''}")
