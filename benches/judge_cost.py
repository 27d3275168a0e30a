#!/usr/bin/env python3
"""What `audit` costs for bytes that are no script or no lines, up to the most that it reads, or for dear valid texts.

    judge_cost.py PROGRAM
    judge_cost.py PROGRAM LINES [SECONDS [NAME..]]

Seconds of the processor and the most memory in MiB of each, which is never below what Python has as it starts the program. With
LINES, dear valid texts of so many lines, up to 100,000: all, or those with a NAME in theirs. Their cost grows with the square of
the lines. Each is stopped after so many seconds of the processor, 900 where none are given."""
import os
import random
import resource
import subprocess
import sys
import tempfile

BYTES = 8_388_608
LINES = 100_000


def many(line):
    """So many lines that the bytes are as many as may be, after a script of one command."""
    head = b"new r0 0\n=\n"
    return head + line * ((BYTES - len(head)) // len(line))


def noise():
    """Bytes at random."""
    return random.Random(1).randbytes(BYTES)


def spoiled():
    """Bytes of no kind, and texts that go wrong at once or never begin."""
    yield "bytes at random", noise()
    yield "bytes at random, without an equals sign", noise().replace(b"=", b"-")
    yield "bytes at random after the line that divides", b"=\n" + noise()[2:]
    yield "one line of blanks", b" " * BYTES
    yield "empty lines", b"\n" * BYTES
    yield "words of one letter", b"a " * (BYTES // 2)
    yield "a number of that many digits", b"val r0 " + b"9" * (BYTES - 7)
    yield "a number that is 0", b"val r0 " + b"0" * (BYTES - 7)
    yield "a comment", b"#" * BYTES
    yield "callers alone", b"caller 15\n" * (BYTES // 10)
    yield "100,000 commands and no text", (b"new r0 0\n" * LINES + b"=\n")
    yield "lines of a text that are none", many(b"0 1 ob\n")
    yield "the first line again and again", many(b"0 1 obj 0.1\n")
    yield "a text that is one line", many(b"0")


# Dear valid texts: the commands, each with its reply where these are known, and else with those that `solo --slots` prints.

def kept_and_collected(lines):
    """In each four lines an object is made and kept in a chain, and all are collected."""
    for _ in range(lines // 4):
        yield from ("new r0 1", "set r0 0 r1", "copy r1 r0", "collect 2")


def kept_by_handles(lines):
    """In each three lines an object gets a handle, until the table is full, and all are collected."""
    for _ in range(lines // 3):
        yield from ("new r0 0", "hnew h0 strong r0", "collect 2")


def made_then_collected(lines):
    """Half of the lines, 32,000 at most, make objects with handles, which fill the table then, and the others collect."""
    made = min(lines // 4, 16000)
    for _ in range(made):
        yield from ("new r0 0", "hnew h0 strong r0")
    for _ in range(lines - 2 * made):
        yield "collect 2"


def chained_then_asked(lines):
    """Half of the lines make objects in a chain, and the others ask what keeps the last."""
    made = lines // 6
    yield from ("new r0 1", "sput 0 r0")
    for _ in range(made):
        yield from ("new r1 1", "set r0 0 r1", "copy r0 r1")
    for _ in range(lines - 3 * made - 2):
        yield "gcroot r0"


def queued(lines):
    """Objects, one a line, that fill the heap; the first collection queues all of them but the last, and nothing takes them."""
    made = lines // 2
    for number in range(1, made + 1):
        yield f"new r0 {min(1_000_000 // made - 3, 61)} fin", f"obj 0.{number}"
    yield "collect 2", f"kept {made} removed 0 short 0 long 0 dep 0 revived {made - 1}"


def queued_then_collected(lines):
    """Half of the lines make objects that the queue keeps, and the others collect."""
    yield from queued(lines)
    made = lines // 2
    for _ in range(lines - made - 1):
        yield "collect 2", f"kept {made} removed 0 short 0 long 0 dep 0 revived 0"


def queued_then_asked(lines):
    """Half of the lines make objects that the queue keeps, and the others ask what keeps one more, which nothing does."""
    yield from queued(lines)
    for _ in range(lines - lines // 2 - 1):
        yield "gcroot r0", "unrooted"


DEAR = (kept_and_collected, kept_by_handles, made_then_collected, chained_then_asked, queued_then_asked, queued_then_collected)


def text_of(program, lines):
    """The script and the text of lines: what `solo --slots` prints, or the replies that they have."""
    lines = list(lines)
    if isinstance(lines[0], str):
        script = "".join(line + "\n" for line in lines).encode()
        return script, subprocess.run([program, "solo", "--slots"], input=script, capture_output=True, check=True).stdout
    script = "".join(command + "\n" for command, _ in lines)
    text = "".join(f"0 {number} {reply}\n" for number, (_, reply) in enumerate(lines, 1))
    objects, collections = (sum(command.startswith(word) for command, _ in lines) for word in ("new", "collect"))
    return script.encode(), f"{text}end handles 0 objects {objects} collections {collections}\n".encode()


def measured(words, given, limit):
    """Status, first line, seconds of the processor and the most memory in MiB. It is stopped after `limit` of these seconds."""
    with tempfile.TemporaryFile() as source:
        source.write(given)
        source.seek(0)
        child = subprocess.Popen(words, stdin=source, stdout=subprocess.PIPE,
                                 preexec_fn=lambda: resource.setrlimit(resource.RLIMIT_CPU, (limit, limit + 1)))
        said = child.stdout.read(60).decode(errors="replace").split("\n")[0]
        _, status, usage = os.wait4(child.pid, 0)
        child.returncode = os.waitstatus_to_exitcode(status)
        if child.returncode < 0:
            said = f"stopped after {limit} s"
        return child.returncode, said, usage.ru_utime + usage.ru_stime, usage.ru_maxrss / 1024


def spoiled_texts(program):
    for name, given in spoiled():
        status, said, seconds, memory = measured([program, "audit"], given[:BYTES], 120)
        print(f"| {name} | {len(given[:BYTES]):,} | {said} | {seconds:.2f} | {memory:.0f} |", flush=True)
        if status < 0 or seconds > 60 or memory > 1024:
            sys.exit(f"{name}: over a minute or 1 GiB")


def dear_texts(program, lines, limit, names):
    for make in DEAR:
        if names and not any(name in make.__name__ for name in names):
            continue
        script, text = text_of(program, make(lines))
        _, said, seconds, memory = measured([program, "audit"], script + b"=\n" + text, limit)
        end = text.decode().splitlines()[-1]
        print(f"| {make.__name__} ({end}) | {len(script + text):,} | {said} | {seconds:.0f} | {memory:.0f} |", flush=True)


def main(words):
    if not words or not all(word.isdigit() for word in words[1:3]):
        sys.exit(__doc__)
    if words[1:]:
        dear_texts(words[0], int(words[1]), int(words[2]) if words[2:] else 900, words[3:])
    else:
        spoiled_texts(words[0])


if __name__ == "__main__":
    main(sys.argv[1:])
