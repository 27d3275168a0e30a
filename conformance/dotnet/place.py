"""Where things are: what `build` made, and hdt."""
import os
import subprocess
import sys

HERE = os.path.dirname(os.path.abspath(__file__))
ROOT = os.path.dirname(os.path.dirname(HERE))
SOURCE = os.path.join(HERE, "Machine.cs")
BUILT = os.path.join(HERE, "out")
MACHINE = os.path.join(BUILT, "machine")


def stop(why):
    print(f"{os.path.basename(sys.argv[0])}: {why}", file=sys.stderr)
    sys.exit(2)


def hdt(words):
    """The judge: the program given, or the repository's own."""
    program = words[0] if words else os.path.join(ROOT, "crates", "hdt", "out", "hdt")
    if not os.access(program, os.X_OK):
        stop(f"{program} is no program: give one, or run rt ci first")
    return os.path.abspath(program)


def run(words, text):
    """What a program writes to its two outputs, and its status."""
    done = subprocess.run(words, input=text.encode(), capture_output=True, check=False)
    return done.stdout.decode(errors="replace"), done.stderr.decode(errors="replace"), done.returncode
