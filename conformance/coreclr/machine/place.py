"""Where things are: the repository, the program that `build` made, and hdt."""
import os
import subprocess
import sys

HERE = os.path.dirname(os.path.abspath(__file__))
SCRIPTS = os.path.dirname(HERE)
ROOT = os.path.dirname(os.path.dirname(SCRIPTS))
NOTE = os.path.join(HERE, "out", "folder")


def stop(why):
    print(f"{os.path.basename(sys.argv[0])}: {why}", file=sys.stderr)
    sys.exit(2)


def coreclr():
    """The program that `build` made last."""
    try:
        with open(NOTE) as note:
            program = os.path.join(note.read().strip(), "coreclr")
    except OSError:
        stop(f"there is no CoreCLR yet: run {os.path.relpath(os.path.join(HERE, 'build'))} FOLDER first")
    if not os.access(program, os.X_OK):
        stop(f"{program} is gone: run {os.path.relpath(os.path.join(HERE, 'build'))} FOLDER again")
    return program


def hdt(words):
    """The program to hold beside CoreCLR: the one given, or the repository's own."""
    program = words[0] if words else os.path.join(ROOT, "crates", "hdt", "out", "hdt")
    if not os.access(program, os.X_OK):
        stop(f"{program} is no program: give one, or run rt ci first")
    return os.path.abspath(program)


def run(words, text, seconds=None):
    """What a program writes to its two outputs, and its status."""
    done = subprocess.run(words, input=text.encode(), capture_output=True, timeout=seconds)
    return done.stdout.decode(errors="replace"), done.stderr.decode(errors="replace"), done.returncode
