#!/usr/bin/env python3
"""size.py [--quick] LIBRARY..: what a host of the C library takes by its size, and how its calls take time by it.

Three tables: memory that is taken as it is used; instructions of calls (callgrind of some calls less none) in full tables of
the most blocks against full tables of 256; and collections beside much that is old. LIBRARY is what the program is linked with,
in this order: libhdt_c.a liblibc_c.a. With --quick each size is a hundredth, and nothing is asked. It needs cc and valgrind,
20 GB and half an hour. The status is 1 where more is taken than is asked."""
import argparse
import os
import re
import subprocess
import sys
import tempfile

HERE = os.path.dirname(os.path.abspath(__file__))
MOST_CELLS, MOST_BLOCKS, MOST_CONTEXTS = 1_073_741_824, 65_536, 65_536
FEW_BLOCKS = 256
TIMES = 2_000
# Calls with the most that a full table of the most blocks may take, as a multiple of one of 256.
CALLS = {"handle_get": 1.3, "handle_set": 1.3, "handle_free, _new": 1.3, "table_add, _remove": 1.3, "table_find": 1.3}
OF_CONTEXTS = {"table_find": 1.3}
MOST_OF_A_BLOCK = 2.0
MOST_YOUNG, MOST_FULL, MOST_PEAK = 20.0, 3.0, 2.6


class Table:
    """Rows that are printed as they come, and those that take more than is asked of them."""

    def __init__(self, titles, asks):
        self.asks, self.missed = asks, []
        print(f"\n| {' | '.join(titles)} |\n|{'---|' * len(titles)}")

    def row(self, name, *shown, found=None, asked=None):
        shown = [name, *shown, f"{asked:,}" if asked is not None else ""]
        print(f"| {' | '.join(shown)} |", flush=True)
        if self.asks and asked is not None and found > asked:
            self.missed.append(name)


def measured(program, *words):
    """The numbers that a program prints."""
    done = subprocess.run([program, *map(str, words)], capture_output=True, text=True)
    if done.returncode != 0:
        sys.exit(f"{' '.join(map(str, words))}: {done.stderr}")
    return [float(word) for word in done.stdout.split()]


def instructions(program, blocks, contexts, call, times=TIMES):
    """Instructions of a call in full tables."""
    counts = []
    for number in (0, times):
        words = ["valgrind", "--tool=callgrind", "--callgrind-out-file=/dev/null", program, "calls"]
        words += [str(word) for word in (blocks, contexts, call, number)]
        done = subprocess.run(words, capture_output=True, text=True)
        if done.returncode != 0:
            sys.exit(f"{call}: {done.stderr}")
        counts.append(int(re.search(r"Collected : (\d+)", done.stderr).group(1)))
    return (counts[1] - counts[0]) / times


def memory(program, part, asks):
    """Memory, as it is used."""
    table = Table(["what is taken", "", "asked at most"], asks)
    taken, time = measured(program, "open", MOST_CELLS, MOST_BLOCKS, 16)
    more, longer = measured(program, "open", MOST_CELLS, MOST_BLOCKS, MOST_CONTEXTS)
    contexts = MOST_CONTEXTS - 16
    table.row("`hdt_open` of the most, 16 contexts: bytes", f"{taken:,.0f}", found=taken, asked=4_000_000)
    table.row("its time, us", f"{time / 1e3:,.0f}", found=time / 1e3, asked=1_000)
    table.row("a further context: bytes", f"{(more - taken) / contexts:,.0f}", found=(more - taken) / contexts, asked=264)
    table.row("its time, ns", f"{(longer - time) / contexts:,.0f}", found=(longer - time) / contexts, asked=100)
    for count in (100_001, 131_073, 262_145, 1_000_000, 4_000_000):
        held, most, longest = measured(program, "table", count // part)
        table.row(f"{count // part:,} handles: bytes a handle", f"{held:,.1f}, {most:,.1f} at most", found=held,
                  asked=40 if count == 1_000_000 else 60)
        table.row("the longest call without a request, us", f"{longest / 1e3:,.0f}", found=longest / 1e3, asked=1_000)
    bytes_each, _, _ = measured(program, "objects", 1_000_000 // part)
    table.row("an object of two fields: bytes", f"{bytes_each:,.1f}", found=bytes_each, asked=48)
    return table.missed


def calls(program, part, asks):
    """Calls in full tables of the most blocks against 256."""
    most = MOST_BLOCKS // part
    table = Table(["call, instructions", f"{FEW_BLOCKS} blocks", f"{most:,} blocks", "times", "asked at most"], asks)
    loop = instructions(program, FEW_BLOCKS, 1, "none")
    rows = [(call, 1, asked) for call, asked in CALLS.items()]
    rows += [(call, MOST_CONTEXTS // part, asked) for call, asked in OF_CONTEXTS.items()]
    for call, contexts, asked in rows:
        few, many = (instructions(program, blocks, contexts, call) - loop for blocks in (FEW_BLOCKS, most))
        name = f"`{call}`" if contexts == 1 else f"`{call}`, keys of {contexts:,} contexts"
        table.row(name, f"{few:,.0f}", f"{many:,.0f}", f"{many / few:.2f}", found=many / few, asked=asked)
    # A block is freed and made with and without a trim between.
    few, many = (instructions(program, blocks, 1, "block, trim", 200) - instructions(program, blocks, 1, "block", 200)
                 for blocks in (FEW_BLOCKS, most))
    table.row("`trim` of a block, and `handle_new` that takes it", f"{few:,.0f}", f"{many:,.0f}", f"{many / few:.2f}",
              found=many / few, asked=MOST_OF_A_BLOCK)
    return table.missed


def collections(program, part, asks):
    """Collections beside much that is old, and of many objects."""
    table = Table(["collection", "few", "many", "times", "asked at most"], asks)
    alone, = measured(program, "young", 0, 0)
    for name, objects, keys in (("cells", 20_000_000, 0), ("keys and full tables", 0, 1_000_000)):
        beside, = measured(program, "young", objects // part, keys // part)
        what = f"{8 * objects // part:,} old cells" if objects else f"{keys // part:,} {name}"
        table.row(f"`collect 0` of one young object, us, beside {what}", f"{alone / 1e3:,.1f}", f"{beside / 1e3:,.1f}",
                  f"{beside / alone:.1f}", found=beside / alone, asked=MOST_YOUNG)
    _, few, _ = measured(program, "objects", 10_000)
    _, many, peak = measured(program, "objects", 20_000_000 // part)
    table.row("`collect 2`, ns an object, of 10,000 and of many", f"{few:,.0f}", f"{many:,.0f}", f"{many / few:.2f}",
              found=many / few, asked=MOST_FULL)
    table.row("its most memory, as a multiple of the cells", "", f"{peak:.2f}", "", found=peak, asked=MOST_PEAK)
    return table.missed


def main(options):
    part = 100 if options.quick else 1
    words = ["cc", "-O2", "-std=c11", "-Wall", "-Wextra", "-Werror", f"-I{HERE}/../crates/hdt_c",
             "-Wl,--wrap=malloc,--wrap=realloc,--wrap=free", f"{HERE}/size.c"]
    with tempfile.TemporaryDirectory() as folder:
        program = f"{folder}/size"
        subprocess.run([*words, *options.libraries, "-o", program], check=True)
        missed = [name for table in (memory, calls, collections) for name in table(program, part, not options.quick)]
    if missed:
        print(f"size.py: more than what is asked: {'; '.join(missed)}", file=sys.stderr)
    sys.exit(1 if missed else 0)


if __name__ == "__main__":
    WORDS = argparse.ArgumentParser(usage=__doc__)
    WORDS.add_argument("--quick", action="store_true")
    WORDS.add_argument("libraries", nargs="+")
    main(WORDS.parse_args())
