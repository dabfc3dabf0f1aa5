#!/usr/bin/env python3
"""Times the reading and the writing of texts of histories, and counts their instructions.

bench/histories.py [NAME..] wants the program at crates/history_bench/out/history_bench, which `rt run` in
crates/history_bench makes. For each named case, or all, it prints the entries and bytes of a text, the instructions of
reading it and of writing it, by valgrind's callgrind where that is there, and the least time of five runs of the whole
program, which takes the text, reads it and writes it. The instructions of a part are those of the program with it less
those of the program without it."""
import os
import re
import shutil
import subprocess
import sys
import tempfile
import time

TOP = os.path.dirname(os.path.dirname(os.path.abspath(__file__)))
PROGRAM = os.path.join(TOP, "crates", "history_bench", "out", "history_bench")
END = "end entries {} blocks 1 quanta 1 retained 0 weak 0 assocs 0\n"


def text(*groups):
    """The text with these groups of entries: a group is one line or more, and how often it comes."""
    entries = sum(lines.count("\n") * times for lines, times in groups)
    return "".join(lines * times for lines, times in groups) + END.format(entries), entries


def stores(entries):
    return text(("1 store r0 0 r1 = ok\n", entries))


def statistics(entries):
    return text(("1 stats = blocks 5000 quanta 5000 retained 0 weak 0 assocs 0\n", entries))


def births(entries):
    return text(("1 new r0 object SSWP = 1.1234567\n", entries))


def lists(ids):
    """Entries with 1,000 ids each."""
    reply = " ".join(f"1.{serial}" for serial in range(1000, 2000))
    return text((f"1 leave = reclaimed {reply}\n", ids // 1000))


CASES = {
    "stores": lambda: stores(60_000),
    "statistics": lambda: statistics(60_000),
    "births": lambda: births(60_000),
    "lists": lambda: lists(200_000),
    "births, 15 MB": lambda: births(450_000),
    "births, 30 MB": lambda: births(900_000),
    "births, 60 MB": lambda: births(1_800_000),
    "lists, 60 MB": lambda: lists(8_500_000),
}


def seconds(path):
    times = []
    for _ in range(5):
        with open(path, "rb") as source:
            start = time.perf_counter()
            subprocess.run([PROGRAM, "both"], stdin=source, stdout=subprocess.DEVNULL, check=True)
            times.append(time.perf_counter() - start)
    return min(times)


def instructions(part, path):
    if shutil.which("valgrind") is None:
        return None
    command = ["valgrind", "--tool=callgrind", "--callgrind-out-file=/dev/null", PROGRAM, part]
    with open(path, "rb") as source:
        run = subprocess.run(command, stdin=source, capture_output=True, text=True, check=True)
    return int(re.search(r"Collected : (\d+)", run.stderr).group(1))


def row(name, content, entries, path):
    taken, read, both = (instructions(part, path) for part in ("bytes", "read", "both"))
    steps = ("-", "-") if taken is None else (f"{read - taken:,}", f"{both - read:,}")
    print(f"{name:15}{entries:>11,}{len(content):>13,}{steps[0]:>17}{steps[1]:>17}{seconds(path):>9.3f}", flush=True)


def main():
    names = sys.argv[1:] or list(CASES)
    print(f"{'case':15}{'entries':>11}{'bytes':>13}{'read, steps':>17}{'write, steps':>17}{'seconds':>9}")
    for name in names:
        content, entries = CASES[name]()
        with tempfile.NamedTemporaryFile("w", suffix=".history") as file:
            file.write(content)
            file.flush()
            row(name, content, entries, file.name)


if __name__ == "__main__":
    main()
