#!/usr/bin/env python3
"""Times marking over the tables of a heap, and over blocks in a space, beside a plain collector in Rust that keeps its
blocks in lists by serial.

bench/marks.py wants the program at crates/mark_bench/out/mark_bench, which `rt run` in crates/mark_bench makes, and rustc.
All are compiled for the same processor, and mark the same graphs of blocks of two words, in turns: each runs three times
for a second of processor time. It prints how many million blocks a second each marks, how many times the plain
one's rate that is over a space and over the tables, and what a begin and a finish take over the tables and over a space: of
each run the least time of a pass, and of these the middle one. The least of all would be wrong by far where the clock of a
machine under load has jumped once."""
import os
import subprocess
import sys
import tempfile
from statistics import median

TOP = os.path.dirname(os.path.dirname(os.path.abspath(__file__)))
PROGRAM = os.path.join(TOP, "crates", "mark_bench", "out", "mark_bench")
ROUNDS = 3
MILLIS = 1_000


def times(command, line):
    """The blocks that were marked, and the least times of a begin, of marking, and of a finish."""
    out = subprocess.run([command], input=f"{line} {MILLIS}\n".encode(), stdout=subprocess.PIPE, check=True).stdout
    return [int(word) for word in out.split()]


def middle(rows):
    """The blocks that were marked, which each run has to agree on, and the middle one of each time."""
    assert all(row[0] == rows[0][0] for row in rows)
    return [rows[0][0]] + [median(row[n] for row in rows) for n in range(1, len(rows[0]))]


def main():
    print("load", os.getloadavg())
    print(f"{'graph':>8}{'blocks':>10}{'heap, M/s':>11}{'space, M/s':>12}{'plain, M/s':>12}{'ratios':>12}{'begins, ms':>14}{'finishes, ms':>14}")
    with tempfile.TemporaryDirectory() as folder:
        plain = os.path.join(folder, "plain_marks")
        source = os.path.join(TOP, "bench", "plain_marks.rs")
        command = ["rustc", "--edition=2021", "-C", "opt-level=3", "-C", "target-cpu=x86-64-v2", "-o", plain, source]
        subprocess.run(command, check=True)
        for graph in ("trees", "chain", "random"):
            for count in (10_000, 100_000, 1_000_000):
                line = f"{graph} {count}"
                turns = [(times(PROGRAM, "heap " + line), times(PROGRAM, "space " + line), times(plain, line)) for _ in range(ROUNDS)]
                heap, space, other = (middle(rows) for rows in zip(*turns))
                assert heap[0] == space[0] == other[0]
                rates = [marked[0] * 1e3 / marked[2] for marked in (heap, space, other)]
                ratios = f"{rates[0] / rates[2]:.2f} {rates[1] / rates[2]:.2f}"
                begins = f"{heap[1] / 1e6:.2f} {space[1] / 1e6:.2f}"
                finishes = f"{heap[3] / 1e6:.2f} {space[3] / 1e6:.2f}"
                print(f"{graph:>8}{count:10}{rates[0]:11.1f}{rates[1]:12.1f}{rates[2]:12.1f}{ratios:>12}{begins:>14}{finishes:>14}", flush=True)
    print("load", os.getloadavg())


if __name__ == "__main__":
    sys.exit(main())
