#!/usr/bin/env python3
"""Times the placing and freeing of blocks in a space.

bench/space.py wants the program at crates/space_bench/out/space_bench, which `rt run` in crates/space_bench makes. For
several numbers of blocks it prints the processor time of filling a space, of freeing every other block and filling it again
(the mean of eight rounds), and of making all blocks white and one older (the mean of a hundred walks): each the least of five
runs, less what the run without that part takes, and the same in microseconds a block that is placed."""
import os
import resource
import subprocess
import sys

TOP = os.path.dirname(os.path.dirname(os.path.abspath(__file__)))
PROGRAM = os.path.join(TOP, "crates", "space_bench", "out", "space_bench")
RUNS = 5
ROUNDS = 8
WALKS = 100


def seconds(*numbers):
    """The least processor time of five runs on a line of these numbers."""
    line = (" ".join(map(str, numbers)) + "\n").encode()
    times = []
    for _ in range(RUNS):
        before = resource.getrusage(resource.RUSAGE_CHILDREN)
        subprocess.run([PROGRAM], input=line, stdout=subprocess.DEVNULL, check=True)
        after = resource.getrusage(resource.RUSAGE_CHILDREN)
        times.append(after.ru_utime + after.ru_stime - before.ru_utime - before.ru_stime)
    return min(times)


def main():
    print(f"{'blocks':>10}{'words':>7}{'fill, s':>10}{'us each':>9}{'again, s':>10}{'us each':>9}{'walk, ms':>10}")
    for words, counts in ((2, (125_000, 250_000, 500_000, 1_000_000, 2_000_000)), (5, (250_000, 1_000_000)), (65, (10_000, 40_000))):
        for blocks in counts:
            nothing = seconds(0, words, 0, 0)
            filled = seconds(blocks, words, 0, 0)
            again = seconds(blocks, words, ROUNDS, 0)
            walked = seconds(blocks, words, 0, WALKS)
            fill = filled - nothing
            refill = (again - filled) / ROUNDS
            walk = (walked - filled) / WALKS
            print(f"{blocks:10}{words:7}{fill:10.3f}{fill / blocks * 1e6:9.3f}{refill:10.3f}{refill / (blocks / 2) * 1e6:9.3f}{walk * 1e3:10.2f}", flush=True)


if __name__ == "__main__":
    sys.exit(main())
