#!/usr/bin/env python3
"""Times a full heap and a collection of it, step by step, and tells how much memory that takes.

bench/heap.py wants the program at crates/heap_bench/out/heap_bench, which `rt run` in crates/heap_bench makes. A heap of as
many blocks of two words as fit is filled, and a full cycle goes on from begin to reclaim; every other block is reached. It
prints what each step adds to the least processor time of five runs, and the most memory of the runs that end with it. Then
it looks for the least address space, in megabytes, in which the run does all that."""
import os
import resource
import subprocess
import sys

TOP = os.path.dirname(os.path.dirname(os.path.abspath(__file__)))
PROGRAM = os.path.join(TOP, "crates", "heap_bench", "out", "heap_bench")
BLOCKS = 1_048_576
WORDS = 2
RUNS = 5
STEPS = ("fill", "begin", "mark", "condemn", "reclaim")
MEGABYTE = 1_000_000


def run(end, limit=None):
    """What the program writes, the processor time in seconds, and the most memory in megabytes."""
    limited = None if limit is None else lambda: resource.setrlimit(resource.RLIMIT_AS, (limit, limit))
    child = subprocess.Popen([PROGRAM], stdin=subprocess.PIPE, stdout=subprocess.PIPE, stderr=subprocess.DEVNULL, preexec_fn=limited)
    with child.stdin, child.stdout:
        child.stdin.write(f"{BLOCKS} {WORDS} {end}\n".encode())
        child.stdin.close()
        out = child.stdout.read().decode()
        _, _, usage = os.wait4(child.pid, 0)
    return out, usage.ru_utime + usage.ru_stime, usage.ru_maxrss * 1024 / MEGABYTE


def least_space():
    """The least address space in megabytes in which a cycle over a full heap comes to its end."""
    wanted = run(STEPS[-1])[0]
    low, high = 0, 4_096
    while high - low > 1:
        middle = (low + high) // 2
        if run(STEPS[-1], middle * MEGABYTE)[0] == wanted:
            high = middle
        else:
            low = middle
    return high


def main():
    print("load", os.getloadavg())
    print(f"{'step':>8}{'seconds':>10}{'most MB':>10}  at its end")
    before = 0.0
    for step in STEPS:
        rows = [run(step) for _ in range(RUNS)]
        seconds = min(row[1] for row in rows)
        print(f"{step:>8}{seconds - before:10.3f}{max(row[2] for row in rows):10.1f}  {rows[0][0].strip()}", flush=True)
        before = seconds
    print("least address space, MB", least_space())
    print("load", os.getloadavg())


if __name__ == "__main__":
    sys.exit(main())
