#!/usr/bin/env python3
"""Times turns of threads at a gate and at std's mutex.

bench/gate.py [TURNS] wants the program at crates/gate_bench/out/gate_bench, which `rt run` in crates/gate_bench makes. For
1, 2, 4 and 16 threads it divides so many turns in all among them, and prints turns a second at each, by the least time of
five runs. In each turn a thread adds one entry to the list that all of them share."""
import os
import subprocess
import sys
import time

TOP = os.path.dirname(os.path.dirname(os.path.abspath(__file__)))
PROGRAM = os.path.join(TOP, "crates", "gate_bench", "out", "gate_bench")


def seconds(kind, threads, turns):
    """The least time of five runs in which each thread takes so many turns."""
    times = []
    for _ in range(5):
        start = time.perf_counter()
        subprocess.run([PROGRAM, kind, str(threads), str(turns)], stdout=subprocess.DEVNULL, check=True)
        times.append(time.perf_counter() - start)
    return min(times)


def main():
    turns = int(sys.argv[1]) if len(sys.argv) > 1 else 160_000
    print(f"{'threads':>8}{'at the gate':>14}{'at a mutex':>14}")
    for threads in (1, 2, 4, 16):
        each = turns // threads
        rates = [each * threads / seconds(kind, threads, each) for kind in ("gate", "mutex")]
        print(f"{threads:8}{rates[0]:14,.0f}{rates[1]:14,.0f}", flush=True)


if __name__ == "__main__":
    main()
