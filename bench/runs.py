#!/usr/bin/env python3
"""Times `run` beside `play` on scripts of 1, 2 and 4 threads.

bench/runs.py [PROGRAM [ROUNDS]] wants the program at crates/autozone/out/autozone, which ./autozone builds, or PROGRAM.
Each script has the same work in all, shared out among its threads. Both commands take turns, ROUNDS times each, or fifteen
times; a row has the least time that passed and the least processor time of each. For scripts with collections it also has
how many of them found another one open in the runs, on average: those do no work."""
import os
import resource
import subprocess
import sys
import tempfile
import time

TOP = os.path.dirname(os.path.dirname(os.path.abspath(__file__)))
PROGRAM = os.path.join(TOP, "crates", "autozone", "out", "autozone")


def chain(thread, blocks):
    """A chain of so many blocks in r0, each with a reference to the one before."""
    return f"{thread} new r1 scanned 1\n{thread} store r1 0 r0\n{thread} copy r0 r1\n" * blocks


def stores(threads):
    """60,000 stores into blocks that their threads alone know."""
    lines = (f"{t} new r0 scanned 1\n" + f"{t} store r0 0 r0\n" * (60_000 // threads) for t in range(1, threads + 1))
    return "".join(lines)


def private(threads):
    """2,400 local collections, each over 4,000 blocks that a thread alone knows."""
    lines = (chain(t, 4_000) + f"{t} collect local\n" * (2_400 // threads) for t in range(1, threads + 1))
    return "".join(lines)


def shared(threads):
    """60,000 calls on roots, none of them local."""
    lines = (
        f"{t} new r0 scanned 0\n" + f"{t} setroot g{t} r0\n{t} getroot r1 g0\n" * (30_000 // threads)
        for t in range(1, threads + 1)
    )
    return "".join(lines)


def mixed(threads):
    """60,000 calls, of which every eighth is shared and publishes the seven before it."""
    calls = "{0} new r0 scanned 1\n" + "{0} store r0 0 r0\n{0} copy r1 r0\n" * 3 + "{0} setroot g{0} r0\n"
    return "".join(calls.format(t) * (7_500 // threads) for t in range(1, threads + 1))


def collections(threads):
    """400 full collections, with 50 shared calls between two of a thread, over chains of 4,000 escaped blocks in all."""
    calls = "{0} collect full\n" + "{0} getroot r2 g0\n" * 50
    lines = (
        chain(t, 4_000 // threads) + f"{t} setroot g{t} r0\n" + calls.format(t) * (400 // threads)
        for t in range(1, threads + 1)
    )
    return "".join(lines)


def timed(program, command, path):
    """The time that passed, the processor time, and how many collections found another one open."""
    with open(path) as source, tempfile.TemporaryFile() as out:
        before = resource.getrusage(resource.RUSAGE_CHILDREN)
        start = time.perf_counter()
        done = subprocess.run([program, command], stdin=source, stdout=out)
        passed = time.perf_counter() - start
        after = resource.getrusage(resource.RUSAGE_CHILDREN)
        if done.returncode != 0:
            sys.exit(f"the program ended with status {done.returncode}")
        out.seek(0)
        busy = out.read().count(b"= busy\n")
    processor = after.ru_utime + after.ru_stime - before.ru_utime - before.ru_stime
    return passed, processor, busy


def main():
    program = sys.argv[1] if len(sys.argv) > 1 else PROGRAM
    rounds = int(sys.argv[2]) if len(sys.argv) > 2 else 15
    print(f"{os.cpu_count()} processors, load {os.getloadavg()[0]:.1f}")
    print(f"{'case':12}{'threads':>8}{'play':>9}{'run':>9}{'play cpu':>10}{'run cpu':>10}{'busy':>8}")
    for case in (stores, private, shared, mixed, collections):
        for threads in (1, 2, 4):
            with tempfile.NamedTemporaryFile("w") as given:
                given.write(case(threads))
                given.flush()
                played, ran = [], []
                for _ in range(rounds):
                    played.append(timed(program, "play", given.name))
                    ran.append(timed(program, "run", given.name))
            least = [min(row[column] for row in rows) for column in (0, 1) for rows in (played, ran)]
            busy = sum(row[2] for row in ran) / rounds
            times = "".join(f"{seconds:{width}.3f}" for seconds, width in zip(least, (9, 9, 10, 10)))
            print(f"{case.__name__:12}{threads:8}{times}{busy:8.1f}", flush=True)
    print(f"load {os.getloadavg()[0]:.1f}")


if __name__ == "__main__":
    main()
