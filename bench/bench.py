#!/usr/bin/env python3
"""Makes large inputs for the built program and times it on them.

bench/bench.py [NAME..] runs the named cases, or all, `soak` among them, whose script the program makes itself. It wants
the program at crates/autozone/out/autozone, which ./autozone builds, and prints a row for each case: the input's bytes and
lines, the least processor time of five runs, and the most memory that a run took. With --count before the names it prints
how many instructions the whole program takes, in all and a line, as valgrind counts them."""
import os
import re
import subprocess
import sys
import tempfile

TOP = os.path.dirname(os.path.dirname(os.path.abspath(__file__)))
PROGRAM = os.path.join(TOP, "crates", "autozone", "out", "autozone")
MOST_LINES = 65_536
MOST_BYTES = 4_194_304
MOST_WORDS = 4_096


def births():
    """As many new blocks as a script has lines."""
    return "1 new r0 scanned 2\n" * MOST_LINES


def long_lines():
    """The largest script: calls with blanks up to the limits of bytes and lines."""
    line = "1 new r0 scanned 2" + " " * (MOST_BYTES // MOST_LINES - 19) + "\n"
    return line * MOST_LINES


def comments():
    """Comments and blanks as long as a line may be, up to the limit of bytes."""
    lines = "#" + "x" * 8191 + "\n" + " " * 8192 + "\n"
    return lines * (MOST_BYTES // len(lines))


def large_blocks():
    """The largest blocks until the zone is full, and refusals after that."""
    return "1 new r0 scanned 4096\n" * 1000


def statistics():
    """Statistics of a zone of 5,000 escaped blocks."""
    return "option local 0\n" + "1 new r0 scanned 1\n" * 5000 + "1 stats\n" * 60_000


def chain():
    """20,000 blocks, each with a reference to the one before, which one call makes escape."""
    return "1 new r1 scanned 1\n1 store r1 0 r0\n1 copy r0 r1\n" * 20_000 + "1 setroot g0 r0\n"


def stores():
    """Stores between two of 5,000 escaped blocks."""
    return "option local 0\n" + "1 new r0 scanned 1\n" * 5000 + "1 new r1 scanned 1\n" + "1 store r0 0 r1\n" * 60_000


def retains():
    """Counts of 10,000 blocks: each is made and retained, and then 9,000 of them are taken in no order, and their counts
    fall to 0 and rise again: 46,000 retains and releases."""
    made = "1 new r0 scanned 0\n1 retain r0\n" * 10_000
    visit = "1 take r1 1.{}\n1 release r1\n1 retain r1\n1 retain r1\n1 release r1\n"
    return made + "".join(visit.format(n * 7919 % 10_000) for n in range(9_000))


def associations():
    """54,000 pairs of 10,000 objects. The objects are made fifteen at a time, and get their pairs by turns, in no order
    of their keys."""
    made = "".join(f"1 new r{object} scanned 0\n" for object in range(15))
    pairs = (f"1 setassoc r{n % 15} k{n * 97 % 256} r15\n" for n in range(81))
    return "1 new r15 scanned 0\n" + (made + "".join(pairs)) * 667


def keys():
    """60,000 calls on the 256 keys of one object: values are set, read, and taken away by null."""
    calls = (
        f"1 setassoc r0 k{n * 97 % 256} r{1 if n % 3 else 2}\n1 getassoc r3 r0 k{n * 89 % 256}\n" for n in range(30_000)
    )
    return "1 new r0 scanned 0\n1 new r1 scanned 0\n" + "".join(calls)


def weak_moves():
    """28,672 weak locations, the words of seven blocks, that all show one block, and are moved to another one by one in no
    order."""
    made = "".join(f"1 new r{block} object {'W' * MOST_WORDS}\n" for block in range(7))
    count = 7 * MOST_WORDS
    shown = (f"1 setweak r{n // MOST_WORDS} {n % MOST_WORDS} r7\n" for n in range(count))
    order = (n * 9973 % count for n in range(count))
    moved = (f"1 setweak r{n // MOST_WORDS} {n % MOST_WORDS} r8\n" for n in order)
    return made + "1 new r7 scanned 0\n1 new r8 scanned 0\n" + "".join(shown) + "".join(moved)


def weak_reads():
    """60,000 reads in no order of 4,096 weak locations, which show two blocks by turns."""
    made = f"1 new r0 object {'W' * MOST_WORDS}\n1 new r1 scanned 0\n1 new r2 scanned 0\n"
    shown = (f"1 setweak r0 {n} r{1 + n % 2}\n" for n in range(MOST_WORDS))
    read = (f"1 readweak r3 r0 {n * 2503 % MOST_WORDS}\n" for n in range(60_000))
    return made + "".join(shown) + "".join(read)


def turns():
    """Sixteen threads by turns, each line of each thread in its turn: calls on what the thread alone knows, of which every
    eighth call publishes the seven before it. A half of the blocks escapes, and the others are collected locally."""
    calls = (
        "new r0 scanned 1",
        "new r1 scanned 1",
        "store r0 0 r1",
        "load r2 r0 0",
        "copy r3 r2",
        "drop r0",
        "collect local",
        "setroot g{thread} r1",
    )
    threads = range(1, 17)
    lines = (f"{thread} {calls[n % 8]}\n".format(thread=thread) for n in range(MOST_LINES // 16) for thread in threads)
    return "".join(lines)


def holders():
    """A thread that holds 10,000 escaped blocks in words of three unescaped ones, and publishes 20,000 times, every second
    time a local call, too."""
    made = "".join(f"1 new r{1 + block} scanned {MOST_WORDS}\n" for block in range(3))
    held = (f"1 new r0 scanned 0\n1 setroot g0 r0\n1 store r{1 + n // MOST_WORDS} {n % MOST_WORDS} r0\n" for n in range(10_000))
    return made + "".join(held) + "1 copy r4 r0\n1 stats\n1 stats\n" * 10_000


def tree(depth, at):
    """A binary tree of this depth that a register gets, and registers behind it on the way."""
    birth = f"1 new r{at} scanned 2\n"
    if depth == 0:
        return birth
    stored = f"1 store r{at} 0 r{at + 1}\n1 store r{at} 1 r{at + 2}\n"
    return tree(depth - 1, at + 1) + tree(depth - 1, at + 2) + birth + stored


def trees():
    """128 trees of 255 blocks, each put into one of 64 roots, and a full collection after every eighth tree. From the 64th
    tree on a collection takes eight trees, and what is left is 16,320 blocks, and what registers hold."""
    lines = []
    for n in range(128):
        lines.append(tree(7, 0))
        lines.append(f"1 setroot g{n % 64} r0\n")
        if n % 8 == 7:
            lines.append("1 collect full\n")
    return "".join(lines)


def weak_ends():
    """26,000 weak locations, the words of seven blocks, each with a block of its own to show, of which every other is
    retained; and a full collection after every 1,000, which takes 500 blocks and makes as many locations null."""
    lines = [f"1 new r{1 + block} object {'W' * MOST_WORDS}\n" for block in range(7)]
    for n in range(26_000):
        lines.append(f"1 new r0 scanned 0\n1 setweak r{1 + n // MOST_WORDS} {n % MOST_WORDS} r0\n")
        lines.append("1 retain r0\n" if n % 2 else "")
        lines.append("1 drop r0\n1 collect full\n" if n % 1_000 == 999 else "")
    return "".join(lines)


def finalisers():
    """A chain of 20,000 blocks with finalisers, which all put their block into one root: a full collection runs them all and
    keeps all blocks, and when the root is empty again a second one takes them."""
    made = "1 new r1 object S keep g0\n1 store r1 0 r0\n1 copy r0 r1\n" * 20_000
    return made + "1 drop r0\n1 drop r1\n1 collect full\n1 setroot g0 r0\n1 collect full\n"


def generations():
    """1,000 young collections beside a chain of 20,000 old blocks. Each but the first takes the block that a root held before."""
    old = "1 new r1 scanned 1\n1 store r1 0 r0\n1 copy r0 r1\n" * 20_000 + "1 setroot g0 r0\n" + "1 collect full\n" * 3
    return old + "1 new r0 scanned 0\n1 setroot g1 r0\n1 collect young\n" * 1_000


CASES = {
    case.__name__: case
    for case in (
        births,
        long_lines,
        comments,
        large_blocks,
        statistics,
        chain,
        stores,
        retains,
        associations,
        keys,
        weak_moves,
        weak_reads,
        turns,
        holders,
        trees,
        weak_ends,
        finalisers,
        generations,
    )
}


def run(words, given):
    """The least processor time of five runs in seconds, and the most memory in megabytes."""
    times = []
    memory = 0
    for _ in range(5):
        given.seek(0)
        child = subprocess.Popen([PROGRAM, *words], stdin=given, stdout=subprocess.DEVNULL)
        _, status, usage = os.wait4(child.pid, 0)
        if status != 0:
            sys.exit(f"the program ended with status {status}")
        times.append(usage.ru_utime + usage.ru_stime)
        memory = max(memory, usage.ru_maxrss / 1024)
    return f"{min(times):10.3f}{memory:10.1f}"


def count(words, given, lines):
    """The instructions of a run, and those a line."""
    given.seek(0)
    command = ["valgrind", "--tool=callgrind", "--callgrind-out-file=/dev/null", PROGRAM, *words]
    child = subprocess.run(command, stdin=given, stdout=subprocess.DEVNULL, stderr=subprocess.PIPE, check=True)
    counted = int(re.search(rb"Collected : (\d+)", child.stderr).group(1))
    return f"{counted:16,}{counted / lines:10,.0f}"


def main():
    counts = sys.argv[1:2] == ["--count"]
    names = sys.argv[2 if counts else 1 :] or [*CASES, "soak"]
    print("load", os.getloadavg())
    print(f"{'case':14}{'bytes':>10}{'lines':>8}" + (f"{'instructions':>16}{'a line':>10}" if counts else f"{'seconds':>10}{'most MB':>10}"))
    for name in names:
        words, script = (["soak", "7", str(MOST_LINES)], "") if name == "soak" else (["play"], CASES[name]())
        lines = MOST_LINES if name == "soak" else script.count("\n")
        with tempfile.TemporaryFile("w+") as given:
            given.write(script)
            given.flush()
            row = count(words, given, lines) if counts else run(words, given)
        print(f"{name:14}{len(script):10}{lines:8}{row}", flush=True)
    print("load", os.getloadavg())


if __name__ == "__main__":
    main()
