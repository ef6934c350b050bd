#!/usr/bin/env python3
"""Time for each cell of a value, and for each comparison of a guard; and the allocations of both.

    bench/terms.py PROGRAM [PROGRAM ..]

PROGRAM is the built program crates/term_probe/out/term_probe. Several programs, as one that was built before a
change and one that was built after it, are measured in turn, each size by each of them before the next size.
Each size is evaluated in many turns and in one turn, and the difference of the times is shared out over the
cells or comparisons of the turns between. Each command runs five times, the programs taking turns, and the
fastest counts. What counts is processor time, so that other work of the machine counts little. Between two
turns of a guard the program pauses for some tens of nanoseconds, which are counted with them. Shown are
nanoseconds; where they stay alike as the size grows, the time is in proportion to it. `pair` is the sum of a
variable and the colour behind it, over a circle of so many colours: two cells.

Where `valgrind` is there, it counts each program's allocations with a guard and with a pair, that are
evaluated once and a thousand times: where the counts are the same, no turn takes memory.
"""
import os
import re
import shutil
import subprocess
import sys

WORK = 1 << 24
SIZES = {"all": [1 << 10, 1 << 15, 1 << 20], "sum": [10, 100, 1_000], "pair": [3, 1_000], "guard": [10, 100, 1_000]}
RUNS = 5


def parts(what, size):
    """How many cells or comparisons one turn makes."""
    return 2 if what == "pair" else size


def run(words):
    """Output, and processor seconds."""
    child = subprocess.Popen(words, stdout=subprocess.PIPE, stderr=subprocess.STDOUT)
    output = child.stdout.read()
    _, _, used = os.wait4(child.pid, 0)
    return output, used.ru_utime + used.ru_stime


def nanoseconds(programs, what, size):
    """For each program the nanoseconds of a cell or a comparison."""
    turns = max(2, WORK // parts(what, size))
    best = {}
    for _ in range(RUNS):
        for program in programs:
            for count in (1, turns):
                output, seconds = run([program, what, str(size), str(count)])
                if output != b"%d\n" % (parts(what, size) * count):
                    print(f"{program} {what} {size}: {output[:100]!r}")
                    sys.exit(1)
                best[program, count] = min(seconds, best.get((program, count), seconds))
    made = parts(what, size) * (turns - 1)
    return [(best[program, turns] - best[program, 1]) / made * 1e9 for program in programs]


def allocations(program, what, size, turns):
    """How many allocations a program makes, in so many turns."""
    words = ["valgrind", program, what, str(size), str(turns)]
    report = subprocess.run(words, stdout=subprocess.PIPE, stderr=subprocess.STDOUT, check=False).stdout
    found = re.search(rb"total heap usage: ([0-9,]+) allocs", report)
    return found.group(1).decode() if found else "not counted"


def main():
    programs = [os.path.abspath(program) for program in sys.argv[1:]]
    for number, program in enumerate(programs, 1):
        print(f"program {number}: {program}")
    print("what       size  nanoseconds each, by each program in turn")
    for what, sizes in SIZES.items():
        for size in sizes:
            shown = "".join(f"  {each:8.1f}" for each in nanoseconds(programs, what, size))
            print(f"{what:6s}  {size:8d}{shown}", flush=True)
    if shutil.which("valgrind"):
        for what, size in (("guard", 1_000), ("pair", 1_000)):
            for number, program in enumerate(programs, 1):
                once, often = (allocations(program, what, size, turns) for turns in (1, 1_000))
                print(f"allocations of program {number} with a {what}, in 1 turn {once}, in 1,000 turns {often}")


if __name__ == "__main__":
    main()
