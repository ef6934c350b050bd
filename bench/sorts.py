#!/usr/bin/env python3
"""Time and memory for building named sorts.

    bench/sorts.py PROGRAM

PROGRAM is the built program crates/sort_probe/out/sort_probe. It builds named sorts as they stand in net
files of 1, 8 and 60 MiB, 125 bytes each: a chain in which each stands for the next, a circle beside a chain
that ends in a name that isn't declared, and names of one product of 4,095 dots. Each command runs three
times, and the fastest counts. Where seconds and memory grow by 8 and by 7.5 from one size to the next, they
are in proportion to the file.
"""
import os
import resource
import subprocess
import sys
import time

SIZES = {1: 8_388, 8: 67_108, 60: 503_316}
EXPECTED = {"chain": lambda count: count, "circle": lambda count: 0, "aliases": lambda count: count}


def run(words):
    """Output, fastest seconds of three runs, and the most memory of one in MiB."""
    best, most, output = 1e9, 0, b""
    for _ in range(3):
        started = time.monotonic()
        child = subprocess.Popen(words, stdout=subprocess.PIPE, stderr=subprocess.STDOUT)
        output = child.stdout.read()
        _, _, used = os.wait4(child.pid, 0)
        best = min(best, time.monotonic() - started)
        most = max(most, used.ru_maxrss)
    return output, best, most / 1024


def main():
    resource.setrlimit(resource.RLIMIT_AS, (8 << 30, 8 << 30))
    program = os.path.abspath(sys.argv[1])
    print("what      MiB     sorts   seconds  MiB of memory")
    for what, expected in EXPECTED.items():
        for size, count in SIZES.items():
            output, seconds, memory = run([program, what, str(count)])
            if output != b"%d\n" % expected(count):
                print(f"{what} {count}: {output[:100]!r}")
                sys.exit(1)
            print(f"{what:8s}  {size:3d}  {count:8d}  {seconds:8.3f}  {memory:8.1f}", flush=True)


if __name__ == "__main__":
    main()
