#!/usr/bin/env python3
"""Time and peak memory of the reader of certificates on large files, beside `wc -w` of the same file.

    bench/certificates.py PROGRAM [MB ..]

PROGRAM is the built program crates/cert_probe/out/cert_probe, MB a size in millions of bytes (6 and 60
where none is given). The files are made in a temporary folder, and each run has to print `certificate`.
Each command runs five times, the two in turns, and the fastest of each is shown. The last columns are the
speed as a part of that of `wc -w`, and the memory as a multiple of the file.
"""
import os
import subprocess
import sys
import tempfile
import time

from made_files import made

MB = 1_000_000
HEAD = b"certificate 1\nproperty P\n"
TAIL = b"proof\nclose\nend\n"


def facts(size):
    """Short facts, a million of them in 60 MB, every third a bound with a step."""
    lines = []
    for k in range(size // 60):
        if k % 3 == 2:
            lines.append(b"bound f%07d 1 1*p%07d\nstep t%03d@%07d 1 0 1*f%07d\n" % (k, k, k % 1000, k, k - 1))
        elif k % 3 == 1:
            lines.append(b"trap f%07d p%07d p%07d@3 q%07d@12 r%07d p%07d\n" % (k, k, k + 1, k, k, k + 2))
        else:
            lines.append(b"flow f%07d 1*p%07d -1*p%07d@7 12*q%07d 1*r%05d\n" % (k, k, k + 1, k, k % 99999))
    return HEAD + b"".join(lines) + TAIL


def weights(size):
    """One fact with small weights, four million of them in 60 MB."""
    return HEAD + b"flow f" + b"".join(b" %05d*p%07d" % (k % 99999, k) for k in range(size // 15)) + b"\n" + TAIL


def great_weights(size):
    """One fact with weights that are added up by place, since they are great together."""
    return HEAD + b"flow f" + b"".join(b" 4611686018427387904*p%07d" % k for k in range(size // 29)) + b"\n" + TAIL


def nodes(size):
    """A tree of a million nodes in 60 MB."""
    count = size // 60
    line = b"close %07d*@1 -1*f%07d 12*g%07d -7*h%07d 3*@12\n"
    return HEAD + b"proof\ncases 1 %d\n" % count + b"".join(line % (k, k, k, k) for k in range(count)) + b"end\n"


def name(size):
    """One name that fills the file."""
    return HEAD + b"flow " + b"f" * size + b"\n" + TAIL


def passed(size):
    """One line that is passed over."""
    return HEAD + b"#" + b" word" * (size // 5) + b"\n" + TAIL


def run(words):
    """Output, seconds and peak memory in bytes of one run."""
    started = time.monotonic()
    child = subprocess.Popen(words, stdout=subprocess.PIPE, stderr=subprocess.STDOUT)
    output = child.stdout.read()
    _, status, usage = os.wait4(child.pid, 0)
    child.returncode = os.waitstatus_to_exitcode(status)
    return output, time.monotonic() - started, usage.ru_maxrss * 1024


def main():
    program = os.path.abspath(sys.argv[1])
    sizes = [int(word) for word in sys.argv[2:]] or [6, 60]
    print("file              MB  seconds    wc -w    speed  peak MB  memory")
    for maker in (facts, weights, great_weights, nodes, name, passed):
        for size in sizes:
            with tempfile.TemporaryDirectory() as folder:
                path = os.path.join(folder, "file")
                made(maker, size * MB, path)
                length = os.path.getsize(path)
                best, theirs, peak = 1e9, 1e9, 0
                for _ in range(5):
                    output, seconds, memory = run([program, path])
                    if output != b"certificate\n":
                        print(f"{maker.__name__} {size}: {output[:100]!r}")
                        sys.exit(1)
                    best, peak = min(best, seconds), max(peak, memory)
                    theirs = min(theirs, run(["wc", "-w", path])[1])
                print(
                    f"{maker.__name__:14s} {length / MB:6.1f}  {best:7.2f}  {theirs:7.2f}  {theirs / best:6.2f}x"
                    f"  {peak / MB:7.0f}  {peak / length:5.1f}x",
                    flush=True,
                )


main()
