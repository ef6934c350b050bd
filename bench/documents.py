#!/usr/bin/env python3
"""Time and peak memory of the reader of documents on large files, beside `xmllint --huge --noout`.

    bench/documents.py PROGRAM [MIB ..]

PROGRAM is the built program crates/read_probe/out/read_probe, MIB a size (1, 8 and 60 where none is
given). xmllint, of libxml2-utils, builds its tree as the reader does; it isn't run on elements with very
many attributes, of which it hadn't read 100,000 after nine minutes. The files are made in a temporary
folder, and each run has to print `document`. Each command runs three times, and the fastest is shown. A
line shows how time and memory grow, too: milliseconds and MiB for each MiB of the file.
"""
import os
import shutil
import subprocess
import sys
import tempfile
import time

from made_files import made

MIB = 1 << 20


def elements(size):
    """Small elements, about a million of them in 60 MiB, with attributes and texts."""
    each = b'<place id="p%07d"><name><text>n%07d</text></name></place>\n'
    count = size // len(each % (0, 0))
    return b"<net>" + b"".join(each % (k, k) for k in range(count)) + b"</net>"


def children(size):
    """One element with 100,000 children, filled up by their texts."""
    text = b"x" * max(1, size // 100_000 - 7)
    return b"<a>" + b"".join(b"<b>" + text + b"</b>" for _ in range(100_000)) + b"</a>"


def attributes(size):
    """One element with 100,000 attributes, filled up by their values."""
    value = b"v" * max(1, size // 100_000 - 12)
    return b"<a" + b"".join(b' b%06d="%s"' % (k, value) for k in range(100_000)) + b"/>"


def many_attributes(size):
    """One element with attributes that have short names and no values, some five million of them in 60 MiB."""
    return b"<a" + b"".join(b" b%07d=''" % k for k in range(size // 12)) + b"/>"


def nodes(size):
    """One element with the smallest children, fifteen million of them in 60 MiB."""
    return b"<a>" + b"<b/>" * (size // 4) + b"</a>"


def white(size):
    """White before the root, and as much behind it."""
    return b" " * (size // 2) + b"<a/>" + b"\n" * (size // 2)


def white_in_tags(size):
    """White in a start tag, before attributes, before and behind `=`, and in an end tag."""
    some = b" \n" * (size // 10)
    return b"<a" + some + b"b" + some + b"=" + some + b"''" + some + b"></a" + some + b">"


def asides(size):
    """Comments, instructions and white outside the root."""
    each = b" <!-- a comment -->\n<?an instruction?>\n"
    return each * (size // len(each)) + b"<a/>"


def past_ascii(size):
    """One text of characters of three bytes."""
    return b"<a>" + "\u5b57\u6f22".encode() * (size // 6) + b"</a>"


def text(size):
    """All in one text."""
    return b"<a>" + b"text " * (size // 5) + b"</a>"


def deep(size):
    """256 open elements, again and again below the first."""
    once = b"<b>" * 255 + b"</b>" * 255
    return b"<a>" + once * (size // len(once)) + b"</a>"


def names(size):
    """Elements and attributes with long names."""
    name = b"name" * 16
    each = b"<" + name + b" " + name + b"=''></" + name + b">"
    return b"<a>" + each * (size // len(each)) + b"</a>"


def references(size):
    """One text of references."""
    each = b"&lt;&#65;&#x1F600;"
    return b"<a>" + each * (size // len(each)) + b"</a>"


def run(words):
    """Output, fastest seconds and peak memory in MiB of three runs."""
    best, peak, output = 1e9, 0, b""
    for _ in range(3):
        started = time.monotonic()
        child = subprocess.Popen(words, stdout=subprocess.PIPE, stderr=subprocess.STDOUT)
        output = child.stdout.read()
        _, status, usage = os.wait4(child.pid, 0)
        child.returncode = os.waitstatus_to_exitcode(status)
        best, peak = min(best, time.monotonic() - started), max(peak, usage.ru_maxrss / 1024)
    return output, best, peak


def main():
    program = os.path.abspath(sys.argv[1])
    sizes = [int(word) for word in sys.argv[2:]] or [1, 8, 60]
    print("file               MiB  seconds  ms/MiB  peak MiB  MiB/MiB   xmllint  peak MiB")
    makers = (elements, children, names, text, references, deep, attributes, many_attributes, nodes, white, white_in_tags,
              asides, past_ascii)
    for maker in makers:
        for size in sizes:
            with tempfile.TemporaryDirectory() as folder:
                path = os.path.join(folder, "file")
                made(maker, size * MIB, path)
                size_read = os.path.getsize(path) / MIB
                output, seconds, peak = run([program, path])
                if output != b"document\n":
                    print(f"{maker.__name__} {size}: {output[:100]!r}")
                    sys.exit(1)
                beside = "isn't there"
                if maker in (attributes, many_attributes):
                    beside = "takes many minutes"
                elif shutil.which("xmllint"):
                    _, their_seconds, their_peak = run(["xmllint", "--huge", "--noout", path])
                    beside = f"{their_seconds:7.2f}  {their_peak:8.0f}"
                print(f"{maker.__name__:16s}  {size_read:5.1f}  {seconds:7.2f}  {seconds * 1000 / size_read:6.1f}  {peak:8.0f}"
                      f"  {peak / size_read:7.1f}   {beside}", flush=True)


main()
