#!/usr/bin/env python3
"""Time and peak memory of property files that are read, and of a property that is resolved, beside their documents alone.

    bench/mcc.py PROGRAM [MB ..]

PROGRAM is the built program crates/property_probe/out/property_probe, MB a size (6 and 60 where none is given). The files are made
in a temporary folder. The program is run on each with the property's id and without it, in turn, five times, and has to print
`N goal` and `document`; the fastest of each is shown, by processor time, and the first as a part of the second. In a line, too, are
the peak of memory and how it grows with the file.
"""
import os
import subprocess
import sys
import tempfile

from made_files import made

MB = 1_000_000
NODES = 1000


def one(formula):
    """A property of the id `P`, whose formula is said of all markings."""
    return (b"<property><id>P</id><formula><all-paths><globally>" + formula
            + b"</globally></all-paths></formula></property>")


def properties(size):
    """Small properties, about a million of them in 60 MB; the last is `P`."""
    each = b"<property><id>M-%07d</id><formula><x/></formula></property>\n"
    count = size // len(each % 0)
    last = one(b"<is-fireable><transition>t7</transition></is-fireable>")
    return b"<property-set>" + b"".join(each % k for k in range(count)) + last + b"</property-set>"


def described(size):
    """Properties as a contest has them, with descriptions, lines and indentation."""
    each = (b"  <property>\n    <id>Net-PT-%07d</id>\n    <description>Automatically generated</description>\n"
            b"    <formula>\n      <exists-path>\n        <finally>\n          <integer-le>\n            <tokens-count>\n"
            b"              <place>p%d</place>\n            </tokens-count>\n"
            b"            <integer-constant>3</integer-constant>\n          </integer-le>\n        </finally>\n"
            b"      </exists-path>\n    </formula>\n  </property>\n")
    count = size // len(each % (0, 100))
    last = one(b"<is-fireable><transition>t7</transition></is-fireable>")
    text = b"".join(each % (k, k % NODES) for k in range(count))
    return b"<property-set>\n" + text + last + b"</property-set>\n"


def transitions(size):
    """One formula over many transitions."""
    each = b"<transition>t%d</transition>"
    count = size // len(each % 100)
    text = b"".join(each % (k % NODES) for k in range(count))
    return b"<property-set>" + one(b"<is-fireable>" + text + b"</is-fireable>") + b"</property-set>"


def places(size):
    """One formula of many comparisons of two places with a number, a million of its nodes in some 25 MB."""
    each = (b"<integer-le><tokens-count><place>p%d</place><place>p%d</place></tokens-count>"
            b"<integer-constant>%d</integer-constant></integer-le>")
    count = size // len(each % (100, 100, 100))
    text = b"".join(each % (k % NODES, k * 7 % NODES, k % NODES) for k in range(count))
    return b"<property-set>" + one(b"<conjunction>" + text + b"</conjunction>") + b"</property-set>"


def negations(size):
    """One formula of many small ones: negations in disjunctions, as deep as documents are, again and again."""
    once = b"<negation>" * 240 + b"<is-fireable><transition>t7</transition></is-fireable>" + b"</negation>" * 240
    return b"<property-set>" + one(b"<disjunction>" + once * (size // len(once)) + b"</disjunction>") + b"</property-set>"


SHAPES = [properties, described, transitions, places, negations]


def run(command, expected):
    """Processor seconds and peak MiB of one run, which has to print what is expected."""
    child = subprocess.Popen(command, stdout=subprocess.PIPE)
    printed = child.stdout.read()
    _, status, used = os.wait4(child.pid, 0)
    child.returncode = status
    if status != 0 or not printed.endswith(expected):
        sys.exit(f"{command}: {printed!r}")
    return used.ru_utime + used.ru_stime, used.ru_maxrss / 1024


def measure(program, folder, shape, size):
    path = os.path.join(folder, "file")
    made(shape, size, path)
    text_size = os.path.getsize(path)
    whole, alone = [], []
    for _ in range(5):
        alone.append(run([program, path], b"document\n"))
        whole.append(run([program, path, "P", str(NODES)], b" goal\n"))
    seconds, memory = min(whole)
    document, _ = min(alone)
    megabytes = text_size / MB
    print(f"{shape.__name__:12} {megabytes:6.1f} MB  document {document:6.3f} s  with its property {seconds:6.3f} s"
          f"  {seconds / document:5.2f} times  {memory:6.0f} MiB  {1000 * seconds / megabytes:5.1f} ms a MB", flush=True)


def main():
    program = os.path.abspath(sys.argv[1])
    sizes = [float(word) for word in sys.argv[2:]] or [6, 60]
    with tempfile.TemporaryDirectory() as folder:
        for shape in SHAPES:
            for size in sizes:
                measure(program, folder, shape, int(size * MB))


main()
