#!/usr/bin/env python3
"""Time and peak memory of `canon` on large nets, beside `xmllint --huge --format`.

    bench/canon.py PROGRAM [MIB ..]

PROGRAM is the built program crates/pnml_cli/out/pnml_cli, MIB a size (1, 8 and 60 where none is given).
xmllint, of libxml2-utils, reads the same file and writes it with its own white. Both write into a file in
a temporary folder, and `canon` of what `canon` wrote has to be the same again. xmllint isn't run on the net
with very many attributes. Each command runs three times, and the fastest is shown. A line shows how time and
memory grow, too: milliseconds and MiB for each MiB of the file.
"""
import filecmp
import os
import shutil
import subprocess
import sys
import tempfile
import time

from made_files import made

MIB = 1 << 20
HEAD = (b'<?xml version="1.0"?>\n<pnml xmlns="http://www.pnml.org/version-2009/grammar/pnml">\n'
        b'<net id="n" type="http://www.pnml.org/version-2009/grammar/%s">\n<page id="g">\n')
FOOT = b"</page>\n</net>\n</pnml>\n"


def plain(size):
    """Places with markings and names, transitions, and arcs with weights, two for each transition."""
    each = (b'<place id="p%07d"><name><text>place %d</text></name><initialMarking><text>2</text></initialMarking></place>\n'
            b'<transition id="t%07d"/>\n'
            b'<arc id="a%07d" source="p%07d" target="t%07d"><inscription><text>3</text></inscription></arc>\n'
            b'<arc id="b%07d" source="t%07d" target="p%07d"/>\n')
    count = size // len(each % ((0,) * 9))
    return HEAD % b"ptnet" + b"".join(each % ((k,) * 9) for k in range(count)) + FOOT


def symmetric(size):
    """Places over one range, transitions with a guard, and arcs with a sum of two variables."""
    sort = b'<structure><usersort declaration="s"/></structure>'
    variable = b'<subterm><variable refvariable="%s"/></subterm>'
    sums = b"<structure><add>" + variable % b"x" + variable % b"y" + b"</add></structure>"
    guard = b"<structure><inequality>" + variable % b"x" + variable % b"y" + b"</inequality></structure>"
    declared = (b'<declaration><structure><declarations><namedsort id="s"><finiteintrange start="0" end="9"/></namedsort>'
                b'<variabledecl id="x"><usersort declaration="s"/></variabledecl>'
                b'<variabledecl id="y"><usersort declaration="s"/></variabledecl></declarations></structure></declaration>\n')
    each = (b'<place id="p%07d"><type>' + sort + b'</type></place>\n'
            b'<transition id="t%07d"><condition>' + guard + b'</condition></transition>\n'
            b'<arc id="a%07d" source="p%07d" target="t%07d"><hlinscription>' + sums + b'</hlinscription></arc>\n')
    count = size // len(each % ((0,) * 5))
    return HEAD % b"symmetricnet" + declared + b"".join(each % ((k,) * 5) for k in range(count)) + FOOT


def nodes(size):
    """Very many nodes: places and transitions with an id alone, some 2.5 million of them in 60 MiB."""
    each = b'<place id="p%07d"/><transition id="t%07d"/>'
    count = size // len(each % (0, 0))
    return HEAD % b"ptnet" + b"".join(each % (k, k) for k in range(count)) + FOOT


def white(size):
    """White before the root of a small net, and as much behind it."""
    small = (b'<pnml><net id="n" type="http://www.pnml.org/version-2009/grammar/ptnet"><page id="g"><place id="p"/></page></net></pnml>')
    return b" " * (size // 2) + small + b"\n" * (size // 2)


def attributes(size):
    """One place with very many attributes that say nothing of the net."""
    return HEAD % b"ptnet" + b'<place id="p"' + b"".join(b" b%07d=''" % k for k in range(size // 12)) + b"/>" + FOOT


def asides(size):
    """One place with very many children that are passed over, before its marking and behind it."""
    passed = b"<graphics/>" * (size // 22)
    return HEAD % b"ptnet" + b'<place id="p">' + passed + b"<initialMarking><text>1</text></initialMarking>" + passed + b"</place>" + FOOT


def run(words, output):
    """Fastest seconds and peak memory in MiB of three runs that write into a file."""
    best, peak = 1e9, 0
    for _ in range(3):
        with open(output, "wb") as file:
            started = time.monotonic()
            child = subprocess.Popen(words, stdout=file)
            _, status, usage = os.wait4(child.pid, 0)
            child.returncode = os.waitstatus_to_exitcode(status)
        if child.returncode != 0:
            print(f"{words[0]} ended with {child.returncode}")
            sys.exit(1)
        best, peak = min(best, time.monotonic() - started), max(peak, usage.ru_maxrss / 1024)
    return best, peak


def main():
    program = os.path.abspath(sys.argv[1])
    sizes = [int(word) for word in sys.argv[2:]] or [1, 8, 60]
    print("net          MiB  seconds  ms/MiB  peak MiB  MiB/MiB   xmllint  peak MiB")
    for maker in (plain, symmetric, nodes, white, attributes, asides):
        for size in sizes:
            with tempfile.TemporaryDirectory() as folder:
                path, written, again = (os.path.join(folder, name) for name in ("net", "written", "again"))
                made(maker, size * MIB, path)
                seconds, peak = run([program, "canon", path], written)
                subprocess.run([program, "canon", written], stdout=open(again, "wb"), check=True)
                if not filecmp.cmp(written, again, shallow=False):
                    print(f"{maker.__name__} {size}: the canonical text isn't canonised as itself")
                    sys.exit(1)
                beside = "isn't there"
                if maker is attributes:
                    beside = "takes many minutes"
                elif shutil.which("xmllint"):
                    their_seconds, their_peak = run(["xmllint", "--huge", "--format", path], again)
                    beside = f"{their_seconds:7.2f}  {their_peak:8.0f}"
                size_read = os.path.getsize(path) / MIB
                print(f"{maker.__name__:10s}  {size_read:5.1f}  {seconds:7.2f}  {seconds * 1000 / size_read:6.1f}  {peak:8.0f}"
                      f"  {peak / size_read:7.1f}   {beside}", flush=True)


main()
