#!/usr/bin/env python3
"""Time and peak memory of `check`, for rings whose three files are 1, 8 and 64 MiB each and for nets
with very many flows.

    bench/files.py PROGRAM [SIZE ..]

PROGRAM is the built program (crates/pnml_cli/out/pnml_cli once `rt ci` or ./trussoregano has built
it), SIZE a number of MiB. The files are made in a temporary folder. One token goes round a ring of
places; the property adds up all places as often as its file has room, and the certificate has one
flow over all places after the other. In the other family the net is many rings of two places, and the
certificate has a flow for each of them. Each run has to print `holds`. Beside it stand the time of a run
that ends when the three files are read, since the certificate has another byte at its end, the time that
`cat` takes for the three files, and that of `wc -w`, which takes one pass over their words.
"""
import os
import shutil
import subprocess
import sys
import tempfile
import time

from made_files import made

MIB = 1 << 20
LIMIT = 64 * MIB
FIRST = b'<?xml version="1.0" encoding="UTF-8"?>\n'


def net_ends():
    """What stands before the places and behind the arcs."""
    return (FIRST + b'<pnml xmlns="http://www.pnml.org/version-2009/grammar/pnml">\n'
            b'<net id="n" type="http://www.pnml.org/version-2009/grammar/ptnet">\n<page id="page">\n',
            b"</page>\n</net>\n</pnml>\n")


def net_text(size):
    """A ring of as many places as fit, and how many they are."""
    head, tail = net_ends()
    first = b'<place id="p1000000">\n<initialMarking>\n<text>1</text>\n</initialMarking>\n</place>\n'
    each = 24 + 29 + 56 + 56
    count = (size - len(head) - len(tail) - len(first)) // each
    places = first + b"".join(b'<place id="p%d"/>\n' % (1000000 + k) for k in range(1, count))
    transitions = b"".join(b'<transition id="t%d"/>\n' % (1000000 + k) for k in range(count))
    arcs = b"".join(
        b'<arc id="a%d" source="p%d" target="t%d"/>\n<arc id="b%d" source="t%d" target="p%d"/>\n'
        % (1000000 + k, 1000000 + k, 1000000 + k, 1000000 + k, 1000000 + k, 1000000 + (k + 1) % count)
        for k in range(count))
    return head + places + transitions + arcs + tail, count


def formula_ends(places, number):
    """The tokens on these places are at most this number."""
    return (FIRST + b"<property-set>\n<property>\n<id>P</id>\n<formula>\n<all-paths>\n<globally>\n<integer-le>\n"
            b"<tokens-count>\n" + places + b"</tokens-count>\n<integer-constant>%d</integer-constant>\n" % number
            + b"</integer-le>\n</globally>\n</all-paths>\n</formula>\n</property>\n</property-set>\n")


def formula_text(size, count):
    """The places, all of them again and again, against how often that is."""
    body = b"".join(b"<place>p%d</place>\n" % (1000000 + k) for k in range(count))
    times = max(1, (size - 400) // len(body))
    return formula_ends(body * times, times), times


def certificate_text(size, count, times):
    """One flow over all places after the other; the last one refutes the property."""
    weights = b"".join(b" 1*p%d" % (1000000 + k) for k in range(count))
    flows = max(1, (size - 100) // (len(weights) + 12))
    return (b"certificate 1\nproperty P\n" + b"".join(b"flow f%d%s\n" % (k, weights) for k in range(flows))
            + b"proof\nclose 1*@1 -%d*f%d\nend\n" % (times, flows - 1))


def pairs_texts(size):
    """Many rings of two places, the property of the first one, and a flow for each."""
    head, tail = net_ends()
    token = b"<initialMarking>\n<text>1</text>\n</initialMarking>\n"
    each = 97 + 25 + 2 * 29 + 4 * 56
    count = (size - len(head) - len(tail)) // each
    names = range(1000000, 1000000 + count)
    places = b"".join(b'<place id="p%d">\n%s</place>\n<place id="q%d"/>\n' % (k, token, k) for k in names)
    transitions = b"".join(b'<transition id="t%d"/>\n<transition id="u%d"/>\n' % (k, k) for k in names)
    arcs = b"".join(b'<arc id="a%d" source="p%d" target="t%d"/>\n<arc id="b%d" source="t%d" target="q%d"/>\n'
                    b'<arc id="c%d" source="q%d" target="u%d"/>\n<arc id="d%d" source="u%d" target="p%d"/>\n'
                    % ((k,) * 12) for k in names)
    formula = formula_ends(b"<place>p1000000</place>\n<place>q1000000</place>\n", 1)
    flows = b"".join(b"flow f%d 1*p%d 1*q%d\n" % (k, k, k) for k in names)
    certificate = b"certificate 1\nproperty P\n" + flows + b"proof\nclose 1*@1 -1*f1000000\nend\n"
    return head + places + transitions + arcs + tail, formula, certificate


def measured(words):
    """Output, seconds and peak memory in MiB of one run."""
    started = time.monotonic()
    child = subprocess.Popen(words, stdout=subprocess.PIPE)
    output = child.stdout.read()
    _, status, usage = os.wait4(child.pid, 0)
    child.returncode = os.waitstatus_to_exitcode(status)
    return output, time.monotonic() - started, usage.ru_maxrss / 1024


def damaged(name):
    """A copy of the file with another byte at its end."""
    other = name + ".damaged"
    shutil.copyfile(name, other)
    with open(other, "r+b") as file:
        file.seek(-1, os.SEEK_END)
        file.write(b" ")
    return other


def counted(name, word):
    """How many lines of the file begin with the word."""
    with open(name, "rb") as file:
        return sum(line.startswith(word) for line in file)


def show(label, program, size, maker):
    """One line of the table."""
    with tempfile.TemporaryDirectory() as folder:
        names = [os.path.join(folder, name) for name in ("net", "formula", "certificate")]
        for number, name in enumerate(names):
            made(lambda size: maker(size)[number], size, name)
        total = sum(os.path.getsize(name) for name in names) / MIB
        places, flows = counted(names[0], b"<place "), counted(names[2], b"flow ")
        _, reading, _ = measured(["cat"] + names)
        _, words, _ = measured(["wc", "-w"] + names)
        refusal, read, _ = measured([program, "check"] + names[:2] + [damaged(names[2])])
        output, seconds, peak = measured([program, "check"] + names)
        if not output.startswith(b"holds\n") or refusal != b"refused certificate not-yet\n":
            print(f"{label} {size}: {output[:200]!r} {refusal[:200]!r}")
            sys.exit(1)
        print(f"{label:6s} {size // MIB:5d}  {total:6.1f}  {places:7d}  {flows:7d}  {seconds:7.2f}  {read:7.2f}  {reading:7.2f}  {words:7.2f}  {peak:8.0f}", flush=True)


def ring_texts(size):
    """One ring, of which the three files fill this many bytes each."""
    net, count = net_text(min(size, LIMIT))
    formula, times = formula_text(size, count)
    return net, formula, certificate_text(size, count, times)


def main():
    program = os.path.abspath(sys.argv[1])
    sizes = [int(word) for word in sys.argv[2:]] or [1, 8, 64]
    print("net      MiB  in all   places    flows  seconds     read      cat    wc -w  peak MiB")
    for label, maker in (("ring", ring_texts), ("pairs", pairs_texts)):
        for size in sizes:
            show(label, program, size * MIB, maker)


main()
