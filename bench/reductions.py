#!/usr/bin/env python3
"""Time and memory for reducing nets.

    bench/reductions.py PROGRAM [YARDSTICK]

PROGRAM is the built program crates/reduction_probe/out/reduction_probe. It makes grids of 2^14, 2^16, 2^18
and 2^20 places with four instances at each place, and reduces them; the same without reducing tells what
making them costs. YARDSTICK is a program that answers `unfold` and `reduce` of a net file: it gets the same
net as a symmetric one, whose places are pairs. Each command runs three times, and the fastest counts. Where
seconds and memory grow by 4 from one size to the next, they are in proportion to the net.
"""
import os
import subprocess
import sys
import tempfile
import time

SIDES = (128, 256, 512, 1024)


def term(name, inner=b""):
    return b"<%s>%s</%s>" % (name, inner, name)


def sub(inner):
    return term(b"subterm", inner)


def net(side):
    """The grid as a symmetric net: a place of pairs, a constant place and an empty one."""
    constants = b"".join(b'<feconstant id="e%d"/>' % k for k in range(side))
    declared = (b'<namedsort id="s"><cyclicenumeration>' + constants + b"</cyclicenumeration></namedsort>"
                b'<namedsort id="d"><dot/></namedsort>'
                b'<namedsort id="q"><productsort><usersort declaration="s"/><usersort declaration="s"/></productsort></namedsort>'
                b'<variabledecl id="x"><usersort declaration="s"/></variabledecl>'
                b'<variabledecl id="y"><usersort declaration="s"/></variabledecl>')
    x, y = b'<variable refvariable="x"/>', b'<variable refvariable="y"/>'
    first = b'<useroperator declaration="e0"/>'
    next_x, next_y = term(b"successor", sub(x)), term(b"successor", sub(y))

    def pair(one, two):
        return sub(b"<numberconstant value=\"1\"><positive/></numberconstant>") + sub(term(b"tuple", sub(one) + sub(two)))

    dot = sub(b"<numberconstant value=\"1\"><positive/></numberconstant>") + sub(b"<dotconstant/>")

    def place(name, sort, marking=None):
        kind = term(b"type", term(b"structure", b'<usersort declaration="%s"/>' % sort))
        start = b"" if marking is None else term(b"hlinitialMarking", term(b"structure", term(b"numberof", marking)))
        return b'<place id="%s">%s%s</place>\n' % (name, kind, start)

    arcs = []

    def arc(source, target, weight):
        text = term(b"hlinscription", term(b"structure", term(b"numberof", weight)))
        arcs.append(b'<arc id="a%d" source="%s" target="%s">%s</arc>\n' % (len(arcs), source, target, text))

    for name, one, two in ((b"t0", next_x, y), (b"t1", x, next_y), (b"t2", next_x, y), (b"t3", next_x, y)):
        arc(b"p", name, pair(x, y))
        arc(name, b"p", pair(one, two))
    arc(b"c", b"t2", dot)
    arc(b"t2", b"c", dot)
    arc(b"e", b"t3", dot)
    return (b'<?xml version="1.0" encoding="UTF-8"?>\n<pnml xmlns="http://www.pnml.org/version-2009/grammar/pnml">'
            b'<net id="n" type="http://www.pnml.org/version-2009/grammar/symmetricnet">'
            b"<declaration><structure><declarations>" + declared + b"</declarations></structure></declaration>"
            b'<page id="g">' + place(b"p", b"q", pair(first, first)) + place(b"c", b"d", dot) + place(b"e", b"d")
            + b"".join(b'<transition id="t%d"/>\n' % k for k in range(4)) + b"".join(arcs) + b"</page></net></pnml>\n")


def run(words):
    """What it printed, the fastest seconds of three runs, and the most memory of one in MiB."""
    best, most, output = 1e9, 0, b""
    for _ in range(3):
        with tempfile.TemporaryFile() as file:
            started = time.monotonic()
            child = subprocess.Popen(words, stdout=file, stderr=subprocess.STDOUT)
            _, _, used = os.wait4(child.pid, 0)
            best, most = min(best, time.monotonic() - started), max(most, used.ru_maxrss / 1024)
            file.seek(0)
            output = file.read(200)
    return output, best, most


def main():
    program = os.path.abspath(sys.argv[1])
    print("places  instances  making (s, MiB)  and reducing (s, MiB)  yardstick: unfold (s, MiB), reduce (s, MiB)")
    for side in SIDES:
        count = side * side
        made, making, making_peak = run([program, "make", str(side)])
        kept, reducing, peak = run([program, "reduce", str(side)])
        if made != b"%d %d 0\n" % (count + 2, 4 * count) or kept != b"%d %d 2\n" % (count, 2 * count):
            print(f"{side}: {made!r} {kept!r}")
            sys.exit(1)
        line = f"{count + 2:7d}  {4 * count:7d}  {making:6.2f} {making_peak:7.1f}  {reducing:6.2f} {peak:7.1f}"
        if len(sys.argv) > 2:
            with tempfile.NamedTemporaryFile(suffix=".pnml") as file:
                file.write(net(side))
                file.flush()
                for command in ("unfold", "reduce"):
                    _, seconds, most = run([sys.argv[2], command, file.name])
                    line += f"  {seconds:6.2f} {most:7.1f}"
        print(line, flush=True)


if __name__ == "__main__":
    main()
