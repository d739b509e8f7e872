"""Listings of nets: .ci/rows/changes, and what is longer than a row."""

import os

from judging import TOP
from tables.cases import call, case, left, plain, row_of, rows

# The program of full.net, whose net has every kind of node.
FULL = b"""(fun p:nat * nat. (fun n:nat. ifz pred (fst p) then succ n else (fix g:nat -> nat. fun m:nat. snd p * 2) (fst p - n)) 7)
(1, 2 + 4)"""


def runs_net(text, wanted):
    row_of(f"goi run-net on {text[:60]!r} .. of {len(text)} bytes", ["goi", "run-net", "n"], {"n": text}, wanted)


def cases():
    listings = {}
    for name, at in ("double.net", "examples"), ("full.net", ".ci/rows"):
        with open(os.path.join(TOP, at, name), "rb") as it:
            listings[name] = it.read()

    def changed(name, old, new):
        """A listing with another line in the place of one that it has once."""
        lines = listings[name].split(b"\n")
        assert lines.count(old.encode()) == 1, old
        return b"\n".join(new.encode() if it == old.encode() else it for it in lines)

    for name, old, new, wanted in rows("changes"):
        runs_net(changed(name, old, new), wanted)
    double, full = listings["double.net"], listings["full.net"]
    runs_net(double, "0 value 6;moves 30;")
    runs_net(changed("double.net", "node 5 Const 3 7", "node 5 Const 4 7"), "0 value 8;moves 30;")
    case("the full listing is that of its program", lambda: call(["goi", "net", "p"], {"p": FULL})[1], full)
    run = lambda: left(["goi", "run", "p"], {"p": FULL})
    case("the full listing runs as its program does", lambda: left(["goi", "run-net", "n"], {"n": full}) == run(), True)
    status = lambda line: call(["goi", "run-net", "n"], {"n": changed("full.net", "node 7 Const 2 10", line)})[0]
    case("and with another number", lambda: status("node 7 Const 3 10"), 0)
    case("and with the number and the wire exchanged", lambda: status("node 7 Const 10 2"), 7)
    for count in range(len(double)):
        line = double[:count].count(b"\n") + 1
        runs_net(double[:count], f"7 refused: BadLine({line});")
    runs_net(double + b"end\n", "7 refused: BadLine(22);")
    runs_net(double + b"\n", "7 refused: BadLine(22);")
    # types as high as can be: a wire alone is in a net without a root
    read, high = "7 refused: NotSound(RootCount(0));", "7 refused: BadLine(2);"
    for front, middle, back, count, wanted in [
        ("nat -> ", "nat", "", 3999, read), ("nat -> ", "nat", "", 4000, high), ("nat * ", "nat", "", 3999, read),
        ("nat * ", "nat", "", 4000, high),
        ("(", "nat -> nat", ") -> nat", 3998, read), ("(", "nat -> nat", ") -> nat", 3999, high), ("(", "nat * nat", ") * nat", 3998, read),
        ("nat * (", "nat -> nat", ") -> nat", 1999, read), ("(", "nat", ")", 100_000, high), ("nat * (", "nat", ")", 100_000, high),
    ]:
        runs_net(f"net 1\nwire 0 value 0 {front * count}{middle}{back * count}\nend\n".encode(), wanted)
    for front, digit, back, n in [
        ("net 1;wire 0 value ", "9", " nat;end;", 2), ("net 1;wire 0 value ", "0", " nat;end;", 2),
        ("net 1;wire ", "0", " value 0 nat;end;", 2),
        ("net 1;node 0 Const ", "9", " 0;end;", 2), ("net 1;node 0 Const 5 ", "9", ";end;", 2), ("net ", "1", ";end;", 1),
    ]:
        runs_net(plain(front) + digit.encode() * 1_000_000 + plain(back), f"7 refused: BadLine({n});")
    runs_net(b"net 1\n" + b" " * (16_777_216 - 6), "7 refused: BadLine(2);")
    runs_net(b"net 1\n" + b" " * (16_777_217 - 6), "7 refused: TooLong;")
