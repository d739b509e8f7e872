"""Whole programs that are longer, higher or larger than a row."""

from tables.cases import call, case, row_of
from tables.reading import BYTES


def runs(text, wanted):
    row_of(f"goi run on {text[:60]!r} .. of {len(text)} bytes", ["goi", "run", "p"], {"p": text}, wanted)


def cases():
    for count, wanted in (500, "0 value 500;moves 1002;"), (501, "1 refused: TooDeep(2500);"):
        runs(b"succ " * count + b"0", wanted)
    runs(b"(" * 500 + b"0" + b")" * 500, "0 value 0;moves 2;")
    runs(b" " * (BYTES - 1) + b"0", "0 value 0;moves 2;")
    runs(b" " * BYTES + b"0", "1 refused: TooLong;")
    groups = lambda count: b"+".join([b"(" + b" ".join([b"1"] * 64) + b")"] * count)
    runs(groups(256), "1 refused: FunctionWanted(1);")
    runs(groups(257), "1 refused: TooLarge(33281);")
    runs(b" + ".join([b"1"] * 500), "0 value 500;moves 1998;")
    runs(b" + ".join([b"1"] * 501), "1 refused: TooDeep(1998);")
    ones = lambda count: b"(" + b"+".join([b"1"] * count) + b")"
    sums = lambda front, count, size, last, back: front + b"+".join([ones(size)] * count + [ones(last)]) + back
    runs(sums(b"", 49, 50, 50, b""), "0 value 2500;moves 9998;")
    runs(sums(b"", 50, 50, 50, b""), "5 no value;moves 10000;")
    # 32,768 nodes, most of which are not asked for, one node more, and 32,768 nodes that are all asked for
    runs(sums(b"fst (7, ", 255, 64, 63, b")"), "0 value 7;moves 6;")
    runs(sums(b"fst (7, ", 255, 64, 64, b")"), "1 refused: TooLarge(33284);")
    runs(sums(b"succ (", 255, 64, 64, b")"), "5 no value;moves 10000;")
    # the highest programs: a sum, a product and an application in one another, which are not asked for, and then are
    high = lambda front, levels, back: front + b"1+1*f(0," * levels + b"+".join([b"1"] * 500) + b")" * levels + back
    called = b"(fun h:(nat*nat->nat)->nat. h (fun p:nat*nat. snd p)) (fun f:nat*nat->nat. "
    runs(high(b"fst (1, " + called, 496, b"))"), "0 value 1;moves 6;")
    runs(high(called, 498, b")"), "5 no value;moves 10000;")
    # how often a sum is doubled, and the wires and the nodes of its net
    for doublings, wires, nodes in (0, 15, 13), (1, 22, 19), (6, 456, 391), (12, 28_680, 24_583):
        text = b"d 1"
        for _ in range(doublings):
            text = b"(" + text + b") + (" + text + b")"
        text = b"(fun d:nat->nat. " + text + b") (fun x:nat. x + x)\n"

        def sizes(text=text):
            status, out, _ = call(["goi", "net", "p"], {"p": text})
            return status, out.count(b"\nwire "), out.count(b"\nnode ")

        case(f"the net of {doublings} doublings", sizes, (0, wires, nodes))
