"""The texts of circuits: .ci/rows/circuits."""

import os
import re

import program
from judging import EXAMPLES
from tables.cases import DOUBLE, call, case, plain, row_of, sections


def has(text, below):
    """Whether a text begins with the lines of a table's first block, and has those of each other one in this order. In the table `..` stands
    for any lines, and a line for one that begins so."""
    lines, at = text.split("\n"), 0
    blocks = [it.strip("\n").split("\n") for it in ("\n" + below).split("\n..\n")]
    for number, block in enumerate(it for it in blocks if it != [""]):
        fits = lambda it: all(line.startswith(shown) for line, shown in zip(lines[it:], block)) and it + len(block) <= len(lines)
        found = next((it for it in range(at, at + 1 if number == 0 else len(lines)) if fits(it)), None)
        if found is None:
            return False
        at = found + len(block)
    return True


# A function of so many numbers, in two parts, since no type is as deep.
MANY = 992
LONGEST = f"(fun h:{'nat->' * (MANY // 2)}nat. {'fun x:nat. ' * (MANY // 2)}h) ({'fun x:nat. ' * (MANY // 2)}x)"

# What a circuit's words are, and which modules its text has: their own lines, and those that put one of them into another.
NAMED = (
    (DOUBLE, [], ["module goi ("]),
    (DOUBLE, ["--name", "adder"], ["module adder ("]),
    (DOUBLE, ["--name", "adder", "--bench"], ["module adder_bench;", "  adder circuit ("]),
    (b"fun x:nat. x", ["--name", "adder"], ["module adder ("]),
    (b"fun x:nat. x", ["--handshake"], ["module goi (", "module goi_call (", "  goi circuit ("]),
    (b"fun x:nat. x", ["--handshake", "--name", "adder"], ["module adder (", "module adder_call (", "  adder circuit ("]),
)


def ports():
    """The ports of the longest function's circuit, and how many of them are held."""
    out = call(["goi", "circuit", "p"], {"p": LONGEST.encode()})[1].decode()
    return re.findall(r"^  input wire \[63:0\] (\w+),?$", out, re.M), len(set(re.findall(r" (held\d+) <= arg\d+;", out)))


def named(text, words):
    """Those lines of a circuit's text."""
    return re.findall(r"^(?:module .*|  \w+ circuit \()$", call(["goi", "circuit", "p", *words], {"p": text})[1].decode(), re.M)


def cases():
    """Each circuit of the table has its lines, and examples/succ.v is the first one's text."""
    table = sections("circuits")
    with open(os.path.join(EXAMPLES, "succ.v"), encoding="utf-8") as it:
        succ = it.read()
    case("examples/succ.v", lambda: call(["goi", "circuit", "p", "--cells", "1", "--forks", "1"], {"p": b"succ 4"}), (0, succ.encode(), b""))
    for (text, cells, forks), below in table:
        words = ["goi", "circuit", "p", "--cells", cells, "--forks", forks]

        def shown(words=words, text=plain(text), below=below):
            status, out, err = call(words, {"p": text})
            return status, err, has(out.decode(), below)

        case(f"the circuit of {text}", shown, (0, b"", True))
    case(f"the circuit of a function of {MANY} numbers", ports, ([f"arg{it}" for it in range(MANY)], MANY))
    for text, words, wanted in NAMED:
        case(f"the modules of {text} with {words}", lambda text=text, words=words: named(text, words), wanted)
    for text in "(1, 2)", "fun f:nat->nat. f 0", "fun p:nat * nat. fst p", "fun x:nat. (x, x)":
        row_of(f"the circuit of {text}", ["goi", "circuit", "p"], {"p": text.encode()}, "1 refused: NotGround;")
    own = program.table()[0]["circuit"]["options"]
    flags = [it for it, row in own.items() if row["beside"] == [it]]
    for asked in "", *flags:
        for option in (it for it in own if it != asked and (asked or it not in flags)):
            words = ["goi", "circuit", "p", *[it for it in (asked, option, str(own[option].get("default", ""))) if it]]
            refused = lambda words=words: call(words, {"p": DOUBLE})[0] == 2
            case(f"{option} where the circuit is asked for with {asked}", refused, asked not in own[option]["beside"])
    for option in flags:
        row_of(f"a function's circuit with {option}", ["goi", "circuit", "p", option], {"p": b"fun x:nat. x"}, "1 refused: NotGround;")
