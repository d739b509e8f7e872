"""What the tables of `.ci/calls` are made of: cases that are put off, rows, and calls of the program on small files."""

import os
import re
import resource
import sys
import tempfile

sys.path.insert(0, os.path.dirname(os.path.dirname(os.path.realpath(__file__))))
import judging  # noqa: E402
from judging import TOP, put  # noqa: E402

ROWS = os.path.join(TOP, ".ci/rows")

SUM = b"(fix f:nat->nat. fun n:nat. ifz n then 0 else n + f (pred n)) 3"
PRODUCT = b"(fix f:nat->nat. fun n:nat. ifz n then 1 else n * f (pred n)) 3"
DOUBLE = b"(fun x:nat. x + x) 3"
TWICE = b"(fun d:nat->nat. d 1 + d 2) (fun x:nat. x + x)"

# The program that is called, and the cases that were put off.
program = ""
cases = []


def case(name, found, wanted):
    """Puts a case off: `found` is called later, beside others, and `wanted` is what it has to answer."""
    cases.append((name, found, wanted))


def plain(text):
    """The bytes that a part of a row means."""
    given = text.encode().replace(b";", b"\n")
    given = re.sub(rb"\\u\{([0-9a-f]+)\}", lambda it: chr(int(it[1], 16)).encode(), given)
    given = re.sub(rb"\\x([0-9a-f]{2})", lambda it: bytes([int(it[1], 16)]), given)
    return given.replace(b"\\t", b"\t").replace(b"\\r", b"\r")


def rows(name):
    with open(os.path.join(ROWS, name), encoding="utf-8", newline="\n") as it:
        text = it.read().replace("\\\n", "")
    return [line.split("|") for line in text.split("\n") if line and not line.startswith("# ")]


def sections(name):
    """The rows of a table that has lines below each, and those lines."""
    with open(os.path.join(ROWS, name), encoding="utf-8", newline="\n") as it:
        blocks = it.read().rstrip("\n").split("\n\n")
    return [(head.split("|"), below + "\n") for head, _, below in (block.partition("\n") for block in blocks)]


def small_stack():
    """Leaves the program that is called 256 KiB of stack."""
    resource.setrlimit(resource.RLIMIT_STACK, (256 << 10, 256 << 10))


def call(words, files, limit=100):
    """Status, output and error output of a call with these words, the program's name first, in a folder with these files. It has a stack of
    256 KiB, since a run takes no more of it the longer it is. Deep programs need more, and have what there is: those of 500 bytes or more
    with their words, and `steps`, whose terms grow."""
    with tempfile.TemporaryDirectory() as at:
        for name, text in files.items():
            put(at, name, text)
        is_small = sum(map(len, [*words, *files.values()])) < 500 and "steps" not in words
        return judging.call(words, limit, executable=program, cwd=at, preexec_fn=small_stack if is_small else None)


def left(words, files):
    """What a call leaves, as the tables tell it."""
    status, out, err = call(words, files)
    if "--progress" not in words:
        is_told = status in (0, 5) or (status == 1 and "batch" in words)
        if err if is_told else out:
            return f"{status}, and both outputs, or the wrong one: {out[:200]!r} {err[:200]!r}"
    return f"{status} ".encode() + (out + err).replace(b"\n", b";")


def row_of(name, words, files, wanted):
    case(name, lambda: left(words, files), plain(wanted).replace(b"\n", b";"))


def replayed(text, words, command="run"):
    """What a run with `--schedule` tells first, whether its numbers add up, and what its own schedule is replayed to."""
    status, out, err = call(["goi", command, "p", "--schedule", *words], {"p": text})
    told = out.split(b"\n")
    cut = told.index(b"end") + 1
    moves = int(told[1].split(b" ")[1])
    logged = sum(int(it.split(b" ")[1]) for it in told[3 : cut - 1])
    tally = sum(int(it.split(b" ")[-1]) for it in told[cut:-1])
    adds_up = logged == moves and (tally == moves or "--tally" not in words)
    again = left(["goi", "replay", "p", "s"], {"p": text, "s": b"\n".join(told[2:cut]) + b"\n"})
    return f"{status} ".encode() + b";".join(told[:2]) + b";", err, adds_up, again
