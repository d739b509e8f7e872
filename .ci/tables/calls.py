"""Calls of functions at numbers: each leaves what a run of the text of the application leaves, for each number of workers."""

import os
import random
import sys

from judging import TOP
from tables.cases import call, case

sys.path.insert(0, os.path.join(TOP, "tools"))
from checks import term  # noqa: E402

MOST = str(2**64 - 1)
# functions, each with rows of numbers: sums and products up to an overflow, recursions by one and by several arguments, and one that
# never asks for its argument
FUNCTIONS = [
    (b"fun x:nat. x + x", ["0", "3", str(2**63 - 1), str(2**63), MOST]),
    (b"fun x:nat. fun y:nat. x - y * 2 # with a remark", ["5 2", "0 " + MOST, MOST + " 1", MOST + " " + MOST]),
    (b"fun x:nat. fun y:nat. fun z:nat. ifz x then y else x * y + z", ["0 7 1", "3 7 1", MOST + " 1 1", "2 " + str(2**63) + " 0"]),
    (b"fix f:nat->nat. fun n:nat. ifz n then 1 else n * f (pred n)", ["0", "1", "5", "9", "21"]),
    (b"fix f:nat->nat->nat. fun n:nat. fun m:nat. ifz n then m else f (pred n) (succ m)", ["0 4", "6 4", "9 " + MOST]),
    (b"(fun g:nat->nat->nat. fun x:nat. g x 1) (fun a:nat. fun b:nat. a + b)", ["1", MOST]),
    (b"fun x:nat. fix y:nat. y", ["1"]),
    (b"fun " + b":nat. fun ".join(b"x%d" % it for it in range(40)) + b":nat. x39 - x0", [" ".join(str(it) for it in range(40))]),
    (b"fun x:nat. snd (x, pred x)", ["0", "1", MOST]),
]
WORKERS, MANY = ["1", "2", "3", "64"], ["--budget", "100000"]
NUMBERS = ["0", "1", "2", "3", "7", str(2**32), str(2**63), MOST]


def application(function, numbers):
    """The text of a function at numbers. A line feed is behind the function, since it may end in a remark."""
    return b"(" + function + b"\n) " + " ".join(numbers).encode()


def both(function, numbers, options):
    """What a call leaves, and what a run of the application's text leaves."""
    ran = call(["goi", "run", "p", *options], {"p": application(function, numbers)})
    return call(["goi", "call", "p", *numbers, *options], {"p": function}), ran


def agree(function, numbers, options):
    """Whether both leave one status, one output and nothing else, and whether that is a value or none."""
    called, ran = both(function, numbers, options)
    return called == ran, called[0] in (0, 5), called[1].startswith((b"value ", b"no value\n"))


def agrees(name, *asked):
    case(name, lambda: agree(*asked), (True, True, True))


def made(dice):
    """A function of some numbers, made by chance, which has the first of them in it, and how many they are."""
    names, body = [f"a{it}" for it in range(dice.randrange(1, 5))], ""
    while "a0" not in body:
        body = term(dice, 5, [(name, "nat") for name in names])
    return "".join(f"fun {name}:nat. " for name in names).encode() + body.encode(), len(names)


def cases():
    for function, rows in FUNCTIONS:
        for numbers in map(str.split, rows):
            at = f"of {function[:40]!r} at {numbers[:4]}"
            for workers in WORKERS:
                agrees(f"a call {at} by {workers}", function, numbers, [*MANY, "--workers", workers])
            # one worker's log is one log
            agrees(f"the log of a call {at}", function, numbers, [*MANY, "--schedule", "--tally"])
    # as many numbers as a type takes, and one more or less; and more than a call may have
    most = b"fun x:nat. " * 400 + b"7"
    for count, wanted in (399, 1), (400, 0), (401, 1):
        case(f"a call at {count} numbers", lambda count=count: call(["goi", "call", "p", *["1"] * count], {"p": most})[0], wanted)
    longest = b"(fun h:" + b"nat->" * 450 + b"nat. " + b"fun x:nat. " * 450 + b"h) (" + b"fun x:nat. " * 450 + b"x)"
    found = lambda: call(["goi", "call", "p", *map(str, range(900)), *MANY], {"p": longest})[1].split(b"\n")[0]
    case("a call at 900 numbers", found, b"value 899")
    case("a call at 1,001 numbers", lambda: call(["goi", "call", "p", *["1"] * 1001], {"p": most})[2], b"refused: NotGround\n")
    dice = random.Random(1)
    for it in range(60):
        function, count = made(dice)
        for row in range(2):
            workers = str(dice.randrange(1, 65)) if row else "1"
            numbers = [dice.choice(NUMBERS) for _ in range(count)]
            agrees(f"generated call {it} at {numbers} by {workers}", function, numbers, [*MANY, "--workers", workers])
