"""Long runs of a circuit's module: what a run takes of the stack, which is small in the calls of the tables, doesn't grow with its edges."""

import os

from judging import EXAMPLES
from tables.cases import call, case

with open(os.path.join(EXAMPLES, "loop.pcf"), "rb") as file:
    LOOP = file.read()


def at_work(budget, *words):
    """Status and output of so many edges of examples/loop.pcf, with as many cells as there can be."""
    return call(["goi", "circuit", "p", "--cells", "1048575", "--budget", str(budget), *words], {"p": LOOP}, 900)


def dump():
    """How many times the dump of 10,000 edges tells, and the last of them."""
    status, out, err = at_work(10000, "--vcd")
    times = [it for it in out.split(b"\n") if it.startswith(b"#")]
    return status, err, len(times), times[-1:]


def cases():
    case("a million edges of a circuit", lambda: at_work(1000000, "--run"), (5, b"no value\ncycles 1000000\n", b""))
    case("the dump of 10,000 edges of a circuit", dump, (5, b"", 20003, [b"#100010"]))
