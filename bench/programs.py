"""What the benches share: the programs that they run, the built program that they run them with, and its times."""

import contextlib
import os
import subprocess
import sys
import time

sys.dont_write_bytecode = True
sys.path.insert(0, os.path.join(os.path.dirname(os.path.dirname(os.path.realpath(__file__))), "tools"))
import program  # noqa: E402
from program import load  # noqa: E402, F401 (a bench takes another one from here)

# What is measured: the program alone, and not the script that builds it.
GOI = os.environ.get("GOI") or program.BUILT


def ready():
    """Builds the program first if need be, where GOI names no other one."""
    if not os.environ.get("GOI"):
        program.built()


def total(n):
    """A sum to n by recursion."""
    return "(fix f:nat->nat. fun n:nat. ifz n then 0 else n + f (pred n)) %d" % n


def wide(n):
    """The generated program whose value is 2 to the power of n + 1."""
    term = "d 1"
    for _ in range(n):
        term = "(%s) + (%s)" % (term, term)
    return "(fun d:nat->nat. %s) (fun x:nat. x + x)" % term


def calls(n, argument):
    """A sum of n calls, a power of two, of one recursive function that doesn't fork."""
    term = "f %d" % argument
    while n > 1:
        term = "(%s) + (%s)" % (term, term)
        n //= 2
    return "(fun f:nat->nat. %s) (fix f:nat->nat. fun n:nat. ifz n then 0 else succ (f (pred n)))" % term


def under(n):
    """A fixpoint that asks for itself under n arguments: their n words lie on the work stack, and each pass moves them."""
    return "(fix y:%snat. y)%s" % ("nat->" * n, " 1" * n)


def grouped(n, name):
    """A sum of n uses of one variable, in groups of 100."""
    sizes = [100] * (n // 100) + [n % 100] * (n % 100 > 0)
    return "+".join("(" + "+".join([name] * size) + ")" for size in sizes)


# Name, text and budget of the programs that several benches run.
PROGRAMS = (
    ("sum", total(300), 10_000_000),
    ("wide", wide(12), 10_000_000),
    ("calls", calls(64, 40), 10_000_000),
    ("loop", "fix y:nat. y", 1_000_000),
)

# And of those that are run by several workers alone.
SHARED = (
    PROGRAMS[0],
    ("left", "(fix f:nat->nat. fun n:nat. ifz n then 0 else f (pred n) + n) 300", 10_000_000),
    ("fibonacci", "(fix f:nat->nat. fun n:nat. ifz n then 0 else ifz pred n then 1 else f (pred n) + f (pred (pred n))) 16", 10_000_000),
    *PROGRAMS[1:3],
    ("long", calls(64, 160), 10_000_000),
    PROGRAMS[3],
)


@contextlib.contextmanager
def real_time():
    """What is called in it has the processors before all other work, where that can be had: other work doesn't blur its times."""
    try:
        os.sched_setscheduler(0, os.SCHED_FIFO, os.sched_param(50))
    except (AttributeError, OSError):
        yield
        return
    try:
        yield
    finally:
        os.sched_setscheduler(0, os.SCHED_OTHER, os.sched_param(0))


def put(folder, name, text):
    """Writes a file, and answers its path."""
    path = os.path.join(folder, name)
    with open(path, "w", encoding="ascii") as file:
        file.write(text)
    return path


def timed(*words):
    """A call's time in seconds, and how it ended."""
    begin = time.perf_counter()
    done = subprocess.run(words, stdin=subprocess.DEVNULL, stdout=subprocess.PIPE, stderr=subprocess.PIPE, check=False)
    return time.perf_counter() - begin, done


def least(rounds, *words):
    """The least time of several calls, and how the last one ended."""
    taken = [timed(*words) for _ in range(rounds)]
    return min(it[0] for it in taken), taken[-1][1]


def refused(done):
    """Ends the bench with what a call refused."""
    sys.exit("%s: %s" % (os.path.basename(sys.argv[0]), (done.stderr or done.stdout).decode(errors="replace").strip()))


def report(done):
    """The first line of a run's report, and the moves."""
    lines = done.stdout.decode().split("\n")
    if len(lines) < 2 or not lines[1].startswith("moves "):
        refused(done)
    return lines[0], int(lines[1].split()[1])


def span(path, budget):
    """The moves and the rounds of a program, as `goi span` counts them."""
    done = subprocess.run([GOI, "span", path, "--budget", str(budget)], stdin=subprocess.DEVNULL, stdout=subprocess.PIPE, stderr=subprocess.PIPE, check=False)
    lines = dict(line.split() for line in done.stdout.decode().splitlines() if line.count(" ") == 1)
    if "moves" not in lines or "rounds" not in lines:
        refused(done)
    return int(lines["moves"]), int(lines["rounds"])
