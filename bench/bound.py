"""The machine's own bound: how many times the work of one run so many copies of it do at once. Read by the scripts beside it."""

import subprocess
import time


def at_once(words, copies):
    """How long so many copies of a command take that are started together."""
    begin = time.perf_counter()
    running = [subprocess.Popen(words, stdout=subprocess.DEVNULL, stderr=subprocess.DEVNULL) for _ in range(copies)]
    for it in running:
        it.wait()
    return time.perf_counter() - begin


def bound(words, rounds=3, counts=(2, 4)):
    """For each count, the work of so many copies at once in that of one."""
    alone = min(at_once(words, 1) for _ in range(rounds))
    return {count: count * alone / min(at_once(words, count) for _ in range(rounds)) for count in counts}


def line(found):
    """The bound as a line."""
    return "the machine's own bound: " + ", ".join("%d copies at once do %.2f times the work of one" % it for it in found.items())


def told(words):
    """The bound of a command as a line."""
    return line(bound(words))
