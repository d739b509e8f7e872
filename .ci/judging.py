"""What the scripts of the gate share: cases that are judged and counted, the program that they are handed, and their last line."""

import os
import re
import sys

TOP = os.path.dirname(os.path.dirname(os.path.realpath(__file__)))
sys.dont_write_bytecode = True
sys.path.insert(0, os.path.join(TOP, "tools"))
from program import call, lines, load  # noqa: E402, F401 (the scripts take them from here)

EXAMPLES = os.path.join(TOP, "examples")
passed = 0
failed = []


def judge(name, found, wanted=True):
    """One case: what was found beside what was wanted."""
    global passed
    if type(found) is type(wanted) and found == wanted:
        passed += 1
        return
    failed.append(name[:200])
    show = lambda it: repr(it) if len(repr(it)) < 400 else repr(it)[:400] + " .."
    print(f"{name[:300]}:\n  found  {show(found)}\n  wanted {show(wanted)}", flush=True)


def end():
    """Says what failed and the counts, and answers the status of the script."""
    if failed:
        print("failed: " + ", ".join(failed))
    print(f"{passed} passed, {len(failed)} failed")
    return 1 if failed else 0


def asked():
    """The path of the program that the script is called with. Without one the script ends, and has failed."""
    if len(sys.argv) != 2 or not os.path.isfile(sys.argv[1]):
        print("no program to call: " + " ".join(sys.argv[1:]))
        print("0 passed, 1 failed")
        sys.exit(1)
    return os.path.abspath(sys.argv[1])


def put(at, name, data):
    """Writes a file of a folder, and answers its path."""
    path = os.path.join(at, name)
    with open(path, "wb") as it:
        it.write(data if isinstance(data, bytes) else data.encode())
    return path


def counted(name, words, limit=3600):
    """Runs a script that counts for itself, and adds up what it counts."""
    global passed
    status, out, err = call(words, limit)
    found = re.search(r"^(\d+) passed, (\d+) failed\n\Z", out.decode(errors="replace"), re.M)
    judge(name, (status, found and found[2], err), (0, "0", b""))
    passed += int(found[1]) if found else 0
    print(out.decode(errors="replace").rpartition("\n" if not found else found[0])[0], end="", flush=True)


def counts(words, limit=3600):
    """The status of such a script, and how many cases passed and failed; or its output, where its last line is another one."""
    status, out, _ = call(words, limit)
    found = re.search(r"^(\d+) passed, (\d+) failed\n\Z", out.decode(errors="replace"), re.M)
    return (status, int(found[1]), int(found[2])) if found else (status, out[-400:])


def other(at, name, program, lines):
    """A program that is `program` but for what these lines of a shell do before it; PROGRAM stands for it in them."""
    path = put(at, name, f'#!/bin/sh\n{lines}\nexec PROGRAM "$@"\n'.replace("PROGRAM", f'"{program}"'))
    os.chmod(path, 0o755)
    return path
