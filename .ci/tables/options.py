"""`--by-value` with functions, and `--progress`."""

import re
import time

from tables.cases import DOUBLE, SUM, call, case, left


def cases():
    for workers in [], ["--workers", "4"]:
        told = lambda workers=workers: left(["goi", "run", "p", "--by-value", *workers], {"p": DOUBLE}).split(b";")[0]
        case(f"a function by value {workers}", told, b"0 value 6")

    def shows(words, text):
        begun = time.monotonic()
        status, out, err = call(["goi", "run", "p", "--progress", *words], {"p": text})
        # (whoever reads is woken where the run is over)
        soon = time.monotonic() - begun < 3
        counts = [int(it) for it in re.findall(rb"progress (\d+)\n", err)]
        told = b"".join(b"progress %d\n" % it for it in counts) == err
        return status, out, len(counts), counts == sorted(counts), told, counts[-1], soon

    for words, text, moves in ([], DOUBLE, 30), (["--workers", "4"], DOUBLE, 30), (["--workers", "2", "--by-value"], SUM, 2376):
        wanted = 0, b"value 6\nmoves %d\n" % moves, 17, True, True, moves, True
        case(f"progress {words}", lambda words=words, text=text: shows(words, text), wanted)
