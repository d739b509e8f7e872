#!/usr/bin/env python3
"""Sets docs/paper/goi-paper.tex.

    release/paper.py [FILE]    writes FILE (`out/goi-paper.pdf`), and says what LaTeX warns of and what isn't so in it

Its version is that of VERSION; how many lines of definitions have to be believed is taken from README, which the gate compares; and crates, laws
and lines are counted. The same sources give the same bytes; the time is SOURCE_DATE_EPOCH, or else 0. Wanted: `pdflatex` (Debian: `texlive-latex-base`).
"""

import glob
import os
import re
import subprocess
import sys
import tempfile

TOP = os.path.dirname(os.path.dirname(os.path.realpath(__file__)))
SOURCE = "docs/paper/goi-paper.tex"


def read(path):
    with open(os.path.join(TOP, path), encoding="utf-8") as it:
        return it.read()


def lines_to_believe():
    """How many lines of definitions value and moves rest on, the law with its words and files, and all commands, as README tells it."""
    found = re.search(r"rest on ([\d,]+) lines of definitions, .* on ([\d,]+), and all commands on ([\d,]+)\.", read("README.md"))
    return dict(zip(("runlines", "headlines", "alllines"), found.groups()))


def counted():
    """How many crates and laws there are, and lines of definitions, of proofs and of code."""
    of = {kind: glob.glob(os.path.join(TOP, "crates", "*", kind, "**", "*.*t*"), recursive=True) for kind in ("specs", "proofs", "src")}
    texts = {kind: [read(it) for it in paths if os.path.isfile(it)] for kind, paths in of.items()}
    lines = {kind: sum(it.count("\n") for it in texts[kind]) for kind in texts}
    laws = sum(len(re.findall(r"^pub fn law_", it, re.M)) for it in texts["src"])
    crates = len({os.path.dirname(it) for it in glob.glob(os.path.join(TOP, "crates", "*", "src"))})
    found = {"crates": crates, "laws": laws, "speclines": lines["specs"], "prooflines": lines["proofs"], "codelines": lines["src"]}
    return {name: f"{it:,}" for name, it in found.items()}


def made(epoch=None):
    """The paper as bytes, and LaTeX's log of the last of three runs. A fault of LaTeX's is a RuntimeError with the end of its log."""
    words = {"version": read("VERSION").strip(), **lines_to_believe(), **counted()}
    given = "".join(f"\\def\\{name}{{{it.replace(',', '{,}')}}}" for name, it in words.items())
    epoch = str(epoch or os.environ.get("SOURCE_DATE_EPOCH") or 0)
    how = {**os.environ, "SOURCE_DATE_EPOCH": epoch, "FORCE_SOURCE_DATE": "1", "max_print_line": "1000"}
    with tempfile.TemporaryDirectory() as at:
        latex = ["pdflatex", "-interaction=nonstopmode", "-halt-on-error", "-no-shell-escape", "-jobname=goi-paper", "-output-directory", at]
        for _ in range(3):
            text = given + "\\input{" + os.path.join(TOP, SOURCE) + "}"
            ran = subprocess.run([*latex, text], cwd=at, env=how, stdin=subprocess.DEVNULL, capture_output=True, text=True, errors="replace")
            if ran.returncode:
                raise RuntimeError(ran.stdout[-2000:])
        with open(os.path.join(at, "goi-paper.pdf"), "rb") as it, open(os.path.join(at, "goi-paper.log"), encoding="utf-8", errors="replace") as log:
            return it.read(), log.read()


def pages(log):
    """How many pages a log tells of."""
    return int(re.search(r"Output written on .*\((\d+) pages?", log.replace("\n", ""))[1])


def warnings(log, points=3.0):
    """What a log warns of: references that lead nowhere, characters that a font lacks, and boxes that are wider by so many points."""
    found = re.findall(r"^(?:LaTeX Warning: .*|Missing character: .*)$", log, re.M)
    wide = re.findall(r"^Overfull \\[hv]box \(([\d.]+)pt too .*$", log, re.M)
    lines = re.findall(r"^Overfull \\[hv]box .*$", log, re.M)
    return found + [line for line, by in zip(lines, wide) if float(by) > points]


def odd(text):
    """What isn't so of the paper's text: laws, files and measured rows that the repository hasn't, references that are cited nowhere, and
    theorems that docs/THEOREMS.md numbers otherwise."""
    code = "".join(read(it) for it in glob.glob(os.path.join(TOP, "crates", "*", "src", "**", "*.rt"), recursive=True))
    laws = set(re.findall(r"^pub fn (law_\w+)", code, re.M))
    found = [f"no law {it}" for it in sorted(set(re.findall(r"\\law\{(\w+)\}", text)) - laws)]
    files = sorted(set(re.findall(r"\\file\{([\w/.]+)\}", text)))
    found += [f"no file crates/{it}" for it in files if not os.path.exists(os.path.join(TOP, "crates", it))]
    measured = [set(re.findall(r"[\d,.]*\d", it)) for path in ("bench/RESULTS.md", "docs/WHY.md") for it in read(path).split("\n") if it[:1] == "|"]
    for row in re.findall(r"^(.*) *\\\\ % measured$", text, re.M):
        numbers = set(re.findall(r"[\d,.]*\d", row.split("&", 1)[1]))
        found += [f"no such row: {row}"] * (not numbers or not any(numbers <= it for it in measured))
    cited = {it for keys in re.findall(r"\\cite\{([^}]*)\}", text) for it in keys.split(",")}
    found += [f"{it} is cited nowhere" for it in re.findall(r"\\bibitem\{(\w+)\}", text) if it not in cited]
    theorems = re.findall(r"^## \d+ (.*)$", read("docs/THEOREMS.md"), re.M)
    named = re.findall(r"\\begin\{theorem\}\[([^\]]*)\]", text)
    return found + [f"the theorems are {named}"] * (named[: len(theorems)] != theorems)


def main():
    into = sys.argv[1] if len(sys.argv) > 1 else os.path.join(TOP, "out", "goi-paper.pdf")
    pdf, log = made()
    os.makedirs(os.path.dirname(os.path.abspath(into)), exist_ok=True)
    with open(into, "wb") as it:
        it.write(pdf)
    print(f"{pages(log)} pages", *warnings(log), *odd(read(SOURCE)), sep="\n", file=sys.stderr)
    return 0


if __name__ == "__main__":
    sys.exit(main())
