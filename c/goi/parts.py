"""The scripts of tools/ for whoever has texts in memory: a refusal with its line and a mark, a translation by value, a net as a picture,
and a walk as a page.
"""

import base64
import importlib.machinery
import importlib.util
import json
import os
import re
import shutil
import subprocess
import sys

import goi

_HERE = os.path.dirname(os.path.abspath(__file__))
_PLACE = '<script type="application/json" id="data"></script>'


def part(name):
    """The path of a file of tools/: a release has a copy beside this file, and a checkout has the folder itself."""
    beside = os.path.join(_HERE, "parts", name)
    return beside if os.path.exists(beside) else os.path.join(os.path.dirname(os.path.dirname(_HERE)), "tools", name)


def script(name):
    """A script of tools/, as a module."""
    loader = importlib.machinery.SourceFileLoader("goi_" + re.sub(r"\W", "_", name), part(name))
    made = importlib.util.module_from_spec(importlib.util.spec_from_loader(loader.name, loader))
    # (a script imports the one that all share by its name, which may be that of somebody else's module here)
    keeps, theirs = (sys.dont_write_bytecode, sys.path[:]), sys.modules.pop("program", None)
    try:
        loader.exec_module(made)
    finally:
        sys.dont_write_bytecode, sys.path[:] = keeps
        sys.modules.pop("program", None)
        if theirs is not None:
            sys.modules["program"] = theirs
    return made


_why = script("why")


def place(text, refused):
    """Of a program (a str) and its goi.Refused: line and column, counted from 0, the fault's name, and the sentence on it. A fault of the
    whole text has the place 0, 0."""
    name, at = refused.kind, refused.place
    whole = text.encode()
    before = whole[: at or 0].decode(errors="replace")
    says = _why.OF_PROGRAMS.get(name) or _why.OF_FILES.get(name, name)
    if name == "Unexpected" and at >= len(whole):
        says = _why.AT_END
    if at is not None:
        says += _why.hint_of(name, before, whole[at:].decode(errors="replace"))
    return before.count("\n"), len(before) - before.rfind("\n") - 1, name, says


def message(text, refused):
    """The sentence on a program's refusal, with its line and a mark where it has a place."""
    row, column, name, says = place(text, refused)
    if refused.place is None:
        return f"{says} [{name}]"
    line = (text.split("\n") + [""])[row].rstrip("\r")
    # (what is put on a screen by itself moves nothing on it)
    shown = "".join(it if it == "\t" or it.isprintable() else "\ufffd" for it in line)
    mark = "".join("\t" if it == "\t" else " " for it in line[:column])
    return f"line {row + 1}, column {column + 1}: {says} [{name}]\n  {shown}\n  {mark}^"


def by_value(text):
    """The program's translation by value, as a program that is run by name. Where there is none, it is goi.Refused."""
    goi.run(text, 1, by_value=True)
    tool = script("by-value")
    reader = tool.Reader(goi.check(text, term=True).split("\n")[1][len("term ") :])
    before = sys.getrecursionlimit()
    sys.setrecursionlimit(100_000)
    try:
        return "\n".join(tool.shown(tool.Translation(reader.term(), set(reader.tokens)).whole)) + "\n"
    finally:
        sys.setrecursionlimit(before)


def picture(listing):
    """A net's listing as SVG, by Graphviz; None where Graphviz isn't there."""
    if shutil.which("dot") is None:
        return None
    draw = script("draw-net")
    dot = draw.dot_of(*draw.parse(listing), False).encode()
    return subprocess.run(["dot", "-Tsvg"], input=dot, stdout=subprocess.PIPE, check=True).stdout


def as_image(svg):
    """A picture as an address that is the picture."""
    return f"data:image/svg+xml;base64,{base64.b64encode(svg).decode()}"


def _empty_page():
    """The page without a walk: a release has it, and a checkout makes it of its parts."""
    if not os.path.exists(part("walk.html")):
        return script("walk/build").page()
    with open(part("walk.html"), encoding="utf-8") as it:
        return it.read()


def page(name, text, net, trace):
    """The page that tools/show-walk makes, of a program, its net's listing and its trace."""
    given = {"name": name, "file": name, "program": text, "net": net, "trace": trace}
    before, after = _empty_page().split(_PLACE)
    begin, end = _PLACE.split("</")
    # (a < could end the element in which the text is)
    return before + begin + json.dumps(given).replace("<", "\\u003c") + "</" + end + after
