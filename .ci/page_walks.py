"""What the parts of .ci/page share: programs with what the program prints of them and their pages, folds of a trace, counts of cases, and
ways to ask a page in a browser. try_walks holds each state that a page shows against the fold of its trace.
"""

import json
import os
import pathlib
import re
import subprocess
import time
import xml.dom.minidom

TOP = os.path.dirname(os.path.dirname(os.path.abspath(__file__)))
PAGE = os.path.join(TOP, "out/walk.html")
EXAMPLES = sorted(pathlib.Path(TOP, "examples").glob("*.pcf"))
# How many states of a run are looked at: fewer where the net is large, since its program alone takes long to lay out.
STATES, FEW_STATES = 90, 24

SUM = "(fix sum:nat->nat. fun n:nat. ifz n then 0 else n + sum (pred n)) %d\n"
# Boxes in boxes, so that the trace leaves parts of the box stack out.
DEEP = "(fun x:nat. x) (" * 14 + "3" + ")" * 14 + "\n"
# A fix inside a fix.
NESTED = """(fix outer:nat->nat. fun n:nat.
  ifz n then 0 else
    (fix inner:nat->nat. fun m:nat. ifz m then 0 else m + inner (pred m)) n
    + outer (pred n)) 3   # for n, n - 1, .. , 1
"""
# An order in which two forks are neighbours, a fork and the ticket that it makes, and the two answers of each fork.
FORKS = "(1 + 2) + (3 + 4)\n"
FORKS_ORDER = [0, 0, 1, 3, 0, 2, 0, 2, 1, 1, 3, 2, 3, 3]
MADE = {
    "long": (SUM % 50, ["--budget", "1000000", "--most", "200000"]),
    "workers": (SUM % 50, ["--budget", "1000000", "--most", "200000", "--workers", "4"]),
}

passed, failed = 0, 0


def judge(name, found, wanted=True):
    global passed, failed
    if found == wanted:
        passed += 1
        return
    failed += 1
    print(f"{name}:\n  found  {str(found)[:600]}\n  wanted {str(wanted)[:600]}")


# Programs, what the program prints of them, and pages.

def wide(leaves):
    """A program whose net has eleven nodes for each leaf and more: a sum, as flat as it can be."""
    if leaves == 1:
        return "(fun x:nat. x + (fun y:nat. succ y) x) 3"
    return f"({wide(leaves // 2)} + {wide(leaves - leaves // 2)})"


class Walk:
    """A program in a folder, what the program prints of it, and its page."""

    def __init__(self, program, folder, name, text, options):
        self.name, self.program, self.folder = name, program, folder
        self.file = os.path.join(folder, name + ".pcf")
        pathlib.Path(self.file).write_text(text, encoding="utf-8")
        self.text, self.options = text, options
        self.net = self.call("net", self.file)
        made = self.show(*options)
        self.page = os.path.join(folder, name + ".html")
        pathlib.Path(self.page).write_bytes(made)
        self.data = json.loads(re.search(rb'<script type="application/json" id="data">(.*?)</script>', made, re.S)[1])
        self.trace = self.data["trace"]

    def call(self, *words):
        ran = subprocess.run([self.program, *words], capture_output=True)
        return ran.stdout.decode()

    def show(self, *options):
        ran = subprocess.run([os.path.join(TOP, "tools/show-walk"), self.file, *options], capture_output=True,
                             env={**os.environ, "GOI": self.program})
        if ran.returncode:
            print(ran.stderr.decode())
        return ran.stdout

    @property
    def address(self):
        return pathlib.Path(self.page).as_uri()


class Shown:
    """What a page shows that wasn't made by tools/show-walk."""

    def __init__(self, name, net):
        self.name, self.net = name, net


def fold(trace):
    """The states along a trace: tokens by ticket, entries by node and boxes, the answer, and the node of the last move."""
    live, entries, answer, states, node = {}, {}, None, [], None
    head, body = trace.split("trace 1\n")
    value = re.match(r"value (.*)", head)

    def keep():
        states.append((dict(live), {key: list(sides) for key, sides in entries.items()}, answer, node))

    def opened(word):
        return None if word == "-" else word

    lines = body.split("\n")
    at = 0
    while lines[at].split(" ")[0] in ("live", "open"):
        word = lines[at].split(" ")
        if word[0] == "live":
            live[int(word[1])] = word[2:7]
        else:
            entries[(word[1], word[2])] = [opened(word[3]), opened(word[4])]
        at += 1
    if not live and value:
        answer = value[1]
    keep()
    for line in lines[at:]:
        if line == "end":
            return states
        before, after = line.split(" => ")
        word = before.split(" ")
        ticket, node, token = int(word[5]), int(word[7]), word[11:16]
        rest = after.split(" ")
        key = (word[7], token[4])
        if rest == ["kept"]:
            del live[ticket]
            entries[key][0 if word[9] == "left" else 1] = token[0]
        elif rest[0] == "answer":
            del live[ticket]
            answer = rest[1]
        else:
            live[ticket] = rest[:5]
            if rest[5:6] == ["fork"]:
                live[int(rest[6])] = rest[7:12]
                entries[key] = [None, None]
            elif rest[5:6] == ["joined"]:
                del entries[key]
        keep()
    raise ValueError("no end")


PROBES = pathlib.Path(TOP, ".ci/page.js").read_text(encoding="utf-8")


def ask(window, name, *given):
    """What a function of page.js answers in the page."""
    return window.script(PROBES + f"\nreturn {name}(...arguments);", *given)


def wanted_of(state, at, first, names):
    live, entries, answer, node = state
    arrow = {"up": " ↑", "down": " ↓"}
    rows = [[str(ticket), "asks" if token[0] == "?" else "= " + token[0], token[2] + arrow[token[1]], token[3], token[4]]
            for ticket, token in sorted(live.items())]
    opened = [[names[int(number)] + " " + number, boxes, sides[0] or "waits", sides[1] or "waits"]
              for (number, boxes), sides in reversed(entries.items())]
    return {"live": rows, "open": opened, "liveCount": str(len(rows)), "openCount": str(len(opened)), "node": node, "now": str(first + at)}


def spread(length, count):
    """So many places from 0 to a length, the ends and the first ones among them."""
    if length < count:
        return list(range(length + 1))
    step = length / (count // 2)
    return sorted({*range(count // 2), *(round(at * step) for at in range(count // 2)), length - 1, length})


def try_states(window, walk, name, trace, count=STATES):
    """Each state that the page shows is the trace's."""
    states = fold(trace)
    names = dict(enumerate(line.split(" ")[2] for line in walk.net.split("\n") if line.startswith("node ")))
    moves = [line for line in trace.split("\n") if line.startswith("move ")]
    first = int(moves[0].split(" ")[1]) if moves else 0
    judge(f"{name}: number of moves", window.script("return walk.view.run.length"), len(states) - 1)
    workers = {line.split(" ")[3] for line in moves}
    judge(f"{name}: workers", window.script("return walk.view.run.workers"), max(map(int, workers), default=0) + 1)
    at = spread(len(states) - 1, count)
    for place, found in zip(at, ask(window, "shownStates", at)):
        if place > 0:
            try_stacks(name, moves[place - 1], found["stacks"])
        wanted = wanted_of(states[place], place, first, names)
        shown = {key: found[key] for key in wanted}
        for key in ("live", "open"):
            if len(wanted[key]) > 60:
                del wanted[key], shown[key]
        if not moves:
            del wanted["now"], shown["now"]
        judge(f"{name}: state {place}", shown, wanted)
        answer = states[place][2]
        judge(f"{name}: answer at {place}", found["answer"] == answer if answer else found["answer"][:3] in ("not", "non"))
        spots = {(token[1], token[2]) for token in states[place][0].values()}
        judge(f"{name}: tokens drawn at {place}", len(spots) <= found["glyphs"] <= len(states[place][0]))


def parts_of(stack):
    """The parts of a stack, top first, and their number with those that are left out."""
    parts, depth, last = [], 0, ""
    for sign in "" if stack == "-" else stack + ".":
        depth += (sign in "(<") - (sign in ")>")
        if sign == "." and depth == 0:
            parts.append(last)
            last = ""
        else:
            last += sign
    left = int(parts.pop()[1:]) if parts and parts[-1].startswith("+") else 0
    return parts, len(parts) + left


def try_stacks(name, line, shown):
    """The two stacks of a move, and that no more is marked as changed than a rule can change."""
    before, after = line.split(" => ")
    old = before.split(" ")[14:16]
    new = after.split(" ")[3:5] if len(after.split(" ")) >= 5 else old
    for was, stack, found, most in zip(old, new, shown, (1, 1)):
        (_, length), (parts, count) = parts_of(was), parts_of(stack)
        tops = (found["gone"] <= most, found["fresh"] <= most, count - length == found["fresh"] - found["gone"])
        judge(f"{name}: stack {stack}", (found["count"], found["parts"], *tops), (str(count), parts[:len(found["parts"])], *[True] * 3))
        judge(f"{name}: parts of {stack}", len(found["parts"]) >= min(count, 6))


def quiet(window, name):
    """No error in the console, and nothing was fetched."""
    judge(f"{name}: console", [line["message"] for line in window.log() if line["level"] == "SEVERE"], [])
    judge(f"{name}: nothing is fetched", window.script("return performance.getEntriesByType('resource').length"), 0)


def try_walks(window, walks, count=STATES):
    for walk in walks:
        began = time.time()
        window.open(walk.address)
        try_states(window, walk, walk.name, walk.trace, count)
        # (A picture of megabytes takes this script long to read.)
        if walk.name != "vast":
            try_picture(window, walk)
        quiet(window, walk.name)
        if time.time() - began > 5:
            print(f"{walk.name}: {time.time() - began:.1f} s")


def try_picture(window, walk):
    """The saved picture is well-formed, and has each node and each wire."""
    middle = (len(fold(walk.trace)) - 1) // 2
    text = window.script("walk.show(arguments[0]); return walk.pictureText()", middle)
    try:
        picture = xml.dom.minidom.parseString(text)
    except xml.parsers.expat.ExpatError as error:
        judge(f"{walk.name}: picture", str(error))
        return
    classes = [it.getAttribute("class").split() for tag in ("g", "path") for it in picture.getElementsByTagName(tag)]
    found = (picture.documentElement.tagName, sum("node" in it for it in classes), sum("wire" in it for it in classes))
    judge(f"{walk.name}: colours of the picture", "var(" in text, False)
    judge(f"{walk.name}: picture", found, ("svg", walk.net.count("\nnode "), walk.net.count("\nwire ")))


# Hands.

UP, RIGHT, LEFT, HOME, END, ESCAPE, ENTER, TAB = "\ue013", "\ue014", "\ue012", "\ue011", "\ue010", "\ue00c", "\ue007", "\ue004"


def now(window):
    return window.script("return walk.playing.motion ? -1 : Number(document.getElementById('slider').value)")


def comes(window, wanted, seconds=60):
    """What the slider comes to within some seconds: the wanted number of moves, or where it is at the end."""
    until = time.time() + seconds
    while time.time() < until and now(window) != wanted:
        time.sleep(0.03)
    return now(window)


def press(window, x, y, by_x=0, by_y=0):
    """Presses the pointer at a place, and moves it before it is let go."""
    moves = [{"type": "pointerMove", "x": round(x), "y": round(y), "duration": 0}, {"type": "pointerDown", "button": 0}]
    if by_x or by_y:
        moves.append({"type": "pointerMove", "x": round(x + by_x), "y": round(y + by_y), "duration": 50})
    moves.append({"type": "pointerUp", "button": 0})
    window.call("POST", "/actions", {"actions": [{"type": "pointer", "id": "mouse", "actions": moves}]})


# Windows, and orders of moves.

# The windows in which the page is measured: those of projectors.
PROJECTED = ((1280, 800), (1920, 1080), (1024, 768), (800, 600))
# A low one, as what a browser with its bars leaves of a portable computer; and a telephone upright.
LOW, PHONE = (1280, 657), (360, 740)
SIZES = (*PROJECTED, LOW, PHONE)


def moves_of(trace):
    """Ticket, kind, second ticket and place in the join table of each move."""
    moves = []
    for line in trace.split("\n"):
        if line.startswith("move "):
            word = line.split(" ")
            kind = word[17] if word[17] in ("kept", "answer") else word[22] if len(word) > 22 else "solo"
            moves.append((int(word[5]), kind, int(word[23]) if kind == "fork" else None, (word[7], word[15])))
    return moves


def forks_walk(program, folder):
    path = os.path.join(folder, "forks.schedule")
    pathlib.Path(path).write_text("schedule 1\n" + "".join(f"{ticket}\n" for ticket in FORKS_ORDER) + "end\n", encoding="utf-8")
    return Walk(program, folder, "forks", FORKS, ["--replay", path])


def make_walks(program, folder):
    walks = []
    for path in EXAMPLES:
        ran = subprocess.run([program, "net", str(path)], capture_output=True)
        if ran.returncode == 0:
            walks.append(Walk(program, folder, path.stem, path.read_text(encoding="utf-8"), []))
    judge("examples", len(walks) >= 17)
    return walks
