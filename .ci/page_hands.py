"""Tries what hands do with the page of a walk, and what it folds from the lines: keys, pointer and files, parts of a run, exchanged moves,
who waits for what, signatures in words, rounds, colours, the tour, and two runs beside each other.
"""

import json
import os
import pathlib
import re
import time

from page_walks import (END, ENTER, ESCAPE, FEW_STATES, HOME, LEFT, PAGE, RIGHT, UP, ask, comes, fold, judge, moves_of,
                        now, press, quiet, spread, try_states, wanted_of)


def try_keys(window, double):
    window.open(double.address)
    for keys, wanted in ((RIGHT, 1), (RIGHT, 2), (LEFT, 1), (END, 30), (LEFT, 29), (HOME, 0), ("]", 3), ("]", 15), ("[", 3), ("[", 0)):
        window.keys(keys)
        judge(f"key {keys!r}", comes(window, wanted), wanted)
    window.script("walk.show(7)")
    # From the question in front of the box to its answer and back.
    for keys, wanted in (("o", 10), ("o", 7), ("n", 11), ("N", 7), ("m", 8), ("M", 7)):
        window.keys(keys)
        judge(f"key {keys!r}", comes(window, wanted), wanted)
    window.keys("g12" + ENTER)
    judge("a number typed", comes(window, 12), 12)
    window.script("document.activeElement.blur()")
    window.keys(HOME)
    comes(window, 0)
    window.script("walk.setSpeed(4)")
    window.keys(" ")
    time.sleep(0.5)
    window.keys(" ")
    judge("pause", 0 < comes(window, -2, 0.3) < 30)
    window.script("walk.setSpeed(50)")
    window.keys(" ")
    judge("played to the end", comes(window, 30), 30)
    judge("the answer is shown", window.script("return document.getElementById('answer').textContent"), "6")
    judge("the answer in the picture", window.script("return document.querySelector('.answer').textContent"), "value 6")
    window.keys("<")
    judge("slower", window.script("return walk.playing.speed"), 10)
    window.keys("t")
    judge("types", window.script("return [...document.querySelectorAll('.label')].some(it => it.textContent === '6 : !nat \u22b8 nat')"))
    window.keys("t")
    texts = window.script("return [...document.querySelectorAll('.label')].map(it => it.textContent)")
    judge("no types", texts, [str(it) for it in range(10)])
    for key, what in (("f", "follow"), ("s", "card"), ("t", "types")):
        before = window.script("return walk.view[arguments[0]]", what)
        window.keys(key)
        judge(f"key {key}", window.script("return walk.view[arguments[0]]", what), not before)
        judge(f"key {key}: pressed", window.script("return document.getElementById(arguments[0]).getAttribute('aria-pressed')", what),
              str(not before).lower())
    window.keys("c")
    judge("colour by worker", window.script("return walk.view.colourBy"), "worker")
    scale = window.script("return walk.camera.scale")
    window.keys("+")
    judge("larger", window.script("return walk.camera.scale") > scale)
    window.keys("0")
    x = window.script("return walk.camera.x")
    window.keys("h")
    judge("to the left", window.script("return walk.camera.x") > x)
    window.keys("d")
    judge("dark", window.script("return document.documentElement.dataset.theme"), "dark")
    window.keys("?")
    judge("keys are listed", window.script("return document.getElementById('keys').open"))
    window.keys(ESCAPE)
    judge("and put away", window.script("return document.getElementById('keys').open"), False)
    listed = window.script("return document.getElementById('keys').textContent")
    judge("each key is listed", [key for key in window.script("return Object.keys(walk.keys)")
                                 if key not in (" ", "=") and not key.startswith("Arrow") and key not in listed], [])


def try_hands(window, double, walks):
    """Pointer, address, files."""
    window.open(double.address + "#move=14")
    judge("the address", now(window), 14)
    window.script("location.hash = '#move=3'")
    judge("another address", comes(window, 3), 3)
    for odd in "zoom=NaN", "zoom=-1", "move=x", "move=", "round=abc":
        window.open("about:blank")
        window.open(f"{double.address}#{odd}")
        told = window.script("return [walk.view.run.state.at, isFinite(walk.camera.scale), isFinite(walk.camera.x)]")
        said = [it["message"] for it in window.log() if it["level"] == "SEVERE"]
        judge(f"an address with {odd}", (told, said), ([0, True, True], []))
    window.open(double.address + "#move=3")
    x, y = ask(window, "middleOf", '.node[data-node="7"]')
    press(window, x, y)
    judge("a press on a node", comes(window, 7), 7)
    x, y = ask(window, "middleOf", "#live .ticket")
    press(window, x, y)
    judge("a press on a ticket", comes(window, 8), 8)
    before = window.script("return walk.camera.x")
    x, y = ask(window, "middleOf", "#picture")
    press(window, x, y + 60, 50, 0)
    judge("dragged", round(window.script("return walk.camera.x") - before), 50)
    x, y = ask(window, "middleOf", "#strip")
    press(window, x, y)
    judge("a press on the strip", 13 <= comes(window, 15, 2) <= 17)
    try_piles(window, next(it for it in walks if it.name == "fibonacci"))
    try_pinch(window, double)
    try_files(window, double, walks)
    for walk in walks:
        window.open(walk.address)
        judge(f"{walk.name}: rows and sentences", ask(window, "wrongRows"), [])
        if walk.name in ("double", "pairs", "twice", "order"):
            wrong, count = ask(window, "otherEnds")
            judge(f"{walk.name}: questions and answers", (wrong, count > 20), ([], True))


def try_piles(window, walk):
    """Of many tokens on one wire a press lists all."""
    states = fold(walk.trace)
    crowds = [(sum(token[1:3] == ["up", "11"] for token in state[0].values()), at) for at, state in enumerate(states)]
    most, at = max(crowds)
    window.open(walk.address + f"#move={at}")
    judge("a pile", window.script("return document.querySelector('.pile[data-wire=\"11\"] text').textContent"), f"+{most - 3}")
    press(window, *ask(window, "middleOf", '.pile[data-wire="11"]'))
    on_wire = sum(token[2] == "11" for token in states[at][0].values())
    wanted = f"{on_wire} of {len(states[at][0])}, on wire 11"
    judge("tokens of one wire", window.script("return document.getElementById('live-count').textContent"), wanted)
    press(window, *ask(window, "middleOf", "#live-all"))
    judge("all tokens", window.script("return document.getElementById('live-count').textContent"), str(len(states[at][0])))


def try_pinch(window, walk):
    """Two fingers that go apart make the picture larger."""
    window.open(walk.address)
    x, y = ask(window, "middleOf", "#picture")
    scale = window.script("return walk.camera.scale")

    def finger(name, side):
        go = {"type": "pointerMove", "duration": 50, "y": round(y)}
        down, up = ({"type": kind, "button": 0} for kind in ("pointerDown", "pointerUp"))
        actions = [{**go, "x": round(x + side * 40)}, down, {**go, "x": round(x + side * 80)}, up]
        return {"type": "pointer", "id": name, "parameters": {"pointerType": "touch"}, "actions": actions}

    window.call("POST", "/actions", {"actions": [finger("one", -1), finger("two", 1)]})
    judge("two fingers", 1.7 < window.script("return walk.camera.scale") / scale < 2.3)


def try_large(window, walk):
    """Of a large net the window has what it shows: node by node, or in rough where that is too much."""
    window.open(walk.address)
    for at in (0, 700, 1500):
        window.script("walk.show(arguments[0])", at)
        judge(f"nodes in the window after {at} moves", ask(window, "missingNodes"), [0, False])
    for factor in (0.5, 0.5, 4):
        window.script("walk.zoom(arguments[0])", factor)
        missing, rough = ask(window, "missingNodes")
        judge(f"nodes in the window, {factor} as large", missing == 0 or rough)
    window.script("walk.showAll()")
    judge("the whole in rough", ask(window, "missingNodes")[1])
    window.keys("++++++++++++++++++++")
    judge("and node by node again", ask(window, "missingNodes"), [0, False])


def try_files(window, double, walks):
    """Files of a walk are opened, and what doesn't fit together is refused with the line's number."""
    pairs = next(it for it in walks if it.name == "pairs")
    window.open(pathlib.Path(PAGE).as_uri())
    judge("an empty page asks for files", window.script("return !document.getElementById('nothing').hidden"))
    quiet(window, "the empty page")

    def opened(*files):
        return ask(window, "openTexts", list(files))

    judge("a net without a trace", opened(("a.net", double.net))["trouble"], "No trace is among these files.")
    judge("a trace without a net", opened(("a.trace", double.trace))["trouble"], "No net is among these files.")
    judge("three files", opened(("d.net", double.net), ("d.trace", double.trace), ("d.pcf", double.text)), {"trouble": "", "name": "d.pcf"})
    judge("a trace alone", opened(("other.trace", double.trace)), {"trouble": "", "name": "d.pcf"})
    try_states(window, double, "opened files", double.trace)
    lines = double.trace.split("\n")

    def refused(name, changed, line, why):
        said = opened(("d.net", double.net), ("d.trace", "\n".join(changed)))["trouble"]
        wanted = f"Line {line} of the trace {why}"
        judge(name, said[:len(wanted)], wanted)

    other = pairs.trace.split("\n")
    refused("a trace of another net", other, 4, "doesn't fit the net")
    refused("a line left out", lines[:12] + lines[13:], 13, "is out of order")
    refused("another node", [it.replace("node 5 Const", "node 4 Const") for it in lines], 13, "doesn't fit the net")
    refused("another wire", [re.sub(r"=> (.) down 1 ", r"=> \1 down 3 ", it) for it in lines], 8, "doesn't fit the net")
    refused("another ticket", lines[:10] + [lines[10].replace("ticket 0", "ticket 5")] + lines[11:], 11, "doesn't fit the lines before it")
    refused("a token elsewhere", lines[:10] + [lines[10].replace(" ? ", " 7 ", 1)] + lines[11:], 11, "doesn't fit the lines before it")
    refused("a line of another kind", lines[:10] + ["hello"] + lines[10:], 11, "can't stand there")
    judge("a trace without its end", opened(("d.net", double.net), ("d.trace", "\n".join(lines[:10])))["trouble"],
          "The trace has no line `end`.")
    changed = double.net.replace("node 2 Con 1 3 4", "node 2 Con 1 3 99")
    judge("a net with a wire that isn't there", opened(("d.net", changed), ("d.trace", double.trace))["trouble"],
          "Line 14 of the net can't stand there: node 2 Con 1 3 99")
    ask(window, "dropTexts", [("p.net", pairs.net), ("p.trace", pairs.trace), ("p.pcf", pairs.text)])
    until = time.time() + 5
    while time.time() < until and window.script("return walk.view.name") != "p.pcf":
        time.sleep(0.05)
    judge("dropped files", window.script("return walk.view.name + ' ' + walk.view.run.length"), "p.pcf 38")
    opened(("d.net", double.net), ("d.trace", double.trace), ("d.pcf", double.text))
    opened(("d.trace", "\n".join(other)))
    changed = double.net.replace("node 8 Root 9\n", "")
    judge("a net with a loose wire", opened(("d.net", changed), ("d.trace", double.trace))["trouble"],
          "Wire 9 of the net has an end without a node.")
    judge("what was open is open still", window.script("return walk.view.name + ' ' + walk.view.run.length"), "d.pcf 30")
    quiet(window, "refused files")


# Windows of a trace, and schedules with two moves exchanged.

def try_windows(window, walk):
    whole = fold(walk.trace)
    for start, most in ((0, 30), (1000, 300), (1001, 1), (len(whole) - 2, 10), (len(whole) + 5, 10)):
        name = f"window of {most} from {start}"
        made = walk.show("--from", str(start), "--most", str(most))
        path = os.path.join(walk.folder, "window.html")
        pathlib.Path(path).write_bytes(made)
        window.open(pathlib.Path(path).as_uri())
        trace = json.loads(re.search(rb'id="data">(.*?)</script>', made, re.S)[1])["trace"]
        try_states(window, walk, name, trace, 60)
        why = window.script("return walk.whyNoSwap(walk.view.run)")
        judge(f"{name}: no swap", why, "Only part of the run is here, and a schedule has all of it.")
        quiet(window, name)


def may_swap(one, two):
    if one[0] == two[0] or two[0] == one[2] or one[1] == two[1] == "fork":
        return False
    return not (one[1] == "kept" and two[1] == "joined" and one[3] == two[3])


def read_schedule(text):
    lines = text.split("\n")
    judge("a schedule's form", (lines[0], lines[-2:]), ("schedule 2", ["end", ""]))
    return [int(ticket) for ticket, count in (line.split(" ") for line in lines[1:-2]) for _ in range(int(count))]


def try_swap(window, walk, runs):
    """Where two moves may be exchanged the page offers their schedule, and the program runs it to the same value in as many moves."""
    moves = moves_of(walk.trace)
    window.open(walk.address)
    offered = ask(window, "swapsOffered", list(range(len(moves) - 1)))
    judge(f"{walk.name}: where a swap is offered", offered, [may_swap(*pair) for pair in zip(moves, moves[1:])])
    places = [at for at, good in enumerate(offered) if good]
    states = fold(walk.trace)
    for at in places[::max(1, len(places) // runs)][:runs]:
        text = window.script("walk.show(arguments[0]); return walk.swappedSchedule(walk.view.run)", at)
        tickets = [move[0] for move in moves]
        tickets[at:at + 2] = [tickets[at + 1], tickets[at]]
        judge(f"{walk.name}: schedule swapped at {at}", read_schedule(text) == tickets)
        judge(f"{walk.name}: offered at {at}", window.script("return document.getElementById('swap-save').disabled"), False)
        path = os.path.join(walk.folder, "swapped.schedule")
        pathlib.Path(path).write_text(text, encoding="utf-8")
        trace = walk.call("replay", walk.file, path, "--trace", "--most", "1000000")
        judge(f"{walk.name}: value and moves after a swap at {at}", trace.split("\n")[:2], walk.trace.split("\n")[:2])
        judge(f"{walk.name}: the state behind the two swapped moves at {at}", fold(trace)[at + 2][:2] == states[at + 2][:2])
    if not places:
        judge(f"{walk.name}: some swap", False)
        return
    command = window.script("walk.show(arguments[0]); return document.getElementById('swap-command').textContent", places[0])
    judge(f"{walk.name}: the command", command, f"./goi replay {walk.file} {walk.name}-swap-{places[0]}.schedule --trace")
    made = walk.show("--replay", path)
    judge(f"{walk.name}: the page of a schedule", json.loads(re.search(rb'id="data">(.*?)</script>', made, re.S)[1])["trace"] == trace)


# Questions, signatures and rounds.

# The ways into a node on which a question for a value is one that has a row.
ROWS = (("App", "conclusion"), ("Fst", "conclusion"), ("Snd", "conclusion"), ("Der", "value"))


def questions_of(trace, places):
    """The tree of questions behind so many moves: rows of depth, node (-1 the program's), the tickets that are in the row itself, and the
    number of moves behind which it was asked.

    A frame is [node, the hole in which it is, whether it is a row, the number of moves], and a hole a frame with its side, in the order
    of the sides.
    """
    root = [-1, None, True, 0]
    holes, entries, states, made = {0: (root, 0)}, {}, {}, 0

    def keep():
        inside = {}
        if made not in places:
            return

        def add(hole, what):
            while hole:
                known = inside.setdefault(id(hole[0]), [])
                known.append((hole[1], what))
                hole, what = hole[0][1] if len(known) == 1 else None, hole[0]

        for ticket in sorted(holes):
            add(holes[ticket], ticket)
        rows, todo = [], [(0, root)] if holes else []
        while todo:
            depth, frame = todo.pop()
            mine, below = [], []

            def look(at):
                for _, what in sorted(inside.get(id(at), []), key=lambda it: it[0]):
                    if isinstance(what, int):
                        mine.append(what)
                    elif what[2]:
                        below.append((depth + 1, what))
                    else:
                        look(what)

            look(frame)
            rows.append([depth, frame[0], mine, frame[3]])
            todo += reversed(below)
        states[made] = rows

    keep()
    for line in trace.split("\n"):
        if not line.startswith("move "):
            continue
        word = line.split(" ")
        ticket, node, name, inner, outer, asks, work = int(word[5]), int(word[7]), word[8], word[9], word[10], word[11] == "?", word[14]
        hole = holes[ticket]
        if word[17] == "answer":
            del holes[ticket]
        elif word[22:23] == ["fork"]:
            frame = [node, hole, False, made + 1]
            entries[(node, word[15])] = frame
            holes[ticket], holes[int(word[23])] = (frame, 0), (frame, 1)
        elif word[17] == "kept":
            del holes[ticket]
        elif word[22:23] == ["joined"]:
            holes[ticket] = entries.pop((node, word[15]))[1]
        elif name in ("Succ", "Pred"):
            holes[ticket] = ([node, hole, False, made + 1], 0) if asks else hole[0][1]
        elif name == "Ifz":
            holes[ticket] = ([node, hole, False, made + 1], 0) if inner == "conclusion" else hole if inner == "condition" else hole[0][1]
        elif asks and work == "-" and (name, inner) in ROWS:
            holes[ticket] = ([node, hole, True, made + 1], 0)
        elif not asks and word[20] == "-" and (name, outer) in ROWS:
            holes[ticket] = hole[0][1]
        made += 1
        keep()
    return states


# The tree of questions in words, behind so many moves of a program. The row with > is the present one.
TOLD = {
    ("sum", 786): ["the program = ?", *[f"sum {n} = {n} + ?call {11 - n}" for n in range(10, 5, -1)], "sum 5 = ? + ?call 6",
                   "n = pred ?of call 6 of sum", "n = pred ?of call 5 of sum", "> n = 7of call 4 of sum"],
    ("twice", 60): ["the program = ?", "(fun twice …) (fun f …) = ?", "twice (fun n …) 3 = ?", "f (f x) = succ succ ?", "n = ?",
                    "f x = succ succ ?", "> n = ?"],
    ("double", 5): ["the program = ?", "(fun x …) 3 = ? + ?", "> x = ?"],
}
# A signature in words: the uppermost one of a stack, behind so many moves of a program.
CHAINS = {
    ("double", 8, "boxes"): ["the copy of the argument 3 for the first use of x, in x + x (left)"],
    ("sum", 786, "boxes"): ["the copy of the argument (pred n) for", "the third use of n, in pred n (right, right)",
                            "inside the argument (pred n), for", "the third use of n, in pred n (right, right)",
                            "inside the argument (pred n), for the second use of n, in n + sum (pred n) (right, left)"],
    ("church", 323, "boxes"): ["the copy of the argument 0 for", "the use of x, in f x", "inside the argument x, for",
                               "the use of x, in f x", "inside the argument x, for the use of n, in succ n",
                               "inside the argument (f x), for the use of n, in succ n",
                               "inside the argument (f (f x)), for the use of n, in succ n",
                               "inside the argument (f x), for the use of x, in f x, as above"],
    ("nested", 504, "boxes"): ["the copy of the argument (pred n) for", "the third use of n, in pred n (right, right)",
                               "inside the argument (pred n), for", "the second use of n, in (fix inner …) (right, left)",
                               "inside the argument n, for the second use of m, in m + inner (pred m) (right, left)"],
}


def try_questions(window, walks):
    """The tree of questions is that of a fold of this script's own, and the whole stacks are those of the lines."""
    for walk in walks:
        window.open(walk.address)
        judge(f"{walk.name}: whole stacks", ask(window, "wrongStacks"), [])
        at = spread(len(fold(walk.trace)) - 1, FEW_STATES)
        states = questions_of(walk.trace, set(at))
        for place, found in zip(at, ask(window, "shownQuestions", at)):
            judge(f"{walk.name}: questions at {place}", found, states[place])
    named = {it.name: it for it in walks}
    for (name, at), wanted in TOLD.items():
        window.open(named[name].address)
        judge(f"{name}: questions in words at {at}", ask(window, "questionTexts", at), wanted)
    for (name, at, stack), wanted in CHAINS.items():
        window.open(named[name].address)
        judge(f"{name}: a signature in words at {at}", ask(window, "chainTold", at, stack), wanted)
    judge("a signature's words are put away", (window.keys(ESCAPE), window.script("return document.getElementById('chain').hidden"))[1])


def try_rows(window, walk):
    """Rows of the tree and stacks in the tables are pressed by keys."""
    at = 786
    rows = questions_of(walk.trace, {at})[at]
    window.open(walk.address + f"#move={at}")
    window.script("document.getElementById('waiting').focus()")
    window.keys(UP + UP)
    wanted = len(rows) - 3
    active = "return document.querySelector('#waiting .active').textContent"
    judge("the row that arrow keys are at", window.script(active), TOLD[("sum", at)][wanted])
    window.keys(ENTER)
    judge("a row pressed by a key", comes(window, rows[wanted][3]), rows[wanted][3])
    judge("the list has the focus still", window.script("return document.activeElement.id"), "waiting")
    window.keys(HOME + ENTER)
    judge("the first row", comes(window, 0), 0)
    window.script(f"walk.show({at})")
    # (Of a table's stack each signature is a button, which the tab key reaches.)
    stacks = [cell for row in wanted_of(fold(walk.trace)[at], at, 0, {10: "Plus"})["live"] for cell in row[3:]]
    told = [stack for stack in stacks if re.search(r"[*<y]", stack)]
    buttons = window.script("return [...document.querySelectorAll('#live .told')].map(it => [it.tabIndex, it.parentElement.title])")
    judge("stacks of the live tokens are buttons", buttons, [[0, it] for it in told])
    window.script("document.querySelector('#live .told').focus()")
    window.keys(ENTER)
    words = window.script("return [...document.querySelectorAll('#chain .link')].map(it => it.children[1].textContent)")
    judge("a stack pressed by a key", words, CHAINS[("sum", at, "boxes")])
    judge("its words are announced", window.script("return document.getElementById('announce').textContent"),
          "; ".join(CHAINS[("sum", at, "boxes")]))
    window.keys(ESCAPE)


def round_rows(lines):
    """The rows of a round, of its lines of the trace: the ticket, the node, and what came of it."""
    rows = []
    for line in lines:
        word = line.split(" ")
        came = {"kept": word[11], "answer": word[11]}.get(word[17], word[17])
        came = "t" + word[23] if word[22:23] == ["fork"] else came
        rows.append([f"t{word[5]} {word[8]} {word[7]}: ", f", {came}"])
    return rows


def try_round_moves(window, walk):
    """A round tells all its moves, and each of them where it is pressed; its strip has the marks."""
    window.open(walk.address)
    text, starts, _ = ask(window, "rounds")
    lines = [line for line in text.split("\n") if line.startswith("move ")]
    window.script("walk.setRounds(true)")
    wide = [at for at, (one, two) in enumerate(zip(starts, starts[1:]), 1) if two - one > 1]
    for at in [1, *wide[::max(1, len(wide) // 12)]]:
        own = lines[starts[at - 1]:starts[at]]
        found = ask(window, "roundShown", starts[at], len(own) // 2)
        wanted = round_rows(own) if len(own) > 1 else []
        rows = [[row[:len(it[0])], row[-len(it[1]):]] for row, it in zip(found["rows"], wanted)]
        judge(f"{walk.name}: moves of round {at}", rows, wanted)
        judge(f"{walk.name}: their number in round {at}", len(found["rows"]), len(wanted))
        chosen = own[len(own) // 2].split(" ")
        judge(f"{walk.name}: a move of round {at} is told", (found["told"], found["node"], found["now"]),
              ([f"ticket {chosen[5]}", f"node {chosen[7]}"], int(chosen[7]), str(at)))
        nodes = {int(line.split(" ")[7]) for line in own} - {int(chosen[7])}
        judge(f"{walk.name}: the other nodes of round {at}", sorted(found["others"]), sorted(nodes))
    marks = set()
    for at, (one, two) in enumerate(zip(starts, starts[1:])):
        for _, kind, _, _ in moves_of("\n".join(lines[one:two])):
            marks |= {(at, kind == "fork")} if kind != "solo" else set()
    found = window.script("return walk.stripMarks().map(it => [it.place, it.isFork])")
    judge(f"{walk.name}: marks of the rounds", sorted(map(tuple, found)), sorted(marks))
    if len(marks) < 100:
        drawn = ask(window, "stripInk")
        for edge, is_fork in (("above", True), ("below", False)):
            places = sorted((at + 0.5) / (len(starts) - 1) for at, it in marks if it == is_fork)
            far = [min((abs(place - it) for it in drawn[edge]), default=1) for place in places]
            judge(f"{walk.name}: marks drawn {edge}", (len(drawn[edge]) > 0, max(far, default=0) < 0.01), (len(places) > 0, True))
    # The next mark, and the last one: each at the end of its round.
    ends = sorted({at + 1 for at, _ in marks})
    window.script("walk.show(0)")
    for wanted in ends[:4]:
        window.keys("]")
        judge(f"{walk.name}: the next mark in rounds", comes(window, wanted), wanted)
    window.keys("[")
    judge(f"{walk.name}: the last mark in rounds", comes(window, ends[min(4, len(ends)) - 2]), ends[min(4, len(ends)) - 2])


def calls_of(trace, net):
    """For each move the number of the call of a recursive term for which it is made, or 0.

    A frame is [the frame around, whether it is an application's, the call that it is]: a call is known by its FixBox and box stack.
    """
    nodes = {line.split(" ")[1]: line.split(" ")[2:] for line in net.split("\n") if line.startswith("node ")}
    boxes = {word[1]: node for node, word in nodes.items() if word[0] == "FixBox"}
    entered = {node: boxes[word[3]] for node, word in nodes.items() if word[0] == "Lam" and word[3] in boxes}
    holes, entries, numbers, counts, given = {0: [None, False, None]}, {}, {}, {}, []
    for line in trace.split("\n"):
        if not line.startswith("move "):
            continue
        word = line.split(" ")
        ticket, node, name, inner, outer, asks = int(word[5]), word[7], word[8], word[9], word[10], word[11] == "?"
        before = after = holes.pop(ticket)
        if word[22:23] == ["fork"]:
            after = entries[(node, word[15])] = [before, False, None]
            holes[int(word[23])] = after
        elif word[22:23] == ["joined"]:
            after = entries.pop((node, word[15]))[0]
        elif name in ("Succ", "Pred", "Ifz") and inner != "condition":
            after = [before, False, None] if asks else before[0]
        elif asks and word[14] == "-" and (name, inner) in ROWS:
            after = [before, name == "App", None]
        elif not asks and word[20:21] == ["-"] and (name, outer) in ROWS:
            after = before[0]
        if asks and name == "FixBox" and outer == "body":
            around = (node, word[21].partition(".")[2])
            if (node, word[21]) not in numbers:
                numbers[(node, word[21])] = counts[around] = counts.get(around, 0) + 1
        if asks and outer == "body" and node in entered and before[1]:
            before[2] = (entered[node], word[15])
        if word[17] not in ("kept", "answer"):
            holes[ticket] = after
        given.append(after)

    def number(frame):
        while frame and frame[2] is None:
            frame = frame[0]
        return numbers[frame[2]] if frame else 0

    return [number(frame) for frame in given]


def try_colours(window, walks):
    """By call, a move and a token have the colour of the call of a recursive term for which they are."""
    for walk in walks:
        window.open(walk.address + "#colour=call")
        wanted = calls_of(walk.trace, walk.net)
        judge(f"{walk.name}: calls", ask(window, "callNumbers"), wanted)
        moves = moves_of(walk.trace)
        judge(f"{walk.name}: several calls", walk.name == "double" or len(set(wanted)) > 3)
        for at in spread(len(moves), 24)[1:]:
            by_ticket = {}
            for (ticket, _, second, _), number in zip(moves[:at], wanted):
                by_ticket[ticket] = number
                if second is not None:
                    by_ticket[second] = number
            found = ask(window, "tokenColours", at)
            judge(f"{walk.name}: colours of tokens at {at}", found, {ticket: f"var(--k{by_ticket[int(ticket)] % 8})" for ticket in found})
    window.script("walk.setColourBy('ticket')")
    window.keys("cc")
    judge("the key of colours", window.script("return [walk.view.colourBy, document.getElementById('colour-by').textContent]"),
          ["call", "colour by call"])


def try_rounds(window, walks):
    """In a round each live token moves once; the page's run in rounds is what the program prints of its schedule."""
    spans = {}
    for walk in walks:
        window.open(walk.address)
        if not walk.trace.startswith("value"):
            continue
        text, starts, span = ask(window, "rounds")
        states = fold(text)
        tickets = [move[0] for move in moves_of(text)]
        rounds = [tickets[one:two] for one, two in zip(starts, starts[1:])]
        judge(f"{walk.name}: rounds", rounds, [sorted(states[at][0]) for at in starts[:-1]])
        judge(f"{walk.name}: span", span, [len(rounds), max(map(len, rounds))])
        spans[walk.name] = len(rounds)
        path = os.path.join(walk.folder, "rounds.schedule")
        pathlib.Path(path).write_text("schedule 1\n" + "".join(f"{it}\n" for it in tickets) + "end\n", encoding="utf-8")
        judge(f"{walk.name}: trace of the rounds", walk.call("replay", walk.file, path, "--trace", "--most", "1000000") == text)
    judge("spans", [spans[name] for name in ("double", "sum", "fibonacci")], [18, 1384, 1340])
    window.open(next(it for it in walks if it.name == "double").address)
    window.keys("r" + RIGHT)
    judge("a round on", (comes(window, 1), window.script("return walk.view.run.state.at")), (1, 1))
    for _ in range(3):
        window.keys(RIGHT)
        time.sleep(1)
    judge("two moves at once", (comes(window, 4), window.script("return walk.view.run.state.at")), (4, 5))
    window.keys("r")
    judge("and move by move again", window.script("return [walk.view.rounds, document.getElementById('of').textContent]"), [None, "30"])
