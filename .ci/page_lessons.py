"""Tries what a student does in the page of a walk: the next move is guessed, nodes and wires are read as logic has them and by ear, steps
are beside the walk, and two walks go call by call.

Each part takes the script `.ci/page` as `page`, for its counts, folds and ways to ask.
"""

import pathlib
import re
import time

import page_steps as steps

TOP = pathlib.Path(__file__).resolve().parent.parent
# So many moves of a run are guessed.
MOVES = 30


# As logic has it.


def tree_of(words):
    """A type of a listing, read from the front of its words: `->` and `*` group to the right, and `*` is the closer one."""
    def atom():
        word = words.pop(0)
        if word == "(":
            word = tree_of(words)
            words.pop(0)
        return word

    sides = [atom()]
    while words[:1] == ["*"]:
        words.pop(0)
        sides.append(atom())
    while len(sides) > 1:
        sides[-2:] = [("*", *sides[-2:])]
    if words[:1] == ["->"]:
        words.pop(0)
        return ("->", sides[0], tree_of(words))
    return sides[0]


def read_type(text):
    return tree_of(re.findall(r"nat|->|[*()]", text))


def read_formula(text):
    """The type of a formula: `!A ⊸ B` is `A -> B`, `A & B` is `A * B`, and a `!` stands nowhere else."""
    words = re.findall("nat|[⊸&!()]", text)

    def atom():
        word = words.pop(0)
        if word == "(":
            word = whole()
            words.pop(0)
        return word

    def whole():
        if words[:1] == ["!"]:
            words.pop(0)
            left = atom()
            return ("->", left, whole()) if words.pop(0) == "⊸" else None
        left = atom()
        if words[:1] != ["&"]:
            return left
        words.pop(0)
        return ("*", left, whole())

    return whole()


def rules_of_document():
    """The rule of each node, as the table of docs/NET.md has it."""
    text = (TOP / "docs/NET.md").read_text(encoding="utf-8").split("| node | is for |")[1].split("\n\n")[0]
    rows = [[cell.strip() for cell in line.split("|")[1:-1]] for line in text.split("\n")[2:]]
    return {name.split(" ")[0]: cells[-1] for names, *cells in rows for name in names.split(", ")}


def try_logic(page, window, walks):
    """With rules each node has the words of NET's table; with types each wire has its formula."""
    table, marks = rules_of_document(), {"value": ("", ""), "bang": ("!", ""), "var": ("?", "⊥")}
    for walk in walks:
        window.open(walk.address + "#types=1&rules=1")
        nodes = window.script("return [...document.querySelectorAll('#picture .node')].map(it => [it.dataset.node, it.querySelector('text').firstChild.data])")
        names = {word[1]: word[2:] for word in (line.split(" ") for line in walk.net.split("\n") if line.startswith("node "))}
        for id_, text in nodes:
            name, rule = names[id_][0], table[names[id_][0]]
            isconstant = rule in ("constant of PCF", "constant", "test")
            fits = text not in (name, "") and all(word in rule.replace("fixed", "fix") for word in text.split(", "))
            page.judge(f"{walk.name}: the rule of node {id_}, {name}: {text}", isconstant or fits)
        labels = window.script("return walk.view.net.wires.map((_, id) => document.querySelectorAll('#picture .label')[id].textContent)")
        for line in (line.split(" ", 4) for line in walk.net.split("\n") if line.startswith("wire ")):
            (before, behind), text = marks[line[2]], labels[int(line[1])].split(" : ")[1]
            if text.endswith("…"):
                continue
            inner = text[len(before) : len(text) - len(behind)]
            inner = inner[1:-1] if before and inner.startswith("(") else inner
            page.judge(f"{walk.name}: the formula of wire {line[1]}: {text}", (text, read_formula(inner)),
                       (before + (f"({inner})" if before and " " in inner else inner) + behind, read_type(line[4])))
        page.judge(f"{walk.name}: layout with rules", page.ask(window, "layoutFaults"), [])
        page.judge(f"{walk.name}: texts with rules", page.ask(window, "metTexts"), [])
        page.judge(f"{walk.name}: letters in their nodes", page.ask(window, "wideNodes"), [])
    window.open(walks[0].address)
    window.keys("R")
    pressed = "return [walk.view.rules, document.getElementById('rules').getAttribute('aria-pressed')]"
    page.judge("the key of rules", window.script(pressed), [True, "true"])
    window.keys(page.RIGHT)
    page.judge("rules in the address", (page.comes(window, 1), time.sleep(1), window.script("return location.hash"))[2], "#move=1&rules=1")
    page.press(window, *page.ask(window, "middleOf", "#rules"))
    page.judge("the button of rules", window.script(pressed), [False, "false"])


# By ear.


def try_ear(page, window, walks):
    """A wire says from where to where; each signature of a stack is read in words, and so are stacks in tables."""
    for walk in walks:
        window.open(walk.address)
        words = [line.split(" ") for line in walk.net.split("\n")]
        ports = {"Const": 0, "Der": 0, "Weak": 0, "Con": 2, "Lam": 2, "App": 2, "Plus": 2, "Minus": 2, "Times": 2, "Ifz": 3, "FixBox": 2, "Pair": 2}
        ends = {}
        for word in words:
            if word[0] == "node":
                wires = word[4:] if word[2] == "Const" else word[3:]
                for at, wire in enumerate(wires):
                    ends.setdefault(wire, {})["to" if at < ports.get(word[2], 1) else "from"] = f"{word[2]} {word[1]}"
        wanted = [f"wire {word[1]}, from {ends[word[1]]['from']} down to {ends[word[1]]['to']}" for word in words if word[0] == "wire"]
        heard = window.script("return [...document.querySelectorAll('#wires-heard li')].map(it => it.textContent.split(':')[0])")
        page.judge(f"{walk.name}: wires by ear", heard, wanted)
        titles = window.script("return [...document.querySelectorAll('#picture .wire title')].map(it => it.textContent.split(':')[0])")
        page.judge(f"{walk.name}: wires by their titles", titles, wanted)
    double = next(it for it in walks if it.name == "double")
    window.open(double.address + "#move=6")
    window.script("walk.show(6)")
    row = window.script("return [...document.querySelector('#live tr').children].map(it => (it.querySelector('[aria-label]') ?? it).getAttribute('aria-label'))")
    page.judge("a row of the table by ear", row[2:], ["wire 6, from Lam 4 down to App 7", "L.l*, in words: the function's argument, the first use of x", "empty"])
    said = window.script("return document.getElementById('announce').textContent")
    page.judge("a move by ear", said.endswith(" Work stack: the function's argument, the first use of x. Box stack: empty."))


# The next move is guessed.

SAY = """
const [at, said] = arguments;
if (walk.view.run.state.at !== at) walk.show(at);
const field = name => document.getElementById("guess-" + name);
const asked = Object.fromEntries(["wire", "value", "work", "boxes"].map(name => [name, field(name).value]));
for (const name in said) {
  field(name).value = said[name];
  field(name).dispatchEvent(new Event(field(name).matches("select") ? "change" : "input"));
}
field("say").click();
return { asked, said: field("said").textContent, at: walk.view.run.state.at, count: field("count").textContent };"""


# A place on a wire.
SPOT = """
const path = document.querySelectorAll("#picture .wire")[arguments[0]];
const { x, y } = path.getPointAtLength(path.getTotalLength() * 0.6);
const at = new DOMPoint(x, y).matrixTransform(path.getScreenCTM());
return [at.x + 4, at.y];"""


def guesses_of(trace):
    """For each move what is right to say, and the token that is asked."""
    found = []
    for line in trace.split("\n"):
        if not line.startswith("move "):
            continue
        before, after = (it.split(" ") for it in line.split(" => "))
        token, then = before[-5:], {"kept": "ends", "answer": "ends"}.get(after[0], "forks" if after[5:6] == ["fork"] else "on")
        right = {"then": then} if then != "on" else {"then": then, "wire": after[2], "value": after[0], "work": after[3], "boxes": after[4]}
        found.append((token, right, before[5]))
    return found


def others(right):
    """What isn't right, and what is told to be wrong of it."""
    if right["then"] != "on":
        return [({**right, "then": "on", "wire": "0"}, "what it does"), ({"then": "forks" if right["then"] == "ends" else "ends"}, "what it does")]
    return [({**right, "wire": str(int(right["wire"]) + 1)}, "the wire"), ({**right, "value": "99"}, "the value"), ({**right, "wire": ""}, "the wire"),
            ({**right, "work": right["work"] + ".R"}, "the work stack"), ({**right, "boxes": "l" + right["boxes"]}, "the box stack"),
            ({**right, "wire": "", "work": "x"}, "the wire, the work stack"), ({"then": "ends"}, "what it does")]


def try_guess(page, window, walks):
    """Each move is right where it is what the trace says, and only there; and what comes is kept back."""
    for walk in walks:
        window.open("about:blank")
        window.open(walk.address + "#guess=1")
        window.script("walk.setSpeed(500)")
        moves = guesses_of(walk.trace)[:MOVES]
        for at, (token, right, ticket) in enumerate(moves):
            asked = window.script("return document.getElementById('guess-asks').textContent")
            page.judge(f"{walk.name}: move {at} is asked", asked.startswith(f"Ticket {ticket}, {' '.join(token)}, moves next."))
            looked = window.script("return walk.view.chosen")
            page.judge(f"{walk.name}: its token is looked at before move {at}", looked, int(ticket))
            for wrong, what in others(right) if at < 6 else others(right)[:1]:
                found = window.script(SAY, at, wrong)
                page.judge(f"{walk.name}: {wrong} at {at}", (found["said"].startswith(f"Not so: {what}. The rule is "), found["at"]), (True, at))
            written = {**right, **({"work": right["work"].replace(".", " . "), "boxes": right["boxes"].replace("-", "")} if "work" in right else {})}
            found = window.script(SAY, at, written)
            page.judge(f"{walk.name}: {right} at {at}", (found["said"].startswith("Right. "), found["at"]), (True, at + 1))
            page.judge(f"{walk.name}: the rule of move {at} is told", walk_rule(window) in found["said"])
        page.judge(f"{walk.name}: none at the first go", window.script("return document.getElementById('guess-count').textContent"),
                   f"0 of {len(moves)} at the first go")
    double = walks[0]
    window.open("about:blank")
    window.open(double.address + "#move=3&guess=1")
    window.script("walk.setSpeed(500)")
    page.judge("the fields have the token", window.script(SAY, 3, {"wire": "9"})["asked"], {"wire": "", "value": "?", "work": "-", "boxes": "-"})
    hidden = "return [...document.querySelectorAll('#log .line')].map(it => getComputedStyle(it).visibility === 'hidden')"
    page.judge("what comes is kept back in the log", window.script(hidden)[:6], [False] * 3 + [True] * 3)
    window.script("document.getElementById('guess-show').click()")
    shown = window.script("return [walk.view.run.state.at, document.getElementById('guess-count').textContent, document.getElementById('guess-said').textContent]")
    page.judge("a move that is shown", (shown[0], shown[1], shown[2].startswith("Der: value to variable, value ↑ m becomes variable ↓ *.m. ")),
               (4, "0 of 1 at the first go", True))
    page.press(window, *window.script(SPOT, 4))
    page.judge("a wire that is pressed", window.script("return [document.getElementById('guess-wire').value, walk.view.run.state.at]"), ["4", 4])
    window.script("document.getElementById('guess-work').select()")
    window.keys("l*" + page.ENTER)
    page.judge("typed, and said by its key", page.comes(window, 5), 5)
    page.judge("the first go", window.script("return document.getElementById('guess-count').textContent"), "1 of 2 at the first go")
    time.sleep(0.5)
    page.judge("guessing is in the address", window.script("return location.hash"), "#move=5&guess=1")
    window.script("document.activeElement.blur()")
    window.keys("r")
    page.judge("rounds end it", window.script("return [walk.guess.on, document.getElementById('guess').hidden]"), [False, True])
    window.keys("rq")
    page.judge("and its key begins it", window.script("return [walk.guess.on, walk.view.rounds]"), [True, None])
    window.script("document.getElementById('guess-work').focus()")
    window.keys(page.ESCAPE)
    page.judge("it is left, from a field too", window.script("return [walk.guess.on, document.activeElement.id]"), [False, "picture"])
    page.judge("and the log is there", window.script(hidden)[:6], [False] * 6)
    for width, height in page.SIZES:
        window.view(width, height)
        for wall in ("", "&wall=1") if width > 600 else ("",):
            window.open("about:blank")
            window.open(double.address + "#move=4&guess=1" + wall)
            window.script("document.getElementById('guess-wire').value = 1; document.getElementById('guess-say').click()")
            page.judge(f"guessing at {width}x{height}{wall}", page.ask(window, "guessFaultsSeen"), [])
    window.view()
    window.open("about:blank")
    window.open(double.address + "#move=3&guess=1&wall=1")
    window.script("walk.setSpeed(500)")
    asked = "return document.getElementById('guess-asks').textContent"
    page.judge("on the wall a move is asked", window.script(asked), "Ticket 0, ? up 0 - -, moves next. Press the wire on which it is then, and say what it has there.")
    spot = window.script(SPOT, 1)
    page.press(window, *spot)
    page.judge("a wire that is pressed on the wall", window.script("return [document.getElementById('guess-wire').value, walk.view.run.state.at]"), ["1", 3])
    window.script("document.getElementById('guess-work').select()")
    window.keys("r*" + page.ENTER)
    said = window.script("return document.getElementById('guess-said').textContent")
    page.judge("what isn't so is told on the wall", (said.startswith("Not so: the work stack. The rule is Der: "), page.now(window)), (True, 3))
    window.script("document.getElementById('guess-work').select()")
    window.keys("*" + page.ENTER)
    page.judge("and what is so goes on", page.comes(window, 4), 4)
    page.judge("still on the wall", window.script("return [walk.view.wall, walk.guess.on, document.getElementById('guess-count').textContent]"),
               [True, True, "0 of 1 at the first go"])
    page.quiet(window, "guessing")


def walk_rule(window):
    """The title of the rule of the move that was made last."""
    return window.script("return walk.ruleOf(walk.view.run.lastMove()).title + (walk.ruleOf(walk.view.run.lastMove()).from ? ', ' : '. ')")


# Steps, and calls.


def try_steps(page, window, walks):
    """A page has the steps that `goi steps` prints, each beside its move; they follow the walk, and it follows them."""
    for walk in walks:
        printed = walk.call("steps", walk.file, "--most", "200")
        known = [re.fullmatch(r"step (\d+) (\w+) (\d+) (\d+) (.*)", it).groups() for it in printed.split("\n") if it.startswith("step ")]
        window.open(walk.address)
        window.script("document.getElementById('steps-box').open = true")
        wanted = [[f"{number} {rule}", term, term.encode()[int(first) : int(last)].decode()] for number, rule, first, last, term in known]
        rows = window.script(steps.ROWS)
        page.judge(f"{walk.name}: steps", [it[:3] for it in rows], wanted)
        visits = window.script(steps.VISITS)
        page.judge(f"{walk.name}: at the nodes of their rules", [steps.NODES[it[1]] for it in known], [node for _, node in visits][: len(known)])
        steps.try_follows(page, window, walk.name)
        places = window.script("return walk.visitsOf(walk.view.run).map(it => it.at)")
        for number in (0, len(known) // 2, len(known) - 1):
            window.script("document.querySelectorAll('#steps-rows .step')[arguments[0]].click()", number)
            there = window.script("return [walk.view.run.state.at, document.querySelector('#steps-rows .present b')?.textContent ?? null]")
            page.judge(f"{walk.name}: a press on step {number}", there, [places[number] + 1, " ".join(known[number][:2])])
        page.quiet(window, f"{walk.name}: steps")


def calls_of(trace):
    """The places behind the moves at which a question for a result enters the body of a function or of a fix."""
    found = []
    for line in trace.split("\n"):
        word = line.split(" ")
        if word[0] == "move" and word[8] in ("Lam", "FixBox") and word[10] == "body" and word[11] == "?" and re.fullmatch(r"-|[LR](\.[LR])*", word[20]):
            found.append(int(word[1]) + 1)
    return found


def try_calls(page, window, folder, walks):
    """Two walks go call by call: the sum with `fix` and its unfolding have the same calls."""
    unfolded = next(it for it in walks if it.name == "unfolded")
    total = page.Walk(unfolded.program, folder, "sum2", page.SUM % 2, [])
    window.open(total.address)
    window.keys("b")
    opened = page.ask(window, "openTexts", [["u.net", unfolded.net], ["u.trace", unfolded.trace], ["u.pcf", unfolded.text]])
    page.judge("two walks beside", opened["trouble"], "")
    window.keys("y")
    one, two = calls_of(unfolded.trace), calls_of(total.trace)
    page.judge("as many calls", (len(one), len(one) > 4), (len(two), True))
    states = page.fold(total.trace)
    last, length = len(states) - 1, len(page.fold(unfolded.trace)) - 1
    for at in sorted({0, *one, *(it - 1 for it in one), length}):
        made = sum(place <= at for place in one)
        there = last if at == length else two[made - 1] if made else 0
        found = page.ask(window, "besideShown", at)
        wanted = sorted([str(ticket), *token[:3]] for ticket, token in states[there][0].items())
        page.judge(f"call by call at {at}", sorted(it.split(" ") for it in found["tokens"]), wanted)
        page.judge(f"what is said at {at}", found["say"].startswith(f"{made} of {len(two)} calls"))
    window.script("walk.show(0)")
    for wanted in one[:3]:
        window.keys("]")
        page.judge("the next call", page.comes(window, wanted), wanted)
    page.press(window, *page.ask(window, "middleOf", "#beside-by"))
    page.judge("by moves again", window.script("return document.getElementById('beside-say').textContent").startswith(f"{one[2]} of {last} moves"))
    window.script("document.getElementById('beside-away').click()")
    page.quiet(window, "calls")


def try_lessons(page, window, folder, walks):
    named = {it.name: it for it in walks}
    try_logic(page, window, [named[it] for it in ("double", "door", "named", "unused", "pairs", "sum", "twice")])
    try_ear(page, window, [named[it] for it in ("double", "pairs", "sum", "parity")])
    try_guess(page, window, [named[it] for it in ("double", "door", "apply", "sum", "pairs")])
    try_steps(page, window, [named[it] for it in ("double", "sum", "named", "pairs")])
    try_calls(page, window, folder, walks)
