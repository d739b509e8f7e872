"""Tries the box of steps of out/goi.html: the reduction by name, and the visits of the walk that stand for its steps.

`try_steps` takes the scripts `.ci/page` as `page` and `page_live` as `live`, for their counts and ways to ask. The lines are held against
what `goi steps` prints, and the visits against its rules: as many as there are steps, in the same order, each at a node that can make such
a step.
"""

import re

import page_programs as programs

# The nodes at which a step of each rule is made.
NODES = {
    "fun": "Lam", "fix": "FixBox", "fst": "Pair", "snd": "Pair", "succ": "Succ", "pred": "Pred", "plus": "Plus", "minus": "Minus",
    "times": "Times", "ifz": "Ifz",
}
OWN = {
    "operands in operands": "(1 + 2) * (3 + 4) - ((5 - 6) + 7) * 2",
    "a function that is handed on": "(fun g:(nat -> nat) -> nat. g (fun x:nat. x + x)) (fun f:nat -> nat. f (f 3))",
    "a function of functions": "(fun f:(nat -> nat) -> nat -> nat. fun h:nat -> nat. f h (h 2)) (fun k:nat -> nat. fun n:nat. k n + k n) (fun y:nat. succ y)",
    "a pair of functions": "fst ((fun x:nat. x + 1), (fun y:nat. y)) (snd (3, 4))",
    "a pair that is handed on": "(fun p:nat * nat. fst p - snd p) ((fun x:nat. (x, 1)) 7)",
    "an overflow": "pred (succ 18446744073709551615) + succ (succ 18446744073709551615)",
    "a fix inside a fix": "(fix a:nat -> nat. fun n:nat. ifz n then 0 else (fix b:nat -> nat. fun m:nat. ifz m then 0 else m + b (pred m)) n + a (pred n)) 3",
    "a fix that is a number": "fix x:nat. ifz 0 then 5 else x",
}
ROWS = """
return [...document.querySelectorAll("#steps-rows .step")].map(row => {
  const [name, whole, visit] = row.children;
  return [name.textContent, whole.textContent, whole.querySelector("mark").textContent, visit ? visit.textContent : null];
});"""
VISITS = "return walk.visitsOf(walk.view.run).map(({ rule, at }) => [rule, walk.view.run.move(at).name])"


def printed_steps(calls, text, *words):
    """The status, and the lines of steps, as [number, rule, from, to, term]."""
    status, printed = calls.printed("steps", calls.file(text), *words)
    return status, [re.fullmatch(r"step (\d+) (\w+) (\d+) (\d+) (.*)", it).groups() for it in printed.split("\n") if it.startswith("step ")]


def listed(live, window):
    window.script("document.getElementById('tab-program').click(); document.getElementById('tab-steps').click(); document.getElementById('steps-list').click()")
    live.waits(window, live.IDLE)


FOLLOWS = """
const list = document.getElementById("steps-rows");
const found = [];
for (const at of arguments[0]) {
  walk.show(at);
  const row = list.querySelector(".present");
  found.push(row && Number(row.firstChild.textContent.split(" ")[0]));
}
return found;"""


def try_follows(page, window, name):
    """Behind each move the step is marked whose visit was made last."""
    visits = [(at, number) for number, (_, at) in enumerate(window.script("return walk.visitsOf(walk.view.run).map(it => [it.rule, it.at])"))]
    listed = window.script("return document.querySelectorAll('#steps-rows .step').length")
    length = window.script("return walk.view.run.length")
    places = page.spread(length, 80)
    wanted = [max((it for it in visits if it[0] < at and it[1] < listed), default=(None, None))[1] for at in places]
    page.judge(f"{name}: steps follow the walk", window.script(FOLLOWS, places), wanted)


def try_visits(page, live, window, calls, name, text):
    """The visits of a program's run are its steps."""
    live.runs(window, text, budget=30000)
    whole = window.script("return walk.view.program === arguments[0] && walk.view.run.whole && walk.view.run.trace.value !== null", text)
    if not whole:
        return False
    _, known = printed_steps(calls, text, "--most", "100000", "--budget", "30000")
    visits = window.script(VISITS)
    page.judge(f"{name}: a visit for each step", [rule for rule, _ in visits], [it[1] for it in known])
    page.judge(f"{name}: at the node of its rule", [node for _, node in visits], [NODES[it[1]] for it in known])
    return True


def try_steps(page, live, window, program, folder):
    calls = programs.Calls(program, folder)
    for name, text in {**programs.TEXTS, **OWN}.items():
        status, known = printed_steps(calls, text, "--most", "200")
        if status not in (0, 5):
            continue
        try_visits(page, live, window, calls, name, text)
        live.runs(window, text)
        listed(live, window)
        wanted = []
        for number, rule, first, last, term in known:
            wanted.append([f"{number} {rule}", term, term.encode()[int(first) : int(last)].decode()])
        rows = window.script(ROWS)
        page.judge(f"{name}: the steps", [it[:3] for it in rows], wanted)
        shown = window.script("return walk.view.run.whole")
        page.judge(f"{name}: each beside its move", [it[3] is None for it in rows if status == 0], [not shown] * len(wanted) * (status == 0))
    count = sum(try_visits(page, live, window, calls, f"generated {at}", text) for at, text in enumerate(programs.generated(200, 7)))
    page.judge("programs whose visits are their steps", count >= 60)
    # A press on a step shows its move.
    live.runs(window, programs.TEXTS["double.pcf"])
    listed(live, window)
    window.script("document.querySelectorAll('#steps-rows .step')[1].click()")
    page.judge("a press on the sum", window.script("return walk.view.run.move(walk.view.run.state.at - 1).name"), "Plus")
    try_follows(page, window, "the box")
    # More than are shown at once.
    live.runs(window, programs.TEXTS["fibonacci.pcf"])
    listed(live, window)
    for first, button in ((200, "more"), (400, "more"), (200, "before"), (400, "more")):
        window.script("document.getElementById(arguments[0]).click()", f"steps-{button}")
        live.waits(window, live.IDLE)
        _, known = printed_steps(calls, programs.TEXTS["fibonacci.pcf"], "--from", str(first), "--most", "200")
        page.judge(f"steps from {first} on", [it[0] for it in window.script(ROWS)], [f"{it[0]} {it[1]}" for it in known])
    page.judge("and no more", window.script("return [document.getElementById('steps-before').disabled, document.getElementById('steps-more').disabled]"),
               [False, True])
