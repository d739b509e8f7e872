"""Tries the box of arguments of out/goi.html: a function is called at rows of numbers.

`try_values` takes the scripts `.ci/page` as `page` and `page_live` as `live`, for their counts and ways to ask. What the page shows of a
call is held against what the program prints for the function applied to the numbers.
"""

import itertools

import page_programs as programs

MOST = 2**64 - 1
# A function, the words of the box, the rows of numbers that they stand for, and the budget.
CALLS = (
    ("fun x:nat. x + x", "0..20", [(it,) for it in range(21)], 10000),
    ("fun x:nat. fun y:nat. x - y   # not y - x", "7 5..9", [(7, it) for it in range(5, 10)], 10000),
    ("fun x:nat. fun y:nat. fun z:nat. ifz x then y else z", "0..1 3..4 8", list(itertools.product((0, 1), (3, 4), (8,))), 10000),
    ("fun x:nat. succ x", f"{MOST - 1}..{MOST} ", [(MOST - 1,), (MOST,)], 10000),
    ("fix f:nat->nat. fun n:nat. ifz n then 0 else n + f (pred n)", "  0..6 ", [(it,) for it in range(7)], 500),
)
# Words that stand for no rows, and what is said of them.
REFUSED = (
    ("x", "x is no number"),
    ("3 -1", "-1 is no number"),
    ("5..4", "5 is above 4"),
    (f"{MOST + 1}", f"no number is above {MOST}"),
    ("0..1000", "more than 1000 calls"),
    ("0..99 0..10", "more than 1000 calls"),
    (" ", "an argument for each arrow"),
)
ASK = """
const [text, words, budget] = arguments;
const box = document.getElementById("own-text");
if (text !== null) { box.value = text; box.dispatchEvent(new Event("input")); }
document.getElementById("own-budget").value = budget;
document.getElementById("tab-values").click();
document.getElementById("values-arguments").value = words;
document.getElementById("values-call").click();
"""
ROWS = "return [...document.querySelectorAll('#values-rows tr')].map(row => [...row.cells].map(it => it.textContent))"
POINTS = "return document.querySelector('#values-picture polyline').getAttribute('points').split(' ').filter(it => it !== '').length"


def called(live, window, text, words, budget=10000):
    window.script(ASK, text, words, budget)
    live.waits(window, live.IDLE)
    return window.script(live.SAID)


def try_values(page, live, window, program, folder):
    calls = programs.Calls(program, folder)
    for text, words, rows, budget in CALLS:
        said, wanted, moves = called(live, window, text, words, budget), [], 0
        for row in rows:
            numbers = " ".join(str(it) for it in row)
            _, printed = calls.printed("run", calls.file(f"({text}\n) {numbers}\n"), "--budget", str(budget))
            value, made = printed.strip().split("\n")
            wanted.append([numbers, value.removeprefix("value "), made.removeprefix("moves ")])
            moves += int(wanted[-1][2])
        page.judge(f"{words} of {text}", window.script(ROWS), wanted)
        page.judge(f"{words} of {text}: what is said", said.split("\n")[0], f"{len(rows)} calls, {moves} moves")
        without = sum(it[1] == "no value" for it in wanted)
        page.judge(f"{words} of {text}: calls without a value", f"{without} of them" in said, without > 0)
        page.judge(f"{words} of {text}: a point for each call", window.script(POINTS), len(rows))
        shown = window.script("return document.getElementById('values-picture').getClientRects().length > 0")
        page.judge(f"{words} of {text}: a picture of two calls and more", shown, len(rows) > 1)
        table = window.script("return machine.tableOfValues()").strip().split("\n")[1:]
        page.judge(f"{words} of {text}: the file", table, [",".join([*it[0].split(), *it[1:]]) for it in wanted])
    try_picture(page, window)
    for words, says in REFUSED:
        said = called(live, window, None, words)
        page.judge(f"the words {words!r}", (says in said, window.script(ROWS)), (True, []))
    for text, words in (("fun x:nat. x", "1 2"), ("fun f:nat->nat. f 1", "3"), ("3", "3")):
        said = called(live, window, text, words)
        page.judge(f"{words} of {text}", (said.split("\n")[0], window.script(ROWS)), ("refused: NotGround", []))
    said = called(live, window, "fun x:nat. x +", "3")
    page.judge("a function with a fault", said.split("\n")[0], "refused: Unexpected(14)")
    # A press on a row runs that call.
    called(live, window, "fun x:nat. x * x # squared", "0..5")
    window.script("document.querySelectorAll('#values-rows button')[4].click()")
    live.waits(window, live.IDLE)
    page.judge("the walk of a row", window.script("return [walk.view.program, walk.view.run.trace.value]"), ["(fun x:nat. x * x # squared\n) 4\n", "16"])


def try_picture(page, window):
    """Of the values a call without one has no point, and the highest point is the greatest."""
    known = window.script(ROWS)
    window.script("""
      const what = document.getElementById("values-what");
      what.value = "values";
      what.dispatchEvent(new Event("change"));""")
    numbers = [int(it[1]) for it in known if it[1].isdigit()]
    points = window.script("return document.querySelector('#values-picture polyline').getAttribute('points')").split(" ")
    heights = [88 - float(it.split(",")[1]) for it in points]
    page.judge("points of values", len(points), len(numbers))
    page.judge("as high as the values", [round(it, 1) for it in heights], [round(70 * it / max(numbers), 1) for it in numbers])
    page.judge("the greatest", window.script("return document.querySelector('#values-picture text').textContent"), str(max(numbers)))
    window.script("""
      const what = document.getElementById("values-what");
      what.value = "moves";
      what.dispatchEvent(new Event("change"));""")
