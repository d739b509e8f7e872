"""Tries the page with the machine inside, out/goi.html, as c/live-page makes it.

`try_without` is part of `.ci/page --without-browser`, and tries the module in Node where Node is there and c/build has left the library's
LLVM module; `try_live` tries the page in a browser. Both take the script `.ci/page` as `page`, for its counts and its folds.
"""

import base64
import contextlib
import hashlib
import json
import os
import pathlib
import re
import shutil
import subprocess
import sys
import time

import page_boxes as boxes
import page_browser as browser
import page_firefox as firefox
import page_programs as programs
import page_steps as steps
import page_values as values
from judging import load

TOP = pathlib.Path(__file__).resolve().parent.parent
PAGE = TOP / "out/goi.html"
# So many levels are never cut off: with the stack that a browser gives a call that may wait for a promise, and without it.
LEVELS = {"Chrome": 500, "Firefox": 300, "without": 150}


# Without a browser.


def try_without(page, program, folder):
    live, build = load(str(TOP / "c/live-page")), load(str(TOP / "c/build"))
    whole = live.page(b"\0asm\1\0\0\0", "no sources")
    try_whole(page, whole)
    page.judge("the page is the same when it is made again", live.page(b"\0asm\1\0\0\0", "no sources") == whole)
    other = live.page(b"\0asm\1\0\0\0", "no sources", "unproved")
    says_so = (live.UNPROVED in whole, other.replace(live.UNPROVED, "") == whole)
    page.judge("a page whose library wasn't proved says so, and no other", says_so, (False, True))
    try_refusals(page, live)
    try_hints(page)
    lacks = [it for it in ("node", "rt") if shutil.which(it) is None]
    if lacks:
        print(f"skipped: the machine of the page, tried in Node, since {lacks[0]} isn't there")
    elif not live.is_made(build.sum_of_sources(build.kit_of())):
        why = "no out/goi.html of these sources is there that was proved; c/live-page --proved makes it"
        print(f"skipped: the machine of the page, tried in Node, since {why}")
    else:
        try_in_node(page, program, folder)


def made(page, *words):
    """Makes the page; answers whether it was made."""
    ran = subprocess.run([str(TOP / "c/live-page"), *words], stdin=subprocess.DEVNULL, capture_output=True, text=True)
    page.judge("c/live-page", (ran.returncode, ran.stderr[-2000:]), (0, ""))
    return ran.returncode == 0


def try_whole(page, whole):
    """The page is that of a walk with parts put in; it names no address, and its policy allows its two scripts, its module and its worker."""
    plain = load(str(TOP / "tools/walk/build")).page()
    left, other = iter(whole.split("\n")), ("Content-Security-Policy", "Open a walk")
    lacking = [line for line in plain.split("\n") if not any(it in line for it in other) and line not in left]
    page.judge("each line of the page of a walk is in the live page, in its order", lacking, [])
    # (The module and the hashes are numbers, written with letters and slashes.)
    read = re.sub(r'id="goi-module">[^<]*<|sha256-[^\']*', "", whole)
    for mark in ("http:", "https:", "//", "ftp:", "src=", "href=", "@import", "<link", "<iframe", "<img", "fetch(", "XMLHttpRequest",
                 "WebSocket", "import(", "importScripts", "sendBeacon", "EventSource", "eval(", "innerHTML", "document.write"):
        page.judge(f"{mark} in goi.html", read.count(mark), 0)
    policy = re.search(r'http-equiv="Content-Security-Policy" content="([^"]*)"', whole)[1]
    scripts = re.findall(r"<script>(.*?)</script>", whole, re.S)
    hashes = " ".join(f"'sha256-{base64.b64encode(hashlib.sha256(it.encode()).digest()).decode()}'" for it in scripts)
    wanted = f"default-src 'none'; style-src 'unsafe-inline'; script-src {hashes} 'wasm-unsafe-eval'; worker-src blob:; "
    page.judge("two scripts", len(scripts), 2)
    page.judge("the policy of goi.html", policy, wanted + "base-uri 'none'; form-action 'none'")
    given = json.loads(re.search(r'id="goi-given">(.*?)</script>', whole, re.S)[1])
    page.judge("the examples of goi.html", given["examples"], programs.TEXTS)


def try_refusals(page, live):
    """What isn't known of a module is refused, and not guessed."""
    head = b"\0asm\1\0\0\0"

    def module(body):
        code = bytes([1, len(body) + 1, 0]) + body
        return head + b"\1\4\1\x60\0\0\3\2\1\0\5\3\1\4\1\x0a" + bytes([len(code)]) + code

    def narrowed(given):
        try:
            return live.narrow(given)
        except (ValueError, IndexError, KeyError) as error:
            return type(error).__name__

    # i64.const 0, i64.const 7, i64.store; end: the address waits for its value
    store = narrowed(module(b"\x42\0\x42\7\x37\3\0\x0b"))
    page.judge("a store", store[-16:], b"\1\1\x7e\x42\0\x42\7\x21\0\xa7\x20\0\x37\3\0\x0b")
    for name, given in (
        ("a table's call", module(b"\x11\0\0\x0b")),
        ("a body without an end", module(b"\x01")),
        ("another head", b"\0asm\2\0\0\0"),
        ("imports", head + b"\2\1\1"),
        ("a memory of 32 bits", module(b"\x0b").replace(b"\5\3\1\4\1", b"\5\3\1\0\1")),
    ):
        page.judge(f"{name} is refused", isinstance(narrowed(given), str))
    for name, given in (
        ("no module", ""),
        ("a module for one processor", 'target triple = "x"\n  call void asm sideeffect "", ""()\n'),
        ("two heads", 'target datalayout = "x"\ntarget datalayout = "x"\ntarget triple = "x"\n'),
    ):
        with contextlib.suppress(ValueError):
            live.retarget(given)
            page.judge(f"{name} is refused", False)
            continue
        page.judge(f"{name} is refused", True)


# Slips of who comes from another language: the fault, the text in front of its place and behind it, and what is said of them.
SLIPS = (
    ("Unexpected", "(fun x", ". x) 3", "a binder has a type"),
    ("BadToken", "fun x ", "=> x", "a binder has a type"),
    ("Unexpected", "1 + (fix f", " -> f)", "a binder has a type"),
    ("BadToken", "", "\\x. x", "a function is written `fun x:nat."),
    ("Unexpected", "(\u03bbx", ". x) 3", "a function is written `fun x:nat."),
    ("BadToken", "let y ", "= 3 in y", "there is no `let`"),
    ("Unbound", "", "let y", "there is no `let`"),
    ("Unexpected", "if x\n  ", "then 1 else 2", "a test for 0 is written `ifz"),
    ("Unbound", "1 + ", "if (x) 1 2", "a test for 0 is written `ifz"),
    ("Unexpected", "ifz 0 ", "1", ""),
    ("Unexpected", "(fun x:nat. x + ", ") 3", ""),
    ("BadToken", "1 + ", "$", ""),
    ("Unbound", "1 + ", "iff", ""),
    ("Unbound", "# let x\n", "letter", ""),
    ("Unexpected", "# fun x\n", ")", ""),
    ("NatWanted", "fun x", ". x", ""),
)


def try_hints(page):
    """What is said of a usual slip, by tools/why and by the page."""
    why = load(str(TOP / "tools/why"))
    for fault, before, rest, says in SLIPS:
        found = why.hint_of(fault, before, rest)
        page.judge(f"why of {before!r} and {rest!r}", found.startswith(f"; {says}") if says else found, True if says else "")
    if shutil.which("node") is None:
        print("skipped: what the page says of slips, since node isn't there")
        return
    code = re.search(r"^function hintOf.*?^}$", (TOP / "c/live_page/faults.js").read_text(encoding="utf-8"), re.S | re.M)[0]
    code = f"const given = {json.dumps({'hints': why.HINTS})};\n{code}\n"
    code += f"console.log(JSON.stringify({json.dumps(SLIPS)}.map(([fault, before, rest]) => hintOf(fault, before + rest, before.length))));"
    ran = subprocess.run(["node", "-e", code], capture_output=True, text=True)
    page.judge("the page of slips", ran.stdout.strip() and json.loads(ran.stdout), [why.hint_of(*it[:3]) for it in SLIPS])


def in_node(calls):
    """What the machine of the page answers in Node."""
    words = ["node", str(TOP / ".ci/page_machine.js"), str(PAGE)]
    ran = subprocess.run(words, input=json.dumps(calls), capture_output=True, text=True, timeout=600)
    if ran.returncode:
        raise RuntimeError(ran.stderr[-2000:])
    return json.loads(ran.stdout)


def try_in_node(page, program, folder):
    began = time.time()
    calls = programs.Calls(program, folder)
    for name, text in programs.TEXTS.items():
        calls.of_program(name, text, rooms=(None, 0, 1, 64))
    for name, text in programs.LISTINGS.items():
        calls.of_listing(name, text)
    for at, text in enumerate(programs.generated(200)):
        add_generated(calls, at, text)
    found = in_node(calls.calls)
    page.judge(f"{len(found)} answers in Node are the program's", calls.faults(found), [])
    try_memory(page, program, folder)
    print(f"the machine in Node: {len(found)} answers, {time.time() - began:.1f} s")


def add_generated(calls, at, text):
    file, name = calls.file(text), f"generated {at}"
    for flags in (0, 1):
        calls.add(name, "goi_run", [text], [1000, flags], "run", file, "--budget", "1000", *["--by-value"] * flags)
    calls.add(name, "goi_check", [text], [1], "check", file, "--term")
    calls.add(name, "goi_net", [text], [], "net", file)


def try_memory(page, program, folder):
    """With less and less memory a call has the right answer or none."""
    calls, room = programs.Calls(program, folder), 1 << 16
    text = programs.TEXTS["fibonacci.pcf"]
    file = calls.file(text)
    known = {words: calls.printed(*words) for words in ((("run", file, "--by-value")), (("trace", file)), (("net", file)))}
    whole = 4 << 20  # the module's stack; its data and its heap come behind
    for most in range(whole + 100, whole + 900000, 2003):
        for call, numbers, words in (
            ("goi_run", [10000, 1], ("run", file, "--by-value")),
            ("goi_trace", [10000, 0, 0, 100000], ("trace", file)),
            ("goi_net", [], ("net", file)),
        ):
            calls.add(f"{most} bytes", call, [text], numbers, room=room, most=most, known=known[words])
    found = in_node(calls.calls)
    none = [it for it in found if it.get("status") == 6]
    wrong = [it for it in calls.faults(found) if "'status': 6" not in it[1]]
    page.judge("calls without memory", (wrong, 100 < len(none) < len(found) - 100), ([], True))


# In a browser.


ASK_ALL = """
const found = [];
for (const [name, texts, numbers] of arguments[0]) found.push(await machine.ask(name, texts, numbers));
return found;
"""
RUN = """
const [text, byValue, budget] = arguments;
const box = document.getElementById("own-text");
box.value = text;
box.dispatchEvent(new Event("input"));
const strict = document.getElementById("own-by-value");
if (strict.checked !== byValue) strict.click();
document.getElementById("own-budget").value = budget;
document.getElementById("own-run").click();
"""
SAID = "return [...document.getElementById('own-said').children].map(it => it.textContent).join('\\n')"
IDLE = "return !document.body.classList.contains('busy')"


def waits(window, code, seconds=30):
    """Whether this comes to hold within some seconds."""
    until = time.time() + seconds
    while not window.script(code):
        if time.time() > until:
            return False
        time.sleep(0.03)
    return True


def runs(window, text, by_value=False, budget=10000):
    """Puts a program into the box and presses `run`; what is said when it has ended."""
    window.script(RUN, text, by_value, budget)
    waits(window, IDLE, 100)
    return window.script(SAID)


def quiet(page, window, name):
    page.judge(f"{name}: console", [line["message"] for line in window.log() if line["level"] == "SEVERE"], [])
    fetched = window.script("return performance.getEntriesByType('resource').map(it => it.name).filter(name => !name.startsWith('blob:'))")
    page.judge(f"{name}: nothing is fetched", fetched, [])


def try_answers(page, window, program, folder):
    """Each call of each example, and of generated programs, through the page's worker."""
    calls = programs.Calls(program, folder)
    for name, text in programs.TEXTS.items():
        calls.of_program(name, text)
    for name, text in programs.LISTINGS.items():
        calls.of_listing(name, text)
    for at, text in enumerate(programs.generated(200)):
        add_generated(calls, at, text)
    found = []
    for at in range(0, len(calls.calls), 100):
        found += window.script(ASK_ALL, [it[:3] for it in calls.calls[at : at + 100]])
    page.judge(f"{len(found)} answers in the browser are the program's", calls.faults(found), [])
    print(f"{len(found)} answers of the page's worker are held against the program's")
    quiet(page, window, "calls")


def shown_trace(window):
    return window.script("const { trace } = walk.view.run; return trace.lines")


def moves_of(trace):
    return [line for line in trace.split("\n") if line.startswith("move ")]


def try_typed(page, window, program, folder):
    """A program that is run in the page is shown as its opened trace is."""
    calls = programs.Calls(program, folder)
    for name, text in programs.TEXTS.items():
        file = calls.file(text)
        (status, trace), (_, net) = calls.printed("trace", file), calls.printed("net", file)
        said = runs(window, text)
        if status not in (0, 5):
            page.judge(f"{name}: refused", said.split("\n")[0], trace.strip())
            continue
        page.judge(f"{name}: what is said", said.split("\n")[0], ", ".join(trace.split("\n")[:2]))
        page.judge(f"{name}: the walk is the trace", shown_trace(window), moves_of(trace))
        page.judge(f"{name}: its name", window.script("return walk.view.file"), f"examples/{name}")
        page.try_states(window, page.Shown(name, net), f"{name} run in the page", trace, 24)
        quiet(page, window, name)
    window.script("document.getElementById('own-text').select()")
    window.keys("(fun x:nat. x * x) 12")
    chord(window, CONTROL, ENTER)
    page.judge("typed, and run by its key", waits(window, "return walk.view.run.trace.value === '144'"))
    page.judge("keys of the walk stay out of the box", window.script("return walk.view.program"), "(fun x:nat. x * x) 12")
    window.script("document.getElementById('own-check').click()")
    page.judge("checked", waits(window, SAID + ".startsWith('type nat\\nterm (fun x:nat. x * x) 12')"))
    window.script("document.getElementById('own-text').focus()")
    window.keys(page.ESCAPE + page.RIGHT)
    there = (page.comes(window, 1), window.script("return document.activeElement.id"))
    page.judge("from the text to the picture by a key, where arrows walk", there, (1, "picture"))
    found = window.script("""
      return (async () => {
        machine.asking.module = null;
        const answer = machine.ask("goi_check", ["1"], [1]);
        document.body.classList.add("busy");
        const said = getComputedStyle(document.getElementById("own-said"), "::before").content;
        await answer;
        document.body.classList.remove("busy");
        return [said, document.body.classList.contains("waking")];
      })();""")
    page.judge("what is said while the module is compiled", found, ['"the machine is being made ready"', False])


CONTROL, ENTER = "\ue009", "\ue007"


def chord(window, held, key):
    actions = [{"type": "keyDown", "value": held}, {"type": "keyDown", "value": key}, {"type": "keyUp", "value": key}]
    actions.append({"type": "keyUp", "value": held})
    window.call("POST", "/actions", {"actions": [{"type": "key", "id": "keys", "actions": actions}]})


def try_by_value(page, window, program, folder):
    """A run by value walks the net of the translation that tools/by-value prints."""
    calls, count = programs.Calls(program, folder), 0
    for name, text in [*programs.TEXTS.items(), *((f"generated {at}", it) for at, it in enumerate(programs.generated(40, seed=7)))]:
        file = calls.file(text, f"{len(name)}{count}")
        status, trace = calls.printed("trace", file, "--by-value")
        said = runs(window, text, by_value=True)
        if status not in (0, 5):
            page.judge(f"{name}: refused by value", said.split("\n")[0], trace.strip())
            continue
        count += 1
        by_value = subprocess.run([str(TOP / "tools/by-value"), file], env={**os.environ, "GOI": program}, capture_output=True, text=True)
        _, net = calls.printed("net", calls.file(by_value.stdout, f"translation{count}"))
        page.judge(f"{name}: the walk by value", shown_trace(window), moves_of(trace))
        page.judge(f"{name}: the net by value", window.script("return walk.view.netText"), net)
    page.judge("runs by value", count >= 20)
    quiet(page, window, "by value")


def try_refused(page, window):
    """A refusal says the machine's line, its place, and what it means; the character is marked."""
    mark = """
      const mark = document.querySelector('#own-marks mark');
      return mark && [mark.textContent, mark.previousSibling.textContent.length];"""
    for text, line, says, marked in (
        ("(fun x:nat. x + ) 3", "refused: Unexpected(16)", "line 1, column 17: no program goes on with this", [")", 16]),
        ("# größe\n1 +\n  größe", "refused: Unbound(16)", "line 3, column 3: no `fun` and no `fix` around binds this name", ["g", 14]),
        ("1 + ", "refused: Unexpected(4)", "line 1, column 5: the program ends here and is not whole", [" ", 4]),
        ("1 +\n", "refused: Unexpected(4)", "line 2, column 1: the program ends here and is not whole", [" ", 4]),
        ("1 + 𝒳", "refused: Unbound(4)", "line 1, column 5: no `fun` and no `fix` around binds this name", ["𝒳", 4]),
        ("2 𝒳$", "refused: BadToken(6)", "line 1, column 4: no token begins here", ["$", 4]),
        ("fun x:nat. x", "refused: NotGround", "only a number can be run; press check, which shows its type", None),
        ("(fun x. x) 3", "refused: Unexpected(6)", "line 1, column 7: no program goes on with this; a binder has a type", [".", 6]),
        ("let x = 3", "refused: BadToken(6)", "line 1, column 7: no token begins here; there is no `let`", ["=", 6]),
    ):
        said = runs(window, text)
        page.judge(f"refused: {text!r}", (said.split("\n")[0], says in said), (line, True))
        page.judge(f"marked: {text!r}", window.script(mark), marked)
    page.judge("what ran last is open still", window.script("return walk.view.run !== null"))
    runs(window, "(fun x:nat. x + ) 3")
    window.script("document.getElementById('own-text').dispatchEvent(new Event('input'))")
    page.judge("a change takes the mark away", window.script(mark), None)
    quiet(page, window, "refusals")


SUM = "(fix sum:nat->nat. fun n:nat. ifz n then 0 else n + sum (pred n)) %d"


def try_stopped(page, window):
    """While a run is made the page goes on, and the run can be stopped."""
    runs(window, programs.TEXTS["double.pcf"])
    window.script(RUN, SUM % 2000, False, 10000000)
    time.sleep(0.5)
    page.judge("a long run is under way", window.script(IDLE), False)
    window.script("walk.show(17)")
    page.judge("and the page goes on", window.script("return document.getElementById('now').value"), "17")
    page.judge("within a moment", window.script("const began = performance.now(); walk.show(5); return performance.now() - began < 1000"))
    page.press(window, *page.ask(window, "middleOf", "#own-stop"))
    page.judge("stopped", (waits(window, IDLE, 5), window.script(SAID).split("\n")[0]), (True, "stopped"))
    page.judge("after a stop", runs(window, "1 + 2").split("\n")[0], "value 3, moves 6")
    window.script(RUN, SUM % 2000, False, 10000000)
    page.judge("another run ends the one under way", runs(window, "1 + 3").split("\n")[0], "value 4, moves 6")
    quiet(page, window, "stops")


def try_without_memory(page, window):
    least = "machine.asking.worker?.terminate(); machine.asking.worker = null; machine.asking.most = arguments[0] * 2 ** 20;"
    window.script(least, 24)
    said = runs(window, SUM % 200, budget=1000000)
    wanted = "no memory\nIt wanted more than the 24 MiB that it may take.\nThe walk that is shown is still that of program.pcf."
    page.judge("a run out of memory", said, wanted)
    window.script(least, 1024)
    page.judge("after a run out of memory", runs(window, "1 + 2").split("\n")[0], "value 3, moves 6")
    quiet(page, window, "memory")


def deep_calls(program, folder, names, steps):
    calls = programs.Calls(program, folder)
    for name in names:
        limit = programs.DEEPEST[name][3]
        for levels in sorted({*range(steps, limit, steps), limit}):
            text = programs.deep(name, levels)
            file = calls.file(text)
            for flags in (0, 1):
                calls.add(f"{name} {levels}", "goi_run", [text], [1000, flags], "run", file, "--budget", "1000", *["--by-value"] * flags)
            calls.add(f"{name} {levels}", "goi_check", [text], [1], "check", file, "--term")
            calls.add(f"{name} {levels}", "goi_net", [text], [], "net", file)
            calls.add(f"{name} {levels}", "goi_trace", [text], [1000, 0, 0, 50], "trace", file, "--budget", "1000", "--most", "50")
    return calls


def try_levels(page, window, calls, least, how):
    """Each answer is the program's, or the call was cut off; and that comes only above so many levels."""
    found = []
    for at in range(0, len(calls.calls), 20):
        found += window.script(ASK_ALL, [it[:3] for it in calls.calls[at : at + 20]])
    page.judge(f"deep programs {how}", [it for it in calls.faults(found) if "'cut'" not in it[1]], [])
    cut = {}
    for name, came in zip(calls.names, found, strict=True):
        shape, levels = name.split(":")[0].split(" ")
        if "cut" in came:
            cut[shape] = min(cut.get(shape, 999), int(levels))
    page.judge(f"least levels that were cut off {how}", {shape: levels for shape, levels in cut.items() if levels <= least}, {})
    print(f"{window.name()} {how}:", ", ".join(f"{it} are cut off from {cut[it]} levels on" for it in cut) or "no program is cut off")
    return cut


def try_deepest(page, window, program, folder):
    """The deepest programs have the program's answer, or are cut off; and the page goes on."""
    name = window.name().split("/")[0]
    calls = deep_calls(program, folder, programs.DEEPEST, 250)
    try_levels(page, window, calls, LEVELS[name], "with a stack for the call")
    text = programs.deep("arguments", 498)
    known = calls.printed("run", calls.file(text, "deepest"))[1].split("\n")
    if name == "Chrome":
        page.judge("the deepest program in the page", runs(window, text).split("\n")[0], ", ".join(known[:2]))
    # an older browser, which has no such stack
    window.script("""
      const text = document.getElementById("goi-machine");
      text.textContent = "WebAssembly.promising = undefined;" + text.textContent;
      machine.asking.worker?.terminate();
      machine.asking.worker = null;""")
    calls = deep_calls(program, folder, ["products", "pairs", "arguments"], 50)
    cut = try_levels(page, window, calls, LEVELS["without"], "with a worker's stack")
    if name == "Chrome":
        page.judge("some are cut off", len(cut) > 0)
        said = runs(window, programs.deep("pairs", 498))
        page.judge("what is said of it", (said.split("\n")[0], "nested too deeply for this browser" in said), ("cut off", True))
    page.judge("after it", runs(window, "1 + 2").split("\n")[0], "value 3, moves 6")
    quiet(page, window, "deep programs")
    window.open(PAGE.as_uri())


def try_address(page, window):
    window.open(PAGE.as_uri() + "#example=sum&move=786")
    there = "return walk.view.run && walk.view.name === 'sum.pcf' && document.getElementById('now').value === '786'"
    page.judge("an example and a move", waits(window, there))
    window.open("about:blank")
    window.open(PAGE.as_uri() + "#program=%28fun+x%3Anat.+x%29+5&by-value=1&budget=77&move=5")
    page.judge("a program in the address", waits(window, "return walk.view.run && document.getElementById('now').value === '5'"))
    page.judge("and how it is run", window.script(SAID).split("\n")[0], "no value, moves 77")
    time.sleep(0.5)
    page.judge("it stays there", window.script("return location.hash"), "#program=%28fun+x%3Anat.+x%29+5&by-value=1&budget=77&move=5")
    window.script("location.hash = '#program=1+%2B+2'")
    page.judge("another one", waits(window, "return walk.view.run.trace.value === '3'"))
    quiet(page, window, "addresses")


def try_opened(page, window):
    page.ask(window, "openTexts", [("p.pcf", "2 * 3")])
    page.judge("a file with a program is run", waits(window, "return walk.view.run.trace.value === '6'"))
    page.judge("and has its name", window.script("return walk.view.file"), "p.pcf")
    said = page.ask(window, "openTexts", [("p.net", "net 1\nend\n")])["trouble"]
    page.judge("a net without a trace", said, "No trace is among these files.")
    quiet(page, window, "files")


def try_looks(page, window):
    window.open(PAGE.as_uri() + "#example=sum")
    page.judge("the first look", waits(window, "return walk.view.run !== null"))
    for text in (programs.TEXTS["double.pcf"], "(fun x:nat. x + ) 3"):
        runs(window, text)
        for theme in ("light", "dark"):
            low, count = page.ask(window, "lowContrasts", theme, "ticket", 3)
            page.judge(f"contrast in {theme}", (low, count > 100), ([], True))
    page.judge("each control has a name", page.ask(window, "nameless"), [])
    for width in (1440, 1000, 800, 480):
        window.resize(width, 900)
        over, outside = page.ask(window, "outside")
        page.judge(f"{width} pixels wide", (over <= 0, outside), (True, []))
    window.resize(1440, 900)


def try_sizes(page, window):
    """In each window the sentence and the stacks are in sight, the picture has half of a small one, no control is cut off, meets another or is
    lit for nothing, the row of a moment of the trace is seen, and the tour covers nothing."""
    moments = (("double", 8), ("sum", 786), ("unfolded", 148), ("door", 24), ("named", 21), ("apply", 12))
    for width, height in page.SIZES:
        window.view(width, height)
        for name, at in moments:
            where = f"goi.html, {name} at {width}x{height}"
            window.open("about:blank")
            window.open(PAGE.as_uri() + f"#example={name}&move={at}")
            page.judge(f"{where}: opened", waits(window, f"return walk.view.name === '{name}.pcf' && walk.view.run.state.at === {at}"))
            waits(window, IDLE)
            if width > 1000:
                page.judge(f"{where}: the left column", page.ask(window, "columnFaults", at), [])
            else:
                page.judge(f"{where}: the picture has half of a small window", page.ask(window, "pictureFaults", [0, 3, at]), [])
            page.judge(f"{where}: controls", page.ask(window, "controlFaults"), [])
            page.judge(f"{where}: nothing is lit that does nothing", page.ask(window, "litFaults", [0, 3, at]), [])
            page.judge(f"{where}: the card is seen", page.ask(window, "cardFaults", [0, 3, at]), [])
            window.script("walk.show(arguments[0]); machine.openTab('trace')", at)
            page.judge(f"{where}: the row of the trace", page.ask(window, "traceFaults"), [])
            if width > 1000:
                page.judge(f"{where}: the left column beside the trace", page.ask(window, "columnFaults", at), [])
        if width <= 1300:
            page.press(window, *page.ask(window, "middleOf", "#menu"))
        page.press(window, *page.ask(window, "middleOf", "#begin-tour"))
        time.sleep(0.2)
        while window.script("return !document.getElementById('tour').hidden"):
            title = window.script("return document.getElementById('tour-title').textContent")
            page.judge(f"goi.html at {width}x{height}: {title}", page.ask(window, "tourFaults"), [])
            page.press(window, *page.ask(window, "middleOf", "#tour-on"))
    window.view()
    quiet(page, window, "sizes")


def try_live(page, program, folder):
    if not made(page):
        return
    try_whole(page, PAGE.read_text(encoding="utf-8"))
    try_window(page, browser.Browser(), program, folder)
    if firefox.program() is None:
        print("skipped: the machine in Firefox, since it isn't there;", firefox.HOW)
        return
    try_window(page, firefox.Firefox(), program, folder)


def try_window(page, window, program, folder):
    began = time.time()
    try:
        window.open(PAGE.as_uri())
        page.judge("the first program has run", waits(window, "return walk.view.run !== null"))
        try_answers(page, window, program, folder)
        try_typed(page, window, program, folder)
        try_by_value(page, window, program, folder)
        try_refused(page, window)
        try_stopped(page, window)
        try_without_memory(page, window)
        try_deepest(page, window, program, folder)
        try_address(page, window)
        try_opened(page, window)
        boxes.try_boxes(page, sys.modules[__name__], window, program, folder)
        steps.try_steps(page, sys.modules[__name__], window, program, folder)
        values.try_values(page, sys.modules[__name__], window, program, folder)
        try_looks(page, window)
        try_sizes(page, window)
        quiet(page, window, "the whole")
        print(f"the page with the machine in {window.name()}: {time.time() - began:.1f} s")
    finally:
        window.close()
