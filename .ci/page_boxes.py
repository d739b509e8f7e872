"""Tries the boxes of out/goi.html: the program with its marks, the listing of a net, a schedule and the trace of its replay.

`try_boxes` takes the scripts `.ci/page` as `page` and `page_live` as `live`, for their counts, folds and ways to ask. What the page says is
held against what the program prints, and the order of a schedule against a fold of this script's own.
"""

import re
import time

import page_programs as programs

UP, DOWN, ALT = "\ue013", "\ue015", "\ue00a"

NARROW = (800, 600)


def program_seen(window):
    """The elements that show the whole program to a reader, by their names."""
    return window.script("""
      const text = document.getElementById("own-text").value;
      const seen = it => it.getClientRects().length > 0 && getComputedStyle(it).visibility === "visible";
      const clear = it => getComputedStyle(it).color === "rgba(0, 0, 0, 0)";
      const panels = [...document.querySelectorAll("#program, #source")].filter(it => it.textContent === text && seen(it) && !clear(it));
      const boxes = [...document.querySelectorAll("textarea")].filter(it => it.value === text && seen(it));
      return [...panels, ...boxes].map(it => it.id);""")


def try_marks(page, live, window):
    """The program stands there once, and the part of the move is marked in its box, at the very letters."""
    for name in ("sum", "twice", "church", "fibonacci", "double"):
        text = programs.TEXTS[name + ".pcf"]
        live.runs(window, text)
        page.judge(f"{name}: the program is there once", program_seen(window), ["own-text"])
        panel = window.script("return document.getElementById('program-box').getClientRects().length")
        page.judge(f"{name}: and no panel is for it", panel, 0)
        # The same letters in the same lines: as wide, as high, of one kind.
        looks = window.script("""
          return ["own-text", "program"].map(id => {
            const box = document.getElementById(id);
            const { fontFamily, fontSize, lineHeight, whiteSpace, paddingLeft, paddingTop, tabSize, letterSpacing } = getComputedStyle(box);
            const { left, top } = box.getBoundingClientRect();
            return [fontFamily, fontSize, lineHeight, whiteSpace, paddingLeft, paddingTop, tabSize, letterSpacing, box.clientWidth,
                    Math.round(left), Math.round(top), box.textContent && document.getElementById(id).scrollHeight];
          });""")
        page.judge(f"{name}: the marks lie behind the text", looks[1][:-1], looks[0][:-1])
        heights = window.script("""
          const [box, program] = ["own-text", "program"].map(it => document.getElementById(it));
          box.style.height = program.style.height = "1px";
          box.style.minHeight = "0";
          const found = [box.scrollHeight, program.scrollHeight];
          for (const it of [box, program]) it.style.height = it.style.minHeight = "";
          return found;""")
        page.judge(f"{name}: in as many lines", heights[0], heights[1])
    live.runs(window, programs.TEXTS["sum.pcf"])
    window.script("walk.show(786)")
    page.judge("the part that is marked", window.script("return document.querySelector('#box-program .at').textContent"), "pred n")
    # Where the text is another one the walk keeps its own in the panel.
    window.script("""
      const box = document.getElementById("own-text");
      box.value += " ";
      box.dispatchEvent(new Event("input"));""")
    found = window.script("""
      return [document.querySelector("#desk-program .at").textContent, document.querySelectorAll("#box-program .at").length];""")
    page.judge("a text that was changed", found, ["pred n", 0])
    live.runs(window, programs.TEXTS["sum.pcf"], by_value=True)
    found = window.script("return document.querySelectorAll('#desk-program #program').length")
    page.judge("by value the translation is in the panel", found, 1)
    live.quiet(page, window, "marks in the box")


def try_narrow(page, live, window):
    """In a narrow window the box is put away when a walk comes, and the net has the room."""
    window.resize(*NARROW)
    # (A browser can count its own edges as part of a window.)
    window.resize(NARROW[0], 2 * NARROW[1] - window.script("return innerHeight"))
    page.judge("a window of this size", window.script("return [innerWidth, innerHeight]"), list(NARROW))
    live.runs(window, programs.TEXTS["sum.pcf"])
    height, below = window.script("""
      const { height, bottom } = document.getElementById("net").getBoundingClientRect();
      return [height, document.querySelector("footer").getBoundingClientRect().top - bottom];""")
    page.judge("the net has three fifths of a small window", (height >= 0.6 * NARROW[1], height), (True, height))
    page.judge("and what is below hides nothing of it", (below >= -1, below), (True, below))
    seen = window.script("return ['own-text', 'own-said', 'told-say'].map(it => document.getElementById(it).getClientRects().length > 0)")
    page.judge("the box is put away, and what is said is there", seen, [False, True, True])
    page.judge("the program is there once, in its panel", program_seen(window), ["program"])
    page.press(window, *page.ask(window, "middleOf", "#own-fold"))
    page.judge("and is had back", program_seen(window), ["own-text"])
    window.script("document.getElementById('own-run').click()")
    live.waits(window, live.IDLE)
    page.judge("and is put away again", program_seen(window), ["program"])
    live.runs(window, programs.TEXTS["double.pcf"])
    out = window.script("""
      const { top, bottom } = document.getElementById("net").getBoundingClientRect();
      const places = [...document.querySelectorAll("#picture .node")].map(it => [it.textContent, it.getBoundingClientRect()]);
      return places.filter(([, box]) => box.top < top + 40 || box.bottom > Math.min(bottom, innerHeight)).map(([name]) => name);""")
    page.judge("all of double is seen", out, [])
    window.script("document.getElementById('begin-tour').click()")
    time.sleep(0.3)
    page.judge("the tour covers nothing", page.ask(window, "tourFaults"), [])
    window.script("document.getElementById('tour-end').click()")
    live.runs(window, programs.TEXTS["sum.pcf"])
    window.resize(1440, 900)
    page.judge("in a wide window it is there", program_seen(window), ["own-text"])
    live.quiet(page, window, "a narrow window")


def opens(live, window, tab):
    window.script("machine.openTab(arguments[0])", tab)
    live.waits(window, live.IDLE)


def marked_line(window, box):
    """The line of a box's text that is marked, from 1, or None."""
    return window.script("""
      const mark = document.querySelector(`#${arguments[0]}-marks mark`);
      return mark && mark.previousSibling.textContent.split("\\n").length;""", box)


def sees_mark(live, window, scrolled):
    """Whether the line that is marked is within the box of the net, which was scrolled so far when the net was run."""
    window.script("""
      document.getElementById("net-text").scrollTop = arguments[0];
      document.getElementById("net-run").click();""", scrolled)
    live.waits(window, live.IDLE, 100)
    return window.script("""
      const mark = document.querySelector("#net-marks mark").getBoundingClientRect();
      const box = document.getElementById("net-text").getBoundingClientRect();
      return mark.height > 0 && box.top <= mark.top && mark.bottom <= box.bottom;""")


def runs_net(live, window, text):
    window.script("""
      const box = document.getElementById("net-text");
      box.value = arguments[0];
      box.dispatchEvent(new Event("input"));
      document.getElementById("net-run").click();""", text)
    live.waits(window, live.IDLE, 100)
    return window.script(live.SAID)


def try_nets(page, live, window, program, folder):
    """The listing is the program's; a net that runs has its walk, and a broken one is refused with the line at which it breaks."""
    calls = programs.Calls(program, folder)
    for name, text in programs.TEXTS.items():
        status, listing = calls.printed("net", calls.file(text))
        if status:
            continue
        live.runs(window, text)
        window.script("document.getElementById('net-list').click()")
        live.waits(window, live.IDLE)
        page.judge(f"{name}: the listing", window.script("return document.getElementById('net-text').value"), listing)
        said = runs_net(live, window, listing)
        report = calls.printed("run-net", calls.file(listing))[1].split("\n")
        page.judge(f"{name}: its net is run", said.split("\n")[0], ", ".join(report[:2]))
        page.judge(f"{name}: the walk of its net", window.script("return [walk.view.program, walk.view.traceText]"),
                   [text, calls.printed("trace", calls.file(text))[1]])
    double = calls.printed("net", calls.file(programs.TEXTS["double.pcf"]))[1]
    lines = double.split("\n")

    def at(begin):
        return next(place for place, line in enumerate(lines, 1) if line.startswith(begin))

    def changed(begin, new):
        return "\n".join(new if line.startswith(begin) else line for line in lines)

    # A net that a hand has made another one: its walk is that of the program whose net it is.
    said = runs_net(live, window, double.replace("node 5 Const 3 7", "node 5 Const 4 7"))
    page.judge("a changed net", said.split("\n")[0], "value 8, moves 30")
    page.judge("its walk", window.script("return walk.view.traceText"), calls.printed("trace", calls.file("(fun x:nat. x + x) 4"))[1])
    window.script("walk.show(30)")
    page.judge("its answer", window.script("return document.getElementById('answer').textContent"), "8")
    # Broken nets: what is changed, and the line that is marked. (A node whose wires don't fit, a box of another depth, a wire left loose.)
    broken = [
        ("no head", "net 2\n" + "\n".join(lines[1:]), 1),
        ("a wire of no kind", changed("wire 4 ", "wire 4 some 0 nat"), at("wire 4 ")),
        ("a node of no name", changed("node 3 ", "node 3 Mul 0 2 5"), at("node 3 ")),
        ("no end", "\n".join(lines[:-2]) + "\n", len(lines) - 1),
        ("an unboxed argument", changed("wire 7 ", "wire 7 value 0 nat"), at("node 6 ")),
        ("another type", changed("wire 5 ", "wire 5 value 0 nat -> nat"), at("node 3 ")),
        ("a loose wire", double.replace("node 3 Plus 0 2 5", "node 3 Plus 0 0 5"), None),
    ]
    opens(live, window, "net")
    for name, text, row in broken:
        line = calls.printed("run-net", calls.file(text))[1].strip()
        said = runs_net(live, window, text)
        page.judge(f"a broken net, {name}: refused", (line.startswith("refused: "), said.split("\n")[0]), (True, line))
        named = re.search(r"LooseWire\((\d+)\)", line)
        row = at(f"wire {named[1]} ") if named else row
        page.judge(f"a broken net, {name}: its line", (marked_line(window, "net"), f"line {row}: " in said), (row, True))
        page.judge(f"a broken net, {name}: its line is seen", [sees_mark(live, window, end) for end in (0, 9999)], [True, True])
    page.judge("what was open is open still", window.script("return walk.view.run.trace.value"), "8")
    live.quiet(page, window, "nets")


def puts_schedule(window, text):
    window.script("""
      const box = document.getElementById("schedule-text");
      box.value = arguments[0];
      box.dispatchEvent(new Event("input"));""", text)


def replays(live, window, text):
    puts_schedule(window, text)
    window.script("document.getElementById('schedule-replay').click()")
    live.waits(window, live.IDLE, 100)
    return window.script(live.SAID)


def takes(live, window, which):
    window.script("""
      const take = document.getElementById("schedule-take");
      take.value = arguments[0];
      take.dispatchEvent(new Event("change"));""", which)
    live.waits(window, live.IDLE, 100)
    return window.script("return document.getElementById('schedule-text').value")


def expanded(text):
    rows = [line.split(" ") for line in text.split("\n")[1:-2]]
    return [int(ticket) for ticket, count in rows for _ in range(int(count))]


def are_rounds(page, trace, tickets):
    """Whether in an order of moves each live ticket moves once, then each that is live behind that, and so on."""
    states, at = page.fold(trace), 0
    while at < len(tickets):
        live = sorted(states[at][0])
        if tickets[at : at + len(live)] != live:
            return False
        at += len(live)
    return True


def try_schedules(page, live, window, program, folder):
    """A schedule of the run, of rounds or of chance is replayed, and its walk is the trace that the program prints of it."""
    calls = programs.Calls(program, folder)
    for name in ("double.pcf", "order.pcf", "sum.pcf", "fibonacci.pcf", "pairs.pcf"):
        text = programs.TEXTS[name]
        file = calls.file(text, "program")
        live.runs(window, text)
        opens(live, window, "schedule")
        own = calls.printed("run", file, "--schedule")[1]
        page.judge(f"{name}: its schedule", takes(live, window, "run"), own.split("\n", 2)[2])
        for which in ("run", "rounds", "chance"):
            order = takes(live, window, which)
            said = replays(live, window, order)
            _, trace = calls.printed("replay", file, calls.file(order, "schedule"), "--trace", "--most", "1000000")
            page.judge(f"{name}, {which}: what is said", said.split("\n")[0], ", ".join(trace.split("\n")[:2]))
            page.judge(f"{name}, {which}: the same value", trace.split("\n")[:2], own.split("\n")[:2])
            page.judge(f"{name}, {which}: its trace", window.script("return walk.view.traceText") == trace)
            if which == "rounds":
                page.judge(f"{name}: rounds", are_rounds(page, trace, expanded(order)))
        opens(live, window, "trace")
        shown = window.script("return [...document.getElementById('trace-rows').children].map(it => it.textContent)")
        page.judge(f"{name}: the box of the trace", shown, trace.split("\n")[:2000])
    # Part of a schedule comes to no answer, and its walk is as long.
    live.runs(window, "1 + 2")
    opens(live, window, "schedule")
    page.judge("part of a schedule", replays(live, window, "schedule 2\n0 1\nend\n").split("\n")[0], "no value, moves 1")
    page.judge("its walk", window.script("return [walk.view.run.length, document.getElementById('live-count').textContent]"), [1, "1"])
    file = calls.file("1 + 2", "program")
    for order, row in (("schedule 2\n0 3\n1 4\nend\n", 3), ("schedule 2\n0 4\nend\n", 2), ("schedule 2\n0 1\n0 2\nend\n", 3),
                       ("schedule 1\n01\nend\n", 2), ("schedule 1\n4294967296\nend\n", 2), ("schedule 2\n0 10000000\n1 1\nend\n", 3),
                       ("schedule 2\n0 1\n1 2\n0 3\n1 1\nend\n", 5), ("schedule 3\n0 1\nend\n", 1), ("schedule 1\n0\n1\n", None)):
        line = calls.printed("replay", file, calls.file(order, "schedule"))[1].strip()
        said = replays(live, window, order)
        page.judge(f"{order!r}: refused", (line.startswith("refused: "), said.split("\n")[0]), (True, line))
        lines = re.findall(r"^line (\d+): ", said, re.M)
        page.judge(f"{order!r}: its line", (marked_line(window, "schedule"), lines), (row, [str(row)] if row else []))
    live.quiet(page, window, "schedules")


def try_lesson(page, live, window):
    """The schedules of the fourth lesson's table come to what it says, in the page too."""
    lesson = next((programs.TOP / "docs/lessons").glob("4-*.md")).read_text(encoding="utf-8")
    table = lesson.split("| on `double` | what comes | why |\n")[1].split("\n\n")[0]
    rows = [re.findall(r"`([^`]*)`", cell) for row in table.split("\n")[1:] for cell in row.split("|")[1:3]]
    live.runs(window, programs.TEXTS["double.pcf"])
    opens(live, window, "schedule")
    for lines, comes in zip(rows[::2], rows[1::2]):
        said = replays(live, window, "\n".join(["schedule 2", *lines, "end", ""])).split("\n")[0]
        page.judge(f"lesson 4: {', '.join(lines)}", said, ", ".join(comes))
    page.judge("lesson 4: its schedules", len(rows) >= 8)
    live.quiet(page, window, "the fourth lesson")


def rows_shown(window):
    return window.script("""
      return [...document.querySelectorAll("#schedule-rows .turn")].map(it => it.textContent.match(/\\d+/g).map(Number));""")


def as_text(rows):
    """The schedule of rows, in which neighbours of one ticket are one line."""
    lines = []
    for ticket, count in rows:
        if lines and lines[-1][0] == ticket:
            lines[-1][1] += count
        else:
            lines.append([ticket, count])
    return "schedule 2\n" + "".join(f"{ticket} {count}\n" for ticket, count in lines) + "end\n"


def try_dragging(page, live, window, program, folder):
    """Rows are dragged by the pointer, moved and split by keys, and the text goes along; what comes of it is replayed."""
    text = "(1 + 2) + (3 + 4)\n"
    live.runs(window, text)
    opens(live, window, "schedule")
    takes(live, window, "run")
    rows = rows_shown(window)
    page.judge("rows of the schedule", as_text(rows), window.script("return document.getElementById('schedule-text').value"))
    x, y = page.ask(window, "middleOf", "#schedule-rows .turn:nth-child(2)")
    _, there = page.ask(window, "middleOf", "#schedule-rows .turn:nth-child(3)")
    page.press(window, x - 40, y, 0, there - y)
    rows.insert(2, rows.pop(1))
    page.judge("a row that was dragged", rows_shown(window), rows)
    page.judge("and its text", window.script("return document.getElementById('schedule-text').value"), as_text(rows))
    window.script("const list = document.getElementById('schedule-rows'); list.focus(); walk.activateRow(list, list.firstElementChild)")
    window.keys("s")
    half = (rows[0][1] + 1) // 2
    rows[:1] = [[rows[0][0], half], [rows[0][0], rows[0][1] - half]]
    page.judge("a row that was split", rows_shown(window), rows)
    page.judge("the text of it, in one line", window.script("return document.getElementById('schedule-text').value"), as_text(rows))
    window.keys(DOWN)
    live.chord(window, ALT, DOWN)
    rows.insert(2, rows.pop(1))
    page.judge("a row that a key moved", (rows_shown(window), window.script("return document.activeElement.id")), (rows, "schedule-rows"))
    page.judge("the text of it", window.script("return document.getElementById('schedule-text').value"), as_text(rows))
    calls = programs.Calls(program, folder)
    status, printed = calls.printed("replay", calls.file(text, "program"), calls.file(as_text(rows), "schedule"), "--trace")
    window.script("document.getElementById('schedule-replay').click()")
    live.waits(window, live.IDLE)
    said = window.script(live.SAID).split("\n")[0]
    page.judge("what comes of it", said, ", ".join(printed.split("\n")[:2]) if status in (0, 5) else printed.strip())
    live.quiet(page, window, "dragging")


def try_exchanged(page, live, window, program, folder):
    """The next two moves of the walk are exchanged, and the new order is replayed at once."""
    calls = programs.Calls(program, folder)
    text = programs.TEXTS["double.pcf"]
    own = [int(line.split(" ")[5]) for line in calls.printed("trace", calls.file(text))[1].split("\n") if line.startswith("move ")]
    live.runs(window, text)
    window.script("walk.show(14); document.getElementById('swap').open = true; "
                  "document.getElementById('swap-run').scrollIntoView()")
    page.press(window, *page.ask(window, "middleOf", "#swap-run"))
    live.waits(window, live.IDLE)
    own[14], own[15] = own[15], own[14]
    order = "schedule 1\n" + "".join(f"{it}\n" for it in own) + "end\n"
    trace = calls.printed("replay", calls.file(text, "program"), calls.file(order, "schedule"), "--trace")[1]
    page.judge("two moves exchanged: the trace", window.script("return walk.view.traceText"), trace)
    page.judge("two moves exchanged: the schedule", expanded(window.script("return document.getElementById('schedule-text').value")), own)
    live.quiet(page, window, "an exchange")


def try_kept(page, live, window, program, folder):
    """The boxes have what belongs to the program that was run last, but for what a hand has changed."""
    calls = programs.Calls(program, folder)
    texts = "return ['net', 'schedule'].map(it => document.getElementById(it + '-text').value)"

    def wanted(name):
        file = calls.file(programs.TEXTS[name])
        return [calls.printed("net", file)[1], calls.printed("run", file, "--schedule")[1].split("\n", 2)[2]]

    window.script("document.getElementById('net-text').value = document.getElementById('schedule-text').value = ''")
    for name in ("double.pcf", "sum.pcf", "pairs.pcf"):
        live.runs(window, programs.TEXTS[name])
        for tab in ("net", "schedule"):
            if name == "double.pcf":
                window.script("document.getElementById('net-list').click()")
                live.waits(window, live.IDLE)
            opens(live, window, tab)
        if name == "double.pcf":
            takes(live, window, "run")
        page.judge(f"{name}: its net and its schedule", window.script(texts), wanted(name))
    puts_schedule(window, "schedule 2\n0 1\nend\n")
    window.script("const box = document.getElementById('net-text'); box.value = 'net 1\\n'; box.dispatchEvent(new Event('input'))")
    live.runs(window, programs.TEXTS["double.pcf"])
    page.judge("what a hand has written stays", window.script(texts), ["net 1\n", "schedule 2\n0 1\nend\n"])
    live.quiet(page, window, "what boxes keep")


def try_links(page, live, window, program, folder):
    """An address has the program, the text that is shown, and a schedule with its moment."""
    calls = programs.Calls(program, folder)
    base = live.PAGE.as_uri()
    window.open("about:blank")
    window.open(base + "#example=door&show=net")
    listing = calls.printed("net", calls.file(programs.TEXTS["door.pcf"]))[1]
    page.judge("a link to a listing", live.waits(window, f"return document.getElementById('net-text').value === {listing!r}"))
    window.open("about:blank")
    broken = (programs.TOP / "examples/unboxed.net").read_text(encoding="utf-8")
    given = broken.strip().replace("\n", ",").replace(" ", "+").replace(">", "%3E")
    window.open(f"{base}#example=double&net={given}")
    page.judge("a link to a listing of its own", live.waits(window, f"return document.getElementById('net-text').value === {broken!r}"))
    refusal = calls.printed("run-net", calls.file(broken))[1].strip()
    live.waits(window, live.IDLE)
    page.judge("which is run", window.script(live.SAID).split("\n")[0], refusal)
    page.judge("with its line", marked_line(window, "net"), 21)
    window.open("about:blank")
    window.view(1280, 800)
    window.open(base + "#example=sum&move=786&show=trace")
    named = """
      const [box, ...rows] = ["#trace-rows", "#trace-rows .present", "#trace-rows .next"].map(it => document.querySelector(it));
      const seen = it => it.getBoundingClientRect();
      const within = it => it && seen(it).top >= seen(box).top && seen(it).bottom <= seen(box).bottom;
      const broken = it => [...it.children].map(end => end.textContent.slice(0, 3) + (seen(end).left - seen(it).left < 30));
      return rows.every(within) && [...rows.map(it => it.textContent.slice(0, 9)), ...rows.flatMap(broken), box.scrollWidth <= box.clientWidth];"""
    wanted = ["move 785 ", "move 786 ", "=> true", "=> true", True]
    page.judge("a link to a moment of the trace", (live.waits(window, f"{named[:-1]}.length === 5"), window.script(named))[1], wanted)
    window.script("document.querySelectorAll('#trace-rows [data-row]')[12].click()")
    page.judge("a press on a line of it", window.script("return [walk.view.run.state.at, document.querySelector('#trace-rows .present').dataset.move]"),
               [13, "12"])
    page.press(window, *page.ask(window, "middleOf", "#tab-trace"))
    window.keys(page.RIGHT)
    page.comes(window, 14)
    page.judge("behind a press on its tab the arrows walk", window.script(
        "return [walk.view.run.state.at, document.getElementById('tab-trace').getAttribute('aria-selected')]"), [14, "true"])
    window.view()
    page.judge("stop is beside the tabs", window.script("return document.getElementById('own-head').clientHeight < 32"))
    window.open("about:blank")
    order = "0 4,1 2,0 11,1 13"
    text = "schedule 2\n" + order.replace(",", "\n") + "\nend\n"
    file = calls.file(programs.TEXTS["double.pcf"], "program")
    trace = calls.printed("replay", file, calls.file(text, "schedule"), "--trace")[1]
    page.judge("the schedule of the link", trace.split("\n")[:2], ["value 6", "moves 30"])
    window.open(f"{base}#example=double&schedule={order.replace(' ', '+')}&move=7")
    page.judge("a link to a replay", live.waits(window, f"return walk.view.traceText === {trace!r} && walk.view.run.state.at === 7"))
    time.sleep(0.5)
    hash_ = window.script("return new URLSearchParams(location.hash.slice(1)).get('schedule')")
    page.judge("it stays in the address", hash_, order)
    # The same program in the run's own order again, by the address alone.
    window.script("location.hash = '#example=double&move=3'")
    own = calls.printed("trace", file)[1]
    page.judge("a link without the schedule", live.waits(window, f"return walk.view.traceText === {own!r} && walk.view.run.state.at === 3"))
    # What is shown keeps its address: behind the tour, and where two runs change places.
    window.script("document.getElementById('begin-tour').click(); document.getElementById('tour-end').click()")
    address = "return new URLSearchParams(location.hash.slice(1)).get('example')"
    page.judge("the address behind the tour", live.waits(window, f"{address} === 'double'", 3))
    window.script("document.getElementById('keep').click()")
    live.runs(window, programs.TEXTS["sum.pcf"])
    time.sleep(0.5)
    page.judge("the address of the next run", window.script(address), "sum")
    window.script("document.getElementById('keep').click()")
    time.sleep(0.5)
    page.judge("the address where two runs changed places", window.script(address), "double")
    window.script("document.getElementById('beside-away').click()")
    live.quiet(page, window, "links")
    window.open(base)
    live.waits(window, "return walk.view.run !== null")


def named_moments():
    """The moments that each lesson names: the example and the number of moves, by the lesson's number."""
    found = {}
    for path in sorted((programs.TOP / "docs/lessons").glob("[0-9]*.md")):
        name, own = None, []
        # (What is between two marks of code is every other part.)
        for code in path.read_text(encoding="utf-8").split("`")[1::2]:
            file, _, moment = code.partition("#move=")
            if re.fullmatch(r"\w+\.html", file):
                name = file[:-5]
            if moment.isdigit() and (file == "" or file.endswith(".html")) and f"{name}.pcf" in programs.TEXTS:
                own += [[name, int(moment)]] if [name, int(moment)] not in own else []
        found[path.name.split("-")[0]] = own
    return {lesson: own for lesson, own in found.items() if own}


def try_moments(page, live, window):
    """The list of examples has the moments that the lessons name, and takes there."""
    found = window.script("""
      return Object.fromEntries([...document.querySelectorAll("#own-example optgroup")].map(group =>
        [group.label.replace("lesson ", ""), [...group.children].map(it => {
          const [, name, move] = /^(\\w+), move (\\d+)/.exec(it.textContent);
          return [name, Number(move)];
        })]));""")
    wanted = named_moments()
    page.judge("moments of the lessons", found, wanted)
    page.judge("there are many", sum(map(len, wanted.values())) > 20)
    for lesson, own in wanted.items():
        name, move = own[-1]
        window.script("""
          const list = document.getElementById("own-example");
          list.value = arguments[0];
          list.dispatchEvent(new Event("change"));""", f"{name}.pcf {move}")
        live.waits(window, live.IDLE)
        there = window.script("return [walk.view.name, walk.view.run.state.at, document.getElementById('own-example').value]")
        page.judge(f"a moment of lesson {lesson}", there, [f"{name}.pcf", move, f"{name}.pcf"])
    live.quiet(page, window, "moments")


def try_boxes(page, live, window, program, folder):
    try_marks(page, live, window)
    try_moments(page, live, window)
    try_narrow(page, live, window)
    try_nets(page, live, window, program, folder)
    try_schedules(page, live, window, program, folder)
    try_lesson(page, live, window)
    try_dragging(page, live, window, program, folder)
    try_exchanged(page, live, window, program, folder)
    try_kept(page, live, window, program, folder)
    try_links(page, live, window, program, folder)
    window.script("machine.openTab('program')")
