"""The part of outside.py that holds the documents against what they list: crates, documents, links, the headline and the kit."""

import os
import re
import sys
import tempfile
import urllib.parse

sys.dont_write_bytecode = True
sys.path.insert(0, os.path.dirname(os.path.realpath(__file__)))
from judging import TOP, call, judge, put  # noqa: E402

sys.path.insert(0, os.path.join(TOP, "release"))
import options  # noqa: E402

# The page that runs programs. It is made, and so it needn't be there; what an address of it can have.
LIVE = "out/goi.html"
IN_ADDRESS = {"example", "program", "schedule", "by-value", "budget", "move", "round", "net", "show", "types", "rules", "theme",
              "wall", "colour", "guess"}
SHOWN = {"net", "schedule", "trace"}
NETS = ["examples/clash.net", "examples/double.net", "examples/unboxed.net"]


def read(path):
    with open(os.path.join(TOP, path), encoding="utf-8") as text:
        return text.read()


def documents():
    """Every document of the repository, by its path."""
    folders = ["", "docs", "docs/lessons", "examples", "examples/embedding", "c", "bench"]
    folders = [it for it in folders if os.path.isdir(os.path.join(TOP, it))]
    return [os.path.join(at, it) for at in folders for it in sorted(os.listdir(os.path.join(TOP, at))) if it.endswith(".md")]


def bare(text):
    """A document without its blocks of code, where a bracket is no link."""
    return re.sub(r"^(```+)\w*\n.*?^\1$", "", text, flags=re.M | re.S)


def anchors(text):
    """The names by which links reach the headings of a document."""
    return {re.sub(r"[^\w\- ]", "", it.lower()).strip().replace(" ", "-") for it in re.findall(r"^#+ (.*)$", bare(text), re.M)}


def links(text):
    """What the links of a text lead to, but for those out of the repository."""
    return [it for it in re.findall(r"\]\(([^)\s]+)\)", bare(text)) if not re.match(r"\w+:", it)]


def loose(document, text):
    """The links of a document that lead to no file, or to no heading of one."""
    found = []
    for target in links(text):
        path, _, heading = target.partition("#")
        path = os.path.normpath(os.path.join(os.path.dirname(document), path)) if path else document
        if path == LIVE:
            found += [target] * (not fits_page(heading))
            continue
        there = text if path == document else read(path) if path.endswith(".md") and os.path.isfile(os.path.join(TOP, path)) else ""
        if not os.path.exists(os.path.join(TOP, path)) or (heading and path.endswith(".md") and heading not in anchors(there)):
            found.append(target)
    return found


def fits_page(heading):
    """Whether an address of the page that runs programs has an example or a program, and nothing that the page doesn't know."""
    wanted = dict(urllib.parse.parse_qsl(heading))
    example = wanted.get("example")
    there = "program" in wanted if example is None else os.path.isfile(os.path.join(TOP, "examples", f"{example}.pcf"))
    return there and set(wanted) <= IN_ADDRESS and wanted.get("show", "net") in SHOWN


def page_links():
    """The addresses of that page to which documents link, each with the first document that has it."""
    found = {}
    for document in documents():
        for path, _, heading in (it.partition("#") for it in links(read(document))):
            if os.path.normpath(os.path.join(os.path.dirname(document), path)) == LIVE:
                found.setdefault(heading, document)
    return found


def unlisted(text):
    """The documents that a list in docs/ lacks, and those that it has twice. Each lesson is reached from their own list."""
    cells = re.findall(r"^\| (.*?) \|", text, re.M)
    listed = [os.path.normpath(os.path.join("docs", it.partition("#")[0])) for cell in cells for it in links(cell)]
    apart = {it for it in documents() if os.path.dirname(it) in ("docs/lessons", "examples/embedding")} | {"README.md", "docs/README.md"}
    return sorted(set(documents()) - set(listed) - apart) + sorted(it for it in set(listed) if listed.count(it) > 1)


def remade(text):
    """Whether the list of crates would be made so."""
    return call([os.path.join(TOP, "tools/list-crates")], cwd=TOP)[1].decode() == text


def odd_readme(text):
    """What is wrong with what README quotes and counts: the statement of the headline, the lines that it rests on, and the kit."""
    found = []
    statement = re.sub(r"\s+", " ", read("crates/goi_engine/specs/Headline.antt"))
    quoted = [re.sub(r"\s+", " ", it).strip() for it in re.findall(r"^```\n(.*?)^```$", text, re.M | re.S) if " → " in it]
    if len(quoted) != 1 or quoted[0] not in statement:
        found.append("the headline")
    ran = call([os.path.join(TOP, "tools/believed")], 600, cwd=TOP)[1].decode()
    rows = [it.strip("| ").split(" | ") for it in ran.split("\n") if it.startswith("| ")]
    counts = [it[4] for it in rows if it[0].startswith(("`goi run FILE`", "`law_headline`"))] + [it[3] for it in rows if it[0] == "all"]
    told = re.search(r"rest on ([\d,]+) lines of definitions, .* on ([\d,]+), and all commands on ([\d,]+)\.", text)
    if not told or list(told.groups()) != counts:
        found.append(f"they rest on {counts} lines")
    kits = set(re.findall(r"rattle-kit-\w+", text))
    section = re.search(r"^## The kit\n(.*?)(?=^## )", read("CONTRIBUTING.md"), re.M | re.S)
    if len(kits) != 1 or not section or not kits <= set(re.findall(r"rattle-kit-\w+", section[1])):
        found.append("the kit")
    return found


def quoted(document):
    """What a document quotes of definitions: its blocks of code with an arrow of theirs."""
    return [it for it in re.findall(r"^```\n(.*?)^```$", read(document), re.M | re.S) if "→" in it or "↔" in it]


def shows(text, crate):
    """Whether a document has the program of a crate, to the byte."""
    return "```rust\n" + read(f"crates/{crate}/src/main.rt") + "```\n" in text


def try_listed(_):
    """Each document holds, and one with a wrong line doesn't."""
    crates, listed, readme = read("docs/crates.md"), read("docs/README.md"), read("README.md")
    judge("documents have links", sum(len(links(read(it))) for it in documents()) > 100)
    for document in documents():
        judge(f"links of {document} that lead nowhere", loose(document, read(document)), [])
    judge("a link to no file", loose("docs/README.md", "[it](LACKED.md)"), ["LACKED.md"])
    judge("a link to no example", loose("docs/README.md", "[it](../out/goi.html#example=lacked)"), ["../out/goi.html#example=lacked"])
    judge("a link with an odd word", len(loose("docs/README.md", "[it](../out/goi.html#example=sum&mov=3)")), 1)
    judge("a link to no heading", loose("docs/README.md", "[it](NET.md#lacked)"), ["NET.md#lacked"])
    judge("documents that the list lacks or has twice", unlisted(listed), [])
    judge("a list without a document", unlisted(listed.replace("(NET.md)", "(WALK.md)")), ["docs/NET.md", "docs/WALK.md"])
    judge("the list of crates is made of the crates", remade(crates))
    judge("another list isn't", not remade(crates.replace("`net_check`", "`net_chek`", 1)))
    lesson, plain = quoted("docs/lessons/6-meaning-and-adequacy.md"), lambda it: re.sub(r"\s+", " ", it).strip()
    judge("the sixth lesson quotes a statement", len(lesson), 1)
    judge("as it is", plain(lesson[0]) in plain(read("crates/adequacy_laws/specs/Adequacy.antt")))
    judge("what README quotes and counts", odd_readme(readme), [])
    judge("another headline", odd_readme(readme.replace("n ≤ budget", "budget ≤ n")), ["the headline"])
    judge("another count", len(odd_readme(re.sub(r"rest on [\d,]+", "rest on 7", readme))), 1)
    library = read("docs/AS_A_LIBRARY.md")
    for crate, old, new in (("program_value", "10_000", "1_000"), ("function_table", "for n in 0..100", "for n in 0..10")):
        judge(f"the small program {crate}", shows(library, crate))
        judge(f"another {crate}", not shows(library.replace(old, new), crate))
    judge("another kit", odd_readme(readme.replace("rattle-kit-", "rattle-kit-x")), ["the kit"])


# Words that are refused, and what tools/why says of them.
REFUSED = (
    ("", "there is no command"),
    ("ran p", "`ran` is no command; `run` is one"),
    ("--budget 5 run p", "`--budget` is no command; options come behind the command"),
    ("run", "FILE is missing"),
    ("replay p", "SCHEDULE is missing"),
    ("run p q", "`q` is one word too many"),
    ("run p --schedul", "`--schedul` is no option of `run`; `--schedule` is one"),
    ("net p --tally", "`--tally` is no option of `net`, but of `run`, `run-net`, `call`"),
    ("run p --tally=true", "`--tally` takes no value"),
    ("run p --tally --tally", "`--tally` is given twice"),
    ("run p --budget=1 --budget 2", "`--budget` is given twice"),
    ("run p --budget", "`--budget` wants a value behind it"),
    ("run p --budget -5", "`--budget` wants a value behind it, and `-5` is none"),
    ("run p --workers 65", "`65` is no value of `--workers`, which takes 1 to 64"),
    ("circuit p --cells 0", "`0` is no value of `--cells`, which takes 1 to 1048575"),
    ("circuit p --name 1st", "`1st` is no name of a module: a letter or `_`, and then letters, digits, `_` and `$`, at most 255 in all"),
    ("circuit p --name module", "`module` is a reserved word, and names no module"),
    ("circuit p --needs --cells 9", "`--cells` has no use beside `--needs`"),
    ("circuit p --vcd --run", "`--vcd` has no use beside `--run`"),
    ("circuit p --budget 5", "`--budget` has no use without one of `--schedule`, `--run`, `--vcd`, `--needs`, `--bench`"),
    ("trace p --from x", "`x` is no value of `--from`, which takes 0 to 10000000"),
    ("run -p", "`-p` is no option, and none is so short; a file of that name is `./-p`"),
    ("demo 13", "`13` is no number from 0 to 12"),
    ("run -- p -q", "`-q` is one word too many"),
    ("call", "FILE is missing"),
    ("call p 1 x", "`x` is no number from 0 to 18446744073709551615"),
    ("call p 1 --budget 5 2", "these words are not taken together"),
)


def try_table(program):
    """The table of commands and options is the program's, and the tables of docs/FORMATS.md are made of it; other ones aren't."""
    made = call([os.path.join(TOP, "release/options.py"), "--check"], cwd=TOP)
    judge("the table of commands and options", made, (0, b"", b""))
    page, source = read("docs/FORMATS.md"), read("crates/goi_words/src/commands.rt")
    for old, new in (("1 to 64 (1)", "1 to 65 (1)"), ("`--tally`, ", ""), ("<!-- end -->", "")):
        judge(f"a page with {new} for {old}", old in page and len(options.odd(page.replace(old, new, 1), source)), 1)
    for old, new in (
        ('"workers",\n    1,', '"workers",\n    2,'), ('Argument::Switch("term")', 'Argument::Switch("terms")'), ("Numbers(", "Text("),
        ('    Argument::Switch("bench"),\n', ""), ('"span", &SPAN', '"spans", &SPAN'), ("FROM,\n    MOST", "FROM,\n    TALLY,\n    MOST"),
    ):
        judge(f"a program with {new} for {old}", old in source and len(options.odd(page, source.replace(old, new))) > 0)
    # and what is built takes all options of a command at once, with their values, that may stand beside one another
    for name, row in options.COMMANDS.items():
        words = ["0" if it == "N" else "/lacked" for it in row["operands"]]
        things = {None: [*row["options"]]}
        for option, it in row["options"].items():
            for thing in it.get("beside", ()):
                things.setdefault(thing, []).append(option)
        for thing, fit in things.items():
            given = []
            for option in fit:
                it = row["options"][option]
                given += [option, *([str(it.get("most", it["default"]))] if "value" in it else [])]
            wanted = 0 if name == "demo" else 2 if thing is None and len(things) > 1 else 3
            judge(f"{name} with all its options{f' beside {thing}' if thing else ''}", call([program, name, *words, *given])[0], wanted)


def try_help(program):
    """What tools/why says of refused words, and where help is asked for, which runs nothing."""
    why, given = os.path.join(TOP, "tools/why"), {**os.environ, "GOI": program}
    for name, row in options.COMMANDS.items():
        status, out, err = call([why, name, "p", "--help"], env={**given, "GOI": "/lacked"})
        told = out.decode()
        named = [it.split()[0] for it in told.splitlines()[1:]]
        wanted = (0, b"", True, [*row["options"]])
        judge(f"help on {name}", (status, err, told.startswith(f"  goi {name} {row['takes']}: "), named), wanted)
    for words in ["--help"], ["-h"], ["help"]:
        status, out, err = call([why, *words], env={**given, "GOI": "/lacked"})
        named = re.findall(r"^  goi ([\w-]+)", out.decode(), re.M)
        judge(f"why {words[0]}", (status, err, named), (0, b"", [*options.COMMANDS]))
    found = call([why, "--version"], env={**given, "GOI": "/lacked"})
    judge("why --version", found, (0, f"goi {read('VERSION').strip()}\n".encode(), b""))
    for words, says in REFUSED:
        status, out, err = call([why, *words.split()], env=given)
        judge(f"why {words}", (status, out, err.decode().split("\n")[0]), (2, b"", f"goi: {says} [refused words]"))
    found = call([why, "run", b"p\xff"], env=given)
    judge("why of a word that isn't UTF-8", (found[0], found[2].decode().split("\n")[0]), (2, "goi: `p\\xff` is not UTF-8 [refused words]"))
    found = call([why, "run", "--", "--help"], env=given)
    judge("a file of the name --help", (found[0], found[1], found[2].endswith(b" [read failed]\n")), (3, b"", True))


def try_page_links(program):
    """What the documents' links into the page that runs programs open: it is run as the page does it, and has the move that they name."""
    judge("documents link to the page that runs programs", len(page_links()) > 10)
    for heading, document in page_links().items():
        wanted = dict(urllib.parse.parse_qsl(heading))
        with tempfile.TemporaryDirectory() as at:
            file = put(at, "p", read(f"examples/{wanted['example']}.pcf") if "example" in wanted else wanted["program"])
            words = ["run", file, "--budget", wanted.get("budget", "10000"), *["--by-value"] * (wanted.get("by-value") == "1")]
            if "schedule" in wanted:
                words = ["replay", file, put(at, "s", "\n".join(["schedule 2", *wanted["schedule"].split(","), "end", ""]))]
            status, out, _ = call([program, *words])
            moves = re.search(rb"^moves (\d+)$", out, re.M)
            there = status in (0, 5) and int(wanted.get("move", 0)) <= int(moves[1])
            judge(f"{document}: {heading}", there)
            if "net" in wanted:
                listing = "\n".join([*wanted["net"].split(","), ""])
                judge(f"{document}: a listing of examples/", listing in [read(it) for it in NETS])


def try_all(program):
    for part in try_listed, try_table, try_help, try_page_links:
        try:
            part(program)
        except Exception as error:  # a case that can't be tried has failed
            judge("a part that was cut short", repr(error), None)
