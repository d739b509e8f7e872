#!/usr/bin/env python3
"""What is made of the table of commands and options, tools/options.json. (tools/why reads that too.)

    release/options.py --write    writes the tables of docs/FORMATS.md
    release/options.py --check    says where these aren't as they would be made, and where the table isn't the program's; the status is 0 if
                                  nowhere
    release/options.py NAME       prints `goi.bash`, `_goi` (for zsh) or `goi.fish`

The program's own table is crates/goi_words/src/commands.rt, which is proved to be that of its definition. Compared are the names of commands,
operands and options, ranges and defaults.
"""

import os
import re
import shlex
import sys

sys.dont_write_bytecode = True
TOP = os.path.dirname(os.path.dirname(os.path.realpath(__file__)))
sys.path.insert(0, os.path.join(TOP, "tools"))
from program import brief, plain, table  # noqa: E402

COMMANDS, OPTIONS = table()
PAGE = "docs/FORMATS.md"
REGION = re.compile(r"(?<=^<!-- options -->\n).*?(?=^<!-- end -->$)", re.M | re.S)


def read(*path):
    with open(os.path.join(TOP, *path), encoding="utf-8") as it:
        return it.read()


def values(row):
    """The range of an option and what counts where it isn't given, behind a comma."""
    default = f" ({row['default']})" if "default" in row else ""
    return f", {row['least']} to {row['most']}{default}" if "least" in row else default


def sentence(row):
    """What a command or an option does, with the range of a command's numbers."""
    numbers = f". N is {row['least']} to {row['most']}" if "takes" in row and "least" in row else ""
    return row["does"] + numbers


# ---- docs/FORMATS.md


def tables():
    """The two tables of the page."""
    out = ["| command | what is done | options |", "|---|---|---|"]
    for name, row in COMMANDS.items():
        out.append(f"| `goi {name} {row['takes']}` | {sentence(row)} | {', '.join(f'`{it}`' for it in row['options'])} |")
    out += ["", "The number in parentheses counts where an option isn't given.", "", "| option | what it does |", "|---|---|"]
    for row in OPTIONS:
        word = f"`--{row['name']} {row['value']}`" if "value" in row else f"`--{row['name']}`"
        at = ", ".join(f"`{it}`" for it in row["at"])
        apart = f" at {at}" if len([it for it in OPTIONS if it["name"] == row["name"]]) > 1 else ""
        out.append(f"| {word}{apart}{values(row)} | {sentence(row)} |")
    return "\n".join(out) + "\n"


# ---- the manual


def mdoc(text):
    """A sentence of the table for the manual: what is between backticks is a line of its own."""
    first, *rest = re.split(r"`([^`]*)`([.,;:]?)", plain(text).replace("\\", "\\e"))
    out = [first]
    for words, mark, more in zip(rest[::3], rest[1::3], rest[2::3]):
        macros = (f"Fl {it[1:]}" if it.startswith("--") else f"Cm {it}" if it in COMMANDS else f"Ql {it}" for it in words.split())
        out += [f".{' '.join(macros)} {mark}", more]
    lines = [it.strip() for text in out for it in re.sub(r"([.;]) (?=[A-Za-z])", r"\1\n", text).split("\n")]
    return "\n".join(it for it in lines if it)


def shape(name, row):
    return f"Cm {name} Ar {row['takes']}".replace("N ..", "Op Ar N ...")


def flag(row):
    return f"Fl -{row['name']}" + (f" Ar {row['value']}" if "value" in row else "")


def manual():
    """The parts of the manual's page, by the words that stand in their places."""
    synopsis, commands, options = [], [], []
    for name, row in COMMANDS.items():
        synopsis += [".Nm", "." + shape(name, row), *(f".Op {flag(it)}" for it in row["options"].values())]
        commands += [f".It {shape(name, row)}", mdoc(sentence(row) + ".")]
    for row in OPTIONS:
        at = ", ".join(f"`{it}`" for it in row["at"])
        options += [f".It {flag(row)}", mdoc(f"at {at}{values(row)}: {sentence(row)}.")]
    return {"@SYNOPSIS@": "\n".join(synopsis), "@COMMANDS@": "\n".join(commands), "@OPTIONS@": "\n".join(options)}


# ---- the shells


def numbers(row):
    """The numbers that are offered for an option or an operand."""
    return " ".join(map(str, row.get("offers", range(row["least"], row["most"] + 1) if row.get("takes") == "N" else ())))


def valued():
    """The options that take a value, each once."""
    return {f"--{it['name']}": it for it in OPTIONS if "value" in it}


def bash():
    places = {name: len([it for it in row["operands"] if row["takes"] == "N" or it != "N"]) for name, row in COMMANDS.items()}
    cases = [
        f"    {name}) options='{' '.join(row['options'])}' kinds={row.get('files', 'number')} places={places[name]} ;;"
        for name, row in COMMANDS.items()
    ]
    offered = [f"    {it}) offered='{numbers(row)}' ;;" for it, row in valued().items()]
    parts = {"@NAMES@": " ".join(COMMANDS), "@VALUED@": " | ".join(valued()), "@NUMBERS@": numbers(COMMANDS["demo"])}
    return {**parts, "@OFFERED@": "\n".join(offered), "@CASES@": "\n".join(cases)}


def zsh():
    commands = [f"    {shlex.quote(f'{name}:{brief(row)}')}" for name, row in COMMANDS.items()]
    cases = []
    for name, row in COMMANDS.items():
        words = []
        for option, it in row["options"].items():
            taken = f":{values(it)[2:] if 'least' in it else it['value']}:" if "value" in it else ""
            words.append(f"{option}[{brief(it)}]{taken}" + (f"({numbers(it)})" if "offers" in it else ""))
        for it in row["operands"]:
            kinds = {"FILE": f':file:_files -g "*.{row.get("files")}"', "SCHEDULE": ":schedule:_files"}
            words.append(kinds.get(it) or (f":number:({numbers(row)})" if row["takes"] == "N" else "*:number:"))
        cases.append(f"    {name}) _arguments " + " ".join(map(shlex.quote, words)) + " ;;")
    return {"@COMMANDS@": "\n".join(commands), "@CASES@": "\n".join(cases)}


def fish():
    lines = [f"complete -c goi -n $first -a {name} -d {shlex.quote(brief(row))}" for name, row in COMMANDS.items()]
    for kind in sorted({it["files"] for it in COMMANDS.values() if "files" in it}):
        names = " ".join(name for name, row in COMMANDS.items() if row.get("files") == kind)
        lines.append(f"complete -c goi -n '__goi_at {names}' -k -a '(__fish_complete_suffix .{kind})'")
    lines += [f"complete -c goi -n '__goi_at {it}' -a '{numbers(row)}'" for it, row in COMMANDS.items() if row["takes"] == "N"]
    for row in OPTIONS:
        taken = f" -x -a '{numbers(row)}'" if "offers" in row else " -x" if "value" in row else ""
        lines.append(f"complete -c goi -n '__goi_at {' '.join(row['at'])}' -l {row['name']}{taken} -d {shlex.quote(brief(row) + values(row))}")
    return {"@LINES@": "\n".join(lines)}


FILLED = {"goi.bash": bash, "_goi": zsh, "goi.fish": fish}


def filled(text, parts):
    """A text with what stands in the places of these words."""
    for word, it in parts.items():
        text = text.replace(word, it)
    return text


def completion(name):
    return filled(read("release", "completions", name), FILLED[name]())


# ---- the program's own table


def of_program(text):
    """The commands of crates/goi_words, of its text: of each the operands in their order, and the options, all with ranges and defaults."""
    limits = "".join(read(f"crates/{it}.rt") for it in ("pcf_values/src/limits", "goi_jobs/src/limits", "goi_words/src/defaults"))
    numbers = {name: it.replace("_", "") for name, it in re.findall(r"const (\w+): [^=]* = ([\d_]+|\"\w+\");", limits)}
    shared = dict(re.findall(r"const (\w+): Argument<'static> = ([^;]*);", text))
    found = {}
    for command, name in re.findall(r'command\(alloc, "([\w-]+)", &(\w+)\)', text):
        said = re.search(rf"static {name}: [^=]*= \[([^;]*)\];", text)[1]
        for known in shared, numbers:
            said = re.sub(r"\b[A-Z][A-Z_]+\b", lambda it, known=known: known.get(it[0], it[0]), said)
        found[command] = [], []
        for kind, parts in re.findall(r"Argument::(\w+)\(([^)]*)\)", said):
            first, *rest = re.findall(r"[\w-]+", parts)
            rest += ["0", str(2**64 - 1)] * (kind == "Numbers")
            is_option = kind in ("Switch", "Numbered", "Named")
            found[command][is_option].append(" ".join(["--" * is_option + first, *rest]))
    return found


def of_table():
    """The same of the table."""
    bounds = lambda row: [str(row[it]) for it in ("least", "most", "default") if it in row]
    found = {}
    for name, row in COMMANDS.items():
        operands = [" ".join([it.lower(), *(bounds(row) if it == "N" else [])]) for it in row["operands"]]
        found[name] = operands, [" ".join([option, *bounds(it)]) for option, it in row["options"].items()]
    return found


def odd(page, source):
    """Where the tables of a page aren't as they would be made, and where the table isn't that of the program's text; a line each."""
    ours, theirs = of_table(), of_program(source)
    found = [f"{PAGE}: its tables aren't those of `release/options.py --write`"] * (REGION.findall(page) != [tables()])
    for name in sorted({*ours, *theirs}):
        (operands, taken), (wanted, all_taken) = ours.get(name, ([], [])), theirs.get(name, ([], []))
        if (operands, sorted(taken)) != (wanted, sorted(all_taken)):
            differ = [*(operands if operands != wanted else []), *sorted({*taken} ^ {*all_taken})]
            found.append(f"tools/options.json: {name} isn't crates/goi_words': {', '.join(differ) or 'it has no operands'}")
    return found


def main():
    words = sys.argv[1:]
    if words == ["--write"]:
        with open(os.path.join(TOP, PAGE), encoding="utf-8") as it:
            text = REGION.sub(lambda _: tables(), it.read())
        with open(os.path.join(TOP, PAGE), "w", encoding="utf-8") as it:
            it.write(text)
    elif words == ["--check"]:
        found = odd(read(PAGE), read("crates/goi_words/src/commands.rt"))
        print("\n".join(found), end="\n" * bool(found))
        return int(bool(found))
    elif len(words) == 1 and words[0] in FILLED:
        print(completion(words[0]), end="")
    else:
        print(__doc__, file=sys.stderr)
        return 2
    return 0


if __name__ == "__main__":
    sys.exit(main())
