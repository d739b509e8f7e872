"""The pages of the manual: that of the program has its commands and options from the table of them, those of the library and of the tools
are made of their own texts."""

import os
import re

import options

TOP = os.path.dirname(os.path.dirname(os.path.realpath(__file__)))


def read(*path):
    with open(os.path.join(TOP, *path), encoding="utf-8") as it:
        return it.read()


def roff(text):
    """A text as roff has it. Where no line of it is indented, each sentence begins a line."""
    if "\n    " not in "\n" + text:
        text = re.sub(r"([.!?]\)?) (?=[A-Z`])", r"\1\n", text)
    text = text.replace("\\", "\\e").replace("-", "\\-")
    return "\n".join("\\&" + line if line[:1] in (".", "'") else line for line in text.split("\n"))


def paragraphs(text):
    """Plain text as mdoc: a block that is indented stays as it is, and one with lines that begin with `- ` is a list."""
    out = []
    for block in re.split(r"\n[ \t]*\n", text.strip("\n")):
        plain = "\n".join(line.strip() for line in block.split("\n"))
        if block.startswith(("    ", "\t")):
            out.append(f".Bd -literal -offset indent\n{roff(block)}\n.Ed")
        elif "\n- " in plain:
            first, *points = plain.split("\n- ")
            out += [".Pp\n" + roff(first), ".Bl -dash -compact", *(".It\n" + roff(it) for it in points), ".El"]
        else:
            out.append(".Pp\n" + roff(plain))
    return "\n".join(out).removeprefix(".Pp\n")  # (a section begins with a paragraph anyhow)


def of_program(date, version):
    return options.filled(read("release", "man", "goi.1"), {**options.manual(), "@VERSION@": version, "@DATE@": date})


def of_script(name, date, version):
    """The page of a script of tools/, of the text with which it begins."""
    text = re.search(r'^"""(.*?)"""', read("tools", name), re.S | re.M)[1]
    command = "goi-" + name
    first, _, rest = text.replace("tools/" + name, command).replace("tools/", "goi-").partition("\n\n")
    usage = ""
    while rest.startswith("    "):
        block, _, rest = rest.partition("\n\n")
        usage += f".Bd -literal -compact\n{roff(block)}\n.Ed\n"
    says = first.replace("\n", " ").rstrip(".:")
    lines = [f".Dd {date}", f".Dt {command.upper()} 1", f".Os goi {version}", ".Sh NAME", f".Nm {command}"]
    lines += [f".Nd {roff(says[0].lower() + says[1:])}", ".Sh SYNOPSIS", usage.rstrip() or ".Nm"]
    lines += [".Sh DESCRIPTION", paragraphs(rest) or roff(first), ".Sh SEE ALSO", ".Xr goi 1"]
    return "\n".join(lines) + "\n"


def of_header(date, version):
    """goi(3) of the header: its first comment, each call with the comment above it, and its numbers. And the calls' names."""
    header = read("c", "goi.h")

    def plain(comment):
        return "\n".join(re.sub(r"^ \*? ?", "", line) for line in comment.split("\n")).strip("\n")

    first = plain(re.match(r"/\*(.*?)\*/", header, re.S)[1])
    body = header[header.index('extern "C" {\n#endif') :]
    calls = [*re.finditer(r"/\*([^/]*?)\*/\n((?:const )?\w+ \*?)(goi_\w+)\(([^;]*)\);", body)]
    numbers = body[body.index("/* What a call answers") : calls[0].start()]
    names = [it[3] for it in calls]
    out = [f".Dd {date}", ".Dt GOI 3", f".Os goi {version}", ".Sh NAME", *(f".Nm {it} ," for it in names[:-1]), f".Nm {names[-1]}"]
    out += [f".Nd {roff(first.splitlines()[0].split(' -- ')[1])}"]
    out += [".Sh LIBRARY", "libgoi: -lgoi, or `pkg-config --cflags --libs goi`", ".Sh SYNOPSIS", ".In goi.h"]
    for it in calls:
        out += [f".Ft {it[2].strip()}", f".Fo {it[3]}", *(f'.Fa "{word}"' for word in " ".join(it[4].split()).split(", ")), ".Fc"]
    out += [".Sh DESCRIPTION", paragraphs(first.split("\n", 1)[1].strip("\n")), ".Sh CALLS"]
    for it in calls:
        out += [f".Ss {it[3]}", paragraphs(plain(it[1]))]
    out += [".Sh NUMBERS", ".Bd -literal", roff(numbers.rstrip()), ".Ed", ".Sh SEE ALSO", ".Xr goi 1"]
    return "\n".join(out) + "\n", names
