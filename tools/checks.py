"""What the scripts share that hold runs of programs against others: the calls, the programs that are made up or named, and what is told of
those that disagree."""

import os
import random
import subprocess
import sys

import program


class Disagrees(Exception):
    """What disagrees of a program."""


def call(words, limit):
    """Status, output and error output of a call, as texts."""
    try:
        status, *texts = program.call(words, limit)
    except subprocess.TimeoutExpired:
        raise Disagrees(f"{os.path.basename(words[0])}: no end within {limit} seconds") from None
    return status, *(it.decode(errors="replace") for it in texts)


def term(dice, deep, names, wanted="nat"):
    """A term of this type, over variables with their types. Each `fix` counts down, so that most terms have a value."""
    those = [name for name, type in names if type == wanted]
    if those and dice.random() < 0.4:
        return dice.choice(those)
    below = lambda type="nat", more=(): term(dice, deep - 1, names + list(more), type)
    fresh = f"x{len(names)}"
    if wanted == "nat -> nat":
        return f"(fun {fresh}:nat. {below('nat', [(fresh, 'nat')])})"
    if wanted == "nat * nat":
        return f"({below()}, {below()})"
    kind = dice.randrange(11) if deep > 0 else 0
    if kind in (0, 1):
        return str(dice.choice([0, 1, 2, 3, 5, 9, 2**32, 2**64 - 1]) if dice.random() < 0.2 else dice.randrange(7))
    if kind in (2, 3, 4):
        return f"({below()} {'+-*'[kind - 2]} {below()})"
    if kind == 5:
        return f"({dice.choice(['succ', 'pred'])} {below()})"
    if kind == 6:
        return f"(ifz {below()} then {below()} else {below()})"
    if kind == 7:
        return f"({below('nat -> nat')} {below()})"
    if kind == 8:
        return f"({dice.choice(['fst', 'snd'])} {below('nat * nat')})"
    if kind == 9:
        return f"((fun {fresh}:nat -> nat. {below('nat', [(fresh, 'nat -> nat')])}) {below('nat -> nat')})"
    step = below("nat", [(fresh, "nat")])
    body = f"ifz {fresh} then {below()} else {step} + f{fresh} (pred {fresh})"
    return f"((fix f{fresh}:nat -> nat. fun {fresh}:nat. {body}) {dice.randrange(4)})"


def must_be_ready(goi):
    """Ends the script where a program doesn't check one."""
    if not program.is_ready(goi):
        print(f"{goi} checks no program")
        print("0 passed, 1 failed")
        sys.exit(1)


def taken(goi, given, at, deep, limit):
    """The programs that are asked for, and what disagrees of those that `goi net` refuses: made up by the seed, in a folder, as deep as one
    of `deep`; and those of the files and folders that were named, or of the examples. A folder may have files whose program is refused:
    they are left out, and a line names them."""
    files, found, wrong, out = [], [], {}, []
    dice = random.Random(given.seed)
    for k in range(given.generated):
        files.append((f"{at}/made-{k}.pcf", True))
        with open(files[-1][0], "w", encoding="ascii") as made:
            made.write(term(dice, dice.choice(deep), []) + "\n")
    for it in given.files or ([] if given.generated else [os.path.join(program.TOP, "examples")]):
        if not os.path.isdir(it):
            files.append((it, True))
            continue
        inside = sorted(name for name in os.listdir(it) if name.endswith(".pcf"))
        files += [(os.path.join(it, name), False) for name in inside]
    for file, is_named in files:
        try:
            status, _, err = call([goi, "net", file], limit)
        except Disagrees as one:
            wrong[file] = str(one)
            continue
        if status == 0:
            found.append(file)
        elif not is_named and status == 1 and err.startswith("refused: "):
            out.append(os.path.basename(file))
        else:
            wrong[file] = f"goi net: status {status}, {err.strip()}"
    if out:
        print(f"left out, since their programs are refused: {' '.join(out)}")
    return found, wrong


def tell(wrong, at):
    """Says what disagrees, with the text of a program that was made up in this folder."""
    for file, said in wrong.items():
        print(f"{file}: {said}" + (f"\n{open(file, encoding='ascii').read()}" if file.startswith(at) else ""))
