"""What a call leaves on a file: .ci/rows/programs, lists and schedules, and files that are not there."""

from tables.cases import plain, row_of, rows


def cases():
    for words, text, wanted in rows("programs"):
        row_of(f"{words} on {text}", words.split(" "), {"p": plain(text)}, wanted)
    listed = {"p9": b"(fun x:nat. x + x) 3", "p5": b"1 + 2", "p1": b"", " -n": b"succ 4", "y": b"fix y:nat. y"}
    for number, name in enumerate(("p", "q", " p", "p q ", "-p", "--", "end", " ", "e\u0301\U0010ffff"), 11):
        listed[name] = str(number).encode()
    for words, text, wanted in rows("lists"):
        row_of(f"{words} on {text}", words.split(" "), {**listed, "l": plain(text)}, wanted)
    for text, schedule, wanted in rows("schedules"):
        row_of(f"{schedule} of {text}", ["goi", "replay", "p", "s"], {"p": plain(text), "s": plain(schedule)}, wanted)
    for words, wanted in [
        (["q", "s"], "3 read failed;"), (["p", "t"], "3 read failed;"), (["x", "t"], "1 refused: Unbound(0);"),
        (["f", "t"], "1 refused: NotGround;"),
    ]:
        row_of(f"a replay of {words}", ["goi", "replay", *words], {"p": b"0", "x": b"x", "f": b"fun x:nat. x", "s": b""}, wanted)
