"""What is refused by value: .ci/rows/by-value, and what is longer than a row."""

from tables.cases import call, case, rows


def cases():
    def refusal(text):
        status, out, err = call(["goi", "run", "p", "--by-value", "--budget", "1"], {"p": text})
        return "none" if status == 5 else (err if status == 1 else out).decode()

    def refuses(text, wanted):
        line = wanted if wanted == "none" else f"refused: {wanted}\n"
        case(f"by value: {text[:60]!r} .. of {len(text)} bytes", lambda: refusal(text), line)

    for text, wanted in rows("by-value"):
        refuses(text.encode(), wanted)
    # what opens, what is in the middle, what closes, and how many of them make a program of height 500
    for front, middle, back, count in [
        ("succ ", "0", "", 499), ("ifz ", "0", " then 1 else 2", 499), ("ifz 0 then ", "1", " else 2", 499),
        ("ifz 0 then 1 else ", "2", "", 499), ("ifz 0 then 1 else ", "0 + 0", "", 498),
    ]:
        refuses((front * count + middle + back * count).encode(), "none")
        refuses((front * (count + 1) + middle + back * (count + 1)).encode(), "ByValueDeep")
    refuses(b"ifz 0 then 1 else " * 499 + b"fix y:nat. y", "ByValueDeep")
    refuses(b"ifz 0 then 1 else " * 498 + b"fix y:nat. y", "ByValueFix(8964)")
    # functions as deep as they can be applied, and one of as many numbers as can be written
    refuses(b"(fun x:nat. " * 166 + b"x" + b") 1" * 166, "none")
    refuses(b"(fix f:nat->nat. fun x:nat. " * 124 + b"x" + b") 1" * 124, "none")
    refuses(b"(fun g:" + b"nat->" * 490 + b"nat. 1) (" + b"fun x:nat. " * 490 + b"x)", "none")
