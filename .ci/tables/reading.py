"""What is read: .ci/rows/reading and tokens, and the limits of depth and size."""

import re

from tables.cases import call, case, plain, rows

# How many phrases can be open at once, how many nodes a program can have, how many bytes its text can have.
OPEN, NODES, BYTES = 500, 32_768, 1_048_576

READ_FAULTS = "NotText BadToken NumberTooWide Unexpected TooDeep TooLarge TooLong".split()


def fault(text):
    """The fault of reading a text, or `none`: what is said of its types isn't asked for."""
    status, _, err = call(["goi", "check", "p"], {"p": text})
    told = re.fullmatch(rb"refused: ((\w+).*)\n", err)
    return told[1].decode() if status == 1 and told and told[2].decode() in READ_FAULTS else "none" if status in (0, 1) else err


def reads(text, wanted="none"):
    case(f"reading {text[:60]!r} .. {text[-30:]!r}", lambda: fault(text), wanted)


def faults():
    for text, wanted in rows("reading"):
        reads(plain(text), wanted)
    for text, at in (b"1\xff", 1), (b"$ \x80", 2), (b"\xe2\x82", 0), (b"x\xed\xa0\x80", 1), (b"\xc0\x80", 0), (b"1 # \xf4\x90\x80\x80", 4):
        reads(text, f"NotText({at})")
    for piece, count, wanted in [
        (b"7", BYTES, "NumberTooWide(0)"), (b"#", BYTES, f"Unexpected({BYTES})"), (b" ", BYTES, f"Unexpected({BYTES})"),
        (b"x", BYTES, "none"), (b" ", BYTES + 1, "TooLong"),
    ]:
        reads(piece * count, wanted)
    # each kind of token at each point of the grammar, the end of the text last, and what is no token anywhere
    kinds = "( ) : . , + - * -> 7 x fun fix ifz then else succ pred fst snd nat ".split(" ")
    for front, marks in rows("tokens"):
        at = len(front)
        case(f"the kinds of tokens behind {front}", lambda marks=marks: len(marks), len(kinds))
        for kind, mark in zip(kinds, marks):
            text = (front + kind).encode()
            case(f"{kind or 'the end'} behind {front}", lambda text=text, at=at: fault(text) == f"Unexpected({at})", mark == ".")
        reads((front + "$").encode(), f"BadToken({at})")
        reads((front + "18446744073709551616").encode(), f"NumberTooWide({at})")


def depths():
    """Phrases that are open at once, in a program and in the types of its binders, and the height of what an operator follows."""
    table = """(|)|500;(0,|)|500;succ ||500;pred ||500;fst ||500;snd ||500;fun x:nat.||500;fix x:nat.||500;ifz | then 1 else 2|500
ifz 0 then | else 2|500;ifz 0 then 1 else ||500;(succ |)|250;fst(|)|250;fun x:nat.ifz 0 then | else 2|250"""
    for row in re.split("[;\n]", table):
        front, back, count = row.encode().split(b"|")
        reads(front * int(count) + b"0" + back * int(count))
        reads(front * (int(count) + 1) + b"0" + back * (int(count) + 1), f"TooDeep({len(front) * int(count)})")
    for around in 0, 1, 250, 498:
        for front, back, at in (b"(", b")", 6), (b"nat->", b"", 9), (b"nat*", b"", 9):
            most = OPEN - 1 - around
            high = lambda count, front=front, back=back: b"fun x:" + front * count + b"nat" + back * count + b".0"
            reads(b"(" * around + high(most) + b")" * around)
            reads(b"(" * around + high(most + 1) + b")" * around, f"TooDeep({len(front) * most + around + at})")
    low, high = b"(" * 498 + b"0" + b")" * 498, b"(" * 499 + b"0" + b")" * 499
    for back in " +1; -1; *1; 1; x; (1); succ 1; pred 1; fst x; snd x".split(";"):
        reads(low + back.encode())
        reads(high + back.encode(), "TooDeep(1000)")
    # of what is left of an operator or an argument its own sum, product or application counts alone
    table = """500| + ||none;500| + | + 1|TooDeep(1998);500|+||none;500|+|+1|TooDeep(999);500|-|-1|TooDeep(999);500|*||none
500|*|*1|TooDeep(999);500|*|+1|TooDeep(999);500|*| x|none;500| ||none;500| | 1|TooDeep(1000);500| |+1|TooDeep(999)
499|+|+f x y*2*3|none;499|+|+f x y*2*3+1|TooDeep(1007);498|*| x*2 x+1*2*3|none;498| |*1 x+1 x|none"""
    for row in re.split("[;\n]", table):
        ones, between, back, wanted = row.split("|")
        reads((between.join(["1"] * int(ones)) + back).encode(), wanted)
    # at one token, what can't be there comes before what is too deep there
    for back, wanted in (b" fun", "Unexpected(1000)"), (b" 18446744073709551616", "NumberTooWide(1000)"), (b" $", "BadToken(1000)"):
        reads(high + back, wanted)
    reads(b"(" * 499 + b"fun (", "Unexpected(503)")


def sizes():
    """The limit of nodes. `(1` with 63 ones behind it has 127 nodes and a height of 65."""
    group = lambda front, ones: front + b" 1" * ones + b")"
    groups = lambda count: b"+".join([group(b"(1", 63)] * count)
    full = groups(256)  # 32,767 nodes
    case("the nodes of the groups", lambda: 256 * 127 + 255, NODES - 1)
    reads(full)
    for back, at in (" 1", 1), (" (1)", 2), (" ((x))", 3), (" succ 1", 1), (" +1", 2), (" *1", 2):
        reads(full + back.encode(), f"TooLarge({len(full) + at})")
    front = b"succ " + full
    reads(front)
    for back in " 1; x; (1); succ 1; pred 1; fst 1; snd 1; +1; -1; *1".split(";"):
        reads(front + back.encode(), f"TooLarge({len(front) + 1})")
    front = b"ifz " + full
    for back, at in [
        (" then 1", 6), (" then x", 6), (" then (1)", 7), (" then fun x:nat.1", 6), (" then fix x:nat.1", 6),
        (" then ifz 1 then 1 else 1", 6),
    ]:
        reads(front + back.encode(), f"TooLarge({len(front) + at})")
    front = b"ifz " + groups(255) + group(b"+(succ 1", 62)
    for back, at in (" then fun x:nat.1", 12), (" then fun x:(nat).1", 13), (" then fix x:nat->nat.1", 12), (" then 1 else 2", 13):
        reads(front + back.encode(), f"TooLarge({len(front) + at})")
    front = b"(succ " + full
    reads(front + b",1)", f"TooLarge({len(front)})")
    reads(front + b")+1", f"TooLarge({len(front) + 1})")
    # at one token all other faults come before too many nodes
    high = b"+".join([b"1"] * 231) + b"+succ 1" * 17 + b"+" + groups(252)
    at = len(high) + 1
    reads(high)
    for back, wanted in [
        (" *1", "TooLarge"), (" +1", "TooDeep"), (" nat", "Unexpected"), (" fun", "Unexpected"),
        (" 18446744073709551616", "NumberTooWide"), (" $", "BadToken"),
    ]:
        reads(high + back.encode(), f"{wanted}({at})")


def cases():
    faults()
    depths()
    sizes()
