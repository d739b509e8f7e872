"""The words of a call: .ci/rows/words, and what is longer than a row."""

import re

from tables.cases import DOUBLE, SUM, call, case, left, plain, row_of, rows

# The files of the table of words. A number tells which file was read.
WORDS_FILES = {
    "p": DOUBLE, "y": b"fix y:nat. y", "f": b"4", "s": b"succ 4", "q": b"schedule 2\n0 15\n1 15\nend\n", "r": b"schedule 2\n0 4\nend\n",
    "n": b"net 1\nwire 0 value 0 nat\nwire 1 value 0 nat\nnode 0 Const 4 0\nnode 1 Succ 0 1\nnode 2 Root 1\nend\n",
    "l": b"batch 1\njob 4 s\nend\n", "o": b"fun x:nat. fun y:nat. x - y",
    "run": b"21", "help": b"22", "trace": b"23", "-p": b"24", "-q": b"schedule 2\n0 2\nend\n", "--tally": b"25", "a b": b"26", "-": b"27",
    "\u03bb.pcf": b"fun x:nat. 28",
}


def shown_moves(words):
    """How many moves a call shows of a run of 204,224 moves, and with what the first and the last of these lines begin."""
    text = SUM[:-1] + b"100"
    listed = call(["goi", "run", "p", "--schedule", "--budget", "10000000"], {"p": text})[1].split(b"\n", 2)[2]
    budget = ["--budget", "10000000"] if words[0] == "trace" else []
    out = call(["goi", *words, *budget], {"p": text, "s": listed})[1]
    moves = [it for it in out.split(b"\n") if it.startswith(b"move ")]
    return len(moves), *(moves[at][: moves[at].index(b" ", 5) + 1] for at in (0, -1))


def cases():
    for words, wanted in rows("words"):
        words, whole = words.split(","), plain(wanted).replace(b"\n", b";")
        if whole.endswith(b".."):
            case(f"{words}", lambda words=words, whole=whole: left(words, WORDS_FILES).startswith(whole[:-2]), True)
        else:
            row_of(f"{words}", words, WORDS_FILES, wanted)
    # the sizes of a circuit, where the words give them in any order, and where they give none
    for words, sizes in [
        (["p"], ("1023", "63")), (["p", "--forks", "1024", "--cells", "8"], ("8", "1024")),
        (["--cells=1048575", "p", "--forks=1"], ("1048575", "1")),
    ]:
        parameters = lambda words=words: re.search(
            r"\] cells \[0:(\d+)-1\];\n(?:.*\n)*  reg \[.*\] forks \[0:(\d+)-1\];", call(["goi", "circuit", *words], WORDS_FILES)[1].decode()
        ).groups()
        case(f"the sizes of a circuit {words}", parameters, sizes)
    # how many moves of a long run are shown where the words don't say it, and how many workers a run of a net has
    for words in ["trace", "p"], ["replay", "p", "s", "--trace"]:
        case(f"the moves that {words[0]} shows", lambda words=words: shown_moves(words), (100_000, b"move 0 ", b"move 99999 "))
    # so it is with the steps of a reduction
    def told_steps():
        out = call(["goi", "steps", "p"], {"p": SUM[:-1] + b"100"})[1]
        told = [it for it in out.split(b"\n") if it.startswith(b"step ")]
        return len(told), *(told[at][: told[at].index(b" ", 5) + 1] for at in (0, -1)), out.split(b"\n")[:2]

    case("the steps that are told", told_steps, (1000, b"step 0 ", b"step 999 ", [b"no value", b"steps 10000"]))
    for options, count in ([], 1), (["--workers", "2"], 2):
        tally = lambda options=options: call(["goi", "run-net", "n", "--tally", *options], WORDS_FILES)[1].count(b"\nworker ")
        case(f"the workers of a net {options}", tally, count)
    # ten thousand words, and words of a hundred thousand characters, as the system takes them
    for front, last in [
        ("goi", "run"), ("goi,run", "p"), ("goi,run,p", "--tally"), ("goi,run,p,--budget,5", "--"), ("goi,replay,p,q", "--workers"),
    ]:
        row_of(f"{front} and many {last}", front.split(",") + [last] * 10_000, WORDS_FILES, "2 refused words;")
    long = lambda letter: letter * 100_000
    for words, wanted in [
        (["goi", long("x"), "p"], "2 refused words;"), (["goi", "run", "p", "--" + long("x")], "2 refused words;"),
        (["goi", "run", "-" + long("t")], "2 refused words;"),
        (["goi", "run", "p", "--budget", long("9")], "2 refused words;"),
        (["goi", "run", "p", "--budget", long("0") + "5"], "5 no value;moves 5;"),
        ([long("x"), "demo", "1"], "0 demo 1;nodes 13;value 4;moves 126;"), (["goi", "net", "/" + long("p") + ".pcf"], "3 read failed;"),
    ]:
        row_of(f"{[it[:10] for it in words]}", words, WORDS_FILES, wanted)
