"""Each number of workers comes to the same, and leaves no move to the finisher; and several of them move."""

from tables.cases import DOUBLE, SUM, TWICE, call, case, replayed, row_of

# 32 calls of a sum to 20: its tokens are many, and each walks for long without meeting another. So often is it run.
WIDE = b"(fun f:nat->nat. " + b" + ".join([b"f 20"] * 32) + b") (fix f:nat->nat. fun n:nat. ifz n then 0 else n + f (pred n))"
# A run of it, and a call of it as a function of that 20: the words and the text.
WIDE_RUN = ["run", "p"], WIDE
WIDE_CALL = ["call", "p", "20"], b"fun m:nat. " + WIDE.replace(b"20", b"m")
BUDGET, ROUNDS, MOST = ["--budget", "1000000"], 12, 100_000


def tallied_wide(workers, words, text):
    """Makes a wide run until several workers moved in another order than one worker's. Answers what these runs told of their report and
    tally, and whether that came."""
    words = ["goi", *words, *BUDGET]
    report = call(words, {"p": text})[1]
    alone = call([*words, "--schedule"], {"p": text})[1]
    told = set()
    for _ in range(ROUNDS):
        status, out, _ = call([*words, "--workers", str(workers), "--schedule", "--tally"], {"p": text})
        schedule, end, tally = out.partition(b"end\n")
        counts = [int(it.split(b" ")[-1]) for it in tally.splitlines()]
        told.add((status, out.startswith(report), len(counts), sum(counts) == int(report.split()[-1])))
        if sum(it > 0 for it in counts[:-1]) > 1 and schedule + end != alone:
            return told, True
    return told, False


def traced_wide(workers):
    """Traces the wide program until several workers moved. Answers what its traces told of their moves and their greatest worker, and
    whether that came."""
    told = set()
    for _ in range(ROUNDS):
        status, out, _ = call(["goi", "trace", "p", *BUDGET, "--workers", str(workers), "--most", str(MOST)], {"p": WIDE})
        moves = [it.split(b" ", 4) for it in out.splitlines() if it.startswith(b"move ")]
        names = {it[3] for it in moves}
        told.add((status, len(moves) == MOST, all(it[2] == b"worker" for it in moves), max(int(it) for it in names) < workers))
        if len(names) > 1:
            return told, True
    return told, False


def cases():
    midst = b"(fix f:nat->nat. fun n:nat. ifz n then 0 else n + f (pred n)) 20"
    table = [
        (DOUBLE, "10000", [], b"0 value 6;moves 30;"), (TWICE, "10000", [], b"0 value 6;moves 126;"),
        (b"3", "10000", [], b"0 value 3;moves 2;"),
        (DOUBLE, "30", [], b"0 value 6;moves 30;"), (DOUBLE, "29", [], b"5 no value;moves 29;"), (TWICE, "1", [], b"5 no value;moves 1;"),
        (TWICE, "5", [], b"5 no value;moves 5;"), (midst, "777", [], b"5 no value;moves 777;"),
        (b"fix x:nat. x", "500", [], b"5 no value;moves 500;"),
        (b"4", "10000", ["--by-value"], b"0 value 4;moves 34;"), (SUM, "10000", ["--by-value"], b"0 value 6;moves 2376;"),
        (DOUBLE, "10000", ["--progress"], b"0 value 6;moves 30;"), (DOUBLE, "29", ["--progress"], b"5 no value;moves 29;"),
    ]

    def tallied(text, budget, options, workers):
        status, out, _ = call(["goi", "run", "p", "--budget", budget, "--workers", workers, "--tally", *options], {"p": text})
        told = out.split(b"\n")
        return f"{status} ".encode() + b";".join(told[:2]) + b";", [it.rsplit(b" ", 1)[0] for it in told[2:-2]], told[-2:]

    for text, budget, options, lines in table:
        for workers in "1", "2", "4", "64":
            names = [b"worker %d" % it for it in range(int(workers))]
            told = lambda row=(text, budget, options, workers): tallied(*row)
            case(f"{workers} workers on {text!r} within {budget} {options}", told, (lines, names, [b"finisher 0", b""]))
    refused = [
        ("1 +", [], "Unexpected(3)"), ("1 ? 2", [], "BadToken(2)"), ("1 + x", [], "Unbound(4)"), ("1 + (2, 2)", [], "NatWanted(4)"),
        ("fun x:nat. x", [], "NotGround"),
        ("fix x:nat. x", ["--by-value"], "ByValueFix(0)"), ("1 + fst (1, fix y:nat. y)", ["--by-value"], "ByValuePair(4)"),
        ("fun x:nat. fst (1, 2)", ["--by-value"], "NotGround"),
    ]
    for text, options, fault in refused:
        for workers in "1", "2", "64":
            words = ["goi", "run", "p", "--workers", workers, *options]
            row_of(f"{workers} workers on {text} {options}", words, {"p": text.encode()}, f"1 refused: {fault};")
    for _ in range(10):
        lines = b"0 value 210;moves 8864;"
        case("a longer run of four workers", lambda: replayed(midst, ["--workers", "4", "--budget", "1000000"])[0::3], (lines, lines))
    for workers in 2, 4:
        for words, text in WIDE_RUN, WIDE_CALL:
            tally = lambda workers=workers, words=words, text=text: tallied_wide(workers, words, text)
            case(f"several of {workers} workers move in {words}", tally, ({(0, True, workers + 1, True)}, True))
        case(f"several of {workers} workers move in a trace", lambda workers=workers: traced_wide(workers), ({(0, True, True, True)}, True))
