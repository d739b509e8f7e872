"""Printed schedules, and schedules that are longer than a row."""

from tables.cases import DOUBLE, PRODUCT, SUM, TWICE, case, plain, replayed, row_of


def cases():
    for text, lines in [
        (DOUBLE, b"0 value 6;moves 30;"), (SUM, b"0 value 6;moves 330;"), (TWICE, b"0 value 6;moves 126;"),
        (b"fix y:nat. y", b"5 no value;moves 10000;"),
    ]:
        case(f"the schedule of {text!r}", lambda text=text: replayed(text, []), (lines, b"", True, lines))
        case(f"the circuit's schedule of {text!r}", lambda text=text: replayed(text, [], "circuit"), (lines, b"", True, lines))
    # the order in which workers come is another in each run, perhaps; what is asked of it is the same
    for text, workers, lines in [
        (DOUBLE, "2", b"0 value 6;moves 30;"), (TWICE, "2", b"0 value 6;moves 126;"), (PRODUCT, "4", b"0 value 6;moves 330;"),
    ]:
        for _ in range(10):
            told = lambda text=text, workers=workers: replayed(text, ["--workers", workers, "--tally"])
            case(f"{workers} workers on {text!r}", told, (lines, b"", True, lines))

    def replay(text, schedule, wanted):
        row_of(f"a schedule of {len(schedule)} bytes", ["goi", "replay", "p", "s"], {"p": text, "s": schedule}, wanted)

    # a schedule of fifteen moves of each of two tickets, cut behind each byte
    thirty = b"schedule 1\n" + b"0\n" * 15 + b"1\n" * 15 + b"end\n"
    for count in range(len(thirty) + 1):
        if count == 75:
            told = "0 value 6;moves 30;"
        elif count < 11:
            told = "7 refused: BadHeader;"
        elif count < 72 and count % 2 == 1:
            told = "7 refused: NoEnd;"
        else:
            told = f"7 refused: BadLine({32 if count >= 72 else count // 2 - 4});"
        replay(DOUBLE, thirty[:count], told)
    # long numbers, many moves, many bytes
    million = 1_000_000
    for front, digit, back, wanted in [
        ("schedule 1;", "9", ";end;", "TicketTooWide(2)"), ("schedule 1;", "0", ";end;", "BadLine(2)"),
        ("schedule 1;", "9", "", "BadLine(2)"),
        ("schedule 2;", "9", " 1;end;", "TicketTooWide(2)"), ("schedule 2;", "9", " 0;end;", "BadLine(2)"),
        ("schedule 2;0 ", "9", ";end;", "TooLong(2)"),
        ("schedule 2;0 ", "0", ";end;", "BadLine(2)"), ("schedule 2;0 ", "9", "", "BadLine(2)"),
    ]:
        replay(b"1 + 2", plain(front) + digit.encode() * million + plain(back), f"7 refused: {wanted};")
    for text, wanted in [
        ("0 10000000;", "NotLive(3,0)"), ("0 9999999;1 1;", "NotLive(3,0)"), ("0 9999999;1 2;", "TooLong(3)"),
        ("0 10000001;", "TooLong(2)"),
    ]:
        replay(b"1 + 2", plain("schedule 2;" + text + "end;"), f"7 refused: {wanted};")
    for moves, wanted in (10_001, "NotLive(3,0)"), (10_000_000, "NotLive(3,0)"), (10_000_001, "TooLong(10000002)"):
        replay(b"1 + 2", b"schedule 1\n" + b"0\n" * moves + b"end\n", f"7 refused: {wanted};")
    long = b"schedule 1\n" + b"1" * (134_217_728 - 11)
    replay(b"1 + 2", long, "7 refused: BadLine(2);")
    replay(b"1 + 2", long + b"1", "7 refused: TooLong(0);")
