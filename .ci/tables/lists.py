"""Lists of programs that are longer than a row."""

from tables.cases import DOUBLE, row_of
from tables.reading import BYTES


def cases():
    for count, workers in (64, []), (64, ["--workers", "4"]), (65, []):
        told = "".join(f"job {n};value 6;moves 30;" for n in range(count))
        listed = b"batch 1\n" + b"job 30 p\n" * count + b"end\n"
        wanted = "0 " + told if count == 64 else "7 refused: TooMany(66);"
        row_of(f"a list of {count} jobs {workers}", ["goi", "batch", "l", *workers], {"p": DOUBLE, "l": listed}, wanted)

    def refuses(text, wanted):
        row_of(f"a list {text[:40]!r} of {len(text)} bytes", ["goi", "batch", "l"], {"p": DOUBLE, "l": text}, wanted)

    many = lambda count, back: b"batch 1\n" + b"job 1 p\n" * count + back
    for count, back, fault in [
        (65, b"", "TooMany(66)"), (10_000, b"end\n", "TooMany(66)"), (64, b"job 0 p\n", "BadLine(66)"), (64, b"job 1 p", "BadLine(66)"),
        (64, b"", "NoEnd"),
    ]:
        refuses(many(count, back), f"7 refused: {fault};")
    # a name that is as long as a list can have one, which no file has, and one byte more
    refuses(b"batch 1\njob 1 " + b"p" * (BYTES - 19) + b"\nend\n", "3 read failed;")
    refuses(b"batch 1\njob 1 " + b"p" * (BYTES - 18) + b"\nend\n", "7 refused: TooLong;")
    refuses(b"batch 1\njob " + b"9" * 1_000_000 + b" p\nend\n", "7 refused: BadLine(2);")
    refuses(b"\n" * (BYTES + 1), "7 refused: TooLong;")
