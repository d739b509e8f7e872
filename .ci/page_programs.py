"""Programs to try the machine in a page with: the examples, generated ones, and the deepest ones; and the calls that are made of them."""

import pathlib
import random
import subprocess

TOP = pathlib.Path(__file__).resolve().parent.parent
TEXTS = {path.name: path.read_text(encoding="utf-8") for path in sorted((TOP / "examples").glob("*.pcf"))}
LISTINGS = {path.name: path.read_text(encoding="utf-8") for path in sorted((TOP / "examples").glob("*.net"))}

# Shapes that nest as deeply as the limits allow: what stands before and behind, what is inside, and how often.
LONG = "1" + " + 1" * 499
DEEPEST = {
    "parentheses": ("(", "0", ")", 500),
    "successors": ("succ ", "0", "", 500),
    "sums": ("1 + (", "0", ")", 500),
    "products": ("1 + 1 * (", LONG, ")", 500),
    "pairs": ("1 + 1 * (fun p:nat * nat. snd p) (1, ", LONG, ")", 498),
    "choices": ("ifz 0 then 1 else ", "0", "", 500),
    "functions": ("(fun x:nat. ", "0", ") 1", 166),
    "arguments": ("1 + 1 * (fun x:nat. x) (", LONG, ")", 498),
}


def deep(name, levels):
    before, inside, behind, _ = DEEPEST[name]
    return before * levels + inside + behind * levels


# Generated programs.

NAT, FUNCTION, HIGHER, PAIR = "nat", "nat -> nat", "(nat -> nat) -> nat", "nat * nat"


class Generator:
    def __init__(self, seed):
        self.dice = random.Random(seed)

    def term(self, type_, size, scope=()):
        """A term of the type, in parentheses where it has any parts."""
        known = [name for name, its in scope if its == type_]
        if known and self.dice.random() < 0.4:
            return self.dice.choice(known)
        if size <= 0:
            return self.least(type_, scope)
        left = size // 2
        shapes = [lambda: self.applied(type_, left, scope), lambda: self.chosen(type_, left, scope), *self.shapes(type_, left, scope)]
        return "(" + self.dice.choice(shapes)() + ")"

    def least(self, type_, scope):
        if type_ == NAT:
            return str(self.dice.choice([0, 1, 2, 3, 18446744073709551615]))
        if type_ == PAIR:
            return "(1, 2)"
        return self.bound("fun", type_, 0, scope)

    def shapes(self, type_, size, scope):
        if type_ == NAT:
            sign = self.dice.choice(["+", "-", "*"])
            return [
                lambda: f"{self.term(NAT, size, scope)} {sign} {self.term(NAT, size, scope)}",
                lambda: f"{self.dice.choice(['succ', 'pred'])} {self.term(NAT, size, scope)}",
                lambda: f"{self.dice.choice(['fst', 'snd'])} {self.term(PAIR, size, scope)}",
                lambda: self.bound("fix", NAT, size, scope),
            ]
        if type_ == PAIR:
            return [lambda: f"{self.term(NAT, size, scope)}, {self.term(NAT, size, scope)}"]
        return [lambda: self.bound("fun", type_, size, scope), lambda: self.recursion(type_, size, scope)]

    def bound(self, word, type_, size, scope):
        """`fun` of the type, or `fix`."""
        name = self.dice.choice(["x", "y", "z", "k", "wert", "größe"]) + str(len(scope))
        if word == "fix":
            return f"fix {name}:{type_}. {self.term(type_, size, (*scope, (name, type_)))}"
        taken = NAT if type_ == FUNCTION else FUNCTION
        return f"(fun {name}:{taken}. {self.term(NAT, size, (*scope, (name, taken)))})"

    def recursion(self, type_, size, scope):
        name = f"f{len(scope)}"
        return f"fix {name}:{type_}. {self.bound('fun', type_, size, (*scope, (name, type_)))}"

    def applied(self, type_, size, scope):
        if type_ == PAIR:
            return "3, 4"
        if type_ != NAT:
            return f"fun a{len(scope)}:{NAT if type_ == FUNCTION else FUNCTION}. {self.term(NAT, size, scope)}"
        taken = self.dice.choice([NAT, FUNCTION])
        return f"{self.term(FUNCTION if taken == NAT else HIGHER, size, scope)} {self.term(taken, size, scope)}"

    def chosen(self, type_, size, scope):
        return f"ifz {self.term(NAT, size, scope)} then {self.term(type_, size, scope)} else {self.term(type_, size, scope)}"

    def program(self):
        """Mostly a program of type nat; now and then one of another type, or one that is broken somewhere."""
        type_ = NAT if self.dice.random() < 0.9 else self.dice.choice([FUNCTION, PAIR])
        comment = self.dice.choice(["a program", "ein schönes Programm", "語"])
        text = f"# {comment}\n{self.term(type_, self.dice.choice([1, 4, 12, 30]))}\n"
        if self.dice.random() < 0.3:
            at = self.dice.randrange(len(text))
            text = text[:at] + self.dice.choice(["", ")", "(", "x", "99999999999999999999", "é", "$", " fun ", ":nat"]) + text[at + 1 :]
        return text


def generated(count, seed=20261128):
    generator = Generator(seed)
    return [generator.program() for _ in range(count)]


# Calls, each with what the program prints where it is asked for the same.


class Calls:
    """Calls on the machine: [name, texts, numbers, room, most], and for each the words of the program that does the same."""

    def __init__(self, program, folder):
        self.program, self.folder = program, folder
        self.calls, self.wanted, self.names = [], [], []

    def printed(self, *words):
        ran = subprocess.run([self.program, *words], stdin=subprocess.DEVNULL, capture_output=True, timeout=600)
        return ran.returncode, (ran.stdout + ran.stderr).decode()

    def file(self, text, name="text"):
        path = pathlib.Path(self.folder, f"{len(self.calls)}-{name}")
        path.write_text(text, encoding="utf-8", newline="")
        return str(path)

    def add(self, what, call, texts, numbers, *words, room=None, most=None, known=None):
        """`known` is what the program prints for these words, where that is known already."""
        self.calls.append([call, texts, numbers, room, most])
        self.wanted.append(known or self.printed(*words))
        self.names.append(f"{what}: {call} {numbers}")
        return self.wanted[-1]

    def of_program(self, name, text, rooms=(None,)):
        """Each call of a program: runs, traces, checks, its net and a run of that, and replays of its schedule and of half of it."""
        file = self.file(text)
        for budget in (1, 100, 10000):
            for flags in range(4):
                words = ["--budget", str(budget), *["--by-value"] * (flags % 2), *["--schedule"] * (flags // 2)]
                status, printed = self.add(name, "goi_run", [text], [budget, flags], "run", file, *words)
        for first, most, flags in ((0, 1000000, 0), (0, 1000, 1), (3, 5, 0), (10000000, 1, 0)):
            words = ["--from", str(first), "--most", str(most), *["--by-value"] * flags]
            self.add(name, "goi_trace", [text], [10000, flags, first, most], "trace", file, *words)
        for budget, first, most in ((10000, 0, 1000), (100, 3, 5)):
            words = ["--budget", str(budget), "--from", str(first), "--most", str(most)]
            self.add(name, "goi_steps", [text], [budget, first, most], "steps", file, *words)
        for flags in (0, 7):
            words = [*["--by-value", "--schedule", "--profile"] * (flags // 7)]
            self.add(name, "goi_span", [text], [10000, flags], "span", file, *words)
        for term in (0, 1):
            self.add(name, "goi_check", [text], [term], "check", file, *["--term"] * term)
        for room in rooms:
            listed = self.add(name, "goi_net", [text], [], "net", file, room=room)
        self.add(name, "goi_run_net", [text], [10000, 0], "run-net", file)
        self.of_answers(name, text, file, listed)

    def of_answers(self, name, text, file, listed):
        if listed[0] == 0:
            self.of_listing(name + "'s net", listed[1])
        status, printed = self.printed("run", file, "--schedule")
        if status not in (0, 5):
            return
        schedule = printed[printed.index("schedule ") :]
        for part in (schedule, schedule[: len(schedule) // 2]):
            self.add(name, "goi_replay", [text, part], [], "replay", file, self.file(part, "schedule"))
        for flags in (0, 1):
            self.tell(name, text, file, flags)

    def tell(self, name, text, file, flags):
        """`goi_tell` says in numbers what `goi run` prints."""
        known = self.printed("run", file, *["--by-value"] * flags)
        self.add(name, "goi_tell", [text], [10000, flags], known=known)

    def of_listing(self, name, text):
        file = self.file(text, "net")
        for schedule in (0, 1):
            self.add(name, "goi_run_net", [text], [10000, schedule], "run-net", file, *["--schedule"] * schedule)

    def faults(self, found):
        """The calls whose answer isn't the program's: what they are, what came and what was wanted."""
        wrong = []
        for name, came, wanted in zip(self.names, found, self.wanted, strict=True):
            text = came.get("text")
            if "answer" in came and not text:
                kinds = ("no value", f"value {came['answer']['value']}", "value overflow")
                text = f"{kinds[came['answer']['kind']]}\nmoves {came['answer']['moves']}\n"
            # (the program says this where a call only has its status)
            if came.get("status") == 6:
                text = "no memory\n"
            if (came.get("status"), text) != wanted:
                wrong.append((name, str(came)[:300], str(wanted)[:300]))
        return wrong
