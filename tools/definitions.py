"""Computes definitions of `specs/` as they stand: clauses, functions, records, `elim`, numbers, lists and texts.

It reads the part of the logic's language that definitions of trees and of their meaning are written in, and knows nothing of types or
proofs. So a definition can be held against another program on inputs for which nobody wrote a lemma. A value is a number, a text, a
function of Python or of the logic, `("rec", fields)`, or a constructor's name with its arguments as a tuple. A pair is a record whose
fields are `0` and `1`.
"""

import re
import sys

sys.setrecursionlimit(100_000)

WORD = re.compile(r'"(?:[^"\\]|\\.)*"|\|\||[(){}\[\];,|.]|[^\s(){}.;,"\[\]|]+')
# How strongly an operator binds, and to which side.
OPERATORS = {"||": (1, "r"), "&&": (2, "r"), "∷": (4, "r"), "++": (4, "r"), "+": (5, "l"), "-": (5, "l"), "*": (6, "l"), "/": (6, "l"),
             "%": (6, "l"), "^": (7, "l")}
ENDS = {")", "]", "}", ";", "|", ",", "↦", "then", "else", "=", ".", None}
TRUE, FALSE, NIL = ("true",), ("false",), ("[]",)


def truth(told):
    return TRUE if told else FALSE


def listed(values):
    """A list of the logic."""
    made = NIL
    for it in reversed(values):
        made = ("∷", it, made)
    return made


def unlisted(value):
    """What a list of the logic has in it."""
    found = []
    while value[0] == "∷":
        found.append(value[1])
        value = value[2]
    return found


NATIVE = {
    "max": max, "min": min, "nat_eq": lambda a, b: truth(a == b), "nat_lt": lambda a, b: truth(a < b),
    "nat_le": lambda a, b: truth(a <= b), "not": lambda a: truth(a != TRUE), "eqt": lambda a, b: truth(a == b),
    "length": lambda it: len(unlisted(it)), "codes": lambda it: listed([ord(c) for c in it]),
    "text_of": lambda it: "".join(map(chr, unlisted(it))),
    "decimal": lambda n: listed([ord(c) for c in str(n)]), "suc": lambda n: n + 1, "replicate": lambda n, it: listed([it] * n),
}
ON_NUMBERS = {"+": lambda a, b: a + b, "-": lambda a, b: max(0, a - b), "*": lambda a, b: a * b, "/": lambda a, b: a // b if b else 0,
              "%": lambda a, b: a % b if b else a, "^": lambda a, b: a ** b}


class Reader:
    """Reads an expression or the left side of a clause."""

    def __init__(self, text):
        # Each word, and whether white space stands before and behind it: only a `.` without any is a field's.
        self.words = [(it[0], it.start() > 0 and text[it.start() - 1].isspace(), text[it.end():it.end() + 1].strip() == "")
                      for it in WORD.finditer(text)]
        self.at = 0

    def next(self):
        return self.words[self.at][0] if self.at < len(self.words) else None

    def take(self, wanted=None):
        word = self.next()
        if word is None or wanted not in (None, word):
            raise SyntaxError(f"{word} where {wanted} is due, behind {' '.join(it[0] for it in self.words[max(0, self.at - 12):self.at])}")
        self.at += 1
        return word

    def expression(self, level=0):
        if self.next() == "λ":
            self.take()
            names = []
            while self.next() != ".":
                names.append(self.take())
            self.take(".")
            return ("lambda", names, self.expression())
        if self.next() == "if":
            self.take()
            parts = [self.expression()]
            for word in ("then", "else"):
                self.take(word)
                parts.append(self.expression())
            return ("if", *parts)
        made = self.application()
        while self.next() in OPERATORS and OPERATORS[self.next()][0] >= level:
            sign = self.take()
            binds, side = OPERATORS[sign]
            made = ("on", sign, made, self.expression(binds + (side == "l")))
        return made

    def application(self):
        if self.next() == "elim":
            self.take()
            what, cases = self.atom(), []
            self.take("[")
            while True:
                shape = self.expression()
                self.take("↦")
                cases.append((shape, self.expression()))
                if self.next() != "|":
                    break
                self.take()
            self.take("]")
            return ("elim", what, cases)
        head, parts = self.atom(), []
        while self.next() not in ENDS and self.next() not in OPERATORS:
            if self.next() == "λ":
                parts.append(self.expression())
                break
            parts.append(self.atom())
        return ("call", head, parts) if parts else head

    def atom(self):
        word = self.take()
        if word == "(":
            made, fields = self.expression(), []
            while self.next() == ",":
                self.take()
                fields = fields or [("0", made)]
                fields.append((str(len(fields)), self.expression()))
            self.take(")")
            if fields:
                made = ("record", None, fields)
        elif word == "[":
            self.take("]")
            made = ("name", "[]")
        elif word == "record":
            base, fields = None if self.next() == "{" else self.atom(), []
            self.take("{")
            while self.next() != "}":
                name = self.take()
                self.take("=")
                fields.append((name, self.expression()))
                if self.next() == ";":
                    self.take()
            self.take("}")
            made = ("record", base, fields)
        elif word[0] == '"':
            made = ("known", word[1:-1].replace("\\n", "\n"))
        elif word.isdigit():
            made = ("known", int(word))
        else:
            made = ("name", word)
        while self.next() == "." and not self.words[self.at][1] and not self.words[self.at][2]:
            self.take()
            made = ("field", made, self.take())
        return made


def declarations(text):
    """Each declaration with the lines that belong to it; those of a `mutual` block stand by themselves."""
    found, inside = [], False
    for line in text.split("\n"):
        line = re.sub(r"(^|\s)--(\s.*)?$", "", line).rstrip()
        if not line:
            continue
        if re.match(r"(abbrev )?mutual$", line):
            inside = True
        elif not line.startswith((" ", "}")):
            inside = False
            found.append([line])
        elif inside and re.match(r"  \S", line):
            found.append([line[2:]])
        else:
            found[-1].append(line)
    return found


class Definitions:
    """What some files define."""

    def __init__(self, *texts):
        self.clauses, self.constructors, self.constants = {}, {"[]", "∷", "true", "false", "zero", "Some", "None"}, {}
        for text in texts:
            for lines in declarations(text):
                self.declare(lines)

    def declare(self, lines):
        first = lines[0]
        if first.startswith("use ") or re.match(r"(pub )?record ", first):
            return
        if re.match(r"(pub )?data ", first):
            self.constructors |= {it[1] for it in (re.match(r"\s+(\S+) :", line) for line in lines[1:]) if it}
            return
        if re.match(r"((unfoldable|abbrev|pub) )*\S+ : ", first):
            return
        left, _, right = "\n".join(lines).partition("=")
        shape = Reader(left)
        name, shapes = shape.take(), []
        while shape.next() is not None:
            shapes.append(shape.atom())
        self.clauses.setdefault(name, []).append((shapes, Reader(right).expression()))

    def fits(self, shape, value, names):
        """Whether a value has this shape; the parts that it names are put among the names."""
        kind = shape[0]
        if kind == "known":
            return value == shape[1]
        if kind == "name":
            name = shape[1]
            if name in self.constructors:
                return value == 0 if name == "zero" else value == (name,)
            names[name] = value
            return True
        if kind == "on":
            return value[0] == shape[1] and self.fits(shape[2], value[1], names) and self.fits(shape[3], value[2], names)
        name, parts = shape[1][1], shape[2]
        if name == "suc":
            return value > 0 and self.fits(parts[0], value - 1, names)
        return value[0] == name and all(self.fits(it, value[n + 1], names) for n, it in enumerate(parts))

    def call(self, name, *values):
        """What a function comes to."""
        clauses = self.clauses[name]
        wants = len(clauses[0][0])
        if len(values) < wants:
            return ("some of", name, values)
        for shapes, body in clauses:
            names = {}
            if all(self.fits(it, values[n], names) for n, it in enumerate(shapes)):
                return self.apply(self.value(body, names), values[wants:])
        raise ValueError(f"no clause of {name} for {values[:wants]}")

    def apply(self, function, values):
        if not values:
            return function
        if callable(function):
            return function(*values)
        if function[0] == "some of":
            return self.call(function[1], *function[2], *values)
        if function[0] == "closure":
            _, names, body, around = function
            known = dict(around)
            known.update(zip(names, values))
            if len(values) < len(names):
                return ("closure", names[len(values):], body, known)
            return self.apply(self.value(body, known), values[len(names):])
        return function + tuple(values)

    def named(self, name):
        clauses = self.clauses.get(name)
        if clauses and not clauses[0][0]:
            if name not in self.constants:
                self.constants[name] = self.value(clauses[0][1], {})
            return self.constants[name]
        if clauses:
            return ("some of", name, ())
        if name in NATIVE:
            return NATIVE[name]
        if name in self.constructors:
            return 0 if name == "zero" else (name,)
        raise NameError(name)

    def value(self, it, names):
        kind = it[0]
        if kind == "known":
            return it[1]
        if kind == "name":
            return names[it[1]] if it[1] in names else self.named(it[1])
        if kind == "call":
            head, parts = it[1], it[2]
            # (only the part of the two that is taken is computed)
            if head == ("name", "chosen") and len(parts) == 3:
                return self.value(parts[1] if self.value(parts[0], names) == TRUE else parts[2], names)
            return self.apply(self.value(head, names), tuple(self.value(part, names) for part in parts))
        if kind == "on":
            return self.operated(it[1], it[2], it[3], names)
        if kind == "lambda":
            return ("closure", it[1], it[2], dict(names))
        if kind == "if":
            return self.value(it[2] if self.value(it[1], names) == TRUE else it[3], names)
        if kind == "field":
            return self.value(it[1], names)[1][it[2]]
        if kind == "record":
            fields = dict(self.value(it[1], names)[1]) if it[1] else {}
            fields.update((name, self.value(part, names)) for name, part in it[2])
            return ("rec", fields)
        what = self.value(it[1], names)
        for shape, body in it[2]:
            known = dict(names)
            if self.fits(shape, what, known):
                return self.value(body, known)
        raise ValueError("no case of an elim")

    def operated(self, sign, first, second, names):
        left = self.value(first, names)
        if sign in ("&&", "||"):
            return left if (left == TRUE) == (sign == "||") else self.value(second, names)
        right = self.value(second, names)
        if sign == "∷":
            return ("∷", left, right)
        if sign == "++":
            for part in reversed(unlisted(left)):
                right = ("∷", part, right)
            return right
        return ON_NUMBERS[sign](left, right)
