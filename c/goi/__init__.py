"""goi: a geometry-of-interaction machine for PCF, over libgoi.so by ctypes.

    >>> import goi
    >>> goi.tell("(fun x:nat. x + x) 3")
    Answer(value=6, overflow=False, moves=30)
    >>> double = goi.Function("fun x:nat. x + x", 1)
    >>> [answer.value for answer in double.each(range(4))]
    [0, 2, 4, 6]

A text is bytes, or a str, which is encoded as UTF-8. The library is the one that GOI_LIBRARY names, or else the one beside this file, or
else the system's libgoi.so.1. Calls may be made from any number of threads; each runs in a thread of its own with the stack that goi.h
asks for. In a notebook `%load_ext goi` brings cells that begin with `%%pcf`: see goi.notebook.
"""

import collections
import ctypes
import itertools
import operator
import os
import threading

__version__ = "1.1.0"
BUDGET = 10_000
BUDGET_MAX = 10_000_000
LINE_SIZE = 64
STACK_SIZE = 4 << 20
FROM_MAX = 10_000_000
TRACED_MAX = 1_000_000
STEPS_MAX = 100_000
CELLS, CELLS_MAX = 1023, (1 << 20) - 1
FORKS, FORKS_MAX = 63, 1024
ARGUMENTS_MAX = 1000
NO_PLACE = (1 << 32) - 1
AS_PROGRAM, AS_NUMBER, AS_BY_VALUE, AS_LISTING, AS_FUNCTION = 0, 1, 2, 3, 4
OK, REFUSED, BAD_CALL, NO_ROOM, NO_VALUE, NO_MEMORY, BAD_FILE = 0, 1, 2, 4, 5, 6, 7

# The kinds of faults, by their numbers from 1 on.
KINDS = """
    NotText BadToken NumberTooWide Unexpected TooDeep TooLarge TooLong Unbound FunctionWanted ArgumentMismatch
    NatWanted FixMismatch PairWanted NotGround ByValueFix ByValuePair ByValueDeep BadHeader BadLine NoEnd NotOfTerm
    LooseWire TypeClash DepthClash RootCount TicketTooWide NotLive AfterAnswer
""".split()

# Those of a net that isn't sound.
OF_NETS = "LooseWire TypeClash DepthClash RootCount".split()

Answer = collections.namedtuple("Answer", "value overflow moves")


class Refused(Exception):
    """The program, the schedule or the listing has a fault, and this tells it as `goi` does, as in Unexpected(0).

    `status` is REFUSED where a program has it and BAD_FILE where a schedule or a listing has; `kind` is the fault's name, as Unexpected;
    `place` is where it is, or None, as is the `ticket` of NotLive. The place is a byte of a program, a line or an entry of a file, or the
    number that a net's fault has.
    """

    def __init__(self, told, status=REFUSED, kind=None, place=None, ticket=None):
        super().__init__(told)
        self.status, self.kind, self.place, self.ticket = status, kind, place, ticket


class _Answer(ctypes.Structure):
    _fields_ = [("value", ctypes.c_uint64), ("moves", ctypes.c_uint32), ("kind", ctypes.c_uint32)]


class _Fault(ctypes.Structure):
    _fields_ = [(name, ctypes.c_uint32) for name in ("status", "kind", "place", "ticket")]


def _found():
    beside = os.path.join(os.path.dirname(os.path.abspath(__file__)), "libgoi.so.1")
    return os.environ.get("GOI_LIBRARY") or (beside if os.path.exists(beside) else "libgoi.so.1")


_library = ctypes.CDLL(_found())
_text = [ctypes.c_char_p, ctypes.c_size_t]
_numbers = [ctypes.POINTER(ctypes.c_uint64), ctypes.c_size_t]
_back = [ctypes.c_char_p, ctypes.c_size_t, ctypes.POINTER(ctypes.c_size_t)]
for _name, _words in {
    "goi_tell": [*_text, ctypes.c_uint32, ctypes.c_uint32, ctypes.POINTER(_Answer), *_back],
    "goi_run": [*_text, ctypes.c_uint32, ctypes.c_uint32, *_back],
    "goi_trace": [*_text, ctypes.c_uint32, ctypes.c_uint32, ctypes.c_uint32, ctypes.c_uint32, *_back],
    "goi_run_net": [*_text, ctypes.c_uint32, ctypes.c_bool, *_back],
    "goi_check": [*_text, ctypes.c_bool, *_back],
    "goi_net": [*_text, *_back],
    "goi_replay": [*_text, *_text, *_back],
    "goi_replay_trace": [*_text, *_text, ctypes.c_uint32, ctypes.c_uint32, *_back],
    "goi_span": [*_text, ctypes.c_uint32, ctypes.c_uint32, *_back],
    "goi_steps": [*_text, ctypes.c_uint32, ctypes.c_uint32, ctypes.c_uint32, *_back],
    "goi_circuit": [*_text, ctypes.c_uint32, ctypes.c_uint32, *_back],
    "goi_tell_each": [*_text, ctypes.c_uint32, *_numbers, ctypes.c_uint32, ctypes.POINTER(_Answer), ctypes.c_size_t, *_back],
    "goi_find_fault": [*_text, ctypes.c_uint32, ctypes.POINTER(_Fault)],
    "goi_find_schedule_fault": [*_text, *_text, ctypes.POINTER(_Fault)],
    "goi_version": [],
    "goi_version_text": [*_back],
}.items():
    getattr(_library, _name).argtypes = _words
    getattr(_library, _name).restype = ctypes.c_uint32

_starting = threading.Lock()


def _apart(call):
    """What a call answers or raises in a thread with room on its stack."""
    answers, raised = [], []

    def made():
        try:
            answers.append(call())
        except BaseException as it:
            raised.append(it)

    with _starting:
        # (the pages above the call's are the interpreter's own)
        before = threading.stack_size(STACK_SIZE + (1 << 20))
        try:
            thread = threading.Thread(target=made)
            thread.start()
        finally:
            threading.stack_size(before)
    thread.join()
    for it in raised:
        raise it
    return answers[0]


def call(name, *words):
    """The status and the bytes of a call of goi.h, with as much room as it takes: words are all that it takes before the buffer."""
    room = LINE_SIZE
    while True:
        out, needed = ctypes.create_string_buffer(room), ctypes.c_size_t()
        status = _apart(lambda: getattr(_library, name)(*words, out, room, ctypes.byref(needed)))
        if status != NO_ROOM:
            return status, out.raw[: needed.value]
        room = needed.value


def find_fault(text, taken=AS_NUMBER, schedule=None):
    """The first fault of a text as what it is taken for (AS_PROGRAM .., AS_FUNCTION + n), or of a program's schedule, as a Refused that is
    not raised; None where it has none."""
    return _found_fault(_bytes(text), _number(taken), None if schedule is None else _bytes(schedule))


def _found_fault(text, taken, schedule):
    fault = _Fault()
    if schedule is None:
        status = _apart(lambda: _library.goi_find_fault(*text, taken, ctypes.byref(fault)))
    else:
        status = _apart(lambda: _library.goi_find_schedule_fault(*text, *schedule, ctypes.byref(fault)))
    if status == NO_MEMORY:
        raise MemoryError
    if status == OK:
        return None
    kind, place = KINDS[fault.kind - 1], None if fault.place == NO_PLACE else fault.place
    ticket = fault.ticket if kind == "NotLive" else None
    numbers = ",".join(str(it) for it in (place, ticket) if it is not None)
    told = f"{kind}({numbers})" if numbers else kind
    return Refused(f"NotSound({told})" if kind in OF_NETS else told, fault.status, kind, place, ticket)


def _judged(status, out, text, taken, schedule=None):
    """The text of a call, or what its status says; a text that is refused is so as what it is taken for."""
    if status in (REFUSED, BAD_FILE):
        raise _found_fault(text, taken, schedule)
    if status == NO_MEMORY:
        raise MemoryError
    if status == BAD_CALL:
        raise ValueError("a number is outside its range")
    return out.decode()


def _run_as(by_value):
    return AS_BY_VALUE if by_value else AS_NUMBER


def _number(number):
    """A number that 32 bits hold; no call takes another."""
    if not 0 <= operator.index(number) < 1 << 32:
        raise ValueError("a number is outside its range")
    return operator.index(number)


def _bytes(text):
    text = text.encode() if isinstance(text, str) else bytes(memoryview(text))
    return text, len(text)


def _answer(answer):
    return Answer(answer.value if answer.kind == 1 else None, answer.kind == 2, answer.moves)


def tell(text, budget=BUDGET, by_value=False):
    """What the program comes to: its value, or None where it has none within the budget or is an overflow; and its moves."""
    answer, text = _Answer(), _bytes(text)
    given = _number(budget), int(by_value), ctypes.byref(answer)
    _judged(*call("goi_tell", *text, *given), text, _run_as(by_value))
    return _answer(answer)


def tell_each(text, arguments, rows, budget=BUDGET):
    """What the function of a text comes to at each of these rows of so many numbers, as a list. A row is an iterable, or where the function
    takes one number that number alone. The text is read, typed and built once."""
    text, rows = _bytes(text), [[row] if isinstance(row, int) else list(row) for row in rows]
    values = [number for row in rows for number in row]
    if any(len(row) != arguments for row in rows):
        raise ValueError(f"a row has {arguments} numbers")
    if not all(isinstance(number, int) and 0 <= number < 1 << 64 for number in values):
        raise ValueError("a number is outside its range")
    given = (ctypes.c_uint64 * max(len(values), 1))(*values)
    answers = (_Answer * max(len(rows), 1))()
    words = _number(arguments), given, len(values), _number(budget), answers, len(rows)
    _judged(*call("goi_tell_each", *text, *words), text, min(AS_FUNCTION + arguments, (1 << 32) - 1))
    return [_answer(answer) for answer in answers[: len(rows)]]


class Function:
    """A text of type `nat -> .. -> nat`, with how many numbers it takes: f(3, 4) is the answer at 3 and 4, and f.each(rows) yields that of
    each row. The text is looked at when the function is made; a call of either reads it once."""

    def __init__(self, text, arguments):
        self.text, self.arguments = text, arguments
        tell_each(text, arguments, [])

    def __call__(self, *numbers, budget=BUDGET):
        return tell_each(self.text, self.arguments, [numbers], budget)[0]

    def each(self, rows, budget=BUDGET, at_once=1000):
        """The answers of these rows, one by one; so many rows are run in one call."""
        rows = iter(rows)
        while some := list(itertools.islice(rows, at_once)):
            yield from tell_each(self.text, self.arguments, some, budget)

    def __repr__(self):
        return f"goi.Function({self.text!r}, {self.arguments})"


def run(text, budget=BUDGET, by_value=False, schedule=False):
    """What `goi run` prints: the value and the moves, and behind them the schedule where it is asked for."""
    text = _bytes(text)
    return _judged(*call("goi_run", *text, _number(budget), int(by_value) + 2 * int(schedule)), text, _run_as(by_value))


def span(text, budget=BUDGET, by_value=False, schedule=False, profile=False):
    """What `goi span` prints: the value, the moves, the rounds and their greatest width, and what else is asked for."""
    text = _bytes(text)
    flags = int(by_value) + 2 * int(schedule) + 4 * int(profile)
    return _judged(*call("goi_span", *text, _number(budget), flags), text, _run_as(by_value))


def steps(text, budget=BUDGET, start=0, most=1000):
    """What `goi steps` prints: the value, the number of steps by name, and the terms from step `start` on, of at most `most` steps."""
    text = _bytes(text)
    return _judged(*call("goi_steps", *text, _number(budget), _number(start), _number(most)), text, AS_NUMBER)


def trace(text, budget=BUDGET, by_value=False, start=0, most=100_000):
    """What `goi trace` prints: the value and the moves, and the walk from move `start` on, of at most `most` moves."""
    text = _bytes(text)
    given = _number(budget), int(by_value), _number(start), _number(most)
    return _judged(*call("goi_trace", *text, *given), text, _run_as(by_value))


def run_net(text, budget=BUDGET, schedule=False):
    """What `goi run-net` prints, for the program whose net the text lists."""
    text = _bytes(text)
    return _judged(*call("goi_run_net", *text, _number(budget), bool(schedule)), text, AS_LISTING)


def check(text, term=False):
    """What `goi check` prints: the type, and with `term` the program itself."""
    text = _bytes(text)
    return _judged(*call("goi_check", *text, bool(term)), text, AS_PROGRAM)


def net(text):
    """The listing of the program's net, as `goi net` prints it."""
    text = _bytes(text)
    return _judged(*call("goi_net", *text), text, AS_NUMBER)


def circuit(text, cells=CELLS, forks=FORKS):
    """The circuit of the program's net, with so many cells and forks, as `goi circuit` prints it: of a function it has a port for each
    argument."""
    text = _bytes(text)
    return _judged(*call("goi_circuit", *text, _number(cells), _number(forks)), text, AS_NUMBER)


def replay(text, schedule):
    """What `goi replay` prints: what the schedule comes to on the program's net."""
    text, schedule = _bytes(text), _bytes(schedule)
    return _judged(*call("goi_replay", *text, *schedule), text, AS_NUMBER, schedule)


def replay_trace(text, schedule, start=0, most=100_000):
    """What `goi replay --trace` prints: the same, and the walk of the schedule's moves from `start` on, of at most `most` moves."""
    text, schedule = _bytes(text), _bytes(schedule)
    given = _number(start), _number(most)
    return _judged(*call("goi_replay_trace", *text, *schedule, *given), text, AS_NUMBER, schedule)


def version():
    """The library's version: ten thousand times its first number, a hundred times its second, and its third."""
    return _library.goi_version()


def version_text():
    """The library's name and version."""
    return call("goi_version_text")[1].decode().rstrip("\n")


def load_ipython_extension(shell):
    """Where a notebook says `%load_ext goi`."""
    from goi.notebook import Cells

    shell.register_magics(Cells)
