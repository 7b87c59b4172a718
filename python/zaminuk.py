"""Units of purely cubic function fields: the proved library from Python.

A field is p, G, H: a prime and two lists of coefficients, lowest power first, which may have zeros above them up to 32 entries. What the library refuses raises Refused, with the number.

>>> x = Field(5, [0, 1, 0, 1], [1])             # the cube root of t^3 + t over 5
>>> x.period_and_regulator()
(2, 2)
>>> u = x.unit()
>>> u.E
([4, 0, 1, 0, 1], [0, 4, 0, 1], [2, 0, 1])
>>> x.unit(convention=NORM_ONE).E               # the same unit, scaled so that its norm is 1
([1, 0, 4, 0, 4], [0, 1, 0, 4], [3, 0, 4])
>>> Field(6, [0, 1, 0, 1], [1])
Traceback (most recent call last):
    ...
zaminuk.Refused: 1: p < 5, p > 65,535 or p not prime

Up to 64 fields are walked side by side, as far as wanted at a time:

>>> walks = [x.start(), Field(5, [4, 0, 0, 1], [1]).start()]
>>> [(r.state == CLOSED, r.steps, r.sum) for r in sheet(walks, 1)]
[(False, 1, 3), (True, 1, 2)]

A book of units is bytes:

>>> book = Book.begin().add(Body.of(x, u)).add(Body.of(Field(5, [4, 0, 0, 1], [1])))
>>> len(book), book.bodies(), book.attest(0), book.body(1).period()
(110, 2, True, 1)

On x86-64 the shared library libzaminuk.so is loaded: the one that ZAMINUK_LIBRARY names, or one in the folder above this file's, or one that
the system finds. Where ZAMINUK_SERVER is set, to a command, that process has the library instead (tests/harness/serve.c).
"""
import ctypes
import ctypes.util
import os
import shlex
import struct
import subprocess
from collections import namedtuple

__all__ = [
    "Refused", "Field", "Walk", "WalkRecord", "Unit", "Book", "Body", "refusal", "sheet", "E0_MONIC", "NORM_ONE", "OPEN", "CLOSED",
]

REFUSALS = {
    1: "p < 5, p > 65,535 or p not prime",
    2: "p mod 3 = 1",
    3: "G, then H: empty or of zeros only, over 32 entries, over 13 without the zeros at its end, a coefficient not below p",
    4: "G and H both constant",
    5: "deg G + deg H > 16",
    6: "deg G - deg H not a multiple of 3",
    7: "G or H has a square factor",
    8: "G and H share a factor",
    9: "rows are not the scaled reduced basis of a reduced ideal of this field",
    10: "no closing within the budget",
    11: "too little room",
    13: "book or body malformed",
    14: "lent lengths or budget out of their rule, no such entry, list or convention, pairs not of one field, rows not a unit so scaled, "
    "over 64 records, or state, steps or sum of a record out of their rule",
    15: "field already in the book",
}
REASONS = {1: "mark", 2: "contents", 3: "body rule", 4: "field refused", 5: "twice"}

# The conventions: how a unit is scaled.
E0_MONIC = 1
NORM_ONE = 2

# The states of a walk record; 1 to 9 and 14 are the refusals of these numbers, and any other is unknown.
OPEN = 0
CLOSED = 100

RECORD = 119
BUDGET = 1000000
LONGEST = 4096
BOOK = 65536


class Refused(Exception):
    """A refusal: its number, and with 13 the reason, the entry and the other number; with 10 of a walk `reached`, a Walk.

    >>> try:
    ...     Book(b"PCF1").check()
    ... except Refused as e:
    ...     e.number, e.reason, e.entry, str(e)
    (13, 1, 0, '13: book or body malformed: mark')
    """

    def __init__(self, number, reason=0, entry=0, other=0, reached=None):
        self.number, self.reason, self.entry, self.other, self.reached = number, reason, entry, other, reached
        text = "%d: %s" % (number, REFUSALS.get(number, "refused"))
        if number == 13:
            text += ": " + REASONS[reason]
            if reason >= 3:
                text += ", entry %d" % entry
            if reason == 4:
                text += ", refusal %d" % other
            if reason == 5:
                text += ", earlier entry %d" % other
        super().__init__(text)


# ---- the library: `call(name, *arguments)`. An argument is a number, bytes that are only read, or a bytearray that may be written.

# As in serve.c, whose table has the same order.
ENTRIES = (
    "refusal series order check step walk from_order unit one_field transfer book_check book_bodies book_ask book_attest book_write "
    "book_add body_prime body_period body_list book_begin book_write_rows unit_scaled rescale sheet"
).split()


class Loaded:
    """The shared library in this process."""

    def __init__(self, path):
        self.library = ctypes.CDLL(path)

    def call(self, name, *arguments):
        passed, blocks = [], []
        for a in arguments:
            if isinstance(a, int):
                passed.append(ctypes.c_uint64(a))
            else:  # aligned for every type, and never at NULL
                block = (ctypes.c_uint64 * (len(a) // 8 + 1))()
                ctypes.memmove(block, bytes(a), len(a))
                passed.append(ctypes.byref(block))
                blocks.append((a, block))
        entry = getattr(self.library, "zaminuk_" + name)
        entry.restype = ctypes.c_uint64
        result = entry(*passed)
        for a, block in blocks:
            if isinstance(a, bytearray):
                a[:] = bytes(block)[: len(a)]
        return result


class Served:
    """The library in a process of its own, called through pipes; serve.c says what requests and answers are."""

    def __init__(self, command):
        self.process = subprocess.Popen(shlex.split(command), stdin=subprocess.PIPE, stdout=subprocess.PIPE)

    def call(self, name, *arguments):
        words = struct.pack("<QQ", ENTRIES.index(name), len(arguments))
        places = []
        for a in arguments:
            if isinstance(a, int):
                words += struct.pack("<QQ", 0, a)
            else:
                words += struct.pack("<QQ", 1, len(a))
                places.append((a, len(words)))
                words += bytes(a) + b"\xa5" * (8 - len(a) % 8)
        self.process.stdin.write(struct.pack("<Q", len(words) // 8) + words)
        self.process.stdin.flush()
        answer = self.process.stdout.read(len(words))
        if len(answer) < len(words):
            raise OSError("the process that has the library gave no whole answer")
        for a, at in places:
            if isinstance(a, bytearray):
                a[:] = answer[at : at + len(a)]
        return struct.unpack("<Q", answer[:8])[0]


_library = None


def _call(name, *arguments):
    global _library
    if _library is None:
        if os.environ.get("ZAMINUK_SERVER"):
            _library = Served(os.environ["ZAMINUK_SERVER"])
        else:
            beside = os.path.join(os.path.dirname(os.path.abspath(__file__)), "..", "libzaminuk.so")
            path = os.environ.get("ZAMINUK_LIBRARY") or (beside if os.path.exists(beside) else ctypes.util.find_library("zaminuk"))
            if not path:
                raise OSError("libzaminuk.so is not found: name it in ZAMINUK_LIBRARY")
            _library = Loaded(path)
    return _library.call(name, *arguments)


# ---- numbers and blocks

def _longs(numbers):
    return struct.pack("<%dQ" % len(numbers), *numbers)


def _shorts(numbers):
    return struct.pack("<%dH" % len(numbers), *numbers)


def _numbers(block, form):
    return [n for (n,) in struct.iter_unpack("<" + form, bytes(block))]


def _trim(row):
    while row and row[-1] == 0:
        row.pop()
    return row


def _basis(rows):
    if len(rows) != RECORD:
        raise ValueError("a basis is %d numbers" % RECORD)
    return _shorts(rows)


def _answer(number):
    number &= 0xFFFFFFFF
    if number:
        raise Refused(number)


def _said(name, *arguments):
    """Calls a function of a book; its result."""
    block = bytearray(40)
    _call(name, *arguments, block)
    number, reason, entry, other, result = _numbers(block, "Q")
    if number:
        raise Refused(number, reason, entry, other)
    return result


# ---- fields

class Walk(namedtuple("Walk", "rows steps sum")):
    """A walk: the rows of its last basis, the steps taken, and the sum of their degrees."""


class Unit(namedtuple("Unit", "period regulator E F")):
    """The fundamental unit E = (E0, E1, E2) and its inverse F = (F0, F1, F2), lists of coefficients without zeros at their end.

    Beside the four `convention` says how it is scaled: E0_MONIC unless it is said otherwise. It is no part of the tuple, so units with the
    same numbers are equal.

    >>> u = Field(5, [0, 1, 0, 1], [1]).unit()
    >>> u.convention, len(u), Unit(*u) == u, Unit(*u, convention=NORM_ONE).convention
    (1, 4, True, 2)
    """

    convention = E0_MONIC

    def __new__(cls, period, regulator, E, F, convention=E0_MONIC):
        self = super().__new__(cls, period, regulator, E, F)
        self.convention = convention
        return self

    def _replace(self, **parts):
        return Unit(*super()._replace(**parts), convention=self.convention)


def _convention(number):
    """A convention's number. The library takes it in 32 bits, so that any other is refused here."""
    if number not in (E0_MONIC, NORM_ONE):
        raise Refused(14)
    return number


def _pair(G, H):
    g, h = _longs(G), _longs(H)
    return (g, len(G), h, len(H))


def refusal(p, G, H):
    """The number of the first refusal of the field p, G, H; 0 where it is accepted.

    >>> refusal(5, [0, 1, 0, 1], [1]), refusal(7, [0, 1, 0, 1], [1])
    (0, 2)
    """
    return _call("refusal", p, *_pair(G, H)) & 0xFFFFFFFF


class Field:
    """An accepted field: the cube root of G H^2 over the integers mod p. Refusals 1 to 8 are raised here. G and H are kept without the zeros
    at their ends.

    >>> Field(5, [0, 1, 0, 1, 0, 0], [1, 0])
    Field(5, [0, 1, 0, 1], [1])
    """

    def __init__(self, p, G, H):
        _answer(refusal(p, G, H))
        self.p, self.G, self.H = p, _trim(list(G)), _trim(list(H))

    def __repr__(self):
        return "Field(%d, %r, %r)" % (self.p, self.G, self.H)

    def _field(self):
        return (self.p,) + _pair(self.G, self.H)

    def series(self, n):
        """The first n coefficients of r and w, highest power first.

        >>> Field(5, [0, 1, 0, 1], [1]).series(8)
        ([1, 0, 2, 0, 1, 0, 0, 0], [1, 0, 4, 0, 1, 0, 4, 0])
        """
        r, w = bytearray(2 * n), bytearray(2 * n)
        _answer(_call("series", *self._field(), r, n, w, n))
        return _numbers(r, "H"), _numbers(w, "H")

    def order(self):
        """The basis of the order: 119 numbers, the rows M0, M1, M2, N0, N1, N2, U of 17 each.

        >>> [i for i, c in enumerate(Field(5, [4, 0, 0, 1], [1]).order()) if c]
        [2, 18, 34, 52, 68, 102]
        """
        rows = bytearray(2 * RECORD)
        _answer(_call("order", *self._field(), rows))
        return _numbers(rows, "H")

    def check(self, rows):
        """Raises refusal 9 where the 119 numbers are not the scaled reduced basis of a reduced ideal.

        >>> x = Field(5, [4, 0, 0, 1], [1])
        >>> x.check(x.order())
        >>> x.check([0] * 119)
        Traceback (most recent call last):
            ...
        zaminuk.Refused: 9: rows are not the scaled reduced basis of a reduced ideal of this field
        """
        _answer(_call("check", *self._field(), bytearray(_basis(rows))))

    def step(self, rows):
        """The next basis, and the degree of the m divided by.

        >>> x = Field(5, [0, 1, 0, 1], [1])
        >>> rows, degree = x.step(x.order())
        >>> degree, x.step(rows)[1]
        (3, 1)
        """
        block, degree = bytearray(_basis(rows)), bytearray(8)
        _answer(_call("step", *self._field(), block, degree))
        return _numbers(block, "H"), _numbers(degree, "Q")[0]

    def walk(self, rows, budget=BUDGET):
        """A walk from a basis until it comes back: a Walk. Where the budget is spent, refusal 10 has `reached`.

        >>> x = Field(5, [0, 1, 0, 1], [1])
        >>> x.walk(x.order())[1:]
        (2, 4)
        >>> try:
        ...     x.walk(x.order(), 1)
        ... except Refused as e:
        ...     e.number, e.reached.rows == x.step(x.order())[0], e.reached[1:]
        (10, True, (1, 3))
        """
        block, steps, total = bytearray(_basis(rows)), bytearray(8), bytearray(8)
        number = _call("walk", *self._field(), budget, block, steps, total) & 0xFFFFFFFF
        walk = Walk(_numbers(block, "H"), _numbers(steps, "Q")[0], _numbers(total, "Q")[0])
        if number:
            raise Refused(number, reached=walk if number == 10 else None)
        return walk

    def start(self):
        """A WalkRecord at the order, for a sheet.

        >>> r = Field(5, [0, 1, 0, 1], [1]).start()
        >>> r.G, r.H, r.steps, r.sum, r.state == OPEN
        ([0, 1, 0, 1], [1], 0, 0, True)
        """
        return WalkRecord(self.p, list(self.G), list(self.H), self.order(), 0, 0, OPEN)

    def period_and_regulator(self, budget=BUDGET):
        """Period and regulator, by at most `budget` steps from the order."""
        period, regulator = bytearray(8), bytearray(8)
        _answer(_call("from_order", *self._field(), budget, period, regulator))
        return _numbers(period, "Q")[0], _numbers(regulator, "Q")[0]

    def unit(self, budget=BUDGET, convention=E0_MONIC):
        """The fundamental unit and its inverse: a Unit, scaled by the convention; 14 for one but E0_MONIC and NORM_ONE. A walk for its degree
        comes first, so there is room; 11 where 4,096 is too little.

        >>> Field(5, [4, 0, 0, 1], [1]).unit()
        Unit(period=1, regulator=1, E=([0, 0, 1], [0, 1], [1]), F=([0, 1], [4], []))
        >>> Field(5, [0, 1, 0, 1], [1]).unit(convention=NORM_ONE)
        Unit(period=2, regulator=2, E=([1, 0, 4, 0, 4], [0, 1, 0, 4], [3, 0, 4]), F=([1], [0, 3], [2]))
        """
        k = _convention(convention)
        c = min(2 * self.period_and_regulator(budget)[1] + 1, LONGEST)
        rows, scratch, period, regulator = bytearray(12 * c), bytearray(12 * c), bytearray(8), bytearray(8)
        _answer(_call("unit_scaled", *self._field(), budget, k, rows, 6 * c, scratch, 6 * c, period, regulator))
        return self._unit(_numbers(period, "Q")[0], _numbers(regulator, "Q")[0], rows, c, k)

    @staticmethod
    def _unit(period, regulator, rows, c, convention):
        all = _numbers(rows, "H")
        lists = [_trim(all[k * c : (k + 1) * c]) for k in range(6)]
        return Unit(period, regulator, tuple(lists[:3]), tuple(lists[3:]), convention)

    @staticmethod
    def _rows(unit):
        """The six rows of a unit, and the coefficients of each."""
        lists = [*unit.E, *unit.F]
        c = max(map(len, lists))
        return bytearray(b"".join(_shorts(l + [0] * (c - len(l))) for l in lists)), c

    def rescale(self, unit, from_, to):
        """A unit of positive degree that is scaled by one convention, fundamental or not, scaled by another. 14 for a convention but E0_MONIC
        and NORM_ONE, and where it is not such a unit with its inverse.

        >>> x = Field(5, [0, 1, 0, 1], [1])
        >>> u = x.rescale(x.unit(), E0_MONIC, NORM_ONE)
        >>> u == x.unit(convention=NORM_ONE), u.convention, x.rescale(u, NORM_ONE, E0_MONIC) == x.unit()
        (True, 2, True)
        >>> try:
        ...     x.rescale(u, E0_MONIC, NORM_ONE)
        ... except Refused as e:
        ...     e.number
        14
        """
        a, b = _convention(from_), _convention(to)
        rows, c = self._rows(unit)
        _answer(_call("rescale", *self._field(), a, b, rows, 6 * c))
        return self._unit(unit.period, unit.regulator, rows, c, b)

    def same(self, G, H):
        """Whether p, G, H is the same field: the pairs agree after all lists are made monic, in either order.

        >>> x = Field(5, [0, 1, 0, 1], [1])
        >>> x.same([1], [0, 2, 0, 2]), x.same([1], [4, 0, 0, 1])
        (True, False)
        """
        told = bytearray(8)
        _answer(_call("one_field", *self._field(), *_pair(G, H), told))
        return _numbers(told, "Q") == [1]

    def transfer(self, unit, G, H):
        """The unit for another pair of the same field, scaled by the same convention.

        >>> x, y = Field(5, [0, 1, 0, 1], [1]), Field(5, [1], [0, 2, 0, 2])
        >>> [x.transfer(x.unit(convention=k), y.G, y.H) == y.unit(convention=k) for k in (E0_MONIC, NORM_ONE)]
        [True, True]
        """
        rows, c = self._rows(unit)
        _answer(_call("transfer", *self._field(), *_pair(G, H), rows, 6 * c))
        return self._unit(unit.period, unit.regulator, rows, c, unit.convention)


# ---- sheets

class WalkRecord(namedtuple("WalkRecord", "p G H rows steps sum state")):
    """A walk that is under way: its field, the rows of the basis reached, the steps so far and the sum of their degrees, and its state: OPEN,
    CLOSED or the number of a refusal. `Field.start` makes one. It does not change: a sheet makes new ones.
    """

    # C's layout: what is between the parts is left out.
    _form = struct.Struct("<Q 32Q Q 32Q Q 238s 2x Q Q I 4x")

    def _pack(self):
        lists = [n for l in (self.G, self.H) for n in (*l[:32], *[0] * (32 - len(l)), len(l))]
        return self._form.pack(self.p, *lists, _basis(self.rows), self.steps, self.sum, self.state)

    def _after(self, block):
        rows, steps, total, state = self._form.unpack(block)[-4:]
        return self._replace(rows=_numbers(rows, "H"), steps=steps, sum=total, state=state)


def sheet(records, budget=BUDGET):
    """The records, each walked on by at most `budget` steps: a list of them. Raises refusal 14 for over 64 records or a budget over 1,000,000;
    what is refused of one record is its state, and the others go on. Closed and refused records are passed over.

    >>> x = Field(5, [0, 1, 0, 1], [1])
    >>> bad = x.start()._replace(p=6)
    >>> first = sheet([x.start(), bad], 1)
    >>> [(r.steps, r.sum, r.state) for r in first]
    [(1, 3, 0), (0, 0, 1)]
    >>> [(r.steps, r.sum, r.state) for r in sheet(first, 1)], x.period_and_regulator()
    ([(2, 4, 100), (0, 0, 1)], (2, 2))
    >>> sheet(first, 1)[1] == first[1] == bad._replace(state=1), sheet(first, 1) == sheet([x.start(), bad], 2), sheet([])
    (True, True, [])
    >>> [r.state for r in sheet([x.start()._replace(**part) for part in ({"G": [1] * 33}, {"state": 10}, {"rows": [0] * 119}, {"sum": 1})], 0)]
    [3, 14, 9, 14]
    >>> for records, budget in ([bad] * 65, 1), ([bad] * 64, 1000001):
    ...     try:
    ...         sheet(records, budget)
    ...     except Refused as e:
    ...         e.number
    14
    14
    """
    records = list(records)
    block = bytearray(b"".join(r._pack() for r in records))
    _answer(_call("sheet", block, len(records), budget))
    size = WalkRecord._form.size
    return [r._after(block[i * size : (i + 1) * size]) for i, r in enumerate(records)]


# ---- books

class Body(bytes):
    """The bytes of one field with its unit. Its parts are read after a check: 13 where it is not formed or its field is refused.

    >>> b = Body.of(Field(5, [0, 1, 0, 1], [1]))
    >>> len(b), b.prime(), b.period(), b.lists()
    (50, 5, 2, ([0, 1, 0, 1], [1], [4, 0, 1, 0, 1], [0, 4, 0, 1], [2, 0, 1]))
    >>> Body(b[:-1]).prime()
    Traceback (most recent call last):
        ...
    zaminuk.Refused: 13: book or body malformed: body rule, entry 0
    """

    @classmethod
    def of(cls, field, unit=None):
        """The body of a field and its unit, which is made where none is given. A book keeps units with E0 monic: one of norm 1 is turned.

        >>> x = Field(5, [0, 1, 0, 1], [1])
        >>> Body.of(x, x.unit(convention=NORM_ONE)) == Body.of(x)
        True
        """
        unit = unit or field.unit()
        if unit.convention != E0_MONIC:
            unit = field.rescale(unit, unit.convention, E0_MONIC)
        return cls.write(field.p, field.G, field.H, unit.period, *unit.E)

    @classmethod
    def write(cls, p, G, H, period, E0, E1, E2):
        """The body of these values. Refusals 1 to 8; 13, body rule."""
        out = bytearray(16 + 2 * (len(G) + len(H) + len(E0) + len(E1) + len(E2)))
        lists = [a for l in (E0, E1, E2) for a in (_longs(l), len(l))]
        n = _said("book_write", p, *_pair(G, H), period, *lists, out, len(out))
        return cls(out[:n])

    def prime(self):
        return _said("body_prime", bytes(self), len(self))

    def period(self):
        return _said("body_period", bytes(self), len(self))

    def list(self, k):
        """List k: 0 to 4 for G, H, E0, E1, E2; 14 for another."""
        out = bytearray(8 * LONGEST)
        n = _said("body_list", bytes(self), len(self), k, out, LONGEST)
        return _numbers(out, "Q")[:n]

    def lists(self):
        return tuple(self.list(k) for k in range(5))


class Book(bytes):
    """A book of units, PCF1. It does not change: `add` makes a new one.

    >>> book = Book.begin()
    >>> bytes(book)
    b'PCF1\\x00\\x00'
    >>> x = Field(5, [0, 1, 0, 1], [1])
    >>> book = book.add(Body.of(x))
    >>> book.check(), book.bodies(), book.body(0) == Body.of(x), book.attest(0)
    (None, 1, True, True)
    >>> book.add(Body.of(Field(5, [1], [0, 2, 0, 2])))
    Traceback (most recent call last):
        ...
    zaminuk.Refused: 15: field already in the book
    >>> book.body(1)                                # doctest: +ELLIPSIS
    Traceback (most recent call last):
        ...
    zaminuk.Refused: 14: lent lengths or budget out of their rule, no such entry, list or convention, ...
    """

    @classmethod
    def begin(cls):
        """A book with no bodies."""
        out = bytearray(6)
        return cls(out[: _said("book_begin", out, len(out))])

    def check(self):
        """Raises refusal 13 where the book is malformed."""
        _said("book_check", bytes(self), len(self))

    def bodies(self):
        """The number of bodies that the contents say; nothing is checked."""
        return _call("book_bodies", bytes(self), len(self))

    def body(self, i):
        """Entry i. 13, then 14 where there is none."""
        start, size = bytearray(8), bytearray(8)
        _said("book_ask", bytes(self), len(self), i, start, size)
        at = _numbers(start, "Q")[0]
        return Body(self[at : at + _numbers(size, "Q")[0]])

    def attest(self, i):
        """Whether entry i's E has a non-zero constant norm."""
        return _said("book_attest", bytes(self), len(self), i) == 1

    def add(self, body):
        """The book with a body more. 13 for the book, then for the body; 15; 11 where it is over 65,536 bytes then."""
        out = bytearray(bytes(self) + bytes(8 + len(body)))
        return Book(out[: _said("book_add", out, len(out), len(self), bytes(body), len(body))])


if __name__ == "__main__":
    import doctest
    import sys

    import zaminuk

    outcome = doctest.testmod(zaminuk)
    print("python: %d examples, %d failed" % (outcome.attempted, outcome.failed))
    sys.exit(1 if outcome.failed else 0)
