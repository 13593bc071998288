"""Panel files, splitting and the cutting bench, written a second time.

Plain Python over whole numbers and exact fractions, from the rules in docs/ alone.
Nothing here is shared with the crates: the two are compared case by case.
"""

import sys
from fractions import Fraction

sys.setrecursionlimit(20000)

FEWEST, MOST = 2, 4096
BENCH_LIMIT = 1048576
GREATEST_TOLERANCE, DEFAULT_TOLERANCE = 256, 8


class Refused(Exception):
    """A refusal: its number, and the place it belongs to."""

    def __init__(self, number, place=0):
        Exception.__init__(self, number, place)
        self.number, self.place = number, place

    def line(self):
        return b"refused %02d at %05d\n" % (self.number, self.place % 100000)


def signed(n):
    """The signed 32-bit number that n wraps to."""
    n &= 0xFFFFFFFF
    return n - (1 << 32) if n >> 31 else n


def number(data):
    return int.from_bytes(data, "little")


def four(n):
    """Four bytes, the low one first, of a signed or unsigned 32-bit number."""
    return (n & 0xFFFFFFFF).to_bytes(4, "little")


# ---- point kinds: the name says how many axes ----

FLAT, MOULD = 2, 3


# ---- ranges, codes, places ----

def millimetres(word):
    """The exact value of a 32-bit floating word; None for NaN and the infinities."""
    sign = -1 if word >> 31 else 1
    exponent, fraction = word >> 23 & 255, word & 0x7FFFFF
    if exponent == 255:
        return None
    if exponent == 0:
        return sign * Fraction(fraction, 1 << 149)
    return sign * Fraction(0x800000 + fraction) * Fraction(2) ** (exponent - 150)


def end_in_units(word):
    """An end in units, or None if it breaks a rule for ends."""
    value = millimetres(word)
    if value is None or abs(value) > 65536:
        return None
    units = value * 256
    return units.numerator if units.denominator == 1 else None


class Range:
    """Two ends and a bit count that keep every rule."""

    def __init__(self, bits, lower, upper):
        if not 1 <= bits <= 24:
            raise Refused(12)
        lo, hi = end_in_units(lower), end_in_units(upper)
        if lo is None or hi is None:
            raise Refused(13)
        if lo >= hi:
            raise Refused(14)
        self.bits, self.lo, self.hi = bits, lo, hi
        self.words = [0 if word == 0x80000000 else word for word in (lower, upper)]
        self.greatest = 2 ** bits - 1

    def holds(self, v):
        return self.lo <= v <= self.hi

    def code(self, v):
        """The nearest code, halves upward: position in the span, times the greatest code."""
        return (Fraction((v - self.lo) * self.greatest, self.hi - self.lo) + Fraction(1, 2)).__floor__()

    def place(self, c):
        """The nearest step, halves upward, to the exact fraction that a code stands for."""
        units = self.lo + Fraction(c * (self.hi - self.lo), self.greatest)
        return (units / 16 + Fraction(1, 2)).__floor__()


# ---- predictors ----

def strip_index(i, v1, v2, v3, v4):
    d = signed(v2 - v4)
    return v2 + d if -8 < d < 8 else v2 + 2


PREDICTIONS = [
    ("Lag1", lambda i, v1, v2, v3, v4: v1),
    ("Lag2", lambda i, v1, v2, v3, v4: v2),
    ("Stride1", lambda i, v1, v2, v3, v4: v1 + (v1 - v2)),
    ("Stride2", lambda i, v1, v2, v3, v4: v2 + (v2 - v4)),
    ("StripIndex", strip_index),
    ("Ramp", lambda i, v1, v2, v3, v4: i),
    ("Xor1", lambda i, v1, v2, v3, v4: v1),
    ("Xor2", lambda i, v1, v2, v3, v4: v2),
    ("Null", lambda i, v1, v2, v3, v4: 0),
]


def residue(predictor, value, i, v1, v2, v3, v4):
    guess = PREDICTIONS[predictor][1](i, v1, v2, v3, v4)
    return signed(value ^ guess) if predictor in (6, 7) else signed(value - guess)


def value(predictor, stored, i, v1, v2, v3, v4):
    guess = PREDICTIONS[predictor][1](i, v1, v2, v3, v4)
    return signed(stored ^ guess) if predictor in (6, 7) else signed(stored + guess)


def residues(predictor, values):
    return [v if i < 4 else residue(predictor, v, i, *values[i - 4:i][::-1])
            for i, v in enumerate(values)]


def undone(predictor, stored):
    values = []
    for i, r in enumerate(stored):
        values.append(r if i < 4 else value(predictor, r, i, *values[i - 4:i][::-1]))
    return values


# ---- packings ----

def pack(packing, entries):
    if packing == 0:
        return b"".join(four(e) for e in entries)
    base = min(entries)
    width = (max(entries) - base).bit_length()
    bits = "".join(format(e - base, "b").zfill(width) for e in entries) if width else ""
    bits += "0" * (-len(bits) % 8)
    return four(base) + bytes([width]) + bytes(int(bits[k:k + 8], 2) for k in range(0, len(bits), 8))


def unpack(packing, body, n):
    """The n entries that a body means, or refusal 15 or 16."""
    if packing == 0:
        if len(body) != 4 * n:
            raise Refused(15)
        return [signed(number(body[4 * i:4 * i + 4])) for i in range(n)]
    if len(body) < 5 or body[4] > 32 or len(body) != 5 + (n * body[4] + 7) // 8:
        raise Refused(15)
    base, width = number(body[:4]), body[4]
    bits = "".join(format(b, "08b") for b in body[5:])
    if "1" in bits[n * width:]:
        raise Refused(16)
    return [signed(base + int("0" + bits[i * width:(i + 1) * width], 2)) for i in range(n)]


# ---- the panel file ----

def store(kind, predictor, packing, points, ranges, work_length, file_length):
    """The file for design points in units; place 0 with every refusal."""
    n = len(points)
    if not FEWEST <= n <= MOST:
        raise Refused(9)
    if work_length < n:
        raise Refused(10)
    if not all(ranges[a].holds(p[a]) for p in points for a in range(kind)):
        raise Refused(19)
    out = b"N" + bytes([kind, predictor, packing]) + four(n)
    for a in range(kind):
        r = ranges[a]
        body = pack(packing, residues(predictor, [r.code(p[a]) for p in points]))
        out += b"Q" + bytes([r.bits]) + four(r.words[0]) + four(r.words[1])
        out += b"V" + four(len(body)) + body
    out += b"E"
    if file_length < len(out):
        raise Refused(20)
    return out


class Reader:
    """Takes pieces from the front of a file."""

    def __init__(self, data):
        self.data, self.place, self.next = data, 0, 0

    def take(self, length):
        """The next piece, without a letter."""
        self.place = self.next
        if len(self.data) - self.place < length:
            raise Refused(4, self.place)
        self.next = self.place + length
        return self.data[self.place:self.next]

    def lettered(self, letter, length):
        """The operands of the next piece, which begins with a letter."""
        piece = self.take(1 + length)
        if piece[:1] != letter:
            raise Refused(5, self.place)
        return piece[1:]


def judge(kind, predictor, packing, points_length, data):
    """The placed vertices of a panel file, or the first refusal."""
    reader = Reader(data)
    head = reader.lettered(b"N", 7)
    n = number(head[3:])
    for why, bad in ((6, head[0] != kind), (7, head[1] != predictor), (8, head[2] != packing),
                     (9, not FEWEST <= n <= MOST), (10, points_length < n)):
        if bad:
            raise Refused(why, reader.place)
    axes = []
    for _ in range(kind):
        operands = reader.lettered(b"Q", 9)
        try:
            span = Range(operands[0], number(operands[1:5]), number(operands[5:9]))
        except Refused as no:
            raise Refused(no.number, reader.place)
        body = reader.take(number(reader.lettered(b"V", 4)))
        try:
            codes = undone(predictor, unpack(packing, body, n))
        except Refused as no:
            raise Refused(no.number, reader.place)
        if not all(0 <= c <= span.greatest for c in codes):
            raise Refused(17, reader.place)
        axes.append([span.place(c) for c in codes])
    reader.lettered(b"E", 0)
    if reader.next < len(data):
        raise Refused(18, reader.next)
    return [tuple(axis[i] for axis in axes) for i in range(n)]


# ---- splitting ----

def chord(a, b):
    """m, the major axis and the differences of a chord."""
    d = [q - p for p, q in zip(a, b)]
    m = max(abs(x) for x in d)
    return (m, [abs(x) for x in d].index(m), d) if m else (1, 0, d)


def weight(a, b, p):
    m, major, d = chord(a, b)
    along = (p[major] - a[major]) * (1 if d[major] > 0 else -1 if d[major] < 0 else 0)
    k = min(max(along, 0), m)
    return max(abs(m * (x - y) - k * z) for x, y, z in zip(p, a, d))


def split(points, tolerance):
    """Marks, kept count and waiting count W of a line."""
    marks = [0] * len(points)
    marks[0] = marks[-1] = 1

    def waiting(first, last):
        if last - first < 2:
            return 0
        a, b = points[first], points[last]
        weights = [weight(a, b, points[i]) for i in range(first + 1, last)]
        heaviest = max(weights)
        if heaviest <= tolerance * chord(a, b)[0]:
            return 0
        middle = first + 1 + weights.index(heaviest)
        marks[middle] = 1
        earlier, later = (first, middle), (middle, last)
        if middle - first <= last - middle:
            return max(1 + waiting(*earlier), waiting(*later))
        return max(1 + waiting(*later), waiting(*earlier))

    w = waiting(0, len(points) - 1)
    return marks, sum(marks), w


# ---- the bench ----

class Bench:
    """A bench of one kind, with the three lists that its caller lends."""

    def __init__(self, kind, points_length, marks_length, program_length):
        self.kind, self.stage, self.count, self.length = kind, "empty", 0, 0
        self.points = [(0,) * kind] * points_length
        self.marks = [0] * marks_length
        self.program = bytearray(program_length)

    def open(self):
        if self.stage == "closed":
            raise Refused(1)

    def load(self, predictor, packing, data):
        self.open()
        placed = judge(self.kind, predictor, packing, len(self.points), data)
        self.points[:len(placed)] = placed
        self.stage, self.count = "loaded", len(placed)
        return self.count

    def lists_hold(self):
        if min(len(self.points), len(self.marks)) < self.count:
            raise Refused(10)

    def split(self, tolerance=None):
        self.open()
        if self.stage == "empty":
            raise Refused(2)
        tolerance = DEFAULT_TOLERANCE if tolerance is None else tolerance
        if tolerance > GREATEST_TOLERANCE:
            raise Refused(3)
        self.lists_hold()
        panel = self.points[:self.count]
        if any(abs(x) > BENCH_LIMIT for p in panel for x in p):
            raise Refused(11)
        marks, kept, w = split(panel, tolerance)
        self.marks[:self.count] = marks
        self.stage = "split"
        return kept, w

    def append(self, data, spare):
        if len(self.program) < self.length + len(data) + spare:
            raise Refused(20)
        self.program[self.length:self.length + len(data)] = data
        self.length += len(data)
        return self.length

    def cut(self):
        self.open()
        if self.stage != "split":
            raise Refused(2)
        self.lists_hold()
        marks = self.marks[:self.count]
        if marks[0] != 1 or marks[-1] != 1:
            raise Refused(11)
        steps = [b"".join(four(x) for x in p) for p, mark in zip(self.points, marks) if mark == 1]
        chain = b"T" + steps[0] + b"D" + b"".join(b"K" + s for s in steps[1:]) + b"U"
        return self.append(chain, 1)

    def close(self):
        self.open()
        self.append(b"E", 0)
        self.stage = "closed"
        return self.length


def run(kind, predictor, packing, tolerance, points_length, marks_length, program_length, data):
    """Load, split, cut, close on a new bench: the program, or the refusal's line."""
    bench = Bench(kind, points_length, marks_length, program_length)
    try:
        bench.load(predictor, packing, data)
        bench.split(tolerance)
        bench.cut()
        bench.close()
    except Refused as no:
        return no.line()
    return bytes(bench.program[:bench.length])


def panelcut(data):
    """What the program panelcut writes for an input."""
    return run(FLAT, 0, 0, None, 4096, 4096, 40000, data[:65536])
