"""Panel files put together piece by piece, so that a case can damage any of them."""

import reference as r
from figures import word


class Dice:
    """A fixed sequence of numbers (xorshift), the same with every Python."""

    def __init__(self, seed):
        self.state = seed * 0x9E3779B97F4A7C15 + 1 & 0xFFFFFFFFFFFFFFFF

    def below(self, n):
        s = self.state
        s ^= s << 13 & 0xFFFFFFFFFFFFFFFF
        s ^= s >> 7
        s ^= s << 17 & 0xFFFFFFFFFFFFFFFF
        self.state = s
        return (s >> 11) % n

    def between(self, low, high):
        return low + self.below(high - low + 1)

    def of(self, things):
        return things[self.below(len(things))]


class Axis:
    """What one axis of a file says: bits, the words of the ends, and the codes."""

    def __init__(self, bits, lower, upper, codes):
        self.bits, self.lower, self.upper, self.codes = bits, lower, upper, codes


def step_axis(steps, bits=16):
    """An axis whose codes are one step apart, with half of them below zero."""
    half, most = 1 << bits - 1, (1 << bits) - 1
    return Axis(bits, word(-16 * half), word(16 * (most - half)), [s + half for s in steps])


def wide_axis(steps):
    """An axis over all that a range can span: each step has a code."""
    span = r.Range(24, word(-2 ** 24), word(2 ** 24))
    return Axis(24, span.words[0], span.words[1], [span.code(16 * s) for s in steps])


class Panel:
    """A file as its pieces: N, then Q, V, body for each axis, then E."""

    def __init__(self, predictor, packing, axes, count=None):
        self.kind, self.predictor, self.packing = len(axes), predictor, packing
        n = len(axes[0].codes) if count is None else count
        self.pieces = [b"N" + bytes([self.kind, predictor, packing]) + r.four(n)]
        for axis in axes:
            self.pieces.append(b"Q" + bytes([axis.bits]) + r.four(axis.lower) + r.four(axis.upper))
            self.body(r.pack(packing, r.residues(predictor, axis.codes)))
        self.pieces.append(b"E")

    def body(self, body):
        self.pieces += [b"V" + r.four(len(body)), body]

    def file(self, *changes):
        """The file, with pieces replaced: each change is a piece's number and its bytes."""
        pieces = list(self.pieces)
        for piece, new in changes:
            pieces[piece] = new
        return b"".join(pieces)

    def with_body(self, axis, body):
        """The file with another body on an axis, and V saying its length."""
        return self.file((3 * axis + 2, b"V" + r.four(len(body))), (3 * axis + 3, body))

    def with_entries(self, axis, entries):
        return self.with_body(axis, r.pack(self.packing, entries))


def stepped(predictor, packing, points):
    """A panel whose vertices are placed at exactly these steps."""
    return Panel(predictor, packing, [step_axis(steps) for steps in zip(*points)])


# ---- shapes, in steps; the third axis is added where it is asked for ----

def zigzag(n, height, axes=2):
    return [(40 * i, height * (i % 2), height * (i % 3))[:axes] for i in range(n)]


def smooth(n, axes=2):
    return [(30 * i - 15 * n, i * i // 9 - 7 * i, 5 * i * (n - i) // n)[:axes] for i in range(n)]


def noise(dice, n, size, axes=2):
    return [tuple(dice.between(-size, size) for _ in range(axes)) for _ in range(n)]


def wobble(dice, n, size, axes=2):
    return [(25 * i + dice.between(-size, size), dice.between(-size, size) - 9 * i,
             dice.between(-size, size))[:axes] for i in range(n)]


def repeated(n, axes=2):
    return [(100 * (i // 3), 60 * (i // 3 % 2), 7)[:axes] for i in range(n)]


def loop(n, axes=2):
    """A closed outline: the last vertex is the first."""
    ring = [(200, 0, 0), (150, 120, 5), (0, 200, 9), (-140, 130, 0), (-200, 0, -9), (-130, -160, 3), (0, -210, 0)]
    points = [ring[i % len(ring)][:axes] for i in range(n - 1)]
    return points + [points[0]]


def straight(n, axes=2):
    return [(3 * i - 1000, 2 * i, -i)[:axes] for i in range(n)]
