"""The corpus cases about storing, and about many calls on one bench."""

import figures
import panels as p
import reference as r
from figures import EXAMPLE, word
from records import calls, store

LINE = [(0, 0), (2, 3), (4, 0), (6, 1), (8, 0)]
LIMIT = 1048576


# ---- store ----

RANGES = [(4, 0x00000000, 0x41800000), (10, 0xC2C80000, 0x80000000), (24, 0xC7800000, 0x47800000)]
GOOD = [(0, -25600, 0), (4096, 0, 16777216), (136, -1, -16777216), (137, -9000, 5), (2000, -77, -5), (2047, -3, 16)]


def store_cases():
    for kind in (2, 3):
        points = [q[:kind] for q in GOOD]
        for packing in (0, 1):
            yield from store_refusals(kind, packing, points)
    many = [(i % 4097, -i % 25601) for i in range(4097)]
    yield store("store-4097", 2, 0, 0, many, RANGES)
    yield store("store-4096", 2, 2, 1, many[:4096], RANGES)
    yield store("store-4096-work-short", 2, 2, 1, many[:4096], RANGES, work=4095)
    for bits in (1, 2, 5, 13, 24):
        spans = [(bits, word(lo), word(hi)) for lo, hi in ((0, 2), (-7, 8), (-2 ** 24, 2 ** 24))]
        points = [(0, -7, -2 ** 24), (1, 0, 0), (2, 8, 2 ** 24), (1, 7, 1), (0, -1, -1), (1, 1, 8), (2, -6, 2 ** 24 - 1)]
        yield store("store-bits-%d" % bits, 3, 8, 0, points, spans)
        yield store("store-bits-%d-packed" % bits, 3, 4, 1, points, spans)
    for v in range(-9, 10):
        yield store("store-rounding-%d" % v, 2, 0, 0, [(v, v), (9, -9)], [(2, word(-9), word(9)), (3, word(-9), word(10)), RANGES[2]])
    zeros = [(4, 0x80000000, 0x41800000), (4, 0xC1800000, 0x80000000), (1, 0, word(1))]
    yield store("store-minus-zero", 3, 0, 0, [(0, 0, 0), (1, -1, 1)], zeros)


def store_refusals(kind, packing, points):
    tag = "store%d-p%d-" % (kind, packing)
    length = len(r.store(kind, 0, packing, points, [r.Range(*s) for s in RANGES], 6, 1 << 20))
    low, high = (-1, 0, 0)[:kind], (0, 1, 0)[:kind]
    yield store(tag + "sound", kind, 0, packing, points, RANGES)
    yield store(tag + "more-room", kind, 0, packing, points, RANGES, work=9, room=length + 5)
    yield store(tag + "no-points", kind, 0, packing, [], RANGES, room=0)
    yield store(tag + "one-point", kind, 0, packing, points[:1], RANGES, work=0)
    yield store(tag + "one-point-out", kind, 0, packing, [low], RANGES)
    yield store(tag + "work-short", kind, 0, packing, points, RANGES, work=5)
    yield store(tag + "work-short-out", kind, 0, packing, points[:-1] + [low], RANGES, work=5)
    yield store(tag + "work-none", kind, 0, packing, points, RANGES, work=0, room=0)
    yield store(tag + "first-out", kind, 0, packing, [low] + points[1:], RANGES)
    yield store(tag + "last-out", kind, 0, packing, points[:-1] + [high], RANGES)
    yield store(tag + "last-out-no-room", kind, 0, packing, points[:-1] + [high], RANGES, room=3)
    yield store(tag + "room-short", kind, 0, packing, points, RANGES, room=length - 1)
    yield store(tag + "room-none", kind, 0, packing, points, RANGES, room=0)
    # the greatest and least 32-bit coordinates, and each range's neighbours
    for name, v in (("least", -2147483648), ("greatest", 2147483647), ("upper-and-one", 4097), ("upper", 4096)):
        yield store(tag + "x-" + name, kind, 0, packing, [(v, -5, 5)[:kind], points[0]], RANGES)
    if kind == 3:
        for v in (-2 ** 24 - 1, 2 ** 24 + 1):
            yield store(tag + "z-%d" % v, 3, 0, packing, [points[0], (0, 0, v)], RANGES)


# ---- calls ----

def panel(points):
    return p.stepped(0, 0, points).file()


FIVE = panel(LINE)
OTHER = panel([(100, -100), (160, 40), (220, -100)])
BROKEN = OTHER[:-1]
LOAD, SPLIT, CUT, CLOSE = ("load", FIVE), ("split", 1), ("cut",), ("close",)


def stage_cases():
    """Each call in each stage."""
    lists = (8, 8, 120)
    ways = [("empty", ()), ("loaded", (LOAD,)), ("split", (LOAD, SPLIT)), ("cut", (LOAD, SPLIT, CUT)),
            ("reloaded", (LOAD, SPLIT, ("load", OTHER))), ("closed", (LOAD, SPLIT, CUT, CLOSE)),
            ("closed-empty", (CLOSE,))]
    nexts = [("load", ("load", OTHER)), ("load-broken", ("load", BROKEN)), ("split", ("split", 0)),
             ("split-none", ("split", None)), ("split-257", ("split", 257)), ("cut", CUT), ("close", CLOSE)]
    for stage, way in ways:
        for call, step in nexts:
            # what the bench became is seen in the calls that follow
            yield calls("stage-%s-%s" % (stage, call), lists, *way, step, CUT, ("split", 8), CUT, CLOSE, CLOSE)


def run_cases():
    lists = (8, 8, 160)
    yield calls("calls-example", (2, 2, 21), ("load", EXAMPLE), ("split", None), CUT, CLOSE)
    yield calls("calls-two-panels", lists, LOAD, SPLIT, CUT, ("load", BROKEN), ("load", OTHER), ("split", 0), CUT, CLOSE)
    yield calls("calls-refused-load-keeps-split", lists, LOAD, SPLIT, ("load", BROKEN), CUT, CLOSE)
    yield calls("calls-refused-split-keeps-split", lists, LOAD, SPLIT, ("split", 300), CUT, CLOSE)
    yield calls("calls-cut-twice", lists, LOAD, SPLIT, CUT, CUT, CLOSE)
    yield calls("calls-split-again", lists, LOAD, ("split", 0), CUT, ("split", 256), CUT, ("split", 1), CUT, CLOSE)
    yield calls("calls-load-after-split", lists, LOAD, SPLIT, ("load", OTHER), CUT, ("split", 8), CUT, CLOSE)
    yield calls("calls-load-twice", lists, LOAD, ("load", OTHER), SPLIT, CUT, CLOSE)
    yield calls("calls-shorter-panel-after", lists, LOAD, SPLIT, ("load", EXAMPLE), SPLIT, CUT, LOAD, CUT, SPLIT, CUT, CLOSE)
    yield calls("calls-after-close", lists, CLOSE, LOAD, SPLIT, CUT, CLOSE, ("split", 300), ("load", b""))
    yield calls("calls-only-close", (0, 0, 1), CLOSE)
    yield calls("calls-close-no-space", (0, 0, 0), CLOSE, CLOSE, ("load", b""))
    yield calls("calls-none", (1, 1, 7))
    yield calls("calls-every-letter-refused", lists, *[("load", FIVE[:k] + b"x" + FIVE[k + 1:]) for k in (0, 8, 18)], LOAD)


def short_list_cases():
    for points in (4, 5):
        for marks in (4, 5):
            yield calls("lists-%d-%d" % (points, marks), (points, marks, 60), LOAD, SPLIT, CUT, CLOSE)
            yield calls("lists-%d-%d-257" % (points, marks), (points, marks, 60), LOAD, ("split", 257), CUT, CLOSE)
    # two marks are enough for the example, four are not for the five
    yield calls("lists-marks-enough-then-not", (5, 4, 60), ("load", EXAMPLE), SPLIT, LOAD, SPLIT, CUT, ("load", EXAMPLE), SPLIT, CUT, CLOSE)
    yield calls("lists-points-enough-then-not", (4, 5, 60), ("load", EXAMPLE), SPLIT, LOAD, CUT, CLOSE)
    for program in (0, 1, 8, 9, 20, 36, 37, 38, 39, 40):
        # four vertices are kept: 38 bytes, and one for E
        yield calls("program-%d" % program, (5, 5, program), LOAD, SPLIT, CUT, CUT, CLOSE)
    for program in (75, 76, 77, 78):
        yield calls("program-%d-twice" % program, (5, 5, program), LOAD, SPLIT, CUT, CUT, CLOSE)
    yield calls("program-long-cut-short-cut", (5, 5, 60), LOAD, ("split", 0), CUT, CUT, ("split", 256), CUT, CLOSE)


def waiting_cases():
    """The kept count and W of many lines; nothing is cut."""
    dice = p.Dice(31)
    arc = figures.parabola()
    for n in list(range(2, 34)) + [62, 63, 64, 65, 126, 127, 128, 255, 256, 257]:
        middle = panel(arc_of(n))
        yield calls("waiting-arc-%d" % n, (n, n, 0), ("load", middle), ("split", 0), ("split", 1), ("split", None))
    for case in range(40):
        n = dice.between(3, 40)
        line = dice.of([p.noise(dice, n, 60), p.wobble(dice, n, 20), p.zigzag(n, 25), p.loop(n), p.repeated(n)])
        yield calls("waiting-line-%d" % case, (n, n, 0), ("load", panel(line)), *[("split", t) for t in (0, 1, 3, 8, 40)])
    wide = p.Panel(0, 0, [p.wide_axis(axis) for axis in zip(*arc)]).file()
    yield calls("waiting-eleven", (4096, 4096, 1), ("load", wide), ("split", 0), ("split", None), ("split", 256), CLOSE)


def arc_of(n):
    """A parabola whose chords divide in the middle."""
    return [(i, i * (i - 1) // 2 - n) for i in range(n)]


def poke_cases():
    lists = (6, 6, 100)
    for index in range(5):
        for value in (0, 1, 2, 255):
            yield calls("mark-%d-is-%d" % (index, value), lists, LOAD, SPLIT, ("mark", index, value), CUT, SPLIT, CUT, CLOSE)
    yield calls("mark-past-panel", lists, LOAD, SPLIT, ("mark", 5, 1), CUT, CLOSE)
    yield calls("mark-first-before-space", (5, 5, 3), LOAD, SPLIT, ("mark", 0, 0), CUT, ("mark", 0, 1), CUT, CLOSE)
    yield calls("mark-both-ends", lists, LOAD, SPLIT, ("mark", 0, 0), ("mark", 4, 0), CUT, CLOSE)
    yield calls("mark-all-but-ends", lists, LOAD, SPLIT, ("mark", 1, 0), ("mark", 2, 0), CUT, CLOSE)
    for index in (0, 2, 4, 5):
        for x, y in ((LIMIT, -LIMIT), (LIMIT + 1, 0), (0, LIMIT + 1), (-LIMIT - 1, 0), (0, -LIMIT - 1),
                     (2147483647, -2147483648)):
            yield calls("point-%d-%d-%d" % (index, x, y), lists, LOAD, ("point", index, x, y), SPLIT, CUT, CLOSE)
    far = [("point", i, x, y) for i, (x, y) in enumerate(
        [(-LIMIT, -LIMIT), (LIMIT, -LIMIT), (-LIMIT, LIMIT), (0, 0), (LIMIT, LIMIT)])]
    yield calls("point-far-corners", lists, LOAD, *far, ("split", 256), CUT, CLOSE)
    yield calls("point-after-split", lists, LOAD, SPLIT, ("point", 1, LIMIT + 7, -2147483648), CUT, SPLIT, CUT, CLOSE)
    yield calls("point-marks-short-first", (5, 4, 9), LOAD, ("point", 0, LIMIT + 1, 0), SPLIT)
    yield calls("point-tolerance-first", lists, LOAD, ("point", 0, LIMIT + 1, 0), ("split", 257), ("split", 256))


def random_call_cases():
    """Random calls on lists that are sometimes too short."""
    dice = p.Dice(909)
    files = [FIVE, OTHER, EXAMPLE, BROKEN, EXAMPLE + b"E", b"", panel(p.zigzag(6, 30)), panel(p.loop(7))]
    for case in range(60):
        steps = []
        for _ in range(dice.between(4, 14)):
            steps.append(random_call(dice, files))
        yield calls("random-calls-%d" % case, (dice.of([5, 7, 8]), dice.of([5, 7, 8]), dice.of([40, 90, 200])), *steps)


def random_call(dice, files):
    what = dice.below(12)
    if what < 3:
        return ("load", dice.of(files))
    if what < 6:
        return ("split", dice.of([None, 0, 1, 8, 30, 256, 257]))
    if what < 9:
        return CUT
    if what == 9:
        return CLOSE if dice.below(3) == 0 else CUT
    if what == 10:
        return ("mark", dice.below(5), dice.of([0, 1, 2]))
    return ("point", dice.below(5), dice.between(-300, 300), dice.between(-300, 300))
