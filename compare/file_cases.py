"""The corpus cases about files and ranges: sound ones, and each way to damage them."""

import figures
import panels as p
import reference as r
from figures import EXAMPLE, word
from records import TOLERANCES, range_, run, run_panel, store


def example_cases():
    yield run("example", EXAMPLE)
    yield run("example-mould", figures.MOULD_EXAMPLE, 3, 2, 1)
    yield store("store-example-mould", 3, 2, 1, figures.MOULD_POINTS, figures.MOULD_RANGES)
    yield run("empty-file", b"")


# ---- ranges ----

WORDS = [
    ("zero", 0x00000000), ("minus-zero", 0x80000000), ("one-unit", word(1)), ("minus-one-unit", word(-1)),
    ("half-unit", 0x3B000000), ("unit-and-a-half", 0x3BC00000), ("minus-half-unit", 0xBB000000),
    ("one-mm", 0x3F800000), ("ten-and-a-tenth", 0x4121999A), ("minus-ten-and-a-tenth", 0xC121999A),
    ("sixteen", 0x41800000), ("minus-sixteen", 0xC1800000), ("least-subnormal", 0x00000001),
    ("minus-subnormal", 0x80000001), ("greatest-subnormal", 0x007FFFFF), ("least-normal", 0x00800000),
    ("unit-and-a-bit", 0x3B800001), ("unit-less-a-bit", 0x3B7FFFFF), ("below-65536", 0x477FFFFF),
    ("65536", 0x47800000), ("above-65536", 0x47800001), ("minus-below-65536", 0xC77FFFFF),
    ("minus-65536", 0xC7800000), ("below-minus-65536", 0xC7800001), ("131072", 0x48000000),
    ("huge", 0x7F7FFFFF), ("minus-huge", 0xFF7FFFFF), ("infinity", 0x7F800000),
    ("minus-infinity", 0xFF800000), ("quiet-nan", 0x7FC00000), ("minus-nan", 0xFFC00000),
    ("signalling-nan", 0x7F800001), ("all-ones", 0xFFFFFFFF), ("32768-and-a-unit", word(8388609)),
    ("16384-and-half-a-unit", 0x46800001),
]
BITS = [0, 1, 2, 4, 23, 24, 25, 31, 32, 128, 255]


def range_cases():
    far, near = 0x47800000, 0xC7800000
    for name, w in WORDS:
        yield range_("range-lower-" + name, 8, w, far)
        yield range_("range-upper-" + name, 8, near, w)
        yield range_("range-both-" + name, 8, w, w)
    for bits in BITS:
        yield range_("range-bits-%d" % bits, bits, 0, 0x41800000)
        yield range_("range-bits-%d-nan-first" % bits, bits, 0x7FC00000, 0x41800000)
        yield range_("range-bits-%d-no-order" % bits, bits, 0x41800000, 0)
    yield range_("range-zeros-differ", 4, 0x80000000, 0x00000000)
    yield range_("range-zeros-differ-too", 4, 0x00000000, 0x80000000)
    yield range_("range-one-unit", 24, word(-1), 0x80000000)
    yield range_("range-both-negative", 3, word(-512), word(-511))
    yield range_("range-both-negative-no-order", 3, word(-511), word(-512))
    yield range_("range-end-before-order", 3, 0x41800000, 0x3B000000)


def range_in_files():
    """The same ends inside files, on each axis, where place and order matter."""
    for kind in (2, 3):
        for name, w in WORDS:
            for axis in range(kind) if kind == 2 else (2,):
                for which in ("lower", "upper"):
                    q = [8, w, 0x47800000] if which == "lower" else [8, 0xC7800000, w]
                    axes = [p.Axis(8, 0xC1800000, 0x41800000, [0, 255, 9]) for _ in range(kind)]
                    axes[axis] = p.Axis(*q, [255, 0, 128])
                    yield run_panel("file%d-axis%d-%s-%s" % (kind, axis, which, name),
                                    p.Panel(0, 0, axes))
    for bits in BITS:
        for words in ((0, 0x41800000), (0x7FC00000, 0), (0x41800000, 0)):
            axes = [p.Axis(bits, *words, [0, 1]), p.Axis(8, 0, 0x41800000, [3, 200])]
            yield run_panel("file-bits-%d-%08x" % (bits, words[0]), p.Panel(0, 0, axes))


# ---- places ----

def place_cases():
    """Codes that lie half way between steps, on both sides of zero, and wide spans."""
    for lo in (-40, -24, -9, -8, -7, 0, 7, 8, 9, 24):
        axes = [p.Axis(1, word(lo), word(lo + 160), [0, 1]), p.Axis(1, word(lo - 320), word(lo), [0, 1])]
        yield run_panel("place-half-%d" % lo, p.Panel(0, 0, axes))
    for bits in (1, 2, 3, 7, 12, 23, 24):
        m = 2 ** bits - 1
        codes = [0, m, m // 2, m // 3, m - 1, 1, m]
        axes = [p.Axis(bits, word(-2 ** 24), word(2 ** 24), codes),
                p.Axis(bits, word(-1), word(0), codes), p.Axis(bits, word(-2 ** 24), word(1 - 2 ** 24), codes)]
        yield run_panel("place-wide-%d" % bits, p.Panel(8, 1, axes), tolerance=0)
    every = list(range(256))
    yield run_panel("place-every-code-of-8-bits",
                    p.Panel(0, 0, [p.Axis(8, word(-1000), word(1001), every),
                                   p.Axis(8, word(-77), word(4000), every[::-1])]), tolerance=0)


# ---- vertex counts, headers, letters, lengths ----

def count_cases():
    two = p.stepped(0, 0, [(0, 0), (9, 9)])
    for n in (0, 1, 3, 4097, 65536, 65538, 0x01000002, 0x7FFFFFFF, 0x80000000, 0x80000002, 0xFFFFFFFF):
        head = b"N\x02\x00\x00" + r.four(n)
        yield run("count-says-%d" % n, two.file((0, head)))
        yield run("count-says-%d-alone" % n, head)
        yield run("count-says-%d-few-points" % n, two.file((0, head)), lists=(2, 2, 100))
    one = p.Panel(0, 0, [p.step_axis([5]), p.step_axis([6])])
    yield run("count-1-whole-file", one.file())
    none = p.Panel(0, 0, [p.step_axis([]), p.step_axis([])], 0)
    yield run("count-0-whole-file", none.file())
    for n in (2, 3, 4, 5, 6, 7, 8, 9, 16, 17):
        for name, points in (("zigzag", p.zigzag(n, 50)), ("smooth", p.smooth(n)), ("straight", p.straight(n))):
            yield run_panel("count-%d-%s" % (n, name), p.stepped(0, 0, points))


def header_cases():
    for kind in (2, 3):
        panel = p.stepped(0, 0, p.zigzag(4, 30, kind))
        for axes in (0, 1, 2, 3, 4, 255):
            yield run_panel("head%d-axes-%d" % (kind, axes), panel,
                            panel.file((0, bytes([0x4E, axes, 0, 0]) + r.four(4))))
        for wrong in (1, 8, 9, 255):
            yield run_panel("head%d-predictor-%d" % (kind, wrong), panel,
                            panel.file((0, bytes([0x4E, kind, wrong, 0]) + r.four(4))))
        for wrong in (1, 2, 255):
            yield run_panel("head%d-packing-%d" % (kind, wrong), panel,
                            panel.file((0, bytes([0x4E, kind, 0, wrong]) + r.four(4))))
    for choice in range(64):
        letter, axes, predictor, packing, count, points = [choice >> b & 1 for b in range(6)]
        head = bytes([0x4E + letter, 2 + axes, predictor, packing]) + r.four(4097 if count else 2)
        data = head + EXAMPLE[8:]
        yield run("head-order-%02d" % choice, data, lists=(1 if points else 2, 2, 100))
        if choice % 8 == 7:
            yield run("head-order-%02d-short" % choice, data[:7], lists=(1 if points else 2, 2, 100))


def letter_cases():
    for kind in (2, 3):
        panel = p.stepped(0, 0, p.smooth(3, kind))
        for k, piece in enumerate(panel.pieces):
            if k % 3 == 0 and 0 < k < 3 * kind + 1:
                continue
            for wrong in (piece[0] | 0x20, piece[0] ^ 0x80, 0, 0x54):
                changed = bytes([wrong]) + piece[1:]
                yield run_panel("letter%d-piece%d-%02x" % (kind, k, wrong), panel, panel.file((k, changed)))
            cut_short = b"".join(panel.pieces[:k]) + (b"?" + piece[1:])[:-1]
            yield run_panel("letter%d-piece%d-short" % (kind, k), panel, cut_short)
    swapped = p.stepped(0, 0, p.smooth(3))
    q, v, body = swapped.pieces[1:4]
    yield run("letter-v-before-q", swapped.file((1, v + body), (2, q), (3, b"")))
    yield run("letter-no-e", swapped.file((7, b"")))
    yield run("letter-e-early", swapped.file((4, b"E"), (5, b""), (6, b""), (7, b"")))
    yield run("letter-e-early-long", swapped.file((4, b"E")))


def length_cases():
    for kind in (2, 3):
        for packing in (0, 1):
            panel = p.stepped(0, packing, p.zigzag(5, 77, kind))
            for axis in range(kind):
                body = panel.pieces[3 * axis + 3]
                for said in (0, 1, 4, 5, len(body) - 1, len(body) + 1, 1000, 0x7FFFFFFF, 0x80000000, 0xFFFFFFFF):
                    data = panel.file((3 * axis + 2, b"V" + r.four(said)))
                    yield run_panel("length%d-p%d-axis%d-%d" % (kind, packing, axis, said), panel, data)
                for name, other in (("empty", b""), ("less", body[:-1]), ("more", body + b"\0"), ("twice", body * 2)):
                    yield run_panel("body%d-p%d-axis%d-%s" % (kind, packing, axis, name), panel,
                                    panel.with_body(axis, other))


def truncation_cases():
    for k in range(len(EXAMPLE)):
        yield run("short-example-%02d" % k, EXAMPLE[:k])
    for name, panel in (("mould", p.stepped(2, 1, p.smooth(4, 3))), ("flat", p.stepped(6, 1, p.loop(6)))):
        data = panel.file()
        for k in range(len(data)):
            yield run_panel("short-%s-%02d" % (name, k), panel, data[:k])


def trailing_cases():
    for name, more in (("zero", b"\0"), ("e", b"E"), ("three", b"abc"), ("n", b"N"), ("file", EXAMPLE)):
        yield run("after-e-" + name, EXAMPLE + more)
    panel = p.stepped(4, 1, p.loop(9, 3))
    yield run_panel("after-e-mould", panel, panel.file() + b"\x45")


# ---- nine predictors, two packings, two kinds ----

SPANS = [(8, 0xC1800000, 0x41800000), (12, 0x00000000, 0x43FA0000), (5, word(-4097), word(1023))]


def design_points(dice, kind, n, spans):
    points = []
    for _ in range(n):
        points.append(tuple(dice.between(*[r.end_in_units(w) for w in span[1:]]) for span in spans[:kind]))
    return points


def pairing_cases():
    dice = p.Dice(11)
    for kind in (2, 3):
        for predictor in range(9):
            for packing in (0, 1):
                yield from one_pairing(dice, kind, predictor, packing)


def one_pairing(dice, kind, predictor, packing):
    tag = "%s%d-%s-p%d" % ("flat" if kind == 2 else "mould", kind, r.PREDICTIONS[predictor][0], packing)
    for n in (dice.between(2, 5), dice.between(6, 14)):
        points = design_points(dice, kind, n, SPANS)
        name = "%s-n%d" % (tag, n)
        yield store("store-" + name, kind, predictor, packing, points, SPANS)
        data = r.store(kind, predictor, packing, points, [r.Range(*s) for s in SPANS], n, 1 << 20)
        yield run("load-" + name, data, kind, predictor, packing, dice.of(TOLERANCES))
    shape = dice.of([p.zigzag(7, 40, kind), p.smooth(9, kind), p.repeated(8, kind), p.loop(8, kind)])
    panel = p.stepped(predictor, packing, shape)
    yield run_panel(tag + "-shape", panel, tolerance=dice.of(TOLERANCES[:-1]))
    axis = dice.below(kind)
    entries = r.unpack(packing, panel.pieces[3 * axis + 3], len(shape))
    for name, at, code in (("first-low", 0, -1), ("first-high", 0, 65536), ("last-low", -1, -1),
                           ("last-high", -1, 65536), ("fifth-high", 4, 65536)):
        codes = r.undone(predictor, entries)
        codes[at] = code
        yield run_panel("%s-%s" % (tag, name), panel, panel.with_entries(axis, r.residues(predictor, codes)))
    for name, stored in (("greatest", 2147483647), ("least", -2147483648), ("minus-one", -1)):
        wild = list(entries)
        wild[dice.between(4, len(wild) - 1)] = stored
        yield run_panel("%s-residue-%s" % (tag, name), panel, panel.with_entries(axis, wild))
    if packing == 1:
        yield from packed_damage(tag, panel, axis, entries)


def strip_cases():
    """StripIndex on both sides of its two limits: v2 - v4 from -9 to 9."""
    for d in range(-9, 10):
        codes = [100, 300, 100 + d, 40, 77, 500]
        yield run_panel("strip-%d" % d, p.Panel(4, 0, [p.Axis(12, 0, word(65520), codes), p.step_axis(codes)]),
                        tolerance=0)


def packed(entries, base, width):
    """A body of packing 1 with a base and a width of one's own."""
    bits = "".join(format(e - base & 0xFFFFFFFF, "b").zfill(width) for e in entries) if width else ""
    bits += "0" * (-len(bits) % 8)
    return r.four(base) + bytes([width]) + bytes(int(bits[k:k + 8], 2) for k in range(0, len(bits), 8))


def packed_damage(tag, panel, axis, entries):
    body = panel.pieces[3 * axis + 3]
    width, spare = body[4], -len(entries) * body[4] % 8
    low = min(entries)
    yield run_panel(tag + "-wider", panel, panel.with_body(axis, packed(entries, low, min(width + 3, 32))))
    yield run_panel(tag + "-lower-base", panel, panel.with_body(axis, packed(entries, low - 5, width + 2)))
    yield run_panel(tag + "-base-wraps", panel, panel.with_body(axis, packed(entries, 2147483647, 32)))
    for wrong in sorted({width + 1, max(width - 1, 0), 0, 33, 255}):
        yield run_panel("%s-width-%d" % (tag, wrong), panel,
                        panel.with_body(axis, body[:4] + bytes([wrong]) + body[5:]))
    yield run_panel(tag + "-width-33-long", panel,
                    panel.with_body(axis, body[:4] + b"\x21" + bytes((33 * len(entries) + 7) // 8)))
    for bit in range(spare):
        if bit in (0, spare - 1):
            changed = body[:-1] + bytes([body[-1] | 1 << bit])
            yield run_panel("%s-spare-bit%d" % (tag, bit), panel, panel.with_body(axis, changed))
            codes = [-1] + r.undone(panel.predictor, entries)[1:]
            wrong = r.pack(1, r.residues(panel.predictor, codes))
            if -len(codes) * wrong[4] % 8 > bit:
                wrong = wrong[:-1] + bytes([wrong[-1] | 1 << bit])
                yield run_panel("%s-spare-bit%d-and-code" % (tag, bit), panel, panel.with_body(axis, wrong))


def packed_widths():
    """Each width from 0 to 32, and every spare bit of some bodies."""
    for width in range(33):
        top = (1 << min(width, 24)) - 1
        codes = [0, top, top // 2, top // 3, top, 0, top // 5]
        axes = [p.Axis(24, word(-4096), word(4096), codes), p.Axis(24, word(0), word(99), codes[::-1])]
        panel = p.Panel(8, 1, axes)
        yield run_panel("width-%d" % width, panel,
                        panel.with_body(0, packed(codes, 0, width)), tolerance=1)
        wrong = bytearray(packed(codes, 0, width))
        wrong[-1] |= 1
        if width % 8:
            yield run_panel("width-%d-spare" % width, panel, panel.with_body(0, bytes(wrong)))
            wrong[-1] = wrong[-1] & 0xFE | 1 << (-7 * width % 8 - 1)
            yield run_panel("width-%d-spare-high" % width, panel, panel.with_body(0, bytes(wrong)))
        yield run_panel("width-%d-two" % width, p.Panel(8, 1, [p.Axis(24, a.lower, a.upper, a.codes[:2]) for a in axes]))
    panel = p.stepped(0, 1, p.zigzag(3, 1))
    for axis in (0, 1):
        body = panel.pieces[3 * axis + 3]
        for bit in range(8):
            yield run_panel("last-byte-axis%d-bit%d" % (axis, bit), panel,
                            panel.with_body(axis, body[:-1] + bytes([body[-1] ^ 1 << bit])))
    same = p.stepped(0, 1, [(5, 5)] * 6)
    yield run_panel("width-0-all-same", same, tolerance=0)
    yield run_panel("width-0-one-byte-more", same, same.with_body(1, same.pieces[6] + b"\0"))


# ---- codes out of range by axis ----

def code_cases():
    for kind in (2, 3):
        for axis in range(kind):
            for at in (0, 1, 4, 5):
                for wrong in (-1, 16, 2147483647, -2147483648):
                    axes = [p.Axis(4, 0, 0x41800000, [3, 15, 0, 7, 9, 15]) for _ in range(kind)]
                    axes[axis].codes[at] = wrong
                    yield run_panel("code%d-axis%d-at%d-%d" % (kind, axis, at, wrong), p.Panel(0, 0, axes))
    early = [p.Axis(4, 0, 0x41800000, [3, 16]), p.Axis(0, 0, 0, [0, 0])]
    yield run_panel("code-before-next-range", p.Panel(0, 0, early))
