"""The corpus cases about lines: shapes, tolerances, random panels, mutations, sizes and lists."""

import figures
import panels as p
import reference as r
from figures import EXAMPLE, word
from records import TOLERANCES, run, run_panel


# ---- shapes and tolerances ----

def shape_cases():
    dice = p.Dice(5)
    shapes = []
    for kind in (2, 3):
        shapes += [
            ("zigzag", p.zigzag(24, 9, kind)), ("steep", p.zigzag(15, 300, kind)), ("smooth", p.smooth(40, kind)),
            ("noise", p.noise(dice, 30, 400, kind)), ("wide-noise", p.noise(dice, 12, 32767, kind)),
            ("wobble", p.wobble(dice, 40, 14, kind)), ("repeated", p.repeated(25, kind)),
            ("loop", p.loop(20, kind)), ("all-same", [(7, -7, 7)[:kind]] * 9), ("straight", p.straight(30, kind)),
            ("there-and-back", [(abs(8 - i) * 50, abs(8 - i) * 20, 0)[:kind] for i in range(17)]),
            ("beyond-ends", [(0, 0, 0)[:kind], (-90, 1, 0)[:kind], (220, 3, 1)[:kind], (100, 0, 0)[:kind]]),
            ("equal-weights", [(10 * i, 20 * (i % 2), 20 * (i % 2))[:kind] for i in range(11)]),
        ]
    shapes.append(("figure", [(0, 0), (2, 3), (4, 0), (6, 1), (8, 0)]))
    for name, points in shapes:
        for t in TOLERANCES:
            panel = p.stepped(dice.below(9), dice.below(2), points)
            said = "none" if t is None else t
            yield run_panel("shape%d-%s-t%s" % (len(points[0]), name, said), panel, tolerance=t)
    # exactly at the tolerance and one beyond it
    for t in (0, 1, 8, 255, 256):
        for over in (0, 1):
            panel = p.stepped(0, 0, [(0, 0), (500, t + over), (1000, 0)])
            yield run_panel("edge-t%d-plus%d" % (t, over), panel, tolerance=t)
    panel = p.stepped(0, 0, [(0, 0), (500, 9), (1000, 0)])
    for t in (258, 300, 1000, 32768, 65534):
        yield run_panel("tolerance-%d" % t, panel, tolerance=t)


def tie_cases():
    """Chords whose differences are equally great on several axes, with vertices past their ends."""
    for x, y, z in ((1, 1, 0), (1, -1, 0), (-1, 1, 0), (-1, -1, 0), (1, 1, 1), (-1, 1, -1), (0, 1, 1), (0, -1, 1)):
        a, b = (-7, 20, 3), (100 * x - 7, 100 * y + 20, 100 * z + 3)
        for px, py, pz in ((-50, 30, 0), (30, -50, 10), (150, 60, 20), (60, 150, -40), (20, 90, 120), (-20, 130, 50)):
            points = [a, (a[0] + px, a[1] + py, a[2] + pz), b]
            for kind in (2, 3):
                # the tolerance that just holds the vertex, and the one below it
                flat = [q[:kind] for q in points]
                weight, m = r.weight(flat[0], flat[2], flat[1]), r.chord(flat[0], flat[2])[0]
                panel = p.stepped(8, 1, flat)
                for t in sorted({-(-weight // m), max(-(-weight // m) - 1, 0)}):
                    name = "tie%d-%d-%d-%d-%d-%d-t%d" % (kind, x, y, z, px, py, t)
                    yield run_panel(name, panel, tolerance=min(t, 256))


def random_cases():
    """Random ranges, bits, codes, tolerances, kinds, predictors and packings."""
    dice = p.Dice(77)
    for case in range(120):
        kind, predictor, packing = dice.between(2, 3), dice.below(9), dice.below(2)
        n, axes = dice.of([2, 3, 4, 5, 6, 9, 17, 30]), []
        for _ in range(kind):
            bits = dice.between(1, 24)
            size = dice.of([40, 3000, 60000, 2 ** 23])
            lo = dice.between(-size, size)
            hi = min(lo + dice.between(1, size), 2 ** 24)
            codes = [dice.below(2 ** bits) for _ in range(n)]
            axes.append(p.Axis(bits, word(lo), word(hi), codes))
        panel = p.Panel(predictor, packing, axes)
        yield run_panel("random-%d" % case, panel, tolerance=dice.of(TOLERANCES[:-1]))


def mutation_cases():
    dice = p.Dice(4242)
    for case in range(260):
        kind, predictor, packing = (2, 0, 0) if case % 2 else (dice.between(2, 3), dice.below(9), dice.below(2))
        n = dice.between(2, 7)
        shape = dice.of([p.zigzag(n, 33, kind), p.smooth(n, kind), p.noise(dice, n, 900, kind), p.loop(n, kind)])
        panel = p.stepped(predictor, packing, shape)
        data = bytearray(panel.file())
        for _ in range(dice.of([1, 1, 1, 2, 3])):
            mutate(dice, data)
        yield run_panel("mutated-%d" % case, panel, bytes(data), tolerance=dice.of(TOLERANCES[:-1]))


def mutate(dice, data):
    at = dice.below(len(data))
    how = dice.below(6)
    if how == 0:
        data[at] ^= 1 << dice.below(8)
    elif how == 1:
        data[at] = dice.below(256)
    elif how == 2:
        data[at] = dice.of([0, 1, 2, 0x7F, 0x80, 0xFF])
    elif how == 3:
        del data[at]
    elif how == 4:
        data.insert(at, dice.below(256))
    else:
        other = dice.below(len(data))
        data[at], data[other] = data[other], data[at]


def large_cases():
    """4,096 vertices and the neighbours of that count."""
    arc = figures.parabola()
    wide = [p.wide_axis(axis) for axis in zip(*arc)]
    yield run_panel("large-parabola", p.Panel(0, 0, wide), tolerance=0)
    yield run_panel("large-parabola-packed", p.Panel(2, 1, wide))
    line = [(i - 2048, (i - 2048) // 2) for i in range(4096)]
    straight = p.stepped(0, 0, line)
    yield run_panel("large-straight", straight)
    codes = [axis.codes for axis in (p.step_axis(a) for a in zip(*line))]
    codes[1][4095] = 65536
    beyond = straight.with_entries(1, r.residues(0, codes[1]))
    yield run_panel("large-last-code", straight, beyond)
    yield run_panel("large-short", p.stepped(0, 1, line), p.stepped(0, 1, line).file()[:-2])
    more = [(i % 50, i % 7) for i in range(4097)]
    yield run_panel("large-4097", p.stepped(0, 1, more))
    dice = p.Dice(3)
    cloth = [(12 * i - 24000 + dice.between(-4, 4), (i - 2048) ** 2 // 300 + dice.between(-9, 9), i // 9)
             for i in range(4096)]
    yield run_panel("large-mould", p.stepped(3, 1, cloth), lists=(4096, 4096, 60000))
    yield run_panel("large-wobble", p.stepped(0, 0, [c[:2] for c in cloth]))
    flat = p.stepped(4, 1, [c[:2] for c in cloth])
    yield run_panel("large-flat-few-points", flat, lists=(4095, 4096, 40000))
    yield run_panel("large-flat-few-marks", flat, lists=(4096, 4095, 40000))
    spikes = [(10 * i, 500 if i % 2 else -i % 9) for i in range(900)]
    yield run_panel("large-unbalanced", p.stepped(0, 1, spikes), tolerance=8)


def list_cases():
    """Point, mark and program lists as long as needed, one less, and empty."""
    for kind in (2, 3):
        panel = p.stepped(1, 1, p.zigzag(6, 200, kind))
        need = 6 * (1 + 4 * kind) + 3
        for lists in ((6, 6, need), (5, 6, need), (6, 5, need), (6, 6, need - 1), (6, 6, need + 1), (0, 6, need),
                      (6, 0, need), (6, 6, 0), (6, 6, 1), (0, 0, 0), (5, 5, 5), (7, 9, 400)):
            yield run_panel("lists%d-%d-%d-%d" % (kind, *lists), panel, lists=lists, tolerance=8)
    six = p.stepped(0, 0, p.zigzag(6, 200))
    yield run("lists-points-before-letter", six.file((1, b"q" + six.pieces[1][1:])), lists=(5, 5, 5))
    yield run("lists-tolerance-before-marks", six.file(), tolerance=257, lists=(6, 5, 5))
    yield run("lists-example-exact", EXAMPLE, lists=(2, 2, 21))
    yield run("lists-example-no-e", EXAMPLE, lists=(2, 2, 20))
