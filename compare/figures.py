"""Known figures that the reference implementation must meet before it makes anything."""

import reference as r

EXAMPLE = bytes.fromhex(
    "4E02000002000000"
    "51040000000000008041" "5608000000" "000000000F000000"
    "51040000000000008041" "5608000000" "0000000007000000"
    "45")
EXAMPLE_PROGRAM = bytes.fromhex("540000000000000000" "44" "4B0001000077000000" "55" "45")

# The mould panel of docs/FORMATS.md: Stride1, packing 1, five vertices in units.
MOULD_POINTS = [(0, 0, 128), (1024, -1000, 128), (2048, 1000, 128), (3072, 500, 140), (4096, 0, 300)]
MOULD_RANGES = [(4, 0x00000000, 0x41800000), (8, 0xC1800000, 0x41800000), (3, 0xBF800000, 0x40400000)]
MOULD_EXAMPLE = bytes.fromhex(
    "4E03020105000000"
    "51040000000000008041" "5608000000" "0000000004048B10"
    "5108000080C100008041" "560A000000" "01000000087F5F9E8E00"
    "5103000080BF00004040" "5607000000" "0100000002AA00"
    "45")
MOULD_PROGRAM = bytes.fromhex(
    "5400000000010000000B000000" "44" "4B44000000C1FFFFFF0B000000"
    "4B890000003F0000000B000000" "4B000100000100000015000000" "55" "45")

ZERO, SIXTEEN = 0x00000000, 0x41800000


def word(units):
    """The 32-bit floating word of a whole number of units that has one."""
    if units == 0:
        return 0
    size = abs(units)
    shift = 23 - (size.bit_length() - 1)
    assert shift >= 0 or size % (1 << -shift) == 0
    fraction = size << shift if shift >= 0 else size >> -shift
    return (units < 0) << 31 | (150 - shift - 8) << 23 | fraction & 0x7FFFFF


def ranges_and_codes():
    sixteen = r.Range(4, ZERO, SIXTEEN)
    yield "places of 1, 7, 15", [sixteen.place(c) for c in (1, 7, 15)], [17, 119, 256]
    yield "codes of 136, 137", [sixteen.code(v) for v in (136, 137)], [0, 1]
    yield "code of 1 in 0..2", r.Range(1, word(0), word(2)).code(1), 1
    yield ("places of code 0", [r.Range(4, word(lo), SIXTEEN).place(0) for lo in (-8, -24, 8)],
           [0, -1, 1])
    yield "a word's units", [r.end_in_units(word(u)) for u in (0, 1, -1, 4096, -2**24)], [0, 1, -1, 4096, -2**24]


def predictors():
    told = [r.residue(p, 12, 4, 10, 7, 0, 1) for p in (0, 2, 5, 6, 7)]
    yield "Lag1, Stride1, Ramp, Xor1, Xor2", told, [2, -1, 8, 6, 11]
    yield "StripIndex", [r.residue(4, 12, 4, 10, 7, 0, v4) for v4 in (0, -1)], [-2, 3]
    yield "Lag1 wraps", r.residue(0, 2147483647, 4, -2147483648, 0, 0, 0), -1
    yield "StripIndex below", [r.residue(4, 12, 4, 10, 7, 0, v4) for v4 in (1, 14, 15)], [-1, 12, 3]
    # by hand: Lag2 12 - 7, Stride2 12 - (7 + (7 - 1)), Null 12
    yield "Lag2, Stride2, Null", [r.residue(p, 12, 4, 10, 7, 0, 1) for p in (1, 3, 8)], [5, -1, 12]
    for p in range(9):
        values = [3, -7, 2147483647, -2147483648, 5, 2147483647, -1, 0, 99, -2147483648]
        yield "predictor %d undone" % p, r.undone(p, r.residues(p, values)), values


def packings():
    yield "packing 1 of 5, 8, 6", r.pack(1, [5, 8, 6]), bytes.fromhex("050000000234")
    for entries in ([5, 8, 6], [4, 4], [-2147483648, 2147483647, 0], [-1, 0, 1, 2, 3]):
        for p in (0, 1):
            yield "packing %d read back" % p, r.unpack(p, r.pack(p, entries), len(entries)), entries


def splitting():
    a, b = (0, 0), (10, 4)
    yield "weights", [r.weight(a, b, p) for p in ((5, 3), (12, 4), (-3, 1))], [10, 20, 30]
    yield "weight at A = B", r.weight((2, 2), (2, 2), (5, 1)), 3
    line = [(0, 0), (2, 3), (4, 0), (6, 1), (8, 0)]
    yield "marks", r.split(line, 1)[0], [1, 1, 1, 0, 1]
    yield "a parabola needs all eleven", r.split(parabola(), 0)[1:], (4096, 11)


def parabola():
    """4,096 vertices that always divide in the middle."""
    return [(i, (i - 2048) * (i - 2047) // 2 - 1048576) for i in range(4096)]


def programs():
    yield "the example", r.panelcut(EXAMPLE), EXAMPLE_PROGRAM
    spans = [r.Range(*each) for each in MOULD_RANGES]
    yield "the mould file", r.store(r.MOULD, 2, 1, MOULD_POINTS, spans, 5, 79), MOULD_EXAMPLE
    yield "the mould program", r.run(r.MOULD, 2, 1, None, 5, 5, 55, MOULD_EXAMPLE), MOULD_PROGRAM
    yield "an empty file", r.panelcut(b""), b"refused 04 at 00000\n"
    yield "a byte after E", r.panelcut(EXAMPLE + b"x"), b"refused 18 at 00055\n"


def check():
    """Stops with a message at the first figure that is not met; answers how many there are."""
    met = 0
    for group in (ranges_and_codes, predictors, packings, splitting, programs):
        for name, got, due in group():
            if got != due:
                raise SystemExit("figure not met: %s: got %r, due %r" % (name, got, due))
            met += 1
    return met


if __name__ == "__main__":
    print("%d figures met" % check())
