"""Corpus records: each case is a name, an operation and the bytes that follow them.

The expected part of a record is what the reference implementation answers.
"""

import reference as r

TOLERANCES = [None, 0, 1, 2, 8, 255, 256, 257]
FULL = (4096, 4096, 40000)
RUN, STORE, RANGE, CALLS = 0, 1, 2, 3
# What a call may be given besides its fields: its letter, and how many 32-bit numbers its value has.
ARGUMENTS = {"tolerance": (b"t", 1), "origin": (b"o", 3), "budget": (b"b", 1)}


def sized(data):
    return r.four(len(data)) + data


def fours(numbers):
    return b"".join(r.four(n) for n in numbers)


def arguments(**given):
    """How many arguments a call is given, and each of them. None says that one is not given."""
    given = {name: value for name, value in given.items() if value is not None}
    out = bytes([len(given)])
    for name, value in given.items():
        letter, size = ARGUMENTS[name]
        numbers = value if size > 1 else (value,)
        assert len(numbers) == size, name
        out += letter + fours(numbers)
    return out


def run(name, data, kind=2, predictor=0, packing=0, tolerance=None, lists=FULL):
    due = r.run(kind, predictor, packing, tolerance, *lists, data)
    body = bytes([kind, predictor, packing]) + fours(lists) + sized(data) + arguments(tolerance=tolerance)
    return name, RUN, body + sized(due)


def run_panel(name, panel, data=None, **more):
    data = panel.file() if data is None else data
    return run(name, data, panel.kind, panel.predictor, panel.packing, **more)


def store(name, kind, predictor, packing, points, ranges, work=None, room=None):
    """The lists are as long as needed unless told."""
    spans = [r.Range(*each) for each in ranges]
    work = len(points) if work is None else work

    def answer(room):
        try:
            return r.store(kind, predictor, packing, points, spans, work, room)
        except r.Refused as no:
            return no.line()
    room = len(answer(1 << 20)) if room is None else room
    body = bytes([kind, predictor, packing])
    body += b"".join(bytes([bits]) + fours((lo, hi)) for bits, lo, hi in ranges)
    body += fours((work, room, len(points))) + fours(x for point in points for x in point)
    return name, STORE, body + arguments() + sized(answer(room))


def range_(name, bits, lower, upper):
    try:
        r.Range(bits, lower, upper)
        due = 0
    except r.Refused as no:
        due = no.number
    return name, RANGE, bytes([bits]) + fours((lower, upper)) + arguments() + sized(bytes([due]))


def calls(name, lists, *steps):
    """Calls on one flat bench with Lag1 and packing 0, and what each of them answers.

    A step is ("load", file), ("split", tolerance or None), ("cut",), ("close",),
    ("mark", index, value) or ("point", index, x, y).
    """
    bench = r.Bench(r.FLAT, *lists)
    body, due = fours(lists) + arguments() + bytes([len(steps)]), b""
    for step in steps:
        body += call_bytes(step)
        due += answer(bench, step)
    return name, CALLS, body + sized(due + bytes(bench.program))


def call_bytes(step):
    what, given = step[0], step[1:]
    if what == "load":
        return b"\0" + sized(given[0]) + arguments()
    if what == "split":
        return b"\1" + arguments(tolerance=given[0])
    if what == "cut":
        return b"\2" + arguments()
    if what == "close":
        return b"\3" + arguments()
    if what == "mark":
        return b"\4" + r.four(given[0]) + bytes([given[1]])
    return b"\5" + fours(given)


def answer(bench, step):
    what, given = step[0], step[1:]
    if what == "mark":
        bench.marks[given[0]] = given[1]
        return b""
    if what == "point":
        bench.points[given[0]] = given[1:]
        return b""
    try:
        if what == "load":
            told = [bench.load(0, 0, given[0])]
        elif what == "split":
            told = bench.split(given[0])
        else:
            told = [bench.cut() if what == "cut" else bench.close()]
    except r.Refused as no:
        return bytes([no.number]) + r.four(no.place)
    return b"\0" + fours(told)
