"""Makes the stored corpus, or compares it.

    python3 compare/make_corpus.py            make it anew, and say whether the stored one differs
    python3 compare/make_corpus.py --check    compare only; exit status 1 if it differs
"""

import sys

sys.dont_write_bytecode = True

from collections import Counter
from pathlib import Path

import bench_cases as b
import figures
import file_cases as f
import line_cases as l
import records

STORED = Path(__file__).resolve().parent.parent / "crates" / "corpus" / "data" / "corpus.bin"
SIZE_LIMIT = 1500000
OPERATIONS = {records.RUN: "run", records.STORE: "store", records.RANGE: "range", records.CALLS: "calls"}
GROUPS = [
    f.example_cases, f.range_cases, f.range_in_files, f.place_cases, f.count_cases, f.header_cases,
    f.letter_cases, f.length_cases, f.truncation_cases, f.trailing_cases, f.pairing_cases, f.strip_cases,
    f.packed_widths, f.code_cases, l.shape_cases, l.tie_cases, l.random_cases, l.mutation_cases, l.list_cases, l.large_cases,
    b.store_cases, b.stage_cases, b.run_cases, b.short_list_cases, b.waiting_cases, b.poke_cases, b.random_call_cases,
]


def all_cases():
    """Name to operation and record, in order."""
    cases = {}
    for group in GROUPS:
        for name, op, body in group():
            assert name not in cases and name.isascii() and " " not in name, name
            cases[name] = (op, bytes([len(name)]) + name.encode("ascii") + bytes([op]) + body)
    return cases


def first_difference(old, new, cases):
    """The name of the case in which two corpora first differ."""
    at = next((i for i, (x, y) in enumerate(zip(old, new)) if x != y), min(len(old), len(new)))
    for name, (_, record) in cases.items():
        if at < len(record):
            return name
        at -= len(record)
    return "the end"


def compare(new, cases):
    """One sentence on the stored corpus, and whether it is the same."""
    if not STORED.exists():
        return "There is no stored corpus.", False
    old = STORED.read_bytes()
    if old == new:
        return "The stored corpus is the same.", True
    return ("The stored corpus differs: %d bytes stored, %d bytes made, first in the case %s."
            % (len(old), len(new), first_difference(old, new, cases))), False


def main(arguments):
    if arguments not in ([], ["--check"]):
        raise SystemExit(__doc__)
    print("%d figures met." % figures.check())
    cases = all_cases()
    corpus = b"".join(record for _, record in cases.values())
    assert len(corpus) < SIZE_LIMIT, len(corpus)
    counts = Counter(OPERATIONS[op] for op, _ in cases.values())
    print("%d cases (%s), %d bytes." % (
        len(cases), ", ".join("%s %d" % (name, counts[name]) for name in OPERATIONS.values()), len(corpus)))
    sentence, same = compare(corpus, cases)
    print(sentence)
    if arguments:
        return 0 if same else 1
    if not same:
        STORED.parent.mkdir(parents=True, exist_ok=True)
        STORED.write_bytes(corpus)
        print("Written anew.")
    return 0


if __name__ == "__main__":
    sys.exit(main(sys.argv[1:]))
