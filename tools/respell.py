#!/usr/bin/env python3
"""Brings this repository's own names to the spelling of today's Rattle. Run once, after the kit's port.py.

usage: tools/respell.py [--write] [--map FILE]      at the top; without --write it only lists what it would respell

What a name is decides how it is spelled:
  a fact    (a definition, record or data whose type ends in `Type 0`)    UpperCamelCase     Half-a-quantum -> HalfAQuantum
  a word    (any other `abbrev` or `unfoldable`; a record's field)         snake_case         unitsOf -> units_of, le-at -> le_at
  a lemma   (a plain signature; an import's other name; a variable)        snake_case pieces  numberAfter-is -> number_after-is
so a lemma keeps the dashes that join its parts. EXCEPTIONS has the names for which this gives one that is taken.

Read are specs/ and proofs/, in src/ the ghost items, clauses and tactic attributes, and in comments, README.md and docs/
the names that can be nothing else. Not touched: functions and types of src/, strings, must-fail edits, and the names that
Rattle makes of the code (those after `goal.` and `c.`).
"""
import collections
import glob
import re
import sys

# Old name, where it is read -> new name. The place is the beginning of a path below crates/, or nothing for every file.
EXCEPTIONS = {
    # range: the sum of a code and a lemma on it
    ("code_sum", "range/proofs/"): "code_sum_lem",
    # range: a lemma on place_of, beside the word placeAt of panel
    ("place_at", "range/proofs/"): "place_of_lem",
    # load: a part of one proof, beside the word byBytes
    ("by_bytes", "load/proofs/"): "by_body_bytes",
    # pack and law: lemmas named by a word that has another name today
    ("getD-digits", ""): "slice_index-digits",
    ("getD-placed", ""): "get_or-placed",
    # seam: the split under the reason against it, beside law's word of that name
    ("splitBy", ""): "split_unless",
    # controller: the cut at the pairing that two numbers name, beside its own functions cut_by
    ("cutBy", "controller/"): "cut_by_numbers",
}
DECLARED = re.compile(r"^(\s*)((?:(?:abbrev|unfoldable|pattern|pub|record|data)\s+)*)([A-Za-z][^\s:(){}\[\],;.\"|«»@]*)([^:=]*):\s*(.*)$")
TOKEN = re.compile(r"[^\s(){}\[\],;.:\"|«»@`]+")
CAMEL = re.compile(r"(?<![A-Za-z0-9_'])[a-z][a-z0-9_]*[A-Z]")
NOTE = re.compile(r"(^|\s)--(\s.*)?$")


def paths(end):
    return [p for p in sorted(glob.glob("crates/**/*" + end, recursive=True)) if "/out/" not in p]


def read(path):
    with open(path, encoding="utf-8") as f:
        return f.read()


def snake(name):
    """Each lower camel piece of a name in snake case; pieces that begin with a capital are facts and stay."""
    def piece(p):
        return re.sub(r"(?<=[a-z0-9])([A-Z])", lambda m: "_" + m[1].lower(), p) if re.match(r"[a-z]", p) else p
    return "-".join(piece(p) for p in name.split("-"))


def fact(name):
    return "".join(p[:1].upper() + p[1:] for p in name.split("-"))


def declarations(path):
    """Each declaration of a file that is not of a goal: its name and kind."""
    lines = [NOTE.sub("", l) for l in read(path).split("\n")]
    inside = None                       # the indentation of the record or data that the lines belong to
    for i, line in enumerate(lines):
        deep = len(line) - len(line.lstrip())
        if line.strip() and inside is not None and deep <= inside:
            inside = None
        m = DECLARED.match(line)
        if not m or m[3] in ("let", "in", "use", "module", "where", "unfolding"):
            continue
        shape, rest, j = m[2].split(), m[5], i + 1
        block = "record" in shape or "data" in shape
        while not block and j < len(lines) and lines[j].strip() and len(lines[j]) - len(lines[j].lstrip()) > deep:
            rest, j = rest + " " + lines[j].strip(), j + 1
        if rest.startswith("goal."):
            continue
        if block:
            inside = deep
            yield m[3], "fact"
        elif inside is not None:
            yield m[3], "field"
        elif re.search(r"(^|→\s*)Type 0\s*$", rest):
            yield m[3], "fact"
        else:
            yield m[3], "word" if "abbrev" in shape or "unfoldable" in shape else "lemma"


def respelled():
    """Old name -> new name, of those whose kind or letters ask for it, and what each is."""
    kinds = collections.defaultdict(set)
    for p in paths(".antt"):
        for name, kind in declarations(p):
            kinds[name].add(kind)
    to = {}
    for name, of in kinds.items():
        if "-" in name and "fact" in of:
            to[name] = (fact(name), "fact")
        elif "-" in name and of & {"word", "field"}:
            to[name] = (snake(name).replace("-", "_"), "word")
        elif CAMEL.search(name):
            to[name] = (snake(name), "word" if of & {"word", "field"} else "lemma")
    return to


def antt_spans(text):
    """The stretches of a .rt file that are clauses, ghost items or tactic attributes."""
    dead = [m.span() for m in re.finditer(r'//[^\n]*|"(?:\\.|[^"\\])*"', text)]
    spans = [m.span() for m in re.finditer(r"\bghost use\b[^;]*;|#!?\[tactic\([^\]]*\)\]", text)]
    for m in re.finditer(r"\b(?:requires|ensures|decreases|invariant)\b[^{}\n;]*\{|\bghost\s+(?!use\b)\w+\s*[:=]\s*\{", text):
        if any(a <= m.start() < b for a, b in dead):
            continue
        k, depth = m.end(), 1
        while k < len(text) and depth:
            depth += {"{": 1, "}": -1}.get(text[k], 0)
            k += 1
        spans.append((m.end(), k - 1))
    return sorted(s for s in spans if not any(a <= s[0] < b for a, b in dead))


class Turner:
    def __init__(self, to):
        self.to, self.used, self.where = to, collections.Counter(), collections.defaultdict(set)

    def new(self, name, path):
        below = path[len("crates/"):]
        for (old, place), new in EXCEPTIONS.items():
            if name == old and below.startswith(place):
                return new
        if name in self.to:
            return self.to[name][0]
        return snake(name) if CAMEL.search(name) and not re.match(r"[A-Z]", name) else name

    def code(self, text, path):
        def one(m):
            before = re.search(r"([\w-]+)\.$", text[:m.start()])
            if before and before[1] in ("c", "goal"):       # a name that Rattle makes
                return m[0]
            return self.say(m[0], self.new(m[0], path), path)
        return TOKEN.sub(one, text)

    def note(self, text, path):
        """A comment or a page: only names that no English and no Rust has, and that are declared."""
        def one(m):
            sure = m[0] in self.to and (CAMEL.search(m[0]) or re.match(r"[A-Z].*-", m[0]))
            return self.say(m[0], self.new(m[0], path), path) if sure else m[0]
        return TOKEN.sub(one, text)

    def say(self, old, new, path):
        if old != new:
            self.used[(old, new)] += 1
            self.where[new].add(old)
        return new

    def antt(self, text, path):
        out = []
        for line in text.split("\n"):
            m = NOTE.search(line)
            at = m.start() if m else len(line)
            out.append(self.code(line[:at], path) + self.note(line[at:], path))
        return "\n".join(out)

    def rust(self, text, path):
        def notes(s):
            return re.sub(r"//[^\n]*", lambda m: self.note(m[0], path), s)
        out, at = "", 0
        for a, b in antt_spans(text):
            if a >= at:
                out, at = out + notes(text[at:a]) + self.code(text[a:b], path), b
        return out + notes(text[at:])

    def page(self, text, path):
        return re.sub(r"`[^`\n]*`", lambda m: self.note(m[0], path), text)


def main():
    to = respelled()
    if not to:
        sys.exit("nothing to respell: each name has today's spelling")
    turner, changed = Turner(to), 0
    kinds = {".antt": turner.antt, ".rt": turner.rust, ".md": turner.page}
    pages = ["README.md"] + [p for p in sorted(glob.glob("docs/*.md")) if "PORT" not in p]
    for path in paths(".antt") + paths(".rt") + pages:
        old = read(path)
        new = kinds[path[path.rindex("."):]](old, path)
        if new != old:
            changed += 1
            if "--write" in sys.argv:
                with open(path, "w", encoding="utf-8") as f:
                    f.write(new)
    here = {t for p in paths(".antt") for t in TOKEN.findall(read(p))}
    for new, olds in sorted(turner.where.items()):
        if len(olds) > 1 or (new in here and "--write" not in sys.argv):
            print("falls together:", ", ".join(sorted(olds)), "->", new, "(which stands already)" if new in here else "")
    for (old, new), n in sorted(turner.used.items()):
        print(f"{n:5}  {to.get(old, ('', 'other'))[1]:6} {old} -> {new}")
    print(f"{len(turner.used)} names, {sum(turner.used.values())} places, {changed} files")
    if "--map" in sys.argv:
        with open(sys.argv[sys.argv.index("--map") + 1], "w", encoding="utf-8") as f:
            f.writelines(f"{old}\t{new}\n" for old, new in sorted(turner.used))


main()
