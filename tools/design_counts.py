#!/usr/bin/env python3
"""Counts the places of docs/DESIGN-PASS.md in crates/*/src (and the answers in crates/*/proofs), one line for each kind of place.

    python3 tools/design_counts.py [FOLDER] [--list]

FOLDER is a checkout, this one if it is left out; --list names each place too. What a count is of is said beside it; whether a place stays,
and why, is said in the page and beside the place."""
import collections
import pathlib
import re
import sys

HAND_WRITTEN = [
    "same_scene", "same_scenes", "same_phase", "same_flags", "same_lamp",
    "is_dark", "is_lit", "stands", "power_is_down", "bus_is_down", "is_edge",
    "number_of", "action_of", "action_number", "edge_of", "known_event", "known_force", "force_number", "link_of",
    "link_number", "phase_of", "phase_number", "stopped_number", "kind_of",
    "lamp_of", "state_of", "rebuilt", "hear", "earlier_of",
]


def code_of(text):
    """The text without comments, clauses and imports."""
    kept = []
    for line in text.split("\n"):
        bare = line.strip()
        if bare.startswith("//") or re.match(r"(ghost )?use |requires\b|ensures\b", bare):
            continue
        kept.append(line)
    return "\n".join(kept)


def functions(code):
    """Name and whole text of each function."""
    for found in re.finditer(r"^( *)(?:pub(?:\([a-z]+\))? )?(?:const )?(?:extern \"C\" )?fn (\w+)", code, re.M):
        end = re.compile(r"^" + found[1] + r"\}$", re.M).search(code, found.end())
        if end:
            yield found[2], code[found.start():end.end()]


def shape_of(function):
    """A body with every name and number made one, to tell functions that differ in these alone."""
    body = function[function.index("{"):]
    body = re.sub(r"\b[A-Za-z_]\w*\b", lambda m: m[0] if m[0] in KEYWORDS else "N", body)
    return re.sub(r"\s+", " ", re.sub(r"\b\d+\b", "0", body))


KEYWORDS = {"if", "else", "match", "while", "for", "in", "return", "let", "mut", "true", "false", "as", "loop"}


def main():
    names = [a for a in sys.argv[1:] if not a.startswith("--")]
    root = pathlib.Path(names[0] if names else pathlib.Path(__file__).parent.parent)
    found = collections.OrderedDict()

    def note(point, place):
        found.setdefault(point, []).append(place)

    shapes = collections.defaultdict(list)
    facts = collections.defaultdict(list)
    points = [
        "1 enums of the shape of Option or Result",
        "1 structs with a code beside what they carry",
        "1 numbers for kinds, modes or letters (parameters and fields)",
        "2 functions whose bodies differ in names and numbers alone (five words or more)",
        "3 loops that count an index by hand",
        "4 comparisons, conversions and copies written by hand (functions)",
        "4 fields copied into a variable of their own",
        "4 calls of both, either, negated, alike",
        "5 facts that three or more contracts ask for (contracts)",
        "6 arrays with a count beside them, slices with a place or a row beside them (parameters and fields)",
        "7 flags that choose a step, tables of steps (parameters)",
    ]
    for point in points:
        found[point] = []
    for path in sorted(root.glob("crates/*/src/**/*.rt")):
        text = path.read_text()
        code = code_of(text)
        where = str(path.relative_to(root))
        for enum in re.finditer(r"enum (\w+) \{\n(.*?)\n\}", code, re.S):
            variants = re.findall(r"^    (\w+)( \{|\()?", enum[2], re.M)
            if len(variants) == 2 and any(v[1] for v in variants):
                note(points[0], f"{where}: {enum[1]}")
        for struct in re.finditer(r"struct (\w+)[^{;]*\{\n(.*?)\n\}", code, re.S):
            if re.search(r"\bcode: u8", struct[2]):
                note(points[1], f"{where}: {struct[1]}")
            if re.search(r"\bcount: u(8|32)", struct[2]) and re.search(r"\brecords: ", struct[2]):
                note(points[9], f"{where}: {struct[1]}")
        for n in re.finditer(r"\b(kind|mode|letter|locking|unlocking|busfailure|busreturn|powerreturn): u8", code):
            note(points[2], f"{where}: {n[1]}")
        for name, whole in functions(code):
            shape = shape_of(whole)
            if shape.count("N") >= 5:
                shapes[shape].append(f"{where}: {name}")
            if name in HAND_WRITTEN:
                note(points[5], f"{where}: {name}")
            head = whole[:whole.index("{")]
            if re.search(r"octets: &(?:'\w+ )?(?:mut )?\[u8\],\s*(at: usize|form: Form)", head) or re.search(r"(file|inputs): &\[u8\],\s*(at: usize|form: Form)", head):
                note(points[9], f"{where}: {name}")
            for flag in re.finditer(r"\b(noted|edges|phases|learn|timed): bool", head):
                note(points[10], f"{where}: {name}, {flag[1]}")
        for loop in re.finditer(r"while (\w+) < [^\n]*\{", code):
            note(points[4], f"{where}: {loop[0]}")
        for copy in re.finditer(r"^\s+let (\w+) = \w+(?:\.\w+)+;$", code, re.M):
            note(points[6], f"{where}: {copy[0].strip()}")
        for call in re.finditer(r"\b(both|either|negated|alike)\(", code):
            note(points[7], f"{where}: {call[1]}")
        for clause in re.finditer(r"^\s*requires(?: \w+)? \{ (.*) \}$", text, re.M):
            for fact in re.split(r" × ", clause[1]):
                facts[re.sub(r"^\(|\)$", "", fact.strip())].append(where)
    for shape, places in shapes.items():
        if len(places) > 1:
            for place in places:
                note(points[3], place)
    for fact, places in facts.items():
        if len(places) > 2:
            for place in places:
                note(points[8], f"{place}: {fact}")
    for point, places in found.items():
        print(f"{len(places):4}  {point}")
        if "--list" in sys.argv:
            for place in places:
                print(f"        {place}")
    answers = list(root.glob("crates/*/proofs/**/Answers.antt")) + list(root.glob("crates/*/proofs/**/Invariants.antt"))
    lines = sum(len(p.read_text().split("\n")) - 1 for p in answers)
    print(f"{len(answers):4}  8 files of answers and invariants, {lines} lines")


main()
