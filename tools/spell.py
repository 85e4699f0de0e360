#!/usr/bin/env python3
"""Brings the repository's own names to the spelling of today's Rattle: definitions, lemmas and fields of .antt files in snake case.

usage: python3 tools/spell.py [--list]

Run it once, at the top, after the kit's own scripts have turned everything else. It renames what specs/ and proofs/ declare, there, in the
clauses and ghost imports of src/, and in the must-fail edits; types and modules keep their capital letters, and functions of src/, strings,
inputs and outputs stay. In README.md and the pages of docs/ that speak of today it renames what stands in backquotes. It stops, and writes
nothing, where two names would fall together. With --list it prints the names, old and new, and writes nothing.
"""

import collections
import glob
import re
import sys

WORD = re.compile(r"[A-Za-z0-9_Α-ωµ][A-Za-z0-9_'₀-₉Α-ωµ]*(?:-[A-Za-z0-9_'₀-₉Α-ωµ]+)*")
DECLARED = re.compile(r"^(?:(?:pub|abbrev|unfoldable) )*([^\s:(){}]+) :(?= |$)")
INNER = re.compile(r"^ +(?:pub )?([a-z][^\s:(){}=.]*) :(?= |$)")
OWN = re.compile(r"^use Rattle\.")
USED = re.compile(r"^(?:ghost )?use ([^{}\s]+)\.\{([^}]*)\}")
PAGES = ["README.md", "docs/ARCHITECTURE.md", "docs/DECISIONS.md", "docs/FORMAT.md", "docs/FORMS.md", "docs/PROMISES.md", "docs/TRACE.md"]

# A name that snake case would make a numeral's.
NAMED = {"255-is-lit": "lit_where_255"}
# In one file: a name that would fall together with another, and what it is called there.
APART = {
    ("crates/rules/proofs/Laws/Said.antt", "by_mode"): "by_mode_lem",
    ("crates/demands/proofs/Changes.antt", "goes_on"): "goes_on_there",
    ("crates/actuator/proofs/Taken.antt", "same_flags"): "same_flags_then",
}


def snake(name):
    """camelCase and dashes in snake case: 'setOn' is 'set_on', 'off-waits' is 'off_waits'."""
    spread = re.sub(r"(?<=[a-z0-9])(?=[A-Z])", "_", name)
    return spread.replace("-", "_").lower() if spread[0].islower() else spread.replace("-", "_")


def read(path):
    with open(path, encoding="utf-8") as f:
        return f.read()


def antt_files():
    return sorted(glob.glob("crates/*/specs/**/*.antt", recursive=True) + glob.glob("crates/*/proofs/**/*.antt", recursive=True))


def declared():
    """What the .antt files declare, each with the files that declare it. What a proof of a function calls its goals is Rattle's own."""
    names = collections.defaultdict(set)
    for path in antt_files():
        for line in read(path).splitlines():
            it = DECLARED.match(line) or INNER.match(line)
            if it and not re.search(r" : (tie|goal)\.", line) and not re.match(r"(pub )?(record|data) ", line):
                names[it[1]].add(path)
    return names


def strangers(text):
    """The names that a file has from elsewhere: from the library, and not from a crate of this repository."""
    found = set()
    for line in text.splitlines():
        it = USED.match(line)
        if it and not (it[1].startswith("Rattle.") and it[1].split(".")[1] in CRATES):
            found |= {word.strip().split(" as ")[0] for word in it[2].split(",")}
    return found


CRATES = {path.split("/")[1] for path in glob.glob("crates/*/")}


def is_lemma(name, names):
    """Names of lemmas have dashes, and stand in proofs/."""
    return "-" in name and all("/proofs/" in path for path in names[name])


def table():
    """Each name that changes, and what it becomes. A lemma that would have the name of a definition gets '_lem' at its end."""
    names = declared()
    definitions = {snake(name) for name in names if not is_lemma(name, names)}
    new = {}
    for name in names:
        spelled = NAMED.get(name) or snake(name)
        if spelled in definitions and is_lemma(name, names):
            spelled += "_lem"
        if spelled != name and not re.fullmatch(r"[A-Z][A-Za-z0-9']*", name):
            new[name] = spelled
    return names, new


def together(names, new):
    """The names that would fall together: in one module, or in a file that uses both."""
    bad = []
    by_new = collections.defaultdict(list)
    for old, spelled in new.items():
        by_new[spelled].append(old)
    for spelled, olds in by_new.items():
        homes = [names[it] for it in olds + ([spelled] if spelled in names and spelled not in new else [])]
        if sum(map(len, homes)) > len(set().union(*homes)):
            bad.append((spelled, olds, "in one module"))
    for path in antt_files():
        code = "\n".join(line for line in read(path).split("\n") if not re.match(r"use |\s*--", line))
        words = set(WORD.findall(code))
        apart = {word for where, word in APART if where == path} | steps(code)
        bad += [(spelled, [old], "a word of " + path) for old, spelled in new.items() if old in words and spelled in words - apart]
    for path in sorted(glob.glob("crates/*/src/**/*.rt", recursive=True)):
        text = read(path)
        words = set(WORD.findall(text))
        values = set(re.findall(r"(\w+): ", text))
        bad += [(spelled, [old], "a parameter or field of " + path) for old, spelled in new.items() if old in words and spelled in values]
    return bad


def steps(code):
    """The words that stand only behind a dot: the fields of a record, and the steps of a proof, which are called as the code's functions."""
    return set(WORD.findall(code)) - set(WORD.findall(re.sub(r"\." + WORD.pattern, " ", code)))


def respelled(text, new):
    """A word behind a dot is no lemma, but in a path that begins with a module; and a goal's name, behind 'tie.', is Rattle's."""

    def word(it):
        if re.search(r"\btie\.$", text[: it.start()]):
            return it[0]
        if text[: it.start()].endswith(".") and it[0] in new:
            return snake(it[0])
        return new.get(it[0], it[0])

    return WORD.sub(word, text)


def turn_antt(text, new, path=""):
    foreign = strangers(text)
    mine = {old: spelled for old, spelled in new.items() if old not in foreign}
    mine |= {old: spelled for (where, old), spelled in APART.items() if where == path}
    out = []
    for line in text.split("\n"):
        code, dashes, comment = line.partition("--") if line.lstrip().startswith("--") else (line, "", "")
        comment = re.sub(r"`[^`]*`", lambda it: respelled(it[0], new), comment)
        out.append(respelled(code, mine) + dashes + comment)
    return "\n".join(out)


def turn_rt(text, new):
    """Words with a capital letter or a dash within are no names of Rust's code; of the others, only those in clauses are renamed."""
    strange = strangers(text)
    mine = {old: spelled for old, spelled in new.items() if old not in strange}
    out = []
    for line in text.split("\n"):
        code, slashes, comment = line.partition("//")
        if re.match(r"\s*(ghost|requires|ensures)\b", code):
            code = respelled(code, mine)
        comment = re.sub(r"`[^`]*`", lambda it: respelled(it[0], new), comment)
        out.append(code + slashes + comment)
    return "\n".join(out)


def turn_edit(text, new):
    about = re.search(r"^file: (\S+)", text, re.M)[1]
    turn = turn_antt if about.endswith(".antt") else turn_rt
    return turn(text, new)


def turn_page(text, new):
    """Names of two words or more, in backquotes."""
    return re.sub(r"`[^`\n]+`", lambda it: respelled(it[0], new), text)


def main(words):
    names, new = table()
    bad = together(names, new)
    for spelled, olds, why in sorted(bad):
        print(f"falls together: {', '.join(olds)} as {spelled}: {why}", file=sys.stderr)
    if "--list" in words:
        for old in sorted(new):
            print(f"{old}\t{new[old]}")
        return 1 if bad else 0
    if bad:
        return 1
    turns = [(path, turn_antt) for path in antt_files()]
    turns += [(path, turn_rt) for path in sorted(glob.glob("crates/*/src/**/*.rt", recursive=True))]
    turns += [(path, turn_edit) for path in sorted(glob.glob("crates/*/must-fail/*.edit"))]
    turns += [(path, turn_page) for path in PAGES]
    for path, turn in turns:
        text = read(path)
        turned = turn(text, new, path) if turn is turn_antt else turn(text, new)
        if turned != text:
            with open(path, "w", encoding="utf-8") as f:
                f.write(turned)
    print(f"spell: {len(new)} names")
    return 0


if __name__ == "__main__":
    sys.exit(main(sys.argv[1:]))
