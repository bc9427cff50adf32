#!/usr/bin/env python3
"""Spells the repository's own definitions and lemmas as today's Rattle does, once, after the kit's port.py.

    tools/respell.py [--list]     at the top; --list prints the table and writes nothing

A definition is in snake case. In a lemma a dash joins two names, of definitions or of the operations in OPERATIONS, and a plain
word is added with an underscore. Functions, fields, constants and text keep their names: where a new name would be a field, a
parameter, a constant or a variable of the Rust-like source, or would meet another name, MEETS says what it is instead, and the
script stops at one that MEETS does not list. What proofs/FUNCTION/ declares for itself is left.
"""
import collections
import pathlib
import re
import sys

ROOT = pathlib.Path(__file__).resolve().parent.parent
CRATES = ROOT / "crates"
DECLARED = re.compile(
    r"(?m)^ *(?:mutual +)?(?:(?:unfoldable|abbrev|pub|ruleset) )*([^\s(){}.;,@\"«»:]+)(?: \{[^{}\n]*\})* :(?= )"
)
RULES = re.compile(r"(?m)^(?:pub )?ruleset ([^\s=]+) =")
WORD = re.compile(r"(?<![^\s(){}.;,@\"«»`])[^\s(){}.;,@\"«»`]+")
OUTSIDE = re.compile(
    r"(?m)^(?:ghost |pub )*use (?:Rattle\.(?:std|core|io)\b|mathlib\b|native\b|lib\b|borrow\b|mir\b|Prim\b|base\b|types\b|denote\b|contract\b|machine\b)[^{\n;]*\{([^}]*)\}"
)
OPERATIONS = set(
    "add sub mul div mod pow min max abs neg shr shl quot mag length take drop set append replicate map cond eq le lt gt ge not"
    " and or get_or tabulate cons zero one cast lit nil".split()
)
MEETS = {
    "arePairs": "has_pairs",
    "baseLag": "base_lag_of",
    "excHist": "exc_hist_size",
    "gainIndex": "gain_index_of",
    "nextWord": "next_word_of",
    "tapSum": "tap_sum_of",
}
# Where they are fields of a record.
FIELDS = {"vectors": {"baseLag": "base_lag", "gainIndex": "gain_index"}, "theorems": {"tapSum": "tap_sum"}}
# Lemmas that have an underscore since port.py and would meet a definition.
LEMMAS = {"found_of": "found_of_lem"}


def texts():
    for path in sorted(CRATES.rglob("*")):
        if path.suffix in (".antt", ".rt", ".edit") and "out" not in path.relative_to(CRATES).parts:
            yield path, path.read_text(encoding="utf-8")


def is_laws(path):
    parts = path.relative_to(CRATES).parts
    return path.suffix == ".antt" and (parts[1] == "specs" or parts[1] == "proofs" and len(parts) == 3)


def snake(name):
    return re.sub(r"(?<=[a-z0-9])[A-Z]|(?<=[A-Z])[A-Z](?=[a-z])", lambda m: "_" + m[0].lower(), name).lower()


def main():
    all_texts = dict(texts())
    declared, outside = collections.defaultdict(set), set()
    for path, text in all_texts.items():
        for names in OUTSIDE.findall(text):
            outside.update(n.strip().split(" as ")[0] for n in names.split(","))
        if is_laws(path):
            for name in DECLARED.findall(text) + RULES.findall(text):
                declared[name].add(path)
    source = set()
    for path, text in all_texts.items():
        if path.suffix == ".rt":
            code = re.sub(r"//[^\n]*", "", text)
            code = re.sub(r"ghost use[^;]*;", "", code)
            code = re.sub(r"(?:requires|ensures)\s*\w*\s*\{[^\n]*\}", "", code)
            code = re.sub(r"\bfn (\w+)", "", code)
            source.update(re.findall(r"\b[a-z_]\w*\b(?!\s*(?:\(|::))", code))
    types = {n for n in declared if n[:1].isupper()}
    definitions = {snake(n) for n in declared if n[:1].islower() and "-" not in n}
    names = definitions | {snake(t[:1].lower() + t[1:]) for t in types} | OPERATIONS
    table = {}
    for name in declared:
        if not name[:1].islower() or name in outside:
            continue
        parts = [snake(p) for p in name.split("-")]
        new = parts[0]
        for a, b in zip(parts, parts[1:]):
            new += ("-" if a in names and b in names else "_") + b
        new = MEETS.get(name, new)
        if new != name:
            table[name] = new
    table.update(LEMMAS)
    functions = {f for text in all_texts.values() for f in re.findall(r"\bfn (\w+)", text)}
    meet = collections.Counter(table.values())
    # A lemma that would have its function's name.
    for old, new in table.items():
        if "-" in old and (meet[new] > 1 or new in functions or new in declared):
            table[old] = new + "_lem"
    present = set()
    for path, text in all_texts.items():
        if path.suffix == ".antt":
            present.update(WORD.findall(text))
    faults = []
    by_new = collections.defaultdict(list)
    for old, new in table.items():
        by_new[new].append(old)
        if new in source:
            faults.append(f"{old} -> {new}: a name of the source")
        elif new in present and new not in table and new not in functions:
            faults.append(f"{old} -> {new}: is there")
    faults += [f"{olds} -> {new}" for new, olds in by_new.items() if len(olds) > 1]
    if "--list" in sys.argv:
        for old, new in sorted(table.items()):
            print(old, new)
    if faults:
        print("\n".join(sorted(faults)), file=sys.stderr)
        sys.exit(1)
    if "--list" in sys.argv:
        return

    def turned(text, crate=None):
        def turn(m):
            word = m[0]
            if word in FIELDS.get(crate, {}):
                return FIELDS[crate][word]
            if "-" in word and m.start() and text[m.start() - 1] == ".":
                return word
            return table.get(word, word)

        return WORD.sub(turn, text)

    for path, text in all_texts.items():
        new = turned(text, path.relative_to(CRATES).parts[0])
        if new != text:
            path.write_text(new, encoding="utf-8")
    for path in [ROOT / "README.md", *sorted((ROOT / "docs").glob("*.md"))]:
        text = path.read_text(encoding="utf-8")
        new = re.sub(r"`[^`\n]+`", lambda m: turned(m[0]), text)
        if new != text:
            path.write_text(new, encoding="utf-8")


if __name__ == "__main__":
    main()
