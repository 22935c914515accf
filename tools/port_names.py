#!/usr/bin/env python3
"""Spells the repository's own definitions, lemmas and fields as today's Rattle spells names, once, after the toolchain's port.py.

    tools/port_names.py [FOLDER]        rewrites crates/, README.md and docs/ below FOLDER (here: the current one)
    tools/port_names.py --list          prints the table, old name and new, and writes nothing

A definition, a lemma, a field or a constructor is written in snake case: a capital inside a word becomes `_` and a small letter, and a
dash becomes `_`. A type keeps its capital and loses its dash. Names of src/ stay, and so do the names that the toolchain makes (a
step of the code, a goal). A name is turned in specs/ and proofs/, in the clauses and ghost items of src/ and of must-fail edits, in
code spans of comments and pages, and, if it has a capital inside, as no English word has, in every comment.
Names that would fall together with another one are in OTHER, each with the name that it gets instead.
"""

import re
import sys
from pathlib import Path

WORD = re.compile(r'[^\s(){}.;,@"«»`\[\]]+')
DECLARED = re.compile(r'(?m)^ *((?:(?:pub|abbrev|unfoldable|record|data|ruleset) )*)([^\s(){}.;,@"«»:=]+)(?: \{[^{}\n]*\}| \([^()\n]*\))* :(?: ([^\s]*)|$)')
KINDS = re.compile(r'(?m)^\s*(?:pub )?(?:record|data) ([^\s(){}.;,@"«»:]+)')
CONSTRUCTOR = re.compile(r'(?m)^  ([^\s(){}.;,@"«»:]+) :')
SPAN = re.compile(r"`[^`\n]+`")
# Names that would meet another name where they are used.
OTHER = {
    "adds-packed": "adds_packed_lem",
    "cell-of": "cell_of_lem",
    "driven-lengths": "driven_lengths_lem",
    "first-check": "first_check_lem",
    "gathered-in": "gathered_in_lem",
    "in-range": "in_range_lem",
    "in-turn": "in_turn_lem",
    "is-cell": "is_cell_lem",
    "is-nan": "is_nan_lem",
    "is-region": "is_region_lem",
    "line-ended": "line_ended_lem",
    "line-feed": "line_feed_lem",
    "nearest-whole": "nearest_whole_lem",
    "node-values": "node_values_lem",
    "nodeFloats": "floats_per_node",
    "nodeWords": "words_per_node",
    "number-of": "number_of_lem",
    "of-region": "of_region_lem",
    "on-grid": "on_grid_lem",
    "on-node": "on_node_lem",
    "one-region": "one_region_lem",
    "over-columns": "over_columns_lem",
    "particleFloats": "floats_per_particle",
    "particleWords": "words_per_particle",
    "rangeWords": "words_per_range",
    "read-from": "read_from_lem",
    "read-in": "read_in_lem",
    "recomputed-in": "recomputed_in_lem",
    "region-of": "region_of_lem",
    "second-check": "second_check_lem",
    "step-lengths": "step_lengths_lem",
    "whole-root": "whole_root_lem",
    "write-from": "write_from_lem",
}
# Lemmas that port.py had given the name that a definition gets here, by the folder in which they are cited.
MET = {"gather": {"taken_in": "taken_in_lem"}}


def snake(name):
    if name in OTHER:
        return OTHER[name]
    if "◌" in name:
        return name
    if name[0].isupper():
        return re.sub(r"-(\w)", lambda m: m[1].upper(), name)
    words = re.sub(r"(?<=[a-z0-9])([A-Z])", lambda m: "_" + m[1].lower(), name)
    return words.replace("-", "_")


def texts(root, *endings):
    for path in sorted((root / "crates").rglob("*")):
        if path.relative_to(root).parts[2:3] != ("out",) and path.suffix in endings and path.is_file():
            yield path


def declared(root):
    """Each declared name. The old answers to goals are none of ours: what they are called follows the toolchain."""
    names = set()
    for path in texts(root, ".antt"):
        text = path.read_text(encoding="utf-8")
        for m in DECLARED.finditer(text):
            if not (m[3] or "").startswith("tie."):
                names.add(m[2])
        names.update(m[1] for m in KINDS.finditer(text))
    return names


def table(root):
    return {name: snake(name) for name in declared(root) if snake(name) != name}


def turned(text, names, camel_only=False):
    def word(m):
        new = names.get(m[0])
        if new is None or (camel_only and "-" in m[0]):
            return m[0]
        return new

    return WORD.sub(word, text)


IMPORT = re.compile(r"(?m)^\s*(?:pub |ghost )?use ([^\s{;]+)\.\{([^{}]*)\}")


def own(text, names, crates):
    """The names but for those that this file takes from a library, which has its own spelling."""
    taken = set()
    for m in IMPORT.finditer(text):
        parts = m[1].split(".")
        if parts[0] != "Rattle" or len(parts) < 2 or parts[1] not in crates:
            taken.update(re.split(r"[,\s]+", m[2]))
    return {old: new for old, new in names.items() if old not in taken}


def in_antt(text, names):
    """Code and comments apart."""
    out = []
    for line in text.split("\n"):
        m = re.search(r"(?:^|(?<=\s))--(?:\s|$)", line)
        code, comment = (line[: m.start()], line[m.start() :]) if m else (line, "")
        out.append(turned(code, names) + in_comment(comment, names))
    return "\n".join(out)


def in_comment(text, names):
    text = SPAN.sub(lambda m: turned(m[0], names), text)
    return turned(text, names, camel_only=True)


def in_rt(text, names):
    """The ghost items and clauses; a clause ends where its brackets close. Comments as in antt."""
    out, at = [], 0
    while at < len(text):
        m = re.compile(r"//[^\n]*|\bghost use [^;]*;|\b(?:requires|ensures|ghost)\b\*?(?: \w+:?)? \{").search(text, at)
        if not m:
            break
        out.append(text[at : m.start()])
        if m[0].startswith("//"):
            out.append(in_comment(m[0], names))
            at = m.end()
        elif m[0].startswith("ghost use"):
            out.append(turned(m[0], names))
            at = m.end()
        else:
            depth, end = 1, m.end()
            while depth:
                depth += (text[end] in "{") - (text[end] in "}")
                end += 1
            out.append(m[0] + turned(text[m.end() : end], names))
            at = end
    return "".join(out) + text[at:]


def in_edit(text, names):
    out = []
    for line in text.split("\n"):
        if line.startswith("#"):
            out.append(in_comment(line, names))
        elif re.search(r"\b(?:requires|ensures|ghost)\b|≡", line):
            out.append(turned(line, names))
        else:
            out.append(line)
    return "\n".join(out)


class Page(dict):
    """For pages, which port.py leaves alone: a name that is not declared any more, but is as port.py spells it."""

    def __init__(self, names, declared):
        super().__init__(names)
        self.declared = declared

    def get(self, word, other=None):
        if re.fullmatch("_[^_]+_", word):
            return word.replace("_", "◌")
        new = snake(word) if re.fullmatch(r"[a-z][\w'-]*", word) else word
        return super().get(word, new if word not in self.declared and new in self.declared else other)


def in_page(text, names):
    return SPAN.sub(lambda m: turned_page(m[0], names), text)


def turned_page(span, names):
    """A span names a definition bare, or behind a file: `File.antt:name,name`. A path and a function of src/ stay."""
    def word(m):
        return names.get(m[0], m[0])

    if ".antt:" in span:
        head, _, rest = span.partition(".antt:")
        return head + ".antt:" + re.sub(r"[^,`]+", word, rest)
    if "/" in span or "::" in span or ".edit" in span:
        return span
    return turned(span, names, camel_only=not re.fullmatch(r"`\S+`", span))


def main():
    root = Path(next((a for a in sys.argv[1:] if not a.startswith("-")), "."))
    names = table(root)
    if "--list" in sys.argv:
        for old in sorted(names):
            print(f"{old}\t{names[old]}")
        return
    turn = {".antt": in_antt, ".rt": in_rt, ".edit": in_edit}
    crates = {path.name for path in (root / "crates").iterdir()}
    for path in texts(root, *turn):
        text = path.read_text(encoding="utf-8")
        met = MET.get(path.relative_to(root).parts[1], {})
        new = turn[path.suffix](text, own(text, names | met, crates))
        if new != text:
            path.write_text(new, encoding="utf-8")
    page = Page(names, declared(root))
    for path in [root / "README.md", *sorted((root / "docs").glob("*.md"))]:
        text = path.read_text(encoding="utf-8")
        new = in_page(text, page)
        if new != text:
            path.write_text(new, encoding="utf-8")


if __name__ == "__main__":
    main()
