#!/usr/bin/env python3
"""Spells the names that this repository's own definitions, lemmas and records declare as Rattle spells words: in snake case.

usage: tools/respell.py [FOLDER]     once, after the toolchain's own respelling; FOLDER: the top of a checkout, else this one

A name turns if a text under crates/*/specs or crates/*/proofs/*.antt declares or binds it and it has a dash or a capital behind a small
letter: `labelOf` and `label-of` become `label_of`. It turns in every text of a crate, in the clauses and `ghost use` items of the
sources, in wrong programs and in code spans of pages. A name that a file takes from a library stays in that file; so do names that the
toolchain makes for a function's proof, strings, the sources' own names, and prose. Two names that would fall together are told, and
nothing is written.
"""

import collections
import os
import re
import sys

TOKEN = re.compile(r"[^\s(){}\[\].;,@\"«»`]+")
NAME = re.compile(r"[A-Za-z_][A-Za-z0-9_]*(?:-[A-Za-z0-9_]+)*'*")
SPLIT = re.compile(r'("(?:[^"\\\n]|\\.)*"|(?:(?<=\s)|^)--[^\n]*)', re.M)
USE = re.compile(r"\buse\s+([^\s;{]+?)\.?(?:\{([^}]*)\}|(?:\s+as\s+(\S+))?)(?=[;\s]|$)")
CLAUSE = re.compile(r"ghost\s+use\b[^;]*;|(?:requires|ensures)\b[^{\n]*\{.*")
SPAN = re.compile(r"`[^`\n]+`")


def new_name(name):
    name = name.replace("-", "_")
    if name[0].islower():
        name = re.sub(r"(?<=[a-z0-9])([A-Z])", lambda m: "_" + m[1].lower(), name)
    return name


def turns(name):
    return NAME.fullmatch(name) and new_name(name) != name and ("-" in name or name[0].islower())


def texts(top, ending, folder=None):
    for home, folders, names in os.walk(os.path.join(top, folder or "")):
        folders[:] = [f for f in folders if f not in (".git", "out", "target")]
        for name in sorted(names):
            if name.endswith(ending):
                yield os.path.join(home, name)


def own(path, crates):
    parts = path.split(".")
    return parts[0] == "Rattle" and len(parts) > 1 and parts[1] in crates


def taken(text, crates):
    """The names that a text imports from a library, and the other names of libraries' modules."""
    names, heads = set(), set()
    for path, listed, alias in USE.findall(text):
        if own(path, crates):
            continue
        if listed:
            for item in listed.split(","):
                names.update(item.strip().split(" as ")[:1])
        else:
            heads.add(alias or path.split(".")[-1])
    return names, heads


def generated(path):
    """Whether a text is a proof of one function: its names are the toolchain's."""
    return re.search(r"/proofs/.+/[^/]+\.antt$", path) is not None


def code_names(text, bare=False):
    """The words of the code; bare: without those that are parts of a dotted path, as the sources' own names are."""
    for i, piece in enumerate(SPLIT.split(text)):
        if i % 2 == 0:
            for m in TOKEN.finditer(piece):
                if not bare or not (piece[m.end() : m.end() + 1] == "." or (piece[m.start() - 1 : m.start()] == "." and m.start())):
                    yield m[0]


def turn_code(text, table, stays, heads):
    def one(m):
        word = m[0]
        before = text_piece[: m.start()]
        if word in stays:
            return word
        for head in heads:
            if before.endswith(head + "."):
                return word
        return table.get(word, word)

    out = []
    for i, text_piece in enumerate(SPLIT.split(text)):
        if i % 2 == 0:
            out.append(TOKEN.sub(one, text_piece))
        else:
            out.append(SPAN.sub(lambda s: TOKEN.sub(lambda m: table.get(m[0], m[0]), s[0]), text_piece) if text_piece[0] == "-" else text_piece)
    return "".join(out)


def turn_spans(text, table):
    return SPAN.sub(lambda s: TOKEN.sub(lambda m: table.get(m[0], m[0]), s[0]), text)


# What the toolchain's own respelling left under the name of another of our words: the file's beginning, the name, what it becomes.
BEFORE = [
    ("crates/places/", "next_place", "one_place"),
    ("crates/lookup/", "next_place", "one_place"),
    ("crates/lines/proofs/Stepping", "place_after", "place_after_lem"),
    ("crates/lookup/proofs/Seeking", "place_after", "place_after_lem"),
]
# Fields of records whose plain spelling is that of a word: of another record's field, which is no matter, or of one in their own types.
FIELDS = {
    "accept-directive": "accept_directive",
    "deny-directive": "deny_directive",
    "directive-count": "directive_count",
    "exception-count": "exception_count",
    "accepting-rules": "accepting_rules_word",
    "accepting-directives": "accepting_directives_word",
    "of-accepting": "of_accepting_word",
    "of-denying": "of_denying_word",
    "front-words": "words_of_front",
}
# A function's proof that a text names for short.
ALIAS = re.compile(r"(\buse Rattle\.[\w.]+\.Reads as )(\S+)")


def prepare(top, path, text):
    home = os.path.relpath(path, top)
    for start, old, new in BEFORE:
        if home.startswith(start) and not (generated(path) and old == "place_after"):
            text = re.sub(r"(?<![\w.-])" + old + r"(?![\w-])", new, text)
    for head in {m[2] for m in ALIAS.finditer(text)}:
        call = head.replace("-", "_") + "_call"
        text = ALIAS.sub(lambda m: m[1] + (call if m[2] == head else m[2]), text)
        text = re.sub(r"(?<![\w.-])" + re.escape(head) + r"(?=\.Post)", call, text)
    return text


def main():
    args = [a for a in sys.argv[1:] if not a.startswith("--")]
    top = args[0] if args else os.path.dirname(os.path.dirname(os.path.abspath(__file__)))
    crates = set(os.listdir(os.path.join(top, "crates")))
    antt = {p: prepare(top, p, open(p, encoding="utf-8").read()) for p in texts(top, ".antt", "crates")}
    seen = collections.defaultdict(set)
    for path, text in antt.items():
        if generated(path):
            continue
        names, _ = taken(text, crates)
        for word in code_names(text):
            if word not in names and turns(word):
                seen[word].add(path)
    # names of libraries that are cited by a path are no names of ours
    table = {w: new_name(w) for w in seen}
    for path, text in antt.items():
        names, heads = taken(text, crates)
        for head in heads:
            for word in re.findall(re.escape(head) + r"\.([^\s(){}.;,]+)", text):
                if word in table and all(p == path for p in seen[word]):
                    del table[word]
    # where two would fall together, the one with a dash is a lemma beside what it speaks of, and gets a lemma's ending
    there = set()
    for path, text in antt.items():
        if not generated(path):
            there.update(code_names(text, bare=True))
    for old in sorted(table):
        if "-" in old and (table[old] in there or any(table[o] == table[old] for o in table if o != old)):
            table[old] = FIELDS.get(old, table[old] + "_lem")
    met = collections.defaultdict(set)
    for old, new in table.items():
        met[new].add(old)
        if new in there and old not in FIELDS:
            met[new].add(new)
    # a field and a word of other crates
    met.pop("asked_by", None)
    together = {new: olds for new, olds in met.items() if len(olds) > 1}
    if "--show" in sys.argv or together:
        for new, olds in sorted(together.items()):
            print("together:", new, sorted(olds), sorted(os.path.relpath(p, top) for o in olds for p in seen.get(o, ()))[:6])
    if together and "--force" not in sys.argv:
        return 1
    for path, text in antt.items():
        names, heads = taken(text, crates)
        write(path, text, turn_code(text, table, names, heads))
    for path in texts(top, ".rt", "crates"):
        text = open(path, encoding="utf-8").read()
        write(path, text, CLAUSE.sub(lambda m: turn_code(m[0], table, set(), set()), text))
    # words that are printed keep their spelling
    said = set()
    for path in texts(top, ".rt", "crates"):
        for quoted in re.findall(r'"[^"\n]*"', open(path, encoding="utf-8").read()):
            said.update(NAME.findall(quoted))
    known = set(there) | set(table.values())
    for word in said:
        table.pop(word, None)
        known.discard(new_name(word))
    for path in texts(top, ".md"):
        text = open(path, encoding="utf-8").read()
        write(path, text, SPAN.sub(lambda s: NAME.sub(lambda m: page_name(m[0], table, known), s[0]), text))
    print(len(table), "names")
    return 0


def page_name(word, table, known):
    """A name on a page: as the texts have it now, also where the toolchain turned it."""
    if word in table:
        return table[word]
    return new_name(word) if turns(word) and new_name(word) in known else word


def write(path, old, new):
    if old != new:
        with open(path, "w", encoding="utf-8") as f:
            f.write(new)


if __name__ == "__main__":
    sys.exit(main())
