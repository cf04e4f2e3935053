#!/usr/bin/env python3
"""Brings the definitions and lemmas of specs/ and proofs/ to today's spelling: words in snake case, types and modules in camel case.

Run once at the top, right after port.py of the toolchain. It renames by token in the sources' clauses and comments, in specs/, proofs/,
must-fail/, README and docs/. Names that the toolchain's library also has keep their spelling. A definition whose new name is that of a
function of src/ ends in `_lem`; where two names fall together the lemma ends in `_holds`.
"""
import collections
import os
import re
import sys

CRATES = "crates"
USE = re.compile(r"(?:ghost )?use ([^\s.{;]+(?:\.[^\s.{;]+)*)\.\{([^}]*)\}", re.S)
SIGNATURE = re.compile(r"^\s*(?:(?:abbrev|unfoldable|pub) )*([^\s:(){}]+(?: [^\s:(){}]+)*?) :(?:$|\s)")
TOKEN = re.compile(r"[A-Za-z_][A-Za-z0-9_'′₀-₉]*(?:-[A-Za-z0-9_'′₀-₉]+)*")
KEYWORDS = {"record", "data", "use", "module", "abbrev", "pub", "infixl", "infixr"}
# Definitions that a script before this one gave a name that now means two things, and lemmas that fall on a definition.
BY_HAND = {
    "columns_of": "columns_of_holds",
    "told_in": "told_in_holds",
    "all-below": "all_below_holds",
    "check-right": "check_right_holds",
    "class-of": "class_of_holds",
    "entry-at": "entry_at_holds",
    "kind-of": "kind_of_holds",
    "length-right": "length_right_holds",
    "marks-right": "marks_right_holds",
    "number-left": "number_left_holds",
    "partner-at": "partner_at_holds",
    "places-right": "places_right_holds",
    "put-refusal": "put_refusal_text",
    "record-at": "record_at_holds",
    "rule-names": "rule_names_hold",
    "atom-names": "atom_names_hold",
    "term-names": "term_names_hold",
}


def files(ends):
    for folder, dirs, names in os.walk(CRATES):
        dirs[:] = sorted(d for d in dirs if d != "out")
        for name in sorted(names):
            if name.endswith(ends):
                yield os.path.join(folder, name)


def read(path):
    with open(path, encoding="utf-8") as f:
        return f.read()


def of_the_library():
    """Names that some file imports from outside this repository."""
    own = set(os.listdir(CRATES))
    found = set()
    for path in files((".antt", ".rt")):
        for m in USE.finditer(read(path)):
            parts = m.group(1).split(".")
            if not (parts[0] == "Rattle" and len(parts) > 1 and parts[1] in own):
                found |= {n.strip().split(" as ")[0].strip() for n in m.group(2).split(",")}
    return found


def defined():
    """Names that a file of specs/ or proofs/ declares, with their files; proofs of functions aside."""
    found = collections.defaultdict(set)
    for path in files((".antt",)):
        if path.count(os.sep) != 3:
            continue
        for line in read(path).splitlines():
            m = None if line.lstrip().startswith("--") else SIGNATURE.match(line)
            for name in m.group(1).split() if m else ():
                if name not in KEYWORDS:
                    found[name].add(path)
    return found


def snake(name):
    name = name.replace("-", "_")
    name = re.sub(r"([a-z0-9'])([A-Z])", lambda m: m.group(1) + "_" + m.group(2).lower(), name)
    return name[0].lower() + name[1:]


def renamings():
    functions = {f for path in files((".rt",)) for f in re.findall(r"\bfn (\w+)", read(path))}
    names = defined()
    library = of_the_library()
    new = {}
    for name in sorted(names):
        if name in BY_HAND:
            new[name] = BY_HAND[name]
        elif name not in library and ("-" in name or (name[0].islower() and re.search(r"[A-Z]", name))):
            to = snake(name)
            new[name] = to + "_lem" if to in functions else to
    return new, names, library


def main():
    new, names, library = renamings()
    back = collections.defaultdict(set)
    for a, b in new.items():
        back[b].add(a)
    for b, them in sorted(back.items()):
        others = them | ({b} if b in names and b not in new else set())
        if len(others) > 1 or b in library:
            print("look:", b, {a: sorted(names[a]) for a in others})
    today = {new.get(name, name) for name in names}
    pages = ["README.md"] + [os.path.join(d, f) for d, _, fs in os.walk("docs") for f in fs if f.endswith(".md")]
    for path in [*files((".antt", ".rt", ".edit")), *sorted(pages)]:
        old = read(path)
        page = path.endswith(".md")
        outside = path.endswith((".md", ".edit"))

        def turn(m):
            a = m.group(0)
            if page and not re.search(r"-|[A-Z]", a):
                return a  # in a page only what cannot be a plain word
            if a not in new and outside and (a[0].islower() or "-" in a) and snake(a) in today and a not in library:
                return snake(a)  # a name that a script before this one turned, where that script does not look
            return new.get(a, a)

        if page:
            text = re.sub(r"`[^`\n]*`", lambda q: TOKEN.sub(turn, q.group(0)), old)
        else:
            text = TOKEN.sub(turn, old)
        if text != old:
            with open(path, "w", encoding="utf-8") as f:
                f.write(text)
    print(len(new), "names")


if __name__ == "__main__":
    sys.exit(main())
