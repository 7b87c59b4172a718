#!/usr/bin/env python3
"""Brings the repository's own definitions and lemmas to today's spelling, after port.py: run once at the top.

Words are in snake case; what gives a type, as a fact does, is in camel case and keeps its capital in the names of its lemmas. A dash stays
only where it joins a type and a name. Names of Rattle source keep theirs.
"""
import os
import re
import sys

SEPARATE = re.compile(r"([\s(){}\[\],;.\"`:|]+)")
TYPE = re.compile(r"^Type( 0| 1| \d| \(.*\))?( where)?$")
# Names that would fall together with a definition's: a lemma gets `_lem`, a field other words.
APART = {
    "add-c": "c_added",
    "addedOf": "added_said",
    "answer-of": "answer_of_lem",
    "empty-book": "begun_book",
    "bookBytes": "bytes_of_book",
    "from-order": "from_the_order",
    "goesOn": "may_go_on",
    "is-record": "is_a_record",
    "is-unit": "is_a_unit",
    "shaped-at": "shaped_at_lem",
    "size-x": "x_size",
    "size-y": "y_size",
    "size-z": "z_size",
    "basis-of": "basis_of_lem",
    "body-from": "body_from_lem",
    "body_bytes": "body_bytes_lem",
    "digits_of": "digits_of_lem",
    "has-top": "has_top_lem",
    "is-good": "is_good_lem",
    "list_at": "list_at_lem",
    "meaning-of": "meaning_of_lem",
    "new-book": "new_book_lem",
    "new-length": "new_length_lem",
    "root-r": "root_r_lem",
    "root-w": "root_w_lem",
    "six-rows": "the_six_rows",
    "square-of": "square_of_lem",
}


def files(root, ends):
    for folder, dirs, names in os.walk(os.path.join(root, "crates")):
        dirs[:] = sorted(d for d in dirs if d != "out")
        for name in sorted(names):
            if name.endswith(ends):
                yield os.path.join(folder, name)


def text(path):
    with open(path, encoding="utf-8") as f:
        return f.read()


def declared(root):
    """name -> set of kinds: type, fact, word, lemma, field"""
    kinds = {}
    for path in files(root, ".antt"):
        hand = path.endswith("Proof.antt")
        record = False
        for line in text(path).split("\n"):
            m = re.match(r"^(?:(?:abbrev|unfoldable|pub)\s+)*(record|data)\s+(\S+)", line)
            if m:
                record = True
                kinds.setdefault(m.group(2), set()).add("type")
                continue
            m = re.match(r"^( *)((?:(?:abbrev|unfoldable|pub)\s+)*)([^\s:(){}.,;=|↦\[\]]+)\s*:(?:\s+(.*))?$", line)
            if not m:
                if line and not line[0].isspace():
                    record = False
                continue
            inner, marks, name, rest = m.group(1), m.group(2), m.group(3), m.group(4) or ""
            if not inner:
                record = False
            if hand and rest.startswith("tie."):
                continue
            if name in ("let", "in", "|", "open"):
                continue
            if TYPE.match(rest.split("→")[-1].strip()):
                kind = "fact"
            elif inner and record:
                kind = "field"
            elif "abbrev" in marks or "unfoldable" in marks:
                kind = "word"
            else:
                kind = "lemma"
            kinds.setdefault(name, set()).add(kind)
        for m in re.finditer(r"(?m)^  \| ?([^\s:|]+) :", text(path)):
            kinds.setdefault(m.group(1), set()).add("field")
    return kinds


def foreign(root):
    """Names that files take from the library or from what Rattle makes of the source."""
    found = set()
    for path in files(root, (".antt", ".rt")):
        for m in re.finditer(r"(?m)^(?:ghost )?use ([\w.·'-]+)\.\{([^}]*)\}", text(path)):
            module = m.group(1)
            own = module.startswith("Rattle.") and not module.startswith("Rattle.std.") and ".declared" not in module
            if not own:
                found |= {n.strip().split(" as ")[0] for n in m.group(2).split(",")}
    return found


def snake(part):
    part = re.sub(r"(?<=[a-z0-9'])(?=[A-Z])", "_", part)
    return part.lower()


def spelled(name, kinds, memo):
    if name in memo:
        return memo[name]
    memo[name] = name
    if not name[:1].isalpha() or not name[:1].isascii() and "-" not in name:
        return name
    if kinds.get(name, set()) & {"fact"} and name[0].islower() and "-" not in name:
        memo[name] = name[0].upper() + name[1:]
        return memo[name]
    parts = name.split("-")
    new = []
    for p in parts:
        fact = p[:1].upper() + p[1:]
        if len(parts) > 1 and p[:2] == "is" and p[2:3].isupper() and fact in kinds:
            new.append(fact)
        elif len(parts) > 1 and p in kinds and p != name:
            new.append(spelled(p, kinds, memo))
        elif p[:1].isupper():
            new.append(p if kinds.get(p) else snake(p))
        else:
            new.append(snake(p))
    out = new[0]
    for a, b in zip(new, new[1:]):
        joins = a and b and any(kinds.get(x, set()) & {"type", "fact"} and x[:1].isupper() and len(x) > 2 for x in (a, b))
        out += ("-" if joins else "_") + b
    memo[name] = out
    return out


def table(root):
    kinds = declared(root)
    keep = foreign(root)
    memo = {}
    names = {n: spelled(n, kinds, memo) for n in sorted(kinds) if n not in keep}
    names = {a: b for a, b in names.items() if a != b} | APART
    return kinds, keep, names


def fallen(kinds, keep, names):
    """Names that would fall together, or on a name that is there."""
    by = {}
    for n in kinds:
        by.setdefault(names.get(n, n), set()).add(n)
    for n in keep:
        by.setdefault(n, set()).add(n)
    return {new: old for new, old in by.items() if len(old) > 1}


def turn(root, names):
    for path in files(root, (".antt", ".rt", ".edit")):
        old = text(path)
        here = {a: b for a, b in names.items() if path.endswith(".antt") or "_" not in a}
        new = "".join(here.get(t, t) for t in SEPARATE.split(old))
        if new != old:
            with open(path, "w", encoding="utf-8") as f:
                f.write(new)
    docs = os.path.join(root, "docs")
    pages = [os.path.join(root, "README.md")] + [os.path.join(docs, n) for n in sorted(os.listdir(docs)) if n.endswith(".md") and n != "CHANGES.md"]
    for path in pages:
        old = text(path)
        new = re.sub(r"`[^`\n]+`", lambda m: "".join(names.get(t, t) for t in SEPARATE.split(m.group(0))), old)
        if new != old:
            with open(path, "w", encoding="utf-8") as f:
                f.write(new)


def main():
    root = sys.argv[1] if len(sys.argv) > 1 else "."
    kinds, keep, names = table(root)
    bad = fallen(kinds, keep, names)
    for new, old in sorted(bad.items()):
        print("together:", new, sorted(old))
    if bad:
        sys.exit(1)
    if "--show" in sys.argv:
        for a, b in sorted(names.items()):
            print(a, b)
        return
    turn(root, names)
    print(len(names), "names")


if __name__ == "__main__":
    main()
