#!/usr/bin/env python3
"""Spells the definitions and lemmas of this repository as today's Rattle spells names: words in snake case, types in camel case, and a dash only
where it joins two names. Run it once, behind the kit's port.py, at the top of the repository.

A name that Rattle source declares keeps its spelling. Prints each name that it turns, and stops where two names would fall together.
"""

import glob
import re
import sys

NAME = r"[^\s(){}.;,@\"«»]+"
DECLARED = re.compile(r"^ *((?:pattern |unfoldable |abbrev |axiom |pub |record |data |ruleset )*)(%s)(?: \{[^{}\n]*\})* [:=](?= )(.*)" % NAME, re.M)
INTO_TYPE = re.compile(r"(?:^|→ )Type [01]$")

LAWS = [f for f in glob.glob("crates/*/proofs/**/*.antt", recursive=True) if not re.search(r"/(Proof|Answers|Invariants)\.antt$", f)]
SPECS = glob.glob("crates/*/specs/**/*.antt", recursive=True)
TEXTS = (
    glob.glob("crates/**/*.antt", recursive=True)
    + glob.glob("crates/**/*.rt", recursive=True)
    + glob.glob("crates/**/*.edit", recursive=True)
    + ["README.md"]
    + glob.glob("docs/*.md")
)

# Names that would fall together with another by the rules, and what they are called instead.
APART = {
    "begins-at": "begins_at_lem",
    "decimal-in": "decimal_in_lem",
    "has-index": "has_index_lem",
    "jump-by": "jump_by_lem",
    "land-on": "land_on_lem",
    "role-of": "role_of_lem",
    "walk_end": "walk_end_lem",
    "walk_from": "walk_from_stack",
    "popRoom": "pop_fits",
    "pushRoom": "push_fits",
    "cpuType": "cpu_type_of",
}

# Words that name something of the library, so that a dash may join them to a name of ours.
LIBRARY = {"length", "take", "drop", "reverse", "append", "map", "cond", "leb", "ltb", "set", "replicate"}


def text_of(path):
    with open(path, encoding="utf-8") as f:
        return f.read()


def declared(paths):
    found = {}
    for path in paths:
        for m in DECLARED.finditer(text_of(path)):
            found.setdefault(m.group(2), m.group(3).strip())
    return found


def snake(name):
    return re.sub(r"(?<=[a-z0-9])([A-Z])", lambda m: "_" + m.group(1).lower(), name)


def camel(name):
    return name[0].upper() + name[1:]


def joined(name, names):
    parts, groups, at = name.split("-"), [], 0
    while at < len(parts):
        to = next((k for k in range(len(parts), at, -1) if "_".join(parts[at:k]) in names), at + 1)
        groups.append("_".join(parts[at:to]))
        at = to
    out = groups[0]
    for left, right in zip(groups, groups[1:]):
        out += ("-" if left in names and right in names else "_") + right
    return out


def table():
    specs, laws = declared(SPECS), declared(LAWS)
    proofs = declared([f for f in glob.glob("crates/*/proofs/**/Proof.antt", recursive=True)])
    turned = dict(APART)
    for name, kind in {**proofs, **laws, **specs}.items():
        if name in APART:
            continue
        if INTO_TYPE.search(kind) and re.fullmatch(r"[a-z][A-Za-z0-9]*", name) and re.search("[A-Z]", name):
            turned[name] = camel(name)
        elif re.fullmatch(r"[a-z][A-Za-z0-9]*", name) and re.search("[A-Z]", name):
            turned[name] = snake(name)
    names = {turned.get(n, n) for n in specs if "-" not in n} | LIBRARY
    for name in {**laws, **specs}:
        if name not in APART and "-" in name.strip("-") and re.fullmatch(r"[a-z][a-z0-9_'-]*", name):
            to = joined(name, names)
            if to != name:
                turned[name] = to
    return turned, {**proofs, **laws, **specs}


def main():
    turned, known = table()
    by_new = {}
    for old, new in sorted(turned.items()):
        if new in known and new not in turned:
            print(f"together: {old} -> {new}, which is declared already")
        if new in by_new:
            print(f"together: {old} and {by_new[new]} -> {new}")
        by_new[new] = old
    word = re.compile(r"(?<![\w'-])(%s)(?![\w'-])" % "|".join(re.escape(n) for n in sorted(turned, key=len, reverse=True)))
    for path in TEXTS:
        old = text_of(path)
        new = word.sub(lambda m: turned[m.group(1)], old)
        if path.endswith("/Proof.antt"):
            f = path.split("/")[-2]
            new = re.sub(r"(?<![\w'-])%s-spec(?![\w'-])" % re.escape(f.lstrip("+").replace("_", "-")), f + "_spec", new)
        if new != old:
            with open(path, "w", encoding="utf-8") as out:
                out.write(new)
    for old, new in sorted(turned.items()):
        print(f"{old}\t{new}")


if __name__ == "__main__":
    sys.exit(main())
