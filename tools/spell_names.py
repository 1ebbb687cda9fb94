#!/usr/bin/env python3
"""Spells the repository's own names of specs/ and proofs/ as today's Rattle does: words in snake case, types in camel case.

usage: python3 tools/spell_names.py [--check]      at the top of the repository, once, after port.py

It reads the names that crates/*/specs and crates/*/proofs declare (definitions, lemmas, fields, constructors), and rewrites them
in the .antt files, and in the clauses, ghost lines and comments of the .rt files. A name with a dash or a hump gets underscores; a
type with a dash loses it. A lemma that would then have the name of a definition gets `_lem`. Functions of src/, strings, and the
names that Rattle makes stay. With --check nothing is written. It prints what falls together or meets a name that a file had.
"""
import collections
import glob
import re
import sys

NAME = r'[^\s(){}.;,@"«»]+'
TOKEN = re.compile(rf'"(?:[^"\\\n]|\\.)*"|--[^\n]*|{NAME}|.|\n', re.S)
HEAD = re.compile(rf"^(?:(?:pub|abbrev|unfoldable|axiom|package)\s+)*({NAME})(?:\s*\{{[^{{}}]*\}})*\s*:(?:\s|$)")
TYPE = re.compile(rf"^(?:(?:pub|abbrev|unfoldable|package)\s+)*(data|record)\s+({NAME})")
MEMBER = re.compile(rf"^\s+(?:pub\s+)?((?:{NAME}\s+)*{NAME})\s*:(?:\s|$)")
INNER = re.compile(rf"^\s+(?:(?:pub|abbrev|unfoldable)\s+)*({NAME})(?:\s*\{{[^{{}}]*\}})*\s*:(?:\s|$)")

# Lemmas that had their present spelling before this script, and would have the name of a definition now.
LEMMAS = {"has_room", "all_digits", "is_digit", "same_row", "step_row", "by_row", "on_and", "on_or", "with_fact", "row_put", "head_read", "in_order",
          "part_refused", "section_refused", "start_refused"}
# Definitions that are facts, and so are spelled as types.
# (`room` of machine became `Room` by hand: variables have that name too.)
FACTS = {"fitsIn": "FitsIn"}


def own_files():
    return sorted(p for p in glob.glob("crates/**/*.antt", recursive=True) if "/out/" not in p)


def declared():
    """The names that are declared: words, types, fields and constructors."""
    words, types, members = set(), set(), set()
    for path in own_files():
        if "/proofs/" in path and path.endswith(("/Proof.antt", "/Answers.antt", "/Invariants.antt")):
            continue
        inside = False
        for line in open(path, encoding="utf-8"):
            line = line.rstrip("\n")
            if line.lstrip().startswith("--"):
                continue
            it = TYPE.match(line)
            if it:
                types.add(it[2])
                inside = True
            elif line and not line[0].isspace():
                inside = False
                it = HEAD.match(line)
                if it:
                    words.add(it[1])
            else:
                it = MEMBER.match(line) if inside else INNER.match(line)
                if it:
                    (members if inside else words).update(n for n in it[1].split() if n not in ("pub", "abbrev", "unfoldable"))
    return words, types, members


def in_snake_case(name):
    return re.sub(r"(?<=[a-z0-9])[A-Z]", lambda it: "_" + it[0].lower(), name).replace("-", "_")


def in_camel_case(name):
    first, *more = name.split("-")
    return first + "".join(it[:1].upper() + it[1:] for it in more)


def table():
    words, types, members = declared()
    turned = {n: in_camel_case(n) for n in types if "-" in n}
    for n in words | members:
        if not n[0].isupper() and in_snake_case(n) != n:
            turned[n] = in_snake_case(n)
    turned.update({old: new for old, new in FACTS.items() if old in words})
    everything = words | types | members
    groups = collections.defaultdict(set)
    for n in everything:
        groups[turned.get(n, n)].add(n)
    for new, olds in sorted(groups.items()):
        if len(olds) == 1:
            continue
        lemmas = {n for n in olds if "-" in n} or (olds & LEMMAS)
        for n in lemmas:
            turned[n] = new + "_lem"
        if len(olds - lemmas) != 1:
            print("fall together:", new, sorted(olds))
    return turned, members


def spelled_antt(text, turned, members, path, said):
    out, before = [], ""
    tokens = TOKEN.findall(text)
    words = {t for t in tokens if not t.startswith(("--", '"'))}
    for old in words & set(turned):
        if turned[old] in words and turned[old] not in turned:
            said.append(f"{path}: {old} meets {turned[old]}")
    for i, t in enumerate(tokens):
        if t.startswith("--"):
            out.append(spelled_prose(t, turned))
        elif t in turned and (before != "." or t in members or module_path(tokens, i)):
            out.append(turned[t])
        else:
            out.append(t)
        before = t
    return "".join(out)


def module_path(tokens, i):
    """Whether the name at i stands behind the path of a module, or the last part of it, and not behind a value."""
    head = tokens[i - 2] if i >= 2 else ""
    return head[:1].isupper()


def spelled_prose(text, turned):
    """Comments: names with humps anywhere, names with dashes in code spans alone."""
    text = re.sub(r"`[^`\n]*`", lambda it: spelled_words(it[0], turned, True), text)
    return spelled_words(text, turned, False)


def spelled_words(text, turned, dashes):
    def one(it):
        name = it[0]
        if name in turned and re.search("[a-z0-9][A-Z]|-" if dashes else "[a-z0-9][A-Z]", name):
            return turned[name]
        return name

    return re.sub(r"[A-Za-z_][\w'-]*", one, text)


def spelled_rt(text, turned, members, path, said):
    out = []
    for part in re.split(r"(//[^\n]*)", text):
        if part.startswith("//"):
            out.append(spelled_prose(part, turned))
        else:
            out.append(re.sub(r'"(?:[^"\\\n]|\\.)*"|(?<![\w\'])[A-Za-z_][\w\'-]*', lambda it: turned.get(it[0], it[0]) if re.search("[a-z0-9][A-Z]|-", it[0]) else it[0], part))
    return "".join(out)


def main():
    turned, members = table()
    said, changed = [], 0
    paths = own_files() + sorted(p for p in glob.glob("crates/**/*.rt", recursive=True) if "/out/" not in p)
    for path in paths:
        text = open(path, encoding="utf-8").read()
        new = (spelled_antt if path.endswith(".antt") else spelled_rt)(text, turned, members, path, said)
        if new != text:
            changed += 1
            if "--check" not in sys.argv:
                open(path, "w", encoding="utf-8").write(new)
    print("\n".join(said))
    print(f"{len(turned)} names, {changed} files")


if __name__ == "__main__":
    main()
