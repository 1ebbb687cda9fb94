#!/usr/bin/env python3
"""Counts the places that docs/DESIGN-PASS.md speaks of, point by point: `tools/design_places.py [COMMIT] [-v]`, of the checkout or of a commit.

It goes by the text of crates/*/src and crates/*/proofs; -v lists each place.
"""
import collections
import re
import subprocess
import sys


def files(commit):
    """(path, text) of each source and answer file."""
    if commit:
        names = subprocess.run(["git", "ls-tree", "-r", "--name-only", commit, "crates"], capture_output=True, text=True, check=True).stdout.split("\n")
        read = lambda n: subprocess.run(["git", "show", f"{commit}:{n}"], capture_output=True, text=True, check=True).stdout
    else:
        names = subprocess.run(["git", "ls-files", "crates"], capture_output=True, text=True, check=True).stdout.split("\n")
        read = lambda n: open(n, encoding="utf-8").read()
    wanted = re.compile(r"crates/[a-z_]+/(src/.*\.rt|proofs/.*/(Answers|Invariants)\.antt)$")
    for n in names:
        if wanted.match(n):
            try:
                yield n, read(n)
            except FileNotFoundError:
                pass


def bare(text):
    """Without comments and contract lines."""
    return "\n".join(l for l in text.split("\n") if not re.match(r"\s*(//|ghost |requires|ensures|#)", l))


FN = r"\s*(pub(\([a-z]+\))? )?(unsafe )?(extern \"C\" )?fn (?P<name>\w+)"


def functions(text):
    out, lines = [], text.split("\n")
    for i, l in enumerate(lines):
        m = re.match(FN, l)
        if m and not l.rstrip().endswith(";"):
            indent = re.match(r"\s*", l).group()
            j = i
            while j < len(lines) - 1 and lines[j] != indent + "}":
                j += 1
            out.append((m.group("name"), "\n".join(lines[i : j + 1])))
    return out


def parameters(fn):
    depth, start, head = 0, re.search(r"\bfn \w+(<.*?>)?\(", fn, re.S).end() - 1, ""
    for c in fn[start:]:
        depth += c in "(<[" or 0
        depth -= c in ")>]" or 0
        if depth == 0:
            break
        head += c
    parts, depth, part = [], 0, ""
    for c in head[1:]:
        depth += c in "(<["
        depth -= c in ")>]"
        if c == "," and depth == 0:
            parts.append(part.strip())
            part = ""
        else:
            part += c
    return [p for p in parts + [part.strip()] if p and p not in ("self", "&self", "&mut self")]


def shape(fn):
    """The tokens of a function with each name of its own and each number replaced."""
    keep = {"if", "else", "return", "let", "mut", "while", "for", "in", "match", "fn", "as", "ref", "true", "false", "self"}
    text = "\n".join(l for l in fn.split("\n") if not re.match(r"\s*(//|requires|ensures|#)", l))
    tokens = re.findall(r"[A-Za-z_]\w*|\d\w*|b?\"[^\"]*\"|\S", text)
    return tuple(t if t in keep or not re.match(r"[\w\"]|b\"", t) else "_" for t in tokens)


def count(commit):
    places = collections.defaultdict(list)
    shapes = collections.defaultdict(list)
    facts = collections.defaultdict(list)
    for path, text in files(commit):
        if path.endswith(".antt"):
            if path.endswith("Answers.antt"):
                answers = re.findall(r"^pub ([\w-]+) : goal\.", text, re.M)
                places["8 answers in proof files"] += [f"{path} {a}" for a in answers]
                lets = [l.strip() for l in text.split("\n") if re.match(r"\s*let .{30,}", l)]
                again = sum(n - 1 for n in collections.Counter(lets).values() if n > 1)
                places["8 lines `let` that repeat one of the same file"] += [path] * again
            continue
        code = bare(text)
        for m in re.finditer(r"^\s*(?:pub(?:\([a-z]+\))? )?enum (\w+)(?:<[^>]*>)? \{\n(.*?)\n\s*\}", code, re.M | re.S):
            if len([l for l in m.group(2).split("\n") if l.strip().endswith(",")]) == 2:
                places["1 own enums of two variants"].append(f"{path} {m.group(1)}")
        for m in re.finditer(r"^\s*(?:pub(?:\([a-z]+\))? )?struct (\w+)(?:<[^>]*>)? \{\n(.*?)\n\s*\}", code, re.M | re.S):
            if ": bool," in m.group(2) and len(m.group(2).split("\n")) < 4:
                places["1 flags beside a value"].append(f"{path} {m.group(1)}")
        for i, l in enumerate(code.split("\n")):
            for m in re.finditer(r"Refused\(\d+\)|\bNo\(\d+\)|refusal: \d+|refused_at\(\d+|, (3|5|13), |return (2|3|4|5|15|16);|else \{ [45] \}|=> 15,|=> 3,|number (!=|==) [02]\b", l):
                if "/table_cases/" not in path and "/classes/" not in path:
                    places["1 refusals by number"].append(f"{path} {m.group()}")
            for m in re.finditer(r"kind (!=|==) \d+|match kind\b|match \w+\.kind\b|logic (!=|==) 0|class( / \d)? % 2|match number\b", l):
                places["1 kinds and classes by number"].append(f"{path} {m.group()}")
            if re.match(r"\s*while ", l):
                places["3 `while` loops"].append(f"{path} {l.strip()}")
            if re.match(r"\s*for \w+ in [\w:()]+\.\.", l):
                places["3 `for` over a range"].append(f"{path} {l.strip()}")
        for name, fn in functions(text):
            inner = bare(fn)
            if len(shape(fn)) > 30:
                shapes[shape(fn)].append(f"{path} {name}")
            body = inner[inner.index("{") :] if "{" in inner else ""
            if re.match(r"\{\n\s*\w+(\.\w+)? as \w+\n\s*\}$", body):
                places["4 conversions by a function around `as`"].append(f"{path} {name}")
            if len(re.findall(r"if [\w.]+(\[\w+\])? != [\w.]+(\[\w+\])? \{", body)) > 1 or re.search(r"if \w+\[\w+\] != \w+\[\w+\] \{", body):
                places["4 equality by hand"].append(f"{path} {name}")
            if len(re.findall(r"(\w+): \w+\.\1,", body)) > 2:
                places["4 copies field by field"].append(f"{path} {name}")
            if len(parameters(inner)) > 5:
                places["5 functions of more than five parameters"].append(f"{path} {name}")
            for m in re.finditer(r"requires(?: \w+)? \{ (.*) \}", fn):
                for part in m.group(1).split(" × "):
                    facts[part.strip("() ")].append(f"{path} {name}")
            if re.search(r"out: &mut \[u8\],\s*at: usize", inner):
                places["6 an output and the place in it as two parameters"].append(f"{path} {name}")
            if re.search(r"clauses: &(mut )?\[u16; CLAUSES\],\s*ats: &(mut )?\[u16; CLAUSES\]", inner):
                places["6 parallel arrays as two parameters"].append(f"{path} {name}")
            arms = collections.Counter(re.findall(r"=> (.+?),?$", body, re.M))
            for right, n in arms.items():
                if n > 2:
                    places["7 arms of one `match` with the same answer, three or more"].append(f"{path} {name}: {n} x {right}")
            if len(re.findall(r"further\(text, b\"", body)) > 3:
                places["7 a table written as calls"].append(f"{path} {name}")
    for group in shapes.values():
        if len(group) > 1:
            places["2 functions that differ in names and numbers alone"] += group
    for fact, where in facts.items():
        if len(where) > 2:
            places["5 facts in three contracts or more"] += [f"{fact}: {w}" for w in where]
    return places


def main():
    verbose = "-v" in sys.argv
    names = [a for a in sys.argv[1:] if a != "-v"]
    found = count(names[0] if names else None)
    for key in sorted(found):
        print(f"{key}: {len(found[key])}")
        if verbose:
            for place in found[key]:
                print(f"    {place}")


main()
