#!/usr/bin/env python3
"""Brings the repository's own definitions and lemmas to today's spelling, once, after the kit's port.py.

Words of specs/ and proofs/ that are joined by dashes get underscores; a fact or a record, CamelCase. In a lemma a dash stays
where it joins two names (`length-cells`: `length` and `cells` both are). Generated goal names, functions of src/, strings
and what the library defines keep their names. Prints each renaming, and the names that would fall together.

usage: python3 tools/respell.py [--dry]      at the top of the repository
"""
import os
import re
import sys

NAME = r"[A-Za-z][A-Za-z0-9_']*(?:-[A-Za-z0-9_']+)+"
START, END = r"(?<![\w'·-])", r"(?![\w'·-])"
# words of the library that a lemma's name may join by a dash
STD = set("length set get_or take drop map append reverse nth sum min max not and or count cond all any slice_index slice_set".split())


def files(*endings):
    for folder, dirs, names in os.walk("crates"):
        dirs[:] = sorted(d for d in dirs if d != "out")
        for f in sorted(names):
            if f.endswith(endings):
                yield os.path.join(folder, f)


def read(p):
    with open(p, encoding="utf-8") as f:
        return f.read()


def is_answer(p):
    return os.path.basename(p) in ("Answers.antt", "Invariants.antt", "Proof.antt")


def main(dry):
    texts = {p: read(p) for p in files(".antt", ".rt", ".edit")}
    defined, lemmas, facts, simple = {}, set(), set(), set()
    for p, t in texts.items():
        if not p.endswith(".antt"):
            continue
        code = re.sub(r"--.*", "", t)
        answer = is_answer(p)
        for m in re.finditer(r"(?m)^([ ]*)((?:abbrev |unfoldable |pub |record |data )*)([A-Za-z][A-Za-z0-9_'-]*)((?:[ ]*[({][^:)}]*:[^)}]*[)}])*)[ ]*:[ ](.*)$", code):
            indent, marks, name, _, kind = m.groups()
            if answer and (indent or marks.startswith(("pub", "abbrev"))):
                continue
            if "-" not in name:
                if not indent and "/specs/" in p and not answer:
                    simple.add(name)
                continue
            defined.setdefault(name, set()).add(p)
            if not indent and ("record" in marks or "data" in marks or re.search(r"Type 0( where)?\s*$", kind)):
                facts.add(name)
            elif not indent and "abbrev" not in marks and "unfoldable" not in marks:
                lemmas.add(name)
        # local names: of a λ, a let, a pattern, a typed argument
        for m in re.finditer(r"(?:λ |let |[({])((?:" + NAME + r"|[A-Za-z_][A-Za-z0-9_']*)(?: (?:" + NAME + r"|[A-Za-z_][A-Za-z0-9_']*))*)(?= [:=]|\.)", code):
            for n in m.group(1).split():
                if "-" in n and (m.group(0)[0] != "{" or " : " in code[m.end() : m.end() + 4]):
                    defined.setdefault(n, set()).add(p)
        # arguments of a clause
        if not answer:
            for l in code.splitlines():
                head = l.split(" = ")[0].split()
                if l[:1].isalpha() and " = " in l and " : " not in l.split(" = ")[0] and len(head) > 1:
                    for n in head[1:]:
                        if re.fullmatch(NAME, n) and n not in defined:
                            defined.setdefault(n, set()).add(p)
    for p, t in texts.items():
        if p.endswith(".rt"):
            for m in re.finditer(r"\bfn ([a-z_0-9]+)", t):
                simple.add(m.group(1))
    taken = set()
    for p, t in texts.items():
        if p.endswith((".antt", ".rt")):
            for m in re.finditer(r"use Rattle\.std[\w.'-]*\.\{([^}]*)\}|use (?:borrow|denote|mathlib|native|lib|mir|Prim)[\w.'-]*\.\{([^}]*)\}", t):
                taken.update(x.strip() for x in (m.group(1) or m.group(2)).split(","))
    names = simple | {n.replace("-", "_") for n in defined if n not in lemmas}
    new = {}
    for n in sorted(defined):
        if n in taken:
            print(f"kept, the library has it: {n}")
            continue
        parts = [{"isSome": "is_some"}.get(x, x) for x in n.split("-")]
        if n in facts and n[0].isupper():
            new[n] = "".join(x[0].upper() + x[1:] for x in parts)
            continue
        if n not in lemmas:
            new[n] = "_".join(parts)
            continue
        known = names | STD
        best = "_".join(parts)
        for k in range(1, len(parts)):
            a, b = "_".join(parts[:k]), "_".join(parts[k:])
            if a in known and b in known:
                best = a + "-" + b
                break
        new[n] = best
    new = {a: b for a, b in new.items() if a != b}
    for a, b in sorted(new.items()):
        print(f"{a} -> {b}")
    turned = {}
    if new:
        pattern = re.compile(START + "(" + "|".join(re.escape(n) for n in sorted(new, key=len, reverse=True)) + ")" + END)
        for p, t in texts.items():
            before = t
            have = set(re.findall(START + r"[A-Za-z][\w'-]*" + END, re.sub(r"--.*|//.*", "", t)))
            for a in sorted(set(pattern.findall(t))):
                if new[a] in have and p.endswith(".antt") and not is_answer(p):
                    print(f"together? {p}: {a} and {new[a]}")
            if p.endswith(".rt"):
                out = []
                for l in t.splitlines(keepends=True):
                    code, sep, note = l.partition("//")
                    bits = re.split(r'("(?:[^"\\]|\\.)*")', code)
                    out.append("".join(b if b.startswith('"') else pattern.sub(lambda m: new[m.group(1)], b) for b in bits) + sep + note)
                t = "".join(out)
            else:
                t = pattern.sub(lambda m: new[m.group(1)], t)
            if t != before:
                turned[p] = t
        for folder, _, fs in os.walk("docs"):
            for f in fs:
                p = os.path.join(folder, f)
                if f == "PORT.md" or not f.endswith(".md"):
                    continue
                before = read(p)
                t = re.sub(r"`[^`\n]*`", lambda m: pattern.sub(lambda k: new[k.group(1)], m.group(0)), before)
                if t != before:
                    turned[p] = t
    print(f"{len(new)} names, {len(turned)} files")
    if not dry:
        for p, t in turned.items():
            with open(p, "w", encoding="utf-8") as f:
                f.write(t)


main("--dry" in sys.argv)
