#!/usr/bin/env python3
"""Brings this repository's own definitions, lemmas and labels to snake case, in one pass.

usage: python3 tools/respell.py [--list]     at the top of the checkout; --list only prints the names, old and new

It goes by the names that specs/ and the files of laws in proofs/ declare: words become snake case, types and modules
keep their capitals. A name that an imported library also has stays as it is. Functions of src/, exported names, strings,
inputs and outputs are not touched: of a .rt file only its `ghost use` lines and its clauses are read. Edits and pages
have the names turned where they stand as a whole word.
"""
import os
import re
import sys

WORD = r"[^\s(){}\[\];,:.@\"'`<>λ]"
OWN = set(os.listdir("crates"))
HEAD = re.compile(r"^(\s*)(?:abbrev |unfoldable )?(?:pub )?(?:abbrev |unfoldable )?(?:record |data |ruleset )?([^\s(){};,:.]+)(?=(?: [({].*)? :)")


def files(ext, under="crates"):
    for d, ds, fs in os.walk(under):
        ds[:] = sorted(x for x in ds if x not in ("out", ".git", "target"))
        for f in sorted(fs):
            if f.endswith(ext):
                yield os.path.join(d, f)


def snake(n):
    n = re.sub(r"(?<=[a-z0-9₁₂])-(?=[a-zA-Z0-9])", "_", n)
    n = re.sub(r"(?<=[a-z0-9])([A-Z]+)(?=[a-z0-9_'₁₂]|$)", lambda m: "_" + m.group(1).lower(), n)
    return n


def declared():
    names, imported = {}, set()
    for p in files(".antt"):
        laws = "/specs/" in p or re.match(r"crates/\w+/proofs/[^/]+\.antt$", p)
        text = open(p, encoding="utf-8").read()
        for m in re.finditer(r"^use ([\w.]+)\.\{([^}]*)\}", text, re.M):
            own = re.match(r"Rattle\.(\w+)\.", m.group(1))
            if not own or own.group(1) not in OWN:
                imported |= {w.strip() for w in m.group(2).split(",")}
        if not laws:
            continue
        for line in text.split("\n"):
            if line.lstrip().startswith(("--", "use ", "let ")):
                continue
            m = HEAD.match(line)
            if m and (m.group(1) == "" or "pub " in line or re.match(r"\s+[^ ]+ :", line)):
                names.setdefault(m.group(2), set()).add(p)
    return names, imported


def mapping():
    names, imported = declared()
    to, kept = {}, []
    # definitions, in camel case, come before lemmas, whose words had dashes
    for n in sorted(names, key=lambda n: ("-" in n, n)):
        new = snake(n)
        if n[0].isupper() or new == n or "-" not in n and not re.search("[A-Z]", n):
            continue
        if n in imported:
            kept.append((n, "a library's"))
            continue
        taken = lambda w: w in names or w in imported or w in to.values()
        if taken(new) and "-" in n:
            new += "_lem"
        if taken(new):
            kept.append((n, "falls together with " + new))
            continue
        to[n] = new
    return to, kept


def main(argv):
    # a lemma that would take the name of the definition unsharedOf
    p = "crates/pair/proofs/ReasonLaws.antt"
    old = open(p, encoding="utf-8").read()
    if "unsharedOf" in open("crates/pair_judgement/specs/Reason.antt", encoding="utf-8").read():
        open(p, "w", encoding="utf-8").write(re.sub(r"(?<![\w-])unshared_of(?![\w-])", "unshared_of_lem", old))
    to, kept = mapping()
    for n, why in kept:
        print("kept:", n, "-", why)
    if argv[:1] == ["--list"]:
        for n in to:
            print(n, "->", to[n])
        return
    names = "|".join(re.escape(n) for n in sorted(to, key=len, reverse=True))
    # a whole word: no letter, digit, dash, underscore or mark of a name beside it
    word = re.compile(r"(?<![\w\-'₁₂?⊎])(" + names + r")(?![\w'₁₂?]|-(?=[\w]))")
    turn = lambda t: word.sub(lambda m: to[m.group(1)], t)
    for p in list(files(".antt")) + list(files(".edit")) + list(files(".md", "docs")) + ["README.md"]:
        old = open(p, encoding="utf-8").read()
        new = turn(old)
        if new != old:
            open(p, "w", encoding="utf-8").write(new)
    for p in files(".rt"):
        old = open(p, encoding="utf-8").read()
        out, clause = [], False
        for line in old.split("\n"):
            if re.match(r"\s*(ghost use|requires|ensures)\b", line):
                clause = True
            elif clause and (re.match(r"\s*\{\s*$", line) or line.strip() == "" or line.lstrip().startswith(("//", "pub ", "fn ", "use ", "#["))):
                clause = False
            out.append(turn(line) if clause else line)
        new = "\n".join(out)
        if new != old:
            open(p, "w", encoding="utf-8").write(new)


main(sys.argv[1:])
