#!/usr/bin/env python3
"""Counts the places in crates/*/src that may keep an older form, point by point and by simple rules: places to look at.

usage: python3 tools/places.py [-v] [COMMIT]     at the top of the checkout; -v prints each place; no COMMIT: the files as they lie
A place is kept where a line that begins with `// Kept: ` stands in the comment directly above it or above its function.
"""
import collections, glob, itertools, re, subprocess, sys

NAMES = ["own Option or Result, numbers for kinds", "twins", "loops by hand", "equality, order, conversion, digits by hand",
         "facts of three contracts, seven parameters", "lengths and tables beside a slice", "switches on a step"]
WORDS = "fn let mut if else match while for in loop return as true false Some None Ok Err break continue self".split()
TABLE = r"\b(?:key|head|next|mate|mates|lead|begins)\b"
SLICE = r"&(?:'\w+ )?(?:mut )?\["


def sources(commit):
    # Each source file's path and text, as a commit has them, or else as they lie.
    run = lambda *args: subprocess.run(("git",) + args, capture_output=True, check=True).stdout.decode()
    paths = run("ls-tree", "-r", "--name-only", commit, "crates").split() if commit else glob.glob("crates/*/src/**/*.rt", recursive=True)
    for p in sorted(p for p in paths if re.match(r"crates/\w+/src/.*\.rt$", p)):
        yield p, run("show", f"{commit}:{p}") if commit else open(p, encoding="utf-8").read()


def blank(m):
    # A comment becomes blanks, and of a text only the quotes stay, so that each place keeps its line.
    s, q = m.group(), m.group()[-1]
    return re.sub(r"[^\n]", " ", s) if s.startswith("//") else s[:s.index(q) + 1] + re.sub(r"[^\n]", "_", s[s.index(q) + 1:-1]) + q


def close(text, at):
    # The place behind the bracket that closes the one at `at`.
    depths = itertools.accumulate((c in "([{") - (c in ")]}") for c in itertools.islice(text, at, None))
    return next((i for i, depth in enumerate(depths, at + 1) if depth == 0), len(text))


def split(text, mark, brackets="()[]{}"):
    # The parts of a text between marks that stand in no bracket.
    parts, depth = [""], 0
    for c in text.replace("->", "→"):
        depth += (c in brackets[::2]) - (c in brackets[1::2])
        parts = parts + [""] if c == mark and depth == 0 else parts[:-1] + [parts[-1] + c]
    return [" ".join(p.split()) for p in parts if p.strip()]


def functions(code):
    # Each function that has a body: its place, name, parameters, clauses, and where the body begins and ends.
    for m in re.finditer(r"\bfn (\w+)(?:<[^(]*>)?\(", code):
        at = close(code, m.end() - 1)
        params, clauses = split(code[m.end():at - 1], ",", "()[]{}<>"), []
        while (brace := re.compile(r"[{;]").search(code, at)) and brace.group() == "{":
            if not re.search(r"\b(?:requires|ensures|decreases)\b[\s*]*\w*\s*$", code[at:brace.start()]):
                yield m.start(), m.group(1), params, clauses, brace.start(), close(code, brace.start())
                break
            at = close(code, brace.start())
            clauses.append(code[brace.start() + 1:at - 1])


def places_in(code):
    # 1: an enum with a variant that holds a Refusal, or of two variants with one bare.
    for m in re.finditer(r"\benum \w+[^{;]*\{", code):
        variants = split(code[m.end():close(code, m.end() - 1) - 1], ",")
        if any("(Refusal)" in v for v in variants) or len(variants) == 2 and any(re.fullmatch(r"\w+", v) for v in variants):
            yield 1, m.start()
    # 1: a field `answer`; a number for a kind (FIRST, LAST, a role) or for none (0 in a table of indices); a result taken apart and made again.
    kinds = r"\bpub answer:|\bconst (?:FIRST|LAST)\b|\brole: u\w+|" + TABLE + r"\[[^]]*\] [=!]= 0\b|\b0 (?:[=!]=|<) " + TABLE + r"\["
    again = r"|\b[\w:]+\((\w+)\) => (?:return )?(?:\w+::)*[A-Z]\w*\(\1\)(?!\.)|\bNone => None\b"
    yield from ((1, m.start()) for m in re.finditer(kinds + again, code))
    # 3: each `while` and `loop`, and each `for` over a range whose counter stands in an index.
    for m in re.finditer(r"\b(?:while|loop|for (\w+) in [^{]*\.\.[^{]*)(?=[ {])", code):
        body = code[code.find("{", m.end()):close(code, code.find("{", m.end()))]
        if not m.group(1) or re.search(r"\[[^]]*\b" + m.group(1) + r"\b[^]]*\]", body):
            yield 3, m.start()
    for at, name, params, _, begin, end in functions(code):
        body = code[begin:end]
        # 4: a name that the library has, a body that only casts by `as`, and digits made or printed by hand.
        named = re.fullmatch("smaller|larger|min|max|same|equal|wide", name)
        yield from [(4, at)] * bool(named or re.search(r"^\{\s*[\w.]+ as \w+\s*\}$|% 10\b|\bio::\w*decimal", body))
        # 5: more than six parameters.
        yield from [(5, at)] * (len(params) > 6)
        # 6: a slice with a usize beside it for its length, a table of indices as a parameter, and one made as an array.
        sized = re.search(SLICE, " ".join(params)) and any(re.match("(?:n|m|len|count|size|begin): usize$", p) for p in params)
        yield from [(6, at)] * bool(sized or any(re.match(TABLE + ": " + SLICE + "(?!u8)", p) for p in params))
        yield from ((6, begin + m.start()) for m in re.finditer(r"\blet (?:mut )?" + TABLE + r" = \[", body))
        # 7: a bool parameter that an `if` asks, and a match each of whose arms makes the same call.
        yield from [(7, at) for p in params if p.endswith(": bool") and re.search(r"\bif !?" + p.split(":")[0] + r" \{", body)]
        for m in re.finditer(r"\bmatch [^{]*\{", body):
            arms = re.findall(r"=> (?:\{\s*)?([\w:.]*)(\()?", body[m.start():close(body, m.end() - 1)])
            if len(arms) > 1 and len(set(arms)) == 1 and arms[0][1] and arms[0][0] not in ("Some", "Ok", "Err"):
                yield 7, begin + m.start()


def main():
    args = [a for a in sys.argv[1:] if a != "-v"]
    files = {p: (text, re.sub(r"//[^\n]*|b?\"(?:\\.|[^\"\\])*\"|b?'(?:\\.[^']*|[^'\\\n])'", blank, text)) for p, text in sources(*args or [None])}
    places, bodies, facts = set(), collections.defaultdict(list), collections.defaultdict(list)
    for p, (_, code) in files.items():
        places |= {(point, p, at, "") for point, at in places_in(code)}
        for at, name, params, clauses, begin, end in functions(code):
            words = " ".join(w if w in WORDS else re.sub(r"^\d\w*", "0", re.sub(r"^[^\W\d]\w*", "x", w)) for w in re.findall(r"\w+|\S", code[begin:end]))
            bodies["" if code.count("\n", begin, end) > 4 else name, words].append((p, at))
            own = "|".join(re.sub(r":.*|^mut |&(?:mut )?", "", x) for x in params) or "self"
            for fact in {re.sub(rf"\b(?:{own})\b", "_", re.sub(r"^\((.*)\)$", r"\1", c)) for clause in clauses for c in split(clause, "×")}:
                facts[fact].append((p, at))
    # 2: bodies of four or more lines that are equal but for names and numbers, and shorter ones of one name in two crates; all but the first.
    places |= {(2, *x, "") for (name, _), xs in bodies.items() if not name or name != "main" and len({p.split("/")[1] for p, _ in xs}) > 1 for x in xs[1:]}
    # 5: a conjunct of clauses that stands in three or more functions, but for the names of their arguments; counted once.
    places |= {(5, *xs[0], f" [{fact}: {len(xs)} functions]") for fact, xs in facts.items() if len(xs) > 2}
    counts = collections.Counter()
    for point, p, at, note in sorted(places):
        text = files[p][0]
        tops = [at] + [f[0] for f in functions(files[p][1]) if f[0] <= at < f[5]]
        kept = any(re.search(r"// Kept: [^\n]*(?:\n *(?://|#)[^\n]*)*\n[^\n]*$", text[:top]) for top in tops)
        counts[point, kept] += 1
        if "-v" in sys.argv:
            print(f"{point} {p}:{text.count(chr(10), 0, at) + 1}{' kept' if kept else ''}: {text[at:].split(chr(10))[0]}{note}")
    for point, name in enumerate(NAMES, 1):
        print(f"{point} {name}: {counts[point, False] + counts[point, True]}, of which kept {counts[point, True]}")


main()
