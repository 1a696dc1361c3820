#!/usr/bin/env python3
"""Respells the repository's own definitions and lemmas once: types and facts in camel case, every other name in snake case.

usage: python3 tools/respell.py [--show]    at the top of the repository; --show prints the renamings and writes nothing

A name is taken from where it is declared: the signatures of specs/ and proofs/, with fields, constructors and helpers.
In a lemma's name a dash stays before the name of a definition, and stands as an underscore before any other word.
Goals and their parts are named by Rattle and stay; so do the names of src/, strings and comments.
"""
import os
import re
import sys

NAME = r"[^\s(){}\[\];,.\"]+"
SIG = re.compile(r"^\s*(?:abbrev pub |unfoldable pub |abbrev |unfoldable |pub )?(?:(record|data) )?(" + NAME + r") (?:[:({].*)$")
FIELD = re.compile(r"^\s+(?:pub )?(" + NAME + r") : ")
GOAL = re.compile(r"^\s*(?:abbrev )?(?:pub )?(" + NAME + r") : (?:goal|need|given|fact)\.")
WORDS = {"length", "take", "drop", "append", "reverse", "map", "mod", "div", "add", "mul", "sub", "zero", "le", "lt", "eq", "gcd", "get_or", "set", "T", "≤"}
BY_HAND = {
    "getD": "get_or",
    "At-getD": "At-get_or",
    "getD-texts": "get_or-texts",
    "eq→eqb": "eqb-eq",
    "gatesAnswer": "count_answer",
    "sheetOf": "written_sheet",
    "sheetOf-push": "written_sheet_push",
    "length-sheetOf": "length-written_sheet",
    "Waits-exactly-where-flows-overlap": "WaitsExactlyWhereFlowsOverlap",
    "waits-exactly-where-flows-overlap": "waits_exactly_where_flows_overlap",
}
KEPT = {"module", "where", "let", "in", "use", "λ", "elim", "mutual", "pub", "record", "data", "abbrev", "unfolding"}


def files(root, *endings):
    for top in ("crates", "docs", "README.md"):
        path = os.path.join(root, top)
        if os.path.isfile(path):
            if path.endswith(endings):
                yield path
        for folder, dirs, names in os.walk(path):
            dirs[:] = sorted(d for d in dirs if d not in ("out", "target"))
            for n in sorted(names):
                if n.endswith(endings):
                    yield os.path.join(folder, n)


def read(path):
    with open(path, encoding="utf-8") as f:
        return f.read()


def snake(part):
    return re.sub(r"(?<=[a-z0-9])(?=[A-Z])", "_", part).lower()


def camel(name):
    return "".join(p[:1].upper() + p[1:] for p in name.split("-"))


def declared(root):
    """The declared names: types, words of specs/ and lemmas."""
    types, words, lemmas, goals = set(), set(), set(), set()
    for path in files(root, ".antt"):
        specs = "/specs/" in path
        lemma_file = path.endswith("Lemmas.antt")
        lines = read(path).split("\n")
        for i, line in enumerate(lines):
            if line.strip().startswith("--"):
                continue
            g = GOAL.match(line)
            if g:
                goals.add(g.group(1))
                continue
            m = SIG.match(line) or FIELD.match(line)
            if not m:
                continue
            kind, name = (m.group(1), m.group(2)) if m.re is SIG else (None, m.group(1))
            if name in KEPT or not re.match(r"[A-Za-z]", name) or "=" in name:
                continue
            if kind or name[0].isupper():
                types.add(name)
            elif specs and not lemma_file:
                words.add(name)
            else:
                lemmas.add(name)
    return types, words, lemmas - goals - words, goals


def imported(root):
    """Names that come from the library: they are spelled already."""
    own, found = set(os.listdir(os.path.join(root, "crates"))), set()
    for path in files(root, ".antt", ".rt"):
        for line in read(path).split("\n"):
            m = re.match(r"\s*(?:pub )?(?:ghost )?use ([\w.]+)\.\{(.*)\}", line)
            if m and not (re.match(r"Rattle\.(\w+)\.", m.group(1)) and m.group(1).split(".")[1] in own):
                found |= {t.strip().split(" as ")[0] for t in m.group(2).split(",")}
    return found


def respelled(root):
    types, words, lemmas, goals = declared(root)
    new = {}
    facts = {t for t in types if "-" not in t}
    lemma_types = set()
    for t in types:
        if "-" in t:
            head = t.split("-")[0]
            # a lemma that begins with the name of a fact, as At-before
            if head in facts and head in ("At",):
                lemma_types.add(t)
            else:
                new[t] = camel(t)
    for w in words:
        new[w] = snake(w.replace("-", "_"))
    known = {new.get(w, w) for w in words} | {new.get(t, t) for t in types - lemma_types} | WORDS
    for n in lemmas | lemma_types:
        decided = n.endswith("?")
        parts = (n[:-1] if decided else n).split("-")
        out = parts[0] if parts[0] in types else snake(parts[0])
        for p in parts[1:]:
            q = p if p in types else snake(p)
            out += ("-" if (q in known or parts[0] in facts) and not decided else "_") + q
        new[n] = "decided_" + out if decided else out
    for n, q in BY_HAND.items():
        if n in types | words | lemmas:
            new[n] = q
    for n in imported(root):
        new.pop(n, None)
    return {a: b for a, b in new.items() if a != b and a not in goals}, types | words | lemmas, goals


def turn_line(line, new):
    return re.sub(NAME, lambda m: new.get(m.group(0), m.group(0)), line)


def turn_antt(text, new):
    out = []
    for line in text.split("\n"):
        at = re.search(r"(^|\s)--(\s|$)", line)
        code, rest = (line, "") if not at else (line[: at.start()], line[at.start() :])
        out.append(turn_line(code, new) + rest)
    return "\n".join(out)


def turn_rt(text, new):
    """Ghost items and clauses: lines that begin with ghost, requires or ensures, and what follows them to the closing brace."""
    out, depth = [], 0
    for line in text.split("\n"):
        bare = line.strip()
        ghost = re.match(r"(ghost|requires|ensures)\b", bare)
        if bare.startswith("//") or not (ghost or depth):
            out.append(line)
            continue
        out.append(turn_line(line, new))
        depth = max(0, depth + bare.count("{") - bare.count("}"))
    return "\n".join(out)


def turn_md(text, new):
    return re.sub(r"`[^`\n]+`", lambda m: turn_line(m.group(0)[:-1], {"`" + k: "`" + v for k, v in new.items()} | new) + "`", text)


def main(argv):
    root = os.getcwd()
    new, names, goals = respelled(root)
    used = {}
    for path in files(root, ".antt"):
        for line in read(path).split("\n"):
            if not line.strip().startswith("--"):
                for t in re.findall(NAME, line):
                    used.setdefault(t, set()).add(path)
    by_new = {}
    for a, b in new.items():
        by_new.setdefault(b, []).append(a)
    for b, olds in sorted(by_new.items()):
        if len(olds) > 1 or b in used:
            print(f"falls together: {' '.join(sorted(olds))} -> {b}" + (f" (stands in {', '.join(sorted(os.path.relpath(p, root) for p in used[b])[:3])})" if b in used else ""))
    if "--show" in argv:
        for a, b in sorted(new.items()):
            print(f"{a} -> {b}")
        return 0
    for path in files(root, ".antt", ".rt", ".edit", ".md"):
        text = read(path)
        if path.endswith((".antt",)):
            after = turn_antt(text, new)
        elif path.endswith(".rt"):
            after = turn_rt(text, new)
        elif path.endswith(".edit"):
            dashed = {a: b for a, b in new.items() if "-" in a or re.search(r"[a-z][A-Z]", a)}
            after = "\n".join(turn_line(l, dashed) if l.startswith(("old:", "new:")) and "/specs/" in text.split("\n")[0].replace("file: ", "/") else l for l in text.split("\n"))
        else:
            dashed = {a: b for a, b in new.items() if "-" in a or re.search(r"[a-z][A-Z]", a)}
            after = turn_md(text, dashed)
        if after != text:
            with open(path, "w", encoding="utf-8") as f:
                f.write(after)
    return 0


if __name__ == "__main__":
    raise SystemExit(main(sys.argv[1:]))
