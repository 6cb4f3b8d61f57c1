#!/usr/bin/env python3
"""Spells the repository's own names as the library does: snake case for definitions, lemmas, fields and constructors, camel case for
types, and the source's spelling for what the source names. Run once, after port.py, at the top of the repository.

usage: tools/snake_names.py [--dry]    --dry: writes nothing, and says which names fall together

A name is the repository's own where one of its .antt files declares it and no `use` line of the file at hand takes it from the
library. Strings, and comments outside backticks, stay. Names of goals (declared at a type of `tie.` or `..-lts.`) stay: they are not
the repository's.
"""
import collections
import os
import re
import sys

TOKEN = re.compile(r"[^\s(){}\[\].,;«»⌜⌝\"`:|=]+")
DECLARED = re.compile(r"^\s*(?:(?:abbrev|unfoldable|pub|data|record|ruleset)\s+)*([^\s(){}\[\].,;«»\"`:|=]+)\s*(?:(?:\([^()]*(?:\([^()]*\)[^()]*)*\)|\{[^{}]*\})\s*)*:(?![:=])(.*)$")
CLAUSE = re.compile(r"^\s*(?:requires|ensures)\b")
# Where the plain spelling is taken already.
APART = {"In-order": "IsInOrder"}
KEYWORDS = {"let", "in", "where", "use", "mod", "elim", "open", "infixl", "infixr", "infix"}


def files(root, *ends):
    for top in ("crates",):
        for folder, dirs, names in os.walk(os.path.join(root, top)):
            dirs[:] = sorted(d for d in dirs if d != "out")
            for n in sorted(names):
                if n.endswith(ends):
                    yield os.path.join(folder, n)


def read(p):
    with open(p, encoding="utf-8") as f:
        return f.read()


def spelled(name):
    if name in APART:
        return APART[name]
    if name[0].isupper():
        return "".join(w[:1].upper() + w[1:] for w in name.split("-"))
    return name.replace("-", "_")


def declared(root):
    own, goals = collections.defaultdict(set), set()
    for p in files(root, ".antt"):
        for line in read(p).splitlines():
            if line.lstrip().startswith("--"):
                continue
            m = DECLARED.match(line)
            if not m or m.group(1) in KEYWORDS or "-" not in m.group(1).strip("-"):
                continue
            if re.match(r"\s*(?:\(t : ℕ\) → )?(?:tie|[\w-]+-lts|[\w-]+-tie)\.", m.group(2)):
                goals.add(m.group(1))
                continue
            own[m.group(1)].add(p)
    return own, goals


def source_names(root):
    names = set()
    for p in files(root, ".rt"):
        names |= set(re.findall(r"(?<![\w'])[a-z_][a-z0-9]*(?:_[a-z0-9]+)+(?![\w'])", read(p)))
    return names


def taken_from_library(text):
    taken = set()
    for m in re.finditer(r"(?m)^(?:pub |ghost )?use ([^\s{;]+)\.\{([^}]*)\}", text):
        path = m.group(1)
        if path.startswith("Rattle.") and not path.startswith("Rattle.std."):
            continue
        taken |= set(TOKEN.findall(m.group(2)))
    return taken


def turn(text, words, rt):
    taken = taken_from_library(text)

    def word(m):
        t = m.group(0)
        lead = len(t) - len(t.lstrip("@"))
        w = t[lead:]
        return t if w in taken else t[:lead] + words.get(w, w)

    out, inside = [], False
    for line in text.splitlines(keepends=True):
        mark = "//" if rt else "--"
        code, sign, said = line.partition(mark) if rt else (line, "", "") if not re.search(r"(^|\s)--(\s|$)", line) else ("", "", "")
        if not rt and not code and line.strip():
            m = re.search(r"(^|\s)--(\s|$)", line)
            code, sign, said = line[: m.start()] + m.group(1), "--", line[m.start() + len(m.group(1)) + 2 :]
        parts = re.split(r'("(?:[^"\\]|\\.)*")', code)
        code = "".join(s if i % 2 else TOKEN.sub(word, s) for i, s in enumerate(parts))
        said = re.sub(r"`[^`]*`", lambda m: TOKEN.sub(word, m.group(0)), said)
        out.append(code + sign + said)
    return "".join(out)


def main(argv):
    root = os.getcwd()
    own, goals = declared(root)
    words = {n: spelled(n) for n in own if re.fullmatch(r"[\w'-]+", n)}
    held = source_names(root)
    tokens = collections.Counter()
    for p in files(root, ".antt"):
        tokens.update(TOKEN.findall(read(p)))
    for t in list(tokens):
        if "-" in t and t.replace("-", "_") in held and t not in words and t not in goals and re.fullmatch(r"[\w'-]+", t):
            words[t] = t.replace("-", "_")
    if "--dry" in argv:
        back = collections.defaultdict(set)
        for a, b in words.items():
            back[b].add(a)
        for b, a in sorted(back.items()):
            if len(a) > 1:
                print("together:", b, sorted(a))
            if b in tokens:
                print("stands already:", b, sorted(a), tokens[b])
            if b in held:
                print("in the source too:", b, sorted(a), sorted(own.get(x, ()) and sorted(own[x])[0][len(root) + 8 :] for x in a))
        return 0
    for p in files(root, ".antt", ".rt", ".edit"):
        text = read(p)
        new = turn(text, words, p.endswith(".rt"))
        if new != text:
            with open(p, "w", encoding="utf-8") as f:
                f.write(new)
    return 0


if __name__ == "__main__":
    raise SystemExit(main(sys.argv[1:]))
