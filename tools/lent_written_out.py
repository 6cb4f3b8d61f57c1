#!/usr/bin/env python3
"""Writes out the words over references of bdd/specs/Lent, step/specs/Step and restriction/specs/Restricts, since a `&` and a `&mut` are
two types now: `was a b c` is `runs a.now b.now c.now` or `runs a.old b.old c.old`, `after` takes `.new`, `lent` and `back` are
`working` of the same, and a job is made of lists. Run once, at the top of the repository.

usage: tools/lent_written_out.py
"""
import os
import re

THREE = {"given": ("runs", "old"), "was": ("runs", "old"), "after": ("runs", "new"), "lent": ("working", "old"), "back": ("working", "new")}
FN = re.compile(r"(?m)^[ \t]*(?:#\[[^\n]*\]\s*)?(?:pub(?:\([^)]*\))? )?(?:unsafe )?(?:extern \"C\" )?fn \w+(?:<[^>]*>)?\((.*?)\)(?: -> [^\n{]*?)?\s*\n((?:[ \t]+(?:requires|ensures)\b.*?)?)^\{", re.S)


def clauses(signature, text):
    kind = {m.group(1): m.group(2) for m in re.finditer(r"(\w+): (&(?:'\w+ )?mut|&(?:'\w+)?) ?\[", signature)}

    def part(name, state):
        k = kind.get(name)
        if k is None:
            return None
        return f"{name}.{state}" if "mut" in k else f"{name}.now"

    def three(m):
        word, names = m.group(1), m.group(2).split()
        to, state = THREE[word]
        parts = [part(n, state) for n in names]
        return m.group(0) if None in parts else f"{to} {' '.join(parts)}"

    def job(m):
        names = m.group(2).split()
        parts = [part(n, "old") for n in names[:7]]
        return m.group(0) if None in parts else f"job_given {' '.join(parts)} {names[7]}"

    text = re.sub(r"(?<![\w'.])(job_given|job_was)((?: \w+){8})", job, text)
    return re.sub(r"(?<![\w'.])(given|was|after|lent|back)((?: \w+){3})(?![\w.])", three, text)


def imports(text, crate):
    used = set()
    body = re.sub(r"(?m)^\s*ghost use [^;]*;", "", text)
    for w in ("runs", "working"):
        if re.search(rf"(?<![\w'.]){w} \w+\.", body):
            used.add(w)
    text = re.sub(r"(?m)^(\s*)ghost use Rattle\.bdd\.specs\.Lent\.\{[^}]*\};\n", "", text)
    for w in ("runs", "working"):
        if w not in used:
            continue
        module = {"runs": "bdd.specs.Array", "working": "restriction.specs.Restricts" if crate == "restriction" else "bdd.specs.Operations"}[w]
        m = re.search(rf"(?m)^\s*ghost use Rattle\.{re.escape(module)}\.\{{([^}}]*)\}};", text)
        if m:
            names = [x.strip() for x in m.group(1).split(",")]
            if w not in names:
                text = text[: m.start(1)] + ", ".join(names + [w]) + text[m.end(1) :]
        else:
            first = re.search(r"(?m)^ghost use ", text)
            text = text[: first.start()] + f"ghost use Rattle.{module}.{{{w}}};\n" + text[first.start() :]
    if crate == "restriction":
        text = re.sub(r"(ghost use Rattle\.restriction\.specs\.Restricts\.\{)lent, back, ", r"\1", text)
    text = text.replace("job_was, ", "").replace(", job_was", "")
    return text


def main():
    for folder, dirs, files in os.walk("crates"):
        dirs[:] = sorted(d for d in dirs if d != "out")
        crate = folder.split(os.sep)[1] if os.sep in folder else ""
        for n in sorted(files):
            p = os.path.join(folder, n)
            if n.endswith(".rt"):
                with open(p, encoding="utf-8") as f:
                    old = text = f.read()
                text = FN.sub(lambda m: m.group(0) if not m.group(2) else m.group(0).replace(m.group(2), clauses(m.group(1), m.group(2)), 1), text)
                if "specs.Lent." in text or text != old:
                    text = imports(text, crate)
            elif n.endswith(".antt"):
                with open(p, encoding="utf-8") as f:
                    old = text = f.read()
                if "bdd.specs.Lent" not in text or n == "Lent.antt":
                    continue
                path = r"(?:[\w'\-]+(?:\.[\w'\-]+)+)"
                text = re.sub(rf"(?<![\w'.])given ({path}) ({path}) ({path})", r"runs \1.now \2.now \3.now", text)
                text = re.sub(r"(?m)^use Rattle\.bdd\.specs\.Lent\.\{given\}\n", "", text)
                if re.search(r"(?<![\w'.])runs [\w'\-.]+\.now", text):
                    m = re.search(r"(?m)^use Rattle\.bdd\.specs\.Array\.\{([^}]*)\}", text)
                    if m and "runs" not in [x.strip() for x in m.group(1).split(",")]:
                        text = text[: m.start(1)] + m.group(1) + ", runs" + text[m.end(1) :]
                    elif not m:
                        first = re.search(r"(?m)^use ", text)
                        text = text[: first.start()] + "use Rattle.bdd.specs.Array.{runs}\n" + text[first.start() :]
            else:
                continue
            if text != old:
                with open(p, "w", encoding="utf-8") as f:
                    f.write(text)


main()
