#!/usr/bin/env python3
"""Turns the Proof.antt files of a crate that close a `tie` into Invariants.antt and Answers.antt.

usage: tools/answers_of_proofs.py CRATE [--all] [FN..]     at the top of the repository

It reads `rt check --generated DIR --old-names` of the crate (names.json), by which each goal and each step has its name of today. Answers that
are a bare tactic go, since the check tries tactics by itself; --all keeps them. A file that walks the code by hand stays, and is named.
"""
import json
import os
import re
import subprocess
import sys
import tempfile

WORD = re.compile(r"[^\s(){}\[\].,;«»\"`|]+")
TRIVIAL = re.compile(r"(?:search rules|omega arith|tt|absurd \(omega arith\)|\((?:omega arith(?:, )?|tt(?:, )?|search rules(?:, )?)*\)|absurd \(search rules\))\s*")
DROPPED_USES = re.compile(r"^use Rattle\.\S+\.(?:Statement|Tie|Needs|Reads)\b")


def norm(name):
    name = name.replace("_", "-")
    return re.sub(r"^overflow-", "", name)


def names_of(crate):
    with tempfile.TemporaryDirectory() as d:
        r = subprocess.run(["rt", "check", "--generated", d, "--old-names"], cwd=os.path.join("crates", crate), capture_output=True, text=True)
        p = os.path.join(d, "names.json")
        if not os.path.exists(p):
            sys.exit("no names.json: " + r.stdout[-600:] + r.stderr[-600:])
        with open(p, encoding="utf-8") as f:
            return json.load(f)


def split(text):
    """The head (comment and use lines) and the declarations of a file."""
    blocks, head, uses = [], [], []
    for block in re.split(r"\n\s*\n", text.strip("\n")):
        lines = block.split("\n")
        while lines and (lines[0].startswith("use ") or (not blocks and lines[0].startswith("--"))):
            line = lines.pop(0)
            (uses if line.startswith("use ") else head).append(line)
        if lines:
            blocks.append("\n".join(lines))
    return head, uses, blocks


SIGNED = re.compile(r"(?m)^[ \t]*(?:#\[[^\n]*\]\s*)?(?:pub(?:\([^)]*\))? )?(?:unsafe )?(?:extern \"C\" )?fn (\w+)(?:<[^>]*>)?\(.*?\)(?: -> [^\n{]*?)?\s*\n((?:[ \t]+(?:requires|ensures)\b.*?)?)^\{", re.S)


def labels_of():
    """For each function, the labels of its requires and of its ensures."""
    found = {}
    for crate in sorted(os.listdir("crates")):
        top = os.path.join("crates", crate, "src")
        for folder, _, files in os.walk(top):
            for n in files:
                if not n.endswith(".rt"):
                    continue
                inner = os.path.relpath(os.path.join(folder, n), top)[:-3].replace(os.sep, "::")
                inner = "" if inner in ("lib", "main") else inner + "::"
                with open(os.path.join(folder, n), encoding="utf-8") as f:
                    for m in SIGNED.finditer(f.read()):
                        each = re.findall(r"(?m)^[ \t]+(requires|ensures) (\w+)? ?\{", m.group(2))
                        found[f"{crate}::{inner}{m.group(1)}"] = ([b for a, b in each if a == "requires"], [b for a, b in each if a == "ensures"])
    return found


LABELS = {}


def labelled(path, kind, rest):
    """`requires.1` as `requires.LABEL` where the function at the path has several."""
    labels = LABELS.get(path, ([], []))[kind]
    if len(labels) < 2 or not rest or rest[0] not in ("0", "1"):
        return rest
    i = 0
    while rest and i < len(labels) - 1:
        if rest[0] == "0":
            return [labels[i]] + rest[1:]
        if rest[0] != "1":
            break
        i, rest = i + 1, rest[1:]
    return [labels[i]] + rest


def comma_split(inner):
    parts, depth, start = [], 0, 0
    for i, ch in enumerate(inner):
        depth += (ch in "([{") - (ch in ")]}")
        if ch == "," and depth == 0:
            parts.append(inner[start:i].strip())
            start = i + 1
    if inner[start:].strip():
        parts.append(inner[start:].strip())
    return parts


def wrapped(labels, body):
    m = re.match(r"((?:\s*let .*? in(?=\s))*)(.*)$", body.rstrip(), re.S)
    lets, last = m.group(1), m.group(2).strip()
    if lets.count("let ") != len(re.findall(r"(?<![\w'])let ", body)) or last.startswith(("record", "λ")):
        return body
    paths = ["parts" + ".1" * i + (".0" if i < len(labels) - 1 else "") for i in range(len(labels))]
    return f"{lets}\n    let parts = {last} in record {{ " + "; ".join(f"{l} = {p}" for l, p in zip(labels, paths)) + " }"


def as_record(labels, body):
    """A body that ends in a tuple of as many parts as there are labels is a record by them."""
    if len(labels) < 2:
        return body
    stripped = body.rstrip()
    if stripped.lstrip().startswith("record"):
        return body
    if not stripped.endswith(")"):
        return wrapped(labels, body)
    depth, at = 0, len(stripped) - 1
    while at >= 0:
        depth += (stripped[at] == ")") - (stripped[at] == "(")
        if depth == 0:
            break
        at -= 1
    before = stripped[:at].rstrip()
    if before and not before.endswith(" in") and not before.endswith("\nin") and before not in ("",):
        return wrapped(labels, body)
    parts = comma_split(stripped[at + 1 : -1])
    while len(parts) < len(labels) and parts and parts[-1].startswith("(") and parts[-1].endswith(")"):
        parts[-1:] = comma_split(parts[-1][1:-1])
    if len(parts) != len(labels):
        return body
    return stripped[:at] + "record { " + "; ".join(f"{l} = {p}" for l, p in zip(labels, parts)) + " }"


class Fn:
    def __init__(self, names, path):
        self.names, self.path = names, path
        self.goals = {norm(a): b for a, b in names["needs"]}
        self.at = {norm(a): p[0] for (a, _), p in zip(names["needs"], names["asked_at"])}
        self.places = {p[0]: p for p in names["places"]}
        self.loops = {a: (b, v, ch) for ((a, b), v), ch in zip(names["loops"], names["changed"])}
        self.params = names["params"]
        self.arms = {}
        for arm in names["arms"]:
            for new, old, path in (arm[2] if arm else []):
                self.arms.setdefault(old, []).append((arm[0], new, path))
        self.said = []

    def climb(self, place, n, step):
        """The place n before, and the step there, if the names of steps agree; else the nearest before that has the step."""
        chain, p = [], place
        while p is not None:
            chain.append(p)
            p = self.places[p][1]
        if step is None and n >= len(chain):
            return chain[-1]
        if n < len(chain):
            if step is None or step in ("args", "requires", "ranges", "well-formed", "type_inv", "auto"):
                return chain[n]
            if norm(self.places[chain[n]][2][0]) == norm(step):
                return chain[n]
        found = [q for q in chain if step is not None and norm(self.places[q][2][0]) == norm(step)]
        if not found and step is not None:
            p = self.root
            chain = []
            while p is not None:
                chain.append(p)
                p = self.places[p][1]
            found = [q for q in chain if norm(self.places[q][2][0]) == norm(step)]
        if found:
            near = min(found, key=lambda q: abs(chain.index(q) - n))
            self.said.append(f"step {step} {n} before {place}: taken at {near}")
            return near
        self.said.append(f"no step {step} {n} before {place}")
        return None


def tupled(rest, params):
    """A path into a pair of pairs, as .1.1.0, is the field of a parameter."""
    k, i = 0, 0
    while i < len(rest) and rest[i] == "1":
        k, i = k + 1, i + 1
    if i < len(rest) and rest[i] == "0" and k < len(params):
        return ["." + params[k]] + ["." + r for r in rest[i + 1 :]], True
    return ["." + r for r in rest], False


def step_path(fn, place, rest):
    """The new spelling of a step's fields."""
    _, _, (old, new), callee, fields = fn.places[place]
    best = None
    for arm, field, path in fn.arms.get(old, []):
        if path and rest[: len(path)] == path and (best is None or len(path) > best[0]):
            best = (len(path), f"c.{arm}.{field}")
    if best is None and rest and rest[0] == "rest":
        return f"c.{new}.{new}-own." + ".".join(rest)
    if best:
        return best[1] + "".join("." + r for r in rest[best[0] :])
    out = "c." + new
    if not rest:
        return out
    first = rest[0]
    words = {"kept": "auto", "last": "new", "inv": "invariant", "typed": "type_inv"}
    if old.startswith(("if", "loop")):
        words.update({"taken": "true", "left": "false"})
    first = words.get(first, first)
    turned = dict(fields)
    if first in turned and first in ("true", "false", "fact", "given", "is", "ensures", "invariant"):
        first = turned[first]
    tail = rest[1:]
    if first == "ensures" and callee:
        tail = labelled(callee, 1, tail)
    if first in ("new", "auto") and callee in fn.params and tail:
        parts, good = tupled(tail, fn.params[callee])
        return out + "." + first + "".join(parts)
    return out + "." + first + "".join("." + t for t in tail)


PATH = re.compile(r"(?<![\w'.\-])([A-Za-z_][\w'\-]*)((?:\.[^\s(){}\[\].,;]+)+)|(?<![\w'.\-])([A-Za-z_][\w'\-]*)(?![\w'.\-])")


def turn_body(fn, place, body):
    """Paths below `c`, and below what a `let` binds to one, in their new spelling."""
    alias = {"c": ("place", place)}

    def resolve(path):
        head, *rest = path.split(".")
        kind = alias.get(head)
        if kind is None:
            return None
        if kind[0] == "place":
            n = 0
            while rest and rest[0] == "before":
                rest.pop(0)
                n += 1
            if not rest:
                q = fn.climb(kind[1], n, None)
                return ("place", q) if q else None
            if rest[0] == "pre":
                rest[0] = "requires"
            if rest[0] == "fits":
                rest[0] = "ranges"
            if rest[0] == "requires":
                rest[1:] = labelled(fn.path, 0, rest[1:])
            if rest[0] in ("args", "requires", "ranges"):
                return ("text", "c." + ".".join(rest))
            if rest[0] in ("well-formed",):
                return ("text", "c.type_inv")
            q = fn.climb(kind[1], n, rest[0])
            if q is None:
                return None
            if norm(fn.places[q][2][0]) != norm(rest[0]):
                return None
            return ("step", q, rest[1:])
        if kind[0] == "step":
            return ("step", kind[1], kind[2] + rest)
        return None

    def spelled(found, name):
        if found[0] == "text":
            return found[1]
        if found[0] == "step":
            return step_path(fn, found[1], found[2])
        return "c"

    out = []
    # lets whose right side is a path
    let = re.compile(r"let ([\w'\-]+) = (c(?:\.[^\s(){}\[\].,;]+)+|[\w'\-]+(?:\.[^\s(){}\[\].,;]+)+) in[ \n]*")
    while True:
        m = let.search(body)
        cut = m.start() if m else len(body)
        out.append(turn_paths(body[:cut], resolve, spelled))
        if not m:
            break
        found = resolve(m.group(2))
        if found is None:
            out.append(turn_paths(m.group(0), resolve, spelled))
        elif found[0] == "place":
            alias[m.group(1)] = found
        else:
            lead = re.search(r"in([ \n]*)$", m.group(0)).group(1)
            out.append(f"let {m.group(1)} = {spelled(found, m.group(1))} in{lead}")
            if found[0] == "step":
                alias[m.group(1)] = ("named", found[1], found[2], m.group(1))
        body = body[m.end() :]
    text = "".join(out)
    return text


def turn_paths(text, resolve, spelled):
    def one(m):
        path = m.group(0)
        found = resolve(path) if "." in path or path == "c" else None
        if found is None:
            return path
        return spelled(found, path)

    return PATH.sub(one, text)


def named_paths(fn, text):
    """Fields of a name that a `let` binds to a step: `did.new.1.1.0`."""
    for m in re.finditer(r"let ([\w'\-]+) = c\.requires in", text):
        name = m.group(1)
        text = re.sub(rf"(?<![\w'.\-])({re.escape(name)})((?:\.\d+)+)", lambda k: name + "." + ".".join(labelled(fn.path, 0, k.group(2)[1:].split("."))), text)
    for m in re.finditer(r"let ([\w'\-]+) = c\.([\w'\-]+) in", text):
        name, step = m.groups()
        places = [p for p in fn.places.values() if p[2][1] == step and p[3] in fn.params]
        if not places:
            continue
        params = fn.params[places[0][3]]

        def one(k):
            rest = k.group(2).split(".")
            parts, good = tupled(rest[1:], params)
            return name + "." + rest[0] + "".join(parts)

        text = re.sub(rf"(?<![\w'.\-])({re.escape(name)})\.((?:new|auto)(?:\.\d+)+)", one, text)
        callee = places[0][3]
        text = re.sub(rf"(?<![\w'.\-])({re.escape(name)})\.ensures((?:\.\d+)+)", lambda k: name + ".ensures." + ".".join(labelled(callee, 1, k.group(2)[1:].split("."))), text)
    return text


class Helper:
    """A helper over a place of the walk: it is written out where it is used."""

    def __init__(self, name, variable, kind, body, more=()):
        self.name, self.variable, self.more = name, variable, list(more)
        bound = set(re.findall(r"(?<![\w'.\-])let ([\w'\-]+) (?:=|:)", body + " " + (kind or "")))
        for b in bound:
            if b != variable:
                here = re.compile(rf"(?<![\w'.\-]){re.escape(b)}(?![\w'\-])")
                body = here.sub(f"{b}_{name.lower()}", body)
                kind = here.sub(f"{b}_{name.lower()}", kind) if kind else kind
        self.kind, self.body = kind, body.strip()
        self.is_path = re.fullmatch(rf"{re.escape(variable)}(?:\.before)*", self.body) is not None

    def at(self, atom, *more):
        if self.more:
            body = self.body
            for v, a in zip([self.variable, *self.more], [atom, *more]):
                body = re.sub(rf"(?<![\w'.\-]){re.escape(v)}(?![\w'\-])", lambda m: a, body)
            return f"({body})"
        here = re.compile(rf"(?<![\w'.\-]){re.escape(self.variable)}(?![\w'\-])")
        body = here.sub(lambda m: atom, self.body)
        if self.is_path:
            return body
        if self.kind and re.search(r"(?<![\w'.\-])(omega|search|rw|grind|simp|cc|subst|record)(?![\w'\-])", self.body):
            kind = here.sub(lambda m: atom, self.kind)
            return f"(let fact_{self.name.lower()} : {kind} = {body} in fact_{self.name.lower()})"
        return f"({body})"


def helper_of(block):
    lines = [l for l in block.split("\n") if not l.startswith("--")]
    text = "\n".join(lines)
    m = re.match(r"(?:abbrev |pub )*([^\s]+) : (?:\(([^\s:()]+) : tie\.[^()]*\)|tie\.[^→]*?)\s*→ (.*?)\n((?:unfolding [^\n]*\n)?)\1 ([^\s=]+)((?: [^\s=]+)*) =(.*)$", text, re.S)
    if not m:
        return None
    name, bound, kind, unfolding, variable, more, body = m.groups()
    if more.strip():
        return Helper(name, variable, None, body, more.split())
    if bound is None:
        return Helper(name, variable, None, body)
    here = re.compile(rf"(?<![\w'.\-]){re.escape(bound)}(?![\w'\-])")
    return Helper(name, variable, here.sub(variable, kind).strip(), body)


def written_out(helpers, text):
    for _ in range(12):
        before = text
        for h in helpers:
            atom = r"(?:\(([\w'\-.]+)\)|([\w'\-]+(?:\.[^\s(){}\[\],;]+)*))"
            use = re.compile(rf"(?<![\w'.\-]){re.escape(h.name)}" + (" " + atom) * (1 + len(h.more)))
            text = use.sub(lambda m: h.at(*[g for g in m.groups() if g]), text)
        text = re.sub(r"\(((?:[\w'\-]+)(?:\.before)+)\)", r"\1", text)
        text = re.sub(r"(?<=[ (])\(([a-z])\)(?=\.)", r"\1", text)
        if text == before:
            break
    return text


def invariants(fn, decls, said):
    out = []
    for name, kind, loop, binders, body in decls:
        if loop not in fn.loops:
            near = [k for k in fn.loops if norm(k) == norm(loop)]
            if not near:
                said.append(f"no loop {loop}")
                continue
            loop = near[0]
        new, variables, changed = fn.loops[loop]
        names = binders.split()
        want = list(zip(variables, changed))
        words = {}
        for i, (v, ch) in enumerate(want):
            if i < len(names):
                words[names[i]] = f"l.initial.{v}" if ch else f"l.{v}"
        for i, v in enumerate([v for v, ch in want if ch]):
            if len(want) + i < len(names):
                words[names[len(want) + i]] = f"l.{v}"
        if len(names) != len(want) + sum(changed):
            said.append(f"{kind}-{loop}: {len(names)} names {names}, {want}")

        def word(m):
            t = m.group(0)
            return words.get(t, t)

        body = re.sub(r"(?<![\w'.\-₀])[A-Za-z_][\w'\-₀]*", word, body)
        out.append(f"abbrev pub {kind}-{new} : goal.{kind}-{new}\n{kind}-{new} l ={body}")
    return out


def convert(crate, key, names, path, keep_all, said):
    with open(path, encoding="utf-8") as f:
        text = f.read()
    cycle = re.search(r"\+([^.]+)\.Lts-([^.]+)$", key)
    if cycle:
        stem = cycle.group(2).replace("_", "-")
        text = re.sub(rf"(?m)^{stem}-(\S+) : \(t : ℕ\) → {stem}-lts\.Need-(\S+)[^\n]*$", r"\1 : tie.Need-\2", text)
        text = re.sub(rf"(?m)^{stem}-(\S+) t c", r"\1 t c", text)
        text = re.sub(r"(?m)^pub \+\S+spec : .*(?:\n.+)*", "", text)
        text = re.sub(r"(?m)^use borrow\.Fn\..*\n|^use \S+ as " + stem + r"\S*\n|^use \S+\.Reads as \S+\n|^use \S+\.\{(?:statement|close)\}\n", "", text)
    elif "tie." not in text or "tie.close" not in text:
        said.append(f"by hand: {path}")
        return False
    key = key.replace(".+", ".")
    key = re.sub(r"\.(\w+)\.Lts-(\w+)$", r".\2.Lts", key) if cycle else key
    fn = Fn(names, f"{crate}::" + key[len(f"Rattle-{crate}-proofs.") : -len(".Lts")].replace(".", "::"))
    head, uses, blocks = split(text)
    uses = [u for u in uses if not DROPPED_USES.match(u)]
    fn_path = key[len(f"Rattle-{crate}-proofs.") : -len(".Lts")]
    inv, answers, helpers = [], [], []
    over = [h for h in map(helper_of, blocks) if h]
    over_names = {h.name for h in over}
    for b in blocks:
        comment = []
        lines = b.split("\n")
        while lines and lines[0].startswith("--"):
            comment.append(lines.pop(0))
        if not lines:
            continue
        first = "\n".join(lines)
        m = re.match(r"(?:abbrev |pub )*([^\s]+) : tie\.(invariant|decreases)-(\S+)\n(?:unfolding [^\n]*\n)?\1((?: [^\s=]+)*) =(.*)$", first, re.S)
        if m:
            inv.append((m.group(1), m.group(2), m.group(3), m.group(4), m.group(5)))
            continue
        m = re.match(r"(?:abbrev |pub )*([^\s]+) : tie\.Need-(\S+)[^\n]*\n((?:unfolding [^\n]*\n)?)\1((?: [^\s=]+)*) =(.*)$", first, re.S)
        if m:
            name, goal, unfolding, binders, body = m.groups()
            new = fn.goals.get(norm(goal))
            if new is None:
                said.append(f"{fn_path}: no goal for {goal}")
                continue
            if not keep_all and TRIVIAL.fullmatch(body.strip()):
                continue
            body = written_out(over, body)
            fn.root = fn.at[norm(goal)]
            body = turn_body(fn, fn.root, body)
            body = re.sub(r"\(\(([^()]*)\)\)", r"(\1)", body)
            body = re.sub(r", c\.type_inv(?=[,)])", "", body)
            body = re.sub(r"(?<=[ (])\(([\w'\-]+(?:\.[\w'\-]+)+)\)", r"\1", body)
            body = named_paths(fn, body)
            binders = binders.replace(" κs", "")
            if norm(goal).startswith("returns"):
                body = as_record(LABELS.get(fn.path, ([], []))[1], body)
            elif re.search(r"-requires(-\d+)?$", norm(goal)):
                callee = re.sub(r"-requires(-\d+)?$", "", norm(goal))
                near = [k for k in fn.params if norm(k.split("::")[-1]) == callee]
                if near:
                    body = as_record(LABELS.get(near[0], ([], []))[0], body)
            unfolding = unfolding
            answers.append((comment, f"pub {new} : goal.{new}\n{unfolding}{new}{binders} ={body}"))
            continue
        if re.match(r"pub \S*spec : ", first) or (helper_of(b) and helper_of(b).name in over_names):
            continue
        helpers.append(b)
    module = f"Rattle.{crate}.proofs.{'+' if cycle else ''}{fn_path}"
    folder = os.path.dirname(path)
    invs = invariants(fn, inv, said)
    if invs:
        used = "\n".join(invs + helpers)
        with open(os.path.join(folder, "Invariants.antt"), "w", encoding="utf-8") as f:
            f.write("\n".join(head[:1] + uses + [f"use {module}.Given as goal", "", "\n\n".join(invs), ""]))
    if answers or (helpers and not invs):
        body = "\n\n".join(helpers + ["\n".join(c + [a]) for c, a in answers])
        with open(os.path.join(folder, "Answers.antt"), "w", encoding="utf-8") as f:
            f.write("\n".join((head if not invs else head) + uses + [f"use {module}.Goals as goal", "", body, ""]))
    elif helpers:
        said.append(f"{fn_path}: helpers left: " + "; ".join(h.split("\n")[0] for h in helpers))
    os.remove(path)
    for s in fn.said:
        said.append(f"{fn_path}: {s}")
    return True


def main(argv):
    keep_all = "--all" in argv
    argv = [a for a in argv if a != "--all"]
    crate, only = argv[0], argv[1:]
    LABELS.update(labels_of())
    names = names_of(crate)
    said = []
    for key, value in names.items():
        if not key.startswith(f"Rattle-{crate}-proofs.") or not re.search(r"\.Lts(-\w+)?$", key):
            continue
        fn_path = re.sub(r"\.Lts(-\w+)?$", "", key[len(f"Rattle-{crate}-proofs.") :])
        if only and fn_path not in only:
            continue
        path = os.path.join("crates", crate, "proofs", *fn_path.split("."), "Proof.antt")
        if os.path.exists(path):
            convert(crate, key, value, path, keep_all, said)
    for folder, _, files in os.walk(os.path.join("crates", crate, "proofs")):
        if "Proof.antt" in files:
            said.append("stays: " + os.path.join(folder, "Proof.antt"))
    print("\n".join(said))
    return 0


if __name__ == "__main__":
    raise SystemExit(main(sys.argv[1:]))
