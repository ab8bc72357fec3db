#!/usr/bin/env python3
"""Turns the proofs of a crate's functions from the form that walked the code (`Proof.antt`) to today's `Invariants.antt` and `Answers.antt`.

usage: tools/answers.py NAMES CRATE [FUNCTION..]     at the top of the repository

NAMES is the names.json that `rt check --generated FOLDER --old-names` writes in the crate's folder: it lists each goal and step with its old and its
new name. An answer that says no more than `search rules` is left out, since the check tries that by itself. What could not be turned is told,
and is then mended by hand. Run it once for a crate, with everything committed.
"""

import json
import os
import re
import sys

PLAIN = re.compile(r"search (rules|needs)|omega arith|tt|refl")
PATH = r"(?:\.[^\s(){}\[\];,.]+)+"


def plain(name):
    return re.sub("[-_]", "-", name)


def blocks(text):
    """The declarations of a file: the lines of each, with the comment above it."""
    out, now = [], []
    for line in text.split("\n"):
        starts = line[:1] not in ("", " ", "\t", ")") and not line.startswith(("unfolding", "--"))
        if starts and now and not all(x.startswith("--") or not x for x in now):
            name = re.match(r"(?:abbrev |pub )*([^\s:]+)", line).group(1)
            first = next(x for x in now if x and not x.startswith("--"))
            if re.match(r"(?:abbrev |pub )*([^\s:]+)", first).group(1) != name or first.startswith("use "):
                out.append(now)
                now = []
        now.append(line)
    out.append(now)
    return ["\n".join(it).strip("\n") for it in out]


class Function:
    def __init__(self, names, source, said):
        self.said = said
        self.place = {p[0]: (p[1], p[2], i) for i, p in enumerate(names["places"])}
        self.arms = names["arms"]
        self.needs = {}
        for (old, new), (at, _) in zip(names["needs"], names["asked_at"]):
            self.needs.setdefault(plain(old), (new, at))
        pairs = [(a.replace(".", " ").split(), b.replace(".", " ").split()) for a, b in names["args"]]
        self.args = {tuple(a): b for a, b in pairs if len(a) == 2}
        self.params = names["params"]
        self.source = source
        self.callee = {p[0]: p[3] for p in names["places"]}
        self.loops = names["loops"]
        self.changed = names["changed"]
        self.asks = {new for _, new in names["needs"]}

    def step(self, asked, fields):
        """The new path, behind the `c` of the goal that is asked at a place, of the old fields behind that place or one before it."""
        if not fields:
            return []
        if tuple(fields[:2]) in self.args:
            fields = self.args[tuple(fields[:2])] + fields[2:]
        first = plain(re.sub(r"_lem$", "", fields[0]))
        if re.match(r"[A-Z]\w*-[A-Z]", first):
            first = first.lower()
        first = re.sub(r"^is-Is([A-Z])", lambda m: "is-" + m.group(1).lower(), first)
        if first in ("args", "requires", "ranges", "well-formed", "type-inv", "utf8"):
            return [first.replace("-", "_")] + fields[1:]
        # An arm has the tests on the way to it.
        spot = asked
        while spot is not None:
            parent, _, i = self.place[spot]
            arm = self.arms[i] if i < len(self.arms) else None
            for field, step, path in arm[2] if arm else []:
                if plain(step) == first and fields[1 : 1 + len(path)] == path:
                    return [arm[0], field] + fields[1 + len(path) :]
            spot = parent
        spot = asked
        while spot is not None:
            parent, (old, new), _ = self.place[spot]
            if plain(old) == first:
                if fields[1:2] in (["new"], ["auto"]) and fields[2:] and fields[2].isdigit() and self.callee[spot] in self.params:
                    fields = fields[:2] + [self.params[self.callee[spot]][int(fields[2])]] + fields[3:]
                return [new] + fields[1:]
            spot = parent
        self.said(f"step {'.'.join(fields)} at {asked}")
        return fields

    def body(self, text, at):
        """The answer's text with its paths turned. A name that was bound to a place alone is a place too."""
        places = {"c"}
        inner = {x for it in re.findall(r"λ ([^.]*)\.", text) for x in re.findall(r"[^\s():]+", it)}
        out, pos = [], 0
        token = re.compile(r"let ([^\s:]+) = ([^\s(){}\[\];,.]+)((?:\.before)*) in\s*|(?<![^\s(){}\[\];,])([^\s(){}\[\];,.]+)(" + PATH + r")?")
        for m in token.finditer(text):
            out.append(text[pos : m.start()])
            pos = m.end()
            if m.group(1):
                if m.group(2) in places:
                    places.add(m.group(1))
                    continue
                out.append(m.group(0))
                continue
            head, path = m.group(4), m.group(5)
            if head not in places or not path and head in inner:
                out.append(m.group(0))
                continue
            fields = path.split(".")[1:] if path else []
            ups = 0
            while ups < len(fields) and fields[ups] == "before":
                ups += 1
            out.append(".".join(["c"] + self.step(at, fields[ups:])))
        out.append(text[pos:])
        out = ["".join(out)]
        for name in re.findall(r"let (\S+) = c\.args in", out[0]):
            for (_, old), new in self.args.items():
                out[0] = re.sub(rf"(?<![^\s(]){re.escape(name)}\.{re.escape(old)}(?![\w-])", f"{name}.{new[-1]}", out[0])

        # A test of `!b` is told by what b is now, but at a field it is told as it stands.
        def told(m):
            return m.group(0) if self.field(m.group(2)) else m.group(1)

        arg = r"(?:[^\s()]+|\([^()]*\))"
        test = r"(c\.if-not-([^\s().]*)[^\s()]*)"
        text = re.sub(rf"\(not-(?:true|false) {arg} {test}\)", lambda m: told(m).replace("if-not-", "if-not~"), "".join(out))
        text = re.sub(rf"not-(?:true|false) {arg} {test}", lambda m: told(m).replace("if-not-", "if-not~"), text)
        # Where the answer wants the test itself, it is made again of that.
        text = re.sub(test, lambda m: m.group(0) if told(m) == m.group(0) and self.field(m.group(2)) else f"(ap not {m.group(0)})", text)
        return text.replace("if-not~", "if-not-")

    def field(self, name):
        return re.search(rf"!{name}\.\w+\b(?!\()", self.source)


def turned(path, names, crate, folder, said):
    """The texts of Invariants.antt and Answers.antt."""
    sources = os.path.join("crates", crate, "src")
    of = Function(names, "\n".join(open(os.path.join(sources, x), encoding="utf-8").read() for x in sorted(os.listdir(sources))), said)
    uses, answers, invariants, helpers = [], [], [], []
    module = f"Rattle.{crate}.proofs.{folder.replace('/', '.')}"
    with open(path, encoding="utf-8") as it:
        text = it.read()
    for block in blocks(text):
        lines = block.split("\n")
        comment = [x for x in lines if x.startswith("--")]
        lines = [x for x in lines if not x.startswith("--")]
        if not lines or not "".join(lines).strip():
            continue
        if lines[0].startswith("use "):
            uses += [x for x in lines if x and not re.search(r"\.(Statement\.\{statement\}|Tie as tie)$", x)]
            continue
        head = re.match(r"(abbrev )?(?:pub )?([^\s:]+) :\s*(.*)", lines[0])
        name, kind = head.group(2), head.group(3)
        if name.endswith("-spec") or name.endswith("_spec"):
            continue
        if kind.startswith("tie.invariant-") or kind.startswith("tie.decreases-"):
            what, loop = re.match(r"tie\.(invariant|decreases)-(\S+)", kind).groups()
            at = next((i for i, it in enumerate(of.loops) if plain(it[0][0]) == plain(loop)), None)
            if at is None:
                said(f"loop {loop}")
                continue
            new = of.loops[at][0][1]
            if what == "decreases" and not any(x.startswith(new + "-smaller") for x in of.asks):
                continue
            rest = "\n".join(lines[1:])
            m = re.match(r"(\S+)((?:\s+[^\s=]+)*)\s+=\s*", rest)
            variables, value = m.group(2).split(), rest[m.end() :]
            known = set(of.loops[at][1])
            for v in sorted(set(variables), key=len, reverse=True):
                plainer = v.rstrip("₀")
                to = ("l.initial." if v.endswith("₀") else "l.") + plainer
                value = re.sub(rf"(?<![^\s(){{}}\[\];,]){re.escape(v)}(?![^\s(){{}}\[\];,.])", to, value)
                if plainer not in known and to in value:
                    said(f"variable {v} of {loop}")
            invariants.append("\n".join(comment + [f"abbrev pub {what}-{new} : goal.{what}-{new}", f"{what}-{new} l = {value}"]))
            continue
        m = re.match(r"tie\.Need-(\S+)", kind)
        if not m:
            helpers.append(block)
            said(f"helper {name}")
            continue
        old = plain(m.group(1))
        need = of.needs.get(old) or of.needs.get(re.sub(r"^(overflow|nonzero)-", "", old))
        rest = [x for x in lines[1:]]
        opened = [x for x in rest if x.startswith("unfolding")]
        rest = "\n".join(x for x in rest if not x.startswith("unfolding"))
        d = re.match(r"(\S+)((?:\s+[^\s=]+)*)\s+=\s*", rest)
        value = rest[d.end() :]
        if PLAIN.fullmatch(value.strip()) and not opened:
            continue
        if ".branch" in value:
            said(f"branch in {m.group(1)}: {' '.join(value.split())[:200]}")
            continue
        if not need:
            if not PLAIN.fullmatch(value.strip()):
                said(f"goal {m.group(1)}: {value.strip()[:60]}")
            continue
        new, at = need
        answers.append("\n".join(comment + [f"pub {new} : goal.{new}"] + opened + [f"{new} c = {of.body(value, at)}"]))
    def used(texts):
        out = [x for x in uses if relevant(x, "\n".join(texts))]
        if "(ap not c." in "\n".join(texts):
            for module, name in (("mathlib.Core.Bool", "not"), ("mathlib.Core.Path", "ap")):
                if not any(re.search(rf"[{{ ]{name}[,}}]", x) for x in out):
                    out.insert(0, f"use {module}.{{{name}}}")
        return out

    out = {}
    if invariants:
        out["Invariants.antt"] = "\n".join(used(invariants) + [f"use {module}.Given as goal"]) + "\n\n" + "\n\n".join(invariants) + "\n"
    if answers or helpers:
        out["Answers.antt"] = "\n".join(used(answers + helpers) + [f"use {module}.Goals as goal"]) + "\n\n" + "\n\n".join(helpers + answers) + "\n"
    return out


def relevant(use, text):
    m = re.match(r"use \S+\.\{(.*)\}", use)
    if not m:
        last = use.split()[-1]
        return last + "." in text or last in text
    words = set(re.findall(r"[^\s(){}\[\];,.]+", text))
    for name in m.group(1).split(", "):
        if "◌" in name:
            if name.strip("◌").strip() and name.replace("◌", "") in words or any(x in text for x in [name.replace("◌", "")]):
                return True
        elif name in words or name == "[]" and "[]" in text:
            return True
    return False


def main(argv):
    listed, crate, only = argv[0], argv[1], argv[2:]
    with open(listed, encoding="utf-8") as it:
        names = json.load(it)
    top = os.path.join("crates", crate, "proofs")
    for folder, _, found in sorted(os.walk(top)):
        if "Proof.antt" not in found:
            continue
        inside = os.path.relpath(folder, top)
        if only and inside.split("/")[-1] not in only:
            continue
        of = names.get(f"Rattle-{crate}-proofs.{inside.replace('/', '.')}.Lts")
        if of is None:
            print(f"{inside}: no names")
            continue
        path = os.path.join(folder, "Proof.antt")
        out = turned(path, of, crate, inside, lambda text: print(f"{inside}: {text}"))
        os.remove(path)
        for name, text in out.items():
            with open(os.path.join(folder, name), "w", encoding="utf-8") as it:
                it.write(text)
        if not os.listdir(folder):
            os.rmdir(folder)
    return 0


if __name__ == "__main__":
    raise SystemExit(main(sys.argv[1:]))
