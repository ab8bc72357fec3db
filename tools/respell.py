#!/usr/bin/env python3
"""Spells the definitions and lemmas of the crates as today's Rattle does: words in snake case, types in camel case.

usage: tools/respell.py [--list]      at the top of the repository

Run once, after the toolchain's own port.py, which respells only the names that a library had too. A name is one that a file of
specs/ or proofs/ declares. A small letter before a capital takes `_` between them and the capital becomes small (`isEighty`: `is_eighty`);
a dash between two words becomes `_` (`place-injective`: `place_injective`). A dash before a capital, or after a name that begins with one,
stays, since it joins the name of a type or a case (`set-G0`, `Same-bytes`). A lemma that would get a definition's name gets `_lem`.
Names of src/, of C, strings and numbers are not touched. With --list it only prints the names, old and new.
"""

import os
import re
import sys

# names that the toolchain makes from the source or asks for, and names of its libraries that a file declares again
MADE = re.compile(r"(?:Need-|At-|After-|In-).*|invariant-.*|decreases-.*|.*-spec")
# Lemmas that port.py itself gave the name that a definition has too (the definition's name is in the other file, or comes from it
# here): the files that declare or use the lemma, and the lemma.
LEMMAS = [
    ("crates/shown/proofs/Origins.antt", "first_block"),
    ("crates/shown/proofs/Shown/first_block/Proof.antt", "first_block"),
    ("crates/kept/proofs/Moves.antt", "goes_on"),
    ("crates/colour/proofs/Laws.antt", "number_of"),
    ("crates/colour/proofs/Pass.antt", "number_of"),
    ("crates/packing/proofs/Parts.antt", "part_at"),
    ("crates/packing/proofs/part/eight_from/Proof.antt", "part_at"),
]
TOKEN = re.compile(r"[^\s(){}\[\];,.@\"`:]+")
HEAD = re.compile(r"^\s*((?:(?:unfoldable|abbrev|pub|data|record)\s+)*)((?:[^\s(){}\[\];,.:]+\s+)*[^\s(){}\[\];,.:]+) :(?:\s|$)")
TYPE = re.compile(r"^\s*(?:pub\s+)?(?:data|record)\s+(\S+)")


def spelled(name):
    out = re.sub(r"(?<=[a-z0-9])([A-Z])", lambda m: "_" + m.group(1).lower(), name) if "-" not in name else name
    return re.sub(r"-(?=[^A-Z])", "_", out)


def files(end):
    for folder, dirs, names in os.walk("crates"):
        dirs[:] = sorted(d for d in dirs if d != "out")
        for name in sorted(names):
            if name.endswith(end):
                yield os.path.join(folder, name)


def read(path):
    with open(path, encoding="utf-8") as it:
        return it.read()


def declared():
    """The names that specs/ and the laws of proofs/ declare, with the files. A function's own proof declares only what the toolchain names."""
    out = {}
    for path in files(".antt"):
        if path.endswith("/Proof.antt"):
            continue
        for line in read(path).split("\n"):
            line = line.split(" -- ")[0]
            if line.lstrip().startswith(("--", "use ", "pub mod", "mod ", "module ")):
                continue
            m = HEAD.match(line)
            if m:
                for name in m.group(2).split():
                    out.setdefault(name, set()).add(path)
    return out


def table():
    out = {}
    for name in declared():
        if not MADE.fullmatch(name) and name[0].islower() and spelled(name) != name:
            out[name] = spelled(name)
    taken = set(declared()) | {to for name, to in out.items() if "-" not in name}
    return {name: to + "_lem" if "-" in name and to in taken else to for name, to in out.items()}


def turned(text, names, of_function=False):
    """In the proof of a function, a name with a dash behind a dot is a step or a goal that the toolchain named after the source, and no lemma,
    unless a module stands before the dot."""

    def one(m):
        before = re.search(r"([^\s(){}\[\];,.]*)\.$", text[: m.start()])
        made = of_function and "-" in m.group(0) and before and not before.group(1)[:1].isupper()
        return m.group(0) if made else names.get(m.group(0), m.group(0))

    return TOKEN.sub(one, text)


def in_ticks(text, names):
    return re.sub(r"`[^`]*`", lambda m: turned(m.group(0), names), text)


def camel(names):
    return {a: b for a, b in names.items() if "-" not in a}


def antt(text, names, path):
    out = []
    for line in text.split("\n"):
        at = re.search(r"(^|\s)--(\s|$)", line)
        code, comment = (line[: at.start()], line[at.start() :]) if at else (line, "")
        comment = in_ticks(turned(comment, camel(names)), names)
        out.append(turned(code, names, path.endswith("/Proof.antt")) + comment)
    return "\n".join(out)


def source(text, names, _path):
    """A clause of src/ begins with its word and ends before the line `{`; comments name things in backticks."""
    out, inside = [], False
    for line in text.split("\n"):
        word = line.strip()
        if word.startswith("//"):
            out.append(in_ticks(turned(line, camel(names)), names))
            continue
        if word.startswith(("requires", "ensures", "ghost ")):
            inside = True
        elif word.startswith(("{", "pub ", "fn ", "use ", "}")) or word == "":
            inside = False
        out.append(turned(line, names) if inside else line)
    return "\n".join(out)


def main(argv):
    for path, name in LEMMAS if not argv else []:
        text = read(path)
        with open(path, "w", encoding="utf-8") as it:
            it.write(re.sub(rf"(?<![\w.-]){name}(?![\w-])", name + "_lem", text))
    names = table()
    if argv == ["--list"]:
        for a, b in sorted(names.items()):
            print(f"{a}\t{b}")
        return 0
    by = {}
    for a, b in names.items():
        by.setdefault(b, []).append(a)
    whole = declared()
    clash = [f"{b}: {' '.join(a)}" for b, a in by.items() if len(a) > 1 or b in whole]
    if clash:
        print("names that would fall together:\n" + "\n".join(clash))
        return 1
    for end, turn in ((".antt", antt), (".rt", source)):
        for path in files(end):
            old = read(path)
            new = turn(old, names, path)
            if new != old:
                with open(path, "w", encoding="utf-8") as it:
                    it.write(new)
    return 0


if __name__ == "__main__":
    raise SystemExit(main(sys.argv[1:]))
