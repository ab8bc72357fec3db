#!/usr/bin/env python3
"""Lists the places of src/ that docs/DESIGN-PASS.md counts: places.py [POINT..], at the top of a checkout.

Each point has a search of its own, by the text alone: what it finds is a place to look at, and not yet a fault. The last line of a point
is its count.
"""

import collections
import glob
import re
import sys

FUNCTION = re.compile(r"^\s*(?:#\[[^\]]*\]\s*)?(?:pub )?(?:extern \"C\" )?fn (\w+)", re.M)


def files():
    return {path: open(path, encoding="utf-8").read() for path in sorted(glob.glob("crates/*/src/*.rt"))}


def functions(text):
    """Each function's name, line, parameters, clauses and body."""
    for found in FUNCTION.finditer(text):
        start = text.index("(", found.end())
        end, depth = start, 0
        for end in range(start, len(text)):
            depth += {"(": 1, ")": -1}.get(text[end], 0)
            if depth == 0:
                break
        body = re.search(r"\n(\s*)\{\n(.*?)\n\1\}", text[end:], re.S) or re.search(r" \{\n(.*?)\n\}", text[end:], re.S)
        clauses = text[end : end + body.start()] if body else ""
        yield {
            "name": found.group(1),
            "line": text.count("\n", 0, found.start(1)) + 1,
            "parameters": re.sub(r"\s+", " ", text[start + 1 : end]).strip(" ,"),
            "clauses": clauses,
            "body": body.group(body.lastindex) if body else "",
        }


def lines(texts, pattern, of=None):
    for path, text in texts.items():
        for number, line in enumerate(text.split("\n"), 1):
            if re.match(r"\s*(//|ghost use)", line):
                continue
            if re.search(pattern, line) and (of is None or of(line)):
                yield f"{path}:{number}: {line.strip()}"


def kinds(texts):
    """1. Own enums; a flag with a value beside it; numbers for kinds or refusals."""
    yield from lines(texts, r"^\s*(pub )?enum ")
    for path, text in texts.items():
        for it in functions(text):
            if re.search(r"\b(known|asked|fits|found|fitting): bool", it["parameters"]):
                yield f"{path}:{it['line']}: {it['name']}({it['parameters']})"
    yield from lines(texts, r"\b(255|65536|131072|655360)\b", lambda line: not re.search(r"requires|ensures", line))
    yield from lines(texts, r"const \w+: \[u8; 16\]")
    for path, text in texts.items():
        for it in functions(text):
            if re.search(r"_(asked|number|named)$|^is_part$", it["name"]):
                yield f"{path}:{it['line']}: fn {it['name']}"


def shape(body):
    """The body with a letter for each name and number."""
    body = re.sub(r"//.*", "", body)
    body = re.sub(r"\b(if|else|return|let|mut|for|in|match|while|true|false|as)\b", r"<\1>", body)
    body = re.sub(r"(?<!<)\b[A-Za-z_]\w*(::\w+)*\b(?!>)", "I", body)
    body = re.sub(r"\b(0x)?[0-9][0-9A-Fa-f_]*(u8|u16|u32|usize)?\b", "N", body)
    return re.sub(r"\s+", "", body)


def twins(texts):
    """2. Functions of one shape: their bodies are the same but for names and numbers."""
    groups = collections.defaultdict(list)
    for path, text in texts.items():
        if "/binturamis_c/" in path:
            continue
        for it in functions(text):
            if len(it["body"].strip().split("\n")) > 1 or it["body"].count("(") > 1:
                groups[shape(it["body"])].append(f"{path}:{it['line']}: {it['name']}")
    for group in groups.values():
        if len(group) > 1:
            yield from group


def loops(texts):
    """3. Loops."""
    yield from lines(texts, r"^\s*(for|while|loop)\b")


def hands(texts):
    """4. Equality, order, copying, conversion and printing."""
    for path, text in texts.items():
        for it in functions(text):
            if re.search(r"^(same_|copy_|put_(eight|marks|ten)$|flag$|index$|byte$|number$|value$|rows$|print_)|_(from|named|number)$", it["name"]):
                yield f"{path}:{it['line']}: fn {it['name']}"


def facts(texts):
    """5. A fact in the clauses of three functions or more; parameters that travel together."""
    clauses, together = collections.Counter(), collections.Counter()
    for text in texts.values():
        for it in functions(text):
            found = re.search(r"requires \{(.*?)\}\s*\n", it["clauses"], re.S)
            if found:
                parts = re.split(r" × ", re.sub(r"\s+", " ", found.group(1)).strip())
                clauses.update({re.sub(r"^\((.*)\)$", r"\1", part.strip()) for part in parts})
            names = sorted({name for name in re.findall(r"(\w+): ", it["parameters"])})
            together.update((a, b) for i, a in enumerate(names) for b in names[i + 1 :])
    for clause, count in clauses.most_common():
        if count >= 3:
            yield f"{count} times: {clause}"
    for (a, b), count in together.most_common():
        if count >= 6:
            yield f"{count} functions: {a}, {b}"


def buffers(texts):
    """6. Arrays side by side, a length beside an array, and numbered parameters or fields."""
    for path, text in texts.items():
        for it in functions(text):
            arrays = re.findall(r"\w+: &?(?:mut )?\[[^;]+; (\d+)\]", it["parameters"])
            if len(arrays) != len(set(arrays)) or re.search(r"\bbytes: u8\b", it["parameters"]):
                yield f"{path}:{it['line']}: {it['name']}({it['parameters']})"
    yield from lines(texts, r"^\s+pub \w+\d: ")


def switches(texts):
    """7. A match of which two arms or more call functions with the same arguments; tables of functions."""
    for path, text in texts.items():
        for it in functions(text):
            for found in re.finditer(r"match [^{]*\{(.*?)\n\s*\}", it["body"], re.S):
                called = re.findall(r"=> (?:\{\s*)?[a-z_]\w*\(([^()]*)\)", found.group(1))
                if len(called) >= 2 and len(set(called)) < len(called):
                    yield f"{path}:{it['line']}: {it['name']}"
    yield from lines(texts, r"\bfn\(|\bdyn\b")


def proofs(_):
    """8. Answers and lemmas, in lines, by crate."""
    for crate in sorted(glob.glob("crates/*/proofs")):
        answers = sum(open(path, encoding="utf-8").read().count("\n") for path in glob.glob(f"{crate}/**/Answers.antt", recursive=True))
        own = sum(open(path, encoding="utf-8").read().count("\n") for path in glob.glob(f"{crate}/*.antt"))
        if answers or own:
            yield f"{crate}: {answers} lines of answers, {own} of lemmas"


POINTS = [kinds, twins, loops, hands, facts, buffers, switches, proofs]


def main():
    texts = files()
    for number in [int(word) for word in sys.argv[1:]] or range(1, 9):
        point = POINTS[number - 1]
        print(point.__doc__)
        found = list(dict.fromkeys(point(texts)))
        for place in found:
            print("  " + place)
        print(f"point {number}: {len(found)}")


main()
