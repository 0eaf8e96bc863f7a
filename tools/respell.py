#!/usr/bin/env python3
"""Brings the names of definitions, lemmas and steps to snake case, and those of facts to camel case.

usage: python3 tools/respell.py            at the top of a checkout, once

A name of the repository's own with dashes between its words is one that a file of specs/ or proofs/ declares: a
definition, a lemma, a field, a parameter or a `let`. It gets underscores; a type gets camel case. A name that the
checker makes of the sources keeps the dashes between its parts, and the sources' own spelling in each part. Names of
the library alone are not touched, nor are comments, strings and the code of functions.
"""

import glob
import re

TOKEN = r"[A-Za-z_Ͱ-Ͽ][\w'′]*(?:-[\w'′]+)+"
MARKS = r"\s*(?:(?:pattern|unfoldable|abbrev|pub)\s+)*"
# What the checker makes of a step, a loop or a goal.
MADE = re.compile(
    r"^(returns|in|if|then|else|loop|invariant|decreases|index|overflow|bounds|from-residual|nonzero|slice|deref|with)-"
)
PARTS = {
    "in-err": "in_err",
    "in-ok": "in_ok",
    "in-default": "in_default",
    "invariant-of": "invariant_of",
    "overflow-add": "overflow_add",
    "overflow-sub": "overflow_sub",
    "overflow-mul": "overflow_mul",
    "from-residual": "from_residual",
    "deref-mut": "deref_mut",
}


def code_of(line, mark):
    return line.split(mark, 1)[0] if mark in line else line


def antt_files():
    return sorted(glob.glob("crates/**/*.antt", recursive=True))


def rattle_files():
    return sorted(glob.glob("crates/**/*.rt", recursive=True))


def declared():
    """The names with dashes that the repository itself declares."""
    names = set()
    for path in antt_files():
        for line in open(path, encoding="utf-8"):
            code = code_of(line, "--")
            head = re.match(MARKS + r"(?:(?:data|record)\s+)?(" + TOKEN + r")(?:\s|$)", code)
            if head and (re.search(r"\s(?:data|record)\s", " " + code[: head.start(1)]) or re.search(r":(?!:)", code)):
                if not re.search(r":\s*goal\.", code):
                    names.add(head.group(1))
            names.update(re.findall(r"\blet\s+(" + TOKEN + r")\s*[:=]", code))
            for group in re.findall(r"[({]((?:[\w'-]+\s+)*[\w'-]+)\s*:", code):
                names.update(n for n in group.split() if re.fullmatch(TOKEN, n))
    return {n for n in names if not MADE.match(n) or n in OWN_IN_SPITE}


# Names of the library, or of a step, that would be taken for names of the sources.
LEFT = {"add-one", "cut-in-loop-trade"}

# Names of the repository's own that begin like one that the checker makes.
OWN_IN_SPITE = {"if-cut", "if-same", "if-same-le", "if-same-split", "if-withdrawn", "in-range", "in-ranges", "in-rank", "in-band", "in-feed", "in-money", "with-body", "with-group",
                "with-group-some", "with-last", "with-next", "with-order"}


def respelled(name):
    """A type, whose name begins with a capital, in camel case; anything else in snake case."""
    if name[0].isupper():
        return "".join(word[0].upper() + word[1:] for word in name.split("-"))
    return name.replace("-", "_")


def source_words():
    """The names of the sources that have an underscore, as the older checker spelled them in a step's name."""
    words = {}
    for path in rattle_files():
        for line in open(path, encoding="utf-8"):
            for word in re.findall(r"\b[A-Za-z]\w*_\w+\b", code_of(line, "//")):
                words[word.replace("_", "-")] = word
    return words


def made(name, words):
    """A name that the checker makes, with the sources' own spelling in its parts."""
    parts = name.split("-")
    out = []
    at = 0
    while at < len(parts):
        for end in range(len(parts), at, -1):
            piece = "-".join(parts[at:end])
            if piece in words or piece in PARTS:
                out.append(words.get(piece) if piece in words else PARTS[piece])
                at = end
                break
        else:
            out.append(parts[at])
            at += 1
    return "-".join(out)


def turn_code(code, names, words, is_proof):
    """The code with its names respelled; a string stays as it is."""

    def put(match):
        if match.group("name") is None:
            return match.group(0)
        name = match.group("name")
        before = code[: match.start()]
        if name.endswith("-is") and re.search(r"\bw\.$", before):
            return name
        if name in names:
            return respelled(name)
        if is_proof and name not in LEFT:
            return made(name, words)
        return name

    return re.sub(r'"(?:[^"\\]|\\.)*"|(?<![\w\'-])(?P<name>' + TOKEN + ")", put, code)


def turn(path, names, words, mark):
    is_proof = path.endswith(("/Answers.antt", "/Invariants.antt"))
    lines = []
    for line in open(path, encoding="utf-8").read().split("\n"):
        code = code_of(line, mark)
        rest = line[len(code) :]
        lines.append(turn_code(code, names, words, is_proof) + rest)
    with open(path, "w", encoding="utf-8") as out:
        out.write("\n".join(lines))


def main():
    names = declared()
    words = source_words()
    for path in antt_files():
        turn(path, names, words, "--")
    for path in rattle_files():
        turn(path, names, {}, "//")


if __name__ == "__main__":
    main()
