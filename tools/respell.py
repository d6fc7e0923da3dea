#!/usr/bin/env python3
"""Spells this repository's own definitions and lemmas as the toolchain's library does.

usage: python3 tools/respell.py      at the top of the repository, once, right after the toolchain's own port script

A name with dashes that a file of specs/ or proofs/ defines becomes snake case, a type or a fact upper camel case:
quote-of is quote_of, Edges-hold is EdgesHold. Names that the prover makes (the goals that an answer file answers, the
steps that it cites) keep their dashes, as do the library's lemmas. In pages (README.md, docs/) the names between
backquotes follow. Strings and the prose of comments stay.
"""

import os
import re

NAME = r"[^\W\d][\w']*(?:-[\w']+)+"
ANSWERS = ("Answers.antt", "Invariants.antt", "Proof.antt")
HEAD = re.compile(r"^( *)(?:abbrev |unfoldable )?(pub )?(?:abbrev |unfoldable )?(?:data |record )?(" + NAME + r")(?= *[:({])", re.M)
# bound by patterns and imports alone, and a definition that has a goal's name
MORE = {"answer-of", "bid-size", "ask-size", "kept-days", "today-counted", "month-counted", "same-thing", "at-end"}
BINDER = re.compile(r"\(((?:[^\s():.]+ )+): ")


def sources(endings):
    for folder, dirs, names in os.walk("crates"):
        dirs[:] = sorted(d for d in dirs if d != "out")
        for name in sorted(names):
            if name.endswith(endings):
                yield os.path.join(folder, name)


def own_names():
    """What specs/ and proofs/ define or bind, but for the goals that answer files answer."""
    own, goals = set(), set()
    for path in sources((".antt",)):
        with open(path, encoding="utf-8") as f:
            text = re.sub(r"--.*", "", f.read())
        for m in HEAD.finditer(text):
            is_goal = path.endswith(ANSWERS) and m.group(2) and not m.group(1)
            (goals if is_goal else own).add(m.group(3))
        for m in BINDER.finditer(text):
            own.update(n for n in m.group(1).split() if re.fullmatch(NAME, n))
    return (own - goals) | MORE


def spelled(name):
    parts = name.split("-")
    if name[0].isupper():
        return "".join(p[:1].upper() + p[1:] for p in parts)
    return "_".join(parts)


def respell(text, own):
    return re.sub(r"(?<![\w'-])" + NAME + r"(?![\w'-])", lambda m: spelled(m.group()) if m.group() in own else m.group(), text)


def in_code(text, own, comment):
    """Outside strings, and in a comment only between backquotes."""
    out = []
    for line in text.split("\n"):
        at = line.find(comment)
        code, said = (line, "") if at < 0 else (line[:at], line[at:])
        code = "".join(p if p.startswith('"') else respell(p, own) for p in re.split(r'("(?:[^"\\]|\\.)*")', code))
        out.append(code + quoted(said, own))
    return "\n".join(out)


def quoted(text, own):
    return re.sub(r"`[^`\n]*`", lambda m: respell(m.group(), own), text)


def rewrite(path, turn):
    with open(path, encoding="utf-8") as f:
        old = f.read()
    new = turn(old)
    if new != old:
        with open(path, "w", encoding="utf-8") as f:
            f.write(new)


def main():
    own = own_names()
    for path in sources((".antt",)):
        rewrite(path, lambda text: in_code(text, own, "--"))
    for path in sources((".rt",)):
        rewrite(path, lambda text: in_code(text, own, "//"))
    pages = ["README.md"] + [os.path.join("docs", n) for n in sorted(os.listdir("docs")) if n.endswith(".md")]
    for path in pages:
        rewrite(path, lambda text: quoted(text, own))
    print(f"respell: {len(own)} names")


main()
