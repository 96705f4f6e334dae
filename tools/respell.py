#!/usr/bin/env python3
"""Brings this repository's own names in specs/ and proofs/ to the spelling of its Rattle.

usage: python3 tools/respell.py      at the top of the repository, once, after /opt/rattle/port/port.py

A definition, a lemma, a field, a constructor or a bound name that is spelled with hyphens gets underscores (`bars-of` is `bars_of`), a type gets
capitals in place of the hyphens (`Bars-full` is `BarsFull`). Only names that a file of specs/ or a lemma file of proofs/ declares are turned, and only where
antt is read: in .antt files, and in the clauses and `ghost use` lines of .rt files. Names of functions in src/, of goals, and of Rattle's own
library keep their spelling. Where two names would fall together it says so and writes nothing.
"""

import os
import re
import sys

NAME = r"[A-Za-z_0-9'\u00b2-\u00b9\u2080-\u209c-]+"
TOKEN = re.compile(r"(?<![A-Za-z_0-9'\u00b2-\u00b9\u2080-\u209c·-])" + NAME)
DECLARED = re.compile(r"^\s*(?:abbrev |unfoldable )?(?:pub )?(?:abbrev |unfoldable )?(" + NAME + r") :(?: |$)")
BOUND = re.compile(r"\blet (" + NAME + r") [:=] |\((" + NAME + r") : ")
JOINED = re.compile(r"\b([a-z]+(?:-[a-z]+)+)-\+\+")
TYPE = re.compile(r"^\s*(?:pub )?(?:data|record) (" + NAME + r")")
USE = re.compile(r"^\s*(?:pub )?(?:ghost )?use ([A-Za-z_.0-9+]+)\.\{(.*)\}")
ANSWERS = re.compile(r"/(Answers|Invariants|Proof|Choices)\.antt$")


def files(root, ending):
    for folder, dirs, names in os.walk(os.path.join(root, "crates")):
        dirs[:] = sorted(d for d in dirs if d != "out")
        for n in sorted(names):
            if n.endswith(ending):
                yield os.path.join(folder, n)


def read(path):
    with open(path, encoding="utf-8") as f:
        return f.read()


def turned(name):
    if name[0].isupper():
        return "".join(w[:1].upper() + w[1:] for w in name.split("-"))
    return name.replace("-", "_")


def declared(path, text):
    """The names that a file declares; of a file of answers those that are no goals."""
    for line in text.split("\n"):
        if line.lstrip().startswith("--") or USE.match(line):
            continue
        m = TYPE.match(line) or DECLARED.match(line)
        if m and not (ANSWERS.search(path) and re.search(r" : goal\.", line)):
            yield m.group(1)


def own_names(root):
    """What this repository declares or calls so by `as`, what it only binds in a term, and what it takes from Rattle's library."""
    own, bound, library = set(), set(), set()
    for path in (*files(root, ".antt"), *files(root, ".rt")):
        text = read(path)
        if path.endswith(".antt"):
            own.update(declared(path, text))
            bound.update(a or b for a, b in BOUND.findall(text))
        for line in text.split("\n"):
            m = USE.match(line)
            if m and (path.endswith(".antt") or "ghost use" in line):
                own.update(n.split(" as ")[1].strip() for n in m.group(2).split(",") if " as " in n)
            if m and (not m.group(1).startswith("Rattle.") or m.group(1).startswith("Rattle.std")):
                library.update(n.split(" as ")[0].strip() for n in m.group(2).split(","))
    return own, bound - own, library


def falls_together(root, name):
    """Whether a file that binds a name has the name that it is to get."""
    texts = (set(TOKEN.findall(read(p))) for p in files(root, ".antt"))
    return any(name in words and turned(name) in words for words in texts)


def renaming(root):
    own, bound, library = own_names(root)
    names = {n: turned(n) for n in own | bound if "-" in n and "-" != n}
    together = [(n, m) for n, m in sorted(names.items()) if n in own and (m in own or sum(names[k] == m for k in names if k in own) > 1)]
    together += [(n, names[n]) for n in sorted(bound & names.keys()) if falls_together(root, n)]
    both = sorted(n for n in names if n in library)
    if together or both:
        sys.exit(f"respell: names that fall together: {together}; names of the library: {both}")
    return names


def turn_tokens(text, names):
    def turn(m):
        return names.get(m.group(0), m.group(0))

    # a dash stays where it joins a name to an operator
    return JOINED.sub(lambda m: turned(m.group(1)) + "-++", TOKEN.sub(turn, text))


def turn_comment(text, names):
    return re.sub(r"`[^`]*`", lambda m: turn_tokens(m.group(0), names), text)


def turn_antt(text, names):
    lines = []
    for line in text.split("\n"):
        m = re.search(r"(^|\s)--(\s|$)", line)
        code, comment = (line[: m.start()], line[m.start() :]) if m else (line, "")
        lines.append(turn_tokens(code, names) + turn_comment(comment, names))
    return "\n".join(lines)


def turn_rt(text, names):
    """Clauses begin with a line `requires`, `ensures` or `ghost` and end where their braces do."""
    lines, depth, inside = [], 0, False
    for line in text.split("\n"):
        if not inside and re.match(r"\s*(requires|ensures|ghost)\b", line):
            inside, depth = True, 0
        if inside and not line.lstrip().startswith("//"):
            lines.append(turn_tokens(line, names))
            depth += line.count("{") - line.count("}")
            inside = depth > 0
        else:
            lines.append(turn_comment(line, names) if "//" in line else line)
    return "\n".join(lines)


def main():
    root = os.getcwd()
    if not os.path.isdir(os.path.join(root, "crates")):
        sys.exit("respell: run it at the top of the repository")
    names = renaming(root)
    count = 0
    for ending, turn in ((".antt", turn_antt), (".rt", turn_rt)):
        for path in files(root, ending):
            old = read(path)
            new = turn(old, names)
            if new != old:
                count += 1
                with open(path, "w", encoding="utf-8") as f:
                    f.write(new)
    print(f"respell: {len(names)} names, {count} files")


if __name__ == "__main__":
    main()
