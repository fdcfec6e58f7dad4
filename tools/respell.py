#!/usr/bin/env python3
"""Spells the repository's own definitions and lemmas as today's library spells its own.

usage: python3 tools/respell.py [FOLDER]      (once, after port.py, at the top of the repository or in FOLDER)

Words are in snake case (above-limit, ruleOf: above_limit, rule_of), facts and types in upper camel case
(Never-falls: NeverFalls), and a prime is an apostrophe. Names that Rattle makes, in a function's answers and
invariants, names of a library, and the names of src/ stay. Prints each name that it changes; it stops, with
nothing written, where two names would fall together: two old ones in one new name within a file, or a new name that
stands in the file already. A name may become that of a function of src/, which no clause can name.
"""

import os
import re
import sys

NAME = r"[^\s(){}.;,@\"«»⌜⌝\[\]]+"
WORD = re.compile(NAME)
MADE = re.compile(r"/proofs/(?:.*/)?(?:Answers|Invariants|Choices|Proof)\.antt$")
SIGNATURE = re.compile(rf"^[ \t]*(?:pub |abbrev |unfoldable |data |record |module )*({NAME})(?: [^=\n]*?)? :(?: |$)", re.M)
HEAD = re.compile(rf"^[ \t]*(?:pub |abbrev |unfoldable )*(?:data|record) ({NAME})", re.M)
BOUND = re.compile(rf"[({{]((?:{NAME} )+):")
LET = re.compile(rf"\blet ({NAME}) [:=]")
LAMBDA = re.compile(rf"λ ((?:{NAME} ?)+)\.")
USE = re.compile(r"^\s*(?:pub |ghost )*use ([^\s{;]+?)\.?(?:\{([^}]*)\})?(?: as (\S+?))?;?$", re.M)
OWN = re.compile(r"Rattle\.(?:%s)\b")


def files(root):
    for folder, dirs, names in os.walk(os.path.join(root, "crates")):
        dirs[:] = sorted(d for d in dirs if d != "out")
        for name in sorted(names):
            if name.endswith((".rt", ".antt")):
                yield os.path.join(folder, name)


def respelled(name):
    if not re.fullmatch(r"[A-Za-z0-9_'′₀-₉-]+", name) or not re.match(r"[A-Za-z]", name):
        return name
    name = name.replace("′", "'")
    if name[0].isupper():
        return "".join(part[:1].upper() + part[1:] for part in re.split(r"[-_]", name)) if "-" in name else name
    return re.sub(r"(?<=[a-z0-9])([A-Z])", lambda m: "_" + m[1].lower(), name).replace("-", "_")


def code_of(line, comment):
    """The part of a line before its comment, and the rest."""
    at = re.search(rf"(?:^|\s){comment}(?:\s|$|[/!])", line)
    return (line[: at.start()], line[at.start() :]) if at else (line, "")


def declared(text):
    found = set(SIGNATURE.findall(text)) | set(HEAD.findall(text)) | set(LET.findall(text))
    for group in BOUND.findall(text) + LAMBDA.findall(text):
        found.update(group.split())
    return found


def main():
    root = sys.argv[1] if len(sys.argv) > 1 else "."
    crates = sorted(os.listdir(os.path.join(root, "crates")))
    own_path = re.compile(r"Rattle\.(?:%s)\." % "|".join(crates))
    texts = {path: open(path, encoding="utf-8").read() for path in files(root)}
    own, foreign = set(), set()
    for path, text in texts.items():
        plain = "\n".join(code_of(line, "--" if path.endswith(".antt") else "//")[0] for line in text.split("\n"))
        if path.endswith(".antt") and not MADE.search(path):
            own |= declared(plain) | {word for word in WORD.findall(plain) if re.fullmatch(r"[a-z0-9]+(-[a-z0-9]+)+", word)}
        for where, names, alias in USE.findall(plain):
            words = set(WORD.findall(names)) or {where.split(".")[-1]}
            if own_path.match(where):
                own |= {n.split(" as ")[1].strip() for n in names.split(",") if " as " in n}
            else:
                foreign |= words
    table = {name: respelled(name) for name in own if respelled(name) != name}
    for name in sorted(set(table) & foreign):
        print(f"{name}: a library's, and stays")
        del table[name]
    functions = {it for path, text in texts.items() if path.endswith(".rt") for it in re.findall(r"\bfn (\w+)", text)}
    clash, new = [], {}
    for path, text in texts.items():
        comment = "--" if path.endswith(".antt") else "//"
        words, lines = set(), []
        for line in text.split("\n"):
            code, rest = code_of(line, comment)
            words |= set(WORD.findall(code))
            lines.append(WORD.sub(lambda m: table.get(m[0], m[0]), code) + rest)
        clash += [f"{path}: {a} would be {table[a]}" for a in words & set(table) if table[a] in words - functions]
        turned = [table[word] for word in words & set(table)]
        clash += [f"{path}: two names would be {name}" for name in sorted({it for it in turned if turned.count(it) > 1})]
        new[path] = "\n".join(lines)
    if clash:
        print("\n".join(clash))
        return 1
    for path, text in new.items():
        if text != texts[path]:
            with open(path, "w", encoding="utf-8") as out:
                out.write(text)
    for name in sorted(table):
        print(f"{name} -> {table[name]}")
    return 0


if __name__ == "__main__":
    raise SystemExit(main())
