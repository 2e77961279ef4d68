#!/usr/bin/env python3
"""Respells the repository's own names of specs/ and proofs/ as today's Rattle does: definitions, lemmas, fields and constructors
in snake case, after port.py had turned only those that a library shares.

usage: python3 tools/respell.py            at the top of the repository, once, right after port.py
       python3 tools/respell.py --names    prints the table, old and new, and changes nothing

Words in camel case that begin with a small letter get underscores. A dash stays between two names of definitions, or of words
of the library, as in length-splice; before a plain word it becomes an underscore. Types, facts,
modules, the constants of IBM's headers, the attributes' names and everything that src/ names stay. Names that would fall together
with another are listed below with a name of their own.
"""

import os
import re
import sys

WORD = re.compile(r"[A-Za-z_ℕℤ][\w'₀-₉-]*")
# words of the library that lemmas are named by
LIBRARY = {"length", "take", "drop", "map", "cond", "sum", "replicate"}
# names that port.py gave a lemma or field, and that are a definition's now
APART: dict[str, str] = {"no_room": "no_room_holds", "last_digits": "last_digits_lem"}


def files(root):
    for folder, dirs, names in os.walk(os.path.join(root, "crates")):
        dirs[:] = sorted(d for d in dirs if d not in ("out", "must-fail"))
        for name in sorted(names):
            if name.endswith((".rt", ".antt")):
                yield os.path.join(folder, name)


def read(path):
    with open(path, encoding="utf-8") as file:
        return file.read()


def humps(part):
    """A word in camel case that begins with a small letter, in snake case."""
    if not re.match(r"[a-z]", part) or re.match(r"x[0-9A-F]+$", part):
        return part
    return re.sub(r"(?<=[a-z0-9])([A-Z])", lambda m: "_" + m.group(1).lower(), part)


def snake(word):
    return "-".join("_".join(humps(p) for p in piece.split("_")) for piece in word.split("-"))


DECLARED = re.compile(r"^(\s*)((?:abbrev |unfoldable |pub |infixl? \d+ )*)([^\s{(:;,]+)(\s+\{[^}]*\})*\s+:\s(.*)$")


def declared(paths):
    """Names of specs/ and of the lemma files of proofs/ with where they stand, and whether they are definitions of specs/."""
    names, definitions, fields = {}, set(), set()
    for path in paths:
        if not path.endswith(".antt"):
            continue
        inside = path.split(os.sep + "proofs" + os.sep)
        walked = len(inside) == 2 and os.sep in inside[1]
        for line in read(path).splitlines():
            match = DECLARED.match(line)
            if not match:
                continue
            name = match.group(3)
            names.setdefault(name, set()).add(walked)
            if match.group(1) and "pub" in match.group(2):
                fields.add(name)
            if len(inside) == 1 and not match.group(1):
                definitions.add(name)
    return names, definitions, fields


def joined(parts, words):
    """A dash joins two names, and an underscore adds a plain word."""
    out = parts[0]
    for part in parts[1:]:
        out += ("-" if parts[0] in words and part in words else "_") + part
    return out


def table(paths):
    names, definitions, fields = declared(paths)
    first = {snake(n) for n in definitions if "-" not in n} | LIBRARY
    taken = {snake(n) for n in names if "-" not in n}
    out = {}
    for name, where in names.items():
        if where == {True}:
            continue
        new = snake(name)
        if "-" in new and not new.startswith("+"):
            new = joined(new.split("-"), set() if name in fields else first)
            if new in taken:
                new += "_holds" if name in fields else "_lem"
        if new != name:
            out[name] = new
    # variables and parameters too
    for path in paths:
        for word in WORD.findall(read(path)):
            if word not in out and "-" not in word and snake(word) != word:
                out[word] = snake(word)
    out.update(APART)
    return out


def respelled(path, text, names):
    mark = "--" if path.endswith(".antt") else "//"
    lines = []
    for line in text.split("\n"):
        code, comment = line, ""
        at = line.find(mark + " ")
        if at >= 0 and (at == 0 or line[at - 1] == " "):
            code, comment = line[:at], line[at:]
        code = WORD.sub(lambda m: names.get(m.group(0), m.group(0)), code)
        comment = WORD.sub(lambda m: names.get(m.group(0), m.group(0)) if "-" not in m.group(0) else m.group(0), comment)
        comment = re.sub(r"`([^`]+)`", lambda m: "`" + WORD.sub(lambda w: names.get(w.group(0), w.group(0)), m.group(1)) + "`", comment)
        lines.append(code + comment)
    return "\n".join(lines)


def together(paths, names):
    """Pairs of names that would be one name in the same file. A function of src/ and the definition that it computes may share
    their name."""
    found = []
    for path in paths:
        if path.endswith(".rt") or re.search(r"/proofs/.+/", path):
            continue
        words = set(WORD.findall(read(path)))
        for word in sorted(words):
            new = names.get(word)
            if new and new in words and new not in names:
                found.append(f"{path}: {word} and {new}")
    return found


def main(arguments):
    root = os.getcwd()
    if not os.path.isdir(os.path.join(root, "crates")):
        print("respell: run it at the top of the repository", file=sys.stderr)
        return 2
    paths = list(files(root))
    names = table(paths)
    if "--names" in arguments:
        for old in sorted(names):
            print(f"{old}\t{names[old]}")
        for line in together(paths, names):
            print("together: " + line, file=sys.stderr)
        return 0
    clash = together(paths, names)
    if clash:
        print("\n".join("together: " + line for line in clash), file=sys.stderr)
        return 1
    for path in paths:
        text = read(path)
        new = respelled(path, text, names)
        if new != text:
            with open(path, "w", encoding="utf-8") as file:
                file.write(new)
    print(f"respell: {len(names)} names")
    return 0


if __name__ == "__main__":
    raise SystemExit(main(sys.argv[1:]))
