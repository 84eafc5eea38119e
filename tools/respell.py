#!/usr/bin/env python3
"""Brings this repository's own definitions and lemmas to today's spelling: run once, at the top, after port.py.

A name of specs/ or proofs/ with a dash becomes snake_case, and one that begins with a capital becomes CamelCase. Names that
Rattle makes (`X : goal.X`), names of std and names of src/ keep their spelling. Pages (README.md, docs/) are turned where they quote a
name between backticks. With --list it writes nothing and prints old and new."""
import collections
import os
import re
import sys

TOKEN = re.compile(r"[^\s(){}\[\].,;:`\"λ→×⌜⌝=]+")
DEF = re.compile(r"^\s*(?:(?:abbrev|unfoldable|pub|record|data|let|\|)\s+)*([^\s(){}\[\].,;:`\"λ→×=]*-[^\s(){}\[\].,;:`\"λ→×=]*)\s*(?:[({].*?[)}]\s*)*:(?:\s|$)")
LET = re.compile(r"\blet\s+([^\s(){}\[\].,;:`\"λ→×=]*-[^\s(){}\[\].,;:`\"λ→×=]*)\s*(?::|=)")
# Names that would fall together with another, each with the name that it gets.
APART = {"Landmarks-visited": "LandmarksAreVisited", "Orderings-kept": "OrderingsAreKept"}


DASHED = r"[^\s(){}\[\].,;:`\"λ→×=]*[^\W\d_◌]-[^\s(){}\[\].,;:`\"λ→×=]+"
# What binders, aliases and the arguments of specs name.
BINDER = re.compile(r"[({]((?:[^\s(){}:]+\s+)+):|λ\s+((?:[^\s(){}.]+\s*)+)\.")
ALIAS = re.compile(r"\bas (" + DASHED + ")")


def files(*endings):
    for folder, dirs, names in os.walk("crates"):
        dirs[:] = sorted(d for d in dirs if d != "out")
        for n in sorted(names):
            if n.endswith(endings):
                yield os.path.join(folder, n)


def read(p):
    with open(p, encoding="utf-8") as f:
        return f.read()


def functions():
    found = set()
    for p in files(".rt"):
        found.update(re.findall(r"\bfn (\w+)", read(p)))
    return found


def turned(name, taken):
    """The name's new spelling; a lemma or definition that would have a function's name gets `_lem`."""
    if name in APART:
        return APART[name]
    parts = name.split("-")
    if name[0].isupper():
        return "".join(p[:1].upper() + p[1:] for p in parts)
    new = "_".join(parts)
    return new + "_lem" if new in taken else new


def own_names():
    own, made, used = set(), set(), set()
    for p in files(".antt"):
        for line in read(p).split("\n"):
            m = DEF.match(line)
            if m:
                (made if re.search(r":\s*(?:goal|need|given)\.", line) else own).add(m[1])
            own.update(LET.findall(line))
            own.update(ALIAS.findall(line))
            for b in BINDER.findall(line):
                own.update(n for n in (b[0] + " " + b[1]).split() if re.fullmatch(DASHED, n))
            m = re.match(r"(?:pub )?(?:ghost )?use (Rattle\.std|mathlib|native|Prim|lib|borrow|logic|denote|base)[\w.\-]*\.\{(.*)\}", line)
            if m:
                for part in m[2].split(","):
                    used.add(part.split(" as ")[0].strip().split(".")[-1])
    for p in files(".antt"):
        if "/specs/" in p:
            own.update(n for n in re.findall(r"(?<![.\w-])" + DASHED, re.sub(r"--.*", "", read(p))))
    return {n for n in own - made - used if not re.fullmatch(r"[-◌+*/%^<≤≡∷]+", n) and "◌" not in n}, own & (made | used)


def all_names():
    names = collections.Counter()
    for p in files(".antt", ".rt"):
        names.update(TOKEN.findall(re.sub(r"--.*|//.*", "", read(p))))
    return names


def turn(text, map_):
    return TOKEN.sub(lambda m: map_.get(m[0], m[0]), text)


def quoted(text, map_):
    return re.sub(r"`[^`\n]*`", lambda m: turn(m[0], map_), text)


def code(line, map_):
    """A line of a .rt file: neither its strings nor its comment, but for what the comment quotes."""
    parts = re.split(r'("(?:[^"\\\\]|\\\\.)*"|//.*)', line)
    return "".join(quoted(s, map_) if s.startswith("//") else s if s.startswith('"') else turn(s, map_) for s in parts)


def main():
    own, left = own_names()
    taken = functions()
    map_ = {n: turned(n, taken) for n in sorted(own)}
    have = all_names()
    back = collections.defaultdict(list)
    for old, new in map_.items():
        back[new].append(old)
    for new, olds in sorted(back.items()):
        if len(olds) > 1 or new in have:
            print("falls together:", new, olds, have.get(new, 0))
    if "--list" in sys.argv:
        for old, new in map_.items():
            print(old, new)
        print("left:", sorted(left))
        return
    for p in files(".antt", ".rt"):
        text = read(p)
        if p.endswith(".antt"):
            new = "\n".join(quoted(line, map_) if line.lstrip().startswith("--") else turn(line, map_) for line in text.split("\n"))
        else:
            new = "\n".join(code(line, map_) for line in text.split("\n"))
        if new != text:
            with open(p, "w", encoding="utf-8") as f:
                f.write(new)
    pages = ["README.md"] + sorted(os.path.join("docs", n) for n in os.listdir("docs") if n.endswith(".md"))
    for p in pages:
        text = read(p)
        new = quoted(text, map_)
        if new != text:
            with open(p, "w", encoding="utf-8") as f:
                f.write(new)


if __name__ == "__main__":
    main()
