#!/usr/bin/env python3
"""Brings this repository's own definitions and lemmas to the spelling of today's Rattle; run once, after the kit's port.py.

Words are in snake case. A dash joins the names of two definitions or functions, as in `length-run`; a plain word is added
with `_`. Names of functions in src/ and exported names stay. `respell.py --list` prints old and new names and changes nothing.
"""
import collections
import glob
import re
import sys

ANTT = sorted(glob.glob("crates/*/specs/**/*.antt", recursive=True) + glob.glob("crates/*/proofs/**/*.antt", recursive=True))
CODE = sorted(glob.glob("crates/*/src/**/*.rt", recursive=True))
EDITS = sorted(glob.glob("crates/*/must-fail/*.edit"))
PAGES = ["README.md", "CONTRIBUTING.md", "docs/ARCHITECTURE.md", "docs/CLAIMS.md", "docs/DECISIONS.md", "docs/FIGURES.md"] + sorted(
    glob.glob("docs/landings/*.md"))

DECLARED = re.compile(r"^ {0,2}(?:abbrev |unfoldable |pub )*([^\s:(){}λ,.;]+) :\s")
# An identifier, its parts not joined to anything else: `.` separates the parts of a path.
TOKEN = re.compile(r"(?<![\w'?-])[^\W\d_][\w'?-]*")
# How a line that is no code begins, by a file's ending.
COMMENT = {"antt": r"^\s*--", "rt": r"^\s*//", "edit": r"^(?!old: |new: )"}
# Words of the library that lemmas are named after.
LIBRARY = set("""length get put set map take drop append fold sum neg add sub mul abs mag list head tail low32 wrap pos negsuc
and or not cond div mod min max pow digits reverse zip filter""".split())
# What falls together with another name in the same file, or with a name of the library, gets a name of its own.
OWN = {"outOfRange": "is_out_of_range", "plane-bytes": "bytes_of_planes", "sample-bytes": "bytes_of_samples"}


def read(path):
    with open(path, encoding="utf-8") as f:
        return f.read()


def snake(name):
    return re.sub(r"(?<=[a-z0-9])([A-Z])", lambda m: "_" + m.group(1).lower(), name)


def declared():
    """The names that stand at the head of a declaration, a field or a constructor, each with its files."""
    names = collections.defaultdict(set)
    for path in ANTT:
        for line in read(path).split("\n"):
            m = DECLARED.match(line)
            if m and not re.search(r": tie\.", line):
                names[m.group(1)].add(path)
    return names


def functions():
    return {m.group(1) for path in CODE for m in re.finditer(r"\bfn (\w+)", read(path))}


def renamed():
    names = declared()
    words = LIBRARY | functions()
    for name, files in names.items():
        if any("/specs/" in f for f in files) and "-" not in name:
            words |= {name, snake(name)}
    out = {}
    for name in names:
        if not re.match(r"[a-z]", name) or name in ("invariant-loop", "decreases-loop"):
            continue
        if re.search(r"^(invariant|decreases)-|-spec$|^[a-z]$", name):
            continue
        new = snake(name)
        if "-" in new:
            parts = new.split("-")
            if not all(p in words or not p[:1].isalpha() for p in parts):
                new = new.replace("-", "_")
        if new != name:
            out[name] = OWN.get(name, new)
    # A lemma that would have its function's name.
    for name, new in out.items():
        if "-" in name and list(out.values()).count(new) > 1:
            out[name] = new + "_lem"
    return out


def foreign(text):
    """The names that a file takes from the library."""
    ours = {path.split("/")[1] for path in ANTT + CODE}
    names = set()
    for m in re.finditer(r"^(?:ghost )?use ([^{\s]+)\.\{(.*)\};?$", text, re.M):
        parts = m.group(1).split(".")
        if parts[0] != "Rattle" or parts[1] not in ours:
            names |= {item.split(" as ")[-1].strip() for item in m.group(2).split(",")}
    return names


def turned(path, text, new_names):
    """The text with new names: everywhere for words in camel case; those with a dash, which may be English, only in code."""
    kept = foreign(text)
    new_names = {old: new for old, new in new_names.items() if old not in kept}
    camel = {old: new for old, new in new_names.items() if "-" not in old}

    def put(names, part):
        def one(m):
            new = names.get(m.group(0), m.group(0))
            # After a dot stands a field or a step of a proof, and no lemma.
            field = new.endswith("_lem") and part[: m.start()].endswith(".")
            return m.group(0) if field else new

        return TOKEN.sub(one, part)

    if path.endswith(".md"):
        return re.sub(r"`[^`\n]+`", lambda m: put(new_names, m.group(0)), text)
    mark = COMMENT[path.rsplit(".", 1)[1]]
    return "\n".join(put(camel if re.match(mark, line) else new_names, line) for line in text.split("\n"))


def tokens(text):
    return set(TOKEN.findall(text))


def main():
    new_names = renamed()
    if "--list" in sys.argv:
        for old in sorted(new_names):
            print(old, new_names[old])
    clashes = collections.defaultdict(set)
    for path in ANTT + CODE:
        here = tokens(read(path))
        for old in here & new_names.keys():
            new = new_names[old]
            if new in here and new not in OWN.values():
                clashes[old, new].add(path)
    for (old, new), paths in sorted(clashes.items()):
        print("clash:", old, new, " ".join(sorted(paths)[:3]), file=sys.stderr)
    both = collections.defaultdict(set)
    for old, new in new_names.items():
        both[new].add(old)
    old_names = declared()
    for new, olds in sorted(both.items()):
        if len(olds) > 1 or new in old_names:
            print("falls together:", new, sorted(olds), file=sys.stderr)
    if "--list" in sys.argv:
        return
    for path in ANTT + CODE + EDITS + PAGES:
        text = read(path)
        after = turned(path, text, new_names)
        if after != text:
            with open(path, "w", encoding="utf-8") as f:
                f.write(after)


if __name__ == "__main__":
    main()
