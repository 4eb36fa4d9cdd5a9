#!/usr/bin/env python3
"""Brings the names of this repository's own definitions and lemmas to today's spelling: words in snake case, types and facts in camel case.

usage: python3 tools/respell.py [--list]      at the top, right after /opt/rattle/port/port.py
It goes by the declarations in specs/ and proofs/, and leaves the names of goals and steps, which Rattle makes, and those of the library.
"""
import glob
import os
import re
import sys

# What may stand in a name of antt.
WORD = r"[^\s.(){}\[\];,λ⌜⌝∗]+"
DECLARED = re.compile(r"^\s*(?:pub\s+|unfoldable\s+|abbrev\s+|record\s+|data\s+)*(" + WORD + r")\s*(?:\(.*\)\s*)?:\s")
NAMED = re.compile(r"^\s*(?:(?:pub|unfoldable|abbrev)\s+)*(?:record|data)\s+(" + WORD + r")")


def files(endings):
    for path in sorted(glob.glob("crates/**", recursive=True)):
        if path.endswith(endings) and "/out/" not in path:
            yield path


def spelled(name):
    parts = name.replace("′", "'").split("-")
    if parts[0][:1].isupper():
        return "".join(part[:1].upper() + part[1:] for part in parts)
    return "_".join(parts)


def own_names():
    names = {}
    for path in files(".antt"):
        with open(path, encoding="utf-8") as text:
            for line in text:
                m = NAMED.match(line) or DECLARED.match(line)
                if not m or re.search(r":\s*(goal|given|need)\.", line):
                    continue
                name = m[1]
                if ("-" in name or "′" in name) and re.fullmatch(r"[A-Za-z][\w'′-]*", name):
                    names.setdefault(name, set()).add(path)
    return names


def imported(text):
    """Names that a file takes from modules that are not this repository's."""
    crates = [os.path.basename(os.path.dirname(p)) for p in glob.glob("crates/*/")]
    for module, names in re.findall(r"^\s*(?:ghost )?use ([\w.'-]+)\.\{([^}]*)\}", text, re.M):
        parts = module.split(".")
        if not (parts[0] == "Rattle" and parts[1] in crates):
            for name in names.split(","):
                yield name.strip().split(" as ")[-1].strip()


def main():
    names = own_names()
    new = {name: spelled(name) for name in names}
    if "--list" in sys.argv:
        for name in sorted(new):
            print(name, "->", new[name], " ".join(sorted(names[name])))
    token = re.compile(r"(?<![\w'′-])[A-Za-z][\w'′-]*(?![\w'′-])")
    changed = 0
    for path in list(files((".antt", ".rt", ".edit"))):
        with open(path, encoding="utf-8") as f:
            text = f.read()
        foreign = set(imported(text))

        def turn(m):
            name = m[0]
            before = text[max(0, m.start() - 6):m.start()]
            if name not in new or name in foreign or re.search(r"\b(goal|need|given)\.$", before):
                return name
            return new[name]

        turned = token.sub(turn, text)
        if turned != text:
            changed += 1
            if "--list" not in sys.argv:
                with open(path, "w", encoding="utf-8") as f:
                    f.write(turned)
    print(len(new), "names;", changed, "files")


main()
