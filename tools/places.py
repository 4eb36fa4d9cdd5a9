#!/usr/bin/env python3
"""Lists the places of src/ that a reader would look at for a plainer form, by point, for whoever goes through the design once more.

    tools/places.py [FOLDER]     each place, and at the end how many there are by point

It goes by text and judges nothing: docs/DESIGN-PASS.md says of each kind what was found and what was made of it.
"""
import collections
import glob
import os
import re
import sys

folder = sys.argv[1] if len(sys.argv) > 1 else "."
FUNCTION = re.compile(r"^( *)(?:pub(?:\(crate\))? )?(?:extern \"C\" )?fn (\w+)(?:<[^>]*>)?\(", re.M)


def functions(text):
    """Name, line, signature with clauses, and body of each function with a body."""
    for m in FUNCTION.finditer(text):
        open_ = re.compile(r"^%s\{(.*?)^%s\}" % (m[1], m[1]), re.M | re.S)
        flat = re.compile(r"[^\n]*\{$|[^\n]*\{\}$", re.M)
        start = m.start()
        body = open_.search(text, start)
        same_line = re.search(r"\{\n", text[start:])
        if same_line and (not body or start + same_line.start() < body.start()):
            body = re.compile(r"\{\n(.*?)^%s\}" % m[1], re.M | re.S).search(text, start)
        if body and ";\n" not in text[start:body.start()]:
            yield m[2], text.count("\n", 0, start) + 1, text[start:body.start()], body[1]


def plain(body):
    """A body with its names numbered in their order, so that two that differ in names alone are the same."""
    seen = {}
    body = re.sub(r"//.*", "", body)
    return re.sub(r"[a-z_][a-z_0-9]*", lambda m: seen.setdefault(m[0], "n%d" % len(seen)), re.sub(r"\s+", " ", body))


places = collections.defaultdict(list)
bodies, clauses, pairs = collections.defaultdict(list), collections.defaultdict(list), collections.defaultdict(list)
for path in sorted(glob.glob(os.path.join(folder, "crates/*/src/*.rt"))):
    text = open(path).read()
    short = os.path.relpath(path, os.path.join(folder, "crates")).replace("src/", "")
    for number, line in enumerate(text.split("\n"), 1):
        at = "%s:%d %s" % (short, number, line.strip()[:90])
        if re.search(r"Refused\(u64\)|number: u64|Done::Refused\(number\)|=> None,$|=> false,$|return false;|Err\(full\) => Err", line):
            places["1 a code, or an arm that ? would write"].append(at)
        if re.match(r" *(while|loop)\b", line):
            places["3 while"].append(at)
        if re.match(r" *for \w+ in .*\.\..*\{", line) and not re.match(r" *for _ ", line):
            places["3 for over numbers"].append(at)
        if re.search(r"fn (is_same|is_before|is_below|eq|cmp|clone|first_bits|without_end|prefix_of|good_prefix|or_else|found|word_of)\b", line):
            places["4 compared or converted by hand"].append(at)
        if re.search(r"\(high - low\) / 2", line):
            places["6 halving by hand"].append(at)
        if re.search(r"free: &mut \[u32\],? ?(left|$)|, left: usize", line):
            places["6 a buffer with a length beside"].append(at)
    for name, line, head, body in functions(text):
        at = "%s:%d %s" % (short, line, name)
        result = re.search(r"\)\s*->\s*([\w<>&'\[\]; ()]+?)\s*(\n|$|\{)", head)
        if result and re.fullmatch(r"bool|u8|u16|u32|u64|usize", result[1].strip()) and not name.startswith("jeghrumo_"):
            places["1 a bool or a number answered"].append(at + " -> " + result[1].strip())
        if body.count("\n") >= 3:
            bodies[plain(body)].append(at)
        for clause in re.findall(r"requires (?:\w+ )?\{ (.*?) \}\n", head):
            clauses[re.sub(r"\.(old|now|new)\b", "", clause)].append(at)
        params = re.findall(r"(\w+): (&mut \[u32\]|&\[u32\]|&'a \[u32\]|usize|u32|u64|K)\b", re.sub(r"(requires|ensures).*", "", head))
        for first, second in zip(params, params[1:]):
            if "[" in first[1]:
                pairs[first[0] + ", " + second[0]].append(at)
for same in bodies.values():
    if len(same) > 1:
        places["2 bodies that are the same but for names"].append(" = ".join(same))
for clause, used in clauses.items():
    if len(used) > 2:
        places["5 a requires in three functions or more"].append("%s: %s" % (clause[:80], ", ".join(used)))
for pair, used in pairs.items():
    if len(used) > 2:
        places["5 a row and a number together in three functions or more"].append("%s: %s" % (pair, ", ".join(used)))
for point in sorted(places):
    print(point)
    for place in places[point]:
        print("    " + place)
for point in sorted(places):
    print("%4d  %s" % (len(places[point]), point))
