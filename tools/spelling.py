#!/usr/bin/env python3
"""Respells the repository's own definitions and lemmas: run once, after the kit's port.py, at the top of the repository.

A definition, a field or a constructor has its words joined by `_` (`hex-value` is `hex_value`, `inLine` is `in_line`). A lemma keeps `-`
where it joins two names (`take-live`), and has `_` before any other word (`path_is`). Where two names would fall together, the lemma gets
`_lem` behind it. Texts, functions of src/, exported names and generated names stay as they are.

usage: spelling.py [--list]     --list prints the names and changes nothing
"""
import collections
import os
import re
import sys

WORD = r"[^\s(){}.;,λ⌜⌝\[\]|«»\"`]+"
DECLARED = re.compile(r"^(\s*)((?:pub |abbrev |unfoldable |axiom )*)(" + WORD + r") :(?=\s|$)")
HEAD = re.compile(r"^\s*((?:pub |abbrev |unfoldable )*)(record|data|module)\s+(" + WORD + r")")
TOKEN = re.compile(r"\"(?:[^\"\\]|\\.)*\"|" + WORD)
FREE = re.compile(r"\"(?:[^\"\\]|\\.)*\"|(?<![.\w])" + WORD)
IMPORT = re.compile(r"use [^\s{]+\.\{([^}]*)\}")

# Names that would fall together with another of ours, or with a field of src/; and two that only look so.
OWN = {
    "extOf": "ext_pos_of",
    "judgeBy": "judged_by",
    "valueFrom": "hex_value_from",
    "behindName": "place_behind_name",
    "primary-length": "length_of_primary",
    "lineStep": "next_line_pos",
    "hex-value": "hex_value",
    "quoted-end": "quoted_end",
}


def files(root):
    for folder, dirs, names in os.walk(os.path.join(root, "crates")):
        dirs[:] = sorted(d for d in dirs if d not in ("out", "must-fail"))
        for name in sorted(names):
            if name.endswith((".antt", ".rt")):
                yield os.path.join(folder, name)


def read(path):
    with open(path, encoding="utf-8") as f:
        return f.read()


def spans(text, rust):
    """The parts of a text that antt reads, and the comments: all of an .antt file; of an .rt file its imports, clauses and comments."""
    if not rust:
        return [(0, len(text))]
    found = []
    for m in re.finditer(r"(?m)^[ \t]*(?://|ghost\b|requires\b|ensures\b)", text):
        end = text.find("\n", m.start())
        if not m.group(0).strip().startswith("//"):
            while text.count("{", m.start(), end) != text.count("}", m.start(), end):
                end = text.find("\n", end + 1)
        found.append((m.start(), end))
    return found


def ghost(path):
    text = read(path)
    return "\n".join(text[a:b] for a, b in spans(text, path.endswith(".rt")) if not text[a:b].lstrip().startswith("//"))


def declared(paths):
    """The kinds of each name that a file of ours declares: lemma, definition, member, type."""
    kinds = collections.defaultdict(set)
    for path in paths:
        if not path.endswith(".antt") or path.endswith("/Proof.antt"):
            continue
        block, indent = None, 0
        for line in read(path).splitlines():
            depth = len(line) - len(line.lstrip())
            if line.strip() and block and depth <= indent:
                block = None
            m = HEAD.match(line)
            if m:
                kinds[m.group(3)].add("type")
                block, indent = (m.group(2) if m.group(2) != "module" else None), depth
                continue
            m = DECLARED.match(line)
            if m:
                definition = "abbrev" in m.group(2) or "unfoldable" in m.group(2)
                kinds[m.group(3)].add("member" if block and depth > indent else "definition" if definition else "lemma")
    return kinds


def snake(name):
    return re.sub(r"(?<=[a-z0-9])([A-Z])", lambda m: "_" + m.group(1).lower(), name).replace("-", "_")


def lemma(name, known):
    """The dash stays between two names; the longest names first."""
    words = name.split("-")
    parts = []
    while words:
        for n in range(len(words), 0, -1):
            if n == 1 or "-".join(words[:n]) in known:
                parts.append((snake("-".join(words[:n])), "-".join(words[:n]) in known))
                words = words[n:]
                break
    text, last = parts[0]
    for part, named in parts[1:]:
        text += ("-" if last and named else "_") + part
        last = named
    return text


def spelled(root):
    paths = list(files(root))
    kinds = declared(paths)
    known = {n for n, k in kinds.items() if k & {"definition", "member", "type"}}
    for path in paths:
        text = read(path)
        for m in IMPORT.finditer(text):
            known.update(w.strip().split(" ")[0] for w in m.group(1).split(",") if not re.search(r"[-_]", w.strip()))
    names = {}
    uses = {path: {m.group(0) for m in FREE.finditer(ghost(path)) if not m.group(0).startswith('"')} for path in paths}
    holders = collections.defaultdict(set)
    for path, words in uses.items():
        for w in words:
            holders[w].add(path)
    for name in sorted(kinds, key=lambda n: ("lemma" in kinds[n], n)):
        if name.startswith("◌") or not re.search(r"[A-Za-z0-9]", name) or name[0].isupper() and "-" not in name:
            continue
        if kinds[name] & {"definition", "member", "type"}:
            new = OWN.get(name, snake(name))
        else:
            new = lemma(name, known)
        if new == name:
            continue
        others = {new} | {n for n, m in names.items() if m == new}
        if name not in OWN and any(holders[name] & holders[other] for other in others):
            print(f"together: {name} ({', '.join(sorted(kinds[name]))}) and {sorted(others)}", file=sys.stderr)
            new += "_lem"
        names[name] = new
    return paths, names


def turn(text, names, rust):
    out, at = [], 0
    for start, end in spans(text, rust):
        out.append(text[at:start])
        out.append(TOKEN.sub(lambda m: names.get(m.group(0), m.group(0)), text[start:end]))
        at = end
    return "".join(out) + text[at:]


def main(argv):
    root = os.getcwd()
    paths, names = spelled(root)
    if "--list" in argv:
        for old, new in sorted(names.items()):
            print(old, new)
        return 0
    for path in paths:
        text = read(path)
        new = turn(text, names, path.endswith(".rt"))
        if new != text:
            with open(path, "w", encoding="utf-8") as f:
                f.write(new)
    print(f"{len(names)} names")
    return 0


if __name__ == "__main__":
    raise SystemExit(main(sys.argv[1:]))
