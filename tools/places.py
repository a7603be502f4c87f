"""Lists the places in src/ that docs/DESIGN-PASS.md counts, point by point: python3 tools/places.py [POINT]. By text alone; a reader judges."""

import collections
import glob
import re
import sys


def sources():
    for path in sorted(glob.glob("crates/*/src/**/*.rt", recursive=True)):
        yield path.split("/")[1], open(path, encoding="utf-8").read().splitlines()


def lines(pattern):
    """The lines that match, comments left out."""
    for crate, text in sources():
        for n, line in enumerate(text, 1):
            code = line.split("//")[0]
            if re.search(pattern, code):
                yield f"{crate}:{n}: {code.strip()}"


def refusals():
    """The lines that use a constant of a refusal's number: neither its declaration nor an import."""
    names = "MALFORMED NUMBER_ABOVE_LIMIT NO_SUCH_DATE WRONG_DAY_NAME LINE_TOO_LONG TRAILER_TOO_LONG BODY_TOO_LARGE OUTPUT_TOO_SHORT"
    names += " OUT_OF_RANGE TOO_MANY_PARAMETERS REPEATED_ATTRIBUTE COMMENT_TOO_DEEP VALUE_TOO_LONG FRAMED_TOO_LONG FORBIDDEN_FIELD"
    for line in lines(rf"\b({'|'.join(names.split())})\b"):
        if not re.search(r": (pub const|use) |: [A-Z_, {}]*$", line):
            yield line


def functions():
    """Each function: crate, name, signature with clauses, body."""
    for crate, text in sources():
        code = "\n".join(line.split("//")[0].rstrip() for line in text)
        for m in re.finditer(r"^( *)(?:pub )?(?:extern \"C\" )?fn (\w+)(.*?)\n\1\{\n(.*?)\n\1\}", code, re.S | re.M):
            yield crate, m[2], m[3], m[4]


def shape(text):
    """Names and numbers as one letter each, so that functions which differ in those alone are equal."""
    text = re.sub(r"b?'(?:\\.|[^'])'|b?\"[^\"]*\"|\b\d\w*", "0", text)
    text = re.sub(r"\b(?!if|else|match|return|let|mut|while|loop|for|in|true|false|as|self\b)[A-Za-z_]\w*(?:::[A-Za-z_]\w*)*", "x", text)
    return re.sub(r"\s+", " ", text)


def twins():
    groups = collections.defaultdict(list)
    for crate, name, head, body in functions():
        groups[shape(body)].append(f"{crate}::{name}")
    for body, names in groups.items():
        if len(names) > 1 and len(body) > 30:
            yield " = ".join(names)


def facts():
    """Requirements that stand in three contracts or more of a crate, and parameters that three functions or more of a crate share."""
    for kind, pattern in (("requires", r"requires(?: \w+)? \{ (.*?) \}$"), ("parameters", r"(\w+: [^,()]+, \w+: [^,()]+)")):
        seen = collections.Counter()
        for crate, name, head, body in functions():
            for fact in set(re.findall(pattern, head, re.M)):
                seen[crate, fact] += 1
        for (crate, fact), n in sorted(seen.items()):
            if n >= 3:
                yield f"{crate}: {kind} of {n} functions: {fact}"


POINTS = {
    "1 enums": lambda: lines(r"^\s*(pub )?enum "),
    "1 flags": lambda: lines(r"^\s*(pub )?\w+: bool,"),
    "1 none by a number": lambda: lines(r"(length|size|number|refused|agreed|on|bits|\btwo) [=!]= 0|NO_[A-Z]+\b"),
    "1 numbers of refusals": refusals,
    "2 twins": twins,
    "3 loops": lambda: lines(r"^\s*(let .*= )?('\w+: )?(while|loop)\b"),
    "4 by hand": lambda: lines(r"fn (same|max|least|back|compare|equal|\w+_of|part|between|as_\w+|\w+_fields)\("),
    "5 facts and parameters": facts,
    "6 lengths beside": lambda: lines(r"(table|other|count|limit|len|used|held): (Table|usize|\[)"),
    "7 switches": lambda: lines(r"\b(strong|assumed|folded|short|one_width|leap|quoted\w*): bool\b"),
}

for point, places in POINTS.items():
    if len(sys.argv) > 1 and not point.startswith(sys.argv[1]):
        continue
    found = list(places())
    print(f"{point}: {len(found)}")
    for place in found:
        print(f"    {place}")
