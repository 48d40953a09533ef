#!/usr/bin/env python3
"""Lists the places in src/ that are written in older forms, a point of docs/DESIGN-PASS.md after another.

usage: python3 tools/forms.py [--list] [FOLDER]      FOLDER holds crates/ (this one if none is named); --list prints each place too

It reads text and judges nothing: a place that it lists may be right as it is. Tests and comments are passed over.
"""

import collections
import glob
import os
import re
import sys

FUNCTION = re.compile(r"^( *)(?:pub(?:\(crate\))? )?(?:const )?(?:extern \"C\" )?fn (\w+)")
KEYWORDS = set("if else match return let mut for in while loop break continue true false self as fn".split())
TOKEN = re.compile(r"b?\"[^\"]*\"|b'[^']*'|'\w+|\w+|=>|\.\.=?|[^\s\w]")


class Place(collections.namedtuple("Place", "file line text")):
    def __str__(self):
        return f"{self.file}:{self.line}: {self.text}"


def without_comments(text):
    return re.sub(r"//[^\n]*", "", text)


class Source:
    """A file's lines without comments, with its functions and types."""

    def __init__(self, root, path):
        self.file = os.path.relpath(path, os.path.join(root, "crates"))
        with open(path, encoding="utf-8") as source:
            text = source.read()
        self.lines = without_comments(re.split(r"^#\[cfg\(test\)\]", text, flags=re.M)[0]).split("\n")

    def blocks(self, begins):
        """Each item whose first line `begins` finds: the match, its line, and its lines up to the brace that ends it."""
        for at, line in enumerate(self.lines):
            found = begins.match(line)
            if found:
                indent = re.match(r" *", line).group()
                end = at
                while end + 1 < len(self.lines) and self.lines[end].rstrip() not in (indent + "}", indent + "};"):
                    if end == at and line.rstrip().endswith((";", "}")):
                        break
                    end += 1
                yield found, at + 1, self.lines[at : end + 1]

    def functions(self):
        for found, at, lines in self.blocks(FUNCTION):
            yield found.group(2), at, lines

    def place(self, line, text):
        return Place(self.file, line, " ".join(text.split()))

    def lines_with(self, pattern):
        return [self.place(n, line) for n, line in enumerate(self.lines, 1) if re.search(pattern, line)]


def head_of(lines):
    """A function's text up to its contract or body."""
    head = "\n".join(lines)
    return re.split(r"\n *(?:requires|ensures|where)\b|\{", head)[0]


def parameters(lines):
    inside = re.search(r"\((.*)\)", head_of(lines), re.S)
    return [p.strip() for p in re.split(r",(?![^\[(<]*[\])>])", inside.group(1)) if p.strip()] if inside else []


def body_of(lines):
    """A function's text behind its contract."""
    text = "\n".join(lines)
    found = re.search(r"^ *\{$|\) (?:-> [^\n]*)?\{$", text, re.M)
    return text[found.end() :] if found else ""


def shape(body):
    """A body with names, numbers and strings left out, so that two which differ in them alone are the same."""
    return tuple(t if t in KEYWORDS or not re.match(r"[\w'\"]", t) else "x" for t in TOKEN.findall(body))


def options(source):
    """An enum of two cases of which one at least holds a value."""
    for found, at, lines in source.blocks(re.compile(r"^ *(?:pub(?:\(crate\))? )?enum (\w+)")):
        cases = [line.strip().rstrip(",") for line in lines[1:-1] if line.strip() and not line.strip().startswith("#")]
        if len(cases) == 2 and any("(" in case for case in cases):
            yield source.place(at, f"enum {found.group(1)} {{ {', '.join(cases)} }}")


def flags(source):
    """A flag among a type's fields, or a parameter whose flag says whether the next one counts."""
    for found, at, lines in source.blocks(re.compile(r"^ *(?:pub(?:\(crate\))? )?struct (\w+)")):
        for n, line in enumerate(lines):
            field = re.match(r" *(?:pub(?:\(crate\))? )?(\w+): bool,", line)
            if field:
                yield source.place(at + n, f"{found.group(1)}.{field.group(1)}: bool")
    for name, at, lines in source.functions():
        for one, two in zip(parameters(lines), parameters(lines)[1:]):
            if one.endswith(": bool") and re.search(r": \[u8; 4\]$", two):
                yield source.place(at, f"fn {name}({one}, {two})")


def kinds(source):
    """A number that stands for a kind: a constant that is no size."""
    return [p for p in source.lines_with(r"^ *(?:pub(?:\(crate\))? )?const [A-Z0-9_]+: (?:u8|u16|u32|u64|usize) = (?:\d{1,2}|0x[0-9a-f]+);")]


def refusals(source):
    """A function that gives a refusal's number, or 0."""
    for name, at, lines in source.functions():
        head = head_of(lines)
        contract = re.search(r"ensures[^\n]*", "\n".join(lines))
        if re.search(r"-> u8\s*$", head) and contract and re.search(r"first_of|held_number|part_number|doom |verdict |beyond ", contract.group()):
            yield source.place(at, f"fn {name} -> u8")


def loops(source):
    return source.lines_with(r"^ *(?:let \w+ = )?(?:while|loop)\b")


def casts(source):
    return source.lines_with(r"\bas (?:u8|u16|u32|u64|usize)\b")


def tables(source):
    """A function that is one match, or tests in a row, whose every outcome is a constant."""
    for name, at, lines in source.functions():
        body = body_of(lines).strip()
        if re.match(r"match [^{]*\{", body):
            outcomes = re.findall(r"=> ([^,{]*),", body)
            if outcomes and "=> {" not in body and all(re.fullmatch(r"(?:true|false|\d+|[\w:]+)", o.strip()) for o in outcomes):
                yield source.place(at, f"fn {name}: one match of constants")
        elif body.startswith("if ") and re.search(r"return (?:true|false);", body):
            yield source.place(at, f"fn {name}: tests in a row")


def widening(source):
    return [source.place(at, f"fn {name}") for name, at, lines in source.functions() if re.fullmatch(r"\s*\w+ as u\w+\s*\}\s*", body_of(lines))]


def crowded(source):
    for name, at, lines in source.functions():
        if len(parameters(lines)) > 6:
            yield source.place(at, f"fn {name}: {len(parameters(lines))} parameters")


def buffers(source):
    """An array among a type's fields, and a store with a place beside it."""
    for found, at, lines in source.blocks(re.compile(r"^ *(?:pub(?:\(crate\))? )?struct (\w+)")):
        for n, line in enumerate(lines):
            if re.match(r" *(?:pub(?:\(crate\))? )?\w+: \[u8; \d+\],", line):
                yield source.place(at + n, f"{found.group(1)}.{line.strip().rstrip(',')}")
    for name, at, lines in source.functions():
        named = [p.split(":")[0] for p in parameters(lines)]
        if "count" in named and "lead" in named:
            yield source.place(at, f"fn {name}: lead and count")


def switches(source):
    """A match whose arms are numbered kinds."""
    for n, line in enumerate(source.lines, 1):
        if re.search(r"\bmatch [\w.()]+ \{", line):
            arms = source.lines[n : n + 3]
            if any(re.match(r" *(?:[a-z_]+::)?[A-Z][A-Z_]+\b(?!::)", arm) or re.match(r" *b'", arm) for arm in arms):
                yield source.place(n, line)


def twins(sources):
    alike = collections.defaultdict(list)
    for source in sources:
        for name, at, lines in source.functions():
            key = shape(body_of(lines))
            if len(key) > 12:
                alike[key].append(source.place(at, f"fn {name}"))
    for places in alike.values():
        if len(places) > 1:
            yield from (p._replace(text=f"{p.text} (with {len(places) - 1} more)") for p in places)


def facts(sources):
    """A clause of `requires` that stands in three functions or more."""
    standing = collections.defaultdict(list)
    for source in sources:
        for name, at, lines in source.functions():
            for clause in re.findall(r"requires(?: \w+)? \{ (.*) \}", "\n".join(lines)):
                standing[clause].append(source.place(at, f"fn {name}: {clause}"))
    for places in standing.values():
        if len(places) > 2:
            yield from places


POINTS = [
    ("1 own Option or Result", options),
    ("1 flag", flags),
    ("1 number for a kind", kinds),
    ("1 refusal or 0", refusals),
    ("3 loop", loops),
    ("4 cast", casts),
    ("4 widening by hand", widening),
    ("4 table or tests", tables),
    ("5 many parameters", crowded),
    ("6 buffer", buffers),
    ("7 switch", switches),
]

OVER_ALL = [("2 twin", twins), ("5 fact in three contracts", facts)]


def answers(root):
    files = sorted(glob.glob(os.path.join(root, "crates/*/proofs/**/Answers.antt"), recursive=True))
    count = lines = 0
    for path in files:
        with open(path, encoding="utf-8") as source:
            text = source.read()
        count += len(re.findall(r"^pub [^\n]* : goal\.", text, re.M))
        lines += text.count("\n")
    return f"{len(files)} files, {count} answers, {lines} lines"


def main(words):
    listing = "--list" in words
    words = [w for w in words if w != "--list"]
    if len(words) > 1 or any(w.startswith("-") for w in words):
        sys.exit(__doc__.strip())
    root = words[0] if words else "."
    paths = sorted(glob.glob(os.path.join(root, "crates/*/src/**/*.rt"), recursive=True))
    if not paths:
        sys.exit(f"forms: no crates/*/src/*.rt in {root}")
    sources = [Source(root, path) for path in paths]
    found = [(name, [p for source in sources for p in seek(source)]) for name, seek in POINTS]
    found += [(name, list(seek(sources))) for name, seek in OVER_ALL]
    for name, places in sorted(found, key=lambda pair: pair[0]):
        print(f"{name}: {len(places)}")
        if listing:
            for place in places:
                print(f"    {place}")
    print(f"8 answers: {answers(root)}")


if __name__ == "__main__":
    main(sys.argv[1:])
