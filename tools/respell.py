#!/usr/bin/env python3
"""Brings the names of definitions and lemmas to today's spelling: run once, at the top, right behind the kit's port.py.

usage: python3 tools/respell.py [--list]      --list only prints each name, old and new

Types, facts and modules stay in upper camel case. Every other name of specs/ and proofs/ goes into snake case: fooBar becomes foo_bar, and a
dash becomes an underscore, but behind the name of a definition (the dash in length-take joins two names). A lemma that would then have its
function's name gets _lem. What Rattle makes of a function (the goals that a proof answers, the steps that it cites) and the functions of src/
keep their names; so does all that stands in quotes.
"""

import collections
import glob
import os
import re
import sys

# a signature: words before the name, its name, what is bound at it, a colon and a type
SIGNATURE = re.compile(r"^(\s*)((?:abbrev |unfoldable |pub |data |record )*)([^\s:(){};]+)((?:\s+\([^)]*\)|\s+\{[^}]*\})*)\s*:(?=\s|$)(.*)$")
TOKEN = re.compile(r"[^\s(){}\[\];,.:`\"'|]+")
QUOTED = re.compile(r"(\"(?:[^\"\\\n]|\\.)*\")")
LIBRARY = {"length", "take", "drop", "get_or", "set", "append", "map", "replicate"}

# names that the rule would give badly: fields beside a field with an underscore or that would have a lemma's name, and constructors and
# aliases that no line of their own declares
NAMED = {
    "frame-limit": "frame_limit",
    "byUs": "closed_by_us",
    "byPeer": "closed_by_peer",
    "betweenFrames": "between_frames",
    "sendText": "send_text",
    "sendBinary": "send_binary",
    "sendPing": "send_ping",
    "sendPong": "send_pong",
    "onLeft": "on_left",
    "onRight": "on_right",
    "firstByteOf": "first_byte_of",
}
IN_CRATE = {
    "link": {"message-store": "message_room", "control-store": "control_room", "output-store": "output_room"},
    "writer": {"in-range": "ranged"},
}

# lemmas that would have a function's name, where a function of src/ has the old one too: in these files alone
IN_FILE = {
    "crates/link/proofs/FrameBack.antt": {"is_control": "control_kind"},
    "crates/frame/proofs/Headers.antt": {"plain_size": "plain_size_lem"},
    "crates/steady/proofs/Passing.antt": {"read_number": "read_number_lem"},
    "crates/steady/proofs/InRangeStays.antt": {"read_number": "read_number_lem"},
}


def files(*patterns):
    return sorted(p for pattern in patterns for p in glob.glob(pattern, recursive=True) if "/out/" not in p)


def text_of(path):
    with open(path, encoding="utf-8") as f:
        return f.read()


def declared():
    """Each name with its files; the names at the left margin of specs/ apart."""
    names, definitions = collections.defaultdict(list), set()
    for path in files("crates/*/specs/**/*.antt", "crates/*/proofs/**/*.antt"):
        for line in text_of(path).splitlines():
            m = SIGNATURE.match(line)
            if not m or line.lstrip().startswith("--"):
                continue
            kind = m.group(5).strip()
            if kind.startswith("tie.") or (m.group(3).endswith("-spec") and "statement" in kind):
                continue
            names[m.group(3)].append(path)
            if "/specs/" in path and not m.group(1):
                definitions.add(m.group(3))
    return names, definitions


def snake(word):
    return re.sub(r"(?<=[a-z0-9])([A-Z])", lambda m: "_" + m.group(1).lower(), word)


def renamed():
    names, definitions = declared()
    to = {}
    for name in names:
        if name[0].isupper():
            continue
        first, *rest = name.split("-")
        new, left = snake(first), first
        for part in rest:
            new += ("-" if left in definitions or left in LIBRARY else "_") + snake(part)
            left += "-" + part
        if new != name:
            to[name] = new
    by_new = collections.defaultdict(set)
    for old, new in to.items():
        by_new[new].add(old)
    bad = []
    for new, olds in by_new.items():
        kept = {new} & set(names) - {n for there in IN_FILE.values() for n in there}
        lemmas = {n for n in olds if "-" in n}
        if len(olds | kept) > 1:
            for lemma in lemmas:
                to[lemma] = new + "_lem"
            if len(olds | kept) - len(lemmas) > 1 or len(lemmas) > 1 or new + "_lem" in names:
                bad.append(f"{new} of {sorted(olds | kept)}")
    if bad:
        sys.exit("respell: these names would fall together: " + "; ".join(bad))
    return to


def respelled(text, to):
    return TOKEN.sub(lambda m: to.get(m.group(0), m.group(0)), text)


def main():
    to = renamed()
    if "--list" in sys.argv[1:]:
        for old, new in sorted((to | NAMED).items()):
            print(f"{old} {new}")
        return
    for path in files("crates/*/specs/**/*.antt", "crates/*/proofs/**/*.antt"):
        before = text_of(path)
        after = respelled(before, to | NAMED | IN_CRATE.get(path.split("/")[1], {}) | IN_FILE.get(path, {}))
        if after != before:
            with open(path, "w", encoding="utf-8") as f:
                f.write(after)
    # in code only the names that cannot be a function's: those with a capital inside
    camel = {old: new for old, new in to.items() if re.search(r"[a-z0-9][A-Z]", old)}
    for path in files("crates/*/src/**/*.rt", "crates/*/must-fail/*.edit"):
        before = text_of(path)
        after = "".join(p if p.startswith('"') else respelled(p, camel) for p in QUOTED.split(before))
        if after != before:
            with open(path, "w", encoding="utf-8") as f:
                f.write(after)


main()
