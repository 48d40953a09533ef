"""The two programs that are compared, how their answers are told apart by session, and how a difference is made small."""
import os
import re
import subprocess
import sys

HERE = os.path.dirname(os.path.abspath(__file__))
ROOT = os.path.dirname(HERE)
FOLDER = os.path.join(ROOT, "target", "compare")
# HARROWLINK_DRIVE: another program in its place, to try this one out.
OURS = os.environ.get("HARROWLINK_DRIVE", os.path.join(ROOT, "harrowlink") + " drive").split()
# The lines that hold bytes, and at which word.
BYTES = {"read": 1, "all": 1, "text": 1, "binary": 1, "ping": 1, "pong": 1, "close": 1, "masks": 1}


def lacking(why):
    """Something that is needed is not there."""
    print(f"compare: {why}", file=sys.stderr)
    sys.exit(2)


def build(*words):
    """The crate's driver, built where it has to be; ends as compare/build does where that can't be done."""
    done = subprocess.run([os.path.join(HERE, "build"), *words], stdout=subprocess.PIPE, text=True)
    if done.returncode:
        sys.exit(done.returncode)
    return [done.stdout.strip()]


def text_of(head, sessions):
    return "".join(line + "\n" for line in head) + "".join(line + "\n" for lines in sessions for line in lines)


def answers(program, script, out):
    """Runs a program on the file of a script, its answers into another file; its exit status."""
    with open(script, "rb") as stdin, open(out, "wb") as stdout:
        return subprocess.run(program, stdin=stdin, stdout=stdout, stderr=subprocess.DEVNULL, check=False).returncode


def said(program, text):
    done = subprocess.run(program, input=text.encode(), stdout=subprocess.PIPE, stderr=subprocess.DEVNULL, check=False)
    return done.stdout.decode(errors="replace")


def by_session(text):
    """The answers of each session, as lists of lines. The first line of each is the session's own."""
    blocks = []
    for line in text.splitlines():
        if line.startswith("session ") or not blocks:
            blocks.append([])
        blocks[-1].append(line)
    return blocks


def told(one, two, head, sessions):
    """The first of the sessions that the two programs answer differently, with both answers, or None."""
    text = text_of(head, sessions)
    first, second = by_session(said(one, text)), by_session(said(two, text))
    for k in range(len(sessions)):
        a = first[k] if k < len(first) else []
        b = second[k] if k < len(second) else []
        if a != b:
            return k, a, b
    return None


def sayable(line):
    """Whether a line that was made smaller is still on the domain."""
    words = line.split(" ")
    if words[0] not in ("text", "close", "ping", "pong"):
        return True
    data = b"" if words[1] == "-" else bytes.fromhex(words[1])
    if words[0] == "close":
        if len(data) == 1:
            return False
        data = data[2:]
    if words[0] in ("ping", "pong"):
        return len(data) <= 125
    try:
        data.decode()
    except UnicodeDecodeError:
        return False
    return True


def fewer_lines(lines):
    count = len(lines) - 1
    size = count
    while size:
        for at in range(1, count + 2 - size, size):
            yield lines[:at] + lines[at + size :]
        size //= 2


def fewer_bytes(lines):
    for k, line in enumerate(lines):
        words = line.split(" ")
        if words[0] == "session":
            for limits in (["300", "300"], [words[2], "300"], ["300", words[3]]):
                if len(limits[0] + limits[1]) < len(words[2] + words[3]):
                    yield lines[:k] + [" ".join([*words[:2], *limits, words[4]])] + lines[k + 1 :]
        if words[0] not in BYTES or words[1] == "-":
            continue
        data = words[1]
        size = len(data) // 2 if words[0] != "masks" else 0
        while size:
            for at in range(0, len(data) - 2 * size + 2, 2 * size):
                new = data[:at] + data[at + 2 * size :]
                yield lines[:k] + [" ".join([words[0], new or "-", *words[2:]])] + lines[k + 1 :]
            size //= 2


def fewer_pieces(lines):
    """Two pieces that follow each other as one; all as one read."""
    for k in range(1, len(lines)):
        one, two = lines[k - 1].split(" "), lines[k].split(" ")
        if {one[0], two[0]} <= {"read", "all"} and one[2] == "0":
            data = (one[1] + two[1]).replace("-", "") or "-"
            yield lines[: k - 1] + [f"{two[0]} {data} {two[2]}"] + lines[k + 1 :]
        if two[0] == "all":
            yield lines[:k] + [" ".join(["read", *two[1:]])] + lines[k + 1 :]


def shorter_frames(lines):
    """A byte that may be a header's second one made less, and so many bytes left out at the end of its line or behind it."""
    for k, line in enumerate(lines):
        words = line.split(" ")
        if words[0] not in ("read", "all") or words[1] == "-":
            continue
        data = bytes.fromhex(words[1])
        for at in range(1, min(len(data), 60)):
            high, low = data[at] & 128, data[at] & 127
            if not 0 < low < 126 or low > len(data):
                continue
            for new in sorted({0, 1, 2, low // 2, low - 1}):
                less = low - new
                if new < low:
                    head = data[:at] + bytes([high | new])
                    for rest in (data[at + 1 :][:-less], data[at + 1 :][: 4 if high else 0] + data[at + 1 :][(4 if high else 0) + less :]):
                        yield lines[:k] + [" ".join([words[0], (head + rest).hex(), words[2]])] + lines[k + 1 :]


def plainer(lines):
    """As long, and easier to read: runs of bytes that are all the same."""
    for k, line in enumerate(lines):
        words = line.split(" ")
        if words[0] not in BYTES or words[1] == "-":
            continue
        data = words[1]
        size = len(data) // 2
        while size:
            for at in range(0, len(data) - 2 * size + 2, 2 * size):
                run = data[at : at + 2 * size]
                if run not in ("00" * size, "61" * size):
                    for new in ("00", "61"):
                        new = data[:at] + new * size + data[at + 2 * size :]
                        yield lines[:k] + [" ".join([words[0], new, *words[2:]])] + lines[k + 1 :]
            size //= 2


def groups(tries):
    """Sessions to try, in groups of some megabytes, each one start of the programs; of a very long session not all."""
    group, size, many = [], 0, 0
    for lines in tries:
        if not all(map(sayable, lines)):
            continue
        group.append(lines)
        size += sum(map(len, lines))
        if size > 4_000_000:
            yield group
            group, size, many = [], 0, many + 1
            if many == 20:
                return
    if group:
        yield group


def smallest(one, two, head, lines):
    """A session that the programs still answer differently and of which no line and no byte can be left out; with both answers."""
    found = told(one, two, head, [lines])
    if not found:
        return lines, [], []
    ways = [fewer_lines, fewer_pieces, fewer_bytes, shorter_frames, fewer_lines, plainer, fewer_bytes, shorter_frames, fewer_pieces]
    turns = 0
    for way in ways:
        again = True
        while again and turns < 400:
            again = False
            for tries in groups(way(lines)):
                turns += 1
                better = told(one, two, head, tries)
                if better:
                    lines, found, again = tries[better[0]], better, True
                    break
    return lines, found[1], found[2]


def short(line):
    """A line with a long run of one byte as {BYTE*COUNT}."""
    return re.sub(r"((\w\w)\2{9,})", lambda found: f"{{{found[2]}*{len(found[1]) // 2}}}", line)


def show(head, lines, names, first, second):
    """A small script and both answers to it, as text."""
    out = ["the smallest script:"]
    out += ["    " + short(line) for line in head + lines]
    for name, said_lines in zip(names, (first, second)):
        out += [f"{name}:"] + ["    " + short(line) for line in said_lines]
    return "\n".join(out)
