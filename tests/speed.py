"""How speed/run judges rows, and speed/since two runs (see tests/parts/speed): made-up times, none measured. Prints a line for each case
that fails."""
import contextlib
import importlib.machinery
import importlib.util
import io
import sys
import tempfile
from pathlib import Path


def loaded(name):
    """A program of speed/, as a module."""
    path = str(Path(__file__).resolve().parent.parent / "speed" / name)
    loader = importlib.machinery.SourceFileLoader(f"speed_{name}", path)
    module = importlib.util.module_from_spec(importlib.util.spec_from_loader(loader.name, loader))
    loader.exec_module(module)
    return module


sys.dont_write_bytecode = True
run, since = loaded("run"), loaded("since")
KIB = 1024


def row(table, name, size, crate, ours, **sides):
    cells = ["row", table, name, str(size), "65536", "1", str(size), f"crate={crate}", f"ours={ours}"]
    return "\t".join(cells + [f"{side}={value}" for side, value in sides.items()])


def send(name, size, crate, ours):
    return row("send", name, size, crate, ours, shared=ours)


def by_size(name, size, crate, ours, copy):
    return row("by size", name, size, crate, ours, copy=copy)


def by_pieces(piece, seconds):
    return "\t".join(["row", "by pieces", "binary to a client", "1024", str(piece), "1", "1024", *(f"{side}={seconds}" for side in ("crate", "ours", "shared"))])


def read(name, size, piece, crate, ours):
    return "\t".join(["row", "read", name, str(size), str(piece), "1", str(size), f"crate={crate}", f"ours={ours}"])


def unmask(size, crate, ours, single, copy):
    """Masking by blocks and by single bytes."""
    return [row("leaf", "unmask", size, crate, ours, copy=copy), row("leaf", "unmask, byte by byte", size, crate, single, copy=copy)]


# A leaf that costs the crate 1 and us 10 for each 100 bytes.
LEAF = row("leaf", "UTF-8, ASCII", 100, 1.0, 10.0)
MASKED = "binary, masked, to a server"

# What it is, the rows, the exit status, and what is printed.
CASES = [
    ("a row at its target", [send("binary by a server", 1000, 0.8, 1.0)], 0, "every row reaches its target"),
    ("a long row below 0.8", [send("binary by a server", 1000, 0.79, 1.0)], 1, "binary by a server, 1,000, pieces of 65,536: 0.79, target 0.80"),
    ("a short row at half", [send("binary by a server", 125, 0.5, 1.0)], 0, "every row reaches its target"),
    ("a short row below half", [send("text, ASCII, by a server", 5, 0.49, 1.0)], 1, "1 below their target"),
    ("a text below half by the byte-wise work", [LEAF, send("text, ASCII, by a server", 100, 2.0, 12.0)], 0, "0.17~"),
    ("a text below half by more than that", [LEAF, send("text, ASCII, by a server", 100, 2.0, 14.0)], 1, "0.14!"),
    ("a text without the leaves", [send("text, ASCII, by a server", 100, 2.0, 12.0)], 1, "0.17!"),
    ("a client's masked row at its target", [send("binary, masked, by a client", 5, 1.0, 1.0)], 0, "every row reaches its target"),
    ("a client's masked row below it", [*unmask(65536, 2, 1, 20, 1), send("binary, masked, by a client", 5, 0.99, 1.0)], 1, "target 1.00"),
    ("a long masked row at its target", [read(MASKED, 65536, 1460, 1.1, 1.0), read(MASKED, 65536, 65536, 1.1, 1.0)], 0, "every row"),
    ("a long masked row below it", [read(MASKED, 65536, 1460, 1.09, 1.0), read(MASKED, 65536, 65536, 1.1, 1.0)], 1, "1.09, target 1.10"),
    ("one in smaller pieces", [read(MASKED, 65536, 16, 0.5, 1.0), read(MASKED, 65536, 65536, 1.1, 1.0)], 0, "every row"),
    ("one of 1,000 bytes below its target", [read(MASKED, 1000, 65536, 0.74, 1.0)], 1, "0.74, target 0.75"),
    ("masking alone at its targets", [*unmask(65536, 2.0, 1, 15, 0.5), *unmask(16 * KIB * KIB, 1.5, 1, 15, 0.5)], 0, "15.0 times as fast"),
    ("masking alone below its target", unmask(16 * KIB * KIB, 1.49, 1, 15, 0.5), 1, "1.49, target 1.50"),
    ("masking near to a copy, if not to 15 times", unmask(65536, 2.0, 1, 14.9, 0.6), 0, "0.60 of a plain copy"),
    ("masking near to neither", unmask(65536, 2.0, 1, 14.9, 0.59), 1, "below its target: unmask, 65,536: 14.9 times as fast"),
    ("a cost that grows with its bytes", [by_size("binary to a client", 64 * KIB, 1, 1, 1), by_size("binary to a client", 128 * KIB, 2, 2, 2)], 0, "every row"),
    ("a cost that grows faster", [by_size("binary to a client", 64 * KIB, 1, 1, 1), by_size("binary to a client", 128 * KIB, 2, 4, 2)], 1, "2.00 times"),
    ("a call that costs the same", [by_pieces(1024, 1), by_pieces(4, 256), by_pieces(1, 1024)], 0, "every row"),
    ("a call that costs more the more there are", [by_pieces(1024, 1), by_pieces(4, 256), by_pieces(1, 4096)], 1, "the pieces of a session"),
]



def judged(lines):
    return run.judge(run.rows_of("\n".join(lines)), {})


def printed(call, *words):
    """What a call gives, and what it prints."""
    out = io.StringIO()
    with contextlib.redirect_stdout(out):
        return call(*words), out.getvalue()


def compared(before, now):
    """What speed/since makes of rows that run prints: a list of runs before, and one of runs now."""
    with tempfile.TemporaryDirectory() as folder:
        names = []
        for number, lines in enumerate(before + now):
            names.append(str(Path(folder) / str(number)))
            Path(names[-1]).write_text(printed(judged, lines)[1], encoding="utf-8")
        return since.main([*names[: len(before)], "--", *names[len(before) :]])


def at(*ratios):
    """Runs of one row with these ratios."""
    return [[send("binary by a server", 1000, ratio, 1.0)] for ratio in ratios]


# What it is, the runs before, those now, the exit status, and what is printed.
COMPARED = [
    ("a ratio that fell by 0.03", at(1.0), at(0.97), 0, "1 ratios compared, 0 fell"),
    ("a ratio that fell by more", at(1.0), at(0.96), 1, "| binary by a server, 1,000 | Ratio | 1.00 | 0.96 | -0.04 |"),
    ("a ratio that rose", at(1.0), at(1.2), 0, "+0.20"),
    ("the middle of three runs", at(1.0, 2.0, 1.1), at(0.5, 1.09, 1.2), 0, "0 fell"),
]

wrong = 0
for what, call, words, status, said in [(what, judged, (lines,), status, said) for what, lines, status, said in CASES] + [
    (what, compared, (before, now), status, said) for what, before, now, status, said in COMPARED
]:
    got, out = printed(call, *words)
    if got != status or said not in out:
        wrong += 1
        print(f"{what}: exit status {got}, and it should be {status} with {said!r}:\n{out}")
sys.exit(1 if wrong else 0)
