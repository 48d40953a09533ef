"""Tries wrong answers as `rt must-fail` does, and keeps all that the check says of them (see tests/promises.py). Each file of them is made in
a copy outside the checkout, where `rt check` begins with what it proved of the unchanged crates."""
import os
import re
import shutil
import subprocess
from concurrent.futures import ThreadPoolExecutor
from pathlib import Path

PARTS = ("src", "specs", "proofs")
# What one check may take of the machine's memory.
MEMORY = 2 << 30


def jobs():
    """How many checks run side by side: what RT_JOBS says, or else one on each processor, as many as memory holds."""
    if os.environ.get("RT_JOBS", "").isdigit():
        return int(os.environ["RT_JOBS"])
    free = re.search(r"^MemAvailable: +(\d+) kB", Path("/proc/meminfo").read_text(encoding="ascii"), re.M)
    return max(1, min(len(os.sched_getaffinity(0)), (int(free[1]) << 10) // MEMORY))


def side_by_side(call, several):
    with ThreadPoolExecutor(jobs()) as pool:
        return list(pool.map(call, several))


def linked(one, other):
    """Gives a file that `rt` made a second name, where that can be: `rt` replaces such a file, and never writes into it."""
    try:
        os.link(one, other)
    except OSError:
        shutil.copy2(one, other)


def copied(source, to, made):
    """Copies a crate's files, and of what `rt` made of it the parts that are named."""
    for part in PARTS:
        if (source / part).is_dir():
            shutil.copytree(source / part, to / part)
    for part in made:
        if (source / "out" / part).is_dir():
            shutil.copytree(source / "out" / part, to / "out" / part, copy_function=linked)


class Trials:
    """The unchanged crates of a repository, in a folder of their own, and the wrong answers that are tried beside them."""

    def __init__(self, root, room):
        self.root, self.room, self.right = root, room, room / "right"
        listed = re.findall(r"^(\w+)[^:#\n]*:([^#\n]*)", (root / "crates.txt").read_text(encoding="utf-8"), re.M)
        self.deps = {name: words.split() for name, words in listed}
        self.logs = root / "target/wrong-answers"

    def below(self, crate):
        """The repository's crates that one stands on, each behind those that it stands on itself."""
        found = []
        for dep in self.deps[crate]:
            found += [it for it in [*self.below(dep), dep] if it not in found] if dep in self.deps else []
        return found

    def list_crates(self, folder, crates):
        lines = (f"{name}: {' '.join(self.deps[name])}\n" for name in self.deps if name in crates)
        (folder / "crates.txt").write_text("".join(lines), encoding="utf-8")

    def said(self, words, folder, name):
        """What a command of `rt` says in this folder; it stays in a log."""
        how = {"stdin": subprocess.DEVNULL, "stdout": subprocess.PIPE, "stderr": subprocess.STDOUT, "text": True, "errors": "replace"}
        said = subprocess.run(["rt", *words], cwd=folder, **how).stdout
        self.logs.mkdir(parents=True, exist_ok=True)
        (self.logs / f"{name}.log").write_text(said, encoding="utf-8")
        return said

    def proved(self, crates):
        """Proves these crates and those below them, unchanged, over what was kept in the checkout; gives those that are proved."""
        asked = {it for crate in crates for it in [crate, *self.below(crate)]}
        for crate in asked:
            copied(self.root / "crates" / crate, self.right / "crates" / crate, ("incremental", "rlib"))
        self.list_crates(self.right, asked)
        said = self.said(["all", "check"], self.right, "unchanged")
        return re.findall(r"^(\w+): ok$", said.rpartition("\n== summary\n")[2], re.M)

    def changed(self, crate, name, replacements):
        """What the check says of a crate in which these replacements were made, as (file, old, new)."""
        room = self.room / f"{crate}-{name}"
        for below in self.below(crate):
            copied(self.right / "crates" / below, room / "crates" / below, ("rlib",))
        folder = room / "crates" / crate
        copied(self.right / "crates" / crate, folder, ("incremental",))
        self.list_crates(room, [crate, *self.below(crate)])
        for file, old, new in replacements:
            text = (folder / file).read_text(encoding="utf-8")
            (folder / file).write_text(text.replace(old, new), encoding="utf-8")
        said = self.said(["check", "--jobs", "1"], folder, f"{crate}-{name}")
        shutil.rmtree(room)
        return said
