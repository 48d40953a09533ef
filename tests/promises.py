"""docs/PROMISES.md beside the crates and their wrong answers (see tests/parts/promises).

    tests/promises.py [ROOT]      of another repository than this one

A function's row in docs/PROMISES.md has five cells: the first is its name in backticks, and the wrong answers to it that are tried stand in
backticks in the fourth. A file crates/CRATE/must-fail/NAME.edit holds several wrong answers, which `rt` tries in one check:

    wrong: the_name_of_the_wrong_answer
    file: src/lib.rt
    old: a text that stands once in that file
    new: what it becomes

The names of a function's goals and steps follow its code. Where they change with it, further replacements bring the names in its proof
along, and change nothing else of the proof:

    file: proofs/f/Answers.antt
    old: pub returns-then-n-lt125 : goal.returns-then-n-lt125
    new: pub returns-then-n-lt126 : goal.returns-then-n-lt126

`rt` refuses the file where any of them fails, so each one is judged here: it changes one function, in which nothing else of the file
changes anything, and when the file is tried (tests/tried.py) a fact of that very function fails. A function's contract is all that others
see of it, so a fact that fails in it fails for its own change."""
import re
import sys
import tempfile
from pathlib import Path

import tried

# No fact of a function was tried: what it rests on was refused, or its proof speaks of what is no longer there.
FELL_WITH_ANOTHER = " not checked: "
LOST_ITS_FIT = ["can be named from here", "has no field", "is not in scope"]

# The first line of an `impl`: the trait and what it is given, where it has one, and the type.
IMPL = re.compile(r"impl(?:<[^>]*>)? (?:(\w+)(?:<(\w+)>)? for )?(\w+)")

# A word of a proof, and how the names of goals and steps begin that follow the code.
WORD = re.compile(r"[^\s(){}\[\].,;:`]+")
NAMED_BY_CODE = re.compile(r"(returns|if|in|then|else|loop|bounds|slice_bounds|shape_of|overflow_\w+)-")


class Tally:
    def __init__(self):
        self.passed = 0
        self.failures = []

    def check(self, holds, message):
        if holds:
            self.passed += 1
        else:
            self.failures.append(message)

    def told(self):
        for message in self.failures:
            print("FAILED:", message)
        print(f"{self.passed} passed, {len(self.failures)} failed")
        return 1 if self.failures else 0


# ---- the code


class Function:
    """A function by its path in the crate, as module::Type::function, and the lines of its file that it has, from 0."""

    def __init__(self, path, public, first, last):
        self.path, self.public, self.first, self.last = path, public, first, last


def owner_of(opened):
    """The type of an `impl`; of a trait's, the name that `rt` gives to its folder of proofs: OpCodeFromU8 for `From<u8> for OpCode`."""
    trait, argument, owner = opened.groups(default="")
    return owner[0].upper() + owner[1:] + trait + argument[:1].upper() + argument[1:] if trait else owner


def functions_in(file):
    """The functions of a file of src/, in the layout of `rt fmt`: a function begins with its attributes, of which
    the check speaks by their line, and ends with a brace under its first letter. A trait's function is as public as its type, which those of a
    library are."""
    module = [] if file.stem in ("lib", "main") else [file.stem]
    lines = file.read_text(encoding="utf-8").splitlines()
    owner, of_trait = [], False
    for number, line in enumerate(lines):
        opened = IMPL.match(line)
        if opened or line.startswith("}"):
            owner = [owner_of(opened)] if opened else []
            of_trait = bool(opened and opened[1])
        found = re.match(r"( *)(pub(?:\(crate\))? )?fn (\w+)", line)
        if found:
            last = lines.index(found[1] + "}", number)
            first = number
            while lines[first - 1].lstrip().startswith("#["):
                first -= 1
            yield Function("::".join([*module, *owner, found[3]]), found[2] == "pub " or of_trait, first, last)


def function_at(file, line):
    """The function that has this line of the file, or None."""
    return next((f.path for f in functions_in(file) if f.first <= line <= f.last), None)


def proved_in(path):
    """The functions that a file of proofs/ proves, by its path from there: a/f/Answers.antt, or a/+f+g/Answers.antt for those that call one
    another."""
    *modules, function = path.parent.parts
    return ["::".join([*modules, name]) for name in function.split("+") if name]


# ---- the wrong answers


class Wrong:
    """A wrong answer: its name, its replacements as (file, old, new), and the functions that they change."""

    def __init__(self, name):
        self.name, self.replacements, self.functions = name, [], set()


def wrong_answers(edit):
    """Those of a file, in its order. What stands before the first name is that of a nameless one."""
    wrongs, file, old = [Wrong("")], "", ""
    for line in edit.read_text(encoding="utf-8").splitlines():
        word, _, text = line.partition(":")
        text = text[1:] if text.startswith(" ") else text
        if word == "wrong":
            wrongs.append(Wrong(text))
        elif word == "file":
            file = text
        elif word == "old":
            old = text
        elif word == "new":
            wrongs[-1].replacements.append((file, old, text))
    return wrongs if wrongs[0].replacements else wrongs[1:]


def replacements_in(edit):
    return [replacement for wrong in wrong_answers(edit) for replacement in wrong.replacements]


def functions_of(crate, file, old):
    """The functions that have this text of a file: those that the file proves, or the one whose code it is; a text outside of every
    function is in None."""
    if file.startswith("proofs/"):
        return proved_in(Path(file).relative_to("proofs"))
    return [function_at(crate / file, (crate / file).read_text(encoding="utf-8").split(old)[0].count("\n"))]


def place_functions(crate, wrongs):
    """Fills in which functions each wrong answer changes."""
    for wrong in wrongs:
        for file, old, _ in wrong.replacements:
            wrong.functions.update(functions_of(crate, file, old))


def is_of_code(wrong):
    """Whether it changes code, and of a proof nothing but names that follow the code."""
    pairs = [(WORD.findall(old), WORD.findall(new)) for file, old, new in wrong.replacements if not file.startswith("src/")]
    changed = [words for old, new in pairs for words in zip(old, new) if words[0] != words[1]]
    same_form = all(len(old) == len(new) for old, new in pairs) and all(NAMED_BY_CODE.match(word) for words in changed for word in words)
    return same_form and len(pairs) < len(wrong.replacements)


def failed_facts(said, crate):
    """The facts that failed, function by function: what the check says of a function's own proof files, or of its code where it makes the
    proof itself. A wrong answer has a line for each line, so a line of the changed code is found in the crate as it is."""
    facts = {}
    for line in said.splitlines():
        error = re.match(r"\S*?\bproofs/(\S+/\w+\.antt):\d+:\d+: error: (.*)", line)
        note = re.match(r"note: \S*?\b(src/\S+\.rt):(\d+):\d+: (.*(?:is not proved|found no proof).*)", line)
        if error:
            for function in proved_in(Path(error[1])):
                facts.setdefault(function, []).append(error[2])
        elif note:
            facts.setdefault(function_at(crate / note[1], int(note[2]) - 1), []).append(note[3])
    return facts


def judge(tally, crate, edit, said):
    """One file of wrong answers, and what the check said of it. Gives their names."""
    wrongs = wrong_answers(edit)
    place_functions(crate, wrongs)
    facts = failed_facts(said, crate)
    seen = set()
    for wrong in wrongs:
        told = f"{crate.name}/{edit.stem}: {wrong.name or 'a wrong answer without a name'}"
        tally.check(bool(wrong.name and wrong.replacements), f"{told}: it needs a name and a replacement")
        tally.check(is_of_code(wrong), f"{told}: it changes no code, or more of a proof than names")
        tally.check(len(wrong.functions) == 1 and None not in wrong.functions, f"{told}: it does not change one function")
        tally.check(not wrong.functions & seen, f"{told}: another wrong answer of the file is in the same function")
        seen |= wrong.functions
        found = [fact for function in wrong.functions for fact in facts.get(function, [])]
        tally.check(not any(sign in fact for fact in found for sign in LOST_ITS_FIT), f"{told}: the proof did not fit, so no fact was tried")
        tally.check(any(FELL_WITH_ANOTHER not in fact for fact in found), f"{told}: no fact of its function failed")
    return [wrong.name for wrong in wrongs]


# ---- the page


def cells_of_rows(promises):
    """The cells of each function's row."""
    lines = ([cell.strip() for cell in line.strip().strip("|").split("|")] for line in promises.splitlines())
    return [cells for cells in lines if len(cells) == 5 and re.fullmatch(r"`[\w:]+`", cells[0])]


def rows_of(tally, promises):
    """Public function to the wrong answers that its row names."""
    rows = {}
    for cells in cells_of_rows(promises):
        name = cells[0].strip("`")
        tally.check(name not in rows, f"docs/PROMISES.md has two rows for {name}")
        rows[name] = re.findall(r"`(\w+)`", cells[-2])
    return rows


def check_rows(tally, rows, libraries):
    public = [f"{c.name}::{f.path}" for c in libraries for file in sorted((c / "src").glob("*.rt")) for f in functions_in(file) if f.public]
    for name in public:
        tally.check(name in rows, f"docs/PROMISES.md has no row for {name}")
        tally.check(len(rows.get(name, [])) >= 2, f"{name} has fewer than two wrong answers in docs/PROMISES.md")
    for name in rows:
        tally.check(name in public, f"docs/PROMISES.md has a row for {name}, which is no public function")


def tried_files(tally, root, libraries):
    """Every file of wrong answers with what the check says of it, by its crate. A crate that is not proved as it stands shows nothing."""
    edits = [(crate, edit) for crate in libraries for edit in sorted((crate / "must-fail").glob("*.edit"))]
    names = sorted({crate.name for crate, _ in edits})
    with tempfile.TemporaryDirectory(prefix="wrong-answers-") as room:
        trials = tried.Trials(root, Path(room))
        proved = trials.proved(names)
        for name in names:
            tally.check(name in proved, f"{name} is not proved as it stands, so its wrong answers were not tried")
        edits = [(crate, edit) for crate, edit in edits if crate.name in proved]
        said = tried.side_by_side(lambda pair: trials.changed(pair[0].name, pair[1].stem, replacements_in(pair[1])), edits)
    return {crate: [(edit, words) for (of, edit), words in zip(edits, said) if of == crate] for crate in libraries}


def check_crate(tally, crate, rows, files):
    """Every wrong answer of a crate is judged and in a row, and nothing else is in a row."""
    names = [name for edit, said in files for name in judge(tally, crate, edit, said)]
    named = {label for name, labels in rows.items() if name.split("::")[0] == crate.name for label in labels}
    for label in sorted({label for label in names if names.count(label) > 1}):
        tally.check(False, f"{crate.name}: two wrong answers are called {label}")
    for label in sorted(set(names) ^ named):
        where = "is in no row of docs/PROMISES.md" if label in names else "stands in docs/PROMISES.md and is not tried"
        tally.check(False, f"{crate.name}: {label} {where}")


def declared(root, part, marked):
    """The names that the files of specs/ or proofs/ declare: those marked so, or with '' all."""
    texts = (path.read_text(encoding="utf-8") for path in (root / "crates").glob(f"*/{part}/*.antt"))
    found = (names for text in texts for names in re.findall(rf"^ *(?:(?:unfoldable|abbrev) )?{marked}((?:[\w'-]+ )+):", text, re.M))
    return {name for names in found for name in names.split()}


def check_laws(tally, root, promises, libraries):
    """The last cell of a row names laws alone. Elsewhere a word of several parts is a law, a definition, a function or a wrong answer."""
    laws = declared(root, "proofs", "pub ")
    functions = {f.path.split("::")[-1] for c in libraries for file in (c / "src").glob("*.rt") for f in functions_in(file)}
    wrong = {wrong.name for c in libraries for edit in (c / "must-fail").glob("*.edit") for wrong in wrong_answers(edit)}
    known = laws | declared(root, "specs", "(?:pub )?") | functions | wrong
    last_cells = {name for cells in cells_of_rows(promises) for name in re.findall(r"`([\w'-]+)`", cells[-1])}
    for name in sorted(last_cells):
        tally.check(name in laws, f"docs/PROMISES.md names {name} as a law, which no law file has")
    for name in sorted(set(re.findall(r"`([a-z]\w*(?:[_-]\w+)+)`", promises)) - last_cells):
        tally.check(name in known, f"docs/PROMISES.md names {name}, which is nothing that the crates have")


def libraries_of(root):
    """The libraries. One that static libraries alone stand on has the loops that are measured (docs/SPEED.md): it promises that they are safe
    and end, as a static library does, and has no rows."""
    lines = re.findall(r"^(\w+)( staticlib)?:([^#\n]*)", (root / "crates.txt").read_text(encoding="utf-8"), re.M)
    above = {name: [static for _, static, deps in lines if name in deps.split()] for name, _, _ in lines}
    measured = {name for name, static, _ in lines if static or above[name] and all(above[name])}
    return [c for c in sorted((root / "crates").iterdir()) if (c / "src/lib.rt").exists() and c.name not in measured]


def main(words):
    root = Path(words[0]) if words else Path(__file__).resolve().parent.parent
    tally = Tally()
    promises = (root / "docs/PROMISES.md").read_text(encoding="utf-8")
    libraries = libraries_of(root)
    rows = rows_of(tally, promises)
    check_rows(tally, rows, libraries)
    files = tried_files(tally, root, libraries)
    for crate in libraries:
        check_crate(tally, crate, rows, files[crate])
    check_laws(tally, root, promises, libraries)
    return tally.told()


if __name__ == "__main__":
    sys.exit(main(sys.argv[1:]))
