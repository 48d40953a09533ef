"""tests/promises.py tried on a small repository with wrong answers that count and edits that must not count (see tests/parts/judge). It is
made here, in a temporary folder, and `rt` tries its edits, so that what it says is real. Every file of edits has an answer that is wrong
for a fact, so `rt` refuses all of them."""
import subprocess
import sys
import tempfile
from pathlib import Path

PROMISES = Path(__file__).resolve().parent / "promises.py"

CODE = """\
// Lengths of payloads.
#![tactic(auto)]

ghost use Rattle.std.specs.Prelude.{◌≡◌, nat_le, not};

// Whether a number is at most another.
pub fn is_within(n: u64, most: u64) -> bool
    ensures { result ≡ nat_le n most }
{
    if n <= most {
        return true;
    }
    false
}

// The opposite.
pub fn is_above(n: u64, most: u64) -> bool
    ensures { result ≡ not (nat_le n most) }
{
    !is_within(n, most)
}

// Whether a control payload may have this length.
pub fn is_short(n: u64) -> bool
    ensures { result ≡ nat_le n 125 }
{
    is_within(n, 125)
}

// The longest one.
pub fn longest() -> u64
    ensures { result ≡ 125 }
{
    // as the RFC has it
    125
}

// In how many bytes a length below 65,536 is written.
pub fn size(n: u64) -> u64
    ensures { nat_le n 125 ≡ nat_le result 1 }
{
    if n < 126 {
        return 1;
    }
    3
}
"""

# of the others rt makes the proofs
PROOFS = {
    "is_within": """\
use mathlib.Core.Path.{sym}
use borrow.Author.Tests.{le-leb, lt-leb}
use Rattle.tried.proofs.is_within.Goals as goal

pub returns-then-n-most : goal.returns-then-n-most
returns-then-n-most c = sym (le-leb _ _ c.if-n-most.true)

pub returns : goal.returns
returns c = sym (lt-leb _ _ c.if-n-most.false)
""",
    "is_above": """\
use mathlib.Core.Path.{ap}
use mathlib.Core.Bool.{not}
use borrow.Author.Rules.{rules}
use Rattle.tried.proofs.is_above.Goals as goal

pub is_within-requires : goal.is_within-requires
is_within-requires c = search rules

pub returns : goal.returns
returns c = ap not c.is_within.ensures
""",
    "size": """\
use borrow.Author.Tests.{le-leb, lt-leb}
use native.Mathlib.Omega.{arith}
use Rattle.tried.proofs.size.Goals as goal

pub returns-then-n-lt126 : goal.returns-then-n-lt126
returns-then-n-lt126 c = le-leb _ _ (omega arith)

pub returns : goal.returns
returns c = lt-leb _ _ (omega arith)
""",
}

WITHIN, SIZE = "proofs/is_within/Answers.antt", "proofs/size/Answers.antt"


def brought_along(name):
    """The replacements that bring the names in size's proof along, where its test has this name."""
    return [
        (SIZE, "pub returns-then-n-lt126 : goal.returns-then-n-lt126", f"pub returns-then-{name} : goal.returns-then-{name}"),
        (SIZE, "returns-then-n-lt126 c =", f"returns-then-{name} c ="),
    ]


# file to its edits: function, name, old and new, and what they replace in a proof
EDITS = {
    "counts": [
        ("is_within", "equal_is_above", "    if n <= most {", "    if n < most {"),
        ("is_above", "the_other_way_round", "!is_within(n, most)", "!is_within(most, n)"),
        ("is_short", "one_byte_more", "is_within(n, 125)", "is_within(n, 126)"),
        ("longest", "longest_of_126", "    125", "    126"),
        ("size", "names_brought_along", "    if n < 126 {", "    if n < 125 {", *brought_along("n-lt125")),
    ],
    "not_wrong": [
        ("is_within", "never_within", "        return true;", "        return false;"),
        ("is_above", "not_wrong_while_its_callee_is", "!is_within(n, most)", "!(is_within(n, most))"),
        ("is_short", "no_longer_wrong", "is_within(n, 125)", "is_within(n, 0x7d)"),
        ("longest", "comment_changed", "as the RFC has it", "as the RFC has it in 5.5"),
        ("size", "test_written_otherwise", "    if n < 126 {", "    if n <= 125 {", *brought_along("n-le125")),
    ],
    "fit_lost": [
        ("is_above", "proof_speaks_of_a_call_that_is_gone", "!is_within(n, most)", "most < n"),
        ("is_short", "one_byte_less", "is_within(n, 125)", "is_within(n, 124)"),
        ("size", "names_left_behind", "    if n < 126 {", "    if n < 127 {"),
    ],
    "field_lost": [
        ("is_within", "proof_speaks_of_a_place_that_is_gone", "    if n <= most {", "    if n < most || n == most {"),
        ("longest", "longest_of_124", "    125", "    124"),
    ],
    "one_function": [
        ("is_within", "within_by_one", "    if n <= most {", "    if n < most {"),
        ("is_within", "second_in_its_function", "    false", "    true"),
        ("is_within", "comment_above_a_function", "// The opposite.", "// The contrary."),
        ("longest", "longest_of_1", "    125", "    1"),
    ],
    "proof_changed": [
        ("is_above", "never_above", "!is_within(n, most)", "is_within(n, most)"),
        ("longest", "proof_of_another", "    125", "    124", (WITHIN, "pub returns-then-n-most : goal.r", "pub returns-then-n-less : goal.r")),
        ("size", "proof_changed_too", "        return 1;", "        return 1u64;", (SIZE, "returns c = lt-leb _ _", "returns c = le-leb _ _")),
    ],
}

# what the judge has to say, and all of it
EXPECTED = {
    "tried/not_wrong: not_wrong_while_its_callee_is: no fact of its function failed",
    "tried/not_wrong: no_longer_wrong: no fact of its function failed",
    "tried/not_wrong: comment_changed: no fact of its function failed",
    "tried/not_wrong: test_written_otherwise: no fact of its function failed",
    "tried/fit_lost: proof_speaks_of_a_call_that_is_gone: the proof did not fit, so no fact was tried",
    "tried/fit_lost: names_left_behind: the proof did not fit, so no fact was tried",
    "tried/field_lost: proof_speaks_of_a_place_that_is_gone: the proof did not fit, so no fact was tried",
    "tried/one_function: second_in_its_function: another wrong answer of the file is in the same function",
    "tried/one_function: comment_above_a_function: it does not change one function",
    "tried/one_function: comment_above_a_function: no fact of its function failed",
    "tried/proof_changed: proof_of_another: it does not change one function",
    "tried/proof_changed: proof_of_another: the proof did not fit, so no fact was tried",
    "tried/proof_changed: proof_changed_too: it changes no code, or more of a proof than names",
}


def lay_out(root):
    """Writes the repository, with a page that has every wrong answer in its function's row."""
    crate = root / "crates/tried"
    rows = {}
    files = {root / "crates.txt": "tried:\n", crate / "src/lib.rt": CODE}
    for function, proof in PROOFS.items():
        files[crate / "proofs" / function / "Answers.antt"] = proof
    for name, edits in EDITS.items():
        texts = []
        for function, label, old, new, *more in edits:
            pairs = [("src/lib.rt", old, new), *more]
            texts.append(f"wrong: {label}\n" + "".join(f"file: {file}\nold: {one}\nnew: {other}\n" for file, one, other in pairs))
            rows.setdefault(function, []).append(f"`{label}`")
        files[crate / "must-fail" / f"{name}.edit"] = "\n".join(texts)
    page = (f"| `tried::{function}` | promise | nothing | {', '.join(labels)} | one |\n" for function, labels in rows.items())
    files[root / "docs/PROMISES.md"] = "".join(page)
    for path, text in files.items():
        path.parent.mkdir(parents=True, exist_ok=True)
        path.write_text(text, encoding="utf-8")


def main():
    with tempfile.TemporaryDirectory() as folder:
        root = Path(folder)
        lay_out(root)
        tried = subprocess.run(["rt", "must-fail"], cwd=root, stdout=subprocess.PIPE, stderr=subprocess.STDOUT, text=True)
        judged = subprocess.run([sys.executable, PROMISES, root], stdout=subprocess.PIPE, text=True)
    said = {line.removeprefix("FAILED: ") for line in judged.stdout.splitlines() if line.startswith("FAILED: ")}
    cases = [
        ("rt proves the crate and refuses every file of edits", tried.returncode == 0),
        ("the judge ends with 1", judged.returncode == 1),
        *((f"the judge says: {line}", line in said) for line in sorted(EXPECTED)),
        *((f"the judge should not say: {line}", False) for line in sorted(said - EXPECTED)),
    ]
    for name, holds in cases:
        if not holds:
            print("FAILED:", name)
    failed = sum(not holds for _, holds in cases)
    if tried.returncode:
        print(tried.stdout)
    print(f"{len(cases) - failed} passed, {failed} failed")
    return 1 if failed else 0


if __name__ == "__main__":
    sys.exit(main())
