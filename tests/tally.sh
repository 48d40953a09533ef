# To be read by the programs of tests/parts/ with '.': they tell each case by `pass` or `fail` and end with `tally`.
passed=0
failed=0

pass() {
    passed=$((passed + 1))
}

fail() {
    failed=$((failed + 1))
    printf 'FAILED: %s\n' "$1"
}

# A case by its name and a command that has to succeed.
case_of() {
    name=$1
    shift
    if "$@"; then pass; else fail "$name"; fi
}

tally() {
    echo "$passed passed, $failed failed"
    [ "$failed" = 0 ]
}
