# To be read by harrowlink and speed/build with '.': what is to be proved anew, and who waits for a proof sees what is being proved. `root` is
# the repository.

# A file or folder of the crates that is newer than this one, where there is any. What `rt` makes, in out/, is none, nor that it is there.
changed_since() {
    { find "$root/crates" -mindepth 2 -name out -prune -o -newer "$1" -print && find "$root/crates.txt" -newer "$1"; } 2>/dev/null | head -n 1
}

# The crates that one stands on, and it itself, in the order in which `rt` proves them.
crates_below() {
    awk -v wanted="$1" '
        function tell(name, ones, count, k) {
            count = split(below[name], ones, " ")
            for (k = 1; k <= count; k++) if (ones[k] in below) tell(ones[k])
            if (!told[name]++) print name
        }
        { sub(/#.*/, "") }
        /:/ {
            name = $1
            sub(/:.*/, "", name)
            below[name] = substr($0, index($0, ":") + 1)
        }
        END { if (wanted in below) tell(wanted) }' "$root/crates.txt"
}

# How it stands with these crates, in one line, or nothing before the first is begun. `rt` proves one after the other and says with which it
# begins, but says nothing of those that are proved already.
how_it_stands() {
    proving=$(sed -n 's/^rt: chose --jobs [0-9]* for \([a-z0-9_]*\)$/\1/p' "$1" | tail -n 1)
    shift
    proved=0
    for crate in "$@"; do
        if [ "$crate" = "$proving" ]; then
            printf 'proving %s: %s of %s crates are proved' "$proving" "$proved" "$#"
            return
        fi
        proved=$((proved + 1))
    done
}

# Says it on standard error whenever it has changed, as long as this shell is there: in one line that is written over on a terminal, in
# plain lines elsewhere.
tell_proofs() {
    said=
    while kill -0 $$ 2>/dev/null; do
        stands=$(how_it_stands "$@")
        if [ -n "$stands" ] && [ "$stands" != "$said" ]; then
            if [ -t 2 ]; then printf '\r\033[K%s' "$stands" >&2; else printf '%s\n' "$stands" >&2; fi
            said=$stands
        fi
        sleep 0.2
    done
}

# telling CRATE LOG COMMAND..: runs a command of `rt` in this crate's folder, which proves it and what it stands on, what it writes into the
# log, and tells meanwhile how it stands. Ends as the command does.
telling() {
    crate_folder=$root/crates/$1
    below=$(crates_below "$1")
    rt_log=$2
    shift 2
    : >"$rt_log" || return 2
    # the crates' names are words
    # shellcheck disable=SC2086
    tell_proofs "$rt_log" $below &
    teller=$!
    (cd "$crate_folder" && "$@") >>"$rt_log" 2>&1 </dev/null
    ended=$?
    kill "$teller" 2>/dev/null
    wait "$teller" 2>/dev/null
    [ ! -t 2 ] || printf '\r\033[K' >&2
    return "$ended"
}
