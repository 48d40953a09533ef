# To be read by speed/build and speed/count with '.': where the kit and the sources of the measuring program stand.
registry=/usr/share/cargo/registry
machine=$(uname -m)
# The static libraries that the loops stand in (crates/bench says why there are three).
libraries='bench_c bench_read bench_binary'

refuse() {
    printf 'speed: %s\n' "$1" >&2
    exit 2
}

find_kit() {
    command -v rt >/dev/null 2>&1 || refuse "rt is not on the path: the Rattle kit has it"
    guide=$(rt doc 2>/dev/null) && [ -e "$guide" ] || refuse "rt doc does not say where the kit is"
    tools=${guide%/*}/toolchain
    clang=$tools/bin/clang
    [ -x "$clang" ] || refuse "the kit's compiler is not at its place"
}

# Lays the measuring program out beside the crate. A file that is as it was keeps its time, so that cargo builds no more than it has to.
lay_out_race() {
    mkdir -p "$1/src" || return 1
    for file in Cargo.toml build.rs src/main.rs src/ours.rs src/race.rs src/rows.rs src/streams.rs src/theirs.rs; do
        cmp -s "$here/race/$file" "$1/$file" || cp "$here/race/$file" "$1/$file" || return 1
    done
}
