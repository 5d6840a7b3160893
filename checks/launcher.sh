#!/usr/bin/env bash
# Tests of the launcher `rtsearch`, over a small tree of crates with a stand-in for the toolchain, whose prover notes when it
# begins and ends, and leaves what the real one would leave. Nothing is proved here. One line for each test; the last line is
# `N passed, M failed`.
set -u
root=$(cd "$(dirname "${BASH_SOURCE[0]}")/.." && pwd)
work=$(mktemp -d)
trap 'rm -rf "$work"' EXIT
passed=0
failed=0

# A tree in which `top` stands on `left` and `right`, both of them on `low`, and the program on `top` and `alone`.
make_tree() {
    local crate
    tree=$work/tree
    log=$work/log
    rm -rf "$tree" "$log" "$work"/hold.* "$work"/refuse.*
    mkdir -p "$tree"
    cp -r "$root/launch" "$root/rtsearch" "$tree/"
    printf '%s\n' '# a tree of crates' 'low: thiserror' 'left: low' 'alone:' 'right may_wait=1: low indexmap' \
        'top: low left right' 'rtsearch: top alone clap' >"$tree/crates.txt"
    for crate in low left right alone top rtsearch; do
        mkdir -p "$tree/crates/$crate"/{src,specs,proofs}
        echo "fn $crate" >"$tree/crates/$crate/src/lib.rt"
        echo "spec" >"$tree/crates/$crate/specs/Lib.antt"
    done
    : >"$log"
}

# A toolchain whose `rt` tells where it stands, and looks, and whose prover and linker leave what the real ones would.
make_stand_in() {
    mkdir -p "$work/bin" "$work/kit/bin"
    cat >"$work/bin/rt" <<'END'
#!/usr/bin/env bash
case $1 in
    doc) echo "$STAND_IN/kit/START-HERE.md" ;;
    version) cat "$STAND_IN/kit/version" ;;
    try)
        echo "look ${PWD##*/} $*" >>"$STAND_IN/log"
        echo "looked"
        exit 6
        ;;
esac
END
    cat >"$work/kit/bin/rattle" <<'END'
#!/usr/bin/env bash
words="$*"
while [ $# -gt 0 ]; do
    case $1 in
        --crate-name) name=$2 ;;
        --jobs) jobs=$2 ;;
        -o) to=$2 ;;
        --extern)
            if [[ $2 == */crates/* && ! -e "${2#*=}/proved" ]]; then
                echo "${2%%=*} is not there"
                exit 1
            fi
            ;;
    esac
    shift
done
echo "begin $name $jobs $words" >>"$STAND_IN/log"
while [ -e "$STAND_IN/hold.$name" ]; do sleep 0.02; done
if [ -e "$STAND_IN/refuse.$name" ]; then
    echo "$name has a hole"
    exit 1
fi
echo "end $name" >>"$STAND_IN/log"
case $to in
    *.o) cat src/* >"$to" ;;
    *) mkdir -p "$to" && cat src/* >"$to/proved" ;;
esac
END
    cat >"$work/kit/bin/rattle-link" <<'END'
#!/usr/bin/env bash
while [ "$1" != -o ]; do shift; done
# (the program tells each file of the repository that it was left with)
printf '#!/bin/sh\necho "program: $*"\n[ "$1" != memory ] || echo "$MALLOC_ARENA_MAX $GLIBC_TUNABLES"\nls -l /proc/$$/fd | grep "crates/[a-z]*/out/proved"\ncat\nexit 7\n' >"$2"
chmod +x "$2"
END
    echo "a kit" >"$work/kit/version"
    chmod +x "$work/bin/"* "$work/kit/bin/"*
}

# Runs the launcher, with what it prints in $out and $said, its status in $status.
launch() {
    out=$work/out
    said=$work/said
    STAND_IN=$work PATH="$work/bin:$PATH" "${as[@]}" "$tree/rtsearch" "$@" >"$out" 2>"$said" </dev/null
    status=$?
}
as=()

# The crates that were proved, or begun, in order of their names.
ended() { sed -n 's/^end //p' "$log" | LC_ALL=C sort | tr '\n' ' '; }
begun() { sed -n 's/^begin \([a-z]*\).*/\1/p' "$log" | LC_ALL=C sort | tr '\n' ' '; }

# wait_for COMMAND..: until it succeeds, ten seconds at most.
wait_for() {
    local at
    for ((at = 0; at < 500; at++)); do
        "$@" && return 0
        sleep 0.02
    done
    return 1
}

has_begun() { grep -q "^begin $1 " "$log"; }

# Tells how a test went: tell NAME COMMAND..
tell() {
    local name=$1
    shift
    if "$@"; then
        echo "launcher: $name: passed"
        passed=$((passed + 1))
    else
        echo "launcher: $name: FAILED (status ${status-}; said: $(tail -n 3 "${said:-/dev/null}" | tr '\n' '/'))"
        failed=$((failed + 1))
    fi
}

builds_each_crate_once_and_runs_the_program() {
    make_tree
    launch script x
    [ "$status" -eq 7 ] && [ "$(cat "$out")" = "program: script x" ] &&
        [ "$(ended)" = "alone left low right rtsearch top " ] && [ "$(begun)" = "$(ended)" ] &&
        [ "$(grep -c '^rtsearch: [0-9]*:[0-9][0-9] [a-z]* begins, with [1-4] jobs\?$' "$said")" -eq 6 ] &&
        [ "$(grep -c '^rtsearch: [0-9]*:[0-9][0-9] [a-z]* is proved$' "$said")" -eq 6 ]
}

# Right behind a build, and later. Who runs the program may say otherwise.
tells_how_to_keep_memory() {
    local given tunables=glibc.malloc.hugetlb=1:glibc.malloc.mmap_threshold=2097152:glibc.malloc.trim_threshold=134217728
    make_tree
    for given in '' '' MALLOC_ARENA_MAX=2; do
        as=(env ${given:+"$given"})
        launch memory
        tail -n +2 "$out"
    done | tr '\n' ' ' | grep -qx "1 $tunables 1 $tunables 2 $tunables "
}

# Each is proved from nothing, over the statements of those below, and nothing but the program is compiled.
keeps_statements_alone() {
    make_tree
    launch
    [ "$(grep -c ' --statements -o ' "$log")" -eq 5 ] && ! grep -q -- --incremental "$log" &&
        [ "$(grep -c ' --toolchain .*rtsearch.o$' "$log")" -eq 1 ]
}

proves_side_by_side() {
    make_tree
    touch "$work/hold.left" "$work/hold.right"
    STAND_IN=$work PATH="$work/bin:$PATH" "$tree/rtsearch" >/dev/null 2>&1 </dev/null &
    local launcher=$! both=1
    wait_for has_begun left && wait_for has_begun right && both=0
    rm -f "$work"/hold.*
    wait "$launcher"
    return "$both"
}

# (the best of three starts, since a busy machine may hold one up)
starts_again_within_a_second() {
    local before took best=1000000 at
    make_tree
    launch
    : >"$log"
    for at in 1 2 3; do
        before=$(date +%s%N)
        launch "$at"
        took=$((($(date +%s%N) - before) / 1000000))
        best=$((took < best ? took : best))
        [ "$status" -eq 7 ] && [ ! -s "$said" ] && [ ! -s "$log" ] || return 1
    done
    [ "$best" -lt 1000 ]
}

is_alone() { ! pgrep -f "$work/kit/bin/rattle" >/dev/null; }
is_proved() { grep -q " $1 is proved\$" "$work/first"; }

# goes_on_after SIGNAL STATUS: the prover ends with the launcher; then the crate that was being proved is proved again, and no
# other.
goes_on_after() {
    local launcher
    make_tree
    touch "$work/hold.top"
    STAND_IN=$work PATH="$work/bin:$PATH" "$tree/rtsearch" >/dev/null 2>"$work/first" </dev/null &
    launcher=$!
    wait_for has_begun top && wait_for is_proved alone || return 1
    kill "-$1" "$launcher"
    wait "$launcher" 2>/dev/null
    status=$?
    [ "$status" -eq "$2" ] && wait_for is_alone || return 1
    rm -f "$work/hold.top"
    : >"$log"
    launch
    [ "$status" -eq 7 ] && [ "$(begun)" = "rtsearch top " ]
}

builds_what_stands_on_a_change() {
    make_tree
    launch
    : >"$log"
    echo "fn changed" >"$tree/crates/left/src/lib.rt"
    launch
    [ "$status" -eq 7 ] && [ "$(begun)" = "left rtsearch top " ] || return 1
    : >"$log"
    rm "$tree/crates/right/specs/Lib.antt"
    launch
    [ "$status" -eq 7 ] && [ "$(begun)" = "right rtsearch top " ]
}

# A change that comes while the crates above are proved is built at the next start.
sees_a_change_that_came_meanwhile() {
    local launcher
    make_tree
    touch "$work/hold.top"
    STAND_IN=$work PATH="$work/bin:$PATH" "$tree/rtsearch" >/dev/null 2>&1 </dev/null &
    launcher=$!
    wait_for has_begun top
    echo "fn changed" >"$tree/crates/left/src/new.rt"
    rm -f "$work/hold.top"
    wait "$launcher"
    : >"$log"
    launch
    [ "$(begun)" = "left rtsearch top " ]
}

two_at_once_build_once() {
    local first
    make_tree
    touch "$work/hold.low"
    STAND_IN=$work PATH="$work/bin:$PATH" "$tree/rtsearch" first >"$work/first" 2>/dev/null </dev/null &
    first=$!
    wait_for has_begun low
    (sleep 0.3 && rm -f "$work/hold.low") &
    launch second
    wait "$first"
    [ "$(cat "$work/first")" = "program: first" ] && [ "$(cat "$out")" = "program: second" ] &&
        [ "$(begun)" = "alone left low right rtsearch top " ]
}

proves_nothing_where_no_source_says_something_else() {
    make_tree
    launch
    : >"$log"
    touch "$tree/crates/low/src/lib.rt"
    launch
    [ "$status" -eq 7 ] && [ ! -s "$log" ] || return 1
    echo "fn changed" >"$tree/crates/top/src/lib.rt"
    touch "$work/refuse.top"
    launch
    [ "$status" -eq 125 ] || return 1
    echo "fn top" >"$tree/crates/top/src/lib.rt"
    rm "$work/refuse.top"
    : >"$log"
    launch
    [ "$status" -eq 7 ] && [ "$(begun)" = "rtsearch top " ]
}

builds_all_for_another_toolchain() {
    make_tree
    launch
    : >"$log"
    echo "another kit" >"$work/kit/version"
    touch "$tree/crates.txt"
    launch
    echo "a kit" >"$work/kit/version"
    [ "$status" -eq 7 ] && [ "$(begun)" = "alone left low right rtsearch top " ]
}

# A look says that nothing is proved, leaves nothing, is never what runs without the word, and runs beside a build.
looks_before_the_proof() {
    local launcher
    make_tree
    launch --unproved script x
    [ "$status" -eq 6 ] && [ "$(cat "$out")" = looked ] && grep -q 'NOT PROVED' "$said" &&
        [ "$(cat "$log")" = "look rtsearch try -- script x" ] && [ ! -e "$tree/crates/rtsearch/out" ] || return 1
    : >"$log"
    launch script x
    [ "$status" -eq 7 ] && [ "$(cat "$out")" = "program: script x" ] && ! grep -q '^look' "$log" && ! grep -q 'NOT PROVED' "$said" || return 1
    launch --unproved script x
    [ "$status" -eq 6 ] && grep -q 'NOT PROVED' "$said" || return 1
    echo "fn changed" >"$tree/crates/low/src/lib.rt"
    touch "$work/hold.low"
    : >"$log"
    STAND_IN=$work PATH="$work/bin:$PATH" "$tree/rtsearch" >/dev/null 2>&1 </dev/null &
    launcher=$!
    wait_for has_begun low
    launch --unproved script x
    rm "$work/hold.low"
    wait "$launcher"
    [ "$status" -eq 6 ] && [ "$(cat "$out")" = looked ]
}

shows_why_the_program_is_not_proved() {
    make_tree
    launch
    echo "fn changed" >"$tree/crates/rtsearch/src/lib.rt"
    touch "$work/refuse.rtsearch"
    launch
    [ "$status" -eq 125 ] && [ ! -s "$out" ] && [ "$(tail -n 1 "$said")" = "rtsearch: rtsearch is not proved" ] || return 1
    launch
    [ "$status" -eq 125 ]
}

shows_why_a_crate_is_not_proved() {
    make_tree
    touch "$work/refuse.right"
    launch
    [ "$status" -eq 125 ] && [ ! -s "$out" ] && grep -q '^right has a hole$' "$said" &&
        [ "$(tail -n 1 "$said")" = "rtsearch: right is not proved" ] || return 1
    rm "$work/refuse.right"
    : >"$log"
    launch
    [ "$status" -eq 7 ] && ! has_begun low
}

tells_that_there_is_no_toolchain() {
    make_tree
    mv "$work/bin/rt" "$work/rt"
    PATH="$work/bin:/usr/bin:/bin" "$tree/rtsearch" script >"$work/out" 2>"$work/said" </dev/null
    status=$?
    mv "$work/rt" "$work/bin/rt"
    [ "$status" -eq 127 ] && [ ! -s "$work/out" ] && [ "$(wc -l <"$work/said")" -eq 1 ] && grep -q 'command rt' "$work/said"
}

# (root may write anywhere, so it becomes nobody)
tells_which_folder_cannot_be_written() {
    make_tree
    chmod a-w "$tree/crates/left"
    if [ "$(id -u)" -eq 0 ]; then
        chown -R 65534:65534 "$tree" "$log"
        chmod 711 "$work"
        as=(setpriv --reuid=65534 --regid=65534 --clear-groups)
    fi
    launch
    as=()
    chmod u+w "$tree/crates/left"
    [ "$status" -eq 126 ] && [ ! -s "$out" ] && [ "$(wc -l <"$said")" -eq 1 ] && grep -q 'crates/left' "$said" && [ ! -s "$log" ]
}

make_stand_in
tell "each crate is built once, and the program runs" builds_each_crate_once_and_runs_the_program
tell "two crates over one other are proved side by side" proves_side_by_side
tell "a crate leaves its statements alone" keeps_statements_alone
tell "the program is told how to keep memory, where nobody says otherwise" tells_how_to_keep_memory
tell "a second start takes less than a second" starts_again_within_a_second
tell "a build that is ended goes on" goes_on_after TERM 143
tell "a build whose terminal is closed goes on" goes_on_after HUP 129
tell "a build whose launcher was killed goes on" goes_on_after KILL 137
tell "a change in the middle builds what stands on it" builds_what_stands_on_a_change
tell "a change that came meanwhile is built next" sees_a_change_that_came_meanwhile
tell "two launchers at once build once" two_at_once_build_once
tell "where no source says something else nothing is proved" proves_nothing_where_no_source_says_something_else
tell "another toolchain proves all" builds_all_for_another_toolchain
tell "a look before the proof" looks_before_the_proof
tell "a crate that isn't proved is told, and the rest is kept" shows_why_a_crate_is_not_proved
tell "a program that isn't proved isn't run, though an older one is there" shows_why_the_program_is_not_proved
tell "no toolchain" tells_that_there_is_no_toolchain
tell "a folder that can't be written" tells_which_folder_cannot_be_written
echo "$passed passed, $failed failed"
[ "$failed" -eq 0 ]
