#!/usr/bin/env bash
# How long a copy of the repository takes from nothing: of each crate the seconds that it takes in the first build, by
# ./rtsearch, and when the gate, ./check, has it proved; and both whole. With the word `build` or `gate` that column alone. Each
# goes over a fresh copy, one after the other, by all processors, so nothing else should be at work.
. "$(dirname "$0")/common.sh"

copy() {
    rm -rf "$work/tree"
    mkdir "$work/tree"
    tar -C "$root" --exclude='./.git' --exclude='./crates/*/out' -cf - . | tar -xf - -C "$work/tree"
}

minutes() { printf '%d:%02d' $(($1 / 60)) $(($1 % 60)); }

# seconds TEXT: of minutes and seconds.
seconds() { echo $((10#${1%%:*} * 60 + 10#${1##*:})); }

# first_build: a line for each crate, of its name and its seconds; and one of the whole.
first_build() {
    local began=$SECONDS crate at
    copy
    "$work/tree/rtsearch" --version < /dev/null 2>&1 > "$work/version" | sed -n 's/^rtsearch: \([0-9]*:[0-9]*\) \([a-z_0-9]*\) \(begins\|is proved\).*/\2 \3 \1/p' |
        while read -r crate what more; do  # (`is proved` has two words)
            at=$(seconds "${more##* }")
            if [ "$what" = begins ]; then echo "$at" > "$work/$crate.began"; else echo "$crate $((at - $(< "$work/$crate.began")))"; fi
        done
    echo "whole $(minutes $((SECONDS - began)))"
}

# gate: a line for each crate, of its name and after how long it was proved; and one of the whole.
gate() {
    local began made
    copy
    mkdir -p "$work/rooms"
    began=$(date +%s)
    (cd "$work/tree" && TMPDIR=$work/rooms ./check > "$work/said" 2>&1; tail -n 1 "$work/said" > "$work/ended") &
    while [ ! -s "$work/ended" ]; do
        sleep 1
        for made in "$work"/rooms/*/crates/*/out/rlib/*.rlib "$work"/rooms/*/crates/rtsearch/out/rtsearch; do
            [ ! -e "$made" ] || stat -c %Y "$made" > "$work/$(basename "$made" .rlib).made"
        done
    done
    for made in "$work"/*.made; do
        echo "$(basename "$made" .made) $(minutes $(($(< "$made") - began)))"
    done
    echo "whole $(minutes $(($(date +%s) - began)))"
    cat "$work/ended" >&2
}

: > "$work/build"
: > "$work/gate"
[ "${1-}" = gate ] || first_build > "$work/build"
[ "${1-}" = build ] || gate > "$work/gate"

# of FILE NAME: what stands there, or nothing.
of() { sed -n "s/^$2 //p" "$1"; }

heading Crate 'first build, seconds' 'gate, proved after'
while read -r crate; do
    row "\`$crate\`" "$(of "$work/build" "$crate")" "$(of "$work/gate" "$crate")"
done < <(sed -n 's/^\([a-z_0-9]*\)[ :].*/\1/p' "$root/crates.txt")
row 'the whole' "$(of "$work/build" whole)" "$(of "$work/gate" whole)"
