#!/usr/bin/env bash
# How long a tenant waits for its `sees` while others have much to be done: one polls the members of a role of so many as the
# first argument says (90,000), is told its vault of so many rows, searches that role, or puts a row into that vault while a
# search holds it; one has a proof of so many steps as the second says (60,000), or follows that chain; and one has a search of
# 11,500 letters for each of so many roles as the third says (200), or ends such searches. Prints the microseconds of a `sees` at
# the 50th and at the 99th of 100 and of the longest one, of so many as the fourth argument says (1,000) or as the other needs:
# first where nothing else is at work, and then where two processes that only compute go on meanwhile. Further arguments name
# other built programs, of which the same is printed. It needs a C compiler.
. "$(dirname "$0")/common.sh"

members=${1:-90000}
steps=${2:-60000}
roles=${3:-200}
asked=${4:-1000}
program=$(built_program)
cc -O2 -pthread -o "$work/client" "$root/bench/held_up/client.c"
printf '%s\n' 'tenant Wide word 100000 10 10 1000000 1000000 10000000' 'tenant Chain word 100000 10 10 1000000 1000000 10000000' \
    'tenant Dense word 100000 10 64 1000000 1000000 10000000' 'tenant Short word' begin > "$work/roster"

# as the launcher has it
export MALLOC_ARENA_MAX=1 GLIBC_TUNABLES=glibc.malloc.hugetlb=1:glibc.malloc.mmap_threshold=2097152:glibc.malloc.trim_threshold=134217728

# compute: goes on until it is ended.
compute() { while :; do :; done; }

# waits PROGRAM: a line for each of what others say meanwhile.
waits() {
    local port
    rm -f "$work/said"
    mkfifo "$work/said"
    "$1" serve --sessions 4 --accept 4 < "$work/roster" > "$work/said" &
    server=$!
    exec 3< "$work/said"
    read -r port <&3
    "$work/client" "${port##*:}" "$members" "$steps" "$asked" "$roles"
    cat <&3 > "$work/rest"
    wait "$server"
}

# what others do, by the client's names for it
named() {
    case $1 in
        nothing) echo 'does nothing' ;;
        poll_of_members) echo "polls $members members" ;;
        proof) echo "has a proof of $steps steps" ;;
        vault) echo "is told its vault of $members rows" ;;
        who) echo "searches a role of $members rows" ;;
        put_into_a_held_vault) echo 'puts into that vault, which a search holds' ;;
        ask_along_a_chain) echo "asks along a chain of $steps" ;;
        large_search) echo "has a search of $((11500 * roles)) letters" ;;
        end_of_a_large_search) echo 'ends such a search' ;;
    esac
}

for each in "$program" "${@:5}"; do
    [ $# -lt 5 ] || echo "$each" | sed "s|^$root/||"
    waits "$each" > "$work/idle"
    compute & first=$!
    compute & second=$!
    trap 'kill "$first" "$second"; rm -rf "$work"' EXIT
    waits "$each" > "$work/busy"
    kill "$first" "$second"
    wait "$first" "$second" 2> "$work/log" || true
    trap 'rm -rf "$work"' EXIT
    heading "Microseconds for \`sees\` while another" '50th of 100' 99th longest 'busy: 50th' 99th longest
    while read -r name half most longest _ _ _ busy_half busy_most busy_longest _; do
        row "$(named "$name")" "$half" "$most" "$longest" "$busy_half" "$busy_most" "$busy_longest"
    done < <(paste -d ' ' "$work/idle" "$work/busy")
done
