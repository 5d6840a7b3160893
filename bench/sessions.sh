#!/usr/bin/env bash
# How many requests sessions answer in a second, over 1 and over 64 connections at once: of a search that isn't there, which
# touches no vault, and of searches that are opened, waited for and ended; each line sent once the one before it is answered,
# and 16 rounds of them sent at once. Beside each what a bare echo loop gives to the same client over the same sockets. Then
# the same searches by 64 sessions of one tenant.
#
# Prints the requests in a second and the microseconds of processor time that the server took for one, of the program and of
# the echo, which isn't asked by sessions of one tenant. Each figure is the median of so many runs as the
# first argument says (3); the second is the number of workers (4), and further ones name other built programs, of which the
# same is printed. It needs a C compiler.
. "$(dirname "$0")/common.sh"

runs=${1:-3}
workers=${2:-4}
program=$(built_program)
TIMEFORMAT='%U %S'
for part in client echo; do
    cc -O2 -pthread -o "$work/$part" "$root/bench/sessions/$part.c"
done
awk 'BEGIN {
    for (tenant = 1; tenant <= 64; tenant++) print "tenant Tenant" tenant " word 1000 100 64 10000 1000000000 1000000"
    print "begin"
}' > "$work/roster"

# server KIND CONNECTIONS: the program or the echo for so many connections, with its processor time behind it.
server() {
    if [ "$1" = echo ]; then
        time "$work/echo" "$2"
    else
        time "$1" serve --workers "$workers" --sessions 64 --accept "$2" < "$work/roster"
    fi
}

# once KIND CONNECTIONS ROUNDS AHEAD ASKED: the requests in a second, and the nanoseconds of processor time of one.
once() {
    local port lines=1
    [ "$5" = poll ] || lines=3
    rm -f "$work/said"
    mkfifo "$work/said"
    server "$1" "$2" > "$work/said" 2> "$work/worked" &
    exec 3< "$work/said"
    read -r port <&3
    "$work/client" "${port##*:}" "$2" "$3" "$4" "$5" > "$work/lasted"
    cat <&3 > "$work/rest"
    wait
    awk -v requests="$(($2 * $3 * lines))" -v lasted="$(cat "$work/lasted")" '
        { printf "%d %d\n", requests * 1e9 / lasted, ($1 + $2) * 1e9 / requests }' "$work/worked"
}

# in_microseconds COUNT NANOSECONDS: the two figures as they are shown; two dashes where there are none.
in_microseconds() {
    [ $# -gt 0 ] || set -- - -
    awk -v count="$1" -v nanoseconds="$2" 'BEGIN { print count, nanoseconds == "-" ? "-" : sprintf("%.1f", nanoseconds / 1000) }'
}

# measure CONNECTIONS ROUNDS AHEAD ASKED WHAT
measure() {
    local of_program of_echo
    of_program=$(medians "$runs" once "$program" "$1" "$2" "$3" "$4")
    [ "$4" = share ] || of_echo=$(medians "$runs" once echo "$1" "$2" "$3" "$4")
    # shellcheck disable=SC2046,SC2086
    row "$5" "$1" $(in_microseconds $of_program) $(in_microseconds ${of_echo-})
}

for program in "$program" "${@:3}"; do
    [ $# -lt 3 ] || echo "$program" | sed "s|^$root/||"
    heading Requests sessions 'in a second' microseconds 'echo, in a second' microseconds
    for connections in 1 64; do
        rounds=$((connections == 1 ? 30000 : 2000))
        measure "$connections" "$rounds" 0 poll '`poll`, one by one'
        measure "$connections" "$((3 * rounds))" 16 poll '16 sent at once'
        measure "$connections" "$((rounds / 3))" 0 ask '`ask`, `wait` and `end`, one by one'
        measure "$connections" "$((rounds / 3))" 16 ask '48 sent at once'
    done
    measure 64 "$((2000 / 3))" 0 share '`ask`, `wait` and `end`, all of one tenant'
done
