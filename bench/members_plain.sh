#!/bin/sh
# How long the plain program for the members of a role takes: 100, 300 and 1,000 credentials of these shapes.
# Prints a table of milliseconds; the limit for one run is the first argument, in seconds (120).
#
# chain: each role includes the one before it. wide: one role of many entities. linked: each role is linked over
# the one before it. fan: one role is linked over a base of many members. met: each role is an intersection of the
# one before it and another role.
. "$(dirname "$0")/common.sh"

limit=${1:-120}
lay_out members_plain names credential_text rt0_rules anyhow
build

printf '%-8s %10s %10s %12s\n' shape credentials members milliseconds
for shape in chain wide linked fan met; do
    for count in 100 300 1000; do
        if answer=$(timeout "$limit" "out/$program" "$shape" "$count"); then
            printf '%-8s %10s %10s %12s\n' "$shape" "$count" $answer
        else
            printf '%-8s %10s %10s %12s\n' "$shape" "$count" - "over ${limit}000"
        fi
    done
done
