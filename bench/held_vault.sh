#!/usr/bin/env bash
# What a change of a vault costs that an open search holds: the vault has so many rows as the first argument says (90,000), in no
# order. Prints the microseconds of such a change at the 50th and at the 99th of 100, those of the end of its search, and of a
# change while nobody holds the vault; and the bytes of a held version for each row. A second argument names another built
# program to be measured beside.
. "$(dirname "$0")/common.sh"

rows=${1:-90000}
program=$(built_program)
printf '%s\n' 'tenant Archive word 100000 1 64 1000000 1000000000 1000000000' begin > "$work/roster"

row='%-34s %9s %9s %9s %9s %9s %12s\n'
# shellcheck disable=SC2059
printf "$row" program 'held, 50' '99' 'end, 50' '99' 'alone, 50' 'bytes a row'
for each in "$program" "${@:2}"; do
    rm -f "$work/said"
    mkfifo "$work/said"
    "$each" serve --accept 1 < "$work/roster" > "$work/said" &
    exec 3< "$work/said"
    read -r port <&3
    # shellcheck disable=SC2046,SC2059
    printf "$row" "$(echo "$each" | sed "s|^$root/||")" $("$root/bench/held_vault/puts.py" "${port##*:}" "$!" "$rows")
    cat <&3 > "$work/rest"
    wait
done
