#!/usr/bin/env bash
# What searches cost that are open at once over one vault of 1,000 and of 10,000 credentials, whose roles have ten
# members each. First how many lines the program answers in a second of processor time, and the microseconds of an opening,
# where 64 searches are open and each opening comes after the end of the oldest. Then the most memory that the program
# takes, in kilobytes, with 0, 1, 16 and 64 searches open and answered, each for the members of another role; and with 64
# where a change of the vault comes before each, so that each search holds another version of it.
#
# Each figure is the median of so many runs as the first argument says (3). It needs GNU `time`.
. "$(dirname "$0")/common.sh"

runs=${1:-3}
program=$(built_program)
TIMEFORMAT='%U %S'

# script ROWS SEARCHES CHANGES MORE: a vault of so many credentials, and so many searches, which are answered and stay
# open; with a change before each where CHANGES isn't 0; then MORE searches that are opened, each after the oldest is
# ended.
script() {
    awk -v rows="$1" -v searches="$2" -v changes="$3" -v more="$4" '
        function role(number) { return sprintf("Archive.r%04d", number % (rows / 10)) }
        function say(command) { print "Archive: " command }
        BEGIN {
            print "tenant Archive word 100000 1 64 1000000 1000000000 1000000"
            print "begin"
            for (row = 0; row < rows; row++) say("put " role(row) " <- E" row)
            for (search = 1; search <= searches; search++) {
                if (changes) say("put Archive.more <- E" search)
                say("who " role(search))
                say("wait " search)
            }
            for (search = 1; search <= more; search++) {
                say("end " search)
                say("who " role(search))
            }
        }'
}

# worked FILE: the milliseconds of processor time that the script takes, in which nothing is refused.
worked() {
    { time "$program" script < "$1" > "$work/replies"; } 2>&1 | awk '{ print int(($1 + $2) * 1000) }'
    if grep -q error "$work/replies"; then echo 'a line was refused' >&2; fi
}

# taken FILE: the most kilobytes that the script takes.
taken() {
    command time -f %M "$program" script < "$1" 2>&1 > "$work/replies"
    if grep -q error "$work/replies"; then echo 'a line was refused' >&2; fi
}

more=100000
printf '%-8s %14s %14s\n' rows 'lines a second' 'us an opening'
for rows in 1000 10000; do
    script "$rows" 64 0 0 > "$work/script"
    silent=$(medians "$runs" worked "$work/script")
    script "$rows" 64 0 "$more" > "$work/script"
    awk -v rows="$rows" -v more="$more" -v silent="$silent" -v worked="$(medians "$runs" worked "$work/script")" 'BEGIN {
        alone = worked > silent ? worked - silent : 1
        printf "%-8d %14d %14.1f\n", rows, 2 * more * 1000 / alone, alone * 1000 / more
    }'
done

row='%-8s %10s %10s %10s %10s %16s\n'
# shellcheck disable=SC2059
printf "$row" rows '0 open' '1' '16' '64' '64 with changes'
for rows in 1000 10000; do
    figures=
    for searches in 0 1 16 64; do
        script "$rows" "$searches" 0 0 > "$work/script"
        figures="$figures $(medians "$runs" taken "$work/script")"
    done
    script "$rows" 64 1 0 > "$work/script"
    # shellcheck disable=SC2059,SC2086
    printf "$row" "$rows" $figures "$(medians "$runs" taken "$work/script")"
done
