#!/usr/bin/env bash
# What a script's questions and changes cost through the built program: the microseconds of processor time of each, and the
# instructions, as callgrind counts them over fewer of them.
#
# Questions: of 10, 100 and 1,000 tenants, who ask 30,000 in turn. Each tenant has the same: four credentials, and the vaults of
# two others to read, into which each question leads. A question is asked, waited for and ended, in three lines; with a change
# before it, a tenant whose vault is read takes a credential back, or puts it again, so that the answer turns each time. Uploads:
# of one tenant, in the order of its vault, against it and in no order; withdrawals of what was put in order; and uploads in no
# order into a vault of as many, by themselves and with an opening after each ten.
#
# Each time is the median of so many runs as the first argument says (3), less what comes before; the scripts are run in turn, so
# that a busy machine is busy for all of them. A second argument divides all sizes (1). It needs valgrind.
. "$(dirname "$0")/common.sh"

runs=${1:-3}
part=${2:-1}
program=$(built_program)
TIMEFORMAT='%U %S'

# roster_of TENANTS: the roster, and what each tenant has from the start.
roster_of() {
    awk -v tenants="$1" '
        function name(place) { return sprintf("T%04d", place % tenants + 1) }
        function say(place, command) { print name(place) ": " command }
        BEGIN {
            for (place = 0; place < tenants; place++) print "tenant " name(place) " word"
            print "begin"
            for (place = 0; place < tenants; place++) {
                say(place, "put " name(place) ".doctors <- D" place)
                say(place, "put " name(place) ".nurses <- N" place)
                say(place, "put " name(place) ".staff <- " name(place + 1) ".doctors")
                say(place, "put " name(place) ".staff <- " name(place + 2) ".nurses")
                say(place + 1, "grant " name(place))
                say(place + 2, "grant " name(place))
            }
        }'
}

# questions_of TENANTS QUESTIONS CHANGES: so many questions in turn, each with a change before it where CHANGES is 1.
questions_of() {
    awk -v tenants="$1" -v questions="$2" -v changes="$3" '
        function name(place) { return sprintf("T%04d", place % tenants + 1) }
        function say(place, command) { print name(place) ": " command }
        BEGIN {
            for (asked = 0; asked < questions; asked++) {
                place = asked % tenants
                doctor = "D" (place + 1) % tenants
                number = int(asked / tenants) + 1
                if (changes) say(place + 1, (number % 2 ? "drop " : "put ") name(place + 1) ".doctors <- " doctor)
                say(place, "ask " name(place) ".staff " doctor)
                say(place, "wait " number)
                say(place, "end " number)
            }
        }'
}

# changes_of ROWS ORDER DROPS: a roster of one tenant, and its uploads: in the order of its vault, against it or in none,
# or in order and then as many drops in that order where DROPS is 1.
changes_of() {
    awk -v rows="$1" -v order="$2" -v drops="$3" '
        function say(word, place) { printf "Archive: %s Archive.staff <- E%05d\n", word, place }
        BEGIN {
            print "tenant Archive word 100000 1 1 1000000 1 1"
            print "begin"
            for (row = 0; row < rows; row++) places[row] = order == "against_it" ? rows - row : row
            srand(1)
            for (row = rows - 1; order == "in_no_order" && row > 0; row--) {
                other = int(rand() * (row + 1))
                place = places[row]; places[row] = places[other]; places[other] = place
            }
            for (row = 0; row < rows; row++) say("put", drops ? row : places[row])
            for (row = 0; drops && row < rows; row++) say("drop", places[row])
        }'
}

# openings_of ROWS UPLOADS OPENINGS: a vault of so many, and so many uploads into it in no order, with an opening after each
# ten where OPENINGS is 1.
openings_of() {
    awk -v rows="$1" -v uploads="$2" -v openings="$3" '
        function say(command) { print "Archive: " command }
        function put(place) { say(sprintf("put Archive.staff <- E%05d", place)) }
        BEGIN {
            print "tenant Archive word 100000 1 10 1000000 10000 1000"
            print "begin"
            for (row = 0; row < rows; row++) put(2 * row)
            for (row = 0; row < uploads; row++) {
                put(row * 7919 % rows * 2 + 1)
                if (!openings || row % 10 != 9) continue
                number = (row + 1) / 10
                say("ask Archive.nobody Ada")
                say("end " number)
            }
        }'
}

# whole KIND MORE COUNT, before KIND MORE COUNT: the script of so many, and what of it comes before them.
whole() {
    case $1 in
        questions) roster_of "$2"; questions_of "$2" "$3" 0 ;;
        changes) roster_of "$2"; questions_of "$2" "$3" 1 ;;
        uploads) changes_of "$3" "$2" 0 ;;
        drops) changes_of "$3" "$2" 1 ;;
        openings) openings_of "$3" "$3" "$2" ;;
    esac
}
before() {
    case $1 in
        questions | changes) roster_of "$2" ;;
        uploads) changes_of 0 in_order 0 ;;
        drops) changes_of "$3" in_order 0 ;;
        openings) openings_of "$3" 0 0 ;;
    esac
}

# each row: what it is, its kind, what the kind needs, how many are timed, and how many counted
rows=(
    'a question of 10 tenants|questions|10|30000|3000'
    'of 100|questions|100|30000|3000'
    'of 1,000|questions|1000|30000|3000'
    'a question of 10 tenants, and a change before it|changes|10|30000|3000'
    'of 100|changes|100|30000|3000'
    'of 1,000|changes|1000|30000|3000'
    'an upload, 100,000 in the order of the vault|uploads|in_order|100000|10000'
    'against it|uploads|against_it|100000|10000'
    'in no order|uploads|in_no_order|100000|10000'
    'a withdrawal, 30,000 in the order of the vault|drops|in_order|30000|10000'
    'in no order|drops|in_no_order|30000|10000'
    'an upload, 10,000 in no order into a vault of 10,000|openings|0|10000|10000'
    'with an opening after each ten|openings|1|10000|10000'
)

# worked FILE: the milliseconds of processor time of a script.
worked() {
    { time "$program" script < "$1" > "$work/replies"; } 2>&1 | awk '{ print ($1 + $2) * 1000 }'
    if grep -q error "$work/replies"; then echo "$1: a line was refused" >&2; fi
}

# scripts_of KIND MORE COUNT: writes both scripts.
scripts_of() {
    whole "$@" > "$work/whole.script"
    before "$@" > "$work/before.script"
}

for ((run = 0; run < runs; run++)); do
    for at in "${!rows[@]}"; do
        IFS='|' read -r _ kind more timed _ <<< "${rows[at]}"
        scripts_of "$kind" "$more" $((timed / part))
        for one in whole before; do worked "$work/$one.script" >> "$work/$at.$one"; done
    done
done

median() { sort -n "$1" | sed -n "$(((runs + 1) / 2))p"; }

heading 'Through a script' microseconds instructions
for at in "${!rows[@]}"; do
    IFS='|' read -r what kind more timed counted <<< "${rows[at]}"
    counted=$((counted / part))
    scripts_of "$kind" "$more" "$counted"
    all=$(instructions "$work/whole.script" "$program" script)
    less=$(instructions "$work/before.script" "$program" script)
    microseconds=$(awk -v whole="$(median "$work/$at.whole")" -v before="$(median "$work/$at.before")" -v count=$((timed / part)) '
        BEGIN { printf "%.1f", (whole - before) * 1000 / count }')
    row "$what" "$microseconds" "$(awk -v all="$all" -v less="$less" -v count="$counted" 'BEGIN { printf "%d", (all - less) / count }')"
done
