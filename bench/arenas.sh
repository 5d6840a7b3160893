#!/usr/bin/env bash
# The most memory that a service takes whose sessions take turns, beside what docs/OPERATING.md reckons for all that it holds
# at once: where the C library keeps arenas as it likes, up to 8 for each processor, and where it keeps one for all threads, in huge
# pages, as ./rtsearch tells it to. First sessions of one tenant with 10,000 rows, each of
# which opens 64 searches, a change before each, and ends them all; then sessions each of which has one search of 180,000 letters.
#
# Prints the kilobytes that were taken and those that are reckoned, and how many times as many that is. Each figure is the median
# of so many runs as the first argument says (1); a second argument names another built program. It needs GNU `time`.
. "$(dirname "$0")/common.sh"

runs=${1:-1}
program=${2:-$(built_program)}
printf '%s\n' 'tenant Archive word 100000 1 64 1000000 1000000000 1000000000' begin > "$work/roster"

# what the launcher says of memory, which nobody else is to say
for name in "${!MALLOC_@}" GLIBC_TUNABLES; do unset "$name"; done
mapfile -t one < <(sed -n 's/^export \([A-Z_]*\)="${[A-Z_]*-\(.*\)}"$/\1=\2/p' "$root/rtsearch")

# once ARENAS CASE SESSIONS ROWS: the kilobytes, and those reckoned.
once() {
    local port settings=()
    [ "$1" = many ] || settings=("${one[@]}")
    rm -f "$work/said"
    mkfifo "$work/said"
    command time -f %M -o "$work/worked" env "${settings[@]}" \
        "$program" serve --sessions "$3" --accept "$3" < "$work/roster" > "$work/said" &
    exec 3< "$work/said"
    read -r port <&3
    "$root/bench/arenas/sessions.py" "${port##*:}" "$2" "$3" "$4" > "$work/told"
    cat <&3 > "$work/rest"
    wait
    echo "$(< "$work/worked") $(< "$work/told")"
}

times() { awk -v taken="$1" -v reckoned="$2" 'BEGIN { printf "%.2f", taken / reckoned }'; }

heading 'Sessions that take turns' 'kilobytes, reckoned' 'many arenas' times 'one arena' times
for case in 'versions 8 10000' 'versions 64 10000' 'letters 32 90000'; do
    read -r kind sessions rows <<< "$case"
    case $kind in
        versions) what="$sessions, each with 64 searches over $rows credentials, a change before each" ;;
        letters) what="$sessions, each with one search of $((2 * rows)) letters" ;;
    esac
    # shellcheck disable=SC2046,SC2086
    set -- $(medians "$runs" once many $case) $(medians "$runs" once one $case)
    row "$what" "$2" "$1" "$(times "$1" "$2")" "$3" "$(times "$3" "$2")"
done
