#!/usr/bin/env bash
# What a letter costs where workers make a search's steps in visits, beside the same search where it drives itself: six
# families, each of about so many credentials as the first argument says (1,000), and so many questions of each as the second
# says (10), through the program as a script and through the service with one worker. Prints how many letters a question takes, and
# the instructions for a letter by each way, counted by callgrind, with what comes before the third question taken off. Further
# arguments name other built programs, of which the same is printed. It needs valgrind, and python3 of at least 3.10.
. "$(dirname "$0")/common.sh"

size=${1:-1000}
questions=${2:-10}
program=$(built_program)
for each in "$program" "${@:3}"; do
    [ $# -lt 3 ] || echo "$each" | sed "s|^$root/||"
    "$root/bench/visits/visits.py" "$each" "$size" "$questions"
done
