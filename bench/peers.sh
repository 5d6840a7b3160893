#!/usr/bin/env bash
# The same questions to the program and to other tools, as packages install them: SWI-Prolog (tabled), SQLite (rounds of queries
# until nothing is new), clingo, and plain Python by PyPy; and to a program in C++ that sends the same letters and keeps nothing
# else. Nine families of 10,000 and of 50,000 credentials; each answer is compared. Prints for each the median of the milliseconds
# that a whole process takes, of how much less it takes where nothing is asked, and of the most megabytes. A tool that takes more
# than a minute is stopped.
#
#   bench/peers.sh [RUNS [FAMILY..]]          3 runs of every family; SIZES='1000 ..' in front names other sizes. It needs
#                                             python3, swipl, clingo, pypy3, a C++ compiler and GNU `time`
. "$(dirname "$0")/common.sh"

for tool in python3 swipl clingo pypy3 c++; do
    command -v "$tool" > "$work/log" || { echo "there is no $tool" >&2; exit 1; }
done
program=$(built_program)
c++ -O3 -std=c++17 -o "$work/native" "$root/bench/peers/native.cpp"
python3 "$root/bench/peers/compare.py" "$program" "$work" "$@"
