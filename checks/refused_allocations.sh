#!/usr/bin/env bash
# Runs the tests of crates with each of their allocations refused in turn: the first alone, the second alone, and so on
# until a run makes fewer. A test may then end with want of memory; no answer may differ from what the test wants, and
# nothing may crash. Needs a C compiler, for a small library that is loaded before the C library's own allocator.
#
#   checks/refused_allocations.sh CRATE[:PATH]..  (each: proves the crate's tests first, where they aren't built yet)
#   checks/refused_allocations.sh --sample        (of a search, 20 allocations of each test; and every one of the graph's and
#                                                 the monitors', of a search through a linked role in a hall, and of one from
#                                                 end to end at a desk)
#
# With a PATH it runs the tests whose path holds it: those of a module, or one test. A test that makes more than 4,000
# allocations, or MOST_RUNS, is run about so often, with allocations at equal distances; one that is named is run for each.
# Prints how many allocations the tests make, how many runs ended well though one was refused, how many with want of memory,
# and every run that ended otherwise. Its last line is `N passed, M failed`, of what was asked for. The status is 1 where one
# failed.
set -eu
if [ "${1-}" = --sample ]; then
    MOST_RUNS=20
    set -- proof_trees:each_graph_answers_its_lines proof_trees:monitors_hear_each_once proof_trees:of_search:: \
        pool:a_linked_role_with_its_proof pool:a_whole_life_of_a_search
fi
root=$(cd "$(dirname "${BASH_SOURCE[0]}")/.." && pwd)
work=$(mktemp -d)
trap 'rm -rf "$work"' EXIT
most=${MOST_RUNS:-4000}

cc -O1 -shared -fPIC -o "$work/refuse.so" "$root/checks/refuse.c"

# one TEST N: runs that test with its allocation N refused (0: none), and leaves what it prints and its status.
one() {
    status=0
    timeout 60 env REFUSE="$2" REFUSE_COUNT="$work/count" LD_PRELOAD="$work/refuse.so" "$tests" "$1" > "$work/out" 2>&1 || status=$?
}

passed=0
failed=0
for asked in "$@"; do
    crate=${asked%%:*} only=
    [ "$asked" = "$crate" ] || only=${asked#*:}
    tests=$root/crates/$crate/out/${crate}_tests
    [ -x "$tests" ] || (cd "$root/crates/$crate" && rt test) > "$work/log" 2>&1 || { cat "$work/log"; exit 1; }
    runs=0 all=0 well=0 lacked=0 other=0
    for test in $("$tests" --list | sed -n 's/: test$//p' | grep -F -- "$only"); do
        runs=$((runs + 1))
        one "$test" 0
        [ "$status" -eq 0 ] || { cat "$work/out"; exit 1; }
        count=$(cat "$work/count")
        all=$((all + count))
        apart=$(((count + most - 1) / most))
        [ -z "$only" ] || [ "${test%"::$only"}" = "$test" ] || apart=1
        for ((n = 1; n <= count; n += apart)); do
            one "$test" "$n"
            if [ "$status" -eq 0 ]; then
                well=$((well + 1))
            elif [ "$status" -lt 124 ] && grep -qE 'AllocError|AllocFailed|Memory|OutOfMemory' "$work/out" && ! grep -qE 'assert|left|right' "$work/out"; then
                lacked=$((lacked + 1))
            else
                other=$((other + 1))
                echo "$crate: $test: allocation $n refused: status $status"
                tail -n 5 "$work/out"
            fi
        done
    done
    echo "$asked: $all allocations; $well runs ended as with ample memory, $lacked with want of memory, $other otherwise"
    [ "$runs" -gt 0 ] || echo "$asked: there is no such test"
    if [ "$runs" -gt 0 ] && [ "$other" -eq 0 ]; then
        passed=$((passed + 1))
    else
        failed=$((failed + 1))
    fi
done
echo "$passed passed, $failed failed"
[ "$failed" -eq 0 ]
