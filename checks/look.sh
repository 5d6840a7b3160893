#!/usr/bin/env bash
# The look before the proof, by the toolchain itself: `./rtsearch --unproved` over an example prints what stands beside it, says
# at its beginning and at its end that nothing is proved, ends with the program's status, and leaves nothing of itself. One line
# for each test; the last line is `N passed, M failed`.
set -u
cd "$(dirname "${BASH_SOURCE[0]}")/.." || exit 1
work=$(mktemp -d)
trap 'rm -rf "$work"' EXIT
passed=0
failed=0

tell() {
    local name=$1
    shift
    if "$@"; then
        echo "look: $name: passed"
        passed=$((passed + 1))
    else
        echo "look: $name: FAILED"
        tail -n 5 "$work/said"
        failed=$((failed + 1))
    fi
}

left() { find crates/*/out -newer "$work/begun" -name 'rtsearch*' 2>/dev/null; }
prints_the_example() { cmp "$work/out" examples/clinic.out; }
says_that_it_is_not_proved() { head -n 1 "$work/said" | grep -q 'NOT PROVED' && tail -n 1 "$work/said" | grep -q 'proved=no$'; }
leaves_nothing() { [ -z "$(left)" ]; }
ends_as_the_program() { [ "$status" -eq 0 ]; }

touch "$work/begun"
./rtsearch --unproved script <examples/clinic.script >"$work/out" 2>"$work/said"
status=$?
tell "prints what stands beside the example" prints_the_example
tell "says that it isn't proved" says_that_it_is_not_proved
tell "ends with the program's status" ends_as_the_program
tell "leaves nothing" leaves_nothing
echo "$passed passed, $failed failed"
[ "$failed" -eq 0 ]
