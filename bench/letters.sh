#!/bin/sh
# Prints how many letters `scholten_core` finishes in a second while 1,000, 10,000 and 100,000 are outstanding, the
# first or the last waiting one always taken: each with one letter in answer, and then none till all are finished. Each
# figure is the median of so many runs as the first argument says (5).
. "$(dirname "$0")/common.sh"

runs=${1:-5}
lay_out letters scholten_core anyhow
build

printf '%-12s %-6s %14s %14s\n' outstanding taken 'one answer' 'no answer'
for outstanding in 1000 10000 100000; do
    for order in first last; do
        # shellcheck disable=SC2046
        printf '%-12s %-6s %14s %14s\n' "$outstanding" "$order" $(medians "$runs" keeping "out/$program" "$outstanding" "$order")
    done
done
