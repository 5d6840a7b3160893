#!/bin/sh
# Prints how many nodes, listeners and solutions `cred_graph` takes and gives in a second, in graphs with 1,000, 10,000
# or 100,000 of each: with all listeners and all solutions at one node (wide), and with one of each at each node (many).
# Each figure is the median of so many runs as the first argument says (5). There are three tables, one for each order in
# which the calls may come:
#
# turns: 100 graphs of 1,000, ten of 10,000 or one of 100,000 are there from the first figure to the last, and take ten
# calls each in turn. So each figure is that of 100,000 calls over as much memory, whatever the size of a graph, and what
# a table costs for being large alone is seen.
# kept: the same graphs, but each takes all its calls of a figure before the next does. A small graph is then brought into
# the near cache once and is near for most of its calls; a large one fits in no near cache.
# alone: one graph goes through all figures, and is given back before the next one is made in its memory. All of a small
# graph is always near. This is how a caller sees the size of one graph that it works on.
#
# The names are made before the clock starts: 100,000 of them for turns and kept, and as many as one graph has for alone.
# Memory comes from an earlier round that isn't timed, so no figure has page faults in it. A figure has in it the look-ups
# that its call needs: of the nodes by their expressions, one for ten listeners or solutions that are read at one node,
# and of a solution's premise.
. "$(dirname "$0")/common.sh"

runs=${1:-5}
lay_out graph names credential_text cred_graph anyhow
build

row='%-6s %-6s %8s %11s %11s %15s %14s %15s %14s\n'
# shellcheck disable=SC2059
printf "$row" order shape each 'nodes added' 'read' 'listeners added' 'read' 'solutions added' 'read'
for order in turns kept alone; do
    for shape in wide many; do
        for count in 1000 10000 100000; do
            # shellcheck disable=SC2046,SC2059
            printf "$row" "$order" "$shape" "$count" $(medians "$runs" keeping "out/$program" "$shape" "$count" "$order")
        done
    done
done
