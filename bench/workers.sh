#!/bin/sh
# How fast workers go on with 64 searches that are open at once, of 2,000 letters each: with 1, 2 and 4 workers. Prints the letters
# that are finished in a second, and the nanoseconds of a letter on the clock and in processor time. Each figure is the median of
# so many runs as the first argument says (3). Then how many of 8 long searches have come to an end when a short one has that was
# opened after them, in each of these runs.
. "$(dirname "$0")/common.sh"

runs=${1:-3}
lay_out workers names credential_text rt0_rules quotas vaults snapshots scholten_core cred_graph monitors search proof_trees \
    hall pool service indexmap thiserror atomic_table anyhow
# how the program names the ledger and the history of its desk
mkdir -p proofs/main
cp "$root/bench/$program/main.ledger.txt" proofs/main/Invariants.antt
build
heading Workers letters 'letters in a second' 'nanoseconds a letter' 'of processor time'
for workers in 1 2 4; do
    # shellcheck disable=SC2046
    row "$workers" $(medians "$runs" "out/$program" all 64 2000 "$workers")
done
for _ in $(seq "$runs"); do
    echo "long searches that ended before the short one: $("out/$program" short 8 20000 4) of 8"
done
