#!/bin/sh
# Lets 8 callers and 4 workers use one desk of 8 tenants at once, for so many requests of each caller as the first argument
# says (25,000), made by a row of numbers from a seed: one run for each seed that the other arguments give (1). Each answer of
# a completed search is compared with the plain program's over the credentials of its snapshot, each proof is checked, and at
# the end the shares of all passes are the changes that were accepted. Prints how often each thing was asked and refused, what
# was compared, and the milliseconds. It fails where an answer is wrong, and where a run doesn't end in 600 seconds.
. "$(dirname "$0")/common.sh"

requests=${1:-25000}
[ $# -eq 0 ] || shift
[ $# -gt 0 ] || set -- 1
lay_out soak names credential_text rt0_rules quotas vaults snapshots scholten_core cred_graph monitors search proof_trees \
    hall pool service indexmap smallvec thiserror atomic_table anyhow
# how the program names the ledger and the history of its desk
mkdir -p proofs/main
cp "$root/bench/$program/main.ledger.txt" proofs/main/Invariants.antt
build
for seed in "$@"; do
    echo "seed $seed"
    timeout 600 "out/$program" 8 4 "$requests" "$seed"
done
