#!/bin/sh
# Prints what a letter of a whole search costs, from the first letter to the answer: nanoseconds, how many times that of
# one insertion of 160 bytes into an `IndexMap` by number, and bytes. Five families of vaults, with at least 1,000,
# 10,000 and 100,000 letters. Each figure is the median of so many runs as the first argument says (3).
#
# chain: each role includes the next. wide: one role of many entities. linked: one role linked over a base of many
# tenants, each with a vault of its own. met: one role is an intersection of two wide ones. mixed: one role of all these.
#
# There are three tables, one for each order in which letters may be taken:
#
# turns: 100 searches of 1,000 letters, ten of 10,000 or one of 100,000, each over a snapshot of its own, take ten letters
# each in turn, as workers take them, and all are kept to the end. So each figure is that of 100,000 letters over as much
# memory, whatever the size of a search.
# kept: the same searches, driven one after the other.
# alone: one search after the other over one snapshot, in the memory of the one before. All of a small search, and of the
# vaults that it reads, is always near.
#
# Memory comes from an earlier round that isn't timed, so no figure has page faults in it.
. "$(dirname "$0")/common.sh"

runs=${1:-3}
lay_out searches names credential_text rt0_rules vaults snapshots cred_graph monitors scholten_core search indexmap anyhow
build

row='%-6s %-8s %9s %14s %14s %8s %8s\n'
# shellcheck disable=SC2059
printf "$row" order family letters 'ns a letter' 'ns inserting' times bytes
for order in turns kept alone; do
    for family in chain wide linked met mixed; do
        for letters in 1000 10000 100000; do
            # shellcheck disable=SC2046,SC2059
            printf "$row" "$order" "$family" $(medians "$runs" keeping "out/$program" "$family" "$letters" "$order")
        done
    done
done
