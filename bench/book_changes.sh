#!/bin/sh
# How long 10,000 accepted changes of a book take: of one tenant, and of 100 tenants in turn. Each change uploads
# another credential. Prints a table of milliseconds for each 2,500 changes: where a change walked over the whole
# journal, each quarter would take longer than the one before it by as much again. The limit for one run is the first
# argument, in seconds (120).
. "$(dirname "$0")/common.sh"

limit=${1:-120}
lay_out book_changes names credential_text vaults anyhow
build

printf '%-8s %10s %12s\n' tenants changes milliseconds
for tenants in 1 100; do
    timeout "$limit" "out/$program" "$tenants" > "$work/times" || { echo "$tenants tenants: no answer"; continue; }
    while read -r made milliseconds; do
        printf '%-8s %10s %12s\n' "$tenants" "$made" "$milliseconds"
    done < "$work/times"
done
