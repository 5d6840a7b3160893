#!/bin/sh
# How long 1,000 openings of a snapshot take: over 1, 100 and 1,000 readable vaults of 1,000 rows each; over 3 readable
# vaults among 10 and among 1,000 tenants, once by personal grants alone and once with 2 public ones among them, which
# differ only where an opening walks over those that it doesn't read; and over 1,000 vaults of 10 rows, all by personal
# grants, all public, and half of each. Then how long 200 changes of a vault of 1,000 and of 90,000 rows take while no snapshot
# holds it, and while 64 do, so that each change makes a new version. At last how long 10,000 grants take, each taken back before the
# next: to one reader and to all, among 1,000 tenants that grant nothing, and where all of them have granted the same. Prints
# tables of microseconds, each the median of 3 runs. The limit for one run is the first argument, in seconds (300).
. "$(dirname "$0")/common.sh"

limit=${1:-300}
lay_out openings names credential_text vaults snapshots anyhow
build

# measured TASK NUMBER..: a row of the numbers and the microseconds.
measured() {
    task=$1
    shift
    microseconds=$(medians 3 timeout "$limit" "out/$program" "$task" "$@")
    printf '%-8s ' "$@"
    printf '%14s\n' "${microseconds:-no answer}"
}

printf '%-8s %-8s %-8s %-8s %14s\n' tenants personal public rows microseconds
for sizes in '1 1 0 1000' '100 100 0 1000' '1000 1000 0 1000' '10 3 0 10' '1000 3 0 10' '10 1 2 10' '1000 1 2 10' \
    '1000 1000 0 10' '1000 0 1000 10' '1000 500 500 10'; do
    # shellcheck disable=SC2086
    measured open $sizes
done
printf '%-8s %-8s %14s\n' holders rows microseconds
for sizes in '0 1000' '64 1000' '0 90000' '64 90000'; do
    # shellcheck disable=SC2086
    measured change $sizes
done
printf '%-8s %-8s %-8s %-8s %14s\n' tenants personal public 'to all' microseconds
for sizes in '1000 0 0 0' '1000 0 0 1' '1000 1000 0 0' '1000 0 1000 1'; do
    # shellcheck disable=SC2086
    measured grant $sizes
done
