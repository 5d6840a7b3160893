#!/bin/sh
# What a book with one vault costs by itself, at 100,000 credentials: uploads and withdrawals in the vault's order, against it
# and shuffled; the first change of a vault that a snapshot holds; 10,000 shuffled uploads into a vault of 10,000, with an
# opening after each ten; and a look-up among 10,000 roles. The changes are made before they are timed. Prints a table of
# medians of so many runs as the first argument says (5).
. "$(dirname "$0")/common.sh"

runs=${1:-5}
lay_out one_vault names credential_text vaults snapshots anyhow
build

printf '%-58s %8s %s\n' task median unit
while read -r unit name task; do
    # shellcheck disable=SC2086
    printf '%-58s %8s %s\n' "$(echo "$name" | tr _ ' ')" "$(medians "$runs" "out/$program" $task < /dev/null)" "$unit"
done <<'TASKS'
ms 100,000_uploads_in_order put 100000 0
ms 100,000_uploads_against_it put 100000 1
ms 100,000_uploads_shuffled put 100000 2
ms 30,000_withdrawals_in_order drop 30000 30000 0
ms 30,000_withdrawals_shuffled drop 30000 30000 2
ms 100,000_withdrawals_in_order drop 100000 100000 0
ms 100,000_withdrawals_shuffled drop 100000 100000 2
us the_first_change_of_a_held_vault hold 100000
ms 10,000_uploads,_an_opening_after_each_ten open 10000
ns a_look-up_among_10,000_roles find 100000 10000 20
TASKS
