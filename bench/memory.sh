#!/usr/bin/env bash
# What a service keeps in memory for each tenant, change, credential, search, letter, session and thread: resident bytes of its
# own, as Linux tells them of the process, before and after what its tenants said over TCP. The first argument divides all
# sizes (1). What is held at once of much, and given back, is bench/arenas.sh's.
. "$(dirname "$0")/common.sh"

program=$(built_program)
"$root/bench/memory/held.py" "$program" "${1:-1}"
