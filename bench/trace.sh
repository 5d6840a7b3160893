#!/usr/bin/env bash
# One search, step by step, as it drives itself: the archive asks whether Ada is staff, while the clinic lets it read its
# vault. Prints a line for each step: the number of the letter that was finished, or 0 for a signal; whether it needed rows;
# how many letters wait then, and how many signals are under way.
#
#   bench/trace.sh > bench/trace/clinic.trace
#   bench/trace/draw.py < bench/trace/clinic.trace > docs/pictures/search.svg
. "$(dirname "$0")/common.sh"

lay_out trace names credential_text rt0_rules vaults snapshots cred_graph monitors scholten_core search anyhow
build
out/trace
