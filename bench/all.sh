#!/usr/bin/env bash
# Prints the tables of docs/FIGURES.md anew, in the form in which they stand there, over the proved program of this tree, which
# ./rtsearch builds where it isn't built. So who has changed something compares by one command. Nothing else should be at work:
# instructions and bytes come out alike then as always, and times don't.
#
#   bench/all.sh                                       all tables: an hour
#   bench/all.sh NAME..                                these tables alone
#   bench/all.sh NAME.. | bench/write_page.py          puts them into the page, so that `git diff` compares
#
#   peers        the same questions to other tools                      needs swipl, clingo, pypy3 and a C++ compiler
#   requests     a question, an upload and a withdrawal in a script     needs valgrind
#   letters      a letter, in a script and in workers' visits           needs valgrind
#   sessions     requests a second over TCP                             needs a C compiler
#   held         how long others are held up, idle and busy             needs a C compiler
#   memory       what is held, and the most that a service takes
#   crates       the first build and the gate
set -eu
bench=$(cd "$(dirname "$0")" && pwd)

peers() { "$bench/peers.sh" 3; }
requests() { "$bench/scripts.sh" 3; }
letters() { "$bench/visits.sh" 1000 10; }
sessions() { "$bench/sessions.sh" 3; }
held() { "$bench/held_up.sh"; }
memory() {
    "$bench/memory.sh"
    echo
    "$bench/arenas.sh" 3
}
crates() { "$bench/crates.sh"; }

parts=(peers requests letters sessions held memory crates)
[ $# -gt 0 ] || set -- "${parts[@]}"
for part in "$@"; do
    [[ " ${parts[*]} " = *" $part "* ]] || { echo "there is no table $part: ${parts[*]}" >&2; exit 2; }
done

sed -n 's/^model name[^:]*: /processors: /p' /proc/cpuinfo | uniq -c | sed 's/^ *//'
echo "commit: $(git -C "$bench" log -1 --format='%h, %cs')"
echo "load: $(cut -d ' ' -f 1-3 /proc/loadavg)"
for part in "$@"; do
    echo
    echo "## $part"
    "$part"
done
