# What the benches share. Sourced by each of them, and needs the toolchain's `rt`. A program is made in a temporary
# folder over copies of the crates, proved before it runs, and taken away again; its source is no .rt file here, and its
# proofs are no .antt files, since the gate wants each of those in a crate.
set -eu

root=$(cd "$(dirname "$0")/.." && pwd)
work=$(mktemp -d)
trap 'rm -rf "$work"' EXIT

# lay_out PROGRAM LIBRARY..: enters a new folder of the program bench/PROGRAM, with its modules' files MODULE.rt.txt, which
# stands on these libraries: crates of the repository, lower ones first, or the kit's own. A file FUNCTION.antt.txt beside
# the program is what stands of that function's proof.
lay_out() {
    program=$1
    shift
    mkdir -p "$work/crates/$program/src"
    for source in "$root/bench/$program"/*.rt.txt; do
        cp "$source" "$work/crates/$program/src/$(basename "$source" .txt)"
    done
    for library in "$@"; do
        grep "^$library[ :]" "$root/crates.txt" >> "$work/crates.txt" || continue
        cp -R "$root/crates/$library" "$work/crates/$library"
    done
    for proof in "$root/bench/$program"/*.antt.txt; do
        [ -e "$proof" ] || continue
        function=$(basename "$proof" .antt.txt)
        mkdir -p "$work/crates/$program/proofs/$function"
        cp "$proof" "$work/crates/$program/proofs/$function/Answers.antt"
    done
    echo "$program: $*" >> "$work/crates.txt"
    cd "$work/crates/$program"
}

# build: proves and builds the program that was laid out, which stays as out/PROGRAM and does nothing without
# arguments. What that says is printed where it fails alone.
build() {
    rt run > "$work/log" 2>&1 || { cat "$work/log"; exit 1; }
}

# built_program: builds `rtsearch` where it isn't built as its sources stand, and says where it is.
built_program() {
    "$root/rtsearch" --version > "$work/log" 2>&1 < /dev/null || true
    [ -x "$root/crates/rtsearch/out/rtsearch" ] || { cat "$work/log" >&2; exit 1; }
    echo "$root/crates/rtsearch/out/rtsearch"
}

# heading WORD..: the first two lines of a table as the page of figures has it. row WORD..: a further line, with a comma
# behind the thousands of a number.
heading() {
    row "$@"
    printf '|'
    for _ in "$@"; do printf ' --- |'; done
    echo
}
row() {
    { printf '|'; printf ' %s |' "$@"; echo; } | sed -E ':a; s/\b([0-9]+)([0-9]{3})\b/\1,\2/; ta'
}

# instructions FILE COMMAND..: how many the command takes that reads this file, by callgrind, which counts alike each time.
instructions() {
    read=$1
    shift
    valgrind --tool=callgrind --callgrind-out-file=/dev/null "$@" < "$read" 2>&1 > "$work/counted" | sed -n 's/.*Collected : //p'
}

# medians RUNS COMMAND..: runs the command so often, and prints the median of each figure that it prints.
medians() {
    runs=$1
    shift
    for _ in $(seq "$runs"); do
        "$@"
    done > "$work/figures"
    column=1
    for _ in $(head -n 1 "$work/figures"); do
        cut -d ' ' -f "$column" "$work/figures" | sort -n | sed -n "$(((runs + 1) / 2))p"
        column=$((column + 1))
    done
}

# keeping COMMAND..: runs the command so that memory which it gives back stays with it; what it times after a first round
# takes no new page from the system.
keeping() {
    MALLOC_MMAP_THRESHOLD_=4294967296 MALLOC_TRIM_THRESHOLD_=17179869184 MALLOC_TOP_PAD_=268435456 "$@"
}
