#!/bin/sh
# Builds bl_bench and times its layers from outside, each at a size and at twice that size:
#   bench/run.sh [SIZE]
# Twice as many items should take about twice as long.
set -eu
cd "$(dirname "$0")/.."
size=${1:-100000}
(cd crates/bl_bench && rt run -- append 1 >/dev/null)
bench=crates/bl_bench/out/bl_bench

# The layer at a size: what it counts, and the seconds that it takes.
timed() {
    start=$(date +%s%N)
    counts=$("$bench" "$1" "$2")
    end=$(date +%s%N)
    printf '%-8s %9s  %s  %d.%03d s\n' "$1" "$2" "$counts" \
        $(((end - start) / 1000000000)) $(((end - start) / 1000000 % 1000))
}

# `open` appends first, and `convert` reads by `csv` as `records` does: what they take longer is the
# opening, and the digests and rows. An entry here is a batch of 1,000 rows. `admit` makes its rows in
# memory and reads no file. `commit` makes the same rows, and has an engine admit them, a thousand with an
# entry; `reopen` does so first, and what it takes longer is the opening.
for n in "$size" $((2 * size)); do
    timed append "$n"
    timed open "$n"
    timed records "$n"
    timed convert "$n"
    timed entries $((n / 100))
    timed admit "$n"
    timed commit "$n"
    timed reopen "$n"
    timed requests "$n"
done
