#!/usr/bin/env bash
# Measures `read_batch` against a plain Rust loop over the same body: 20,000 lines of a number, a text and a number.
#
#   bench/batch.sh [TIMES [RUNS]]        (50 times and 5 runs if left out)
#
# Run it by hand, on a machine with nothing else to do. It wants rt, rustc, git, GNU time and awk. The program that it
# measures is a scratch crate, made of batch_main.txt in a clone in a temporary folder that it makes and removes, so it
# measures what is committed. BATCH_PROGRAM=FILE measures that program in place of the one that it builds.
#
# Both programs are run in turn in each round, and the best round of each counts. Time is processor time.
set -euo pipefail

times=${1:-50}
runs=${2:-5}
. "$(dirname "${BASH_SOURCE[0]}")/measure.sh"

plain_program plain_batch
program=${BATCH_PROGRAM:-}
[ -n "$program" ] || own_program bench_batch batch_main.txt 'cite_schema batches'

for ((run = 0; run < runs; run++)); do
    measure ours "$program" "$times"
    measure plain "$work/plain_batch" "$times"
done
cmp "$work/ours.out" "$work/plain.out" || { echo "batch.sh: the answers differ" >&2; exit 1; }
awk -v n="$times" -v ours="$(best ours)" -v plain="$(best plain)" 'BEGIN {
    printf "20,000 lines: %.1f ms a body; plain Rust %.1f ms; %.2f x its time\n",
        1000 * ours / n, 1000 * plain / n, ours / (plain + 1e-9)
}'
