#!/usr/bin/env bash
# Measures `cite_http` against a plain Rust loop over the same requests: pipelined GET requests in pieces of 65,536 bytes.
# Then it shows that the time is linear in the bytes, however they are cut: heads of 16,384 bytes that come in single
# bytes, bodies of 8 MiB in pieces of 1,000 bytes, and line ends alone, each at a size and at twice that size.
#
#   bench/messages.sh [REQUESTS [RUNS]]        (100000 requests and 5 runs if left out)
#
# Run it by hand, on a machine with nothing else to do. It wants rt, rustc, git, GNU time and awk. The program that it
# measures is a scratch crate, made of messages_main.txt in a clone in a temporary folder that it makes and removes, so
# it measures what is committed. MESSAGES_PROGRAM=FILE measures that program in place of the one that it builds.
#
# Both programs are run in turn in each round, and the best round of each counts. Time is processor time, and with it that of
# making the text.
set -euo pipefail

requests=${1:-100000}
runs=${2:-5}
. "$(dirname "${BASH_SOURCE[0]}")/measure.sh"

plain_program plain_messages
program=${MESSAGES_PROGRAM:-}
[ -n "$program" ] || own_program bench_messages messages_main.txt 'cite_schema cite_http'

for ((run = 0; run < runs; run++)); do
    measure ours "$program" gets "$requests" 65536
    measure plain "$work/plain_messages" "$requests" 65536
done
cmp "$work/ours.out" "$work/plain.out" || { echo "messages.sh: the answers differ" >&2; exit 1; }
awk -v n="$requests" -v ours="$(best ours)" -v plain="$(best plain)" 'BEGIN {
    printf "%d GET in pieces of 65,536: %.2f s, %.0f messages a second; plain Rust %.2f s, %.0f a second; %.1f x its time\n",
        n, ours, n / (ours + 1e-9), plain, n / (plain + 1e-9), ours / (plain + 1e-9)
}'

linear() { # scene size piece
    for ((run = 0; run < runs; run++)); do
        measure "$1.one" "$program" "$1" "$2" "$3"
        measure "$1.two" "$program" "$1" "$(($2 * 2))" "$3"
    done
    echo "$1 in pieces of $3: $(best "$1.one") s for $(cat "$work/$1.one.out"), $(best "$1.two") s for $(cat "$work/$1.two.out")"
}

linear heads 512 1
linear bodies 8 1000
linear blank 4194304 1
