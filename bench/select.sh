#!/usr/bin/env bash
# Measures `select` against plain Rust, once as it comes to mind (a map of rows) and once as fast as it
# goes (fields in place, a sorted vector of keys), and, where they are there, Miller and SQLite.
#
#   bench/select.sh [ROWS [RUNS]]        (3000000 rows and 5 runs if left out)
#
# Run it by hand, on a machine with nothing else to do. It wants rt, rustc, GNU time and awk, and
# writes only below the temporary folder that it makes and removes. SELECT_PROGRAM=FILE measures that
# program in place of the one that `rt run` builds.
#
# The table has two columns, `sid:int,depth:int`, keys of seven digits and depths from 0 to 999; a
# tenth of it is selected. It comes with its keys in rising order and in shuffled order, since keys
# that rise are much faster to sort; then once more in shuffled order with a column
# of texts between the two, `station:text`; and at last with keys that are texts. All programs are run
# in turn in each round, and the best round of each counts: time is processor time, memory the
# largest resident set.
set -euo pipefail

rows=${1:-3000000}
runs=${2:-5}
here=$(cd "$(dirname "${BASH_SOURCE[0]}")" && pwd)
crate=$here/../crates/cite_prog
work=$(mktemp -d)
trap 'rm -rf "$work"' EXIT

need() {
    command -v "$1" > /dev/null || { echo "select.sh: $1 is missing" >&2; exit 1; }
}

# Writes a table. The shuffled keys run through a full period of k -> 1664525 k + 1013904223 modulo a
# power of two, and those past the end are left out.
table() { # rising|shuffled|texts|text-keys
    awk -v rows="$rows" -v order="$1" 'BEGIN {
        if (order == "texts") print "sid:int,station:text,depth:int"
        else if (order == "text-keys") print "name:text,depth:int"
        else print "sid:int,depth:int"
        for (size = 1; size < rows; size *= 2) {}
        k = 12345 % size
        for (i = 0; i < rows; i++) {
            if (order == "rising") k = i
            else do { k = (k * 1664525 + 1013904223) % size } while (k >= rows)
            depth = (k * 7919 + 13) % 1000
            if (order == "texts") printf "%d,bay %d,%d\n", 1000000 + k, k % 97, depth
            else if (order == "text-keys") printf "bay %d,%d\n", 1000000 + k, depth
            else printf "%d,%d\n", 1000000 + k, depth
        }
    }'
}

ours() { "$program" archive select depth 100 200; }

plain() { "$work/plain_select" depth 100 200; }

fast() { "$work/fast_select" depth 100 200; }

miller() {
    sed '1s/:int//g; 1s/:text//g' | mlr --icsv --ocsv --quote-all filter '$depth >= 100 && $depth < 200' then sort $sorted
}

sqlite() {
    sqlite3 :memory: "create table t ($schema)" '.mode csv' '.import --skip 1 /dev/stdin t' '.headers on' \
        'select * from t where depth >= 100 and depth < 200 order by 1'
}

export -f ours plain fast miller sqlite
export work

# Runs one program once, and adds a line of its seconds and kilobytes.
measure() { # program table
    command time -f '%U %S %M' -o "$work/figures" bash -c "$1" < "$work/$2.csv" > "$work/$1.$2.out"
    awk '{ print $1 + $2, $3 }' "$work/figures" >> "$work/$1.$2.runs"
}

best() { # program table column
    sort -n -k "$3,$3" "$work/$1.$2.runs" | awk -v column="$3" 'NR == 1 { print $column }'
}

need rustc
need awk
command time --version > /dev/null 2>&1 || { echo "select.sh: GNU time is missing" >&2; exit 1; }
for yardstick in plain fast; do
    rustc --edition 2021 -O "$here/${yardstick}_select.rs" -o "$work/${yardstick}_select"
done
program=${SELECT_PROGRAM:-}
if [ -z "$program" ]; then
    need rt
    # The program stays in out/ whatever it answers to an empty input.
    (cd "$crate" && rt run > "$work/build.log" 2>&1 < /dev/null) || true
    program=$(cd "$crate" && pwd)/out/cite_prog
    [ -x "$program" ] || { tail -n 20 "$work/build.log" >&2; exit 1; }
fi
export program

programs=(ours plain fast)
if command -v mlr > /dev/null; then programs+=(miller); else echo "Miller (mlr) is missing: skipped"; fi
if command -v sqlite3 > /dev/null; then programs+=(sqlite); else echo "sqlite3 is missing: skipped"; fi

for order in rising shuffled texts text-keys; do
    table "$order" > "$work/$order.csv"
    # How Miller sorts the table, and how SQLite makes it.
    case $order in
        texts) sorted='-nf sid' schema='sid integer primary key, station text, depth integer' ;;
        text-keys) sorted='-f name' schema='name text primary key, depth integer' ;;
        *) sorted='-nf sid' schema='sid integer primary key, depth integer' ;;
    esac
    export sorted schema
    input=$(stat -c %s "$work/$order.csv")
    for ((run = 0; run < runs; run++)); do
        for name in "${programs[@]}"; do measure "$name" "$order"; done
    done
    for yardstick in plain fast; do
        cmp "$work/ours.$order.out" "$work/$yardstick.$order.out" || { echo "select.sh: the answers differ" >&2; exit 1; }
    done
    echo "$order: $rows rows, $input bytes, best of $runs"
    for name in "${programs[@]}"; do
        awk -v name="$name" -v s="$(best "$name" "$order" 1)" -v base="$(best plain "$order" 1)" -v limit="$(best fast "$order" 1)" \
            -v kb="$(best "$name" "$order" 2)" -v input="$input" 'BEGIN {
                printf "  %-7s %6.2f s  %5.2f x plain Rust  %5.2f x fast Rust  %5.1f x the input in memory\n", name, s, s / base, s / limit, kb * 1024 / input
            }'
    done
done
