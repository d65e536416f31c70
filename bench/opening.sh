#!/usr/bin/env bash
# Measures the opening of an archive, which runs every entry anew, against reading the file once and against SQLite, which
# imports the same rows.
#
#   bench/opening.sh [BATCHES [LINES [RUNS]]]        (50 batches of 20,000 lines and 3 runs if left out)
#
# Run it by hand, on a machine with nothing else to do. It wants rt, rustc, git, GNU time and awk, and compares with SQLite
# where sqlite3 is there. The journal is made by a scratch crate, made of opening_main.txt in a clone in a temporary folder
# that it makes and removes, so it measures what is committed. OPENING_PROGRAM=FILE makes the journal with that program, and
# VERIFY_PROGRAM=FILE measures that cite_prog, in place of those that it builds.
#
# A row has a number for its key, a text and a number. `verify` opens the journal and tells its rows; `sha256sum` reads the
# same file; `sqlite3` imports the rows as CSV into a table in memory with no journal, and into one in a file, each by one
# `.import`. All are run in turn in each round, and the best round of each counts. Time is processor time, memory the largest
# resident set.
set -euo pipefail

batches=${1:-50}
lines=${2:-20000}
runs=${3:-3}
. "$(dirname "${BASH_SOURCE[0]}")/measure.sh"

rows=$((batches * lines))
program=${OPENING_PROGRAM:-}
[ -n "$program" ] || own_program bench_opening opening_main.txt \
    'cite_schema cite_disk batches archive_model archive_core'
verify=${VERIFY_PROGRAM:-}
if [ -z "$verify" ]; then
    [ -d "$work/clone" ] || git clone -q "$here/.." "$work/clone"
    # The program stays in out/ whatever it answers to no words.
    (cd "$work/clone/crates/cite_prog" && rt run > "$work/build.log" 2>&1 < /dev/null) || true
    verify=$work/clone/crates/cite_prog/out/cite_prog
    [ -x "$verify" ] || { tail -n 20 "$work/build.log" >&2; exit 1; }
fi

entries=$("$program" "$work/journal" "$batches" "$lines")
[ "$entries" = $((batches + 1)) ] || { echo "opening.sh: the journal was not made" >&2; exit 1; }
awk -v rows="$rows" 'BEGIN {
    print "sid,station,depth"
    for (key = 0; key < rows; key++) printf "%d,bay %d,%d\n", key, key % 97, key % 1000
}' > "$work/rows.csv"

# Runs a program once, and adds a line of its seconds and kilobytes to those of a name.
timed() { # name program word..
    local name=$1
    shift
    command time -f '%U %S %M' -o "$work/figures" "$@" > "$work/$name.out"
    awk '{ print $1 + $2, $3 }' "$work/figures" >> "$work/$name.runs"
}

least() { # name column
    sort -n -k "$2,$2" "$work/$1.runs" | awk -v column="$2" 'NR == 1 { print $column }'
}

imported() { # name database
    rm -f "$work/database"
    timed "$1" sqlite3 "$2" 'pragma journal_mode = off' 'pragma synchronous = off' \
        'create table t (sid integer primary key, station text, depth integer)' \
        ".import --csv --skip 1 $work/rows.csv t" 'select count(*) from t'
    [ "$(tail -n 1 "$work/$1.out")" = "$rows" ] || { echo "opening.sh: sqlite3 imported other rows" >&2; exit 1; }
}

tell() { # name words
    awk -v name="$2" -v s="$(least "$1" 1)" -v kb="$(least "$1" 2)" -v rows="$rows" 'BEGIN {
        printf "  %-20s %6.2f s  %9.0f rows a second  %4.0f bytes a row in memory\n", name, s, rows / (s + 1e-9), kb * 1024 / rows
    }'
}

names=(verify sha256sum)
for ((run = 0; run < runs; run++)); do
    timed verify "$verify" "$work/journal" verify
    grep -qx "rows $rows" "$work/verify.out" || { echo "opening.sh: verify told other rows" >&2; exit 1; }
    timed sha256sum sha256sum "$work/journal"
    if command -v sqlite3 > /dev/null; then
        imported memory :memory:
        imported file "$work/database"
    fi
done

echo "$rows rows by $batches batches, a journal of $(stat -c %s "$work/journal") bytes, best of $runs"
for name in "${names[@]}"; do tell "$name" "$name"; done
if command -v sqlite3 > /dev/null; then
    tell memory 'sqlite3, in memory'
    tell file 'sqlite3, in a file'
else
    echo "sqlite3 is missing: skipped"
fi
