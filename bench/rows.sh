#!/usr/bin/env bash
# Measures the rows of all versions, and compares them with a table in SQLite that keeps, for each row, the version that
# brought it and the one that ended it.
#
#   bench/rows.sh [RUNS]        (3 runs if left out; the best of each counts)
#
# Run it by hand, on a machine with nothing else to do. It wants rt and GNU time, compares with SQLite where python3 has
# its module, and writes only below the temporary folder that it makes and removes: there it makes a program of the
# crate `versioned_rows` and of bench/rows/main.txt, which is proved before it runs. ROWS_PROGRAM=FILE measures that
# program in place of a new one, and KEEP=FILE keeps the one that was built.
set -euo pipefail

runs=${1:-3}
here=$(cd "$(dirname "${BASH_SOURCE[0]}")" && pwd)
work=$(mktemp -d)
trap 'rm -rf "$work"' EXIT

command time --version > /dev/null 2>&1 || { echo "rows.sh: GNU time is missing" >&2; exit 1; }

# Makes a program of the crate: its modules, of its tests only what they find out before a call, and the main function.
build() {
    command -v rt > /dev/null || { echo "rows.sh: rt is missing" >&2; exit 1; }
    local crate=$work/crates/versioned_rows
    mkdir "$work/crates"
    cp -r "$here"/../crates/{cite_schema,stable_order,shared_pages,versioned_rows} "$work/crates"
    printf '%s\n' 'cite_schema:' 'stable_order: cite_schema' 'shared_pages: cite_schema stable_order' \
        'versioned_rows: cite_schema stable_order shared_pages anyhow' > "$work/crates.txt"
    sed '/^#\[cfg(test)\]$/d' "$crate/src/lib.rt" > "$crate/src/main.rt"
    cat "$here/rows/main.txt" >> "$crate/src/main.rt"
    rm "$crate/src/lib.rt"
    find "$crate/src/tests" "$crate/proofs/tests" -mindepth 1 -maxdepth 1 ! -name ready ! -name ready.rt -exec rm -r {} +
    printf '%s\n' '// What the tests find out before a call.' 'pub mod ready;' > "$crate/src/tests.rt"
    (cd "$crate" && rt run -- fill > "$work/build.log" 2>&1 < /dev/null) || { tail -n 20 "$work/build.log" >&2; exit 1; }
    program=$crate/out/versioned_rows
    if [ -n "${KEEP:-}" ]; then cp "$program" "$KEEP"; fi
}

program=${ROWS_PROGRAM:-}
if [ -z "$program" ]; then build; fi

# The best of some runs of one measure, figure by figure, and the least of the largest resident sets.
best() { # measure
    local run
    for ((run = 0; run < runs; run++)); do
        command time -f '%M' -o "$work/memory" "$program" "$1" > "$work/figures"
        echo "$(cat "$work/figures") $(cat "$work/memory")"
    done | awk '{ for (i = 1; i <= NF; i++) if (NR == 1 || $i < least[i]) least[i] = $i; fields = NF }
        END { for (i = 1; i <= fields; i++) printf "%s%s", least[i], i < fields ? " " : "\n" }'
}

echo "best of $runs"
read -r rows micros kilobytes < <(best fill)
awk -v rows="$rows" -v us="$micros" -v kb="$kilobytes" 'BEGIN {
    printf "%d rows by batches of 20000 lines: %.2f s, %.0f bytes a row (at most 250 wanted)\n", rows, us / 1e6, kb * 1024 / rows }'
read -r held few kilobytes < <(best change-100000)
read -r held many kilobytes < <(best change-1000000)
awk -v few="$few" -v many="$many" 'BEGIN {
    printf "a changed line, every version held: %.1f us at 100000 rows, %.1f us at 1000000, ratio %.2f (at most 1.5 wanted)\n",
        few / 3e6, many / 3e6, many / few }'
read -r rows micros kilobytes < <(best table)
printf 'the table of a version of %d rows: %d us\n' "$rows" "$micros"
read -r rows at_once one_by_one changes kilobytes < <(best small)

# The same in SQLite, in memory and with no journal; each batch is a transaction.
sqlite() {
    python3 - <<'END'
import sqlite3
import time

def made():
    db = sqlite3.connect(":memory:", isolation_level=None)
    db.execute("pragma journal_mode = off")
    db.execute("pragma synchronous = off")
    db.execute("create table rows (sid integer, name text, depth integer, since integer, until integer, primary key (sid, since)) without rowid")
    return db

def add(db, key, version):
    db.execute("insert into rows values (?, 'bay', ?, ?, null)", (key, version, version))

def change(db, key, version):
    db.execute("begin")
    db.execute("update rows set until = ? where sid = ? and until is null", (version, key))
    db.execute("insert into rows values (?, 'bay', ?, ?, null)", (key, version, version))
    db.execute("commit")

def took(start):
    return int((time.perf_counter() - start) * 1e6)

db = made()
start = time.perf_counter()
db.execute("begin")
db.executemany("insert into rows values (?, 'bay', 0, 2, null)", ((key,) for key in range(20000)))
db.execute("commit")
at_once = took(start)
db = made()
start = time.perf_counter()
for i in range(20000):
    add(db, i * 7919 % 20000, i + 2)
one_by_one = took(start)
start = time.perf_counter()
for i in range(20000):
    change(db, i * 7907 % 20000, i + 20002)
print(at_once, one_by_one, took(start))
END
}

if ! python3 -c 'import sqlite3' 2> /dev/null; then
    echo "python3 with its module sqlite3 is missing: SQLite is skipped"
    printf '20000 additions at once %d us, one by one %d us; 20000 changes one by one %d us\n' "$at_once" "$one_by_one" "$changes"
    exit 0
fi
for ((run = 0; run < runs; run++)); do sqlite; done | awk -v a="$at_once" -v b="$one_by_one" -v c="$changes" '
    { for (i = 1; i <= 3; i++) if (NR == 1 || $i < least[i]) least[i] = $i }
    END {
        printf "20000 additions at once: %d us, SQLite %d us\n", a, least[1]
        printf "20000 additions one by one: %d us, SQLite %d us\n", b, least[2]
        printf "20000 changes one by one: %d us, SQLite %d us\n", c, least[3]
    }'
