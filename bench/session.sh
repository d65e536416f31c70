#!/usr/bin/env bash
# Measures a session over pipes against SQLite, which does the same work in the process that asks.
#
#   bench/session.sh [BATCHES [CHANGES [CITATIONS [RUNS]]]]     (20 batches of 20,000 lines, 500 changes, 100 citations, 3 runs)
#
# Run it by hand, on a machine with nothing else to do, with TMPDIR on a disk and not in memory: what is measured waits for it.
# It wants rt, git and python3 with its sqlite3. The program is built in a clone in a temporary folder that it makes and removes,
# so it measures what is committed; SESSION_PROGRAM=FILE measures that cite_prog in place of it.
#
# session_peers.py has the work and the two that do it. Both are driven by it and begin with nothing in each run; time is time
# on the clock, and the best run of each counts. Each keeps what it acknowledged: SQLite in write-ahead mode with synchronous=FULL.
set -euo pipefail

here=$(cd "$(dirname "${BASH_SOURCE[0]}")" && pwd)
work=$(mktemp -d)
trap 'rm -rf "$work"' EXIT

program=${SESSION_PROGRAM:-}
if [ -z "$program" ]; then
    git clone -q "$here/.." "$work/clone"
    # The program stays in out/ whatever it answers to no words.
    (cd "$work/clone/crates/cite_prog" && rt run > "$work/build.log" 2>&1 < /dev/null) || true
    program=$work/clone/crates/cite_prog/out/cite_prog
    [ -x "$program" ] || { tail -n 20 "$work/build.log" >&2; exit 1; }
fi
python3 "$here/session_peers.py" "$program" "$work" "${1:-20}" "${2:-500}" "${3:-100}" "${4:-3}"
