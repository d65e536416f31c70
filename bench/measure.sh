# What the measures of a crate against a plain loop share. It is sourced, behind `set -euo pipefail`.

here=$(cd "$(dirname "${BASH_SOURCE[0]}")" && pwd)
work=$(mktemp -d)
trap 'rm -rf "$work"' EXIT

command -v rustc > /dev/null || { echo "$0: rustc is missing" >&2; exit 1; }
command time --version > /dev/null 2>&1 || { echo "$0: GNU time is missing" >&2; exit 1; }

# Builds a program of plain Rust.
plain_program() { # name
    rustc --edition 2021 -O "$here/$1.rs" -o "$work/$1"
}

# Builds a program over crates of this repository, in a clone of what is committed, and names it in `program`. It stays
# in out/ whatever it answers to no words.
own_program() { # name main crates
    git clone -q "$here/.." "$work/clone"
    local crate=$work/clone/crates/$1
    mkdir -p "$crate/src"
    cp "$here/$2" "$crate/src/main.rt"
    echo "$1: $3" >> "$work/clone/crates.txt"
    (cd "$crate" && rt run > "$work/build.log" 2>&1 < /dev/null) || true
    program=$crate/out/$1
    [ -x "$program" ] || { tail -n 20 "$work/build.log" >&2; exit 1; }
}

# Runs a program once, and adds its seconds of processor time to those of a name.
measure() { # name program word..
    local name=$1
    shift
    command time -f '%U %S' -o "$work/figures" "$@" > "$work/$name.out"
    awk '{ print $1 + $2 }' "$work/figures" >> "$work/$name.runs"
}

# The least of them.
best() { # name
    sort -n "$work/$1.runs" | head -n 1
}
