#!/usr/bin/env python3
"""Measures migrations over an archive with many citations: those of steps that leave every citation alone, which no citation has
to be executed for, beside the same over an archive without citations, and beside one that has to execute each of them.

    bench/harmless.py [ROWS [CITATIONS [MIGRATIONS]]]        (2000 rows, 1000 citations, 1000 migrations if left out)

Run it by hand, on a machine with nothing else to do: it wants the program that `make demo` builds, or HARMLESS_PROGRAM=FILE.
Times are the program's own processor time, as the system counts it, so no wait for the disk is in them. The citations are
of all rows, each with a label of its own. At the end `verify` opens each archive, and the digest of every citation has to be
the one that it had before the migrations.
"""
import json
import pathlib
import sys
import tempfile

from service import built, message, run

PROGRAM = built("HARMLESS_PROGRAM")
WORDS = ["init", "10.5072", "Lab", "Rey, A.", "Depths", "sid:int", "depth:int", "site:text"]


def rows(count):
    """Returns the message of the batch that adds so many rows."""
    lines = "".join(f"+,{key},{key % 97},site {key % 89}\n" for key in range(count))
    return message("/batch/1/ann/1", "op,sid,depth,site\n" + lines)


def citation(label):
    """Returns the message that cites all rows, under a label."""
    query = {"items": [{"column": "sid", "label": f"sid {label}"}, {"column": "depth"}]}
    return message("/cite", json.dumps({"meta": {"creators": ["Rey, A."], "title": "All"}, "query": query}))


def migration(schema, step):
    """Returns the message that moves the table of a schema by one step."""
    return message(f"/migrate/{schema}", json.dumps([step]))


def renamed(count):
    """Returns the messages of so many migrations, each of which renames one column."""
    names = ["site", *(f"site_{turn}" for turn in range(count))]
    steps = ({"rename": {"column": old, "to": new}} for old, new in zip(names, names[1:]))
    return [migration(schema, step) for schema, step in enumerate(steps, 1)]


def session(archive, messages):
    """Plays messages, each of which has to make an entry, and returns the processor time."""
    told, seconds = run(PROGRAM, archive, ["session"], b"".join(messages))
    if told.count(b"HTTP/1.1 201 ") != len(messages):
        sys.exit(f"not every message made an entry: {told[:300]}")
    return seconds


def citations_of(archive):
    """Returns the lines that `verify` tells of citations, and its time."""
    told, seconds = run(PROGRAM, archive, ["verify"])
    return [line for line in told.splitlines() if line.startswith(b"c") and not line.startswith(b"citations")], seconds


def measured(folder, row_count, cited, moves):
    """Fills an archive, migrates it, and returns the processor times of the migrations, of opening before them and behind them."""
    archive = folder / f"archive_{cited}"
    run(PROGRAM, archive, WORDS)
    session(archive, [rows(row_count), *(citation(label) for label in range(cited))])
    before, opening = citations_of(archive)
    moving = session(archive, moves) - opening
    after, reopening = citations_of(archive)
    if before != after or len(after) != cited:
        sys.exit("a migration changed what a citation resolves to")
    return archive, moving, opening, reopening


def main():
    row_count, cited, count = (int(word) for word in (sys.argv[1:] + ["2000", "1000", "1000"][len(sys.argv) - 1 :]))
    with tempfile.TemporaryDirectory() as name:
        folder = pathlib.Path(name)
        moves = renamed(count)
        archive, moving, opening, reopening = measured(folder, row_count, cited, moves)
        _, bare, _, _ = measured(folder, row_count, 0, moves)
        scaling = migration(count + 1, {"scale": {"column": "depth", "by": 1, "plus": 0}})
        judged = session(archive, [scaling]) - reopening
    print(f"{count} migrations of one rename over {row_count} rows and {cited} citations: {1e3 * moving / count:.2f} ms each")
    print(f"  the same without citations: {1e3 * bare / count:.2f} ms each, ratio {moving / bare:.2f}")
    print(f"  one that executes each citation twice: {1e3 * judged:.0f} ms, {judged * count / moving:.0f} times one that doesn't")
    print(f"  opening: {opening:.2f} s before the migrations, {reopening:.2f} s behind them; no citation gives other bytes")


main()
