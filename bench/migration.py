#!/usr/bin/env python3
"""Measures what the steps of a migration cost on a citation whose set has many spans.

    bench/migration.py [SPANS ..]        (12500 25000 50000 if left out, in rising order)

Run it by hand, on a machine with nothing else to do: it wants the program that `make demo` builds, or MIGRATION_PROGRAM=FILE.
It plays one session over a table of one row. Its citation chooses the rows whose depth is at least 0. Each migration recodes 16
depths below 0, which the citation leaves out, to 16 others that it chose till then, so each step takes one number out of the set
and leaves one span more. Where the set has as many spans as asked, so many of these migrations are timed, and as many of 16 steps
that scale the depth; the citation is carried through each step of them, and the recoded one is executed too. Times are the
program's own processor time, and the digest of the citation has to be the same at the end.
"""
import json
import pathlib
import sys
import tempfile

from service import Session, built, message, run

PROGRAM = built("MIGRATION_PROGRAM")
WORDS = ["init", "10.5072", "Lab", "Rey, A.", "Depths", "sid:int", "depth:int"]
STEPS = 16
# How many migrations are timed together: the system counts processor time in hundredths of a second.
TIMED = 40


class Moving:
    """A session that migrates its archive again and again."""

    def __init__(self, archive):
        self.session = Session(PROGRAM, archive)
        self.schema = 1

    def migrate(self, steps):
        self.session.ask(message(f"/migrate/{self.schema}", json.dumps(steps)))
        self.schema += 1

    def timed(self, steps_of):
        """Returns the mean time of some migrations, of which each has the steps that it gives."""
        before = self.session.seconds()
        for turn in range(TIMED):
            self.migrate(steps_of(turn))
        return (self.session.seconds() - before) / TIMED


class Recoding:
    """The steps that take one depth after the other out of the set: 1, 3, 5 and so on."""

    def __init__(self):
        self.taken = 0

    def next(self, _turn=0):
        steps = []
        for _ in range(STEPS):
            self.taken += 1
            steps.append({"recode": {"column": "depth", "old": -self.taken, "new": 2 * self.taken - 1}})
        return steps


def scaling(turn):
    """Returns steps that move all depths up, or down again."""
    return [{"scale": {"column": "depth", "by": 1, "plus": 1 if turn % 2 == 0 else -1}}] * STEPS


def citation_of(archive):
    """Returns the line that `verify` tells of the citation."""
    told, _ = run(PROGRAM, archive, ["verify"])
    return next(line for line in told.splitlines() if line.startswith(b"c1 "))


def main():
    marks = [int(word) for word in sys.argv[1:]] or [12500, 25000, 50000]
    query = {"items": [{"column": "sid"}], "where": {"depth": {"ge": 0}}}
    with tempfile.TemporaryDirectory() as folder:
        archive = pathlib.Path(folder) / "archive"
        cite = message("/cite", json.dumps({"meta": {"creators": ["Rey, A."], "title": "Deep"}, "query": query}))
        run(PROGRAM, archive, WORDS)
        run(PROGRAM, archive, ["session"], message("/batch/1/ann/1", "op,sid,depth\n+,1,0\n") + cite)
        before = citation_of(archive)
        moving, recoding = Moving(archive), Recoding()
        for mark in marks:
            while recoding.taken + STEPS < mark:
                moving.migrate(recoding.next())
            recoded = moving.timed(recoding.next)
            scaled = moving.timed(scaling)
            print(
                f"{recoding.taken} spans, each migration of {STEPS} steps: recoding {1e3 * recoded:.1f} ms, "
                f"{1e9 * recoded / STEPS / mark:.1f} ns a span and step; scaling {1e3 * scaled:.1f} ms, {1e9 * scaled / STEPS / mark:.1f} ns",
                flush=True,
            )
        moving.session.end()
        if citation_of(archive) != before:
            sys.exit("the citation gives other bytes")


main()
