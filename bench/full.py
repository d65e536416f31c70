#!/usr/bin/env python3
"""Fills an archive up to its limit of kept rows, and sees that it refuses one more, at full size.

    bench/full.py [BATCHES [LINES]]        (50 batches of 20,000 lines if left out, which make the 1,000,000 rows of the limit)

Run it by hand: it wants the program that `make demo` builds, or FULL_PROGRAM=FILE. With fewer rows than the limit it fails.
Behind the last batch come one that adds a row and one that changes one, which are both refused, and one that removes a row,
which is accepted, since a row that ends stays kept. `verify` then opens the archive. Times are the program's own processor
time, memory is the largest resident set.
"""
import pathlib
import resource
import sys
import tempfile

from service import built, message, run

PROGRAM = built("FULL_PROGRAM")
WORDS = ["init", "10.5072", "Lab", "Rey, A.", "Depths", "sid:int", "site:text", "depth:int"]
HEADER = "op,sid,site,depth\n"


def batch(number, lines):
    """Returns the message of a batch of these lines."""
    return message(f"/batch/1/ann/{number}", HEADER + lines)


def filling(batches, lines):
    """Returns the messages of the batches, whose keys rise from 0 on."""
    for turn in range(batches):
        keys = range(turn * lines, (turn + 1) * lines)
        yield batch(turn + 1, "".join(f"+,{key},s{key % 97:02},{key % 1000}\n" for key in keys))


def main():
    batches, lines = (int(word) for word in (sys.argv[1:] + ["50", "20000"][len(sys.argv) - 1 :]))
    rows = batches * lines
    with tempfile.TemporaryDirectory() as folder:
        archive = pathlib.Path(folder) / "archive"
        run(PROGRAM, archive, WORDS)
        told, seconds = run(PROGRAM, archive, ["session"], b"".join(filling(batches, lines)))
        if told.count(b"HTTP/1.1 201 ") != batches:
            sys.exit(f"not every batch was stored: {told[-300:]}")
        more = [batch(batches + 1, f"+,{rows},new,1\n"), batch(batches + 1, "~,7,new,1\n"), batch(batches + 1, "-,7,,\n")]
        told, _ = run(PROGRAM, archive, ["session"], b"".join(more))
        answers = told.split(b"HTTP/1.1 ")[1:]
        wanted = [(b"422 ", b"Full 1"), (b"422 ", b"Full 1"), (b"201 ", b"")]
        if len(answers) != 3 or not all(a.startswith(status) and word in a for a, (status, word) in zip(answers, wanted)):
            sys.exit(f"at the limit it answered otherwise: {told}")
        told, opening = run(PROGRAM, archive, ["verify"])
        if f"rows {rows - 1}\n".encode() not in told:
            sys.exit(f"verify told other rows: {told[-300:]}")
    memory = resource.getrusage(resource.RUSAGE_CHILDREN).ru_maxrss * 1024
    print(f"{rows} rows by {batches} batches: {seconds:.2f} s of processor time, opened again in {opening:.2f} s")
    print(f"  at most {memory / rows:.0f} bytes of memory a row; one row more and a changed row were refused, a removal was stored")


main()
