"""The work of bench/session.sh, and the two that do it: `session` of the program, over pipes, and SQLite, in this process.

    session_peers.py PROGRAM FOLDER BATCHES CHANGES CITATIONS RUNS

Rows have a number for their key, a site and a depth, which is the key's remainder by 1,000. The work, part by part:

- batches of 20,000 new rows, one transaction each;
- changes, batches of one line each, which give a row another site;
- citations of the rows of one depth, each: the query on the last version, the bytes of its result and their digest, a look for
  a stored citation with this digest, else a new one, on the disk before it is answered;
- resolves, ten of each citation: its bytes, and their digest, which this program forms for both;
- wide, ten resolves of all rows: five of a citation that prints them by key, and five of one that prints them by depth.

SQLite keeps rows with the versions in which they begin and end, a primary key by key and end without a rowid, and an index by
depth. The digests of the bytes that were resolved have to be the same for both.
"""
import csv
import hashlib
import json
import pathlib
import sqlite3
import sys
import time

from service import Session, message, run

LINES = 20_000
DEPTHS = 1000
ALWAYS = 1 << 62


def batch_body(first):
    """Returns the body of a batch that adds rows from this key on."""
    rows = (f"+,{key},site {key % 97},{key % DEPTHS}\n" for key in range(first, first + LINES))
    return "op,sid,site,depth\n" + "".join(rows)


def change_body(key, turn):
    """Returns the body of a batch that gives a row another site."""
    return f"op,sid,site,depth\n~,{key},moved {turn},{key % DEPTHS}\n"


class Program:
    """The program, over pipes."""

    def __init__(self, program, folder):
        archive = folder / "archive"
        archive.unlink(missing_ok=True)
        run(program, archive, ["init", "10.5072", "Lab", "Rey, A.", "Depths", "sid:int", "site:text", "depth:int"])
        self.session = Session(program, archive)

    def batch(self, number, body):
        self.session.ask(message(f"/batch/1/ann/{number}", body))

    def cite(self, depth):
        return self.cite_rows(f"Depth {depth}", {"where": {"depth": {"eq": depth}}})

    def cite_all(self, order):
        return self.cite_rows(f"By {order}", {"order": [{"column": order}]})

    def cite_rows(self, title, rest):
        query = {"items": [{"column": "sid"}, {"column": "site"}], **rest}
        meta = {"creators": ["Rey, A."], "title": title}
        answer = self.session.ask(message("/cite", json.dumps({"meta": meta, "query": query})))
        return json.loads(answer)["id"]

    def resolve(self, name):
        return self.session.ask(f"GET /id/{name}/data HTTP/1.1\r\n\r\n".encode())

    def end(self):
        self.session.end()


class Tables:
    """SQLite, in this process."""

    def __init__(self, folder):
        for path in folder.glob("tables*"):
            path.unlink()
        self.base = sqlite3.connect(folder / "tables", isolation_level=None)
        self.base.executescript(
            """
            pragma journal_mode = wal;
            pragma synchronous = full;
            create table kept (sid integer, site text, depth integer, since integer, until integer,
                primary key (sid, until)) without rowid;
            create index by_depth on kept (depth, sid, since, until);
            create table versions (number integer primary key, curator text, batch integer, digest blob);
            create table citations (number integer primary key, version integer, depth integer, along text, digest blob);
            create index by_digest on citations (digest, depth, along);
            insert into versions values (1, '', 0, x'');
            """
        )
        self.version = 1
        self.citations = 0

    def batch(self, number, body):
        digest = hashlib.sha256(body.encode()).digest()
        lines = list(csv.reader(body.splitlines()))[1:]
        new = self.version + 1
        self.base.execute("begin immediate")
        changed = [(new, int(sid), ALWAYS) for op, sid, _, _ in lines if op != "+"]
        self.base.executemany("update kept set until = ? where sid = ? and until = ?", changed)
        rows = [(int(sid), site, int(depth), new, ALWAYS) for op, sid, site, depth in lines if op != "-"]
        self.base.executemany("insert into kept values (?, ?, ?, ?, ?)", rows)
        self.base.execute("insert into versions values (?, 'ann', ?, ?)", (new, number, digest))
        self.base.execute("commit")
        self.version = new

    def bytes_of(self, depth, along, version):
        """Returns the bytes of the rows of a version that have this depth, or of all, in the order of a column and the key."""
        chosen, given = ("", []) if depth is None else ("depth = ? and", [depth])
        rows = self.base.execute(
            f"""select '"' || sid || '","' || site || '"\n' from kept
                where {chosen} since <= ? and until > ? order by {along}, sid""",
            (*given, version, version),
        )
        return ('"sid","site"\n' + "".join(line for (line,) in rows)).encode()

    def cite(self, depth):
        return self.cite_rows(depth, "sid")

    def cite_all(self, order):
        return self.cite_rows(None, order)

    def cite_rows(self, depth, along):
        digest = hashlib.sha256(self.bytes_of(depth, along, self.version)).digest()
        stored = self.base.execute(
            "select number from citations where digest = ? and depth is ? and along = ?", (digest, depth, along)
        ).fetchone()
        if stored:
            return stored[0]
        self.citations += 1
        self.base.execute(
            "insert into citations values (?, ?, ?, ?, ?)", (self.citations, self.version, depth, along, digest)
        )
        return self.citations

    def resolve(self, name):
        version, depth, along = self.base.execute(
            "select version, depth, along from citations where number = ?", (name,)
        ).fetchone()
        return self.bytes_of(depth, along, version)

    def end(self):
        self.base.close()


def timed(parts, name, work):
    """Does a part of the work, and notes its time."""
    begun = time.perf_counter()
    answer = work()
    parts[name] = time.perf_counter() - begun
    return answer


def played(peer, bodies, changes, citations):
    """Does all the work once; returns the time of each part, and a digest of what was resolved."""
    parts, seen = {}, hashlib.sha256()

    def store(first, some):
        for number, body in enumerate(some, first):
            peer.batch(number, body)

    def resolve(names, times):
        for name in names * times:
            seen.update(hashlib.sha256(peer.resolve(name)).digest())

    timed(parts, "batches", lambda: store(1, bodies))
    timed(parts, "changes", lambda: store(len(bodies) + 1, changes))
    depths = [turn * 7 % DEPTHS for turn in range(citations)]
    names = timed(parts, "citations", lambda: [peer.cite(depth) for depth in depths])
    timed(parts, "resolves", lambda: resolve(names, 10))
    wide = [peer.cite_all(order) for order in ("sid", "depth")]
    timed(parts, "wide", lambda: resolve(wide, 5))
    peer.end()
    return parts, seen.hexdigest()


def main():
    program, folder = sys.argv[1], pathlib.Path(sys.argv[2])
    batches, changes, citations, runs = map(int, sys.argv[3:7])
    bodies = [batch_body(LINES * batch) for batch in range(batches)]
    rows = LINES * batches
    lines = [change_body(turn * 7919 % rows, turn) for turn in range(changes)]
    counts = {"batches": batches, "changes": changes, "citations": citations, "resolves": 10 * citations, "wide": 10}
    best, digests = {}, set()
    for _ in range(runs):
        for name, peer in (("session", Program(program, folder)), ("sqlite3", Tables(folder))):
            parts, digest = played(peer, bodies, lines, citations)
            digests.add(digest)
            for part, seconds in parts.items():
                best[name, part] = min(seconds, best.get((name, part), seconds))
    if len(digests) != 1:
        sys.exit("session_peers.py: the two resolved to other bytes")
    print(f"{rows} rows by {batches} batches, best of {runs}")
    for part, count in counts.items():
        ours, theirs = best["session", part], best["sqlite3", part]
        print(
            f"  {count:5} {part:9} session {count / ours:9.1f} a second   sqlite3 {count / theirs:9.1f} a second"
            f"   session takes {ours / theirs:5.2f} of its time"
        )


main()
