"""What an authority's door keeps (tools/authority): the asks, and the book of what was checked when, by whom and with what answer. It is
a file of SQLite; each change is on the disk before anything is said of it. The book's rows are never changed or taken away."""
import contextlib
import csv
import datetime
import io
import json
import sqlite3
import threading
import time

# The states of an ask. Those that are open wait for something; a `proven` one waits for the party.
TOKEN, READY, PERSON, PROVEN, ENDORSING, ENDORSED, REFUSED = "token", "ready", "person", "proven", "endorsing", "endorsed", "refused"
OPEN = (TOKEN, READY, PERSON, PROVEN, ENDORSING)
# How far an ask is that is being endorsed: which order the party was given last.
TEACHING, ASKING, FORGETTING = 1, 2, 3
SCHEMA = """
CREATE TABLE IF NOT EXISTS ask (
    id INTEGER PRIMARY KEY, digest BLOB NOT NULL, owner INTEGER NOT NULL, sender TEXT NOT NULL, name TEXT NOT NULL, domain TEXT NOT NULL,
    certificate BLOB NOT NULL, came REAL NOT NULL, until REAL NOT NULL, state TEXT NOT NULL, token BLOB NOT NULL, method INTEGER,
    tries INTEGER NOT NULL DEFAULT 0, due REAL NOT NULL DEFAULT 0, step INTEGER NOT NULL DEFAULT 0, reason TEXT NOT NULL DEFAULT '',
    ground TEXT NOT NULL DEFAULT '', decider TEXT NOT NULL DEFAULT '', endorsed TEXT NOT NULL DEFAULT '', ended REAL);
CREATE UNIQUE INDEX IF NOT EXISTS one_open ON ask (digest, owner) WHERE ended IS NULL;
CREATE INDEX IF NOT EXISTS by_state ON ask (state, due);
CREATE INDEX IF NOT EXISTS by_domain ON ask (domain, ended);
CREATE INDEX IF NOT EXISTS by_sender ON ask (sender, came);
CREATE TABLE IF NOT EXISTS book (
    id INTEGER PRIMARY KEY, at REAL NOT NULL, ask INTEGER NOT NULL, name TEXT NOT NULL, digest BLOB NOT NULL, what TEXT NOT NULL,
    who TEXT NOT NULL, answer TEXT NOT NULL);
CREATE INDEX IF NOT EXISTS by_day ON book (at);
CREATE INDEX IF NOT EXISTS by_ask ON book (ask);
CREATE TRIGGER IF NOT EXISTS no_change BEFORE UPDATE ON book BEGIN SELECT RAISE(ABORT, 'the book is not changed'); END;
CREATE TRIGGER IF NOT EXISTS no_loss BEFORE DELETE ON book BEGIN SELECT RAISE(ABORT, 'the book is not changed'); END;
"""
COLUMNS = ("at", "name", "digest", "what", "who", "answer", "ask")
DAY = 86400


def day_of(when):
    return datetime.datetime.fromtimestamp(when, datetime.timezone.utc).strftime("%Y-%m-%d")


def time_of(when):
    return datetime.datetime.fromtimestamp(when, datetime.timezone.utc).strftime("%Y-%m-%dT%H:%M:%SZ")


class Store:
    """The file. Each thread has a connection of its own."""

    def __init__(self, path):
        self.path, self.local = str(path), threading.local()
        self.connection.executescript(SCHEMA)

    @property
    def connection(self):
        if not hasattr(self.local, "connection"):
            one = sqlite3.connect(self.path, timeout=30, isolation_level=None)
            one.row_factory = sqlite3.Row
            one.execute("PRAGMA journal_mode = WAL")
            one.execute("PRAGMA synchronous = FULL")
            self.local.connection = one
        return self.local.connection

    def close(self):
        self.local.connection.close()
        del self.local.connection

    @contextlib.contextmanager
    def change(self):
        """All that is changed inside is changed at once, or nothing is."""
        one = self.connection
        one.execute("BEGIN IMMEDIATE")
        try:
            yield one
        except BaseException:
            one.execute("ROLLBACK")
            raise
        one.execute("COMMIT")

    def rows(self, words, values=()):
        return self.connection.execute(words, values).fetchall()

    def row(self, words, values=()):
        return self.connection.execute(words, values).fetchone()

    # ---- asks

    def ask(self, number):
        return self.row("SELECT * FROM ask WHERE id = ?", (number,))

    def newest(self, digest, owner):
        """The newest ask of this owner for this certificate."""
        return self.row("SELECT * FROM ask WHERE digest = ? AND owner = ? ORDER BY id DESC LIMIT 1", (digest, owner))

    def in_state(self, *states):
        marks = ",".join("?" * len(states))
        return self.rows(f"SELECT * FROM ask WHERE state IN ({marks}) ORDER BY due, id", states)

    def begin(self, fields, who, answer):
        """A new ask; its number."""
        with self.change() as one:
            words = ", ".join(fields)
            number = one.execute(f"INSERT INTO ask ({words}) VALUES ({', '.join('?' * len(fields))})", tuple(fields.values())).lastrowid
            self.note(one, number, fields["name"], fields["digest"], "ask", who, answer)
        return number

    def move(self, number, entries=(), was=None, **fields):
        """Changes an ask, and writes entries (what, who, answer) into the book; whether it was done: with `was`, only where the ask is in
        one of these states."""
        with self.change() as one:
            row = one.execute("SELECT * FROM ask WHERE id = ?", (number,)).fetchone()
            if row is None or (was is not None and row["state"] not in was):
                return False
            words = ", ".join(f"{field} = ?" for field in fields)
            if fields:
                one.execute(f"UPDATE ask SET {words} WHERE id = ?", (*fields.values(), number))
            for what, who, answer in entries:
                self.note(one, number, row["name"], row["digest"], what, who, answer)
        return True

    @staticmethod
    def note(one, number, name, digest, what, who, answer):
        one.execute("INSERT INTO book (at, ask, name, digest, what, who, answer) VALUES (?, ?, ?, ?, ?, ?, ?)",
                    (time.time(), number, name, digest, what, who, answer))

    def drafts(self, name):
        """The digests of all certificates that were asked for a name."""
        return [row[0] for row in self.rows("SELECT DISTINCT digest FROM ask WHERE name = ?", (name,))]

    def counts(self, domain, sender, since_domain, since_sender):
        """How many asks of a domain are open, how many of its certificates were endorsed since a time, how many a sender asked since a
        time, and how many are open in all."""
        count = lambda words, *values: self.row(f"SELECT count(*) FROM ask WHERE {words}", values)[0]
        return (count("domain = ? AND ended IS NULL", domain), count("domain = ? AND state = ? AND ended >= ?", domain, ENDORSED, since_domain),
                count("sender = ? AND came >= ?", sender, since_sender), count("ended IS NULL"))

    def oldest_idle(self, domain=None):
        """The oldest open ask, of a domain or of all, for which nobody said yet that its digest is put up."""
        words = "state = ? AND tries = 0" + (" AND domain = ?" if domain else "")
        return self.row(f"SELECT * FROM ask WHERE {words} ORDER BY id LIMIT 1", (TOKEN, domain) if domain else (TOKEN,))

    # ---- the book

    def days(self):
        """The days of the book, the newest first, with how many entries each has, and how many endorsements."""
        return self.rows("SELECT date(at, 'unixepoch') AS day, count(*) AS entries, sum(what = 'endorsed') AS endorsed FROM book "
                         "GROUP BY day ORDER BY day DESC LIMIT 400")

    def of_day(self, day):
        return self.rows("SELECT * FROM book WHERE date(at, 'unixepoch') = ? ORDER BY id", (day,))

    def of_ask(self, number):
        return self.rows("SELECT * FROM book WHERE ask = ? ORDER BY id", (number,))

    def entries(self, day=None):
        """The book, or a day of it, as words for people and programs."""
        rows = self.of_day(day) if day else self.connection.execute("SELECT * FROM book ORDER BY id")
        for row in rows:
            yield {**{name: row[name] for name in COLUMNS}, "at": time_of(row["at"]), "digest": row["digest"].hex()}

    def csv(self, day=None):
        text = io.StringIO()
        writer = csv.DictWriter(text, COLUMNS, lineterminator="\n")
        writer.writeheader()
        writer.writerows(self.entries(day))
        return text.getvalue()

    def json(self, day=None):
        return json.dumps(list(self.entries(day)), indent=1) + "\n"
