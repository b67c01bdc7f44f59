"""The database of an archive: SQLite by default, or PostgreSQL by Debian's package python3-psycopg2, which is for /usr/bin/python3.

A place is a path, or `postgresql://..`. Statements are written once, with `?` for each value; what differs between the two stands
here. There is one writer, which holds a lock as long as it lives; each reader has a connection of its own, which cannot write. The
schema has a version, and a writer brings an older one up to its own, a step at a time, each in one transaction."""
import contextlib
import fcntl
import pathlib
import sqlite3

# Of each version what leads to it from the one before. {bytes}, {serial}: the types that differ.
STEPS = [
    [
        "CREATE TABLE message (number {serial}, digest {bytes} NOT NULL UNIQUE, kind INTEGER NOT NULL, epoch BIGINT, party TEXT,"
        " topic TEXT NOT NULL, came DOUBLE PRECISION NOT NULL, verdict TEXT NOT NULL, code TEXT, bytes {bytes} NOT NULL)",
        "CREATE INDEX message_kind ON message (kind, epoch)",
        "CREATE INDEX message_verdict ON message (verdict, kind, epoch)",
        "CREATE INDEX message_party ON message (party, kind, epoch)",
        "CREATE TABLE epoch (number BIGINT PRIMARY KEY, how TEXT NOT NULL, root {bytes}, message {bytes} NOT NULL,"
        " came DOUBLE PRECISION NOT NULL, changes INTEGER NOT NULL)",
        "CREATE TABLE certificate (digest {bytes} PRIMARY KEY, name TEXT NOT NULL, serial BIGINT NOT NULL, previous {bytes} NOT NULL,"
        " bytes {bytes} NOT NULL)",
        "CREATE TABLE event (number {serial}, epoch BIGINT NOT NULL, place INTEGER NOT NULL, name TEXT NOT NULL, what TEXT NOT NULL,"
        " digest {bytes} NOT NULL, change {bytes})",
        "CREATE INDEX event_name ON event (name, number)",
        "CREATE INDEX event_epoch ON event (epoch, number)",
        "CREATE INDEX event_what ON event (what, number)",
        "CREATE TABLE held (name TEXT NOT NULL, place INTEGER NOT NULL, digest {bytes} NOT NULL, how TEXT NOT NULL,"
        " epoch BIGINT NOT NULL, change {bytes}, PRIMARY KEY (name, place))",
        "CREATE TABLE waits (name TEXT PRIMARY KEY, digest {bytes} NOT NULL, since BIGINT NOT NULL, ripens BIGINT NOT NULL,"
        " change {bytes})",
        "CREATE INDEX waits_ripens ON waits (ripens)",
        "CREATE TABLE statement (number {serial}, party TEXT NOT NULL, kind INTEGER NOT NULL, epoch BIGINT, generation INTEGER NOT NULL,"
        " leaf BIGINT NOT NULL, digest {bytes} NOT NULL, message {bytes} NOT NULL, text {bytes} NOT NULL,"
        " signature {bytes} NOT NULL)",
        "CREATE UNIQUE INDEX statement_once ON statement (party, generation, leaf, digest)",
        "CREATE INDEX statement_epoch ON statement (party, epoch, kind)",
        "CREATE INDEX statement_message ON statement (message)",
        "CREATE TABLE confirmation (name TEXT PRIMARY KEY, epoch BIGINT NOT NULL, digest {bytes} NOT NULL, bytes {bytes} NOT NULL)",
        "CREATE TABLE evidence (number {serial}, party TEXT NOT NULL, rule INTEGER NOT NULL, one {bytes} NOT NULL, other {bytes} NOT NULL,"
        " came DOUBLE PRECISION NOT NULL, epoch BIGINT, input TEXT NOT NULL, UNIQUE (party, rule, one, other))",
        "CREATE TABLE fact (word TEXT PRIMARY KEY, value TEXT NOT NULL)",
    ],
    [
        # Each place of the leaves that a party signed by is found without reading its statements.
        "CREATE TABLE highest (party TEXT NOT NULL, generation INTEGER NOT NULL, leaf BIGINT NOT NULL, epoch BIGINT,"
        " PRIMARY KEY (party, generation))",
        "INSERT INTO highest (party, generation, leaf, epoch) SELECT party, generation, MAX(leaf), MAX(epoch) FROM statement"
        " GROUP BY party, generation",
    ],
]
VERSION = len(STEPS)
# Seconds that a reader waits for a lock; how many bytes of the file are looked at in memory, and how far it may grow before the
# writer puts it back into the file.
PATIENCE, MAPPED, PAGES = 30, 1 << 28, 1000


class Wrong(Exception):
    """The database cannot be used; the text says why and what to do."""


def is_server(place):
    return str(place).startswith(("postgresql://", "postgres://"))


class Database:
    """A connection to the database at a place."""

    def __init__(self, place, writes=False, is_fast=False):
        self.place, self.writes, self.lock = str(place), writes, None
        self.types = {"bytes": "BYTEA", "serial": "BIGSERIAL PRIMARY KEY"} if is_server(place) else \
            {"bytes": "BLOB", "serial": "INTEGER PRIMARY KEY AUTOINCREMENT"}
        (self.to_server if is_server(place) else self.to_file)(is_fast)
        self.version = self.found_version()
        if writes:
            self.migrate()
        if self.version != VERSION:
            raise Wrong(f"{self.place} has the schema {self.version}, and this program {VERSION}: " + (
                "a newer program wrote it" if self.version > VERSION else "start the archive that writes it once"))

    # ---- the two kinds

    def to_file(self, is_fast):
        path = pathlib.Path(self.place)
        if self.writes:
            self.lock = open(path.with_name(path.name + ".lock"), "a+b")
            try:
                fcntl.flock(self.lock, fcntl.LOCK_EX | fcntl.LOCK_NB)
            except BlockingIOError:
                raise Wrong(f"{path} has a writer already: an archive has one") from None
        elif not path.exists():
            raise Wrong(f"there is no archive {path}")
        try:
            place = f"file:{path.absolute().as_posix().replace('%', '%25').replace('?', '%3f').replace('#', '%23')}"
            self.base = sqlite3.connect(place if self.writes else place + "?mode=ro", uri=True, timeout=PATIENCE,
                                        isolation_level=None, check_same_thread=False)
            if self.writes:
                self.base.execute("PRAGMA journal_mode = WAL")
                self.base.execute(f"PRAGMA synchronous = {'OFF' if is_fast else 'FULL'}")
                self.base.execute(f"PRAGMA wal_autocheckpoint = {PAGES}")
            else:
                self.base.execute("PRAGMA query_only = 1")
            self.base.execute(f"PRAGMA mmap_size = {MAPPED}")
        except sqlite3.Error as why:
            raise Wrong(f"{path} cannot be opened as an archive: {why}") from why
        self.faults = sqlite3.Error
        self.mark = "?"

    def to_server(self, is_fast):
        try:
            import psycopg2
        except ImportError as why:
            raise Wrong("PostgreSQL needs Debian's package python3-psycopg2, which is for /usr/bin/python3: "
                        "run /usr/bin/python3 tools/archive") from why
        try:
            self.base = psycopg2.connect(self.place)
        except psycopg2.Error as why:
            raise Wrong(f"the database cannot be reached: {str(why).strip()}") from why
        self.base.autocommit = True
        self.faults, self.mark = psycopg2.Error, "%s"
        if self.writes:
            if is_fast:
                self.run("SET synchronous_commit = off")
            if not self.one("SELECT pg_try_advisory_lock(4711820)")[0]:
                raise Wrong(f"{self.place} has a writer already: an archive has one")
        else:
            self.run("SET default_transaction_read_only = on")

    # ---- the version

    def found_version(self):
        if is_server(self.place):
            has = self.one("SELECT to_regclass('archive_version') IS NOT NULL")[0]
            return self.one("SELECT number FROM archive_version")[0] if has else 0
        return self.one("PRAGMA user_version")[0]

    def migrate(self):
        while self.version < VERSION:
            with self.transaction():
                for step in STEPS[self.version]:
                    self.run(step.format(**self.types))
                self.version += 1
                if is_server(self.place):
                    self.run("CREATE TABLE IF NOT EXISTS archive_version (number INTEGER NOT NULL)")
                    self.run("DELETE FROM archive_version")
                    self.run("INSERT INTO archive_version VALUES (?)", self.version)
                else:
                    self.run(f"PRAGMA user_version = {self.version}")

    # ---- statements

    def run(self, statement, *values):
        """Runs a statement; the cursor."""
        if self.mark != "?":
            cursor = self.base.cursor()
            cursor.execute(statement.replace("%", "%%").replace("?", self.mark) if values else statement, values or None)
            return cursor
        return self.base.execute(statement, values)

    def all(self, statement, *values):
        rows = self.run(statement, *values).fetchall()
        if self.mark != "?":
            return [tuple(bytes(one) if isinstance(one, memoryview) else one for one in row) for row in rows]
        return rows

    def one(self, statement, *values):
        """The first row; None where there is none."""
        row = self.run(statement, *values).fetchone()
        if row and self.mark != "?":
            return tuple(bytes(one) if isinstance(one, memoryview) else one for one in row)
        return row

    def value(self, statement, *values):
        row = self.one(statement, *values)
        return row[0] if row else None

    @contextlib.contextmanager
    def transaction(self):
        """All that is run inside is done, or nothing."""
        self.run("BEGIN" if self.mark != "?" else "BEGIN IMMEDIATE")
        try:
            yield
        except BaseException:
            self.run("ROLLBACK")
            raise
        self.run("COMMIT")

    @contextlib.contextmanager
    def snapshot(self):
        """All that is read inside is of one moment."""
        self.run("BEGIN ISOLATION LEVEL REPEATABLE READ READ ONLY" if self.mark != "?" else "BEGIN")
        try:
            yield
        finally:
            self.run("ROLLBACK")

    def size(self):
        """How many bytes it takes."""
        if is_server(self.place):
            return self.value("SELECT pg_database_size(current_database())")
        path = pathlib.Path(self.place)
        return sum(one.stat().st_size for one in (path, path.with_name(path.name + "-wal")) if one.exists())

    def close(self):
        self.base.close()
        if self.lock:
            self.lock.close()
