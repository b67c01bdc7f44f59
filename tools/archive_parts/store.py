"""What an archive writes: each message once, what the mirror said of it, and what the agreed epochs did to names.

A message stands in the database before the mirror is given it, and what the mirror said stands there in one transaction with all that
follows from it. So a writer that is killed at any moment goes on from what it has: a message that the mirror took, and of which that is
not noted, is the one with which the mirror's newest epoch ended."""
import collections
import time

from . import reading

# What a message is: kept for what it says, given to the mirror and taken or refused, or to be given to it once what it needs has come.
KEPT, TAKEN, REFUSED, WAITS = "kept", "taken", "refused", "waits"
REGISTERED, UPDATED, REVOKED, OBJECTED, RIPENED, RECOVERY, ENDED = (
    "registered", "updated", "revoked", "objected", "ripened", "recovery", "ended")

Ending = collections.namedtuple("Ending", "epoch root message")


class Store:
    """The writer of a database."""

    def __init__(self, base):
        self.base = base

    # ---- messages

    def has(self, digest):
        return self.base.value("SELECT verdict FROM message WHERE digest = ?", digest)

    def bytes_of(self, digest):
        return self.base.value("SELECT bytes FROM message WHERE digest = ?", digest)

    def keep(self, message, digest, topic, verdict, code=None):
        """Keeps a message; nothing where it is kept already."""
        self.base.run("INSERT INTO message (digest, kind, epoch, party, topic, came, verdict, code, bytes) VALUES (?, ?, ?, ?, ?, ?, ?, ?, ?)"
                      " ON CONFLICT DO NOTHING", digest, message.kind, message.epoch, message.party, topic, time.time(), verdict, code,
                      message.data)

    def judge(self, digest, verdict, code=None):
        self.base.run("UPDATE message SET verdict = ?, code = ? WHERE digest = ?", verdict, code, digest)

    def forget(self, digest):
        self.base.run("DELETE FROM message WHERE digest = ?", digest)

    def count(self, where, *values):
        return self.base.value(f"SELECT COUNT(*) FROM message WHERE {where}", *values)

    def waiting(self, kinds, epoch=None):
        """The messages that wait, of these kinds, in the order in which they came: of each its digest and its bytes."""
        marks = ", ".join("?" * len(kinds))
        rest, values = (" AND epoch = ?", (epoch,)) if epoch is not None else ("", ())
        return self.base.all(f"SELECT digest, bytes, topic FROM message WHERE verdict = ? AND kind IN ({marks}){rest} ORDER BY number",
                             WAITS, *kinds, *values)

    # ---- statements

    def state(self, statement, message):
        """Keeps a statement; whether it is a new one."""
        digest = reading.sha256(statement.text)
        done = self.base.run("INSERT INTO statement (party, kind, epoch, generation, leaf, digest, message, text, signature)"
                             " VALUES (?, ?, ?, ?, ?, ?, ?, ?, ?) ON CONFLICT DO NOTHING", statement.party, statement.kind, statement.epoch,
                             statement.generation, statement.leaf, digest, message, statement.text, statement.signature)
        if done.rowcount > 0:
            self.base.run("INSERT INTO highest (party, generation, leaf, epoch) VALUES (?, ?, ?, ?) ON CONFLICT (party, generation)"
                          " DO UPDATE SET leaf = CASE WHEN excluded.leaf > highest.leaf THEN excluded.leaf ELSE highest.leaf END,"
                          " epoch = CASE WHEN COALESCE(excluded.epoch, 0) > COALESCE(highest.epoch, 0) THEN excluded.epoch"
                          " ELSE highest.epoch END", statement.party, statement.generation, statement.leaf, statement.epoch)
        return done.rowcount > 0

    def has_statement(self, statement):
        """Whether the same statement with the same signature is kept: then it verified."""
        kept = self.base.value("SELECT signature FROM statement WHERE party = ? AND generation = ? AND leaf = ? AND digest = ?",
                               statement.party, statement.generation, statement.leaf, reading.sha256(statement.text))
        return kept == statement.signature

    def how_often(self, statement):
        """In how many texts of this kind and epoch a party contradicts itself, and how many messages of it say this."""
        return self.base.value("SELECT COUNT(*) FROM statement WHERE party = ? AND kind = ? AND epoch = ?", statement.party,
                               statement.kind, statement.epoch)

    # ---- epochs

    def next_epoch(self):
        """The first epoch that has not ended here."""
        return 1 + (self.base.value("SELECT MAX(number) FROM epoch") or 0)

    def endings_from(self, epoch):
        """The messages with which epochs ended, in their order."""
        return self.base.all("SELECT message.bytes FROM epoch JOIN message ON message.digest = epoch.message WHERE epoch.number >= ?"
                             " ORDER BY epoch.number", epoch)

    def rolls_from(self, party, generation):
        return self.base.all("SELECT bytes FROM message WHERE kind = ? AND verdict = ? AND party = ? AND epoch >= ? ORDER BY epoch",
                             reading.ROLL_NOTE, TAKEN, party, generation)

    def names_that_wait(self):
        return [name for name, in self.base.all("SELECT name FROM waits")]

    def end(self, message, digest, root, rows):
        """An epoch ended, as the mirror took it; `rows` are what it says of the names that the epoch may have changed."""
        self.judge(digest, TAKEN)
        how = "decided" if message.kind == reading.DECISION else "skipped"
        self.base.run("INSERT INTO epoch (number, how, root, message, came, changes) VALUES (?, ?, ?, ?, ?, ?)", message.epoch, how, root,
                      digest, time.time(), len(message.changes))
        for name, row in rows.items():
            Story(self.base, name, row, message).write()


class Story:
    """What an epoch did to a name: a fold over what stood there before, what ripened, and the epoch's changes, beside the mirror's row."""

    def __init__(self, base, name, row, message):
        self.base, self.name, self.row, self.epoch = base, name, row, message.epoch
        self.changes = [(place, change) for place, change in enumerate(message.changes) if change.certificate.name == name]
        self.before = base.value("SELECT COUNT(*) FROM held WHERE name = ?", name)
        self.waits = base.one("SELECT digest, ripens, change FROM waits WHERE name = ?", name)
        self.certificates = [reading.read_certificate(data) for data in row.chain]
        self.added = [one.digest for one in self.certificates[self.before:]]

    def tell(self, place, what, digest, change=None):
        self.base.run("INSERT INTO event (epoch, place, name, what, digest, change) VALUES (?, ?, ?, ?, ?, ?)", self.epoch, place, self.name,
                      what, digest, change)

    def certificate(self, one):
        self.base.run("INSERT INTO certificate (digest, name, serial, previous, bytes) VALUES (?, ?, ?, ?, ?) ON CONFLICT DO NOTHING",
                      one.digest, one.name, min(one.serial, reading.MOST_EPOCH), one.previous, one.data)

    def hold(self, digest, how, change):
        self.base.run("INSERT INTO held (name, place, digest, how, epoch, change) VALUES (?, ?, ?, ?, ?, ?)", self.name, self.before, digest,
                      how, self.epoch, change)
        self.before += 1

    def write(self):
        for one in self.certificates[self.before:]:
            self.certificate(one)
        wait = self.waits
        if wait and wait[0] in self.added and wait[1] <= self.epoch:
            self.tell(-1, RIPENED, wait[0], wait[2])
            self.hold(wait[0], RIPENED, wait[2])
            self.added.remove(wait[0])
            wait = None
        for place, change in self.changes:
            wait = self.apply(place, change, wait)
        self.base.run("DELETE FROM waits WHERE name = ?", self.name)
        if self.row.waits:
            waiting = reading.read_certificate(self.row.waits)
            self.base.run("INSERT INTO waits (name, digest, since, ripens, change) VALUES (?, ?, ?, ?, ?)", self.name, waiting.digest,
                          self.row.since, self.row.ripens, wait[2] if wait and wait[0] == waiting.digest else None)

    def apply(self, place, change, wait):
        """What a change did; what waits behind it."""
        one = change.certificate
        if change.flag == reading.OBJECTION:
            self.tell(place, OBJECTED, one.digest, change.data)
            return None
        if one.digest not in self.added:
            self.certificate(one)
            self.tell(place, RECOVERY, one.digest, change.data)
            return one.digest, None, change.data
        how = REVOKED if one.revoked else UPDATED if one.serial else REGISTERED
        self.tell(place, how, one.digest, change.data)
        self.hold(one.digest, how, change.data)
        self.added.remove(one.digest)
        if wait:
            self.tell(place, ENDED, wait[0])
        return None
