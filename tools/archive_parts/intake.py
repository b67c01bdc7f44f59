"""What comes to an archive: which messages are kept, and what the mirror is given.

What is kept verifies, each message is kept once, and nobody fills the disk: each topic may bring so many messages and bytes in an epoch
of the schedule, a party's statement of one kind and epoch is kept a few times, and what waits or was refused is kept within a bound."""
import collections
import re
import time

from . import reading, signatures
from .mirror import Wrong
from .store import KEPT, REFUSED, TAKEN, WAITS

# What a topic may bring in an epoch of the clock: new messages, and bytes of them.
MOST_MESSAGES, MOST_BYTES = 10_000, 64 << 20
# The bytes of a message, the messages that wait or were refused of one topic and of all, and the topics that are counted apart.
LONGEST, MOST_OF_TOPIC, MOST_IDLE, MOST_TOPICS = 4 << 20, 256, 4096, 1024
# How many messages of one party, kind and epoch are kept, of one certificate's submissions, and Decisions for an epoch to come of a topic.
MOST_ALIKE, MOST_AHEAD = 8, 4
# What the mirror says where a key is not known yet: the message waits for a RollNote.
UNKNOWN_KEY = re.compile(r"[A-Z]+4 [LA]\d+ 6")
TOPIC = re.compile(r"[!-~]{1,128}")


class Quotas:
    """How much each topic brought in a period."""

    def __init__(self, period, most_messages=MOST_MESSAGES, most_bytes=MOST_BYTES):
        self.period, self.most_messages, self.most_bytes = period, most_messages, most_bytes
        self.at, self.counts = None, {}

    def allows(self, topic, size):
        now = self.period()
        if now != self.at:
            self.at, self.counts = now, {}
        if topic not in self.counts and len(self.counts) >= MOST_TOPICS:
            topic = "other topics"
        messages, size_before = self.counts.get(topic, (0, 0))
        if messages >= self.most_messages or size_before + size > self.most_bytes:
            return False
        self.counts[topic] = messages + 1, size_before + size
        return True


class Keys:
    """The keys of logs and authorities that are known, by generation."""

    def __init__(self, council):
        self.known = {f"{letter}{number}": [bytes.fromhex(line.split(" ")[1])] for letter, lines in council.keys.items()
                      for number, line in enumerate(lines)}

    def verifies(self, statement):
        """Whether a statement is signed; None where the key is not known yet."""
        keys = self.known.get(statement.party)
        if keys is None:
            return False
        if statement.generation >= len(keys):
            return None if statement.generation < 1000 else False
        return signatures.is_valid(keys[statement.generation], statement.text, statement.signature[4:])


class Intake:
    """Takes lines, keeps what is to be kept, and gives the mirror what it needs."""

    def __init__(self, store, mirror, council, guilt, judge, quotas, tell, most_bytes=None):
        self.store, self.mirror, self.council, self.guilt, self.judge = store, mirror, council, guilt, judge
        self.quotas, self.tell, self.most_bytes = quotas, tell, most_bytes
        self.keys, self.dropped = Keys(council), collections.Counter()
        self.told = set()
        self.epoch = self.begin()
        self.go_on()

    # ---- the beginning

    def begin(self):
        """Brings mirror and database to one state; the epoch that is open."""
        for party in self.keys.known:
            known = self.mirror.generations(party)
            for at, (data,) in enumerate(self.store.rolls_from(party, 0)):
                self.keys.known[party].append(reading.read(data).certificate)
                if at >= known:
                    self.given_again(data)
        here, there = self.store.next_epoch(), self.mirror.epoch()
        if there < here:
            for data, in self.store.endings_from(there):
                self.given_again(data)
        elif there == here + 1:
            self.catch_up(here)
        elif there > here:
            raise Wrong(f"the mirror is at epoch {there}, and the database at {here}: move the mirror's journal away, and the archive "
                        "makes a new one")
        return self.mirror.epoch()

    def given_again(self, data):
        verdict = self.mirror.take(data)
        if not verdict.is_taken:
            raise Wrong(f"the mirror refuses what it took before ({verdict.code}): is its directory another one?")

    def catch_up(self, epoch):
        """The mirror took the ending of an epoch, and that was not noted."""
        digest = self.mirror.decision(epoch)
        data = self.store.bytes_of(digest)
        if data is None:
            raise Wrong(f"the mirror took a message that the database has not, {digest.hex()}: move the mirror's journal away, and the "
                        "archive makes a new one")
        self.note_end(reading.read(data), digest)

    # ---- what comes

    def take(self, topic, line):
        """A line came, in hex, by a topic; what was made of it, in a word."""
        what = self.taken(topic, line)
        if what not in ("kept", "known", TAKEN):
            self.dropped[what] += 1
        return what

    def taken(self, topic, line):
        if len(line) > 2 * LONGEST:
            return "too long"
        try:
            data = bytes.fromhex(line)
        except ValueError:
            return "no hex"
        topic = topic if TOPIC.fullmatch(topic) else "?"
        digest = reading.sha256(data)
        if self.store.has(digest):
            return "known"
        if not self.quotas.allows(topic, len(data)):
            if (topic, self.quotas.at) not in self.told:
                self.told.add((topic, self.quotas.at))
                self.tell(f"{topic} brings more than an archive takes of one topic: the rest of this epoch is dropped", 4)
            return "over the quota"
        message = reading.read(data)
        if message is None:
            return "no message that is kept"
        if self.most_bytes and message.kind not in (reading.DECISION, reading.SKIP_NOTE, reading.ROLL_NOTE) \
                and self.store.base.size() > self.most_bytes:
            return "no room"
        return self.sort(message, digest, topic)

    def sort(self, message, digest, topic):
        if message.kind == reading.ROLL_NOTE:
            return self.roll(message, digest, topic)
        if message.kind in (reading.DECISION, reading.SKIP_NOTE):
            return self.ending(message, digest, topic)
        if message.kind == reading.CONFIRMATION:
            return self.confirmation(message, digest)
        return self.statement(message, digest, topic)

    # ---- what is signed

    def statement(self, message, digest, topic):
        """A message that is kept for what is signed in it."""
        if message.kind == reading.SUBMIT:
            alike = self.store.count("kind = ? AND party = ?", message.kind, message.certificate.hex())
            message = message._replace(party=message.certificate.hex())
        elif message.kind == reading.ENDORSED:
            alike = self.store.count("kind = ? AND party = ? AND verdict = ? AND code = ?", message.kind, message.party, KEPT,
                                     message.certificate.hex())
        else:
            alike = self.store.count("kind = ? AND party = ? AND epoch = ?", message.kind, message.party, message.epoch)
        if alike >= MOST_ALIKE:
            return "said before"
        own = message.statements[:1] if message.kind != reading.SUBMIT else message.statements
        found = [self.keys.verifies(one) for one in own]
        if message.kind == reading.SUBMIT and not own:
            found = [self.objects(message.changes[0])]
        if False in found:
            return "not signed"
        if None in found:
            return self.idle(message, digest, topic, WAITS, "a key that is not known yet")
        with self.store.base.transaction():
            code = message.certificate.hex() if message.kind == reading.ENDORSED else None
            self.store.keep(message, digest, topic, KEPT, code)
            self.store.judge(digest, KEPT, code)
            self.state(message, digest, own)
        return "kept"

    def objects(self, change):
        """Whether an objection is signed by the newest key of its name."""
        newest = self.store.base.value("SELECT certificate.bytes FROM held JOIN certificate ON certificate.digest = held.digest"
                                       " WHERE held.name = ? ORDER BY held.place DESC LIMIT 1", change.certificate.name)
        if newest is None or change.flag != reading.OBJECTION:
            return False
        text = bytes([reading.OBJECT, 3, 0, 0]) + change.certificate.digest
        return signatures.is_valid(reading.read_certificate(newest).key, text, change.signature)

    def state(self, message, digest, verified=()):
        """Keeps the statements of a message that verify, and looks whether they contradict others."""
        for statement in message.statements:
            if statement in verified or self.store.has_statement(statement) or self.keys.verifies(statement):
                if self.store.state(statement, digest):
                    self.guilt.look(statement, digest)

    def idle(self, message, digest, topic, verdict, code):
        """Keeps a message that waits or was refused, within the bounds of its topic and of all."""
        idle = "verdict IN (?, ?)"
        if (self.store.count(idle + " AND topic = ?", WAITS, REFUSED, topic) >= MOST_OF_TOPIC
                or self.store.count(idle, WAITS, REFUSED) >= MOST_IDLE):
            if verdict == REFUSED:
                with self.store.base.transaction():
                    self.store.base.run("DELETE FROM message WHERE digest = ? AND verdict = ?", digest, WAITS)
            return "no room"
        with self.store.base.transaction():
            self.store.keep(message, digest, topic, verdict, code)
            self.store.judge(digest, verdict, code)
        return verdict

    # ---- RollNotes

    def roll(self, message, digest, topic):
        keys = self.keys.known.get(message.party)
        if keys is None:
            return "not signed"
        if message.epoch >= len(keys):
            return self.idle(message, digest, topic, WAITS, "an earlier RollNote is missing")
        if not self.keys.verifies(message.statements[0]):
            self.store.forget(digest)
            return "not signed"
        if message.epoch == len(keys) - 1:
            return self.give_roll(message, digest, topic)
        # A second note of a generation: evidence, where its key is another.
        what = self.idle(message, digest, topic, REFUSED, f"another RollNote of {message.party} {message.epoch} was taken")
        if what == REFUSED:
            with self.store.base.transaction():
                self.state(message, digest, message.statements)
        return what

    def give_roll(self, message, digest, topic):
        with self.store.base.transaction():
            self.store.keep(message, digest, topic, WAITS)
        verdict = self.mirror.take(message.data)
        if not verdict.is_taken:
            return self.idle(message, digest, topic, REFUSED, verdict.code)
        self.keys.known[message.party].append(message.certificate)
        with self.store.base.transaction():
            self.store.judge(digest, TAKEN)
            self.state(message, digest, message.statements)
        self.again(message.party)
        return TAKEN

    def again(self, party):
        """Looks again at what waited for a party's key."""
        for digest, data, topic in self.store.waiting((reading.ROLL_NOTE,)):
            note = reading.read(data)
            if note.party == party and note.epoch == len(self.keys.known[party]) - 1:
                self.roll(note, digest, topic)
        kinds = (reading.ENDORSED, reading.SUBMIT, reading.PROPOSE, reading.BALLOT, reading.STATUS_NOTE)
        for digest, data, topic in self.store.waiting(kinds):
            message = reading.read(data)
            if any(one.party == party for one in message.statements):
                with self.store.base.transaction():
                    self.store.forget(digest)
                self.statement(message, digest, topic)
        self.go_on()

    # ---- how epochs end

    def ending(self, message, digest, topic):
        if message.epoch < self.epoch:
            return self.late(message, digest, topic)
        if message.epoch > self.epoch:
            ahead = self.store.count("verdict = ? AND topic = ? AND epoch = ? AND kind IN (?, ?)", WAITS, topic, message.epoch,
                                     reading.DECISION, reading.SKIP_NOTE)
            own = [one for one in message.statements if one.kind in (reading.VOTE, reading.STATUS)]
            if ahead >= MOST_AHEAD or not own or any(self.keys.verifies(one) is False for one in own):
                return "not signed" if ahead < MOST_AHEAD else "said before"
            return self.idle(message, digest, topic, WAITS, f"epoch {self.epoch} has not ended here")
        what = self.give_ending(message, digest, topic)
        if what == TAKEN:
            self.go_on()
        return what

    def late(self, message, digest, topic):
        """Another ending of an epoch that has ended: what it says is kept where those who sign it contradict themselves."""
        own = [one for one in message.statements if one.kind in (reading.VOTE, reading.STATUS)]
        if not own or all(self.store.has_statement(one) for one in own):
            return "said before"
        if not all(self.keys.verifies(one) for one in own):
            return "not signed"
        what = self.idle(message, digest, topic, REFUSED, f"epoch {message.epoch} ended otherwise")
        if what == REFUSED:
            with self.store.base.transaction():
                self.state(message, digest, own)
        return what

    def give_ending(self, message, digest, topic):
        """Gives the mirror what may end the open epoch."""
        with self.store.base.transaction():
            self.store.keep(message, digest, topic, WAITS)
        verdict = self.mirror.take(message.data)
        if verdict.is_taken:
            self.note_end(message, digest)
            self.epoch += 1
            return TAKEN
        if UNKNOWN_KEY.fullmatch(verdict.code or ""):
            return self.idle(message, digest, topic, WAITS, verdict.code)
        own = [one for one in message.statements if one.kind in (reading.VOTE, reading.STATUS)]
        if not own or not all(self.keys.verifies(one) for one in own):
            with self.store.base.transaction():
                self.store.forget(digest)
            return "not signed"
        what = self.idle(message, digest, topic, REFUSED, verdict.code)
        if what == REFUSED:
            self.tell(f"the mirror refuses an ending of epoch {message.epoch}, {digest.hex()}: {verdict.code}", 4)
            with self.store.base.transaction():
                self.state(message, digest, own)
        return what

    def note_end(self, message, digest):
        """Notes that the mirror took it, and what it says of the names that it may have changed."""
        names = dict.fromkeys([change.certificate.name for change in message.changes])
        rows, root = {}, None
        if message.kind == reading.DECISION:
            names.update(dict.fromkeys(self.store.names_that_wait()))
            rows, root = self.mirror.rows(names), self.mirror.root(message.epoch)
        with self.store.base.transaction():
            self.store.end(message, digest, root, rows)
            self.state(message, digest, message.statements)  # the mirror took each of them

    def go_on(self):
        """Gives the mirror what waited for the epoch that is open now."""
        more = True
        while more:
            more = False
            for digest, data, topic in self.store.waiting((reading.DECISION, reading.SKIP_NOTE), self.epoch):
                if self.give_ending(reading.read(data), digest, topic) == TAKEN:
                    more = True
                    break

    # ---- confirmations

    def confirmation(self, message, digest):
        """The newest confirmation of a name that the mirror's table has."""
        if message.certificate is None or message.epoch >= self.epoch:
            return "not of the table"
        newest = self.store.base.one("SELECT digest FROM held WHERE name = ? ORDER BY place DESC LIMIT 1", message.name)
        before = self.store.base.value("SELECT epoch FROM confirmation WHERE name = ?", message.name)
        if newest is None or before is not None and message.epoch <= before:
            return "said before" if before else "not of the table"
        if not all(self.keys.verifies(one) for one in message.statements):
            return "not signed"
        rolls = [data for one in message.statements for data, in self.store.rolls_from(one.party, 0)]
        if not self.judge.accepts(rolls, message):
            return "not accepted"
        with self.store.base.transaction():
            self.store.base.run("INSERT INTO confirmation (name, epoch, digest, bytes) VALUES (?, ?, ?, ?) ON CONFLICT (name) DO UPDATE"
                                " SET epoch = excluded.epoch, digest = excluded.digest, bytes = excluded.bytes", message.name, message.epoch,
                                digest, message.data)
        return "kept"


def clock_period(plan):
    """Of what the quotas are: an epoch of the clock, or an hour where there is no schedule."""
    return (lambda: plan.epoch_at(time.time())) if plan else (lambda: int(time.time() // 3600))
