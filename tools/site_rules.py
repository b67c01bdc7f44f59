"""What a site (tools/site) shows and when it asks, without its files, its sockets and its clock. Each call is given the time; `judge`
says what a client would say, `shown` takes what visitors are served, `store` keeps what has to outlive the process, and `ways` takes
what is sent."""
import collections
import hashlib
import itertools
import struct

import party_messages as messages

# How often a name is asked for in an epoch of the clock, at most, and the part of an epoch after which a question comes again last.
MOST_TRIES, LAST_PAUSE = 6, 8
# By how many epochs more than it asks for a confirmation is behind the clock that is told of.
BEHIND = 1
# The most changes in one answer, and how many changes of a name are kept of which it is not known yet whether they lead to its newest
# certificate.
MOST_LINKS, MOST_CANDIDATES = 64, 256
# The most RollNotes that `arpki` takes.
MOST_ROLLS = 64
# The checks of a client that fail where it does not know a party's newest key.
UNKNOWN_KEY = ("4", "5", "6")
PROOF, LINKS, ROLLS, DIRECTORY = "proof", "links", "rolls", "directory"

# A confirmation: of which name, epoch and certificate (its digest, or None), and which keys signed it.
Confirmed = collections.namedtuple("Confirmed", "name epoch digest signers")
# A change: of which name, the digests of its certificate and of the one before, which keys endorsed it, and its bytes.
Link = collections.namedtuple("Link", "name digest previous signers data")


def digest_of(certificate):
    return hashlib.sha256(b"\x10" + certificate).digest()


def signer(at, letter):
    """Whose signature stands there: the party and the generation of its key."""
    number, signature = at.number(2), at.counted()
    return f"{letter}{number}", int.from_bytes(signature[:4], "big")


def read_confirmation(data):
    """The Confirmation that these bytes are; None where they are none."""
    try:
        at = messages.Fields(data, 1)
        form = at.number(1)
        at.take(2)
        epoch, name = at.number(8), at.counted(1).decode("ascii", "replace")
        at.take(32)
        digest = digest_of(at.counted()) if form == 1 else None
        if form != 1 and at.number(1):
            at.take(64)
        for _ in range(at.number(2)):
            at.take(32)
        signers = [signer(at, letter) for letter in "LAA"]
        at.end()
        return Confirmed(name, epoch, digest, signers)
    except messages.NoMessage:
        return None


def read_link(at):
    """A change that stands there; None for an objection."""
    place = at.place
    certificate = at.counted()
    signers = [signer(at, "A") for _ in range(at.number(1))]
    flag = at.number(1)
    if flag:
        at.counted()
    inner = messages.Fields(certificate, 1)
    name = inner.counted(1).decode("ascii", "replace")
    inner.take(8)
    return None if flag == 2 else Link(name, digest_of(certificate), inner.take(32), signers, at.since(place))


def links_in(data):
    """The changes of a Decision; none where a certificate in it is none."""
    try:
        at = messages.Fields(data, 1 + 8 + 64)
        return [link for link in [read_link(at) for _ in range(at.number(1))] if link]
    except messages.NoMessage:
        return []


def counted(data):
    """Bytes behind their number, of four bytes."""
    return struct.pack(">I", len(data)) + data


class Name:
    """What is shown of a name, and what is known of it."""

    def __init__(self, name, at, keys):
        self.name, self.at, self.keys = name, at, keys  # `at` is its place among the names; of each TLS key the draft, or None
        self.newest, self.confirmed = None, None  # the newest good confirmation, as bytes and as it is read
        self.before, self.since = None, None  # an older one, from whose certificate nothing leads to the newest yet; the epoch asked for
        self.failures, self.failed_at = 0, None  # how often what was found did not lead there, and when that was asked for
        self.candidates, self.chain = {}, []
        self.staples, self.next_staple = {}, None  # by TLS key: of which epoch it is shown, and the staple; when it is asked for again
        self.tries, self.next_try, self.interval, self.period = 0, None, None, None
        self.held, self.trouble = None, None

    @property
    def epoch(self):
        return self.confirmed.epoch if self.confirmed else 0


class Site:
    """The names that a site shows."""

    def __init__(self, council, plan, client, each, keys, judge, shown, store, ways, tell):
        self.council, self.plan, self.client, self.each, self.judge, self.shown = council, plan, client, each, judge, shown
        self.store, self.ways, self.tell = store, ways, tell
        self.names = {name: Name(name, at, of_name) for at, (name, of_name) in enumerate(sorted(keys.items()))}
        self.rolls = collections.defaultdict(list)
        self.noted_at, self.note_turn, self.told = -1e18, itertools.count(), set()
        for line in store.rolls():
            self.learn(messages.read(line), line)
        for name in self.names.values():
            self.kept(name)

    def kept(self, name):
        """Takes what was kept of a name."""
        for data in self.store.links(name.name):
            self.join(name, read_link(messages.Fields(data)))
        name.newest, name.before = self.store.confirmations(name.name)
        if name.newest:
            name.confirmed = read_confirmation(name.newest)
        if name.before:
            name.since = read_confirmation(name.before).epoch + 1
        for key in name.keys:
            body = self.shown.get(f"{PROOF}/{key}")
            shown = read_confirmation(body[4:4 + int.from_bytes(body[:4], "big")]) if body else None
            if shown:
                name.staples[key] = shown.epoch, body[8 + int.from_bytes(body[:4], "big"):]

    # ---- what came

    def came(self, line, now):
        """A message came."""
        message = messages.read(line)
        if message is None:
            return
        if message.kind == messages.ROLL:
            self.rolled(message, line, now)
        elif message.kind == messages.CONFIRMATION:
            self.confirmation(message.data, now)
        elif message.kind in (messages.DECISION, messages.SKIP):
            self.ended(message, now)

    def rolled(self, note, line, now):
        """A RollNote: of whom the next one is, and a client learns it."""
        count = {"L": self.council.logs, "A": self.council.authorities}[note.log[0]]
        known = self.rolls[note.log]
        if int(note.log[1:]) >= count or note.epoch != len(known):
            return
        if not self.judge.learns([*known, line]):
            self.once(("bad", note.log, note.epoch), f"a RollNote of {note.log} is none that a client learns", 4)
            return
        self.store.keep_roll(line)
        self.learn(note, line)
        for name in self.names.values():
            held, name.held = name.held, None
            if held:
                self.confirmation(held, now)

    def learn(self, note, line):
        self.rolls[note.log].append(line)
        self.shown.put(f"{ROLLS}/{note.log}/{note.epoch}", note.data)

    def rolls_for(self, signers):
        """The RollNotes by which a client knows these keys, of each party in their order; None where one is not known."""
        needed = {}
        for party, generation in signers:
            needed[party] = max(generation, needed.get(party, 0))
        lines = [line for party, count in sorted(needed.items()) for line in self.rolls[party][:count]]
        return lines if len(lines) == sum(needed.values()) and len(lines) <= MOST_ROLLS else None

    def confirmation(self, data, now):
        """A confirmation: it is shown where a client accepts it, and where it is newer than what is shown."""
        read = read_confirmation(data)
        name = self.names.get(read.name) if read else None
        if name is None or read.epoch <= name.epoch:
            return
        rolls = self.rolls_for(read.signers)
        if rolls is None:
            name.held = data
            self.note(now)
            return
        verdict = self.judge.check(rolls, name.name, self.plan.now(now, read.epoch), self.plan.age, data)
        if verdict[:1] == ["accepted"] and read.digest:
            self.accept(name, data, read)
            self.show_keys(name, now)
        elif verdict[:1] == ["absent"]:
            name.trouble = f"it has no certificate in epoch {read.epoch}"
        else:
            name.trouble = f"a confirmation of epoch {read.epoch} is {' '.join(verdict) or 'not judged'}"
            if verdict[1:2] and verdict[1] in UNKNOWN_KEY:
                self.note(now)

    def accept(self, name, data, read):
        """A newer confirmation of a name. Where its certificate is another, what leads to it is looked for."""
        is_other = name.confirmed is not None and read.digest != name.confirmed.digest
        if is_other and (name.before is None or self.is_given_up(name)):
            name.before, name.since, name.failures, name.candidates = name.newest, name.epoch + 1, 0, {}
        name.newest, name.confirmed, name.trouble = data, read, None
        self.store.keep_confirmations(name.name, name.newest, name.before)
        self.link(name)
        name.next_staple = None

    def show_keys(self, name, now):
        """Shows the newest confirmation by each TLS key of a name: at once, or, where its owner staples, with the staple, which is
        asked for again until it comes."""
        if name.confirmed is None or (name.next_staple is not None and now < name.next_staple):
            return
        name.next_staple = now + max(1.0, self.plan.grace / 2)
        for key, draft in name.keys.items():
            if name.staples.get(key, (0, b""))[0] != name.epoch:
                if draft is None:
                    self.show(name, key, b"")
                else:
                    self.ways.staple(draft, key, name.newest)

    def show(self, name, key, staple):
        """Shows the newest confirmation of a name, and the staple of a TLS key beside it."""
        name.staples[key] = name.epoch, staple
        self.shown.put(f"{PROOF}/{key}", counted(name.newest) + counted(staple))

    def stapled(self, digest, epoch, key, staple):
        """The owner's process signed for a TLS key and an epoch."""
        for name in self.names.values():
            if key in name.keys and name.confirmed and (name.confirmed.digest.hex(), name.epoch) == (digest, epoch):
                self.show(name, key, staple)

    # ---- what leads from one certificate to the next

    def ended(self, message, now):
        """How an epoch ended. The changes in it are looked at where they are wanted."""
        links = links_in(message.data) if message.kind == messages.DECISION else []
        for name in self.names.values():
            if name.before is None:
                continue
            for link in links:
                if link.name == name.name and len(name.candidates) < MOST_CANDIDATES:
                    name.candidates[link.data] = link
            if message.epoch == name.since:
                name.since += 1
            self.link(name)

    def path(self, name):
        """The changes that lead from the older certificate to the newest, as far as they are known."""
        by_digest = {link.digest: link for link in name.candidates.values()}
        first, at, links = read_confirmation(name.before).digest, name.confirmed.digest, []
        while at != first and at in by_digest and len(links) <= MOST_LINKS:
            link = by_digest.pop(at)
            links.insert(0, link)
            at = link.previous
        return links if links and at == first else None

    def link(self, name):
        """Shows what leads to the newest certificate, where a client that has the older one goes along."""
        links = self.path(name) if name.before else None
        if not links:
            return
        older = read_confirmation(name.before)
        rolls = self.rolls_for([one for read in (older, name.confirmed, *links) for one in read.signers])
        if rolls is None:
            return
        groups = [(older.epoch, [], name.before), (name.epoch, [link.data for link in links], name.newest)]
        said = self.judge.follow(rolls, name.name, self.plan.age, groups)
        if said == ["first", f"moved {len(links)}"]:
            for link in links:
                self.store.keep_link(name.name, link.data)
                self.join(name, link)
            name.before, name.since, name.candidates = None, None, {}
            self.store.keep_confirmations(name.name, name.newest, None)
            return
        for link in links:
            del name.candidates[link.data]
        if name.failed_at != self.noted_at and said[:1] == ["first"]:
            name.failures, name.failed_at = name.failures + 1, self.noted_at
            if self.is_given_up(name):
                self.tell(f"no client goes along to the newest certificate of {name.name} ({said[-1]}): it is a recovery", 4)
        self.link(name)  # by what else is known

    def is_given_up(self, name):
        """Whether nothing led to the newest certificate, though each log's driver was asked, as it is with a recovery."""
        return name.failures >= self.council.logs

    def join(self, name, link):
        """Puts a change behind those that are shown, each of which goes on from the one before it."""
        if name.chain and name.chain[-1].digest != link.previous:
            name.chain = []
        name.chain.append(link)
        for at in range(max(0, len(name.chain) - MOST_LINKS), len(name.chain)):
            self.shown.put(f"{LINKS}/{name.chain[at].previous.hex()}", b"".join(one.data for one in name.chain[at:]))

    # ---- time

    def tick(self, now):
        """Asks for what is due."""
        clock = self.plan.epoch_at(now)
        for name in self.names.values():
            if name.period != clock:
                name.period, name.tries, name.interval = clock, 0, self.plan.grace / 2
                name.next_try = max(now, self.plan.begins(clock) + self.plan.grace / 2)
            if name.epoch + self.each <= clock and now >= name.next_try and name.tries < MOST_TRIES:
                self.ask(name, clock, now)
            if name.before and not self.is_given_up(name) and now >= self.noted_at + self.plan.length / LAST_PAUSE:
                self.note(now)
            self.show_keys(name, now)
            self.look(name, clock)
        if self.plan.epoch_at(self.noted_at) != clock:
            self.note(now)

    def ask(self, name, clock, now):
        """Asks for a name: each time another log and other authorities."""
        name.next_try = now + name.interval
        name.interval = max(self.plan.grace / 2, min(2 * name.interval, self.plan.length / LAST_PAUSE))
        turn = clock + name.at + name.tries
        name.tries += 1
        first = turn % self.council.authorities
        second = (first + 1 + turn // self.council.authorities % (self.council.authorities - 1)) % self.council.authorities
        asked = (bytes([messages.ASK]) + messages.u16(self.client) + bytes([len(name.name)]) + name.name.encode()
                 + messages.u16(first) + messages.u16(second))
        self.ways.send(f"L{turn % self.council.logs}", asked.hex())

    def note(self, now):
        """Asks the driver of a log for RollNotes, and for how epochs ended: each time another one's, and not too often."""
        if now < self.noted_at + self.plan.grace / 2:
            return
        self.noted_at = now
        wanted = [name for name in self.names.values() if name.before and not self.is_given_up(name)]
        for name in wanted:
            if name.since >= name.epoch + 1:  # all was asked for, and did not lead there
                name.since = read_confirmation(name.before).epoch + 1
        known = [[len(self.rolls[f"{letter}{number}"]) for number in range(count)]
                 for letter, count in (("L", self.council.logs), ("A", self.council.authorities))]
        told = messages.Note(f"C{self.client}", True, min((name.since for name in wanted), default=0), 0, 0, False, bytes(32), *known)
        self.ways.send(f"L{next(self.note_turn) % self.council.logs}", messages.note_of(told).hex())

    def look(self, name, clock):
        """Tells where the newest confirmation falls behind the clock, though it was asked for, and where it does so no more."""
        is_behind = clock - name.epoch > BEHIND + self.each
        if is_behind and name.tries > 2 and name.name not in self.told:
            self.told.add(name.name)
            newest = f"nothing newer than epoch {name.epoch} came" if name.confirmed else "nothing is confirmed"
            self.tell(f"of {name.name} {newest}, and the clock's is {clock}: {name.trouble or 'no answer comes'}", 3)
        elif not is_behind and name.name in self.told:
            self.told.discard(name.name)
            self.tell(f"of {name.name} epoch {name.epoch} is confirmed", 6)

    def once(self, key, text, level):
        if key not in self.told:
            self.told.add(key)
            self.tell(text, level)

    # ---- what is told

    def page(self, now):
        """The page for a terminal."""
        clock = self.plan.epoch_at(now)
        yield f"clock     epoch {clock}, the next begins in {self.plan.next_begins(now) - now:.1f} s"
        yield f"keys      {sum(map(len, self.rolls.values()))} RollNotes"
        for name in self.names.values():
            if not name.confirmed:
                yield f"{name.name}: nothing is confirmed yet"
            else:
                yield (f"{name.name}: epoch {name.epoch}, {max(0, clock - name.epoch)} behind the clock, certificate "
                       f"{name.confirmed.digest.hex()}, {len(name.chain)} links")
            for key in name.keys:
                epoch, staple = name.staples.get(key, (None, b""))
                yield f"  {key}: " + ("nothing is shown yet" if epoch is None else
                                      f"epoch {epoch} is shown, {'with' if staple else 'without'} a staple")
            if name.trouble:
                yield f"  {name.trouble}"
            if name.before:
                yield "  " + ("no client goes along to its newest certificate: it is a recovery" if self.is_given_up(name)
                              else "what leads to its newest certificate is looked for")

    def metrics(self, now):
        """Each metric with its labels, and its value."""
        clock = self.plan.epoch_at(now)
        for name in self.names.values():
            yield "site_epoch", {"name": name.name}, name.epoch
            yield "site_behind", {"name": name.name}, max(0, clock - name.epoch)
            for key in name.keys:
                yield "site_shown_behind", {"name": name.name, "key": key}, max(0, clock - name.staples.get(key, (0,))[0])
