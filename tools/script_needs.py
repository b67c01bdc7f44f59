"""What playing a script of honest parties needs of SHA-256, by the rules of the protocol.

A model of the parties plays the script and counts, for each rule, the compressions that it asks for; it knows the
lines that the ordinary script and the made ones have, and no refusal but that of a ballot which comes too late. What
it prints has to be, byte for byte, what the program prints, so that it counts of the very messages that the program
made. The program's calls are not looked at.

What is counted (`Needs`):

- keys: each key that is made (RFC 8554), with the party's seed, and the digest of its text, which is printed;
- signed: each signature, by the leaf that its statement has;
- verified: each signature that a row has to verify, by the party whose row it is, once by each party: one of the same
  signer, text and signature is not verified again where it comes in a later message, as an epoch's votes come to an
  authority in each answer. A log that has queued a change verified its endorsements and its handover then, and needs
  no second look where it is proposed and decided;
- trees: at each log for each epoch the entries that changed and the nodes above them, each once; at each log the
  key of each name, once; of each confirmation that an authority or a client judges, the name's key and value, the
  entry and the path;
- certificates: the digest of each one, once for each log, and once for each other party and message that brings it;
- printed: the digest of each message's bytes, and for `make <n> run` that of all that is printed.

Beside them, under a word and a role, how many signatures the parties of each role made and verified, for tools/scale.

And under `above` and a word of ABOVE what is not needed, but known to run (docs/PERFORMANCE.md, "Scripts"): lanes that are
dropped, of signatures (where keys are made none is); the own vote that a log signs once more into each confirmation, where it had the turn to propose; and the nodes
that are hashed once more where an epoch's entries are set one by one.
"""
import collections
import functools
import struct

from hash_needs import (CHAINS, ENTRY, HEIGHTS, NODE, WIDTHS, blocks, dropped_to_sign, dropped_to_verify,
                        needed_to_make, needed_to_sign, needed_to_verify, sha256, signed_digits)

WANTS = ("keys", "signed", "verified", "trees", "certificates", "printed")
ABOVE = ("lanes of signatures", "own votes", "nodes")
LOG, AUTHORITY, OWNER, CLIENT = 1, 2, 3, 4
LETTERS = {LOG: "L", AUTHORITY: "A", OWNER: "D", CLIENT: "C"}
LOGS = "logs"
NAME_KEY = VALUE = 1  # blocks: 0x11 and a name of at most 54 bytes, and 0x03, a serial and a digest

u8, u16, u32, u64 = (lambda number, width=width: number.to_bytes(width, "big") for width in (1, 2, 4, 8))


def counted(text):
    """A part behind its length in two bytes."""
    return u16(len(text)) + text


def word(party):
    """How a party, its role and its number, is written in a line."""
    return party if party == LOGS else LETTERS[party[0]] + str(party[1])


def party_of(text):
    roles = {letter: role for role, letter in LETTERS.items()}
    return roles[text[0]], int(text[1:])


def numbers(text):
    return [int(number) for number in text.split(",")]


def randomizer(seed, leaf):
    """The first eight words of ChaCha20 with the key H(0x43 || SEED) and the leaf as its stream."""
    start = list(struct.unpack("<4I", b"expand 32-byte k")) + list(struct.unpack("<8I", sha256(b"\x43", seed)))
    start += [0, 0, leaf, 0]
    words = list(start)
    quarters = [(i, i + 4, i + 8, i + 12) for i in range(4)]
    quarters += [(i, 4 + (i + 1) % 4, 8 + (i + 2) % 4, 12 + (i + 3) % 4) for i in range(4)]
    for _ in range(10):
        for a, b, c, d in quarters:
            for to, by, at, turn in ((a, b, d, 16), (c, d, b, 12), (a, b, d, 8), (c, d, b, 7)):
                words[to] = words[to] + words[by] & 0xffffffff
                turned = words[at] ^ words[to]
                words[at] = (turned << turn | turned >> 32 - turn) & 0xffffffff
    return struct.pack("<8I", *(a + b & 0xffffffff for a, b in zip(words[:8], start)))


def chain(head, start, end, value):
    """The steps from start to before end of the chain whose texts begin with I, the leaf and the chain's number."""
    for number in range(start, end):
        value = sha256(head, u8(number), value)
    return value


class Key:
    """A signing key of RFC 8554 with the secret elements of its appendix A; it keeps its nodes."""

    def __init__(self, seed, lms, ots):
        self.seed, self.lms, self.ots = seed, lms, ots
        self.identifier = sha256(b"\x49", seed)[:16]
        self.leaves = 2 ** HEIGHTS[lms]
        self.nodes = [b""] * self.leaves + [self.leaf_node(leaf) for leaf in range(self.leaves)]
        for number in range(self.leaves - 1, 0, -1):
            below = self.nodes[2 * number:2 * number + 2]
            self.nodes[number] = sha256(self.identifier, u32(number), b"\x83\x83", *below)
        self.public = u32(lms) + u32(ots) + self.identifier + self.nodes[1]

    def link(self, leaf, number, end):
        """The value of a chain after so many steps."""
        head = self.identifier + u32(leaf) + u16(number)
        return chain(head, 0, end, sha256(head, b"\xff", self.seed))

    def leaf_node(self, leaf):
        last = 2 ** WIDTHS[self.ots] - 1
        ends = [self.link(leaf, number, last) for number in range(CHAINS[self.ots])]
        one_time = sha256(self.identifier, u32(leaf), b"\x80\x80", *ends)
        return sha256(self.identifier, u32(self.leaves + leaf), b"\x82\x82", one_time)

    def sign(self, leaf, text):
        front = u32(leaf) + u32(self.ots) + randomizer(self.seed, leaf)
        cut = signed_digits(self.ots, self.public, text, front)
        elements = [self.link(leaf, number, digit) for number, digit in enumerate(cut)]
        path, node = [], self.leaves + leaf
        while node > 1:
            path.append(self.nodes[node ^ 1])
            node //= 2
        return b"".join([front, *elements, u32(self.lms), *path])


class Needs(collections.Counter):
    """Compressions by what they are needed for."""

    @property
    def total(self):
        return sum(self[name] for name in WANTS)


class Signer:
    """A party that makes statements. The place of each in its book is the leaf."""

    def __init__(self, world, party, lms, ots):
        self.world, self.party, self.needs = world, party, world.needs
        seed = sha256(b"\x53", world.secret, u8(party[0]), u16(party[1]))
        self.key = Key(seed, lms, ots)
        self.book, self.judged = {}, set()
        self.needs["keys"] += blocks(1 + 32 + 1 + 2) + needed_to_make(lms, ots) + blocks(56)
        world.say("party", word(party), sha256(self.key.public).hex())

    def sign(self, text):
        """The signature of a statement; of a log or an authority its generation stands in front."""
        leaf = self.book.setdefault(text, len(self.book))
        signature = self.key.sign(leaf, text)
        self.needs["signed"] += needed_to_sign(self.key.public, text, signature)
        self.needs["above", "lanes of signatures"] += dropped_to_sign(self.key.public, text, signature)
        self.needs["made by", self.party[0]] += 1
        return signature if self.party[0] == OWNER else u32(0) + signature

    def verify(self, key, text, signature):
        judge(self.needs, self.party[0], self.judged, key, text, signature)

    def verify_of(self, party, text, signature):
        """Verifies the statement of a log or an authority by its key of the generation 0."""
        self.verify(self.world.parties[party].key.public, text, signature[4:])


def judge(needs, role, judged, key, text, signature):
    """Counts a valid signature that a row or a client verifies, unless the same party has judged this very one."""
    if (key, text, signature) not in judged:
        judged.add((key, text, signature))
        needs["verified"] += needed_to_verify(key, text, signature)
        needs["above", "lanes of signatures"] += dropped_to_verify(key, text, signature)
        needs["verified by", role] += 1


# Statements


def endorse(authority, digest):
    return u8(1) + u8(AUTHORITY) + u16(authority) + digest


def handover(digest):
    return u8(2) + u8(OWNER) + u16(0) + digest


def of_epoch(kind, log, epoch, base, root):
    """A Propose, of kind 3, or a Vote, of kind 4."""
    return u8(kind) + u8(LOG) + u16(log) + u64(epoch) + base + root


def confirm(party, epoch, name, certificate, root):
    """A Confirm, or without a certificate a ConfirmAbsent."""
    kind, digest = (7, b"") if certificate is None else (6, certificate.digest)
    return u8(kind) + u8(party[0]) + u16(party[1]) + u64(epoch) + u8(len(name)) + name + digest + root


# Certificates, changes and the tree


class Certificate:
    def __init__(self, name, serial, previous, owner, policy):
        self.name, self.serial, self.owner, self.keyed = name, serial, owner, policy[1] == "keyed"
        trusted = numbers(policy[4])
        self.text = (u8(1) + u8(len(name)) + name + u64(serial) + previous + owner.key.public + u8(1)
                     + u8(int(policy[0])) + u8(self.keyed) + u32(int(policy[2])) + u64(int(policy[3]))
                     + u8(len(trusted)) + b"".join(map(u16, trusted)) + u8(0))
        self.digest = sha256(b"\x10", self.text)
        self.cost = blocks(1 + len(self.text))

    @functools.cached_property
    def entry(self):
        """The key and the value of the certificate's name in the tree."""
        return sha256(b"\x11", self.name), sha256(b"\x03", u64(self.serial), self.digest)


Change = collections.namedtuple("Change", "certificate endorsements handover text")


def change_of(certificate, endorsements, given):
    """A change, whose endorsements are numbers of authorities and signatures."""
    text = counted(certificate.text) + u8(len(endorsements))
    text += b"".join(u16(number) + counted(signature) for number, signature in endorsements)
    return Change(certificate, endorsements, given, text + (u8(0) if given is None else u8(1) + counted(given)))


def bit(key, depth):
    return key[depth // 8] >> 7 - depth % 8 & 1


def halves(entries, depth):
    return [tuple(entry for entry in entries if bit(entry[0], depth) == side) for side in (0, 1)]


@functools.lru_cache(maxsize=None)
def tree_digest(entries, depth=0):
    """The digest of the entries that agree in so many bits."""
    if not entries:
        return sha256(b"\x00")
    if len(entries) == 1:
        return sha256(b"\x01", *entries[0])
    return sha256(b"\x02", *(tree_digest(half, depth + 1) for half in halves(entries, depth)))


def tree_path(entries, key):
    """What stands at the foot of a key's path, and the path, the deepest step first."""
    path, depth = [], 0
    while len(entries) > 1:
        both = halves(entries, depth)
        path.insert(0, tree_digest(both[1 - bit(key, depth)], depth + 1))
        entries, depth = both[bit(key, depth)], depth + 1
    return entries, path


def steps_to(key, keys):
    """The nodes above a key, by the bits in which it agrees with one of the others."""
    agrees = lambda other: 256 - (int.from_bytes(key, "big") ^ int.from_bytes(other, "big")).bit_length()
    return max((1 + agrees(other) for other in keys if other != key), default=0)


def nodes_above(entries, changed, depth=0):
    """The nodes of the tree that have an entry with one of these keys below them."""
    if len(entries) < 2 or not any(key in changed for key, _ in entries):
        return 0
    return 1 + sum(nodes_above(half, changed, depth + 1) for half in halves(entries, depth))


class Table:
    """The names of a log with their newest certificates."""

    def __init__(self, newest=None):
        self.newest = newest or {}
        self.entries = tuple(sorted(certificate.entry for certificate in self.newest.values()))
        self.root = tree_digest(self.entries)

    def changed(self, changes):
        """The table after changes that it accepts."""
        return Table({**self.newest, **{change.certificate.name: change.certificate for change in changes}})


# The parties


class Authority(Signer):
    """A method for each kind of message that it takes; the answer is what it sends."""

    def __init__(self, *words):
        super().__init__(*words)
        self.taught = set()

    def take(self, kind, fields):
        return getattr(self, kind)(*fields)

    def EndorseAsk(self, owner, certificate):
        self.needs["certificates"] += certificate.cost
        assert (certificate.name, certificate.owner.party) in self.taught
        number, signature = self.party[1], self.sign(endorse(self.party[1], certificate.digest))
        text = u8(2) + u16(owner) + u16(number) + certificate.digest + counted(signature)
        return [("Endorsed", (OWNER, owner), text, (number, certificate, signature))]

    def LogConfirmed(self, told):
        """As the first of two: the log's signature and the votes, and the path."""
        self.verify_of((LOG, told.log), told.statement((LOG, told.log)), told.signature)
        told.votes_verified(self)
        told.path_judged(self.needs)
        signature = self.sign(told.statement(self.party))
        text = u8(11) + told.fields + counted(signature)
        return [("HalfConfirmed", (AUTHORITY, told.second), text, (told, signature))]

    def HalfConfirmed(self, told, first):
        """As the second: the log's, the first one's and the votes, and the path."""
        self.verify_of((LOG, told.log), told.statement((LOG, told.log)), told.signature)
        self.verify_of((AUTHORITY, told.first), told.statement((AUTHORITY, told.first)), first)
        told.votes_verified(self)
        told.path_judged(self.needs)
        signature = self.sign(told.statement(self.party))
        text = told.confirmation(first, signature)
        return [("Confirmation", (CLIENT, told.client), text, (told, first, signature))]


class Confirmed:
    """What a log says of a name."""

    def __init__(self, client, name, first, second, log):
        self.client, self.name, self.first, self.second = client, name, first, second
        self.log = log.party[1]
        self.epoch, self.base, self.votes = log.newest
        self.root, self.certificate = log.table.root, log.table.newest.get(name)
        foot, self.path = tree_path(log.table.entries, sha256(b"\x11", name))
        self.has_foot = len(foot) > 0
        body = (counted(self.certificate.text) if self.certificate
                else u8(1) + b"".join(foot[0]) if foot else u8(0))
        self.body = body + u16(len(self.path)) + b"".join(self.path)
        self.signature = log.sign(self.statement(log.party))

    def statement(self, party):
        return confirm(party, self.epoch, self.name, self.certificate, self.root)

    def front(self, base):
        return (u8(1 if self.certificate else 2) + u16(self.client) + u64(self.epoch) + u8(len(self.name)) + self.name
                + self.root + base + self.body)

    @property
    def fields(self):
        votes = u8(len(self.votes)) + b"".join(u16(log) + counted(signature) for log, signature in self.votes)
        return (self.front(self.base) + votes + u16(self.log) + counted(self.signature) + u16(self.first)
                + u16(self.second))

    def confirmation(self, first, second):
        return (u8(12) + self.front(b"") + u16(self.log) + counted(self.signature) + u16(self.first) + counted(first)
                + u16(self.second) + counted(second))

    def votes_verified(self, by):
        for log, signature in self.votes:
            by.verify_of((LOG, log), of_epoch(4, log, self.epoch, self.base, self.root), signature)

    def path_judged(self, needs):
        """The certificate's digest and the value of the name, the entry at the foot of the path, and its steps."""
        if self.certificate:
            needs["certificates"] += self.certificate.cost
            needs["trees"] += VALUE
        needs["trees"] += NAME_KEY + (ENTRY if self.has_foot else 0) + len(self.path) * NODE


class Log(Signer):
    """A method for each kind of message that it takes; the answer is what it sends."""

    def __init__(self, *words):
        super().__init__(*words)
        self.epoch, self.table, self.queue = 1, Table(), []
        self.names, self.newest, self.proposed, self.votes, self.turn = set(), None, None, {}, None

    def take(self, kind, fields):
        return getattr(self, kind)(*fields)

    def know(self, name):
        """The key of a name in the tree is hashed once."""
        if name not in self.names:
            self.needs["trees"] += NAME_KEY
            self.names.add(name)

    def Submit(self, change):
        """The endorsements, and the handover where the policy of the certificate before is keyed."""
        certificate = change.certificate
        self.needs["certificates"] += certificate.cost
        for number, signature in change.endorsements:
            self.verify_of((AUTHORITY, number), endorse(number, certificate.digest), signature)
        old = self.table.newest.get(certificate.name)
        if old is not None and old.keyed:
            self.verify(old.owner.key.public, handover(certificate.digest), change.handover)
        self.queue.append(change)
        return []

    def voted_for(self, changes):
        """The table after the changes: the entries of their names and the nodes above, each once in the epoch."""
        after = self.table.changed(changes)
        keys = {change.certificate.entry[0] for change in changes}
        for change in changes:
            self.know(change.certificate.name)
        nodes = nodes_above(after.entries, keys)
        self.needs["trees"] += len(keys) * (VALUE + ENTRY) + nodes * NODE
        self.tried_above(changes, nodes)
        self.proposed = (self.table.root, after, changes)
        return after.root

    def tried_above(self, changes, nodes):
        """What is run above need where the changes are tried, if each has a name of its own."""
        keys, steps = {key for key, _ in self.table.entries}, 0
        for change in changes:
            steps += steps_to(change.certificate.entry[0], keys)
            keys.add(change.certificate.entry[0])
        self.needs["above", "nodes"] += (steps - nodes) * NODE

    def propose(self):
        self.turn = self.epoch
        base, changes = self.table.root, self.queue[:64]
        root, number = self.voted_for(changes), self.party[1]
        signature = self.sign(of_epoch(3, number, self.epoch, base, root))
        self.votes = {number: self.sign(of_epoch(4, number, self.epoch, base, root))}
        text = u8(4) + u16(number) + u64(self.epoch) + base + root + u8(len(changes))
        text += b"".join(change.text for change in changes) + counted(signature)
        return [("Propose", LOGS, text, (number, base, root, changes, signature))]

    def Propose(self, proposer, base, root, changes, signature):
        """The proposer's signature; all changes are queued, so that their endorsements were verified."""
        assert base == self.table.root and all(change in self.queue for change in changes)
        self.verify_of((LOG, proposer), of_epoch(3, proposer, self.epoch, base, root), signature)
        assert self.voted_for(changes) == root
        number = self.party[1]
        vote = self.sign(of_epoch(4, number, self.epoch, base, root))
        text = u8(5) + u16(number) + u64(self.epoch) + base + root + counted(vote)
        return [("Ballot", (LOG, proposer), text, (number, self.epoch, base, root, vote))]

    def Ballot(self, number, epoch, base, root, signature):
        """The vote is verified also where the epoch has ended, since that is looked at behind it."""
        self.verify_of((LOG, number), of_epoch(4, number, epoch, base, root), signature)
        if epoch != self.epoch:
            return None
        self.votes[number] = signature
        if len(self.votes) < self.world.quorum:
            return []
        base, after, changes = self.proposed
        votes = sorted(self.votes.items())
        text = u8(7) + u64(epoch) + base + after.root + u8(len(changes)) + b"".join(change.text for change in changes)
        text += u8(len(votes)) + b"".join(u16(log) + counted(vote) for log, vote in votes)
        self.end(votes)
        return [("Decision", LOGS, text, (epoch, base, after.root, votes))]

    def Decision(self, epoch, base, root, votes):
        for log, signature in votes:
            self.verify_of((LOG, log), of_epoch(4, log, epoch, base, root), signature)
        assert epoch == self.epoch and root == self.proposed[1].root
        self.end(votes)
        return []

    def end(self, votes):
        base, after, changes = self.proposed
        self.newest, self.table = (self.epoch, base, votes), after
        self.queue = [change for change in self.queue if change not in changes]
        self.ended = f"{word(self.party)} ended {self.epoch} decided {after.root.hex()}"
        self.epoch, self.votes = self.epoch + 1, {}

    def ConfirmAsk(self, client, name, first, second):
        self.know(name)
        told = Confirmed(client, name, first, second, self)
        if self.turn == told.epoch:
            vote = of_epoch(4, self.party[1], told.epoch, told.base, told.root)
            signed = self.key.public, vote, dict(told.votes)[self.party[1]][4:]
            self.needs["above", "own votes"] += needed_to_sign(*signed)
            self.needs["above", "lanes of signatures"] += dropped_to_sign(*signed)
        return [("LogConfirmed", (AUTHORITY, first), u8(10) + told.fields, (told,))]


class Owner(Signer):
    """It takes Endorsed alone."""

    def __init__(self, *words):
        super().__init__(*words)
        self.drafts = {}  # of a digest: the endorsements and the handover

    def begin(self, certificate, asks):
        self.needs["certificates"] += certificate.cost
        self.drafts[certificate.digest] = ({}, None)
        text = u8(1) + u16(self.party[1]) + counted(certificate.text)
        return [("EndorseAsk", (AUTHORITY, number), text, (self.party[1], certificate)) for number in asks]

    def take(self, kind, fields):
        number, certificate, signature = fields
        self.verify_of((AUTHORITY, number), endorse(number, certificate.digest), signature)
        self.drafts[certificate.digest][0][number] = signature
        return []

    def submit(self, certificate):
        endorsements, given = self.drafts[certificate.digest]
        change = change_of(certificate, sorted(endorsements.items()), given)
        return [("Submit", LOGS, u8(3) + change.text, (change,))]


# The script


class World:
    """Plays a script of honest parties: a method for each word that a line begins with. `lines` is what is printed."""

    def __init__(self):
        self.secret, self.types, self.quorum = bytes(32), (5, 3), 0
        self.parties, self.drafts, self.pool, self.arrived = {}, [], [], 0
        self.lines, self.needs, self.judged = [], Needs(), set()

    @property
    def printed(self):
        return "".join(line + "\n" for line in self.lines).encode()

    def say(self, *words):
        self.lines.append(" ".join(map(str, words)))

    def play(self, script):
        for line in script.splitlines():
            if line and not line.startswith("#"):
                first, *words = line.split(" ")
                getattr(self, first)(*words)
        return self

    def make_parties(self, role, count, kind):
        for number in range(count):
            self.parties[role, number] = kind(self, (role, number), *self.types)

    def keys(self, lms, ots):
        self.types = int(lms), int(ots)

    def logs(self, count, quorum):
        self.quorum = int(quorum)
        self.make_parties(LOG, int(count), Log)

    def authorities(self, count):
        self.make_parties(AUTHORITY, int(count), Authority)

    def owner(self, party):
        self.parties[party_of(party)] = Owner(self, party_of(party), 5, 3)

    def teach(self, authority, name, owner):
        self.parties[party_of(authority)].taught.add((name.encode(), party_of(owner)))
        self.say(authority, "taught")

    def send(self, sender, messages):
        for kind, to, text, fields in messages:
            self.pool.append((kind, sender, to, fields))
            self.needs["printed"] += blocks(len(text))
            ends = "from", word(sender), "to", word(to)
            self.say("message", len(self.pool), kind, *ends, len(text), sha256(text).hex())

    def tell(self, party, what, messages):
        """What a step did: None is a ballot that comes too late."""
        node = self.parties[party]
        if messages is None:
            self.say(word(party), what, "refused L5", node.epoch)
            return
        self.say(word(party), what, "ok")
        if getattr(node, "ended", None):
            self.say(node.ended)
            node.ended = None
        self.send(party, messages)

    def draft(self, owner, certificate, asks):
        self.drafts.append((owner, certificate))
        self.say("draft", len(self.drafts), certificate.digest.hex())
        self.send(owner.party, owner.begin(certificate, numbers(asks)))

    def register(self, party, name, *words):
        owner = self.parties[party_of(party)]
        self.draft(owner, Certificate(name.encode(), 0, bytes(32), owner, words[:5]), words[5])

    def update(self, party, number, *words):
        owner, (_, old) = self.parties[party_of(party)], self.drafts[int(number) - 1]
        self.draft(owner, Certificate(old.name, old.serial + 1, old.digest, owner, words[:5]), words[5])

    def handover(self, party, number):
        signer, (owner, certificate) = self.parties[party_of(party)], self.drafts[int(number) - 1]
        endorsements, _ = owner.drafts[certificate.digest]
        owner.drafts[certificate.digest] = endorsements, signer.sign(handover(certificate.digest))
        self.say(party, "handover", number, "ok")

    def submit(self, number):
        owner, certificate = self.drafts[int(number) - 1]
        self.tell(owner.party, f"submit {number}", owner.submit(certificate))

    def propose(self, party):
        self.tell(party_of(party), "propose", self.parties[party_of(party)].propose())

    def ask(self, log, name, first, second, client):
        first, second = party_of(first)[1], party_of(second)[1]
        fields = party_of(client)[1], name.encode(), first, second
        text = u8(9) + u16(fields[0]) + u8(len(name)) + fields[1] + u16(first) + u16(second)
        self.send(party_of(client), [("ConfirmAsk", party_of(log), text, fields)])

    def flush(self):
        """All messages that have not arrived do, those of logs at each log but the sender."""
        while self.arrived < len(self.pool):
            kind, sender, to, fields = self.pool[self.arrived]
            self.arrived += 1
            logs = [party for party in sorted(self.parties) if party[0] == LOG and party != sender]
            for party in logs if to == LOGS else [to] if to[0] != CLIENT else []:
                self.tell(party, f"take {self.arrived}", self.parties[party].take(kind, fields))

    def judge(self, which, name, now, age):
        """Of the newest message to a client: its three signatures, and the path."""
        number = max(n for n, (_, _, to, _) in enumerate(self.pool, 1) if to != LOGS and to[0] == CLIENT)
        told, first, second = self.pool[number - 1][3]
        assert which == "last" and told.name == name.encode() and 0 <= int(now) - told.epoch <= int(age)
        for party, signature in (((LOG, told.log), told.signature), ((AUTHORITY, told.first), first),
                                 ((AUTHORITY, told.second), second)):
            judge(self.needs, CLIENT, self.judged, self.parties[party].key.public, told.statement(party), signature[4:])
        told.path_judged(self.needs)
        found = (f"accepted {name} serial {told.certificate.serial}" if told.certificate else f"absent {name}")
        self.say("judge", number, found, "epoch", told.epoch, "root", told.root.hex(),
                 *(["certificate", told.certificate.digest.hex()] if told.certificate else []))


def summary(script, world):
    """The line of `make <n> run`, whose digest of all that is printed is counted too."""
    lines = script.splitlines()
    said = [line.split(" ")[2] for line in world.lines if line.startswith("judge ")]
    world.needs["printed"] += blocks(len(world.printed))
    domains = sum(line.startswith("owner ") for line in lines)
    epochs = sum(line.startswith("propose ") for line in lines)
    return (f"domains {domains} messages {len(world.pool)} epochs {epochs} accepted {said.count('accepted')} "
            f"absent {said.count('absent')} refused 0 output {sha256(world.printed).hex()}\n").encode()
