"""A directory of logs and authorities, and domains, all of whose keys are here: what tools/handshake-test shows to clients. It makes
confirmations, staples, links and RollNotes by docs/FORMATS.md alone, of honest parties and of dishonest ones, since each of them signs
whatever it is asked to. A key has its height and its types, and only some of its leaves: the other nodes of its tree are drawn."""
import hashlib
import hmac

LOG, AUTHORITY = 1, 2
OTS = {1: (1, 265, 7), 2: (2, 133, 6), 3: (4, 67, 4), 4: (8, 34, 0)}
HEIGHTS = {5: 5, 6: 10, 7: 15, 8: 20, 9: 25}
# How many leaves from the first on a key has, beside its last one.
LEAVES = 8


def digest(*parts):
    return hashlib.sha256(b"".join(parts)).digest()


def number(width, value):
    return value.to_bytes(width, "big")


def counted(width, data):
    return number(width, len(data)) + data


def drawn(seed, *what):
    """32 bytes that are drawn of a seed for this."""
    return hmac.new(seed, "/".join(map(str, what)).encode(), "sha256").digest()


class Key:
    """A key of LMS (RFC 8554) with SHA-256 and n = m = 32."""

    def __init__(self, seed, lms, ots):
        self.seed, self.lms, self.ots, self.height, self.used = seed, lms, ots, HEIGHTS[lms], 0
        self.last = 2 ** self.height - 1
        self.ident = drawn(seed, "ident")[:16]
        self.nodes = {}
        for leaf in [*range(LEAVES), self.last]:
            self.nodes[self.last + 1 + leaf] = digest(self.ident, number(4, self.last + 1 + leaf), b"\x82\x82", self.leaf_key(leaf))
        level = sorted(self.nodes)
        while level != [1]:
            level = sorted({node // 2 for node in level})
            for node in level:
                self.nodes[node] = digest(self.ident, number(4, node), b"\x83\x83", self.node(2 * node), self.node(2 * node + 1))
        self.public = number(4, lms) + number(4, ots) + self.ident + self.nodes[1]

    def node(self, node):
        return self.nodes.get(node) or drawn(self.seed, "node", node)

    def chain(self, leaf, at, first, end):
        prefix = self.ident + number(4, leaf) + number(2, at)
        value = drawn(self.seed, "chain", leaf, at) if first == 0 else None
        for step in range(first, end):
            value = hashlib.sha256(prefix + bytes([step]) + value).digest()
        return value

    def leaf_key(self, leaf):
        width, count, _ = OTS[self.ots]
        return digest(self.ident, number(4, leaf), b"\x80\x80", *(self.chain(leaf, at, 0, 2 ** width - 1) for at in range(count)))

    def digits(self, hashed):
        width, count, shift = OTS[self.ots]
        most = 2 ** width - 1

        def digit(data, at):
            return data[at * width // 8] >> (8 - width - at * width % 8) & most

        total = sum(most - digit(hashed, at) for at in range(256 // width))
        return [digit(hashed + number(2, total << shift & 0xFFFF), at) for at in range(count)]

    def sign(self, text, leaf=None):
        """A signature of a text, by the next leaf or by this one. Leaves sign again and again: these are keys for tests."""
        if leaf is None:
            leaf, self.used = self.used % LEAVES, self.used + 1
        salt = drawn(self.seed, "salt", leaf, text.hex())
        hashed = digest(self.ident, number(4, leaf), b"\x81\x81", salt, text)
        chains = b"".join(self.chain(leaf, at, 0, value) for at, value in enumerate(self.digits(hashed)))
        path, node = b"", self.last + 1 + leaf
        while node > 1:
            path, node = path + self.node(node ^ 1), node // 2
        return number(4, leaf) + number(4, self.ots) + salt + chains + number(4, self.lms) + path


class Party:
    """A log or an authority, with its keys from generation 0 on."""

    def __init__(self, role, at, seed, types):
        self.role, self.at, self.seed, self.types = role, at, seed, types
        self.keys = [self.key(0)]

    @property
    def word(self):
        return f"{'L' if self.role == LOG else 'A'}{self.at}"

    def key(self, generation):
        return Key(drawn(self.seed, self.role, self.at, generation), *self.types)

    def head(self, kind):
        return bytes([kind, self.role]) + number(2, self.at)

    def sign(self, text, generation=None):
        generation = len(self.keys) - 1 if generation is None else generation
        return number(4, generation) + self.keys[generation].sign(text)

    def roll(self, to=None):
        """Goes on to its next key: the RollNote. With `to`, it signs that other key instead, and does not go on."""
        generation = len(self.keys) - 1
        key = to or self.key(generation + 1)
        text = self.head(10) + number(4, generation) + key.public
        signature = number(4, generation) + self.keys[generation].sign(text, self.keys[generation].last)
        if to is None:
            self.keys.append(key)
        return bytes([13, self.role]) + number(2, self.at) + number(4, generation) + key.public + counted(2, signature)


class Council:
    """The logs and authorities of a directory."""

    def __init__(self, seed=b"council", logs=5, quorum=4, authorities=4, types=(5, 3)):
        self.quorum = quorum
        self.logs = [Party(LOG, at, seed, types) for at in range(logs)]
        self.authorities = [Party(AUTHORITY, at, seed, types) for at in range(authorities)]

    def directory(self):
        """The lines of a directory, with the keys of generation 0."""
        lines = [f"logs {len(self.logs)} {self.quorum}", *(f"key {party.keys[0].public.hex()}" for party in self.logs),
                 f"authorities {len(self.authorities)}", *(f"key {party.keys[0].public.hex()}" for party in self.authorities)]
        return "\n".join(lines) + "\n"


class Domain:
    """A name, with its keys and its certificates."""

    def __init__(self, council, name, seed=b"domain", types=(5, 3), keyed=True, steps=20):
        self.council, self.name, self.seed, self.types, self.keyed, self.steps = council, name.encode(), seed, types, keyed, steps
        self.keys, self.certificates, self.changes = [], [], []
        self.update()

    def policy(self):
        """Two of the authorities 0, 1 and 2, the domain's own key where it is keyed, and an age that no test comes to."""
        return bytes([1, 2, self.keyed]) + number(4, 1000) + number(8, 1 << 40) + bytes([3]) + b"".join(number(2, at) for at in range(3))

    def certificate(self, key):
        serial = len(self.certificates)
        previous = digest(b"\x10", self.certificates[-1]) if serial else bytes(32)
        return b"\x01" + counted(1, self.name) + number(8, serial) + previous + key.public + self.policy() + b"\0"

    def change(self, certificate, endorsers, handing):
        """A change, with the endorsements of these authorities, and with a handover by this key."""
        hashed = digest(b"\x10", certificate)
        signed = b"".join(number(2, party.at) + counted(2, party.sign(party.head(1) + hashed)) for party in endorsers)
        handover = b"\0" if handing is None else b"\x01" + counted(2, handing.sign(bytes([2, 3, 0, 0]) + hashed))
        return counted(2, certificate) + bytes([len(endorsers)]) + signed + handover

    def update(self):
        """Goes on to a new key and a certificate of it, as its policy asks."""
        key = Key(drawn(self.seed, self.name.hex(), len(self.keys)), *self.types)
        certificate = self.certificate(key)
        self.changes.append(self.change(certificate, self.council.authorities[:3], self.keys[-1] if self.keys else None))
        self.keys.append(key)
        self.certificates.append(certificate)

    def digest(self, serial=-1):
        return digest(b"\x10", self.certificates[serial])

    def links(self, serial):
        """The changes behind the certificate with a serial number."""
        return b"".join(self.changes[serial + 1:])

    def path(self, value):
        """Steps that are drawn, and the root to which they lead from the entry of the name."""
        name = digest(b"\x11", self.name)
        running, steps = digest(b"\x01", name, value), [drawn(self.seed, "step", at) for at in range(self.steps)]
        for at, step in enumerate(steps):
            depth = self.steps - 1 - at
            right = name[depth // 8] >> (7 - depth % 8) & 1
            running = digest(b"\x02", step, running) if right else digest(b"\x02", running, step)
        return steps, running

    def confirmation(self, epoch, serial=-1, certificate=None, parties=None):
        """A confirmation of a certificate of the domain, or of another one, by a log and two authorities."""
        certificate = certificate or self.certificates[serial]
        hashed = digest(b"\x10", certificate)
        at = int.from_bytes(certificate[2 + len(self.name):10 + len(self.name)], "big")
        steps, root = self.path(digest(b"\x03", number(8, at), hashed))
        text = number(8, epoch) + counted(1, self.name) + hashed + root
        head = b"\x0c\x01\0\0" + number(8, epoch) + counted(1, self.name) + root + counted(2, certificate)
        return head + self.signed(steps, 6, text, parties)

    def absence(self, epoch, parties=None):
        """A confirmation that the name has no certificate: its path ends in nothing."""
        name, running = digest(b"\x11", self.name), digest(b"\0")
        steps = [drawn(self.seed, "absent", at) for at in range(3)]
        for at, step in enumerate(steps):
            depth = 2 - at
            right = name[depth // 8] >> (7 - depth % 8) & 1
            running = digest(b"\x02", step, running) if right else digest(b"\x02", running, step)
        text = number(8, epoch) + counted(1, self.name) + running
        return b"\x0c\x02\0\0" + number(8, epoch) + counted(1, self.name) + running + b"\0" + self.signed(steps, 7, text, parties)

    def signed(self, steps, kind, text, parties):
        parties = parties or [self.council.logs[0], *self.council.authorities[:2]]
        path = number(2, len(steps)) + b"".join(steps)
        return path + b"".join(number(2, party.at) + counted(2, party.sign(party.head(kind) + text)) for party in parties)

    def staple(self, epoch, channel, serial=-1, certificate=None, key=None):
        """The answer for an epoch and a TLS key, by the key of a certificate."""
        hashed = digest(b"\x10", certificate or self.certificates[serial])
        challenge = digest(b"\x20", number(8, epoch), channel)
        return (key or self.keys[serial]).sign(b"\x08\x03\0\0" + counted(1, self.name) + hashed + challenge)

    def proof(self, epoch, channel, serial=-1):
        """What a site has for a TLS key: proof/<digest> of its folder."""
        return counted(4, self.confirmation(epoch, serial)) + counted(4, self.staple(epoch, channel, serial))

    def forged(self, epoch, channel, key, parties, endorsers=()):
        """A proof for another key than the domain's, in a certificate behind its newest one that a log and two authorities confirm
        though the domain's policy does not take it; and that certificate's change."""
        certificate = self.certificate(key)
        proof = (counted(4, self.confirmation(epoch, certificate=certificate, parties=parties))
                 + counted(4, self.staple(epoch, channel, certificate=certificate, key=key)))
        return proof, self.change(certificate, endorsers, None)


def answer(proof, links=b"", notes=()):
    """What a server shows in the handshake (docs/TLS.md)."""
    return b"\x01" + proof + counted(4, links) + bytes([len(notes)]) + b"".join(counted(2, note) for note in notes)
