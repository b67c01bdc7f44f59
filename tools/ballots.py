"""Ballots that the log of `arpki_journal` takes, and the bytes of its journal, by RFC 8554 and docs/FORMATS.md. Nothing here asks
the program.

The log is log 1 of three under the secret of 32 zero bytes, and each party of its directory has its key. So the ballots of log 0
are signed by this key: all of them at leaf 0, as a dishonest log may."""
import struct

from hash_needs import CHAINS, HEIGHTS, WIDTHS, digits, sha256

LMS, OTS = 5, 3
LOG, VOTER = 1, 0
MARK = b"ARPKILG1"
TAKE = b"\x01"  # the kind of an input that is a message


class Key:
    """A key of LMS, with the nodes of its tree, which are made unless they are given."""

    def __init__(self, seed, lms=LMS, ots=OTS, nodes=None):
        self.seed, self.lms, self.ots = seed, lms, ots
        self.name = sha256(b"\x49", seed)[:16]
        self.leaves = 1 << HEIGHTS[lms]
        self.nodes = nodes or self.made()

    def made(self):
        """The nodes, by their numbers."""
        nodes = [b""] * self.leaves + [self.leaf(q) for q in range(self.leaves)]
        for at in range(self.leaves - 1, 0, -1):
            nodes[at] = sha256(self.name, struct.pack(">I", at), b"\x83\x83", *nodes[2 * at:2 * at + 2])
        return nodes

    def chain(self, q, number, steps):
        """The value behind so many steps of a chain, from its secret element on."""
        head = self.name + struct.pack(">IH", q, number)
        value = sha256(head, b"\xff", self.seed)
        for step in range(steps):
            value = sha256(head, bytes([step]), value)
        return value

    def leaf(self, q):
        """The node of a leaf."""
        last = (1 << WIDTHS[self.ots]) - 1
        ends = b"".join(self.chain(q, number, last) for number in range(CHAINS[self.ots]))
        public = sha256(self.name, struct.pack(">I", q), b"\x80\x80", ends)
        return sha256(self.name, struct.pack(">I", self.leaves + q), b"\x82\x82", public)

    def sign(self, q, text):
        """The signature of a text, whose randomizer is all zeros."""
        randomizer = bytes(32)
        steps = digits(self.ots, sha256(self.name, struct.pack(">I", q), b"\x81\x81", randomizer, text))
        elements = [self.chain(q, number, count) for number, count in enumerate(steps)]
        at, path = self.leaves + q, []
        while at > 1:
            path.append(self.nodes[at ^ 1])
            at //= 2
        return b"".join([struct.pack(">II", q, self.ots), randomizer, *elements, struct.pack(">I", self.lms), *path])

    def public(self):
        """The public key."""
        return struct.pack(">II", self.lms, self.ots) + self.name + self.nodes[1]


def party_key(secret, role, number, lms=LMS, ots=OTS, nodes=None):
    """The first key of a party (docs/PROTOCOL.md): its role is 1 for a log, 2 for an authority and 3 for an owner."""
    return Key(sha256(b"\x53", secret, bytes([role]), struct.pack(">H", number)), lms, ots, nodes)


def log_key():
    """The key of the log, and of each party of its directory."""
    return party_key(bytes(32), 1, LOG)


def ballot(key, number, epoch=1):
    """A ballot of log 0 for a root with this number."""
    vote = struct.pack(">HQ", VOTER, epoch) + bytes(32) + number.to_bytes(32, "big")
    signature = bytes(4) + key.sign(0, b"\x04\x01" + vote)
    return b"\x05" + vote + struct.pack(">H", len(signature)) + signature


def journal(messages):
    """A journal of these messages: its mark, a record of each, and a closed gate."""
    return b"".join([MARK, *(b"\x01" + struct.pack(">I", 1 + len(message)) + TAKE + message for message in messages), b"\x00"])


def messages_in(file):
    """The messages of a journal, up to the first gate that is not open."""
    if len(file) <= 9:
        return []
    if file[:8] != MARK:
        raise ValueError("the file is no journal")
    at, found = 8, []
    while file[at] == 1:
        length = struct.unpack_from(">I", file, at + 1)[0]
        text, at = file[at + 5:at + 5 + length], at + 5 + length
        if text[:1] != TAKE or at >= len(file):
            raise ValueError(f"the record before byte {at} is broken")
        found.append(text[1:])
    return found
