"""What drivers (tools/epochs) and gates (tools/party-gate) read of messages, and the messages that a driver puts together.
docs/FORMATS.md has the bytes ("Messages", "Notes between drivers"). No signature is verified here: a party does that."""
import collections
import hashlib
import struct

PROPOSE, BALLOT, STATUS, DECISION, SKIP, ASK, CONFIRMED, HALF, CONFIRMATION, ROLL = 4, 5, 6, 7, 8, 9, 10, 11, 12, 13
ENDORSED, SUBMIT = 2, 3
# The first byte of a note between drivers, which is the kind of no message.
NOTE = 0xF0
# An epoch that no log comes to.
FAR = 1 << 63
LETTERS = {1: "L", 2: "A"}
ROLES = {"L": 1, "A": 2, "D": 3, "C": 4}
# Who tells notes, by the number of the role.
TELLERS = {role: letter for letter, role in ROLES.items()}


class NoMessage(Exception):
    """The bytes are no such message."""


class Fields:
    """Bytes that are read from the front."""

    def __init__(self, data, place=0):
        self.data, self.place = data, place

    def take(self, count):
        if self.place + count > len(self.data):
            raise NoMessage
        self.place += count
        return self.data[self.place - count:self.place]

    def number(self, width):
        return int.from_bytes(self.take(width), "big")

    def counted(self, width=2):
        return self.take(self.number(width))

    def since(self, place):
        """What was read from a place on."""
        return self.data[place:self.place]

    def end(self):
        if self.place != len(self.data):
            raise NoMessage


Message = collections.namedtuple("Message", "kind log epoch value changes signature names data")
Message.__new__.__defaults__ = (None,) * 7
Change = collections.namedtuple("Change", "certificate objection")


def name_in(certificate):
    """The name of a certificate."""
    return Fields(certificate, 1).counted(1).decode("ascii", "replace")


def read_change(at):
    """A change: its certificate, and whether it is an objection, with whose signature."""
    certificate = at.counted()
    for _ in range(at.number(1)):
        at.take(2)
        at.counted()
    flag = at.number(1)
    signature = at.counted() if flag else b""
    return Change(certificate, signature if flag == 2 else b"")


def read_changes(at):
    """The bytes of changes, and the names in them."""
    place = at.place
    names = [name_in(read_change(at).certificate) for _ in range(at.number(1))]
    return at.since(place), names


def read_value(at):
    """What a log voted for: its base and root behind the flag 1, or None behind 0."""
    return at.take(64) if at.number(1) else None


def read_votes(at):
    return [(at.number(2), at.counted()) for _ in range(at.number(1))]


def proposal(at, data):
    log, epoch, value = at.number(2), at.number(8), at.take(64)
    changes, names = read_changes(at)
    return Message(PROPOSE, log, epoch, value, changes, at.counted(), names, data)


def ballot(at, data):
    return Message(BALLOT, at.number(2), at.number(8), at.take(64), None, at.counted(), (), data)


def status(at, data):
    return Message(STATUS, at.number(2), at.number(8), read_value(at), None, at.counted(), (), data)


def decision(at, data):
    epoch, value = at.number(8), at.take(64)
    changes, names = read_changes(at)
    read_votes(at)
    return Message(DECISION, None, epoch, value, changes, None, names, data)


def skip(at, data):
    epoch = at.number(8)
    for _ in range(at.number(1)):
        at.take(2)
        read_value(at)
        at.counted()
    return Message(SKIP, None, epoch, None, None, None, (), data)


def question(at, data):
    at.take(2)
    name = at.counted(1).decode("ascii", "replace")
    at.take(4)
    return Message(ASK, None, None, None, None, None, (name,), data)


def read_body(at, form):
    """What a confirmation says of a name, and its path."""
    if form == 1:
        at.counted()
    elif at.number(1):
        at.take(64)
    for _ in range(at.number(2)):
        at.take(32)


def confirming(at, data):
    """A LogConfirmed or a HalfConfirmed: its signature is the newest in it."""
    form = at.number(1)
    at.take(2)
    epoch, name = at.number(8), at.counted(1).decode("ascii", "replace")
    at.take(64)
    read_body(at, form)
    read_votes(at)
    log, signature = at.number(2), at.counted()
    at.take(4)
    if data[0] == HALF:
        signature = at.counted()
    return Message(data[0], log, epoch, None, None, signature, (name,), data)


def confirmation(at, data):
    form = at.number(1)
    at.take(2)
    epoch, name = at.number(8), at.counted(1).decode("ascii", "replace")
    at.take(32)
    read_body(at, form)
    signatures = [(at.number(2), at.counted()) for _ in range(3)]
    return Message(CONFIRMATION, signatures[0][0], epoch, None, None, signatures[2][1], (name,), data)


def roll(at, data):
    """A RollNote: its party is `log`, as a word, and its generation `epoch`."""
    role, number, generation = at.number(1), at.number(2), at.number(4)
    if role not in LETTERS:
        raise NoMessage
    at.take(56)
    return Message(ROLL, f"{LETTERS[role]}{number}", generation, None, None, at.counted(), (), data)


def endorsed(at, data):
    at.take(2)
    number = at.number(2)
    at.take(32)
    return Message(ENDORSED, number, None, None, None, at.counted(), (), data)


def submitted(at, data):
    """A Submit: the signature of an objection, where it is one."""
    change = read_change(at)
    return Message(SUBMIT, None, None, None, None, change.objection or None, (name_in(change.certificate),), data)


READERS = {ENDORSED: endorsed, SUBMIT: submitted, PROPOSE: proposal, BALLOT: ballot, STATUS: status, DECISION: decision,
           SKIP: skip, ASK: question, CONFIRMED: confirming, HALF: confirming, CONFIRMATION: confirmation, ROLL: roll}


def read(line):
    """The message that hex spells, of the kinds that are looked at; None where it is none."""
    try:
        data = bytes.fromhex(line)
        at = Fields(data)
        reader = READERS.get(at.number(1))
        message = reader and reader(at, data)
        at.end() if message else None
        return message
    except (NoMessage, ValueError):
        return None


def leaf_of(message, role):
    """The generation and the leaf of the newest signature in a message; None where it has none that is looked at. An owner's
    signature has no generation."""
    signature = message.signature
    if not signature or len(signature) < 8:
        return None
    if role == "owner":
        return 0, int.from_bytes(signature[:4], "big")
    return int.from_bytes(signature[:4], "big"), int.from_bytes(signature[4:8], "big")


# ---- what a driver puts together


def u16(number):
    return number.to_bytes(2, "big")


def u64(number):
    return number.to_bytes(8, "big")


def listed(entries):
    return bytes([len(entries)]) + b"".join(entries)


def counted(data):
    return u16(len(data)) + data


def decision_of(epoch, value, changes, votes):
    """A Decision of these changes, by the signatures of logs."""
    return bytes([DECISION]) + u64(epoch) + value + changes + listed([u16(log) + counted(votes[log]) for log in sorted(votes)])


def skip_of(epoch, statuses):
    """A SkipNote of what logs stated: of each the value or None, and the signature."""
    entries = [u16(log) + (b"\1" + value if value else b"\0") + counted(signature)
               for log, (value, signature) in sorted(statuses.items())]
    return bytes([SKIP]) + u64(epoch) + listed(entries)


def probe():
    """A SkipNote that tells nothing, of an epoch that no log comes to: what is answered is the log's epoch. Nobody signs it, and
    nothing is kept of it."""
    return skip_of(FAR, {})


# ---- notes between drivers

# What a driver says of its party: who it is, whether it asks for what it lacks, the epoch that is open at its log (0 for others),
# for how many milliseconds it is, how many proposals of it the driver has, whether its log has stated, the digest of how the
# epoch before ended (32 zero bytes where it does not know), and how many keys it knows to follow the first of each log and authority.
# A site tells such a note too, as a client: its epoch is the first of which it asks how it ended, 0 for none.
Note = collections.namedtuple("Note", "party asks epoch open_for proposals stated ended logs authorities")


def numbers(at):
    """A list of numbers of two bytes, behind its count."""
    count = at.number(1)
    return list(struct.unpack(f">{count}H", at.take(2 * count)))


def note_of(note):
    role, number = ROLES[note.party[0]], int(note.party[1:])
    flags = note.asks + 2 * note.stated + 4 * min(note.proposals, 3)
    return (bytes([NOTE, flags, role]) + u16(number) + u64(note.epoch) + min(note.open_for, (1 << 32) - 1).to_bytes(4, "big")
            + note.ended + listed([u16(generation) for generation in note.logs])
            + listed([u16(generation) for generation in note.authorities]))


def read_note(line):
    """The note that hex spells; None where it is none."""
    try:
        at = Fields(bytes.fromhex(line))
        kind, flags, role, number = at.number(1), at.number(1), at.number(1), at.number(2)
        party = TELLERS[role] + str(number)
        epoch, open_for, ended = at.number(8), at.number(4), at.take(32)
        logs, authorities = (numbers(at) for _ in range(2))
        at.end()
        if kind != NOTE or flags > 15:
            return None
        return Note(party, bool(flags & 1), epoch, open_for, flags >> 2, bool(flags & 2), ended, logs, authorities)
    except (NoMessage, ValueError, KeyError):
        return None


def digest_of_ending(message):
    """What drivers compare of how an epoch ended: its epoch, and how."""
    how = b"\1" + message.value[32:] if message.kind == DECISION else b"\0"
    return hashlib.sha256(u64(message.epoch) + how).digest()
