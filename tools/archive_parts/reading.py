"""What an archive reads of messages (docs/FORMATS.md, "Messages"): which statements are signed in them, which changes they have, and
what a certificate says. No signature is looked at here."""
import collections
import hashlib
import re

ENDORSE_ASK, ENDORSED, SUBMIT, PROPOSE, BALLOT, STATUS_NOTE, DECISION, SKIP_NOTE = range(1, 9)
CONFIRM_ASK, LOG_CONFIRMED, HALF_CONFIRMED, CONFIRMATION, ROLL_NOTE = range(9, 14)
KINDS = {1: "EndorseAsk", 2: "Endorsed", 3: "Submit", 4: "Propose", 5: "Ballot", 6: "StatusNote", 7: "Decision", 8: "SkipNote",
         9: "ConfirmAsk", 10: "LogConfirmed", 11: "HalfConfirmed", 12: "Confirmation", 13: "RollNote"}
ENDORSE, HANDOVER, PROPOSED, VOTE, CONFIRM, CONFIRM_ABSENT, STATUS, ROLL, OBJECT = 1, 2, 3, 4, 6, 7, 9, 10, 11
STATEMENTS = {1: "Endorse", 3: "Propose", 4: "Vote", 6: "Confirm", 7: "ConfirmAbsent", 9: "Status", 10: "Roll"}
LETTERS = {1: "L", 2: "A"}
# An epoch that an archive takes for one: no network comes further, and both databases have such numbers.
MOST_EPOCH = 1 << 62
LABEL = r"[a-z0-9]([a-z0-9-]{0,61}[a-z0-9])?"
NAME = re.compile(rf"{LABEL}(\.{LABEL})*")
MOST_NAME = 253

# A statement: of which party, of which kind and epoch (or None), its text, and the signature behind its generation.
Statement = collections.namedtuple("Statement", "party kind epoch generation leaf text signature")
# A change: its certificate, who endorsed it, whether it has a handover or is an objection, with whose signature, and its bytes.
Change = collections.namedtuple("Change", "certificate endorsements flag signature data")
Policy = collections.namedtuple("Policy", "threshold keyed age until trusted wait")
Certificate = collections.namedtuple("Certificate", "name serial previous key policy revoked digest data")
# A message: its kind, its epoch or generation, whose it is, its statements, changes and root, what it confirms, and its bytes.
Message = collections.namedtuple("Message", "kind epoch party statements changes root name certificate data")
OBJECTION, HANDED = 2, 1


class NoMessage(Exception):
    """The bytes are no message."""


def is_name(text):
    """Whether a text is a name (docs/FORMATS.md, "Names")."""
    return len(text) <= MOST_NAME and NAME.fullmatch(text) is not None


class Fields:
    """Bytes that are read from the front."""

    def __init__(self, data, place=0):
        self.data, self.place = data, place

    def take(self, count):
        if self.place + count > len(self.data):
            raise NoMessage
        self.place += count
        return self.data[self.place - count:self.place]

    def number(self, width):
        return int.from_bytes(self.take(width), "big")

    def counted(self, width=2):
        return self.take(self.number(width))

    def name(self):
        """A name, and its bytes with their length in front."""
        data = self.counted(1)
        text = data.decode("ascii", "replace")
        if not is_name(text):
            raise NoMessage
        return text, bytes([len(data)]) + data

    def epoch(self):
        """An epoch, as a number and as bytes."""
        data = self.take(8)
        if not 1 <= int.from_bytes(data, "big") < MOST_EPOCH:
            raise NoMessage
        return int.from_bytes(data, "big"), data

    def end(self):
        if self.place != len(self.data):
            raise NoMessage


def sha256(*parts):
    return hashlib.sha256(b"".join(parts)).digest()


def digest_of(certificate):
    return sha256(b"\x10", certificate)


def signed(role, number, kind, epoch, fields, signature):
    """A statement of a log or an authority."""
    if len(signature) < 8:
        raise NoMessage
    return Statement(f"{LETTERS[role]}{number}", kind, epoch, int.from_bytes(signature[:4], "big"), int.from_bytes(signature[4:8], "big"),
                     bytes([kind, role]) + number.to_bytes(2, "big") + fields, signature)


def read_certificate(data):
    at = Fields(data)
    if at.number(1) != 1:
        raise NoMessage
    name, _ = at.name()
    serial, previous, key = at.number(8), at.take(32), at.take(56)
    version, threshold, keyed, age, until = at.number(1), at.number(1), at.number(1), at.number(4), at.number(8)
    trusted = [at.number(2) for _ in range(at.number(1))]
    wait = at.number(2) if version == 2 else None
    revoked = at.number(1)
    at.end()
    return Certificate(name, serial, previous, key, Policy(threshold, bool(keyed), age, until, trusted, wait), bool(revoked),
                       digest_of(data), data)


def read_change(at):
    place = at.place
    certificate = read_certificate(at.counted())
    endorsements = [signed(2, at.number(2), ENDORSE, None, certificate.digest, at.counted()) for _ in range(at.number(1))]
    flag = at.number(1)
    signature = at.counted() if flag else b""
    if flag > OBJECTION:
        raise NoMessage
    return Change(certificate, endorsements, flag, signature, at.data[place:at.place])


def changes_in(data):
    """Changes that stand one behind the other."""
    at, found = Fields(data), []
    while at.place < len(data):
        found.append(read_change(at))
    return found


def read_changes(at):
    changes = [read_change(at) for _ in range(at.number(1))]
    return changes, [one for change in changes for one in change.endorsements]


def read_status(at, log, epoch, epoch_data):
    flag = at.take(1)
    value = at.take(64) if flag == b"\1" else b""
    return signed(1, log, STATUS, epoch, epoch_data + flag + value, at.counted())


def endorsed(at, data):
    at.take(2)
    number, digest = at.number(2), at.take(32)
    statement = signed(2, number, ENDORSE, None, digest, at.counted())
    return Message(ENDORSED, None, statement.party, [statement], [], None, None, digest, data)


def submit(at, data):
    change = read_change(at)
    return Message(SUBMIT, None, None, change.endorsements, [change], None, change.certificate.name, change.certificate.digest, data)


def propose(at, data):
    log = at.number(2)
    epoch, epoch_data = at.epoch()
    value = at.take(64)
    changes, inside = read_changes(at)
    statement = signed(1, log, PROPOSED, epoch, epoch_data + value, at.counted())
    return Message(PROPOSE, epoch, statement.party, [statement, *inside], changes, value[32:], None, None, data)


def ballot(at, data):
    log = at.number(2)
    epoch, epoch_data = at.epoch()
    value = at.take(64)
    statement = signed(1, log, VOTE, epoch, epoch_data + value, at.counted())
    return Message(BALLOT, epoch, statement.party, [statement], [], value[32:], None, None, data)


def status_note(at, data):
    log = at.number(2)
    epoch, epoch_data = at.epoch()
    statement = read_status(at, log, epoch, epoch_data)
    return Message(STATUS_NOTE, epoch, statement.party, [statement], [], None, None, None, data)


def decision(at, data):
    epoch, epoch_data = at.epoch()
    value = at.take(64)
    changes, inside = read_changes(at)
    votes = [signed(1, at.number(2), VOTE, epoch, epoch_data + value, at.counted()) for _ in range(at.number(1))]
    return Message(DECISION, epoch, None, votes + inside, changes, value[32:], None, None, data)


def skip_note(at, data):
    epoch, epoch_data = at.epoch()
    statuses = [read_status(at, at.number(2), epoch, epoch_data) for _ in range(at.number(1))]
    return Message(SKIP_NOTE, epoch, None, statuses, [], None, None, None, data)


def confirmation(at, data):
    form = at.number(1)
    at.take(2)
    epoch, epoch_data = at.epoch()
    name, name_data = at.name()
    root = at.take(32)
    digest = b""
    if form == 1:
        digest = read_certificate(at.counted()).digest
    elif form != 2 or at.number(1) and not at.take(64):
        raise NoMessage
    for _ in range(at.number(2)):
        at.take(32)
    said = epoch_data + name_data + digest + root
    statements = [signed(role, at.number(2), CONFIRM if digest else CONFIRM_ABSENT, epoch, said, at.counted()) for role in (1, 2, 2)]
    return Message(CONFIRMATION, epoch, None, statements, [], root, name, digest or None, data)


def roll_note(at, data):
    role, number = at.number(1), at.number(2)
    if role not in LETTERS:
        raise NoMessage
    generation = at.number(4)
    key = at.take(56)
    statement = signed(role, number, ROLL, None, generation.to_bytes(4, "big") + key, at.counted())
    if generation >= 1 << 16 or statement.generation != generation:
        raise NoMessage
    return Message(ROLL_NOTE, generation, statement.party, [statement], [], None, None, key, data)


READERS = {ENDORSED: endorsed, SUBMIT: submit, PROPOSE: propose, BALLOT: ballot, STATUS_NOTE: status_note, DECISION: decision,
           SKIP_NOTE: skip_note, CONFIRMATION: confirmation, ROLL_NOTE: roll_note}


def read(data):
    """The message that bytes are, of the kinds that an archive keeps; None where they are none."""
    try:
        at = Fields(data)
        kind = at.number(1)
        if kind not in READERS:
            return None
        message = READERS[kind](at, data)
        at.end()
        return message
    except NoMessage:
        return None
