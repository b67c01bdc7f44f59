"""The fields of a message of the protocol, read from its bytes as docs/FORMATS.md says ("Messages").

What is read is for people to look at: a list of (what, value), where a value is a text or again such a list. Signatures are
told by who signs which statement, by which key and at which leaf, and are not verified.
"""
import hashlib

ROLES = {1: "L", 2: "A"}
# What stands in the place of a certificate's body in a confirmation of absence.
NOTHING, ANOTHER = 0, 1


class NoMessage(Exception):
    """The bytes are no message; the text says where and why."""


class Reader:
    """Reads fields from the front."""

    def __init__(self, data):
        self.data, self.at = data, 0

    def take(self, count):
        if self.at + count > len(self.data):
            raise NoMessage(f"the bytes end at {len(self.data)}, inside the field at {self.at}")
        self.at += count
        return self.data[self.at - count:self.at]

    def number(self, width):
        return int.from_bytes(self.take(width), "big")

    def counted(self):
        return self.take(self.number(2))

    def digest(self):
        return self.take(32).hex()

    def name(self):
        return self.take(self.number(1)).decode("ascii", "replace")

    def log(self):
        return f"L{self.number(2)}"

    def authority(self):
        return f"A{self.number(2)}"

    def ends(self):
        if self.at < len(self.data):
            raise NoMessage(f"{len(self.data) - self.at} bytes are left over at {self.at}")


def key_text(key):
    lms, ots = (int.from_bytes(key[at:at + 4], "big") for at in (0, 4))
    return f"types {lms} {ots}, I {key[8:24].hex()}, root {key[24:].hex()}; its text has the digest {sha256(key)}"


def sha256(data):
    return hashlib.sha256(data).hexdigest()


def signature(data, signer, statement):
    """(what, value) of a signature; that of a log or an authority has its generation in front."""
    what, size = f"signature of {signer}", f"{len(data)} bytes"
    front = 0 if signer.startswith("the ") else 4
    if len(data) < front + 8:
        return what, f"{size}, which are too few to be one of {statement}"
    generation = f"generation {int.from_bytes(data[:4], 'big')}, " if front else ""
    leaf, ots = (int.from_bytes(data[front + at:front + at + 4], "big") for at in (0, 4))
    return what, f"of {statement}: {generation}leaf {leaf}, LM-OTS type {ots}, {size}"


def policy(reader):
    version, threshold, keyed = reader.number(1), reader.number(1), reader.number(1)
    age, until = reader.number(4), reader.number(8)
    trusted = ",".join(str(reader.number(2)) for _ in range(reader.number(1))) or "-"
    wait = f"/{reader.number(2)}" if version == 2 else ""
    return f"{threshold} {'keyed' if keyed else 'free'}{wait} {age} {until} {trusted}"


def certificate(data):
    reader = Reader(data)
    tag = reader.number(1)
    if tag != 1:
        raise NoMessage(f"a certificate begins with 1, and not with {tag}")
    fields = [("name", reader.name()), ("serial", str(reader.number(8))), ("previous", reader.digest()),
              ("subject key", key_text(reader.take(56))), ("policy, as in a script", policy(reader))]
    fields += [("revoked", "yes" if reader.number(1) else "no"), ("certificate's digest", sha256(b"\x10" + data))]
    reader.ends()
    return fields


def change(reader):
    fields = [("certificate", certificate(reader.counted()))]
    for _ in range(reader.number(1)):
        signer = reader.authority()
        fields.append(signature(reader.counted(), signer, "Endorse"))
    flag = reader.number(1)
    if flag:
        statement, who = ("Handover", "the old key") if flag == 1 else ("Object", "the old key")
        fields.append(signature(reader.counted(), who, statement))
    return fields


def changes(reader):
    count = reader.number(1)
    return [(f"change {index} of {count}", change(reader)) for index in range(count)]


def votes(reader):
    return [signed(reader, reader.log(), "Vote") for _ in range(reader.number(1))]


def signed(reader, signer, statement):
    return signature(reader.counted(), signer, statement)


def status(reader):
    if reader.number(1):
        return [("voted for the base", reader.digest()), ("voted for the root", reader.digest())]
    return [("voted", "for nothing, and will not")]


def path(reader):
    count = reader.number(2)
    reader.take(32 * count)
    return "path", f"{count} steps"


def body(reader, form):
    """The certificate, or what stands at the foot of the path where the name has none."""
    if form == 1:
        return [("certificate", certificate(reader.counted()))]
    foot = reader.number(1)
    if foot == NOTHING:
        return [("at the foot of the path", "nothing: the name has no certificate")]
    if foot != ANOTHER:
        raise NoMessage(f"at {reader.at - 1} stands {foot}, and not 0 or 1")
    return [("at the foot of the path", f"the entry of another key, {reader.digest()}, with the value {reader.digest()}: "
             "the name has no certificate")]


def endorse_ask(reader):
    return [("owner", f"D{reader.number(2)}"), ("certificate", certificate(reader.counted()))]


def endorsed(reader):
    owner, authority = f"D{reader.number(2)}", reader.authority()
    return [("owner", owner), ("authority", authority), ("certificate's digest", reader.digest()),
            signed(reader, authority, "Endorse")]


def proposed(reader, statement):
    fields = [("epoch", str(reader.number(8))), ("base", reader.digest()), ("root", reader.digest())]
    if statement != "Vote":
        fields += changes(reader)
    return fields


def propose(reader):
    log = reader.log()
    return [("log", log), *proposed(reader, "Propose"), signed(reader, log, "Propose")]


def ballot(reader):
    log = reader.log()
    return [("log", log), *proposed(reader, "Vote"), signed(reader, log, "Vote")]


def status_note(reader):
    log = reader.log()
    return [("log", log), ("epoch", str(reader.number(8))), *status(reader), signed(reader, log, "Status")]


def decision(reader):
    return [*proposed(reader, "Decision"), *votes(reader)]


def skip_note(reader):
    fields = [("epoch", str(reader.number(8)))]
    for _ in range(reader.number(1)):
        log = reader.log()
        fields.append((log, [*status(reader), signed(reader, log, "Status")]))
    return fields


def confirm_ask(reader):
    return [("client", f"C{reader.number(2)}"), ("name", reader.name()), ("first authority", reader.authority()),
            ("second authority", reader.authority())]


def confirming(reader, has_first=False):
    """LogConfirmed, or with the first authority's signature HalfConfirmed."""
    form = reader.number(1)
    fields = [("client", f"C{reader.number(2)}"), ("epoch", str(reader.number(8))), ("name", reader.name()),
              ("root", reader.digest()), ("base", reader.digest()), *body(reader, form), path(reader), *votes(reader)]
    statement = "Confirm" if form == 1 else "ConfirmAbsent"
    fields.append(signed(reader, reader.log(), statement))
    first, second = reader.authority(), reader.authority()
    fields += [("first authority", first), ("second authority", second)]
    return fields + ([signed(reader, first, statement)] if has_first else [])


def confirmation(reader):
    form = reader.number(1)
    fields = [("client", f"C{reader.number(2)}"), ("epoch", str(reader.number(8))), ("name", reader.name()),
              ("root", reader.digest()), *body(reader, form), path(reader)]
    statement = "Confirm" if form == 1 else "ConfirmAbsent"
    for signer in (reader.log, reader.authority, reader.authority):
        fields.append(signed(reader, signer(), statement))
    return fields


def roll_note(reader):
    role, number = reader.number(1), reader.number(2)
    party, generation = f"{ROLES.get(role, '?')}{number}", reader.number(4)
    return [("party", party), ("generation", str(generation)), ("next key", key_text(reader.take(56))),
            signed(reader, party, "Roll")]


# The kinds of messages, by their numbers: what is read behind the kind.
READERS = {
    1: endorse_ask, 2: endorsed, 3: change, 4: propose, 5: ballot, 6: status_note, 7: decision, 8: skip_note,
    9: confirm_ask, 10: confirming, 11: lambda reader: confirming(reader, True), 12: confirmation, 13: roll_note,
}


def fields_of(data):
    """The fields of a message; bytes that are none are a `NoMessage`."""
    reader = Reader(data)
    kind = reader.number(1)
    if kind not in READERS:
        raise NoMessage(f"no message begins with {kind}")
    fields = READERS[kind](reader)
    reader.ends()
    return fields
