"""What an authority's door (tools/authority) and a name's operator (tools/name) say to each other, and what a name puts up to be
looked at: docs/DOOR.md has the bytes. No signature is verified here."""
import collections
import hashlib
import ipaddress
import pathlib

import party_messages as messages
from network_files import Wrong

ENDORSE_ASK, NOTE = 0x01, 0xF1
TOKEN, READY, STATE = 1, 2, 3
# How a name may prove itself, by the bits of a token's note.
WEB, DNS = 1, 2
METHODS = {"web": WEB, "dns": DNS}
WAITS, PERSON, ENDORSED, REFUSED = "waits", "person", "endorsed", "refused"
STATES = {1: WAITS, 2: PERSON, 3: ENDORSED, 4: REFUSED}
STATE_NUMBERS = {state: number for number, state in STATES.items()}
# Where the digest stands: a file below this path, or a TXT record of the name with this label in front.
PATH, LABEL = "/.well-known/arpki-token/", "_arpki-token"
# The byte in front of what is hashed for it.
PROOF_TAG = b"\x30"
# Last labels whose names nobody owns (RFC 6761, 6762, 7686, 8375, 9476), and, of addresses, what is no part of the public DNS.
SPECIAL = frozenset("alt arpa example internal invalid lan local localhost onion test".split())

Certificate = collections.namedtuple("Certificate", "name serial previous key policy revoked data digest")
Policy = collections.namedtuple("Policy", "threshold keyed age until trusted wait")
Ask = collections.namedtuple("Ask", "owner certificate")
Note = collections.namedtuple("Note", "form owner authority digest token methods until state reason")
Note.__new__.__defaults__ = (b"", 0, 0, None, "")


def digest_of(certificate):
    return hashlib.sha256(b"\x10" + certificate).digest()


# ---- certificates and asks


def read_policy(at):
    version, threshold, keyed = at.number(1), at.number(1), at.number(1)
    age, until = at.number(4), at.number(8)
    trusted = [at.number(2) for _ in range(at.number(1))]
    return Policy(threshold, bool(keyed), age, until, trusted, at.number(2) if version == 2 else 0)


def policy_words(policy):
    """A policy as an order has it."""
    trusted = ",".join(map(str, policy.trusted)) or "-"
    kind = "keyed" if policy.keyed else "free"
    return f"{policy.threshold} {kind}{f'/{policy.wait}' if policy.wait else ''} {policy.age} {policy.until} {trusted}"


def read_certificate(data):
    """The fields of a certificate; None where the bytes are none."""
    try:
        at = messages.Fields(data)
        if at.number(1) != 1:
            return None
        name = at.counted(1).decode("ascii")
        serial, previous, key, policy = at.number(8), at.take(32), at.take(56), read_policy(at)
        revoked = at.number(1)
        at.end()
        if revoked > 1 or not is_name(name):
            return None
        return Certificate(name, serial, previous, key, policy, bool(revoked), data, digest_of(data))
    except (messages.NoMessage, UnicodeDecodeError):
        return None


def read_ask(data):
    """An EndorseAsk; None where the bytes are none."""
    try:
        at = messages.Fields(data)
        if at.number(1) != ENDORSE_ASK:
            return None
        owner, certificate = at.number(2), read_certificate(at.counted())
        at.end()
        return Ask(owner, certificate) if certificate else None
    except messages.NoMessage:
        return None


# ---- names


def is_name(text):
    """Whether a text is a name (docs/FORMATS.md, "Names")."""
    allowed = set("abcdefghijklmnopqrstuvwxyz0123456789-")
    labels = text.split(".")
    return len(text) <= 253 and all(label and len(label) < 64 and set(label) <= allowed and label[0] != "-" and label[-1] != "-"
                                    for label in labels)


class Suffixes:
    """Below which names anybody may have one of his own: the Public Suffix List, as Debian's package publicsuffix has it. Without the
    list the last label alone is taken for a suffix, so that more names share a quota, and none fewer."""

    def __init__(self, path=None):
        self.rules, self.exceptions = set(), set()
        if path is None:
            return
        try:
            lines = pathlib.Path(path).read_text(encoding="utf-8").split("\n")
        except (OSError, UnicodeDecodeError) as why:
            raise Wrong(f"{path} is no list of public suffixes: {why}") from why
        for rule in (line.split()[0] for line in lines if line.strip() and not line.startswith("//")):
            try:
                ascii_rule = ".".join(part if part == "*" else part.encode("idna").decode() for part in rule.lstrip("!").split("."))
            except UnicodeError:
                continue
            (self.exceptions if rule.startswith("!") else self.rules).add(ascii_rule)

    def suffix(self, name):
        """How many labels of a name are its public suffix."""
        labels = name.split(".")
        for count in range(len(labels), 0, -1):
            tail = ".".join(labels[-count:])
            if tail in self.exceptions:
                return count - 1
            if tail in self.rules or (count > 1 and "*." + ".".join(labels[1 - count:]) in self.rules):
                return count
        return 1

    def registrable(self, name):
        """The name that its registrant has: one label below the public suffix; None for a suffix itself."""
        labels, count = name.split("."), self.suffix(name)
        return ".".join(labels[-count - 1:]) if len(labels) > count else None


def why_no_name(name, suffixes, allowed=()):
    """Why nobody can prove a name: it has no owner in the DNS. None where it can be; of last labels that have none some are allowed."""
    last = name.rsplit(".", 1)[-1]
    if "." not in name:
        return "it has one label"
    if last.isdigit():
        return "it is an address"
    if last in SPECIAL and last not in allowed:
        return f"names in {last} have no owner"
    if suffixes.registrable(name) is None:
        return "it is a public suffix"
    return None


# ---- addresses

# Networks of which ipaddress says that they are global, and behind which there are others: 6to4, and NAT64 (RFC 6052).
TRANSLATED = [ipaddress.ip_network(text) for text in ("2002::/16", "64:ff9b::/96", "64:ff9b:1::/48", "2001::/32", "192.88.99.0/24")]


def is_private(text, allowed=()):
    """Whether an address is none of the public network's; what is in an allowed network is taken for public."""
    address = ipaddress.ip_address(text)
    if any(address in network for network in allowed):
        return False
    if getattr(address, "ipv4_mapped", None) or getattr(address, "scope_id", None):
        return True
    if any(address.version == network.version and address in network for network in TRANSLATED):
        return True
    return not address.is_global or address.is_multicast or address.is_reserved or address.is_unspecified


# ---- what is put up


def proof(token, key, name, digest):
    """The 64 hex that a name puts up: of a token, of the authority that gave it (its first key, 56 bytes), and of the owner's own
    draft."""
    text = name.encode()
    return hashlib.sha256(PROOF_TAG + token + key + bytes([len(text)]) + text + digest).hexdigest()


# ---- notes


def note_of(note):
    """The hex of a note."""
    head = bytes([NOTE, note.form]) + messages.u16(note.owner) + messages.u16(note.authority) + note.digest
    if note.form == TOKEN:
        return (head + note.token + bytes([note.methods]) + messages.u64(note.until)).hex()
    if note.form == READY:
        return (head + note.token + bytes([note.methods])).hex()
    reason = note.reason.encode("ascii", "replace")[:255]
    return (head + bytes([STATE_NUMBERS[note.state], len(reason)]) + reason).hex()


def read_note(line):
    """The note that hex spells; None where it is none."""
    try:
        at = messages.Fields(bytes.fromhex(line))
        kind, form, owner, authority, digest = at.number(1), at.number(1), at.number(2), at.number(2), at.take(32)
        if kind != NOTE:
            return None
        if form == TOKEN:
            note = Note(form, owner, authority, digest, at.take(32), at.number(1), at.number(8))
        elif form == READY:
            note = Note(form, owner, authority, digest, at.take(32), at.number(1))
        elif form == STATE:
            state = STATES[at.number(1)]
            note = Note(form, owner, authority, digest, state=state, reason=at.counted(1).decode("ascii", "replace"))
        else:
            return None
        at.end()
        return note
    except (messages.NoMessage, ValueError, KeyError):
        return None
