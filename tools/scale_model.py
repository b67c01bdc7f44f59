"""What a council of logs and authorities signs, sends and hashes for a number of names, by counting alone.

No message is made here and no key: the statements and the messages of docs/PROTOCOL.md are counted, their bytes are
those of docs/FORMATS.md, and each signature takes what one takes on average. `made_script` is what `make <n> run` asks
for; tools/scale compares what is counted for it with what was played.
"""
import math
import typing

from hash_needs import (CHAINS, ENTRY, HEIGHTS, INNER_NODE, LEAF_NODE, NODE, STEP, WIDTHS, blocks, message_hash,
                        needed_to_make, one_time_key, sha256, spread_of_digits)
from script_needs import AUTHORITY, CLIENT, LOG, NAME_KEY, OWNER, VALUE, nodes_above, tree_path

DIGEST, SIG, COUNT, EPOCH = 32, 2, 2, 8  # bytes: a digest, the length of a signature, a number of a party, an epoch
BATCH = 64  # changes that `make <n>` submits for an epoch


class Types(typing.NamedTuple):
    """The types of a key, by their numbers."""

    lms: int
    ots: int

    @property
    def leaves(self):
        return 2 ** HEIGHTS[self.lms]

    @property
    def signature(self):
        """The bytes of an LMS signature."""
        return 4 + 4 + DIGEST + DIGEST * CHAINS[self.ots] + 4 + DIGEST * HEIGHTS[self.lms]

    @property
    def rolled(self):
        """The bytes of a log's or an authority's signature: the generation stands in front."""
        return 4 + self.signature

    @property
    def key(self):
        """The compressions of making a key."""
        return needed_to_make(self.lms, self.ots)

    def sign(self, length):
        """The compressions of signing a text of so many bytes, on average."""
        return blocks(1 + 32) + message_hash(bytes(length)) + (CHAINS[self.ots] + spread_of_digits(self.ots)[1]) * STEP

    def verify(self, length):
        """The compressions of judging a valid signature of such a text, on average."""
        steps = CHAINS[self.ots] * (2 ** WIDTHS[self.ots] - 1) - spread_of_digits(self.ots)[1]
        return (message_hash(bytes(length)) + steps * STEP + one_time_key(self.ots) + LEAF_NODE
                + HEIGHTS[self.lms] * INNER_NODE)


class Council(typing.NamedTuple):
    """Who there is, and the types of their keys. A change has `endorsers` endorsements, and a policy trusts as many."""

    types: Types
    logs: int = 5
    quorum: int = 4
    authorities: int = 4
    endorsers: int = 3
    owners: Types = Types(5, 3)


class Tree(typing.NamedTuple):
    """Of the tree over the keys of names: the steps of the path of a name that it has and of one that it has not, how
    likely another name's entry stands at the foot of the latter, and the nodes above what changes, over all epochs."""

    present: float
    absent: float
    foot: float
    above: float


class Load(typing.NamedTuple):
    """What is asked of a council. Of the changes, so many are handed over. `asked` counts what clients ask of names
    that have a certificate, in so many epochs, and `told` how many different answers these are; `absent` counts what
    they ask of other names. `batches` are how many epochs with how many changes each. `rolls` are the keys that logs
    and authorities went on to, by role."""

    names: int
    changes: float
    handed: float
    keys: float  # of owners
    batches: list
    asked: float
    told: float
    told_in: int
    absent: float
    tree: Tree
    name: float  # bytes of a name
    other: float = 0.0  # bytes of a name that has no certificate
    rolls: dict = {}

    @property
    def epochs(self):
        return sum(times for times, _ in self.batches)


# The tree over the keys of names.


def mean(numbers):
    numbers = list(numbers)
    return sum(numbers) / len(numbers)


def tree_of(batches, others):
    """The tree over these very names, of which each batch sets some; others are asked for too."""
    keyed = lambda names: [sha256(b"\x11", name) for name in names]
    present, above = [], 0
    for batch in batches:
        present = sorted({*present, *keyed(batch)})
        above += nodes_above([(key, b"") for key in present], set(keyed(batch)))
    entries = tuple((key, b"") for key in present)
    feet, paths = zip(*(tree_path(entries, key) for key in keyed(others)))
    steps = mean(len(tree_path(entries, key)[1]) for key in present)
    return Tree(steps, mean(map(len, paths)), mean(map(len, feet)), above)


# How often two keys agree in so many first bits, where each bit is 0 or 1 alike; deeper no two of so few do.
AGREES = [2.0 ** -depth for depth in range(64)]


def likely_steps(names):
    """The steps of the path of one of so many names: the depths at which another one agrees with it."""
    return sum(1 - (1 - part) ** (names - 1) for part in AGREES)


def likely_tree(names, batches):
    """What to expect of a tree over keys that are as good as drawn at random."""
    none, one = ([(1 - part) ** names for part in AGREES], [names * part * (1 - part) ** (names - 1) for part in AGREES])
    alone = [names * part * (1 - 2 * part) ** (names - 1) for part in AGREES]  # at this depth, and one higher already
    absent = sum(1 - empty - single for empty, single in zip(none, one))
    foot = sum(single - before for single, before in zip(one[1:], alone[1:]))
    above = sum(times * likely_above(names, changes) for times, changes in batches)
    return Tree(likely_steps(names), absent, foot, above)


def likely_above(names, changes):
    """The nodes above so many changed keys of a tree: there are two keys or more below them, and a changed one."""
    return sum((1 - (1 - part) ** changes - changes * part * (1 - part) ** (names - 1)) / part for part in AGREES[:32])


def made_script(domains):
    """(council, load) of `make <n> run` (docs/FORMATS.md)."""
    named = lambda numbers: [b"d%d.example" % number for number in numbers]
    in_batches = lambda numbers: [numbers[first:first + BATCH] for first in range(0, len(numbers), BATCH)]
    numbers, updated = range(domains), range(0, domains, 4)
    batches = [named(batch) for batch in in_batches(numbers) + in_batches(updated)]
    others = [b"none%d.example" % number for number in range(-(-domains // 10))]
    load = Load(names=domains, changes=domains + len(updated), handed=-(-domains // 8), keys=domains,
                batches=[(1, len(batch)) for batch in batches], asked=domains, told=domains, told_in=1,
                absent=len(others), tree=tree_of(batches, others), name=mean(map(len, named(numbers))),
                other=mean(map(len, others)))
    return Council(Types(6, 3)), load


# Bytes.


def certificate_bytes(council, name):
    return 1 + 1 + name + 8 + DIGEST + 56 + (1 + 1 + 1 + 4 + 8 + 1 + 2 * council.endorsers) + 1


def change_bytes(council, name, handed):
    """A change; `handed` is the share of changes that have a handover."""
    return (2 + certificate_bytes(council, name) + 1 + council.endorsers * (COUNT + SIG + council.types.rolled)
            + 1 + handed * (SIG + council.owners.signature))


def votes_bytes(council):
    return 1 + council.quorum * (COUNT + SIG + council.types.rolled)


def vote_bytes(council):
    """A Ballot."""
    return 1 + COUNT + EPOCH + 2 * DIGEST + SIG + council.types.rolled


def propose_bytes(council, name, handed, changes):
    return vote_bytes(council) + 1 + changes * change_bytes(council, name, handed)


def decision_bytes(council, name, handed, changes):
    return 1 + EPOCH + 2 * DIGEST + 1 + changes * change_bytes(council, name, handed) + votes_bytes(council)


def told_bytes(council, load, is_there):
    """What LogConfirmed, HalfConfirmed and Confirmation share: the fields up to the path."""
    name, steps = (load.name, load.tree.present) if is_there else (load.other, load.tree.absent)
    body = 2 + certificate_bytes(council, name) if is_there else 1 + 2 * DIGEST * load.tree.foot
    return 1 + 1 + 2 + EPOCH + 1 + name + DIGEST + body + 2 + DIGEST * steps


def confirmation_bytes(council, load, is_there=True):
    return told_bytes(council, load, is_there) + 3 * (COUNT + SIG + council.types.rolled)


def roll_bytes(council):
    """A RollNote."""
    return 1 + 1 + COUNT + 4 + 56 + SIG + council.types.rolled


# Statements and messages.


class Signed(typing.NamedTuple):
    """Statements of one kind by one role: how long each is, how many are signed, and who verifies how many."""

    kind: str
    role: int
    length: float
    made: float
    verified: dict


class Sent(typing.NamedTuple):
    """Messages of one kind by one role: how many, to how many parties each, and how long."""

    kind: str
    role: int
    count: float
    copies: int
    length: float


def statements(council, load):
    logs, quorum, asked = council.logs, council.quorum, load.asked + load.absent
    endorsed = load.changes * council.endorsers
    taken = load.epochs * (logs - 1)  # proposals that arrive, or ballots, or decisions
    first_seen = min(2 * asked, load.told_in * council.authorities)  # an authority verifies the votes of an epoch once
    rows = [
        Signed("Endorse", AUTHORITY, 36, endorsed, {OWNER: endorsed, LOG: endorsed * logs}),
        Signed("Handover", OWNER, 36, load.handed, {LOG: load.handed * logs}),
        Signed("Propose", LOG, 76, load.epochs, {LOG: taken}),
        Signed("Vote", LOG, 76, load.epochs * logs, {LOG: taken * (1 + quorum), AUTHORITY: first_seen * quorum}),
    ]
    confirms = ("Confirm", 77 + load.name, load.asked), ("ConfirmAbsent", 45 + load.other, load.absent)
    for kind, length, count in confirms:
        rows.append(Signed(kind, LOG, length, count, {AUTHORITY: 2 * count, CLIENT: count}))
        rows.append(Signed(kind, AUTHORITY, length, 2 * count, {AUTHORITY: count, CLIENT: 2 * count}))
    everyone = {LOG: logs, AUTHORITY: council.authorities}
    for role, count in load.rolls.items():
        takers = {taker: count * (number - (taker == role)) for taker, number in everyone.items()}
        rows.append(Signed("Roll", role, 64, count, takers))
    return rows


def messages(council, load):
    others, handed = council.logs - 1, load.handed / load.changes
    certificate, signature = certificate_bytes(council, load.name), SIG + council.types.rolled
    rows = [
        Sent("EndorseAsk", OWNER, load.changes * council.endorsers, 1, 1 + COUNT + 2 + certificate),
        Sent("Endorsed", AUTHORITY, load.changes * council.endorsers, 1, 1 + COUNT + COUNT + DIGEST + signature),
        Sent("Submit", OWNER, load.changes, council.logs, 1 + change_bytes(council, load.name, handed)),
    ]
    for times, changes in load.batches:
        rows.append(Sent("Propose", LOG, times, others, propose_bytes(council, load.name, handed, changes)))
        rows.append(Sent("Ballot", LOG, times * others, 1, vote_bytes(council)))
        rows.append(Sent("Decision", LOG, times, others, decision_bytes(council, load.name, handed, changes)))
    for is_there, name, count in ((True, load.name, load.asked), (False, load.other, load.absent)):
        told = told_bytes(council, load, is_there) + DIGEST + votes_bytes(council) + COUNT + signature + 2 * COUNT
        rows.append(Sent("ConfirmAsk", CLIENT, count, 1, 1 + COUNT + 1 + name + 2 * COUNT))
        rows.append(Sent("LogConfirmed", LOG, count, 1, told))
        rows.append(Sent("HalfConfirmed", AUTHORITY, count, 1, told + signature))
        rows.append(Sent("Confirmation", AUTHORITY, count, 1, confirmation_bytes(council, load, is_there)))
    for role, count in load.rolls.items():
        rows.append(Sent("RollNote", role, count, council.logs + council.authorities - 1, roll_bytes(council)))
    return rows


# Compressions of SHA-256, each by its purpose and role.


def types_of(council, role):
    return council.owners if role == OWNER else council.types


def key_needs(council, load):
    """The keys of logs and authorities, and those of owners; each with its seed, and the digest of its text."""
    beside = blocks(1 + 32 + 1 + 2) + blocks(56)
    counts = {LOG: council.logs, AUTHORITY: council.authorities, OWNER: load.keys}
    counts = {role: count + load.rolls.get(role, 0) for role, count in counts.items()}
    return {role: count * (types_of(council, role).key + beside) for role, count in counts.items()}


def signed_needs(council, load):
    needs = {LOG: 0, AUTHORITY: 0, OWNER: 0}
    for row in statements(council, load):
        needs[row.role] += row.made * types_of(council, row.role).sign(round(row.length))
    return needs


def verified_needs(council, load):
    needs = {LOG: 0, AUTHORITY: 0, OWNER: 0, CLIENT: 0}
    for row in statements(council, load):
        for role, count in row.verified.items():
            needs[role] += count * types_of(council, row.role).verify(round(row.length))
    return needs


def tree_needs(council, load):
    """At each log the entries that change and the nodes above them, and the key of each name; and the paths of answers,
    at two authorities and a client."""
    kept = load.changes * (VALUE + ENTRY) + load.tree.above * NODE
    present = load.asked * (NAME_KEY + VALUE + ENTRY + load.tree.present * NODE)
    absent = load.absent * (NAME_KEY + load.tree.foot * ENTRY + load.tree.absent * NODE)
    return {LOG: council.logs * (kept + load.names * NAME_KEY) + load.absent * NAME_KEY,
            AUTHORITY: 2 * (present + absent), CLIENT: present + absent}


def certificate_needs(council, load):
    """The digest of each certificate: at its owner, at those who endorse it, at each log, and of each answer."""
    one = blocks(1 + round(certificate_bytes(council, load.name)))
    return {OWNER: load.changes * one, LOG: load.changes * council.logs * one,
            AUTHORITY: (load.changes * council.endorsers + 2 * load.asked) * one, CLIENT: load.asked * one}


def message_needs(council, load):
    """The digest of each message's bytes, which a script prints; no party needs it."""
    count = {}
    for row in messages(council, load):
        count[row.role] = count.get(row.role, 0) + row.count * blocks(round(row.length))
    return count


# What each party needs; the rest, digests of messages, is a script's.
PURPOSES = {"keys": key_needs, "signed": signed_needs, "verified": verified_needs, "trees": tree_needs,
            "certificates": certificate_needs}


def needs(council, load):
    """Compressions by purpose, and of each purpose by role."""
    return {purpose: count(council, load) for purpose, count in PURPOSES.items()}


# A year.

DAYS = 365


class Habit(typing.NamedTuple):
    """How a council is used: epochs a year, changes of a name a year, and how often a day a name is asked for; or,
    where `asks` is none, once in each epoch. The names have so many bytes."""

    epochs: int
    asks: typing.Optional[float]
    changes: float = 1
    name: int = 16

    def told(self, names):
        """(the questions of a year, how many answers of these are different): they come as it happens."""
        if self.asks is None:
            return names * self.epochs, names * self.epochs
        asked = names * self.asks * DAYS
        return asked, names * self.epochs * -math.expm1(-self.asks * DAYS / self.epochs)


def a_year(council, habit, names):
    """The load of one table's first year: each name is registered, and then it changes, each time to a new key."""
    changes, (asked, told) = names * (1 + habit.changes), habit.told(names)
    batches = [(habit.epochs, changes / habit.epochs)]
    load = Load(names=names, changes=changes, handed=names * habit.changes, keys=changes, batches=batches, asked=asked,
                told=told, told_in=habit.epochs, absent=0, tree=likely_tree(names, batches), name=habit.name)
    leaves = leaves_of(council, load)
    rolls = {role: count * (generations(council.types, leaves[role]) - 1)
             for role, count in ((LOG, council.logs), (AUTHORITY, council.authorities))}
    return load._replace(rolls=rolls)


def leaves_of(council, load):
    """The leaves that each log, each authority and each name's owner use: one for an answer, however often given."""
    made = {LOG: 0, AUTHORITY: 0, OWNER: 0}
    for row in statements(council, load):
        if row.kind != "Roll":
            made[row.role] += row.made * (load.told / load.asked if row.kind == "Confirm" else 1)
    return {role: made[role] / count for role, count in
            ((LOG, council.logs), (AUTHORITY, council.authorities), (OWNER, load.names))}


def generations(types, leaves):
    """The keys that so many leaves take: the last of each is for the next key."""
    return max(1, math.ceil(leaves / (types.leaves - 1)))
