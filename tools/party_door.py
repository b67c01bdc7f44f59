"""What tools/party-gate lets through to a party: so many messages and bytes of each sender in an epoch of the clock, so many
questions for names that there are not, and of each log one confirmation for a name and an epoch, and so many in all. What a party
takes stands in its journal for good, and a confirmation costs leaves."""
import collections
import hashlib
import pathlib

import party_messages as messages

# The kinds of which a second one of the same bytes changes nothing, and how many that were taken are remembered.
ONCE, REMEMBERED = (messages.BALLOT, messages.STATUS, messages.ROLL), 8192
# Seconds after which the file of names is looked at again.
LOOK = 1.0

Limits = collections.namedtuple("Limits", "messages bytes questions confirmations")


class Names:
    """The names that have a certificate, as a file has them, a line each; none without a file."""

    def __init__(self, path):
        self.path, self.names, self.changed, self.looked = path and pathlib.Path(path), frozenset(), None, -LOOK

    def has(self, name, now):
        if self.path and now >= self.looked + LOOK:
            self.looked = now
            try:
                changed = self.path.stat().st_mtime_ns
                if changed != self.changed:
                    self.names, self.changed = frozenset(self.path.read_text().split("\n")), changed
            except OSError:
                pass  # it is not there yet
        return name in self.names


class Door:
    """The counts of one epoch of the clock."""

    def __init__(self, role, limits, schedule, names, tell):
        self.role, self.limits, self.schedule, self.names, self.tell = role, limits, schedule, Names(names), tell
        self.period = None
        self.dropped, self.taken = collections.Counter(), collections.OrderedDict()
        self.clear(None)

    def clear(self, period):
        """A new epoch of the clock: what was dropped in the last one is told."""
        if self.period is not None:
            for (sender, why), count in sorted(self.now_dropped.items()):
                self.tell(sender, self.dropped[sender, why], f"{count} in an epoch: {why}")
        self.period, self.now_dropped = period, collections.Counter()
        self.messages, self.bytes = collections.Counter(), collections.Counter()
        self.questions, self.confirmed, self.of_log = 0, set(), collections.Counter()

    def at(self, now):
        period = self.schedule.epoch_at(now)
        if period != self.period:
            self.clear(period)

    def drop(self, sender, why):
        """Counts what is dropped; the first of an epoch is told at once."""
        self.dropped[sender, why] += 1
        self.now_dropped[sender, why] += 1
        if self.now_dropped[sender, why] == 1:
            self.tell(sender, self.dropped[sender, why], f"1 in an epoch: {why}")
        return False

    def counts(self, sender, line, now):
        """Counts a line of a sender; whether it is within what each may send."""
        self.at(now)
        self.messages[sender] += 1
        self.bytes[sender] += len(line) // 2
        if self.messages[sender] > self.limits.messages:
            return self.drop(sender, f"more than {self.limits.messages} messages")
        if self.bytes[sender] > self.limits.bytes:
            return self.drop(sender, f"more than {self.limits.bytes} bytes")
        return True

    def passes(self, sender, line, now):
        """Whether a message goes through to the party."""
        if not self.counts(sender, line, now):
            return False
        kind = int(line[:2], 16)
        if kind in ONCE and hashlib.sha256(line).digest() in self.taken:
            return self.drop(sender, "taken before")
        if self.role == "log" and kind == messages.ASK:
            return self.asks(sender, messages.read(line.decode()), now)
        if self.role == "authority" and kind in (messages.CONFIRMED, messages.HALF):
            return self.confirms(sender, messages.read(line.decode()))
        return True

    def asks(self, sender, message, now):
        if message and not self.names.has(message.names[0], now) and self.questions >= self.limits.questions:
            return self.drop(sender, f"more than {self.limits.questions} questions for names that there are not")
        return True

    def confirms(self, sender, message):
        if message and self.place(message) in self.confirmed:
            return self.drop(sender, "a second confirmation of a log for a name in an epoch")
        if message and self.of_log[message.log] >= self.limits.confirmations:
            return self.drop(sender, f"more than {self.limits.confirmations} confirmations of a log")
        return True

    @staticmethod
    def place(message):
        return message.kind, message.log, message.names[0], message.epoch

    def took(self, line, now):
        """The party took a message: what it refused counts for its sender alone, since anybody can write a log's number."""
        self.at(now)
        kind = int(line[:2], 16)
        if kind in ONCE:
            self.taken[hashlib.sha256(line).digest()] = None
            if len(self.taken) > REMEMBERED:
                self.taken.popitem(last=False)
        message = messages.read(line.decode()) if kind in (messages.ASK, messages.CONFIRMED, messages.HALF) else None
        if message and kind == messages.ASK:
            self.questions += not self.names.has(message.names[0], now)
        elif message:
            self.confirmed.add(self.place(message))
            self.of_log[message.log] += 1
