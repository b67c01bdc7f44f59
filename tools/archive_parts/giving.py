"""What an archive gives to a party that lost its state, and to a mirror that begins: lines of hex, in the order in which they are taken."""
import re

from . import reading
from .store import TAKEN

RECEIVER = re.compile(r"mirror|[LAD](0|[1-9][0-9]{0,4})")


def is_receiver(word):
    return RECEIVER.fullmatch(word) is not None


def lines_for(base, party, epoch):
    """RollNotes of the others, those of one party in their order, and then the Decisions and SkipNotes from an epoch on. All of it was
    taken by the mirror."""
    for data, whose in base.all("SELECT bytes, party FROM message WHERE kind = ? AND verdict = ? ORDER BY party, epoch", reading.ROLL_NOTE,
                                TAKEN):
        if whose != party:
            yield data.hex()
    yield from endings(base, epoch)


def endings(base, epoch, count=None):
    """The Decisions and SkipNotes from an epoch on, read a few at a time."""
    last = base.value("SELECT MAX(number) FROM epoch") or 0
    last = min(last, epoch + count - 1) if count else last
    for at in range(epoch, last + 1, 64):
        rows = base.all("SELECT message.bytes FROM epoch JOIN message ON message.digest = epoch.message WHERE epoch.number BETWEEN ? AND ?"
                        " ORDER BY epoch.number", at, min(at + 63, last))
        for data, in rows:
            yield data.hex()


def told_of(base, party):
    """What its operator has to know of the party's own RollNotes."""
    count = base.value("SELECT COUNT(*) FROM message WHERE kind = ? AND party = ?", reading.ROLL_NOTE, party)
    waiting = base.value("SELECT COUNT(*) FROM message WHERE kind = ? AND party = ? AND verdict <> ?", reading.ROLL_NOTE, party, TAKEN)
    rest = f", {waiting} of them not taken by the mirror" if waiting else ""
    if party[0] == "D":
        return f"{party} is an owner, which does not roll: it must not start again with its key"
    return f"{count} different RollNotes of {party} are kept{rest}: give it `roll {party}` {count + 1} times before anything else"
