"""What a certificate, its policy and what happened to a name say in words."""
from . import reading, store

# How an event is told, the word on its mark, and what it looks like.
EVENTS = {
    store.REGISTERED: ("registered", "The name was registered: its first certificate.", "good"),
    store.UPDATED: ("updated", "A new certificate follows the one before it, as that one's policy asks.", "good"),
    store.REVOKED: ("revoked", "The certificate was revoked. Nothing may follow.", "bad"),
    store.OBJECTED: ("objected", "The holder of the old key objected: the recovery that waited is over.", "good"),
    store.RECOVERY: ("recovery began", "Authorities endorsed a certificate that the old key did not hand over to, or that too few trusted "
                     "authorities endorsed. It waits.", "warn"),
    store.RIPENED: ("recovery ripened", "Nobody objected in time: the recovery became the newest certificate.", "bad"),
    store.ENDED: ("recovery ended", "An update took the place of the recovery that waited.", "good"),
}
NUMBERS = {0: "none", 1: "one", 2: "two", 3: "three", 4: "four", 5: "five", 6: "six", 7: "seven", 8: "eight"}
FAR = 1 << 40
RULES = {1: "voted for two things in one epoch", 2: "voted for something in an epoch, and stated something else",
         3: "stated two things about one epoch", 4: "confirmed two things in one epoch", 5: "went on from one key to two",
         6: "signed two texts by one leaf of its key"}


def several(count, what):
    return f"{count} {what}" if count == 1 else f"{count} {what}s"


def listed(words):
    words = list(words)
    return words[0] if len(words) == 1 else f"{', '.join(words[:-1])} and {words[-1]}"


def policy(one):
    """A policy in sentences."""
    trusted = [f"A{number}" for number in one.trusted]
    if one.threshold == 0:
        who = "Whatever follows needs three endorsements by authorities, and none of an authority of its own choice"
    elif trusted:
        who = (f"Whatever follows needs three endorsements by authorities, {NUMBERS.get(one.threshold, one.threshold)} of them by "
               f"{listed(trusted) if len(trusted) == 1 else 'authorities among ' + listed(trusted)}")
    else:
        who = f"Whatever follows needs {one.threshold} endorsements by trusted authorities, and none is named"
    key = " and a handover by the certificate's own key" if one.keyed else "; a handover by the certificate's own key is not asked for"
    yield f"{who}{',' if one.keyed else ''}{key}."
    if one.wait:
        yield (f"What lacks one of these is a recovery: it waits {several(one.wait, 'epoch')}, in which the holder of the key may object.")
    else:
        yield "What lacks one of these is refused: there is no recovery."
    yield f"A confirmation is believed for at most {several(one.age, 'epoch')}."
    yield (f"Clients accept the certificate up to epoch {one.until}." if one.until < FAR else "Clients accept the certificate without an end.")


def by_whom(change):
    """Who stands behind a change."""
    parts = []
    if change.endorsements:
        parts.append(f"endorsed by {listed(one.party for one in change.endorsements)}")
    if change.flag == reading.HANDED:
        parts.append("handed over by the old key")
    elif change.flag == reading.OBJECTION:
        parts.append("signed by the old key")
    return ", ".join(parts)


def left(epochs, plan):
    """How many epochs are left, and how long they take."""
    if epochs <= 0:
        return "with the next epoch that is decided"
    return several(epochs, "epoch") + (f", about {duration(epochs * plan.length)}" if plan else "")


def duration(seconds):
    for size, word in ((86400, "day"), (3600, "hour"), (60, "minute")):
        if seconds >= 2 * size:
            return several(round(seconds / size), word)
    return several(max(1, round(seconds)), "second")
