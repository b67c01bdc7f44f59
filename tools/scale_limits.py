"""The limits of docs/SCALE.md: their numbers are read off the definitions."""
import typing

import pages
from scale_model import messages
from scale_page import COUNCIL, DAY, HOUR, HOURLY, SECONDS, YEARS, short, span, table, whole


class Limit(typing.NamedTuple):
    """What it is of, where below crates/ its number stands, by its name there or by a regular expression, whether a
    format has it, and what comes there."""

    what: str
    where: str
    name: str
    kind: str
    comes: str

    @property
    def number(self):
        return (pages.said if "(" in self.name else pages.defined)(self.where, self.name)


FORMAT, CHOICE = "format", "choice"
LEAVES = COUNCIL.types.leaves


def rows():
    """The limits, those that come first in front."""
    changes = pages.defined("log_sending/specs/Walk.antt", "most_changes")
    pool = pages.defined("ar_nodes/specs/Pool.antt", "most_messages")
    sent = sum(row.count for row in messages(COUNCIL, YEARS[HOURLY])) / HOUR
    return [
        Limit("certificates of a table in all its life, those that wait among them", "domain_table/specs/Applying.antt",
              "most_kept", CHOICE, "`L10 .. full`: no name has another certificate; those that are there are confirmed on"),
        Limit("the last of a party's keys, from 0 on", "key_roll/specs/Book.antt", "last_generation", CHOICE,
              "`L17` or `A12`, and without a leaf `L14` or `A10`: the party is mute. In formats it has four bytes"),
        Limit("changes of a proposal", "ar_message/specs/Lists.antt", r"counted_list_at (\d+) \(list_at change_at\)", FORMAT,
              f"the rest waits for the next epoch: {whole(changes * DAY)} changes a year with epochs of a day, "
              f"{whole(changes * HOUR)} with epochs of an hour"),
        Limit("changes that wait at a log", "log_sending/specs/Checks.antt", "most_queued", CHOICE,
              "`L13`: the owner submits it again when others have gone; they are four full proposals"),
        Limit("bytes of the changes of a proposal", "log_sending/specs/Walk.antt", "most_change_bytes", CHOICE,
              "the walk stops in front of the change; with signatures as long as here it never does"),
        Limit("bytes of a message", "ar_message/specs/Messages.antt", "longest", FORMAT, "it is not read"),
        Limit("logs of a table, and authorities", "ar_statement/specs/Claims.antt", "most_parties", FORMAT,
              "no directory has more, and no message more votes. With more parties the theorem would still take two "
              "dishonest ones, and no third"),
        Limit("endorsements of a change", "ar_cert/specs/Changes.antt", r"counted_list_at (\d+)", FORMAT,
              "an owner takes no more (`O6`)"),
        Limit("authorities that a policy trusts", "ar_cert/specs/Certificate.antt", r"counted_list_at (\d+)", FORMAT,
              "no certificate says more"),
        Limit("the height of the tree of a key that signs", "lms_tree/specs/Key.antt", r"at most 2 \^ (\d+) leaves", CHOICE,
              f"{whole(LEAVES)} leaves. Taller keys are judged and not made, since a key keeps all its nodes. An owner has "
              f"one key for each certificate: where each visit is a challenge, which takes a leaf, one a minute uses it up "
              f"in {span(60 * LEAVES)}"),
        Limit("epochs", "ar_statement/specs/Fields.antt", "last_epoch", FORMAT,
              f"with epochs of a second, after {short(2 ** 63 / SECONDS)} years"),
        Limit("epochs that a recovery may wait", "ar_cert/specs/Certificate.antt", r"is_from_to 1 (\d+) n", FORMAT,
              f"with epochs of an hour, {span(10000 * 3600)}; with epochs of a minute, {span(10000 * 60)}: whoever makes "
              f"epochs short makes waits short"),
        Limit("steps of a path", "ar_message/specs/Confirmation.antt", r"nat_le n (\d+)", FORMAT,
              "never: a name's key has as many bits"),
        Limit("bytes of a name", "ar_names/specs/Names.antt", r"nat_le (\d{3}) k", FORMAT, "it is no name"),
        Limit("RollNotes that `check` learns from", "arpki_ask/specs/Inquiries.antt", "most_rolls", CHOICE,
              "the line is refused; the libraries have no such limit"),
        Limit("changes that a client's memory keeps", "client_memory/specs/Book.antt", "most_kept", CHOICE,
              "`Full`: the client forgets names"),
        Limit("messages of a played world", "ar_nodes/specs/Pool.antt", "most_messages", CHOICE,
              f"`limit`: the {int(pool // sent) + 1}th hour of a full table. No log and no authority has it"),
    ]


def limits():
    shown = lambda number: f"2^{number.bit_length() - 1}" if number > 10 ** 12 else whole(number)
    return table(["limit", "number", "format or choice", "where it stands, in crates/", "what comes there"],
                 [[row.what, shown(row.number), row.kind, f"`{row.where}`", row.comes] for row in rows()])
