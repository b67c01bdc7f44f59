"""The figures of docs/SCALE.md: each block of the page that stands between two marks, by its name.

What is assumed stands here (`COUNCIL`, `HABITS`, `SIZES`); what is measured is read by tools/pages.py; the rest is
counted by tools/scale_model.py.
"""
import math
import typing

import pages
from hash_needs import CHAINS, ENTRY, NODE, blocks
from scale_model import (DAYS, Council, Habit, Load, Types, a_year, change_bytes, confirmation_bytes, decision_bytes,
                         generations, leaves_of, likely_tree, messages, needs, roll_bytes, vote_bytes)
from scale_runs import DOMAINS, ROLES, compared, per_compression, speed
from script_needs import AUTHORITY, CLIENT, LOG, OWNER

COUNCIL = Council(Types(7, 3))
HOUR, DAY = 24 * DAYS, DAYS
HABITS = {
    "an hour; once in each epoch": Habit(HOUR, None),
    "an hour; 24 times a day": Habit(HOUR, 24),
    "an hour; once a day": Habit(HOUR, 1),
    "a day; once in each epoch": Habit(DAY, None),
    "a day; 24 times a day": Habit(DAY, 24),
    "a day; once a day": Habit(DAY, 1),
}
HOURLY, DAILY = "an hour; once in each epoch", "a day; once in each epoch"
TYPES = [Types(lms, ots) for lms in (5, 6, 7) for ots in (3, 4)]
ASKED = "an epoch is; each name is asked for"
SECONDS = 86400 * DAYS  # of a year

MOST_KEPT = pages.defined("domain_table/specs/Applying.antt", "most_kept")
MOST_CHANGES = pages.defined("log_sending/specs/Walk.antt", "most_changes")
GENERATIONS = pages.defined("key_roll/specs/Book.antt", "last_generation") + 1
LONGEST_TEXT = pages.defined("ar_statement/src/statement.rt", "TEXT_LEN")


# How figures are written.


def whole(number):
    return f"{round(number):,}"


def short(number):
    """Three digits that count, with `million` and `billion`."""
    for size, word in ((1e12, " million million"), (1e9, " billion"), (1e6, " million")):
        if number >= size:
            return f"{number / size:.3g}{word}" if number / size < 100 else f"{number / size:,.0f}{word}"
    if number >= 100:
        return whole(number)
    return f"{number:.{max(0, 2 - math.floor(math.log10(number)))}f}"


def span(seconds):
    """A time in the unit in which it is read best."""
    for size, unit in ((SECONDS, "years"), (86400, "days"), (3600, "hours"), (60, "minutes"), (1, "seconds")):
        if seconds >= 1.5 * size:
            return f"{seconds / size:.3g} {unit}"
    return f"{1000 * seconds:.3g} milliseconds"


def size_of(count):
    """Bytes in the unit in which they are read best."""
    for size, unit in ((1e15, "PB"), (1e12, "TB"), (1e9, "GB"), (1e6, "MB"), (1e3, "KB")):
        if count >= size:
            return f"{count / size:.3g} {unit}"
    return f"{count:.3g} bytes"


def table(titles, rows):
    lines = [titles, ["---"] * len(titles), *rows]
    return "\n".join("|" + "|".join(f" {cell} " if cell != "---" else cell for cell in line) + "|" for line in lines)


def listing(sentences):
    return "\n".join(f"- {sentence}" for sentence in sentences)


# What it costs.


def seconds(counts, ots=COUNCIL.types.ots):
    """The seconds of one processor for compressions by purpose, where signatures are of this one-time type."""
    return sum(count * per_compression(purpose, ots) for purpose, count in counts.items()) / SPEED


def by_purpose(load, council=COUNCIL, roles=(LOG, AUTHORITY, OWNER, CLIENT)):
    """The compressions of some roles, by purpose."""
    return {purpose: sum(count.get(role, 0) for role in roles) for purpose, count in needs(council, load).items()}


def full_table(changes):
    """The names of which a table holds all certificates of a year, where each changes so often."""
    return int(MOST_KEPT // (1 + changes))


SPEED = speed()
NAMES = full_table(1)
YEARS = {title: a_year(COUNCIL, habit, NAMES) for title, habit in HABITS.items()}
SIZES = (NAMES, 10 ** 6, 350 * 10 ** 6)


class Cost(typing.NamedTuple):
    """What a year costs for some names: how many tables, and processors that are busy the year round."""

    tables: int
    processors: float  # of logs, authorities and owners
    clients: float


def cost(title, names):
    tables, load = math.ceil(names / NAMES), YEARS[title]
    busy = lambda roles: seconds(by_purpose(load, roles=roles)) * names / NAMES / SECONDS
    return Cost(tables, busy((LOG, AUTHORITY, OWNER)), busy((CLIENT,)))


def per_log(load):
    """The bytes that one log sends."""
    return sum(row.count * row.copies * row.length for row in messages(COUNCIL, load) if row.role == LOG) / COUNCIL.logs


def one_load(changes=0.0, asked=0.0):
    """An epoch of a full table with so many changes, or questions in it."""
    batches = [] if asked else [(1, changes)]
    return Load(names=changes, changes=changes, handed=changes, keys=0, batches=batches, asked=asked, told=asked,
                told_in=1, absent=0, tree=likely_tree(NAMES, batches), name=HABITS[HOURLY].name)


def directory():
    """The bytes of the keys of one table's logs and authorities."""
    return (COUNCIL.logs + COUNCIL.authorities) * 56


# The blocks of the page.


def answer():
    hourly, daily = YEARS[HOURLY], YEARS[DAILY]
    million, web = (cost(HOURLY, names) for names in SIZES[1:])
    slow = [short(cost(DAILY, names).processors) for names in SIZES[1:]]
    signed = leaves_of(COUNCIL, hourly)[AUTHORITY]
    used = generations(COUNCIL.types, signed)
    last = [span(SECONDS * GENERATIONS * (COUNCIL.types.leaves - 1) / leaves_of(COUNCIL, load)[AUTHORITY])
            for load in (hourly, daily)]
    return listing([
        f"**What has to be hashed is no obstacle.** Where each name is confirmed once in each hour, the logs, "
        f"authorities and owners of a million names keep {short(million.processors)} processors busy the year round, and "
        f"those of 350 million names {short(web.processors)}. With epochs of a day it is {slow[0]} and {slow[1]}. A "
        f"browser's verdicts are {whole(1 / verdict(COUNCIL.types))} a second on one processor.",
        f"**Tables end first.** A table takes {whole(MOST_KEPT)} certificates in all its life, so {whole(NAMES)} names "
        f"that change once a year fill one in their first year. A million names are {whole(million.tables)} tables, and "
        f"350 million are {whole(web.tables)}, each with logs, authorities and keys of its own. This is a choice: no "
        f"format has it.",
        f"**Then keys end.** A log or an authority has {whole(GENERATIONS)} keys, one after the other, of at most "
        f"{whole(COUNCIL.types.leaves)} leaves. An authority that confirms its share of {whole(NAMES)} names in each hour "
        f"uses {used} of them a year, and has none left after {last[0]}; in each day, after {last[1]}. This is a choice "
        f"too.",
        f"**The program as it is ends before both.** A party keeps all that it signed and saw in memory, and looks for "
        f"each statement from the front of a list: that authority would compare {short(signed ** 2 / 2)} pairs of texts "
        f"in a year, and keep {size_of(signed * LONGEST_TEXT)} of texts in its book alone. No cost below has this in it. "
        f"And no program opens a socket: something else has to carry the lines between parties.",
    ])


def assumed():
    habit = HABITS[HOURLY]
    return table(["what", "here"], [
        ["logs and authorities of a table", f"{COUNCIL.logs} logs, of which {COUNCIL.quorum} are a quorum, and "
         f"{COUNCIL.authorities} authorities, as in `make <n>`; all are honest, and none is silent"],
        ["their keys", f"types {COUNCIL.types.lms} and {COUNCIL.types.ots}"],
        ["owners' keys", f"types {COUNCIL.owners.lms} and {COUNCIL.owners.ots}, a new one with each certificate"],
        ["a name", f"{habit.name} bytes; it is registered, and changes once, with {COUNCIL.endorsers} endorsements and a "
         f"handover by the old key"],
        ["questions", "those for a name go always to the same log and the same two authorities; where so many a day are "
         "said, they come as it happens, for each name alike"],
        ["a year", f"{DAYS} days: {whole(HOUR)} epochs of an hour, or {DAY} of a day"],
        ["a table", f"{whole(NAMES)} names, whose first year makes {whole(MOST_KEPT)} certificates"],
        ["one processor", f"{SPEED / 1e9:.1f} billion instructions a second, as measured of the C library "
         f"([BROWSER.md](BROWSER.md), \"What it costs\")"],
    ])


def leaves():
    rows = []
    for title, load in YEARS.items():
        used = leaves_of(COUNCIL, load)
        keys = [generations(Types(lms, 3), used[AUTHORITY]) for lms in (5, 6, 7)]
        rows.append([title, whole(used[LOG]), whole(used[AUTHORITY]), f"{used[OWNER]:g}",
                     *(whole(count) + (" (too many)" if count > GENERATIONS else "") for count in keys),
                     span(keys[-1] * seconds({"keys": COUNCIL.types.key}))])
    return table([ASKED, "a log signs", "an authority signs", "an owner signs", "keys of an authority, type 5", "type 6",
                  "type 7", "time to make these"], rows)


def key_times():
    rows = []
    for lms in (5, 6, 7):
        types = Types(lms, 3)
        made = seconds({"keys": types.key})
        used = leaves_of(COUNCIL, YEARS[HOURLY])[AUTHORITY]
        rows.append([f"{lms} and 3", whole(types.leaves), whole(types.key), span(made), f"{1e3 * made / types.leaves:.2f} ms",
                     span(SECONDS * (types.leaves - 1) / used), size_of(2 * types.leaves * 32)])
    titles = ["types", "leaves", "compressions", "time to make it", "for each leaf", "a busy authority needs one each",
              "its nodes in memory"]
    nodes = size_of(GENERATIONS * 2 * COUNCIL.types.leaves * 32)
    return f"{table(titles, rows)}\n\n(The nodes of {whole(GENERATIONS)} keys of type {COUNCIL.types.lms} take {nodes}.)"


def verdict(types):
    """The seconds of a client's verdict."""
    council = COUNCIL._replace(types=types)
    return seconds(by_purpose(one_load(asked=1), council, (CLIENT,)), types.ots)


def byte_sizes():
    rows, load = [], one_load(asked=1)
    for types in TYPES:
        council = COUNCIL._replace(types=types)
        sizes = (types.rolled, confirmation_bytes(council, load), change_bytes(council, load.name, 1),
                 vote_bytes(council), decision_bytes(council, load.name, 1, MOST_CHANGES), roll_bytes(council))
        rows.append([f"{types.lms} and {types.ots}", *map(whole, sizes)])
    titles = ["types of logs and authorities", "a signature", "a confirmation", "a change", "a vote (Ballot)",
              f"a Decision of {MOST_CHANGES} changes", "a RollNote"]
    short_ones, long_ones = Types(7, 4), Types(7, 3)
    return (f"{table(titles, rows)}\n\nWith the LM-OTS type 4 signatures are shorter, and take "
            f"{short_ones.verify(76) / long_ones.verify(76):.1f} times as long to verify, "
            f"{short_ones.sign(76) / long_ones.sign(76):.1f} times as long to sign, and keys "
            f"{short_ones.key / long_ones.key:.1f} times as long to make.")


def sent():
    rows = []
    for title, load in YEARS.items():
        rows.append([title, size_of(per_log(load)), size_of(per_log(load) / NAMES),
                     f"{per_log(load) * 8 / SECONDS / 1e3:.3g} kbit/s"])
    return table([ASKED, "a log sends in a year", "for each name", "that is"], rows)


def visits():
    load = one_load(asked=1)
    answer, change = confirmation_bytes(COUNCIL, load), change_bytes(COUNCIL, load.name, 1)
    rows = [["without a memory", *[whole(answer)] * 3]]
    rows.append(["with a memory", *(f"{whole(answer)} and {whole(change * days / DAYS)}" for days in (1, 30, DAYS))])
    return table(["bytes of a visit, on average", "once a day", "once in 30 days", "once a year"], rows)


def rates():
    load, one = one_load(asked=1), COUNCIL.types
    leaf = seconds({"keys": one.key / one.leaves})
    first, second = (seconds(counts) for counts in confirming(load))
    log = lambda load: seconds({**by_purpose(load, roles=(LOG,)), "keys": 0}) / COUNCIL.logs
    signed = lambda text: seconds({"signed": one.sign(text)})
    rows = [[f"verdicts of a browser, types {types.lms} and {types.ots}", short(1 / verdict(types)), ""] for types in TYPES]
    for what, time, leaves in (
            ("endorsements of an authority", signed(36), 1),
            ("confirmations of an authority", (first + second) / 2, 1),
            ("confirmations of a log", signed(77 + load.name), 1),
            (f"epochs of a log, with {MOST_CHANGES} changes each", log(one_load(changes=MOST_CHANGES)), 1 + 1 / COUNCIL.logs),
            ("epochs of a log, without changes", log(one_load()), 1 + 1 / COUNCIL.logs)):
        rows.append([what, short(1 / time), short(1 / (time + leaves * leaf))])
    return table(["so many a second, on one processor", "where the keys are there", "with the leaves that are used"], rows)


def confirming(load):
    """The compressions by purpose of a first and of a second authority, for one question behind the epoch's first."""
    both = by_purpose(load, roles=(AUTHORITY,))
    one = COUNCIL.types
    text = 77 + load.name
    beside = {purpose: both[purpose] / 2 for purpose in ("trees", "certificates")}
    for signers in (1, 2):
        yield {"signed": one.sign(text), "verified": signers * one.verify(text), **beside}


def ratios():
    one, load = COUNCIL.types, one_load(changes=MOST_CHANGES)
    entry = (by_purpose(load, roles=(LOG,))["trees"]) / COUNCIL.logs / MOST_CHANGES
    sign = one.sign(36)
    rows = [["to sign a statement", sign], ["to make its leaf", one.key / one.leaves], ["to verify it", one.verify(36)],
            [f"to set a name in a table of {whole(NAMES)} at a log", entry]]
    return table(["", "compressions", "to sign is 1"], [[what, whole(count), f"{count / sign:.2f}"] for what, count in rows])


def costs():
    rows = []
    for title in YEARS:
        found = [cost(title, names) for names in SIZES]
        rows.append([title, *(f"{short(one.processors)} and {short(one.clients)}" for one in found)])
    tables = [one.tables for one in found]
    rows.append(["tables", *map(whole, tables)])
    rows.append(["logs and authorities", *(whole((COUNCIL.logs + COUNCIL.authorities) * count) for count in tables)])
    rows.append(["the first keys of all of them", *(size_of(directory() * count) for count in tables)])
    return table([ASKED, *(f"{whole(names)} names" for names in SIZES)], rows)


SHARES = {"keys of logs and authorities": (["keys"], (LOG, AUTHORITY)), "keys of owners": (["keys"], (OWNER,)),
          "signatures made": (["signed"], ROLES), "signatures verified": (["verified"], ROLES),
          "trees and certificates": (["trees", "certificates"], ROLES)}


def shares(title):
    """Which part of the cost of a year each purpose has, of 1, in the order of SHARES."""
    counts = []
    for purposes, roles in SHARES.values():
        found = by_purpose(YEARS[title], roles=roles)
        counts.append(seconds({purpose: found[purpose] for purpose in purposes}))
    return [count / sum(counts) for count in counts]


def share_table():
    rows = [[what, *(f"{100 * shares(title)[place]:.1f}" for title in YEARS)] for place, what in enumerate(SHARES)]
    return table(["of 100", *YEARS], rows)


def notes():
    """What clients have to learn in a year of one table, to know the keys of its logs and authorities."""
    sentences = []
    for title in (HOURLY, DAILY):
        count = sum(YEARS[title].rolls.values())
        sentences.append(f"{title}: {whole(count)} RollNotes a year for each table, {size_of(count * roll_bytes(COUNCIL))}; "
                         f"as keys that were learnt, {size_of(count * 64)}.")
    return listing(sentences)


def lasting():
    rows = []
    for years in (1, 5, 10):
        names = int(MOST_KEPT // (1 + years))
        tables = [math.ceil(size / names) for size in SIZES[1:]]
        rows.append([whole(years), whole(names), *map(whole, tables), size_of(directory() * tables[1])])
    return table(["years that a table lasts", "names in it", "tables for a million names", "for 350 million",
                  "the first keys of these"], rows)


def shared_out():
    """How many tables it takes where a digest shares the names out, so that the fullest has no more than NAMES."""
    counts = []
    for names in SIZES[1:]:
        tables = math.ceil(names / NAMES)
        while names / tables + math.sqrt(2 * names / tables * math.log(tables)) > NAMES:
            tables += max(1, tables // 1000)
        counts.append(tables)
    hourly, daily = (epochs * MOST_CHANGES // 2 for epochs in (HOUR, DAY))
    return listing([
        f"Shared out by a digest, tables fill unevenly. So that not even the fullest has more than {whole(NAMES)} names, "
        f"a million names want some {whole(counts[0])} tables, and 350 million some {whole(counts[1])}.",
        f"Without the bound on certificates, {MOST_CHANGES} changes an epoch, which is a format, would let a table have "
        f"{whole(hourly)} names with epochs of an hour, and {whole(daily)} with epochs of a day: "
        f"{whole(math.ceil(SIZES[2] / hourly))} and {whole(math.ceil(SIZES[2] / daily))} tables for 350 million names.",
    ])


MAPS = (10, 14, 18)  # the bits of the maps that the page has
STEP_BYTES = 32
SHOWN_HEAD = 4 + 3  # the number of the table, the size of a quorum, and how many logs and authorities there are


def map_needs(bits):
    """The compressions of a client that goes by a directory of a map: the name's key, the directory, its entry, the path."""
    return blocks(1 + HABITS[HOURLY].name) + blocks(1 + 3 + directory()) + ENTRY + bits * NODE


def lasts(time):
    """A time, in seconds where they are about one."""
    return f"{time:.2f} seconds" if 0.1 <= time < 1.5 else span(time)


def maps():
    rows = []
    for bits in MAPS:
        tables, path, shown = 2 ** bits, STEP_BYTES * bits, SHOWN_HEAD + directory()
        root = tables * (blocks(1 + 3 + directory()) + ENTRY) + (tables - 1) * NODE
        spent = seconds({"trees": map_needs(bits)})
        rows.append([whole(tables), whole(NAMES * tables), whole(path), whole(shown), whole(map_needs(bits)),
                     f"{100 * spent / verdict(COUNCIL.types):.1f}", lasts(seconds({"trees": root}))])
    return table(["tables", f"names, {whole(NAMES)} each", "bytes of the path", "and of the directory",
                  "compressions of a visit more", "of 100 of a verdict", "to make the root, on one processor"], rows)


def filled():
    rows = []
    for bits in MAPS:
        rows.append([whole(2 ** bits), whole(2 ** bits), whole(MOST_KEPT * 2 ** bits),
                     lasts(seconds({"trees": MOST_KEPT * 2 ** bits * blocks(1 + HABITS[HOURLY].name)}))])
    return (table(["tables", "hashes for one name in a table", f"for {whole(MOST_KEPT)} names in it", "on one processor"], rows)
            + f"\n\nA table takes {whole(MOST_KEPT)} certificates, so to fill it takes "
            f"{whole(COUNCIL.endorsers * MOST_KEPT)} endorsements, and {whole(MOST_KEPT / MOST_CHANGES)} epochs of "
            f"{MOST_CHANGES} changes each, whether they are of one name or of many.")


def model():
    """Of each figure the measured and the counted one of the longest run, and the greatest error of all runs."""
    lines, rows = {}, []
    for title, measured, counted in compared():
        run, found, rest = title.partition(" run: ")
        lines.setdefault(rest if found else title, []).append((measured, counted))
    for title, pairs in lines.items():
        measured, counted = pairs[-1]
        worst = max((100 * (counted / measured - 1) for measured, counted in pairs), key=abs)
        rows.append([title, whole(measured), whole(counted), f"{worst:+.2f}"])
    return table(["figure", "measured", "counted", "greatest error, of 100"], rows)


BLOCKS = {"answer": answer, "assumed": assumed, "leaves": leaves, "keys": key_times, "bytes": byte_sizes, "sent": sent,
          "visits": visits, "rates": rates, "ratios": ratios, "costs": costs, "shares": share_table, "notes": notes,
          "lasting": lasting, "shared": shared_out, "maps": maps, "filled": filled, "model": model}


def year_of(names, epochs, asks):
    """What a year costs for so many names, where there are so many epochs, in lines."""
    load = a_year(COUNCIL, Habit(epochs, asks), NAMES)
    signed, part = leaves_of(COUNCIL, load), names / NAMES / SECONDS
    busy = [seconds(by_purpose(load, roles=roles)) * part for roles in ((LOG,), (AUTHORITY,), (OWNER,), (CLIENT,))]
    keys = generations(COUNCIL.types, signed[AUTHORITY])
    return "\n".join([
        f"{whole(math.ceil(names / NAMES))} tables of {whole(NAMES)} names, which are full after the year",
        *(f"{short(count)} processors of {role}, busy the year round" for count, role in zip(busy, ROLES.values())),
        f"each log signs {whole(signed[LOG])} statements and sends {size_of(per_log(load))}",
        f"each authority signs {whole(signed[AUTHORITY])} statements and uses {whole(keys)} keys of {GENERATIONS:,}",
    ])
