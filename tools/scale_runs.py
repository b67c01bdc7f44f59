"""Runs of `make <n> run`: what was measured of them, and what tools/scale_model.py says of them.

Measured is what tools/script_needs.py plays: it makes each message, and prints what the program prints. The figures
stand in tools/scale-runs.tsv, a line each and a column for each number of domains; docs/PERFORMANCE.md has others.
"""
import collections
import pathlib

import pages
from hash_needs import ENTRY, NODE, blocks
from scale_model import (Council, Types, decision_bytes, likely_steps, likely_tree, made_script, message_needs, messages, needs,
                         statements)
from script_needs import AUTHORITY, CLIENT, LOG, OWNER

FILE = pathlib.Path(__file__).resolve().parent / "scale-runs.tsv"
DOMAINS = (50, 100, 200, 400)
ROLES = {LOG: "logs", AUTHORITY: "authorities", OWNER: "owners", CLIENT: "clients"}
KINDS = ("EndorseAsk", "Endorsed", "Submit", "Propose", "Ballot", "Decision", "ConfirmAsk", "LogConfirmed",
         "HalfConfirmed", "Confirmation")


def measured(world):
    """The figures of a world that was played, each by its title."""
    sizes, sent, figures = {}, collections.Counter(), collections.Counter()
    for line in world.lines:
        words = line.split(" ")
        if words[0] == "message":
            sizes[words[1]], size = int(words[7]), int(words[7])
            sent[words[2]] += size
            figures["messages"] += 1
            figures["bytes of messages"] += size
        if words[0] == "message" and words[6].startswith("C") or words[1] == "take":
            figures["messages taken"] += 1
            figures["bytes taken"] += sizes[words[1] if words[0] == "message" else words[2]]
    figures.update({f"bytes of {kind}": sent[kind] for kind in KINDS})
    for role in (LOG, AUTHORITY, OWNER):
        figures[f"leaves of {ROLES[role]}"] = sum(len(node.book) for key, node in world.parties.items() if key[0] == role)
        figures[f"signatures by {ROLES[role]}"] = world.needs["made by", role]
    for role, title in ROLES.items():
        figures[f"verified by {title}"] = world.needs["verified by", role]
    for purpose in ("keys", "signed", "verified", "trees", "certificates"):
        figures[f"compressions, {purpose}"] = world.needs[purpose]
    figures["compressions, messages"] = world.needs["printed"] - blocks(len(world.printed))
    return figures


def predicted(domains):
    """The same figures by the model."""
    council, load = made_script(domains)
    figures = collections.Counter()
    for row in messages(council, load):
        figures["messages"] += row.count
        figures["bytes of messages"] += row.count * row.length
        figures["messages taken"] += row.count * row.copies
        figures["bytes taken"] += row.count * row.copies * row.length
        figures[f"bytes of {row.kind}"] += row.count * row.length
    for row in statements(council, load):
        figures[f"leaves of {ROLES[row.role]}"] += row.made
        figures[f"signatures by {ROLES[row.role]}"] += row.made
        for role, count in row.verified.items():
            figures[f"verified by {ROLES[role]}"] += count
    for purpose, count in {**needs(council, load), "messages": message_needs(council, load)}.items():
        figures[f"compressions, {purpose}"] = sum(count.values())
    return figures


def stored():
    """The figures of the runs that are kept, by title and number of domains."""
    lines = [line.split("\t") for line in FILE.read_text().splitlines() if not line.startswith("#")]
    return {title: dict(zip(map(int, lines[0][1:]), map(int, values))) for title, *values in lines[1:]}


def store(runs):
    """Keeps the figures of runs: (the number of domains, what was measured) of each."""
    lines = ["# Written by `tools/scale measure`: figures of `make <n> run`, for each n.",
             "\t".join(["figure", *(str(domains) for domains, _ in runs)])]
    lines += ["\t".join([title, *(str(figures[title]) for _, figures in runs)]) for title in runs[0][1]]
    FILE.write_text("\n".join(lines) + "\n")


def of_performance():
    """(title, measured, predicted) of figures that docs/ has already."""
    cost = lambda row, column="compressions of SHA-256": pages.number("PERFORMANCE.md", row, column)
    for lms in (5, 6):
        yield f"compressions, a key of types {lms} and 3", cost(f"`LmsKey::make`, types {lms}"), Types(lms, 3).key
    for domains in (8, 400):
        total = sum(sum(count.values()) for count in needs(*made_script(domains)).values())
        total += sum(message_needs(*made_script(domains)).values())
        yield f"compressions that ran, make {domains} run", cost(f"`make {domains} run`"), total
    names = 4096
    above = likely_tree(names, [(1, names)]).above
    yield "compressions, the root of a table", cost("`root_of`"), names * ENTRY + above * NODE
    filled = sum(ENTRY + likely_steps(count) * NODE for count in range(1, names + 1))
    yield "compressions, a table filled one by one", cost("`Trie::set`, 4,096 entries one"), filled
    wide = Council(Types(5, 3), quorum=16, endorsers=8)
    yield "bytes, a Decision of 64 changes", cost("of 2,352 bytes", "bytes"), decision_bytes(wide, 1, 1, 64)
    new, queued = cost("are new to it", "instructions"), cost("are all queued", "instructions")
    one = Types(5, 3).verify(36) * per_compression("verified")
    yield "instructions, an endorsement verified", (new - queued) / (3 * 16), one
    for ots in (4, 3):
        judged = pages.numbers(pages.figure("BROWSER.md", "one `arpki_judge`", f"types 5 and {ots}"))[1]
        three = 3 * Types(5, ots).verify(77 + len("a.example")) * per_compression("verified", ots)
        yield f"instructions, a verdict of types 5 and {ots}", judged, three


# The calls by which the costs of a compression are told, by what it is for, but of a verification (`valid`); one of a digest
# costs what one of a tree does.
CALLS = {"keys": "`LmsKey::make`, types 6", "signed": "`LmsKey::sign_at`",
         "trees": "`Trie::set`, 4,096 entries one", "certificates": "`Trie::set`, 4,096 entries one"}


def per_compression(purpose, ots=3):
    """The instructions for each compression that is needed; of a verification by the one-time type, too."""
    row = f"`valid`, types 5 and {ots}" if purpose == "verified" else CALLS[purpose]
    return pages.number("PERFORMANCE.md", row, "instructions") / pages.number("PERFORMANCE.md", row, "needed")


def speed():
    """The instructions that one processor carried out in a second, where verdicts were timed."""
    row = [pages.numbers(pages.figure("BROWSER.md", "one `arpki_judge`", f"types 5 and {ots}")) for ots in (4, 3)]
    return 1000 * sum(count for _, count in row) / sum(milliseconds for milliseconds, _ in row)


def compared():
    """(title, measured, predicted) of all that was measured."""
    kept = stored()
    for domains in DOMAINS:
        figures = predicted(domains)
        for title, values in kept.items():
            yield f"make {domains} run: {title}", values[domains], figures[title]
    yield from of_performance()
