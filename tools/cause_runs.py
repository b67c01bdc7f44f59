"""What the stored runs print of causes and of refused lines, for tools/causes.

A run is an example of examples/, by its place there. What it prints is read from its stored output, and which line or message
it is about from its input.
"""
import collections
import gzip
import pathlib
import re

TOP = pathlib.Path(__file__).resolve().parent.parent
EXAMPLES = TOP / "examples"
# The commands whose inputs are scripts.
SCRIPTS = ("causes", "crowd", "play", "restart")
REFUSED = re.compile(r"([LAD])\d+ (take \d+|propose|pass|roll|handover \d+|submit \d+|object \d+) refused ([LAO]\d+)((?: \S+)*)")
MESSAGE = re.compile(r"message (\d+) (\w+) ")
LINE = re.compile(r"line (\d+): (.+)")
KINDS = ("none", "EndorseAsk", "Endorsed", "Submit", "Propose", "Ballot", "StatusNote", "Decision", "SkipNote", "ConfirmAsk",
         "LogConfirmed", "HalfConfirmed", "Confirmation", "RollNote")

# A refusal of a step: who refuses, the row (a kind of message, or an order), the code, and the values behind it.
Refusal = collections.namedtuple("Refusal", "role row code values")


def bytes_of(path):
    return gzip.decompress(path.read_bytes()) if path.suffix == ".gz" else path.read_bytes()


def stems(command):
    """The examples of a command, without the endings of their files."""
    found = {path.parent / path.name.split(".")[0] for path in (EXAMPLES / command).glob("*.status")}
    return sorted(found)


def part(stem, *endings):
    """The text of one of an example's files; empty where it has none of these."""
    for ending in endings:
        for path in (stem.with_suffix(ending), stem.with_suffix(ending + ".gz")):
            if path.exists():
                return bytes_of(path).decode("latin-1")
    return ""


def run_name(stem):
    return f"{stem.parent.name}/{stem.name}"


def kind_of_byte(byte):
    return KINDS[byte] if 0 < byte < len(KINDS) else "bytes"


def kind_of_pieces(words, kinds):
    """The kind of message that pieces spell, by the first byte; `bytes` where it is the kind of none."""
    for word in words:
        if word.startswith("x") and len(word) > 2:
            return kind_of_byte(int(word[1:3], 16))
        number, begin, end = (word[1:].split(":") + ["0", "0"])[:3] if word.startswith("m") else ("0", "0", "0")
        if begin != end:
            return kinds.get(int(number), "bytes") if begin == "0" else "bytes"
    return "bytes"


def composed_kinds(script, printed):
    """The kind of each message of a script, with those that it composes by what they spell."""
    kinds, raw = {}, []
    for line in script.split("\n"):
        words = line.split(" ")
        if words[0] in ("sign", "inject") and len(words) > 2:
            raw.append((words[0], words[2:]))
    composed = iter(raw)
    for number, kind in MESSAGE.findall(printed):
        if kind == "Raw":
            order, pieces = next(composed, ("sign", []))
            kind = kind_of_pieces(pieces, kinds) if order == "inject" else "bytes"
        kinds[int(number)] = kind
    return kinds


def refusals_of_script(script, printed):
    """Each refusal of a step that a script prints."""
    kinds = composed_kinds(script, printed)
    for role, what, code, values in REFUSED.findall(printed):
        word, _, number = what.partition(" ")
        row = kinds.get(int(number), "bytes") if word == "take" else word
        yield Refusal(role, row, code, values.split())


def refusals_of_party(lines, printed):
    """Each refusal of a step that a party prints: `take` has the number of a line."""
    for role, what, code, values in REFUSED.findall(printed):
        word, _, number = what.partition(" ")
        row = word
        if word == "take":
            line = lines[int(number) - 1]
            row = kind_of_byte(int(line[:2], 16)) if re.match("[0-9a-f]{2}", line) else "bytes"
        yield Refusal(role, row, code, values.split())


def all_refusals():
    """A run of each command for each refusal of a step that one prints."""
    found = {}
    for command in SCRIPTS:
        for stem in stems(command):
            for refusal in refusals_of_script(part(stem, ".in"), part(stem, ".out")):
                found.setdefault((stem.parent.name, *refusal[:3], tuple(refusal.values)), run_name(stem))
    for stem in stems("party"):
        for refusal in refusals_of_party(part(stem, ".in").split("\n"), part(stem, ".out")):
            found.setdefault((stem.parent.name, *refusal[:3], tuple(refusal.values)), run_name(stem))
    return [(Refusal(*key[1:]), run) for key, run in found.items()]


def refused_lines(command):
    """(reason, line, run) of each refused line that the runs of a command print."""
    for stem in stems(command):
        lines = part(stem, ".in", ".hex").split("\n")
        for number, reason in LINE.findall(part(stem, ".out")):
            at = int(number) - 1
            yield reason, lines[at] if 0 <= at < len(lines) else "", run_name(stem)


def refused_rows():
    """(reason, line, run) of each line that is refused behind a script."""
    for path in sorted((EXAMPLES / "refused-lines").glob("*.lines")):
        for row in path.read_bytes().decode("latin-1").split("\n")[:-1]:
            reason, line = row.split("\t", 1)
            yield reason, line, f"refused-lines/{path.stem}"


def printed_lines(command):
    """(line, run) of each line that the runs of a command print."""
    for stem in stems(command):
        for line in part(stem, ".out").split("\n"):
            yield line, run_name(stem)
