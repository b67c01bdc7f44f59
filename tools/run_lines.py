"""The lines that `arpki play` writes, and what they say: the parties, the messages and what happened, and what a script
tells beyond them, its comments and what composed bytes are made to be. The tools that show a run stand on this.
"""
import dataclasses
import re

# The kinds of messages, in the order of their numbers, and what each is.
KINDS = {
    "EndorseAsk": "an owner asks for an endorsement", "Endorsed": "an authority endorses the certificate",
    "Submit": "an owner's change, to the logs", "Propose": "a log proposes the epoch's table",
    "Ballot": "a vote for it; the proposer's is not sent", "StatusNote": "what a log did in the epoch",
    "Decision": "the table, with a quorum's votes", "SkipNote": "no table can have a quorum",
    "ConfirmAsk": "a client asks for a name", "LogConfirmed": "the answer, signed by a log",
    "HalfConfirmed": "signed by an authority too", "Confirmation": "signed by both authorities",
    "RollNote": "the next key of a party",
}
STATEMENTS = {
    1: "Endorse", 2: "Handover", 3: "Propose", 4: "Vote", 6: "Confirm", 7: "ConfirmAbsent", 8: "Answer", 9: "Status",
    10: "Roll", 11: "Object",
}
# The column of the bytes that a script composes.
SCRIPT = "script"

# What a client's check and a party's refusal say, in a few words (docs/PROTOCOL.md).
CHECKS = {
    "1": "no confirmation", "2": "of another name", "3": "parties that are not known, or are one",
    "4": "not signed by the log", "5": "not signed by the first authority", "6": "not signed by the second authority",
    "7": "the path does not lead to the root", "8": "of a later epoch", "9": "too old", "10": "revoked", "11": "expired",
}
CODES = {
    "L1": "no message", "L2": "not for a log", "L3": "a signer is not known", "L4": "a signature is not valid",
    "L5": "the log is in another epoch, told behind it", "L6": "not its turn", "L7": "it has voted",
    "L8": "it has stated what it did", "L9": "of another table",
    "L10": "the table refuses a change, by a clause told last", "L11": "the changes lead to another root",
    "L12": "too few votes", "L13": "the queue is full", "L14": "no leaf is left",
    "L15": "a root may still have a quorum", "L16": "another next key is known", "L17": "no generation is left",
    "A1": "no message", "A2": "not for this authority", "A3": "a signer is not known", "A4": "a signature is not valid",
    "A5": "too few votes", "A6": "the path does not lead to the root", "A7": "the two authorities are one",
    "A8": "its check failed", "A9": "its check says no", "A10": "no leaf is left", "A11": "another next key is known",
    "A12": "no generation is left", "O1": "no message", "O2": "not for this owner", "O3": "the authority is not known",
    "O4": "a signature is not valid", "O5": "no such draft", "O6": "it has all endorsements", "O7": "no leaf is left",
    "O8": "another next key is known",
}
# The tests of a signature that are not those of one key alone: what L4, A4 and O4 tell with these numbers at their end.
TESTS = {"6": "signed by a key that is not known", "7": "a last leaf signs what it must not"}
# What the values behind a code are.
VALUES = {
    "L1": ["at byte"], "L3": ["who"], "L4": ["who", "test"], "L5": ["it is in epoch"], "L6": ["it is the turn of log"],
    "L7": ["for the root"], "L9": ["its own root"], "L10": ["change", "clause"], "L11": ["the root"], "L12": ["votes"],
    "L15": ["the root", "stated by so many"], "L16": ["who", "generation"],
    "A1": ["at byte"], "A3": ["who"], "A4": ["who", "test"], "A5": ["votes"], "A11": ["who", "generation"],
    "O1": ["at byte"], "O3": ["who"], "O4": ["who", "test"], "O8": ["who", "generation"],
}
# The clauses of the policy rule, which L10 tells last.
CLAUSES = {
    "1": "what is there is revoked", "2": "another name", "3": "another serial number is next",
    "4": "previous is not the digest of what is there", "5": "fewer than three authorities endorse it",
    "6": "too few of the authorities that the old policy trusts endorse it", "7": "the old key did not hand over",
    "8": "the new policy is not well formed", "9": "another recovery is pending", "10": "nothing such is pending",
    "11": "the objection's signature is not valid", "full": "the table is full",
}
# Why a directory does not learn a message, and why a line of a script is refused.
UNLEARNT = {
    "form": "it is no RollNote", "unknown": "the directory does not have its party",
    "bad": "its signature is not valid, by the test told behind it", "other": "another next key is known already",
}
REASONS = {
    "text": "a byte is not of printable ASCII", "word": "no line begins with its first word",
    "words": "it has more or fewer words", "field": "a word is not of its form or range",
    "order": "it may not come now", "none": "a word names nothing of its kind", "limit": "there is no room for more",
}


def in_words(code):
    """(what stands for it, what it means) of a code with its values, as `L4 A2 6`."""
    words = code.split(" ")
    if words[0] in ("L4", "A4", "O4") and words[-1] in TESTS:
        return f"{words[0]} .. {words[-1]}", TESTS[words[-1]]
    return words[0], CODES.get(words[0], "")


def explained(code):
    """A code with its values in words."""
    name, *values = code.split(" ")
    told = [f"{what} {value}" for what, value in zip(VALUES.get(name, []), values)]
    if name == "L10":
        told[-1:] = [f"clause {values[-1]}: {CLAUSES.get(values[-1], '')}"]
    return "; ".join([in_words(code)[1].split(",")[0], *told])


# What is read: the lines of a run.


class NoRun(Exception):
    """A line that `arpki play` does not write, or a script that is not the one whose lines these are."""


@dataclasses.dataclass
class Message:
    number: int
    kind: str
    sender: str
    to: str
    digest: str
    taken: bool = False


@dataclasses.dataclass
class Step:
    """A party takes a message or does what it was told; `ends` is the epoch that ended in it, and how."""

    party: str
    what: str
    code: str
    ends: str = ""
    sends: bool = False


@dataclasses.dataclass
class Note:
    """Something that is said of one party."""

    party: str
    text: str
    look: str = "plain"


@dataclasses.dataclass
class Said:
    """Something that is said across the page."""

    text: str
    look: str


class Run:
    """What the lines of a run tell: its parties, its messages, and what happened, each with the place of its line."""

    def __init__(self, lines):
        self.parties, self.dishonest, self.messages, self.drafts, self.events = [], set(), {}, {}, []
        self.lines = lines
        for self.place, line in enumerate(lines):
            self.read(line)

    def read(self, line):
        for form, take in FORMS:
            found = form.fullmatch(line)
            if found:
                return take(self, *found.groups(""))
        raise NoRun(f"line {self.place + 1} is none that a run has: {line[:60]}")

    def happens(self, event):
        self.events.append((self.place, event))

    def party(self, name, _digest):
        self.parties.append(name)

    def is_dishonest(self, name):
        self.dishonest.add(name)

    def check(self, name, what):
        self.happens(Note(name, what))

    def draft(self, number, digest):
        self.drafts.setdefault(digest, number)
        self.happens(Note("", f"draft {number}"))

    def step(self, party, what, number, _ok, code):
        if what == "take":
            self.known(number).taken = True
        self.happens(Step(party, what + number, code))

    def known(self, number):
        """The message with this number."""
        if int(number) not in self.messages:
            raise NoRun(f"line {self.place + 1} names a message that no line before it has: {number.strip()}")
        return self.messages[int(number)]

    def ends(self, log, epoch, _decided, root):
        step = self.events[-1][1] if self.events else None
        if not isinstance(step, Step) or step.party != log:
            raise NoRun(f"line {self.place + 1} ends an epoch behind no step of {log}")
        step.ends = f"epoch {epoch} decided, root {root[:8]}" if root else f"epoch {epoch} skipped"

    def message(self, number, kind, sender, to, digest):
        self.messages[int(number)] = message = Message(int(number), kind, sender, to, digest)
        last = self.events[-1][1] if self.events else None
        if isinstance(last, Step) and last.party == sender:
            last.sends = True
        if isinstance(last, Note) and not last.party:
            last.party = sender
        self.happens(message)

    def no_leaf(self, party):
        self.happens(Note(party, "sign refused", "refused"))

    def verdict(self, number, rest):
        self.happens(Said(f"{self.judge_of(number)} {number}: {self.in_words(rest.split(' '))}", rest.split(" ")[0]))

    def judge_of(self, number):
        to = self.known(number).to
        return f"{to} judges" if to[0] == "C" else "judge"

    def in_words(self, words):
        if words[0] == "refused":
            return f"refused {words[1]}, {CHECKS.get(words[1], 'a check')}"
        if words[0] == "absent":
            return f"absent: {words[1]} has no certificate in epoch {words[3]}, root {words[5][:8]}"
        draft = self.drafts.get(words[9])
        which = f"draft {draft}" if draft else "a certificate that is no draft"
        return f"accepted: {words[1]} has {which}, serial {words[3]}, in epoch {words[5]}, root {words[7][:8]}"

    def learn(self, number, how):
        look = "plain" if how == "ok" else "refused"
        self.happens(Said(f"the clients' directory learns {number}: {how}", look))

    def order(self, party, numbers):
        self.happens(Note(party, f"order {numbers}"))

    def refused(self, text):
        self.happens(Said(f"the script is refused, {text}", "refused"))


PARTY = r"([LADC]\d+)"
FORMS = [
    (re.compile(form), take)
    for form, take in [
        (rf"party {PARTY} (\w+)", Run.party),
        (rf"dishonest {PARTY}", Run.is_dishonest),
        (rf"{PARTY} (taught|forgot|retired)", Run.check),
        (r"draft (\d+) (\w+)", Run.draft),
        (rf"{PARTY} (take|propose|pass|roll|submit|handover|object)((?: \d+)?) (ok|refused (.+))", Run.step),
        (rf"{PARTY} ended (\d+) (decided (\w+)|skipped)", Run.ends),
        (rf"message (\d+) (\w+) from ({PARTY[1:-1]}|none) to ({PARTY[1:-1]}|logs|none) \d+ (\w+)", Run.message),
        (rf"{PARTY} sign refused", Run.no_leaf),
        (r"judge (\d+) ((?:accepted|absent|refused) .+)", Run.verdict),
        (r"learn (\d+) (ok|refused .+)", Run.learn),
        (rf"order {PARTY} ?([\d ]*)", Run.order),
        (r"(line \d+: .+)", Run.refused),
    ]
]


# What the script tells: where its comments stand, and what composed bytes are made to be.

# The line of a run that a line of a script begins with; {1} is the line's first field.
HEADS = {
    "logs": "party L0 .*", "authorities": "party A0 .*", "dishonest": "dishonest {1}", "owner": "party {1} .*",
    "teach": "{1} taught", "forget": "{1} forgot", "retire": "{1} retired", "register": "draft .*", "update": "draft .*",
    "revoke": "draft .*", "handover": "{1} handover {2} .*", "object": "{1} object {2} .*", "submit": r"D\d+ submit {1} .*",
    "propose": "{1} propose .*", "pass": "{1} pass .*", "roll": "{1} roll .*", "learn": "learn {1} .*",
    "ask": r"message \d+ ConfirmAsk from {5} .*", "deliver": "{2} take {1} .*", "judge": "judge .*",
    "sign": r"message (\d+) Raw from {1} to none .*|{1} sign refused", "inject": r"message (\d+) Raw from none to {1} .*",
}

# The lines that make so many parties, and the letter of these.
COUNTED = {"logs": "L", "authorities": "A"}

# What a line of a script may write behind its first line.
FOLLOWS = re.compile(r"party [LA]\d+ |[LAD]\d+ take |[LA]\d+ ended |message \d+ (?!Raw )|order ")


# The first words that a line of a script may have.
WORDS = {*HEADS, "secret", "keys", "flush", "burst", "end"}


def refused_line(run):
    """The number of the script's line that was refused, and why; 0 where none was."""
    found = re.match(r"line (\d+): (.+)", run.lines[-1]) if run.lines else None
    return (int(found.group(1)), found.group(2)) if found else (0, "")


def may_be_refused(line, reason):
    """Whether a line may be refused for this reason, as far as its first word and the number of its words tell."""
    words, is_text = line.split(" "), re.fullmatch("[ -~]*", line)
    name, *place = reason.split(" ")
    if not line or line.startswith("#"):
        return name == "limit"
    if name in ("text", "word"):
        return not is_text if name == "text" else is_text and words[0] not in WORDS
    return name == "limit" or is_text and words[0] in WORDS and all(int(word) < len(words) for word in place)


def read_script(path):
    """The text of a script, whatever its bytes, with its line ends as they are."""
    return path.read_bytes().decode(errors="replace")


def script_lines(text):
    """The lines of a script: a newline ends one, and nothing else."""
    return text.removesuffix("\n").split("\n")


class Script:
    """The comments of a script, by the place of the run's line that they stand before, and the names of composed bytes.

    `places` has for each number of a line of the script the place of the run's line that it begins, where it writes one.
    """

    def __init__(self, text, run):
        self.comments, self.names, self.place, self.places, self.in_burst = {}, {}, 0, {}, False
        self.refused, reason = refused_line(run)
        waiting = []
        lines = script_lines(text)
        if self.refused > len(lines):
            raise NoRun(f"this is no run of the script: it has no line {self.refused}")
        for number, line in enumerate(lines, 1):
            if line.startswith("#"):
                waiting.append(line[1:].strip())
            elif number != self.refused and self.find(number, line.split(" "), run):
                self.comments.setdefault(self.place - 1, []).extend(waiting)
                waiting = []
            if number == self.refused:
                if not may_be_refused(line, reason):
                    raise NoRun(f"this is no run of the script: its line {number} is not refused by `{reason}`: {line[:60]}")
                break
        self.passes(len(run.lines) - bool(self.refused), run, "the end of the script")
        if not self.refused:
            self.comments.setdefault(len(run.lines), []).extend(waiting)

    def find(self, number, words, run):
        """Goes to the line of the run that this line of the script begins with, if it begins with one."""
        if words[0] in ("burst", "end"):
            self.in_burst = words[0] == "burst"
        # What is brought in a burst is printed party by party, and not line by line.
        if words[0] not in HEADS or self.in_burst:
            return False
        if words[0] in COUNTED and [party[0] for party in run.parties].count(COUNTED[words[0]]) != int(words[1]):
            raise NoRun(f"this is no run of the script: it has other {words[0]} than line {number}: {' '.join(words)[:60]}")
        form = re.compile(HEADS[words[0]].format(*map(re.escape, words), *[""] * 6))
        for place in range(self.place, len(run.lines)):
            found = form.fullmatch(run.lines[place])
            if found:
                self.passes(place, run, f"line {number} of the script")
                self.place, self.places[number] = place + 1, place
                if words[0] in ("sign", "inject") and found.group(1):
                    self.names[int(found.group(1))] = self.composed(words, run)
                return True
        raise NoRun(f"this is no run of the script: nothing in it is of its line {number}: {' '.join(words)[:60]}")

    def passes(self, place, run, what):
        """Between two lines of a script stand the keys, steps and messages that the first of them makes, and no other."""
        for between in range(self.place, place):
            if not FOLLOWS.match(run.lines[between]):
                raise NoRun(f"this is no run of the script: line {between + 1} of the run stands before {what}: "
                            + run.lines[between][:60])
        self.place = place

    def composed(self, words, run):
        """What the bytes are made to be, by the first of them."""
        first = next((piece for piece in words[2:] if piece != "x"), "x")
        if words[0] == "sign":
            name = STATEMENTS.get(byte_of(first), "text")
            return f"signs {'an' if name[0] in 'AEO' else 'a'} {name}"
        copied = re.fullmatch(r"m(\d+):0:\d+", first)
        if copied:
            message = run.messages.get(int(copied.group(1)))
            return self.names.get(message.number, message.kind) if message else "Raw"
        return dict(enumerate(KINDS, 1)).get(byte_of(first), "Raw")


def byte_of(piece):
    """The first byte of a piece in hex, and 0 where there is none."""
    return int(piece[1:3], 16) if re.match("x[0-9a-f]{2}", piece) else 0
