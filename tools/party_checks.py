"""What tools/network holds a run to: what journals have, what leaves signed, how epochs ended, and what clients were told.

A check that fails is a finding of a kind. Nothing here asks a party: journals are read by docs/FORMATS.md, signatures are
judged by `arpki audit` and answers by `arpki check`."""
import collections
import hashlib
import struct
import subprocess

# What may be found, and how the last line says how often.
KINDS = {
    "lost": "answered texts lost",
    "other": "texts that are others",
    "leaf": "leaves with two texts",
    "conflict": "conflicts or bad signatures of honest parties by audit",
    "ways": "epochs ended in two ways",
    "roots": "epochs with two roots",
    "answer": "wrong answers to clients",
    "ended": "processes that ended by themselves",
    "silence": "clients that were never answered",
}
# Of an input of `arpki audit`, the most bytes and statements.
MOST_BYTES, MOST_STATEMENTS = 1_048_576, 10_000
# By how many epochs an answer may be older than its question.
AGE = 5
# The kinds of statements that name an epoch: votes, confirmations of either form, and statuses, on which audit has rules.
WITH_EPOCH = {4, 6, 7, 9}
ROLE_NUMBERS = {"L": 1, "A": 2, "D": 3}
LETTERS = {1: "L", 2: "A"}


class Findings:
    """What was found to be wrong."""

    def __init__(self):
        self.counts = collections.Counter()

    def find(self, kind, text, times=1):
        self.counts[kind] += times
        print(f"FOUND {text}", flush=True)

    def __bool__(self):
        return any(self.counts.values())

    def told(self):
        return ", ".join(f"{self.counts[kind]} {what}" for kind, what in KINDS.items())


# ---- journals


def mark_of(name, key, directory):
    """The first bytes of a party's journal, of the text of its first key and of its directory."""
    role = ROLE_NUMBERS[name[0]]
    digest = hashlib.sha256(bytes([role]) + struct.pack(">H", int(name[1:])) + key + directory).digest()
    return b"ARP" + name[0].encode() + digest[:4]


def texts_in(file, mark):
    """The texts of a journal, up to the first gate that is not open; None where it is no journal of this mark."""
    if len(file) <= 9:
        return []
    if file[:8] != mark:
        return None
    at, texts = 8, []
    while file[at] == 1:
        length = int.from_bytes(file[at + 1:at + 5], "big")
        if at + 5 + length >= len(file):
            return None  # the gate of the next one has to stand behind it
        texts.append(file[at + 5:at + 5 + length])
        at += 5 + length
    return texts


class Wanted(collections.namedtuple("Wanted", "front length digest")):
    """What a text of a journal has to be: how it begins, how long it is, and the digest of the certificate in it, where that is
    known."""

    def __new__(cls, front, length=None, digest=None):
        return super().__new__(cls, front, length, digest)

    def fits(self, text):
        if not text.startswith(self.front) or (self.length is not None and len(text) != self.length):
            return False
        return self.digest is None or hashlib.sha256(b"\x10" + certificate_in(text)).hexdigest() == self.digest


def certificate_in(text):
    """The certificate of an owner's text that makes a draft."""
    return text[2 + 2 * text[1]:] if text[0] == 2 else text[1:]


def exact(text):
    return Wanted(text, len(text))


def wanted_of(role, line):
    """The text that a journal has of a line once it is answered, unless it is refused; None where it has none."""
    words = line.split(" ")
    if len(words) == 1:
        return exact(b"\1" + bytes.fromhex(line))
    number = lambda at: struct.pack(">Q", int(words[at]))
    if role == "owner":
        return {"handover": lambda: exact(b"\4" + number(2)), "object": lambda: exact(b"\6" + number(2)),
                "submit": lambda: None}.get(words[0], lambda: Wanted(b"\2"))()
    if role == "authority" and words[0] in ("teach", "forget"):
        kind = b"\3" if words[0] == "teach" else b"\4"
        return exact(kind + bytes.fromhex(words[3]) + words[2].encode())
    kinds = {"log": {"propose": b"\2", "pass": b"\3", "roll": b"\4"}, "authority": {"roll": b"\2", "retire": b"\5"}}
    kind = kinds[role][words[0]]
    return Wanted(kind, 57) if words[0] == "roll" else exact(kind)


class Journal:
    """What a party answered, beside the file that has to have it."""

    def __init__(self, findings, name, path, mark):
        self.findings, self.name, self.path, self.mark = findings, name, path, mark
        self.answered = []

    def look(self, given, taken=None):
        """Compares the file, which no process has open, with what was answered; how many texts it has. It may have one more, of
        the line that was given and whose answer was not heard: it has to where a line left the party that says that it took it
        (`taken` is true), and must not where it refused it (false)."""
        texts = texts_in(self.path.read_bytes() if self.path.exists() else b"", self.mark)
        if texts is None:
            self.findings.find("other", f"{self.name}: its file is no journal of its own")
            return len(self.answered)
        wanted = self.answered + ([given] if given and taken is not False else [])
        least = len(wanted) if taken else len(self.answered)
        if len(texts) < least:
            self.findings.find("lost", f"{self.name} has {len(texts)} of {least} texts that were answered", least - len(texts))
        if len(texts) > len(wanted):
            self.findings.find("other", f"{self.name} has {len(texts)} texts, and {len(wanted)} lines were given that have one")
        wrong = sum(not what.fits(text) for what, text in zip(wanted, texts))
        if wrong:
            self.findings.find("other", f"{self.name} has {wrong} texts that are not what was answered", wrong)
        return len(texts)


# ---- signatures


def leaf_of(statement):
    """The generation and the leaf that signed a statement."""
    return statement.signature[:8]


def epoch_of(statement):
    """The epoch that a statement names behind its kind, role and number; None where its kind names none."""
    return statement.text[4:12] if statement.text[0] in WITH_EPOCH else None


class Leaves:
    """What was signed, by party and leaf."""

    def __init__(self, findings, dishonest):
        self.findings, self.dishonest = findings, dishonest
        self.texts = {}  # of honest parties: by party, generation and leaf
        self.statements = {}  # by text and signature: the statement, and whether an honest party sent it
        self.ignored = set()  # the texts and signatures that are no evidence, as audit tells them
        self.caught = collections.Counter()  # conflicts of dishonest parties, as audit tells them

    def sent(self, statements, by_honest):
        """Takes the statements of logs and authorities in a message."""
        for one in statements:
            at = one.text, one.signature
            self.statements[at] = one, by_honest or self.statements.get(at, (one, False))[1]
            if by_honest and self.who(one) not in self.dishonest:
                self.signed((self.who(one), *(one.signature[:8][i:i + 4].hex() for i in (0, 4))), one.text)

    @staticmethod
    def who(statement):
        return LETTERS.get(statement.role, "?") + str(statement.number)

    def signed(self, leaf, text):
        """Takes that a leaf of an honest party signed a text."""
        if self.texts.setdefault(leaf, text) != text:
            self.findings.find("leaf", f"leaf {leaf[2]} of generation {leaf[1]} of {leaf[0]} signed two texts")

    def batches(self, room, together):
        """The statements of each party in inputs of `audit`; those to which `together` gives one thing are in one, and those to
        which it gives None, or that were not valid before, in none."""
        groups = collections.defaultdict(list)
        for at, (one, honest) in self.statements.items():
            if together(one) is not None and at not in self.ignored:
                groups[(one.role, one.number, together(one))].append((one, honest))
        batch, size = [], 0
        for at in sorted(groups):
            more = sum(2 * len(one.text) + 2 * len(one.signature) + 12 for one, _ in groups[at])
            if batch and (size + more > room or len(batch) + len(groups[at]) > MOST_STATEMENTS):
                yield batch
                batch, size = [], 0
            batch += groups[at]
            size += more
        if batch:
            yield batch

    def audit(self, program, directory):
        """Has `arpki audit` judge all of them, those of one leaf in one input; and then those that name an epoch once more, those
        of one epoch in one input, since its rules are on the two. How many are valid."""
        room = MOST_BYTES - sum(len(line) + 1 for line in directory)
        valid = sum(self.judged(program, directory, batch) for batch in self.batches(room, leaf_of))
        for batch in self.batches(room, epoch_of):
            self.judged(program, directory, batch)
        return valid

    def judged(self, program, directory, batch):
        """Has `arpki audit` judge these: how many are valid."""
        lines = [*directory, *(f"statement {one.text.hex()} {one.signature.hex()}" for one, _ in batch)]
        run = subprocess.run([program, "audit"], input=("\n".join(lines) + "\n").encode(), stdout=subprocess.PIPE, check=False)
        *told, last = run.stdout.decode().splitlines() or [f"nothing, with status {run.returncode}"]
        words = last.split(" ")
        if words[0] != "audited" or int(words[1]) != len(batch):
            self.findings.find("conflict", f"audit does not judge {len(batch)} statements: {last}")
            return 0
        for line in told:
            self.told(line.split(" "), batch, len(directory))
        return int(words[3])

    def told(self, words, batch, before):
        """What a line of `audit` says of a batch that stands behind so many lines."""
        if words[0] == "conflict" and words[1] in self.dishonest:
            self.caught[words[1]] += 1
        elif words[0] == "conflict":
            self.findings.find("conflict", f"audit: {' '.join(words)}")
        elif words[0] == "ignored":
            one, by_honest = batch[int(words[1]) - before - 1]
            self.ignored.add((one.text, one.signature))
            if by_honest:
                self.findings.find("conflict", f"what an honest party sent of {self.who(one)} is not valid: {' '.join(words)}")


# ---- epochs


class Epochs:
    """How epochs ended at honest logs, and what they confirmed."""

    def __init__(self, findings):
        self.findings = findings
        self.ways = collections.defaultdict(dict)  # by epoch, of each log
        self.confirmed = collections.defaultdict(set)  # by epoch: the roots
        self.table = collections.defaultdict(dict)  # by name: the certificate's digest, by the epoch that decided it

    def ended(self, log, epoch, how):
        """How an epoch ended at a log: `skipped`, or `decided` and the root."""
        if self.ways[epoch].setdefault(log, how) != how:
            self.findings.find("ways", f"epoch {epoch} ended twice at {log}")
        others = {way for other, way in self.ways[epoch].items() if other != log and way != how}
        if others:
            self.findings.find("ways", f"epoch {epoch} ended at {log} as '{how}', and at others as {sorted(others)}")

    def decided(self, epoch, changes):
        """The changes of a Decision that an honest log sent."""
        for change in changes:
            at = change.bytes[2:]
            name = at[2:2 + at[1]].decode("latin-1")
            self.table[name][epoch] = change.digest

    def newest(self, name, epoch):
        """The certificate that a name has behind an epoch."""
        of_name = self.table.get(name, {})
        return of_name.get(max((e for e in of_name if e <= epoch), default=None))

    def root(self, epoch):
        """The root that the honest logs ended an epoch with, or None."""
        return next((how.split(" ")[1] for how in self.ways.get(epoch, {}).values() if how.startswith("decided ")), None)

    def any_root(self):
        """Whether an epoch ended with a root."""
        return any(self.root(epoch) for epoch in list(self.ways))

    def confirm(self, who, epoch, root):
        """A root that an honest log confirmed, or that a client accepted."""
        root = root.hex() if isinstance(root, bytes) else root
        if root not in self.confirmed[epoch]:
            self.confirmed[epoch].add(root)
            if len(self.confirmed[epoch]) > 1:
                self.findings.find("roots", f"{who} has another root of epoch {epoch} than was confirmed before")
        if self.root(epoch) not in (None, root):
            self.findings.find("roots", f"{who} has another root of epoch {epoch} than it ended with")


# ---- clients


class Answers:
    """What clients were told, and whether that may be."""

    def __init__(self, findings, epochs, program):
        self.findings, self.epochs, self.program = findings, epochs, program
        self.verdicts = collections.Counter()
        self.revoked = set()  # the names whose last certificate revokes

    def judge(self, directory, name, epoch, answer, honest):
        """Has `arpki check` judge an answer, or None; `honest` where all who signed it are. The verdict in a word."""
        if answer is None:
            verdict = ["unanswered"]
        else:
            lines = [*directory, f"name {name}", f"now {epoch}", f"age {AGE}", f"confirmation {answer.hex()}"]
            text = ("\n".join(lines) + "\n").encode()
            run = subprocess.run([self.program, "check"], input=text, stdout=subprocess.PIPE, check=False)
            verdict = run.stdout.decode().split()
        word = verdict[0] if verdict else f"status {run.returncode}"
        self.verdicts[word] += 1
        if word in ("accepted", "absent"):
            said = dict(zip(verdict[2::2], verdict[3::2]))
            self.compare(name, int(said["epoch"]), said["root"], said.get("certificate"))
        elif answer is not None and honest and not self.may_refuse(verdict, name, epoch, answer):
            self.findings.find("answer", f"the answer of honest parties about {name} in epoch {epoch}: {' '.join(verdict)}")
        return word

    def count_accepted(self):
        """How many answers were accepted: a certificate, or that there is none."""
        return self.verdicts["accepted"] + self.verdicts["absent"]

    def may_refuse(self, verdict, name, epoch, answer):
        """Whether a client may refuse what honest parties answer: the name is revoked, or the answer comes late."""
        is_late = int.from_bytes(answer[4:12], "big") + AGE < epoch
        return (verdict == ["refused", "10"] and name in self.revoked) or (verdict == ["refused", "9"] and is_late)

    def compare(self, name, epoch, root, certificate):
        """Compares what a client takes for true with what was decided."""
        self.epochs.confirm(f"a client who asked for {name}", epoch, root)
        newest = self.epochs.newest(name, epoch)
        if (newest.hex() if newest else None) != certificate:
            taken, decided = certificate or "no certificate", newest.hex() if newest else "none"
            self.findings.find("answer", f"a client takes {taken} for that of {name} in epoch {epoch}, and {decided} was decided")
