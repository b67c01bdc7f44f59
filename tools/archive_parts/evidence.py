"""Who contradicts himself: pairs of statements of one party that SQL finds, each of which `arpki audit` judges. What is kept of a
conflict is an input of `arpki audit` that convicts by itself, and both messages.

An input of `audit` has those RollNotes of the party that lead to the newer of the two keys, and 64 at most: what is signed by a later
key than the 65th is not judged."""
import subprocess
import time

from . import reading

# Conflicts of one party and rule that are kept: one convicts. Statements that one is compared with, and seconds that `audit` may take.
MOST_OF_RULE, MOST_COMPARED, PATIENCE = 16, 8, 120
MOST_ROLLS = 64
# The kinds of statements that contradict each other where they are of one epoch, by the first of them (docs/FORMATS.md, `audit`).
AGAINST = {reading.VOTE: (reading.VOTE, reading.STATUS), reading.STATUS: (reading.VOTE, reading.STATUS)}


class Guilt:
    """Looks for conflicts."""

    def __init__(self, store, council, program, tell):
        self.store, self.base, self.council, self.program, self.tell = store, store.base, council, program, tell

    def look(self, statement, message):
        """A statement came: those that it may contradict."""
        digest = reading.sha256(statement.text)
        others = self.base.all("SELECT text, signature, message, generation FROM statement WHERE party = ? AND generation = ? AND leaf = ?"
                               " AND digest <> ? ORDER BY number LIMIT ?", statement.party, statement.generation, statement.leaf, digest,
                               MOST_COMPARED)
        kinds = AGAINST.get(statement.kind)
        if kinds:
            others += self.base.all("SELECT text, signature, message, generation FROM statement WHERE party = ? AND epoch = ?"
                                    f" AND kind IN ({', '.join('?' * len(kinds))}) AND digest <> ? ORDER BY number LIMIT ?",
                                    statement.party, statement.epoch, *kinds, digest, MOST_COMPARED)
        if statement.kind == reading.ROLL:
            others += self.base.all("SELECT text, signature, message, generation FROM statement WHERE party = ? AND kind = ?"
                                    " AND generation = ? AND digest <> ? LIMIT ?", statement.party, reading.ROLL, statement.generation, digest,
                                    MOST_COMPARED)
        for text, signature, other, generation in dict.fromkeys(others):
            self.pair(statement, message, text, signature, other, generation)

    def look_at_all(self):
        """Looks at each statement that is kept."""
        number = 0
        while True:
            rows = self.base.all("SELECT number, party, kind, epoch, generation, leaf, text, signature, message FROM statement"
                                 " WHERE number > ? ORDER BY number LIMIT 256", number)
            if not rows:
                return
            for number, *fields, message in rows:
                self.look(reading.Statement(*fields), message)

    def pair(self, statement, message, text, signature, other, generation):
        if self.base.value("SELECT COUNT(*) FROM evidence WHERE party = ?", statement.party) >= 8 * MOST_OF_RULE:
            return
        if self.base.one("SELECT 1 FROM evidence WHERE party = ? AND (one = ? AND other = ? OR one = ? AND other = ?)", statement.party,
                         message, other, other, message):
            return
        rolls = [data.hex() for data, in self.store.rolls_from(statement.party, 0)][:max(statement.generation, generation)]
        lines = [*self.council.lines, *(f"roll {roll}" for roll in rolls[:MOST_ROLLS]),
                 f"statement {text.hex()} {signature.hex()}", f"statement {statement.text.hex()} {statement.signature.hex()}"]
        rule = self.rule(lines, statement.party)
        if rule is None or self.base.value("SELECT COUNT(*) FROM evidence WHERE party = ? AND rule = ?", statement.party,
                                           rule) >= MOST_OF_RULE:
            return
        done = self.base.run("INSERT INTO evidence (party, rule, one, other, came, epoch, input) VALUES (?, ?, ?, ?, ?, ?, ?)"
                             " ON CONFLICT DO NOTHING", statement.party, rule, other, message, time.time(), statement.epoch,
                             "\n".join(lines) + "\n")
        if done.rowcount > 0:
            self.tell(f"{statement.party} contradicts itself, by rule {rule} of `arpki audit`: messages {other.hex()} and {message.hex()}", 3)

    def rule(self, lines, party):
        """The rule by which `arpki audit` convicts a party; None where it does not."""
        words = self.said(lines)
        return int(words[4]) if words[:2] == ["conflict", party] else None

    def said(self, lines):
        try:
            run = subprocess.run([self.program, "audit"], input=("\n".join(lines) + "\n").encode(), stdout=subprocess.PIPE,
                                 stderr=subprocess.DEVNULL, timeout=PATIENCE, check=False)
        except (OSError, subprocess.TimeoutExpired) as why:
            self.tell(f"{self.program} audit cannot be run: {why}", 3)
            return []
        return run.stdout.decode("ascii", "replace").split("\n")[0].split(" ")


class Judge:
    """What a client says of a confirmation: the program `arpki check`."""

    def __init__(self, council, program, tell):
        self.council, self.program, self.tell = council, program, tell

    def accepts(self, rolls, message):
        """Whether a client that learnt these RollNotes accepts a confirmation in its own epoch."""
        lines = [*self.council.lines, *(f"roll {data.hex()}" for data in dict.fromkeys(rolls)), f"name {message.name}",
                 f"now {message.epoch}", "age 1", f"confirmation {message.data.hex()}"]
        try:
            run = subprocess.run([self.program, "check"], input=("\n".join(lines) + "\n").encode(), stdout=subprocess.PIPE,
                                 stderr=subprocess.DEVNULL, timeout=PATIENCE, check=False)
        except (OSError, subprocess.TimeoutExpired) as why:
            self.tell(f"{self.program} check cannot be run: {why}", 3)
            return False
        return run.stdout.startswith(b"accepted ")
