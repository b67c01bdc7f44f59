"""A mirror as a process: `arpki_party mirror <directory> <journal>`, to which an archive gives messages, and which it asks for what
was agreed. It has no secret and signs nothing. Where it ends, the archive ends: its journal has all that it answered."""
import collections
import subprocess

# What a mirror says of a name: its certificates' bytes in their order, and what waits: its bytes, since when, and when it ripens.
Row = collections.namedtuple("Row", "chain waits since ripens")
# What it says of a message: whether it took it, and the code of the refusal.
Verdict = collections.namedtuple("Verdict", "is_taken code")
# The last line of an answer, by the first word of a question; `line` and `failed:` end each one.
ENDS = {"epoch": ("epoch",), "root": ("root",), "row": ("row",), "decision": ("decision",), "links": ("links", "recovery")}


class Wrong(Exception):
    """The mirror ended, or said what a mirror does not say."""


class Mirror:
    """A process that answers lines."""

    def __init__(self, program, directory, journal):
        self.words = [str(program), "mirror", str(directory), str(journal)]
        try:
            self.process = subprocess.Popen(self.words, stdin=subprocess.PIPE, stdout=subprocess.PIPE)
        except OSError as why:
            raise Wrong(f"{' '.join(self.words)} cannot be run: {why}") from why
        line = self.read()
        while not line.startswith("opened "):
            if line.startswith("not opened"):
                raise Wrong(f"{' '.join(self.words)}: {line}")
            line = self.read()

    def read(self):
        line = self.process.stdout.readline()
        if not line.endswith(b"\n"):
            raise Wrong(f"{' '.join(self.words)} ended with status {self.process.wait()}: start the archive again once that is mended")
        line = line[:-1].decode("ascii", "replace")
        if line.startswith("failed:"):
            raise Wrong(f"{' '.join(self.words)}: {line}")
        return line

    def write(self, lines):
        try:
            self.process.stdin.write("".join(f"{line}\n" for line in lines).encode())
            self.process.stdin.flush()
        except BrokenPipeError:
            self.read()  # tells why it ended
            raise Wrong(f"{' '.join(self.words)} reads no more") from None

    def answer(self, ends):
        """The lines of an answer."""
        lines = []
        while True:
            lines.append(self.read())
            word = lines[-1].split(" ", 1)[0]
            if word == "line":
                raise Wrong(f"{' '.join(self.words)} does not know what it is asked: {lines[-1]}")
            if word in ends:
                return lines

    def ask(self, question):
        self.write([question])
        return self.answer(ENDS[question.split(" ", 1)[0]])

    def take(self, data):
        """Gives it a message, and what it says of it."""
        self.write([data.hex()])
        while True:
            words = self.read().split(" ")
            if words[1:2] == ["take"]:
                return Verdict(words[3] == "ok", " ".join(words[4:]) or None)
            if words[0] == "line":
                return Verdict(False, " ".join(words[2:]))

    def epoch(self):
        """The epoch that is open."""
        return int(self.ask("epoch")[0].split(" ")[1])

    def root(self, epoch):
        """The root with which an epoch was decided; None where it was skipped."""
        words = self.ask(f"root {epoch}")[0].split(" ")
        return bytes.fromhex(words[3]) if words[2] == "decided" else None

    def decision(self, epoch):
        """The digest of the message with which an epoch ended."""
        return bytes.fromhex(self.ask(f"decision {epoch}")[0].split(" ")[2])

    def rows(self, names):
        """The rows of names, by name."""
        names, found = list(names), {}
        for at in range(0, len(names), 64):
            part = names[at:at + 64]
            self.write(f"row {name}" for name in part)
            for name in part:
                found[name] = self.read_row()
        return found

    def read_row(self):
        chain, waiting = [], (None, None, None)
        for line in self.answer(ENDS["row"]):
            words = line.split(" ")
            if words[0] == "certificate":
                chain.append(bytes.fromhex(words[1]))
            elif words[0] == "waits":
                waiting = bytes.fromhex(words[1]), int(words[3]), int(words[5])
        return Row(chain, *waiting)

    def generations(self, party):
        """How many RollNotes of a party it knows."""
        self.write([f"rolls {party} 0", "epoch"])
        return len(self.answer(ENDS["epoch"])) - 1

    def close(self):
        self.process.stdin.close()
        self.process.stdout.close()
        return self.process.wait()
