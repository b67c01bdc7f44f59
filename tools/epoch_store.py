"""What a driver (tools/epochs) keeps in a folder, so that it may be killed at any moment: how epochs ended, RollNotes, what its party
said in the open epoch, and evidence. docs/FORMATS.md has the files ("What a driver keeps"). Endings, RollNotes and what the party said
are synced before the party is given its next line; a line that was cut off is none."""
import itertools
import os
import re

import party_messages as messages

# The digests of so many endings are kept in memory.
MOST_DIGESTS = 64


class Lines:
    """A file of lines, to which lines are put, each synced."""

    def __init__(self, path):
        self.path = path
        self.file = open(path, "a+b")
        data = self.read_all()
        whole = data.rfind(b"\n") + 1
        if whole < len(data):
            os.ftruncate(self.file.fileno(), whole)
        self.size = whole
        self.lines = data[:whole].decode("ascii", "replace").split("\n")[:-1]

    def read_all(self):
        self.file.seek(0)
        return self.file.read()

    def put(self, line):
        """Puts a line behind the others; the place of its first byte."""
        data, place = line.encode() + b"\n", self.size
        self.file.write(data)
        self.file.flush()
        os.fsync(self.file.fileno())
        self.size += len(data)
        return place

    def clear(self):
        os.ftruncate(self.file.fileno(), 0)
        self.size = 0

    def at(self, place):
        """The line at a place."""
        self.file.seek(place)
        return self.file.readline().decode().rstrip("\n")


def write_whole(path, text):
    """Writes a file, all of it or nothing."""
    other = path.with_name(path.name + ".new")
    other.write_text(text)
    other.replace(path)


class Store:
    """The folder of a driver."""

    def __init__(self, folder):
        self.folder = folder
        folder.mkdir(mode=0o700, parents=True, exist_ok=True)
        self.leaf = self.read_leaf()
        self.rolls = {}
        self.roll_file = Lines(folder / "rolls")
        for line in self.roll_file.lines:
            self.has_roll(messages.read(line), line)
        self.ending_file, self.endings, self.digests, self.names = Lines(folder / "endings"), {}, {}, set()
        place = 0
        for line in self.ending_file.lines:
            self.has_ending(line, place)
            place += len(line) + 1
        self.sent_file = Lines(folder / "sent")
        ended = max(self.endings, default=0)
        self.own = [words for words in (tuple(line.split(" ")) for line in self.sent_file.lines) if int(words[0]) > ended]
        self.write_names()

    # ---- leaves

    def read_leaf(self):
        try:
            generation, leaf = (self.folder / "leaf").read_text().split(" ")
            return int(generation), int(leaf)
        except (OSError, ValueError):
            return None

    def keep_leaf(self, at):
        """Keeps which leaf is next. It is told again by the next signature, so it is not synced."""
        if at and at != self.leaf:
            self.leaf = at
            write_whole(self.folder / "leaf", f"{at[0]} {at[1]}")

    # ---- RollNotes

    def has_roll(self, note, line):
        if note and note.kind == messages.ROLL:
            self.rolls.setdefault(note.log, {})[note.epoch] = line

    def keep_roll(self, party, generation, line):
        if generation not in self.rolls.get(party, {}):
            self.roll_file.put(line)
            self.rolls.setdefault(party, {})[generation] = line

    def generation(self, party):
        """How many keys behind its first one a party has, as far as all their notes are known."""
        known = self.rolls.get(party, {})
        return next(generation for generation in itertools.count() if generation not in known)

    def rolls_from(self, party, generation):
        return [line for at, line in sorted(self.rolls.get(party, {}).items()) if at >= generation]

    # ---- what was said in the open epoch

    def keep_sent(self, epoch, to, line):
        if (str(epoch), to, line) not in self.own:
            self.sent_file.put(f"{epoch} {to} {line}")
            self.own.append((str(epoch), to, line))

    def sent(self, epoch):
        return [(to, line) for at, to, line in self.own if at == str(epoch)]

    # ---- how epochs ended

    def has_ending(self, line, place):
        words = line.split(" ")
        self.endings[int(words[0])] = int(words[1]) / 1000, place
        if words[2].startswith("07") and words[2][146:148] != "00":
            self.names.update(messages.read(words[2]).names)

    def keep_ending(self, epoch, when, line, names):
        if epoch not in self.endings:
            place = self.ending_file.put(f"{epoch} {round(1000 * when)} {line}")
            self.endings[epoch] = when, place
        if not self.names.issuperset(names):
            self.names.update(names)
            self.write_names()
        if any(int(at) <= epoch for at, _, _ in self.own):
            self.own = [one for one in self.own if int(one[0]) > epoch]
            if not self.own:
                self.sent_file.clear()

    def write_names(self):
        write_whole(self.folder / "names", "".join(f"{name}\n" for name in sorted(self.names)))

    def ending(self, epoch):
        return self.ending_file.at(self.endings[epoch][1]).split(" ")[2] if epoch in self.endings else None

    def ending_times(self):
        return [(epoch, when) for epoch, (when, _) in sorted(self.endings.items())]

    def digest(self, epoch):
        """What is compared of how an epoch ended; 32 zero bytes where that is not known."""
        if epoch not in self.endings:
            return bytes(32)
        if epoch not in self.digests:
            if len(self.digests) >= MOST_DIGESTS:
                self.digests.clear()
            self.digests[epoch] = messages.digest_of_ending(messages.read(self.ending(epoch)))
        return self.digests[epoch]

    # ---- evidence

    def keep_evidence(self, party, what, lines):
        """Keeps messages that show what a party did, a line each; the file."""
        folder = self.folder / "evidence"
        folder.mkdir(mode=0o700, exist_ok=True)
        path = folder / re.sub("[^A-Za-z0-9]+", "-", f"{party}-{what}")
        write_whole(path, "".join(f"{line}\n" for line in lines))
        return path
