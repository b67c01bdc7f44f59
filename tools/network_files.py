"""The directory and the schedule of a network as the tools beside a party read them (tools/epochs, tools/site), and the lines that
these tell."""
import os
import pathlib
import sys

import schedule

# How many leaves a key of an LMS type has.
LEAVES = {5: 1 << 5, 6: 1 << 10, 7: 1 << 15, 8: 1 << 20, 9: 1 << 25}


class Wrong(Exception):
    """A file is not as it should be."""


class Council:
    """What a directory says of the numbers of parties, and of their keys: its lines up to the last `key`."""

    def __init__(self, path):
        try:
            lines = pathlib.Path(path).read_text().split("\n")
            self.logs, self.quorum = map(int, lines[0].split(" ")[1:])
            self.authorities = int(lines[1 + self.logs].split(" ")[1])
            self.lines = lines[:2 + self.logs + self.authorities]
            self.keys = {"L": lines[1:1 + self.logs], "A": self.lines[2 + self.logs:]}
            if any(len(self.keys[letter]) != count for letter, count in (("L", self.logs), ("A", self.authorities))):
                raise ValueError("a key is missing")
        except (OSError, ValueError, IndexError) as why:
            raise Wrong(f"{path} is no directory: {why}") from why

    def leaves(self, party):
        """How many leaves a key of the party has; an owner's, which stands in no directory, is taken to have 32 until it tells."""
        keys = self.keys.get(party[0])
        if keys is None:
            return LEAVES[5]
        try:
            return LEAVES[int(keys[int(party[1:])].split(" ")[1][:8], 16)]
        except (IndexError, KeyError, ValueError) as why:
            raise Wrong(f"the directory has no key of {party}") from why


def plan_in(path):
    """The schedule in a file."""
    try:
        return schedule.read(pathlib.Path(path).read_text())
    except (OSError, UnicodeDecodeError, schedule.NoSchedule) as why:
        raise Wrong(f"{path} is no schedule: {why}") from why


def tell(text, level=6, to=None):
    """A line to standard output, or where it is said; with a level in front where the systemd journal reads it."""
    print(f"<{level}>{text}" if "JOURNAL_STREAM" in os.environ else text, file=to or sys.stdout, flush=True)
