"""Maps of tables, by docs/FORMATS.md ("Maps of tables") and by SHA-256 alone: which table a name has, what a directory's digest
is of, the root over all directories, the path of each, and whether what a site shows is that of a name's table.

It is another implementation than the crates', with which stored examples are made (examples/maps.txt). Nothing here judges a
confirmation.
"""
import collections
import hashlib
import pathlib

MOST_BITS = 24
KEY, STEP = 56, 32
# The keys that there are: types, the identifier I and T[1] (RFC 8554, section 5.3).
LMS_TYPES, OTS_TYPES = range(5, 10), range(1, 5)
FEWEST_PARTIES, MOST_PARTIES = 3, 16


class NoMap(Exception):
    """Why there is no map, or why what is shown does not stand in one."""


def digest(*parts):
    return hashlib.sha256(b"".join(parts)).digest()


def name_key(name):
    """The key that a name has in a table."""
    return digest(b"\x11", name)


def table_of(bits, name):
    return int.from_bytes(name_key(name), "big") >> 256 - bits


def table_key(bits, table):
    """The key of a table in the tree over the directories."""
    return (table << 256 - bits).to_bytes(32, "big")


def map_in(file):
    """The number of bits and the root of a file of a map."""
    words = pathlib.Path(file).read_text().split()
    try:
        word, bits, root = words
        bits, root = int(bits), bytes.fromhex(root)
    except ValueError as error:
        raise NoMap(f"{file} is not one line `map <bits> <root>`") from error
    if word != "map" or not 0 <= bits <= MOST_BITS or len(root) != 32:
        raise NoMap(f"{file} is not one line `map <bits> <root>`, with 0 to {MOST_BITS} bits and a root of 32 bytes")
    return bits, root


class Directory(collections.namedtuple("Directory", "quorum logs authorities")):
    """The size of a quorum, and the texts of the first keys of logs and of authorities."""

    def fault(self):
        """What is wrong with it, or nothing."""
        for role, keys in (("logs", self.logs), ("authorities", self.authorities)):
            if not FEWEST_PARTIES <= len(keys) <= MOST_PARTIES:
                return f"it has {len(keys)} {role}, and not 3 to 16"
        if not (2 * self.quorum > len(self.logs) + 2 and self.quorum <= len(self.logs)):
            return f"{self.quorum} of {len(self.logs)} logs are no quorum"
        for key in self.logs + self.authorities:
            types = int.from_bytes(key[:4], "big"), int.from_bytes(key[4:8], "big")
            if len(key) != KEY or types[0] not in LMS_TYPES or types[1] not in OTS_TYPES:
                return f"{key.hex()} is no key"
        return None

    def text(self):
        return bytes([self.quorum, len(self.logs), len(self.authorities)]) + b"".join(self.logs + self.authorities)

    def digest(self):
        return digest(b"\x05", self.text())

    def lines(self):
        """The lines with which an input of `arpki check` begins."""
        yield f"logs {len(self.logs)} {self.quorum}"
        yield from (f"key {key.hex()}" for key in self.logs)
        yield f"authorities {len(self.authorities)}"
        yield from (f"key {key.hex()}" for key in self.authorities)


def directory_in(lines, where):
    """The directory that lines are, as those at the head of an input of `arpki check` or of a party's file."""
    rest = [line.split(" ") for line in lines]

    def take(word, count):
        if not rest or rest[0][0] != word or len(rest[0]) != 1 + count:
            raise NoMap(f"{where}: a line `{word}` is lacking where {' '.join(rest[0]) if rest else 'the end'} stands")
        return rest.pop(0)[1:]

    def keys(count):
        return tuple(bytes.fromhex(take("key", 1)[0]) for _ in range(int(count)))

    try:
        logs, quorum = take("logs", 2)
        of_logs = keys(logs)
        directory = Directory(int(quorum), of_logs, keys(take("authorities", 1)[0]))
    except ValueError as error:
        raise NoMap(f"{where}: {error}") from error
    if directory.fault():
        raise NoMap(f"{where}: {directory.fault()}")
    return directory


class Tree:
    """The tree over the directories of all tables: the digests of each depth, the leaves last."""

    def __init__(self, bits, directories):
        self.bits = bits
        row = [digest(b"\x01", table_key(bits, table), directory.digest()) for table, directory in enumerate(directories)]
        self.rows = [row]
        while len(row) > 1:
            row = [digest(b"\x02", row[place], row[place + 1]) for place in range(0, len(row), 2)]
            self.rows.append(row)

    def root(self):
        return self.rows[-1][0]

    def path(self, table):
        """The digests of the siblings, the deepest first."""
        return b"".join(row[(table >> height) ^ 1] for height, row in enumerate(self.rows[:-1]))


def stands_twice(directories):
    """The first two parties whose keys have one identifier I, and so perhaps the same one-time keys, in whatever tables."""
    seen = {}
    for table, directory in enumerate(directories):
        for role, keys in (("L", directory.logs), ("A", directory.authorities)):
            for number, key in enumerate(keys):
                here = f"{role}{number} of table {table}"
                if key[8:24] in seen:
                    return seen[key[8:24]], here
                seen[key[8:24]] = here
    return None


def tree_of(bits, directories):
    """The tree of a map; a map in which a key stands twice is none."""
    if not 0 <= bits <= MOST_BITS:
        raise NoMap(f"a map has 0 to {MOST_BITS} bits, and not {bits}")
    if len(directories) != 2 ** bits:
        raise NoMap(f"a map of {bits} bits has {2 ** bits} directories, and here are {len(directories)}")
    twice = stands_twice(directories)
    if twice:
        raise NoMap(f"{twice[0]} and {twice[1]} have one key: what an honest party says in one table would be its word in the "
                    "other. Make keys for each table from a secret of its own")
    return Tree(bits, directories)


Shown = collections.namedtuple("Shown", "table directory path")


def shown_text(tree, table, directory):
    """What a site shows of its table."""
    return table.to_bytes(4, "big") + directory.text() + tree.path(table)


def shown_in(data):
    """What bytes show; None where they show no directory."""
    if len(data) < 7:
        return None
    logs, authorities = data[5], data[6]
    keys = [data[place:place + KEY] for place in range(7, 7 + KEY * (logs + authorities), KEY)]
    if any(len(key) < KEY for key in keys):
        return None
    directory = Directory(data[4], tuple(keys[:logs]), tuple(keys[logs:]))
    return None if directory.fault() else Shown(int.from_bytes(data[:4], "big"), directory, data[7 + KEY * len(keys):])


def leads_to(bits, table, directory, path):
    """The root to which a path leads from the directory of a table; None where it has not a step for each bit."""
    if len(path) != STEP * bits:
        return None
    value = digest(b"\x01", table_key(bits, table), directory.digest())
    for height in range(bits):
        step = path[STEP * height:STEP * (height + 1)]
        value = digest(b"\x02", step, value) if table >> height & 1 else digest(b"\x02", value, step)
    return value


def refusal(bits, root, data, name):
    """Why a client of the map takes nothing that a site shows of this name; None where it goes by the directory."""
    shown = shown_in(data)
    if shown is None:
        return "no directory"
    if shown.table != table_of(bits, name):
        return "other table"
    if leads_to(bits, shown.table, shown.directory, shown.path) != root:
        return "other root"
    return None
