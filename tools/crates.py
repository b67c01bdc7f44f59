"""Reads crates.txt: the strata of the repository's crates, and the libraries on which each crate stands.

A line '# N TITLE' begins a stratum; a line 'NAME WORDS..: LIBRARY LIBRARY ..' is a crate of it.
"""
import pathlib
import re

TOP = pathlib.Path(__file__).resolve().parent.parent
STRATUM = re.compile(r"^# (\d+) (.+)$")


def strata(top=TOP):
    """The strata in their order: each one's number and title, and its crates in their order."""
    found = []
    for line in (top / "crates.txt").read_text().splitlines():
        head = STRATUM.match(line)
        if head:
            found.append((int(head[1]), head[2], []))
        elif line and not line.startswith("#"):
            if not found:
                raise SystemExit("crates.txt: a crate stands before the first stratum")
            found[-1][2].append(line.partition(":")[0].split()[0])
    return found


def libraries(top=TOP):
    """The crates of crates.txt, each with the libraries that it stands on, of the repository and of the kit."""
    lines = (line.partition("#")[0].partition(":") for line in (top / "crates.txt").read_text().splitlines())
    return {head.split()[0]: tail.split() for head, _, tail in lines if head.strip()}


def below(crate, all_libraries):
    """The crates of the repository that a crate stands on, and those on which these stand."""
    seen = set()
    waiting = [crate]
    while waiting:
        for library in all_libraries[waiting.pop()]:
            if library in all_libraries and library not in seen:
                seen.add(library)
                waiting.append(library)
    return seen
