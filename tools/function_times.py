"""Checks each crate from nothing by one job of the prover and notes what each of its functions took.

It works on a copy of the repository's crates, as many side by side as there are processors, each once those below it are built,
those with the longest chain of others above them first. The prover says each function when it is done with it (`--progress`):
what passed since the one before is that function's time, by the clock. So nothing else should run on the machine. The first
function of a crate also has the time that reading the crate's libraries takes.
"""
import collections
import concurrent.futures
import dataclasses
import os
import pathlib
import re
import shutil
import subprocess
import tempfile
import time

import crates

DONE = re.compile(r"checked (.*), \d+ of \d+$")
PARTS = ("src", "specs", "proofs")
OWN_LINES = 300


@dataclasses.dataclass
class Checked:
    """What a check of one crate took: its processor seconds, and each function with its seconds by the clock."""

    crate: str
    kind: str
    seconds: float
    functions: list
    failed: str


class Kit:
    """The folder of the kit, and the words with which its prover is called for a crate of the copy."""

    def __init__(self, copy, uses):
        said = subprocess.run(["rt", "doc"], stdout=subprocess.PIPE, text=True, check=True).stdout.strip()
        self.folder, self.copy, self.uses = pathlib.Path(said).parent, copy, uses

    def prover(self):
        return str(self.folder / "bin" / "rattle")

    def library(self, name):
        return self.copy / "crates" / name / "out" / "rlib" / f"{name}.rlib"

    def words(self, name):
        root = "src/main.rt" if (self.copy / "crates" / name / "src" / "main.rt").exists() else "src/lib.rt"
        own = [it for it in self.uses[name] if it in self.uses]
        kits = dict.fromkeys(["std", *(it for it in self.uses[name] if it not in self.uses)])
        words = ["--crate-name", name, root, "-L", f"dependency={self.folder / 'rlibs'}"]
        for it in kits:
            words += ["--extern", f"{it}={self.folder / 'rlibs' / it}.rlib"]
        for it in own:
            words += ["--extern", f"{it}={self.library(it)}"]
        for it in sorted(crates.below(name, self.uses)):
            words += ["-L", f"dependency={self.library(it).parent}"]
        logic = self.folder / "rattle" / "logic" / "antt-project.json"
        return [*words, "--antt-project", str(logic), "--logic-built", str(self.folder / "logic_built"), "--incremental", "out/incremental"]


def check(kit, name, kind, is_static):
    """Checks a crate, or it with its tests, and then builds a library, which takes what the check kept."""
    folder = kit.copy / "crates" / name
    words = [*kit.words(name), *(["--test"] if kind == "tests" else ["--crate-type", "staticlib"] if is_static else [])]
    last, functions, text = time.monotonic(), [], []
    ran = subprocess.Popen([kit.prover(), "check", *words, "--progress"], cwd=folder, stdout=subprocess.PIPE, stderr=subprocess.STDOUT, text=True)
    for line in ran.stdout:
        done = DONE.match(line.rstrip())
        if done:
            functions.append((done[1], time.monotonic() - last))
            last = time.monotonic()
        else:
            text.append(line)
    _, status, used = os.wait4(ran.pid, 0)
    ran.returncode = os.waitstatus_to_exitcode(status)
    failed = "".join(text[-12:]) if ran.returncode else ""
    if not failed and kind == "proof" and not is_static and (folder / "src" / "lib.rt").exists():
        kit.library(name).parent.mkdir(parents=True, exist_ok=True)
        built = subprocess.run([kit.prover(), "build", *words, "-o", str(kit.library(name))], cwd=folder, stdout=subprocess.PIPE, stderr=subprocess.STDOUT, text=True)
        failed = built.stdout if built.returncode else ""
    return Checked(name, kind, used.ru_utime + used.ru_stime, functions, failed)


def lines_of(name):
    files = [it for part in PARTS for it in (crates.TOP / "crates" / name / part).rglob("*") if it.is_file()]
    return OWN_LINES + sum(it.read_bytes().count(b"\n") for it in files)


def heights(uses):
    """The lines of each crate and of the longest chain of crates above it."""
    above, found = collections.defaultdict(list), {}
    for name, libraries in uses.items():
        for it in libraries:
            above[it].append(name)

    def height(name):
        if name not in found:
            found[name] = lines_of(name) + max((height(it) for it in above[name]), default=0)
        return found[name]

    return {name: height(name) for name in uses}


def tasks_of(uses):
    """Each crate and each crate's tests, with the crates that have to be built before."""
    own = {name: [it for it in libraries if it in uses] for name, libraries in uses.items()}
    has_tests = [name for name in uses if any(b"#[test]" in it.read_bytes() for it in (crates.TOP / "crates" / name / "src").rglob("*.rt"))]
    return {(name, "proof"): own[name] for name in uses} | {(name, "tests"): [*own[name], name] for name in has_tests}


def checked(named):
    """Checks the named crates and those below them, or all, and gives what each took in the order in which they ended."""
    uses = crates.libraries()
    chosen = set(named or uses) | {it for name in named for it in crates.below(name, uses)}
    uses = {name: libraries for name, libraries in uses.items() if name in chosen}
    static = {name for name in uses if re.search(rf"^{name} [^:\n]*staticlib", (crates.TOP / "crates.txt").read_text(), re.M)}
    height = heights(uses)
    left, built, running = tasks_of(uses), set(), {}
    lanes = len(os.sched_getaffinity(0))
    with tempfile.TemporaryDirectory(prefix="function-times-") as room, concurrent.futures.ThreadPoolExecutor(lanes) as pool:
        copy = pathlib.Path(room)
        for name in uses:
            for part in PARTS:
                if (crates.TOP / "crates" / name / part).is_dir():
                    shutil.copytree(crates.TOP / "crates" / name / part, copy / "crates" / name / part)
        kit = Kit(copy, uses)
        while left or running:
            ready = sorted((it for it in left if built.issuperset(left[it])), key=lambda it: -height[it[0]])
            for task in ready[: lanes - len(running)]:
                del left[task]
                running[pool.submit(check, kit, *task, task[0] in static)] = task
            if not running:
                return
            for it in concurrent.futures.wait(running, return_when=concurrent.futures.FIRST_COMPLETED).done:
                name, kind = running.pop(it)
                if kind == "proof" and not it.result().failed:
                    built.add(name)
                yield it.result()
