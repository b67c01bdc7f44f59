"""The kit, and the parts of it that tools call themselves: its prover as a compiler of libraries, its archiver, its linker."""
import os
import pathlib
import re
import shutil
import subprocess

TOP = pathlib.Path(__file__).resolve().parent.parent
# How a shared object is linked: with no path and no time in it, by one thread, with every undefined function found.
SHARED = ["-shared", "-m", "elf_x86_64", "--threads=1", "--build-id=sha1", "--eh-frame-hdr", "--gc-sections", "--as-needed",
          "--no-dependent-libraries", "-s", "-z", "defs", "-z", "relro", "-z", "now", "-z", "noexecstack"]


class KitError(Exception):
    """What is wrong, for people."""


class Kit:
    """The kit of the command `rt`."""

    def __init__(self):
        if not shutil.which("rt"):
            raise KitError("there is no command rt here: README.md says what the kit is")
        self.folder = pathlib.Path(call(["rt", "doc"]).strip()).resolve().parent
        self.identity = call(["rt", "version"]).strip()
        self.toolchain = self.folder / "toolchain"
        found = re.fullmatch(r"(\S+) logic ([0-9a-f]+)", self.identity)
        if not found:
            raise KitError(f"rt version does not name a kit and a logic: {self.identity[:80]!r}")
        self.name, self.logic = found.groups()

    def tool(self, name, *words, **options):
        """Runs a tool of LLVM, which the kit has all in one file and tells apart by the name."""
        return call([name, *map(str, words)], executable=self.toolchain / "bin/clang", **options)

    @property
    def compiler(self):
        """The line by which the compiler names itself."""
        return self.tool("clang", "--version").splitlines()[0]

    def heap(self):
        """The functions of the kit by which a program takes memory."""
        return self.folder / "c/liblibc_c.a"


def call(words, **options):
    """Runs a command that has to succeed, and gives what it wrote."""
    try:
        done = subprocess.run(words, text=True, stdout=subprocess.PIPE, stderr=subprocess.STDOUT, errors="replace", **options)
    except OSError as error:
        raise KitError(f"{words[0]} does not start: {error.strerror}") from error
    if done.returncode:
        raise KitError(f"{' '.join(map(str, words[:2]))} failed with status {done.returncode}:\n{done.stdout[-3000:]}")
    return done.stdout


def crates_of(crate):
    """The crates that one is compiled from, itself the last, each behind those that it stands on."""
    return call([TOP / "tools/sources", "--crates", crate]).split()


def sources(crate, top=TOP):
    """The digest over what a crate is compiled from, in this folder or in another that has tools/sources."""
    return call([top / "tools/sources", crate]).strip()


def newest_source(crate):
    """The path and the time of the newest file that a crate, or one that it stands on, is proved and compiled from."""
    files = [path for name in crates_of(crate) for part in ("src", "specs", "proofs")
             for path in (TOP / "crates" / name / part).rglob("*") if path.suffix in (".rt", ".antt")]
    newest = max(files, key=lambda path: path.stat().st_mtime_ns)
    return newest.relative_to(TOP), newest.stat().st_mtime_ns


def is_current(built, crate):
    """Whether this stands there, and no source of the crate is newer."""
    return built.exists() and built.stat().st_mtime_ns >= newest_source(crate)[1]


def static_library(kit, crate, to):
    """Compiles a static library of a crate to a file. Where `rt ci` has passed the crate, over the libraries that it left in this
    folder, which are those of these sources; else `rt lib` proves and builds all of them."""
    folder = TOP / "crates" / crate
    *below, _ = crates_of(crate)
    built = {name: TOP / "crates" / name / f"out/rlib/{name}.rlib" for name in below}
    if not is_current(folder / f"out/{crate}_tests", crate) or not all((path / "format").exists() for path in built.values()):
        call(["rt", "lib"], cwd=folder)
        shutil.copyfile(folder / f"out/lib{crate}.a", to)
        return
    words = ["--crate-name", crate, "src/lib.rt", "--crate-type", "staticlib", "--extern", f"std={kit.folder}/rlibs/std.rlib",
             "-L", f"dependency={kit.folder}/rlibs"]
    for name in named_by(crate):
        place = built.get(name) or kit.folder / f"rlibs/{name}.rlib"
        words += ["--extern", f"{name}={place}"]
    for path in built.values():
        words += ["-L", f"dependency={path.parent}"]
    words += ["--antt-project", f"{kit.folder}/rattle/logic/antt-project.json", "--logic-built", f"{kit.folder}/logic_built",
              "--links", f"{crate}=", "--jobs", str(min(2, len(os.sched_getaffinity(0))))]
    call([kit.folder / "bin/rattle", "build", *words, "--toolchain", kit.toolchain, "--backend", "llvm", "-o", to], cwd=folder)


def named_by(crate):
    """The libraries that the crate's line of crates.txt names."""
    for line in (TOP / "crates.txt").read_text().splitlines():
        head, _, tail = line.partition("#")[0].partition(":")
        if head.split()[:1] == [crate]:
            return tail.split()
    raise KitError(f"crates.txt has no crate {crate}")


def client_library(kit, folder):
    """Makes libarpki.a, with the kit's heap in it, and libarpki.so.1, which shows the functions of arpki.h and nothing else."""
    made, archive, shared = folder / "libarpki_c.a", folder / "libarpki.a", folder / "libarpki.so.1"
    static_library(kit, "arpki_c", made)
    archive.unlink(missing_ok=True)
    kit.tool("llvm-ar", "-M", input=f"create {archive}\naddlib {made}\naddlib {kit.heap()}\nsave\nend\n")
    made.unlink()
    kit.tool("ld.lld", *SHARED, "-soname", shared.name, "--version-script", TOP / "c-library/arpki.map", "-o", shared,
             "--whole-archive", archive, "--no-whole-archive", kit.toolchain / "lib/libc.so.6")
    return archive, shared
