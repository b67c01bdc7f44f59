"""What a release is made of: its programs, the C library, the module for pages, and the texts that tell of them."""
import hashlib
import json
import re
import struct
import uuid

import kit as kits

TOP = kits.TOP
PROGRAMS = ["arpki", "arpki_crowd", "arpki_party"]
LIBRARY = "library"
PARTS = [*PROGRAMS, LIBRARY]
# The crates whose sources a release names.
CRATES = [*PROGRAMS, "arpki_c"]
# Files of this folder that stand in a release or go into it, and where they stand in it ('': nowhere).
HEADER, MAP = "c-library/include/arpki.h", "c-library/arpki.map"
FILES = {HEADER: "include/arpki.h", MAP: "", "LICENSE-APACHE": "LICENSE-APACHE", "LICENSE-MIT": "LICENSE-MIT"}
# The modules for pages, and what goes with them; web/made.json says of which sources they are (tools/web_build.py).
MODULES = ["web/arpki.wasm", "web/arpki_rule.wasm"]
MADE = "web/made.json"
BESIDE = ["web/arpki.mjs", MADE]
# What removes symbols, and keeps the section in which the compiler names the logic that the program was proved in.
STRIP = "--strip-all-gnu"
LICENSE = "Apache-2.0 OR MIT"
SPACE = uuid.UUID("6ba7b811-9dad-11d1-80b4-00c04fd430c8")  # RFC 4122, names that are URLs


class Missing(Exception):
    """What is needed to make a release, and not there."""


def newest_version():
    """The newest version of CHANGELOG.md."""
    found = re.search(r"^## (\d+\.\d+\.\d+) \(", (TOP / "CHANGELOG.md").read_text(), re.M)
    if not found:
        raise Missing("CHANGELOG.md has no heading as '## 1.0.0 (30 November 2026)', so the release has no version")
    return found[1]


def modules():
    """The modules for pages that stand here and were made of these sources, with what goes with them; and those that stand here and were
    made of others."""
    standing = [path for path in MODULES if (TOP / path).is_file()]
    if not standing or not all((TOP / path).is_file() for path in BESIDE):
        return [], standing
    import web_build  # of the tree that has modules
    made = json.loads((TOP / MADE).read_text())
    told = {path: made.get(path.rpartition("/")[2], {}) for path in standing}
    good = [path for path, of in told.items()
            if of and of["module"] == file_digest(TOP / path) and of["sources"] == web_build.sources_of(of["crate"])]
    return [*good, *(BESIDE if good else ())], [path for path in standing if path not in good]


def mode_of(path):
    """The rights of a file of a release."""
    return 0o755 if path.startswith("bin/") else 0o644


def file_digest(path):
    return hashlib.sha256(path.read_bytes()).hexdigest()


class Provenance:
    """Of which sources a release is, by which kit, logic and compilers."""

    def __init__(self, version, kit, logic, compiler, sources, files):
        self.version, self.kit, self.logic, self.compiler = version, kit, logic, compiler
        self.sources, self.files = sources, files

    @classmethod
    def of(cls, kit, version, pages):
        files = [*FILES, *pages]
        return cls(version, kit.name, kit.logic, kit.compiler, {crate: kits.sources(crate) for crate in CRATES},
                   {path: file_digest(TOP / path) for path in files})

    @classmethod
    def read(cls, text):
        words = [line.split(" ", 1) for line in text.decode(errors="replace").splitlines() if " " in line]
        plain = dict(words)
        pairs = {kind: dict(rest.split(" ", 1) for first, rest in words if first == kind and " " in rest) for kind in ("sources", "file")}
        try:
            return cls(*(plain[word] for word in ("release", "kit", "logic", "compiler")), pairs["sources"], pairs["file"])
        except KeyError as error:
            raise Missing(f"release/PROVENANCE has no line {error}; it is not as tools/release writes it") from error

    def text(self):
        lines = [f"release {self.version}", f"kit {self.kit}", f"logic {self.logic}", f"compiler {self.compiler}",
                 f"words of programs: rt ci, which calls rattle build --backend llvm (x86-64-v2, -O3), and rattle-link; llvm-strip {STRIP}",
                 "words of library: rattle build --crate-type staticlib --backend llvm (x86-64-v2, -O3); llvm-ar; ld.lld " + " ".join(kits.SHARED)]
        if self.pages():
            lines.append("words of module: tools/web, beside which the gate compares no build")
        lines += [f"sources {crate} {digest}" for crate, digest in self.sources.items()]
        lines += [f"file {path} {digest}" for path, digest in self.files.items()]
        return "\n".join(lines) + "\n"

    def changed_since(self, top, parts=()):
        """Which of the sources are not, in a folder, what they were for the release; with parts, of these alone."""
        names = CRATES if not parts else [part if part != LIBRARY else "arpki_c" for part in parts]
        changed = [crate for crate in names if kits.sources(crate, top) != self.sources.get(crate)]
        if not parts or LIBRARY in parts:
            own = self.files if not parts else (HEADER, MAP)
            changed += [path for path in own if not (top / path).is_file() or file_digest(top / path) != self.files.get(path)]
        return changed

    def pages(self):
        """The files of modules for pages that the release has."""
        return [path for path in (*MODULES, *BESIDE) if path in self.files]


# ---- what is made


def made(kit, version, room, pages, parts=()):
    """{path: bytes} of a release but its sums, with these files of modules for pages; with parts, of these alone."""
    files = {}
    for name in PROGRAMS:
        if not parts or name in parts:
            files[f"bin/{name}"] = program(kit, name, room)
    if not parts or LIBRARY in parts:
        archive, shared = kits.client_library(kit, room)
        files["lib/libarpki.a"], files["lib/libarpki.so.1"] = archive.read_bytes(), shared.read_bytes()
        files["include/arpki.h"] = (TOP / HEADER).read_bytes()
    for path, data in files.items():
        try:
            glibc_of(data)
        except (ValueError, struct.error) as error:
            raise Missing(f"{path} cannot go into a release: {error}") from error
    if parts:
        return files
    said = Provenance.of(kit, version, pages)
    for path, place in {**FILES, **{page: page for page in pages}}.items():
        if place:
            files[place] = (TOP / path).read_bytes()
    files["lib/pkgconfig/arpki.pc"] = pkg_config(version).encode()
    files["PROVENANCE"] = said.text().encode()
    files["README.md"] = readme(version, bool(pages)).encode()
    files["arpki.cdx.json"] = inventory(kit, said, files, pages).encode()
    for path, data in files.items():
        for folder in (str(TOP), str(kit.folder)):
            if folder.encode() in data:
                raise Missing(f"{path} has the path {folder} in it, so it would not be the same elsewhere")
    return files


def program(kit, name, room):
    """The program as it was proved here, stripped."""
    built = TOP / "crates" / name / "out" / name
    if not built.exists():
        raise Missing(f"{name} is not proved here: run .ci/run, or ./prove {name}")
    if not kits.is_current(built, name):
        raise Missing(f"{kits.newest_source(name)[0]} is newer than the program {name} that was proved here: run .ci/run, or ./prove {name}")
    stripped = room / name
    kit.tool("llvm-strip", STRIP, "-o", stripped, built)
    return stripped.read_bytes()


def pkg_config(version):
    return f"""prefix=${{pcfiledir}}/../..
libdir=${{prefix}}/lib
includedir=${{prefix}}/include

Name: arpki
Description: Judges confirmations, staples and links of the Polgjask public-key infrastructure
Version: {version}
Cflags: -I${{includedir}}
Libs: -L${{libdir}} -larpki
"""


def readme(version, has_module):
    module = "" if has_module else " (This release has no module for pages: `web/` stands here where there is one.)"
    return f"""# Polgjask {version}

- `bin/`: the programs `arpki`, `arpki_crowd` and `arpki_party`, for Linux on x86-64 (x86-64-v2, glibc 2.35 or newer).
- `lib/`, `include/`: the C library of the client's rule, as an archive and as a shared object, with its header and a pkg-config file.{module}
- `PROVENANCE`: of which sources all this is, by which kit, logic and compilers. `arpki.cdx.json`: what is inside, in the form of CycloneDX.
- `SHA256SUMS`: `sha256sum -c SHA256SUMS` tells whether a file is damaged. It does not tell from whom these files are: who changes a file can change its sum.

The repository's docs/RELEASE.md says how to make these files from the sources, and what must be equal; SECURITY.md says whom you trust.
"""


def inventory(kit, said, files, pages):
    """The list of what is inside, in the form of CycloneDX: the files, the crates of the repository, the libraries of the kit."""
    reached = {crate: kits.crates_of(crate) for crate in CRATES}
    named = {crate: kits.named_by(crate) for crate in dict.fromkeys(sum(reached.values(), []))}
    of_kit = sorted({library for libraries in named.values() for library in libraries if library not in named} | {"core", "std"})
    binaries = {**{f"bin/{name}": name for name in PROGRAMS}, "lib/libarpki.a": "arpki_c", "lib/libarpki.so.1": "arpki_c"}
    components = [{"type": "application" if path.startswith("bin/") else "library", "bom-ref": path, "name": path.rpartition("/")[2],
                   "version": said.version, "licenses": [{"expression": LICENSE}],
                   "hashes": [{"alg": "SHA-256", "content": hashlib.sha256(files[path]).hexdigest()}],
                   "properties": [{"name": "sources", "value": said.sources[crate]}, {"name": "needs", "value": needs(files[path])}]}
                  for path, crate in binaries.items()]
    components += [{"type": "library", "bom-ref": path, "name": path.rpartition("/")[2], "version": said.version, "licenses": [{"expression": LICENSE}],
                    "hashes": [{"alg": "SHA-256", "content": hashlib.sha256(files[path]).hexdigest()}]} for path in pages if path != MADE]
    components += [{"type": "library", "bom-ref": f"crate/{crate}", "name": crate, "version": said.version, "licenses": [{"expression": LICENSE}]}
                   for crate in sorted(named)]
    components += [{"type": "library", "bom-ref": f"kit/{library}", "group": kit.name, "name": library, "version": kit.name} for library in of_kit]
    place = {library: f"kit/{library}" for library in of_kit} | {crate: f"crate/{crate}" for crate in named}
    edges = {path: [f"crate/{crate}"] for path, crate in binaries.items()}
    edges |= {f"crate/{crate}": sorted(place[library] for library in {*libraries, "std"}) for crate, libraries in sorted(named.items())}
    told = {"bomFormat": "CycloneDX", "specVersion": "1.5", "version": 1,
            "serialNumber": f"urn:uuid:{uuid.uuid5(SPACE, said.text())}",
            "metadata": {"component": {"type": "application", "bom-ref": "polgjask", "name": "polgjask", "version": said.version,
                                       "licenses": [{"expression": LICENSE}]}},
            "components": components,
            "dependencies": [{"ref": ref, "dependsOn": on} for ref, on in edges.items()]}
    return json.dumps(told, indent=1) + "\n"


# ---- what a file needs


def needs(data):
    """What the machine has to have for a file."""
    version = glibc_of(data)
    return "x86-64-v2" + (f", glibc {'.'.join(map(str, version))}" if version else "")


def glibc_of(data):
    """The newest version of glibc of which an ELF file needs a symbol, as numbers; none for other files."""
    if data[:6] != b"\x7fELF\x02\x01":
        return ()
    start, size, count = struct.unpack_from("<Q", data, 40)[0], *struct.unpack_from("<HH", data, 58)
    heads = [struct.unpack_from("<IIQQQQIIQQ", data, start + size * place) for place in range(count)]
    newest = (0,)
    for _, kind, _, _, at, _, link, entries, _, _ in heads:
        if kind != 0x6FFFFFFE:  # SHT_GNU_verneed
            continue
        names = heads[link][4]
        for _ in range(entries):
            _, auxiliaries, _, first, onward = struct.unpack_from("<HHIII", data, at)
            place = at + first
            for _ in range(auxiliaries):
                _, _, _, name, after = struct.unpack_from("<IHHII", data, place)
                text = data[names + name:data.index(b"\0", names + name)].decode("ascii")
                if re.fullmatch(r"GLIBC_[0-9.]+", text):
                    newest = max(newest, tuple(map(int, text[6:].split("."))))
                elif text.startswith("GLIBC_"):
                    raise ValueError(f"it needs {text}")
                place += after
            at += onward
    return newest if newest != (0,) else ()
