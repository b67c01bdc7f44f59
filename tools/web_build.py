"""Builds the modules of WebAssembly of web/ from the crates as they are proved.

`rattle build` checks a crate over the libraries that the gate, or `rt lib`, left in crates/*/out, and makes nothing unless it is proved. It
hands the code of the crate, and of all that it reaches, to the clang of its toolchain as one module of LLVM. Here that clang is
a script, which keeps this module and then does what the kit's clang does: so there is the library as it is built for x86-64,
and what WebAssembly is made of is the same proved code.
"""
import gzip
import hashlib
import json
import pathlib
import re
import shutil
import subprocess
import sys
import tempfile

import crates

TOP = crates.TOP
WEB = TOP / "web"
OUT = WEB / "out"
MADE = WEB / "made.json"
# The words of the compiler. Those that begin with -mllvm are the kit's own for x86-64, as far as they speak of no processor.
# Without -fno-slp-vectorize LLVM 22.1 makes a module that answers wrongly (docs/DECISIONS.md, "In a web page"): its vectorizer brings in
# masks of 32 bytes, which WIDE finds. -msimd128 is worth a factor of more than two. Whoever changes a word runs `tools/web --test`.
COMPILER = ["--target=wasm64-unknown-unknown", "-O3", "-msimd128", "-mbulk-memory", "-fno-slp-vectorize",
            *(word for name in ("no-trap-after-noreturn", "trap-unreachable", "disable-machine-licm", "disable-postra-machine-licm",
                                "sink-common-insts=false") for word in ("-mllvm", f"-{name}")),
            "-Wno-override-module"]
# A mask of more than 16 bytes as a number, in LLVM's text: of such a one LLVM 22.1 may make wrong code.
WIDE = re.compile(r"bitcast <(?:1[7-9]|[2-9]\d|\d{3,}) x i1>")
LINKER = ["-mwasm64", "--no-entry", "--export-memory", "--stack-first", "-z", "stack-size=1048576", "--strip-all"]
HEAP = ["heap_take", "heap_give", "heap_limit", "heap_watch", "heap_watched"]
# Each module, its crate, and what it shows beside the heap.
MODULES = {
    "arpki.wasm": ("arpki_page", ["arpki_page"]),
    "arpki_rule.wasm": ("arpki_c", ["arpki_abi", "arpki_connect", "arpki_follow", "arpki_judge", "arpki_learn", "arpki_staple", "arpki_verify"]),
}


def make(*words, **options):
    """Runs a command that has to succeed, and gives what it wrote."""
    done = subprocess.run([str(word) for word in words], text=True, capture_output=True, **options)
    if done.returncode != 0:
        sys.exit(f"web: {' '.join(map(str, words))} failed\n{done.stdout[-3000:]}{done.stderr[-3000:]}")
    return done.stdout


def kit():
    """The folder of the kit."""
    if not shutil.which("rt"):
        sys.exit("web: there is no command rt here: README.md says what the kit is")
    return pathlib.Path(make("rt", "doc").strip()).resolve().parent


def built(library):
    """The library of a crate, as the gate or `rt lib` left it."""
    return TOP / "crates" / library / "out/rlib" / f"{library}.rlib"


def words_of(crate, of):
    """The words by which `rattle` reads a crate that is a static library."""
    libraries = crates.libraries()
    below = sorted(crates.below(crate, libraries))
    missing = [library for library in below if not (built(library) / "format").exists()]
    if missing:
        sys.exit(f"web: {len(missing)} libraries below {crate} are not built, as {missing[0]}: run .ci/run, or `rt lib` in crates/{missing[0]}")
    words = ["--crate-name", crate, "src/lib.rt", "--crate-type", "staticlib", "--extern", f"std={of}/rlibs/std.rlib", "-L", f"dependency={of}/rlibs"]
    for library in libraries[crate]:
        words += ["--extern", f"{library}={built(library) if library in libraries else of / 'rlibs' / f'{library}.rlib'}"]
    for library in below:
        words += ["-L", f"dependency={built(library).parent}"]
    return [*words, "--antt-project", of / "rattle/logic/antt-project.json", "--logic-built", of / "logic_built", "--links", f"{crate}=", "--jobs", "1"]


def toolchain_that_keeps(of, room, kept):
    """A folder that is the kit's toolchain, but that its clang also keeps the module of LLVM that it is given."""
    copy = room / "toolchain"
    (copy / "bin").mkdir(parents=True)
    (copy / "lib").symlink_to(of / "toolchain/lib")
    for part in (of / "toolchain/bin").iterdir():
        if part.name != "clang":
            (copy / "bin" / part.name).symlink_to(part)
    script = copy / "bin/clang"
    script.write_text(f"""#!/usr/bin/env bash
for word in "$@"; do
    case $word in *.bc) cp "$word" "{kept}" ;; esac
done
exec -a "$(basename "$0")" "{of}/toolchain/bin/clang" "$@"
""")
    script.chmod(0o755)
    return copy


def compile_crate(crate, of, room):
    """Proves a crate and has it compiled for x86-64: leaves the library and the module of LLVM in web/out."""
    OUT.mkdir(exist_ok=True)
    archive, module = OUT / f"lib{crate}.a", OUT / f"{crate}.bc"
    module.unlink(missing_ok=True)
    make(of / "bin/rattle", "build", *words_of(crate, of), "--toolchain", toolchain_that_keeps(of, room, module), "-o", archive, cwd=TOP / "crates" / crate)
    if not module.exists():
        sys.exit(f"web: the kit's compiler was handed no module for {crate}")
    return module


def link(name, module, shown, of, room):
    """Makes a module of WebAssembly of a module of LLVM: by all passes on LLVM's code first, which is looked at, and then by the rest."""
    linker = room / "wasm-ld"
    linker.symlink_to(of / "toolchain/bin/clang")
    make(of / "toolchain/bin/clang", *COMPILER, "-S", "-emit-llvm", "-x", "ir", module, "-o", room / "code.ll")
    wide = WIDE.search((room / "code.ll").read_text())
    if wide:
        sys.exit(f"web: the code of {name} has '{wide[0]}', of which this compiler may make a wrong module: docs/DECISIONS.md, \"In a web page\"")
    make(of / "toolchain/bin/clang", *COMPILER, "-Xclang", "-disable-llvm-passes", "-c", "-x", "ir", room / "code.ll", "-o", room / "code.o")
    make(of / "toolchain/bin/clang", *COMPILER, "-ffreestanding", "-Wall", "-Wextra", "-c", WEB / "heap.c", "-o", room / "heap.o")
    exports = [f"--export={function}" for function in [*shown, *HEAP]]
    make(linker, *LINKER, *exports, room / "code.o", room / "heap.o", "-o", WEB / name)
    (WEB / name).chmod(0o644)


def sources_of(crate):
    """The SHA-256 of the code of a crate and of those below it, with their lines of crates.txt, and of web/heap.c."""
    libraries, total = crates.libraries(), hashlib.sha256()
    for one in sorted({crate, *crates.below(crate, libraries)}):
        total.update(f"{one}: {' '.join(libraries[one])}\n".encode())
        for path in sorted((TOP / "crates" / one / "src").rglob("*.rt")):
            total.update(f"{path.relative_to(TOP)} {hashlib.sha256(path.read_bytes()).hexdigest()}\n".encode())
    total.update((WEB / "heap.c").read_bytes())
    return total.hexdigest()


def build(names=tuple(MODULES), compile_again=True):
    """Builds the modules of these names, and writes what they were made of."""
    made = json.loads(MADE.read_text()) if MADE.exists() else {}
    of = kit()
    for name in names:
        crate, shown = MODULES[name]
        with tempfile.TemporaryDirectory(prefix="web-") as place:
            room = pathlib.Path(place)
            module = compile_crate(crate, of, room) if compile_again else OUT / f"{crate}.bc"
            link(name, module, shown, of, room)
        made[name] = {"crate": crate, "sources": sources_of(crate), "kit": make("rt", "version").strip(), "module": digest(WEB / name)}
        print(f"{name}: {sizes(WEB / name)}", flush=True)
    MADE.write_text(json.dumps(made, indent=1, sort_keys=True) + "\n")


def digest(path):
    """The SHA-256 of a file."""
    return hashlib.sha256(path.read_bytes()).hexdigest()


def sizes(path):
    """How many bytes a file has, raw and by gzip."""
    data = path.read_bytes()
    return f"{len(data)} bytes, {len(gzip.compress(data, 9, mtime=0))} by gzip"
