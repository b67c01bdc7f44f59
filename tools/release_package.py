"""Makes a Debian package of a release, by Debian's own tools, dpkg-deb and dpkg-shlibdeps.

It has the programs with man pages, the C library, what runs a party (tools/party-gate and the others that docs/DEPLOY.md
installs) with its units, and makes the users `arpki` and `arpki-net`. The same release gives the same package.
"""
import datetime
import gzip
import hashlib
import os
import pathlib
import re
import shutil
import tempfile

import kit as kits
import release_parts

TOP = kits.TOP
LIBRARY = "usr/lib/x86_64-linux-gnu"
# What docs/DEPLOY.md installs by hand goes to other places in a package.
TOOLS, UNITS = "usr/lib/arpki", "lib/systemd/system"
BY_HAND = "/usr/local/lib/arpki"
# How the units of a log become those of another party, as docs/DEPLOY.md does it.
LETTERS = {"authority": "A", "owner": "D"}
NEEDED = ["dpkg-deb", "dpkg-shlibdeps"]
MAINTAINER = "The Polgjask developers <polgjask@lists.example.net>"
SUMMARY = "public-key infrastructure that stands two broken authorities or logs"
DESCRIPTION = """ Polgjask is a public-key infrastructure in which one or two broken authorities
 or logs cannot make a client accept a false certificate. The package has its
 programs arpki, arpki_crowd and arpki_party, which are proved to give the
 answers that are defined, the C library of the client's rule, and what runs a
 log, an authority or an owner as a service.
"""
POSTINST = """#!/bin/sh
set -e
if [ "$1" = configure ]; then
    getent passwd arpki >/dev/null ||
        adduser --quiet --system --group --home /var/lib/arpki --no-create-home --shell /usr/sbin/nologin arpki
    getent passwd arpki-net >/dev/null ||
        adduser --quiet --system --group --home /nonexistent --no-create-home --shell /usr/sbin/nologin arpki-net
    adduser --quiet arpki-net arpki
    install -d -m 0700 -o arpki -g arpki /var/lib/arpki
    [ -d /var/lib/prometheus/node-exporter ] || install -d -m 0775 -g arpki /var/lib/prometheus/node-exporter
    if [ -d /run/systemd/system ]; then
        systemctl --system daemon-reload || true
    fi
fi
"""
PRERM = """#!/bin/sh
set -e
if [ "$1" = remove ] && [ -d /run/systemd/system ]; then
    systemctl stop 'arpki-*.service' || true
fi
"""
POSTRM = """#!/bin/sh
set -e
if [ "$1" != upgrade ] && [ -d /run/systemd/system ]; then
    systemctl --system daemon-reload || true
fi
# Secrets and journals are a party's own, and stay; so do the users, since files may be theirs.
if [ "$1" = purge ]; then
    for folder in /etc/arpki /var/lib/arpki /var/lib/prometheus/node-exporter /var/lib/prometheus; do
        [ ! -d "$folder" ] || rmdir --ignore-fail-on-non-empty "$folder"
    done
fi
"""
COPYRIGHT = """Format: https://www.debian.org/doc/packaging-manuals/copyright-format/1.0/
Upstream-Name: Polgjask

Files: *
Copyright: 2026 The Polgjask developers
License: Apache-2.0 or Expat

License: Apache-2.0
 On Debian systems, the full text of the Apache License 2.0 is in
 /usr/share/common-licenses/Apache-2.0.

License: Expat
"""


def make(release, where):
    """Makes the package of the release that stands there in a folder, and tells its name."""
    if not (release / "PROVENANCE").exists():
        raise release_parts.Missing("there is no release/ here to make a package of: tools/release makes it")
    lacking = [name for name in NEEDED if not shutil.which(name)]
    if lacking:
        raise release_parts.Missing(f"there is no {' and no '.join(lacking)} here: install Debian's package dpkg-dev")
    version = release_parts.Provenance.read((release / "PROVENANCE").read_bytes()).version
    where.mkdir(parents=True, exist_ok=True)
    to = where / f"arpki_{version}-1_amd64.deb"
    with tempfile.TemporaryDirectory(prefix="package-") as place:
        room = pathlib.Path(place)
        tree = room / "arpki"
        furnish(release, version, tree)
        control(version, tree, room)
        for path in [tree, *tree.rglob("*")]:
            if path.is_dir():
                path.chmod(0o755)
        kits.call(["dpkg-deb", "--root-owner-group", "-Zxz", "--build", tree, to], env={**os.environ, "SOURCE_DATE_EPOCH": str(int(released(version).timestamp()))})
    print(f"{to}: {to.stat().st_size:,} bytes, SHA-256 {hashlib.sha256(to.read_bytes()).hexdigest()}")
    return 0


def put(tree, path, data, mode=0o644):
    """Puts a file into the tree."""
    place = tree / path
    place.parent.mkdir(parents=True, exist_ok=True)
    place.write_bytes(data if isinstance(data, bytes) else data.encode())
    place.chmod(mode)


def packed(data):
    return gzip.compress(data if isinstance(data, bytes) else data.encode(), 9, mtime=0)


def furnish(release, version, tree):
    """Puts all files of the package into the tree."""
    for name in release_parts.PROGRAMS:
        put(tree, f"usr/bin/{name}", (release / "bin" / name).read_bytes(), 0o755)
        put(tree, f"usr/share/man/man1/{name}.1.gz", packed((TOP / f"docs/man/{name}.1").read_bytes()))
    for name in ("libarpki.a", "libarpki.so.1"):
        put(tree, f"{LIBRARY}/{name}", (release / "lib" / name).read_bytes())
    (tree / LIBRARY / "libarpki.so").symlink_to("libarpki.so.1")
    text = (release / "lib/pkgconfig/arpki.pc").read_text().replace("${pcfiledir}/../..", "/usr").replace("${prefix}/lib", "${prefix}/lib/x86_64-linux-gnu")
    put(tree, f"{LIBRARY}/pkgconfig/arpki.pc", text)
    put(tree, "usr/include/arpki.h", (release / "include/arpki.h").read_bytes())
    for path in sorted(release.glob("web/*")):
        put(tree, f"usr/share/arpki/{path.name}", path.read_bytes())
    for path, mode in tools():
        put(tree, f"{TOOLS}/{path.name}", for_package(path.read_text()), mode)
    for name, text in units():
        put(tree, f"{UNITS}/{name}", text)
    (tree / "etc/arpki").mkdir(parents=True)
    place = "usr/share/doc/arpki"
    for name in ("PROVENANCE", "arpki.cdx.json"):
        put(tree, f"{place}/{name}", (release / name).read_bytes())
    for name in ("DEPLOY.md", "FORMATS.md", "PROTOCOL.md", "BROWSER.md", "AUDITOR.md", "DOMAIN.md"):
        data = for_package((TOP / "docs" / name).read_text()).encode()
        put(tree, f"{place}/{name}" + (".gz" if len(data) > 4096 else ""), packed(data) if len(data) > 4096 else data)
    put(tree, f"{place}/examples/alarms.yml", (TOP / "docs/alarms.yml").read_bytes())
    put(tree, f"{place}/changelog.gz", packed((TOP / "CHANGELOG.md").read_bytes()))
    put(tree, f"{place}/changelog.Debian.gz", packed(changelog(version)))
    mit = (TOP / "LICENSE-MIT").read_text().split("\n\n", 2)[2]
    put(tree, f"{place}/copyright", COPYRIGHT + "".join(f" {line or '.'}\n" for line in mit.strip().splitlines()))


def tools():
    """(path, rights) of each tool that docs/DEPLOY.md installs beside a party."""
    found = []
    for line in (TOP / "docs/DEPLOY.md").read_text().splitlines():
        of = re.fullmatch(rf" +install -m (0\d+) (?:-D )?-t {BY_HAND} (.+)", line)
        if of:
            found += [(TOP / path, int(of[1], 8)) for word in of[2].split() for path in expanded(word)]
    missing = [str(path) for path, _ in found if not path.exists()]
    if not found or missing:
        raise release_parts.Missing(f"docs/DEPLOY.md installs no tools to {BY_HAND}, or some that are not there: {' '.join(missing)}")
    return found


def expanded(word):
    """The words that a shell makes of one with braces, as tools/{one,two}.py."""
    head, brace, rest = word.partition("{")
    inner, _, tail = rest.partition("}")
    return [head + part + tail for part in inner.split(",")] if brace else [word]


def for_package(text):
    """A text of the repository, with the places that things have in the package."""
    text = re.sub(r"\A#!/usr/bin/env (\w+)", lambda found: "#!/bin/bash" if found[1] == "bash" else f"#!/usr/bin/{found[1]}", text)
    return text.replace(BY_HAND, f"/{TOOLS}").replace("/usr/local/bin", "/usr/bin")


def units():
    """(name, text) of each unit: those of docs/systemd, and of those of a log what they are for an authority and an owner."""
    for path in sorted((TOP / "docs/systemd").iterdir()):
        text = for_package(path.read_text())
        yield path.name, text
        if path.name.startswith("arpki-log"):
            for role, letter in LETTERS.items():
                own = text.replace("Log %i", f"{role.capitalize()} %i").replace("log %i", f"{role} %i").replace("log%i", f"{role}%i")
                own = own.replace("arpki-log@", f"arpki-{role}@").replace("L%i", f"{letter}%i")
                name = path.name.replace("arpki-log", f"arpki-{role}")
                if not (TOP / "docs/systemd" / name).exists():
                    yield name, own


def released(version):
    """The day of a version, by CHANGELOG.md."""
    found = re.search(rf"^## {re.escape(version)} \((\d+ \w+ \d+)\)", (TOP / "CHANGELOG.md").read_text(), re.M)
    if not found:
        raise release_parts.Missing(f"CHANGELOG.md has no heading as '## {version} (30 November 2026)'")
    return datetime.datetime.strptime(found[1], "%d %B %Y").replace(tzinfo=datetime.timezone.utc)


def changelog(version):
    day = released(version).strftime("%a, %d %b %Y %H:%M:%S +0000")
    return f"arpki ({version}-1) unstable; urgency=medium\n\n  * Release {version}.\n\n -- {MAINTAINER}  {day}\n"


def control(version, tree, room):
    """What tells dpkg of the package."""
    size = sum(path.stat().st_size for path in tree.rglob("*") if path.is_file()) // 1024
    depends = f"{libraries(tree, room)}, python3 (>= 3.11), adduser"
    put(tree, "DEBIAN/control", f"""Package: arpki
Version: {version}-1
Section: net
Priority: optional
Architecture: amd64
Maintainer: {MAINTAINER}
Installed-Size: {size}
Depends: {depends}
Recommends: mosquitto-clients
Description: {SUMMARY}
{DESCRIPTION}""")
    sums = "".join(f"{hashlib.md5(path.read_bytes()).hexdigest()}  {path.relative_to(tree)}\n" for path in sorted(tree.rglob("*"))
                   if path.is_file() and not path.is_symlink() and "DEBIAN" not in path.parts)
    put(tree, "DEBIAN/md5sums", sums)
    put(tree, "DEBIAN/shlibs", f"libarpki 1 arpki (>= {version})\n")
    put(tree, "DEBIAN/triggers", "activate-noawait ldconfig\n")
    for name, text in (("postinst", POSTINST), ("prerm", PRERM), ("postrm", POSTRM)):
        put(tree, f"DEBIAN/{name}", text, 0o755)


def libraries(tree, room):
    """The packages of the libraries that the programs need, by dpkg-shlibdeps."""
    put(room, "debian/control", "Source: arpki\nSection: net\nPackage: arpki\nArchitecture: amd64\nDescription: none\n")
    words = ["dpkg-shlibdeps", "-O", *(f"-e{path}" for path in sorted((tree / "usr/bin").iterdir())), f"-e{tree / LIBRARY / 'libarpki.so.1'}"]
    said = kits.call(words, cwd=room)
    found = re.search(r"^shlibs:Depends=(.+)$", said, re.M)
    if not found:
        raise kits.KitError(f"dpkg-shlibdeps does not tell what the programs need: {said[-300:]}")
    return found[1]
