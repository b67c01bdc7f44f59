"""The files that tools/tls-library and tools/handshake-test give to servers and clients: certificates of today's web by an authority
that the clients trust, and what an honest site and a man in the middle show beside them."""
import hashlib
import pathlib
import subprocess

import handshake_parties as parties

TOP = pathlib.Path(__file__).resolve().parent.parent
TLS = TOP / "c-library/tls"
INCLUDE = TOP / "c-library/include"
WARNINGS = ["-std=c11", "-D_GNU_SOURCE", "-Wall", "-Wextra", "-Werror", "-pedantic", "-Wconversion", "-Wshadow", f"-I{TLS}", f"-I{INCLUDE}"]
SANITIZERS = ["-g", "-O1", "-fsanitize=address,undefined", "-fno-sanitize-recover=all"]
WRAPPED = ["-Wl,--wrap=malloc,--wrap=calloc,--wrap=realloc"]
NAME = "a.example"
EPOCH = 5


class Failed(Exception):
    """A command that has to succeed failed; the exception says what it wrote."""


def make(*words, **options):
    """Runs a command that has to succeed, and gives its output."""
    done = subprocess.run([str(word) for word in words], text=True, capture_output=True, **options)
    if done.returncode != 0:
        raise Failed(f"{' '.join(map(str, words))} failed\n{done.stdout}{done.stderr}")
    return done.stdout


def compiled(compiler, out, sources, *flags, library=(), links=("-lssl", "-lcrypto", "-pthread")):
    """A program or a library of C sources, with all warnings as errors."""
    make(compiler, *WARNINGS, *flags, *sources, *library, *links, "-o", out)
    return out


class Files:
    """A folder of files, which are written once."""

    def __init__(self, folder):
        self.folder = folder

    def put(self, name, data):
        path = self.folder / name
        path.parent.mkdir(parents=True, exist_ok=True)
        path.write_bytes(data)
        return path


class Web(Files):
    """An authority of today's web that every client trusts, and certificates by it."""

    def __init__(self, folder):
        super().__init__(folder)
        self.root, self.root_key = folder / "root.pem", folder / "root.key"
        make("openssl", "req", "-x509", "-newkey", "ec", "-pkeyopt", "ec_paramgen_curve:P-256", "-nodes", "-days", "30", "-subj",
             "/CN=test root", "-keyout", self.root_key, "-out", self.root)

    def certificate(self, label, names=(NAME,), kind="ec"):
        """A certificate for names, with the authority's behind it, and its key."""
        key, request, cert, said = (self.folder / f"{label}{end}" for end in (".key", ".csr", ".pem", ".ext"))
        types = ["-newkey", "rsa:2048"] if kind == "rsa" else ["-newkey", "ec", "-pkeyopt", "ec_paramgen_curve:P-256"]
        make("openssl", "req", *types, "-nodes", "-subj", f"/CN={names[0]}", "-keyout", key, "-out", request)
        said.write_text("subjectAltName=" + ",".join(f"DNS:{name}" for name in names) + "\n")
        make("openssl", "x509", "-req", "-in", request, "-CA", self.root, "-CAkey", self.root_key, "-CAcreateserial", "-days", "30",
             "-extfile", said, "-out", cert)
        cert.write_text(cert.read_text() + self.root.read_text())
        return Pair(cert, key)


class Pair:
    """A certificate of today's web and its key."""

    def __init__(self, cert, key):
        self.cert, self.key = cert, key
        der = subprocess.run(["openssl", "pkey", "-in", str(key), "-pubout", "-outform", "DER"], capture_output=True, check=True).stdout
        self.channel = hashlib.sha256(der).digest()


class Site(Files):
    """A site's folder, as tools/site writes it."""

    def __init__(self, folder, domain):
        super().__init__(folder)
        self.domain = domain

    def put_whole(self, name, data):
        """Puts a file by a rename."""
        path = self.put(name + ".new", data)
        path.rename(self.folder / name)

    def show(self, pair, epoch=EPOCH, serial=-1):
        self.put_whole(f"proof/{pair.channel.hex()}", self.domain.proof(epoch, pair.channel, serial))

    def show_links(self):
        for serial in range(len(self.domain.certificates) - 1):
            self.put_whole(f"links/{self.domain.digest(serial).hex()}", self.domain.links(serial))

    def show_roll(self, party, note):
        self.put_whole(f"rolls/{party.word}/{len(party.keys) - 2}", note)


def council(types=(5, 3), **options):
    return parties.Council(types=types, **options)
