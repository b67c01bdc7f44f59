"""A network of processes as tools/browser-test and ./demo bring one up: logs, authorities and an owner by the clock, as in
tools/operators-test, and tools/site, whose staples the owner makes. It runs in a thread."""
import socket
import subprocess
import sys
import threading
import time
import types

sys.dont_write_bytecode = True

import handshake_parties as parties
import party_messages as messages
from ballots import party_key
from load_tool import load

operators = load("operators-test")
# The types of the parties' keys, and of the owner's: of the latter 1,024 leaves sign, of which each epoch takes one.
KEYS = (6, 3)
OWNER = "D0"
WAIT = 12


class Liar:
    """A log or an authority that signs what it is asked to, by its first key."""

    def __init__(self, net, name):
        self.at, self.role, self.used = int(name[1:]), operators.ROLE_NUMBERS[name[0]], 0
        self.key = party_key(net.secrets[name], self.role, self.at, *net.types(name))

    def head(self, kind):
        return bytes([kind, self.role]) + parties.number(2, self.at)

    def sign(self, text):
        self.used += 1
        return bytes(4) + self.key.sign(self.used, text)


class Site(operators.Site):
    """tools/site, with the socket at which it asks for staples."""

    def __init__(self, net):
        super().__init__(net)
        self.listening, self.owner = socket.socket(socket.AF_UNIX), None
        self.listening.bind(str(self.folder / "owner"))
        self.listening.listen()
        self.listening.setblocking(False)

    def keys(self, lines):
        (self.folder / "keys").write_text("".join(f"key {line}\n" for line in lines))

    def start(self):
        at, above = self.folder, self.net.folder
        words = [operators.TOOLS / "site", "run", "--directory", above / "directory", "--schedule", above / "schedule", "--keys", at / "keys",
                 "--kept", at / "kept", "--messages", at / "messages", "--sends", at / "sends", "--listen", at / "socket", "--answers", at / "owner",
                 "--client", operators.SITE[1:], "--program", *self.net.asked.arpki]
        self.process = subprocess.Popen([str(word) for word in words], stdin=subprocess.DEVNULL, stderr=subprocess.PIPE, process_group=0)
        self.net.watch(self.process.stderr.fileno(), self.told.append, self.process)

    def again(self):
        """Starts it again, with other keys."""
        self.kill()
        self.start()

    def look(self):
        super().look()
        try:
            self.owner = self.listening.accept()[0]
        except BlockingIOError:
            return
        self.net.watch(self.owner.fileno(), self.asks)

    def asks(self, line):
        """tools/site asks the owner's process for a staple, and for nothing else."""
        if line.startswith("staple "):
            self.net.members[OWNER].order(line)

    def told_by_owner(self, line):
        if self.owner and ("stapled" in line or "staple" in line and "refused" in line):
            try:
                self.owner.sendall(line.encode() + b"\n")
            except OSError:
                self.owner = None


class Net(operators.Net):
    """The network."""

    def __init__(self, programs, folder, logs, quorum, authorities, length, grace, name):
        operators.LOGS, operators.QUORUM, operators.AUTHORITIES, operators.OWNERS = logs, quorum, authorities, 1
        operators.NAMES, operators.LIARS, operators.Site = [name], (), Site
        asked = types.SimpleNamespace(seed=1, length=length, grace=grace, lead=WAIT, keys=KEYS, roll_at=860, verbose=False,
                                      program=programs / "arpki_party", arpki=[programs / "arpki"])
        self.ended_all, self.name, self.thread = False, name, None
        super().__init__(asked, folder)

    def key(self, name):
        words = [self.asked.program, "key", operators.ROLES[name[0]], name[1:], self.folder / name / "secret"]
        return subprocess.run([str(word) for word in words], stdout=subprocess.PIPE, check=True, text=True).stdout.strip()

    def found(self):
        super().found()
        with (self.folder / OWNER / "secret").open("a") as secret:
            secret.write("keys {} {}\n".format(*KEYS))
        self.keys[OWNER] = self.key(OWNER)

    def begin(self):
        """Starts all of them, and registers the name: the first draft of the owner."""
        story = operators.Story(self, 1)
        story.say = lambda text: None
        owner = self.members[OWNER]
        before = owner.told
        owner.told = lambda line: (self.site.told_by_owner(line), before(line))
        story.begin()
        self.certificate = story.first[self.name]
        return self

    def allow(self, draft, channel):
        self.members[OWNER].order(f"allow {draft} {channel.hex()}")

    def run(self):
        """Goes on in a thread until `end`."""
        def turns():
            while not self.ended_all:
                self.turn()
        self.thread = threading.Thread(target=turns, daemon=True)
        self.thread.start()

    def end(self):
        self.ended_all = True
        if self.thread:
            self.thread.join(5)
        super().end()

    def wait(self, holds, seconds):
        """Whether something holds within so many seconds."""
        until = time.monotonic() + seconds
        while not holds():
            if time.monotonic() > until:
                return False
            time.sleep(0.1)
        return True

    def domain(self):
        """The domain as a liar sees it: its newest certificate, without its key."""
        domain = parties.Domain.__new__(parties.Domain)
        domain.council, domain.name, domain.seed, domain.types, domain.keyed, domain.steps = None, self.name.encode(), b"forged", (5, 3), True, 20
        domain.keys, domain.changes, domain.certificates = [], [], [self.table[self.name][-1][1]]
        return domain
