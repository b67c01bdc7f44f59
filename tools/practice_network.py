"""A network on one machine, to practise on (tools/practice) and to be tested with (tools/name-test): three logs, four authorities with
their doors, what carries messages between them and to whoever joins, a DNS server on a loopback address, and a web server (nginx) for
each name, on a loopback address of its own.

Below the folder of a network stands what stands on a machine (docs/DEPLOY.md): `etc` with the directory and the schedule, `run` with
the pipes of each party and of whoever joins, `var` with what each keeps. A new folder in `run`, as D7, joins."""
import heapq
import os
import pathlib
import random
import selectors
import shutil
import signal
import socket
import struct
import subprocess
import sys
import threading
import time

import name_looks
import schedule
from line_pipes import Lines
from network_files import Wrong

TOOLS = pathlib.Path(__file__).resolve().parent
LOGS, QUORUM, AUTHORITIES = 3, 3, 4
ROLES = {"L": "log", "A": "authority"}
# Seconds that a message takes at most, until what ended is started again, and between two looks at what joined or ended.
SLOWEST, RESTART, LOOK = 0.02, 0.5, 0.2
# The address and port of the DNS server, the port of the web servers, that of their TLS, and the address before the first.
DNS, WEB, TLS, FIRST = ("127.0.0.53", 5353), 8480, 8443, 1
RULES = """# How this authority's door looks at names (docs/DOOR.md, "The rules of a door").
vantage 127.0.0.1 {dns}
vantage 127.0.1.1 {dns}
person *.bank.example
tries 3
seconds 4
# What a network on one machine needs, and no other one: names of `example`, and addresses that are none of the public network.
last example
allow 127.0.0.0/8
web {web}
tls {tls}
"""
NGINX = """daemon off;
pid {folder}/{label}.pid;
error_log {folder}/{label}.log;
worker_processes 1;
{user}
events {{ worker_connections 64; }}
http {{
    access_log off;
    client_body_temp_path {folder}/{label}.tmp/body; proxy_temp_path {folder}/{label}.tmp/proxy; fastcgi_temp_path {folder}/{label}.tmp/f;
    uwsgi_temp_path {folder}/{label}.tmp/u; scgi_temp_path {folder}/{label}.tmp/s;
    server {{
        listen {address}:{web};
        listen {address}:{tls} ssl;
        server_name {name};
        ssl_certificate {folder}/{label}.pem; ssl_certificate_key {folder}/{label}.key;
        location /.well-known/arpki-token/ {{ {tokens} default_type text/plain; }}
        location /.well-known/arpki/ {{ proxy_pass http://unix:{socket}:; }}
        location / {{ return 200 "This is {name}.\\n"; default_type text/plain; }}
    }}
}}
"""


class Zone:
    """The DNS server: what stands in a file of lines `<name> A|AAAA|TXT <value>`, by UDP and by TCP."""

    def __init__(self, path, address=DNS):
        self.path, self.address, self.failing = path, address, set()
        self.datagrams, self.streams = socket.socket(type=socket.SOCK_DGRAM), socket.socket()
        self.streams.setsockopt(socket.SOL_SOCKET, socket.SO_REUSEADDR, 1)
        for one in (self.datagrams, self.streams):
            one.bind(address)
        self.streams.listen(16)
        for serve in (self.by_datagram, self.by_stream):
            threading.Thread(target=serve, daemon=True).start()

    def close(self):
        for one in (self.datagrams, self.streams):
            one.close()

    def records(self, name, kind):
        word = {name_looks.A: "A", name_looks.AAAA: "AAAA", name_looks.TXT: "TXT"}.get(kind)
        found, is_there = [], False
        for line in self.path.read_text().split("\n"):
            words = line.split(None, 2)
            if len(words) == 3 and words[0] == name:
                is_there = True
                if words[1] == word:
                    found.append(self.packed(word, words[2]))
        return is_there, found

    @staticmethod
    def packed(word, value):
        if word == "TXT":
            return bytes([len(value)]) + value.encode()
        return socket.inet_pton(socket.AF_INET if word == "A" else socket.AF_INET6, value)

    def reply(self, data, most):
        try:
            asked = name_looks.Answer(data)
            (name, kind, of_class), = asked.questions
        except ValueError:
            return None
        question = name_looks.encoded(name) + struct.pack(">2H", kind, of_class)
        is_there, found = self.records(name, kind)
        code = 2 if name in self.failing else 0 if is_there else name_looks.NO_NAME
        records = b"".join(b"\xc0\x0c" + struct.pack(">2HIH", kind, 1, 1, len(value)) + value for value in found)
        head = struct.pack(">6H", asked.number, 0x8180 | code, 1, len(found), 0, 0)
        if len(head + question + records) > most:
            return struct.pack(">6H", asked.number, 0x8380 | code, 1, 0, 0, 0) + question
        return head + question + records

    def by_datagram(self):
        while True:
            try:
                data, peer = self.datagrams.recvfrom(4096)
                answer = self.reply(data, 512)
                if answer:
                    self.datagrams.sendto(answer, peer)
            except OSError:
                return

    def by_stream(self):
        while True:
            try:
                peer, _ = self.streams.accept()
            except OSError:
                return
            with peer:
                peer.settimeout(2)
                try:
                    data = peer.recv(4096)
                    answer = self.reply(data[2:], 1 << 16)
                    peer.sendall(struct.pack(">H", len(answer)) + answer)
                except (OSError, TypeError):
                    pass


class Pipe:
    """A named pipe that somebody else reads, and what waits for it."""

    def __init__(self, path):
        self.descriptor, self.waiting = os.open(path, os.O_RDWR | os.O_NONBLOCK), bytearray()

    def put(self, line):
        self.waiting += b"\n" + line.encode() + b"\n"
        self.flush()

    def flush(self):
        try:
            while self.waiting:
                del self.waiting[:os.write(self.descriptor, self.waiting[:1 << 16])]
        except BlockingIOError:
            pass

    def close(self):
        os.close(self.descriptor)


class Program:
    """A process that is started again where it ended."""

    def __init__(self, network, words, log):
        self.words, self.log, self.process, self.ended_at, self.is_off = list(map(str, words)), log, None, 0.0, False
        network.programs.append(self)

    def start(self):
        with self.log.open("ab") as told:
            self.process = subprocess.Popen(self.words, stdin=subprocess.DEVNULL, stdout=told, stderr=told, process_group=0)

    def look(self):
        """Starts it where it does not run."""
        if self.is_off:
            return
        if self.process is None:
            self.start()
        elif self.process.poll() is not None:
            self.ended_at = self.ended_at or time.monotonic()
            if time.monotonic() > self.ended_at + RESTART:
                self.ended_at = 0.0
                self.start()

    def kill(self, how=signal.SIGKILL):
        """Ends it, with what it started."""
        if self.process and self.process.poll() is None:
            os.killpg(self.process.pid, how)
            self.process.wait(30)

    def off(self):
        self.is_off = True
        self.kill()


class Joined:
    """Who joined: a party, an owner or a client, with its pipes."""

    def __init__(self, network, name):
        self.name, self.folder = name, network.run / name
        self.inputs = {}
        self.sends = os.open(self.folder / "sends", os.O_RDWR | os.O_NONBLOCK)
        network.selector.register(self.sends, selectors.EVENT_READ, (Lines(self.sends), self))

    def come(self, sender, line):
        path = self.folder / "from" / sender
        path = path if path.exists() else self.folder / "messages"
        if path not in self.inputs:
            self.inputs[path] = Pipe(path)
        self.inputs[path].put(line)

    def flush(self):
        for pipe in self.inputs.values():
            pipe.flush()


class Network:
    """All of them, and what is between them."""

    def __init__(self, folder, program, arpki, length=10.0, grace=3.0, lead=4.0, keys=(6, 3), seed=None):
        self.folder, self.program, self.arpki, self.length, self.grace, self.keys = folder, program, arpki, length, grace, keys
        self.etc, self.run, self.var, self.www, self.web = (folder / name for name in ("etc", "run", "var", "www", "web"))
        for place in (self.etc, self.run, self.var, self.www, self.web):
            place.mkdir(parents=True)
        folder.chmod(0o755)
        self.selector, self.late, self.count, self.looked, self.chance = selectors.DefaultSelector(), [], 0, 0.0, random.Random(seed)
        self.programs, self.joined, self.gates, self.doors = [], {}, {}, {}
        self.watchers, self.servers = [], 0
        self.zone_file = self.etc / "zone"
        self.zone_file.write_text("")
        self.zone = Zone(self.zone_file)
        self.found(lead)
        for party in self.parties():
            self.add_party(party)

    # ---- files

    @staticmethod
    def parties():
        return [f"L{n}" for n in range(LOGS)] + [f"A{n}" for n in range(AUTHORITIES)]

    def found(self, lead):
        """Writes secrets, the directory, the schedule and the rules of doors."""
        keys = {}
        for party in self.parties():
            folder = self.var / party
            folder.mkdir(mode=0o700)
            secret = folder / "secret"
            secret.write_text(f"secret {os.urandom(32).hex()}\nkeys {self.keys[0]} {self.keys[1]}\n")
            secret.chmod(0o600)
        makers = {party: subprocess.Popen([self.program, "key", ROLES[party[0]], party[1:], self.var / party / "secret"],
                                          stdout=subprocess.PIPE, text=True) for party in self.parties()}
        for party, maker in makers.items():
            keys[party] = maker.communicate()[0].strip()
            if maker.returncode:
                raise Wrong(f"{self.program} makes no key")
        lines = [f"logs {LOGS} {QUORUM}", *(keys[f"L{n}"] for n in range(LOGS)), f"authorities {AUTHORITIES}",
                 *(keys[f"A{n}"] for n in range(AUTHORITIES))]
        (self.etc / "directory").write_text("\n".join(lines) + "\n")
        text = schedule.text_of(time.time() + lead - self.length, self.length, self.grace, 4)
        (self.etc / "schedule").write_text(text)
        self.plan = schedule.read(text)
        (self.etc / "rules").write_text(RULES.format(dns=f"{DNS[0]}:{DNS[1]}", web=WEB, tls=TLS))

    # ---- parties

    def add_party(self, party):
        """A log or an authority: its gate, its driver, and an authority's door."""
        run, kept, role = self.run / party, self.var / party, ROLES[party[0]]
        (run / "from").mkdir(parents=True)
        for pipe in ("messages", "orders", "sends", *(f"from/{sender}" for sender in self.parties())):
            os.mkfifo(run / pipe)
        directory, plan = self.etc / "directory", self.etc / "schedule"
        self.gates[party] = Program(self, [sys.executable, "-B", TOOLS / "party-gate", role, party[1:], directory, kept / "secret",
                                           kept / "journal", "--messages", run / "messages", "--from", run / "from", "--orders",
                                           run / "orders", "--sends", run / "sends", "--told", run / "told", "--schedule", plan, "--names",
                                           kept / "kept/names", *(["--asks", run / "asks"] if role == "authority" else []), "--program",
                                           self.program], kept / "gate.log")
        Program(self, [sys.executable, "-B", TOOLS / "epochs", "run", role, party[1:], "--directory", directory, "--schedule", plan,
                       "--told", run / "told", "--kept", kept / "kept"], kept / "driver.log")
        if role == "authority":
            self.doors[party] = Program(self, [sys.executable, "-B", TOOLS / "authority", "run", party[1:], "--directory", directory,
                                               "--asks", run / "asks", "--store", kept / "door", "--rules", self.etc / "rules", "--page",
                                               run / "page"], kept / "door.log")
        self.joined[party] = Joined(self, party)

    # ---- names

    def add_name(self, name, tokens=None, label=None, in_zone=True):
        """nginx for a name, by a label where it is not the name's first one, on an address of its own, and that address in the DNS. It
        shows the folder www/<name>, where `tokens` says nothing else, and the socket run/<name>.socket below /.well-known/arpki/; its
        address and its process."""
        label, www = label or name, self.www / name
        self.servers += 1
        address = f"127.0.0.{FIRST + self.servers}"
        (www / ".well-known/arpki-token").mkdir(parents=True, exist_ok=True)
        if in_zone:
            self.put_record(name, "A", address)
        self.tls_key(name, label)
        (self.web / f"{label}.tmp").mkdir(exist_ok=True)
        user = "user www-data;" if os.getuid() == 0 else ""
        conf = self.web / f"{label}.conf"
        conf.write_text(NGINX.format(folder=self.web, name=name, label=label, address=address, web=WEB, tls=TLS, user=user,
                                     tokens=tokens or f"root {www};", socket=self.run / f"{name}.socket"))
        nginx = shutil.which("nginx", path=f"{os.environ['PATH']}:/usr/sbin")
        if not nginx:
            raise Wrong("there is no nginx: install Debian's package nginx-light")
        server = Program(self, [nginx, "-c", conf], self.web / f"{label}.out")
        server.look()
        return address, server

    def tls_key(self, name, label):
        """Makes a TLS key for a name, with a certificate that it signs itself."""
        subprocess.run(["openssl", "req", "-x509", "-newkey", "ec", "-pkeyopt", "ec_paramgen_curve:P-256", "-nodes", "-days", "30", "-subj",
                        f"/CN={name}", "-keyout", self.web / f"{label}.key", "-out", self.web / f"{label}.pem"], check=True,
                       capture_output=True)

    def put_record(self, name, kind, value):
        with self.zone_file.open("a") as zone:
            zone.write(f"{name} {kind} {value}\n")

    def take_records(self, name, kind):
        """Takes the records of a kind of a name away."""
        lines = [line for line in self.zone_file.read_text().split("\n") if line.split()[:2] != [name, kind]]
        other = self.zone_file.with_suffix(".new")
        other.write_text("\n".join(lines))
        other.replace(self.zone_file)

    # ---- lines

    def carry(self, sender, to, line):
        """Brings a message to whom it is for, a little later."""
        if any(watcher(sender, to, line) for watcher in self.watchers):
            return
        everybody = line.startswith("0d")
        for name in self.joined:
            if name != sender and (everybody or name == to or (to == "logs" and name[0] == "L")):
                self.count += 1
                heapq.heappush(self.late, (time.time() + self.chance.uniform(0, SLOWEST), self.count, name, sender, line))

    def post(self, name, sender, line):
        """Brings a message to a party, as from a sender."""
        self.joined[name].come(sender, line)

    # ---- time

    def turn(self):
        """Hears, brings what is due, starts again what ended, and lets join who came."""
        for key, _ in self.selector.select(0.02):
            lines, member = key.data
            for line in lines.read() or []:
                words = line.decode("ascii", "replace").split(" ")
                if words[0] == "send" and len(words) == 3:
                    self.carry(member.name, words[1], words[2])
        while self.late and self.late[0][0] <= time.time():
            _, _, name, sender, line = heapq.heappop(self.late)
            self.joined[name].come(sender, line)
        if time.monotonic() > self.looked + LOOK:
            self.looked = time.monotonic()
            self.look()

    def look(self):
        for program in self.programs:
            program.look()
        for folder in self.run.iterdir():
            if folder.name not in self.joined and folder.name[0] in "DC" and (folder / "messages").exists() and (folder / "sends").exists():
                self.joined[folder.name] = Joined(self, folder.name)
        for member in self.joined.values():
            member.flush()

    def until(self, holds, why, patience=120):
        """Goes on until something holds."""
        until = time.monotonic() + patience
        while not holds():
            self.turn()
            if time.monotonic() > until:
                raise Wrong(f"{why}, in {patience} seconds")

    def go_on(self, seconds):
        until = time.monotonic() + seconds
        while time.monotonic() < until:
            self.turn()

    def ended(self):
        """The newest epoch that ended at all logs."""
        newest = []
        for log in range(LOGS):
            try:
                lines = (self.var / f"L{log}/kept/endings").read_text().split("\n")
                newest.append(int(lines[-2].split(" ")[0]) if len(lines) > 1 else 0)
            except OSError:
                newest.append(0)
        return min(newest)

    def end(self):
        for program in reversed(self.programs):
            program.off()
        self.zone.close()
