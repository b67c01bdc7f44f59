"""How an authority's door looks at what a name puts up (docs/DOOR.md, "A look"): a file on the name's web server, or TXT records, from
one of its addresses and by one resolver. Whatever is odd ends the look with a reason: it fails closed.

A look is made by a process of its own (`tools/authority look`), which has neither the door's store nor its socket: it is given a
question and gives an answer, both a line of JSON."""
import ipaddress
import json
import re
import resource
import secrets
import socket
import ssl
import struct
import sys
import time
import urllib.parse

import name_notes as notes

A, CNAME, TXT, AAAA, OPT = 1, 5, 16, 28, 41
NO_ERROR, NO_NAME = 0, 3
# The most bytes of an answer by HTTP, with its head, and of what stands in it; the most redirects, addresses and records.
MOST_BYTES, MOST_BODY, MOST_REDIRECTS, MOST_ADDRESSES, MOST_RECORDS = 8192, 1100, 3, 4, 64
# Seconds until a question to a resolver is sent again, the bytes of UDP that it may answer with, and how often it is sent.
AGAIN, DATAGRAM, TIMES = 2.0, 1232, 3
REDIRECTS = (301, 302, 303, 307, 308)
# What the process of a look may take: memory, and seconds of a processor.
MOST_MEMORY, MOST_SECONDS = 1 << 28, 10


class Fails(Exception):
    """The look ends: the reason in a word, and what was seen."""

    def __init__(self, reason, seen):
        super().__init__(f"{reason}: {seen}")
        self.reason, self.seen = reason, seen


class Deadline:
    """Until when a look has to be over."""

    def __init__(self, seconds):
        self.end = time.monotonic() + seconds

    def left(self, most=None):
        left = self.end - time.monotonic()
        if left <= 0:
            raise Fails("slow", "the time of the look is over")
        return left if most is None else min(left, most)


# ---- DNS (RFC 1035, 6891)


def encoded(name):
    return b"".join(bytes([len(label)]) + label.encode("ascii") for label in name.split(".")) + b"\0"


class Answer:
    """A resolver's answer, read from its bytes."""

    def __init__(self, data):
        self.data = data
        if len(data) < 12:
            raise ValueError("it has no head")
        self.number, self.flags, questions, answers, _, _ = struct.unpack_from(">6H", data)
        self.at, self.questions, self.records = 12, [], []
        for _ in range(min(questions, 2)):
            self.questions.append((self.name(), *self.numbers(">2H")))
        for _ in range(min(answers, MOST_RECORDS)):
            owner, (kind, _, _, size) = self.name(), self.numbers(">2HIH")
            self.records.append((owner, kind, self.at, size))
            self.take(size)

    def take(self, count):
        if self.at + count > len(self.data):
            raise ValueError("it ends inside a field")
        self.at += count
        return self.data[self.at - count:self.at]

    def numbers(self, form):
        return struct.unpack(form, self.take(struct.calcsize(form)))

    def name(self):
        """The name that stands here."""
        text, self.at = self.name_at(self.at)
        return text

    def name_at(self, at):
        labels, end, jumps = [], None, 0
        while True:
            size = self.data[at] if at < len(self.data) else None
            if size is None or jumps > 32 or sum(map(len, labels)) > 255:
                raise ValueError("a name is none")
            if size == 0:
                return ".".join(labels).lower(), end or at + 1
            if size >= 0xC0:
                if at + 1 >= len(self.data):
                    raise ValueError("a name is none")
                end, at, jumps = end or at + 2, (size & 0x3F) << 8 | self.data[at + 1], jumps + 1
                continue
            if size > 63 or at + 1 + size > len(self.data):
                raise ValueError("a name is none")
            labels.append(self.data[at + 1:at + 1 + size].decode("ascii", "replace"))
            at += 1 + size

    def values(self, name, kind):
        """The values of the records of a kind that a name has, along its aliases."""
        names = {name}
        for owner, of_kind, at, _ in self.records:
            if of_kind == CNAME and owner in names:
                names.add(self.name_at(at)[0])
        return [self.data[at:at + size] for owner, of_kind, at, size in self.records if of_kind == kind and owner in names]

    @property
    def code(self):
        return self.flags & 15

    @property
    def is_cut(self):
        return bool(self.flags & 0x200)

    @property
    def is_verified(self):
        """Whether the resolver says that it verified it by DNSSEC."""
        return bool(self.flags & 0x20)


def bound(family, kind, source):
    """A socket that goes out from an address."""
    one = socket.socket(family, kind)
    if source:
        one.bind((source, 0))
    return one


class Resolver:
    """One resolver, which is asked from one address."""

    def __init__(self, where, source, deadline):
        host, _, port = where.rpartition(":") if where.count(":") == 1 or where.startswith("[") else (where, "", "")
        self.host, self.port, self.source, self.deadline = host.strip("[]"), int(port or 53), source, deadline
        self.family = socket.AF_INET6 if ":" in self.host else socket.AF_INET
        if source and ipaddress.ip_address(source).version != ipaddress.ip_address(self.host).version:
            self.source = None  # it is asked by its own family
        self.verified = True

    def ask(self, name, kind):
        """The values of the records of a kind; none where the name, or such a record, is not there."""
        number = secrets.randbits(16)
        question = encoded(name) + struct.pack(">2H", kind, 1)
        text = struct.pack(">6H", number, 0x0120, 1, 0, 0, 1) + question + b"\0" + struct.pack(">2HIH", OPT, DATAGRAM, 0, 0)
        try:
            answer = self.by_datagram(text, number, name, kind)
            if answer.is_cut:
                answer = self.by_stream(text, number, name, kind)
            values = answer.values(name, kind)
        except ValueError as why:
            raise Fails("resolver", f"the resolver's answer is none: {why}") from why
        except OSError as why:
            raise Fails("resolver", f"the resolver cannot be asked: {why}") from why
        if answer.code not in (NO_ERROR, NO_NAME):
            raise Fails("resolver", f"the resolver says {answer.code} of {name}")
        self.verified = self.verified and answer.is_verified
        return values

    def fits(self, data, number, name, kind):
        """The answer that these bytes are; None where they answer another question."""
        answer = Answer(data)
        return answer if answer.number == number and answer.flags & 0x8000 and answer.questions == [(name, kind, 1)] else None

    def by_datagram(self, text, number, name, kind):
        for _ in range(TIMES):
            with bound(self.family, socket.SOCK_DGRAM, self.source) as one:
                one.connect((self.host, self.port))
                one.send(text)
                until = time.monotonic() + self.deadline.left(AGAIN)
                while time.monotonic() < until:
                    one.settimeout(max(0.001, until - time.monotonic()))
                    try:
                        answer = self.fits(one.recv(1 << 16), number, name, kind)
                    except TimeoutError:
                        break
                    if answer:
                        return answer
        raise Fails("resolver", f"the resolver does not answer of {name}")

    def by_stream(self, text, number, name, kind):
        with bound(self.family, socket.SOCK_STREAM, self.source) as one:
            one.settimeout(self.deadline.left())
            one.connect((self.host, self.port))
            one.sendall(struct.pack(">H", len(text)) + text)
            data = b""
            while len(data) < 2 or len(data) < 2 + int.from_bytes(data[:2], "big"):
                one.settimeout(self.deadline.left())
                more = one.recv(1 << 16)
                if not more:
                    raise ValueError("it was cut off")
                data += more
            answer = self.fits(data[2:], number, name, kind)
            if not answer:
                raise ValueError("it answers another question")
            return answer

    def addresses(self, name):
        return [socket.inet_ntop(family, value) for kind, family, size in ((A, socket.AF_INET, 4), (AAAA, socket.AF_INET6, 16))
                for value in self.ask(name, kind) if len(value) == size]

    def texts(self, name):
        """The TXT records of a name, the parts of each joined."""
        found = []
        for value in self.ask(name, TXT):
            text, at = b"", 0
            while at < len(value):
                text, at = text + value[at + 1:at + 1 + value[at]], at + 1 + value[at]
            found.append(text.decode("ascii", "replace"))
        return found


# ---- HTTP


class Visit:
    """A request to a name's web server, and to no other."""

    def __init__(self, question, resolver, deadline):
        self.name, self.source, self.deadline = question["name"], question["source"], deadline
        self.ports = {"http": question["web"], "https": question["tls"]}
        self.allowed = [ipaddress.ip_network(text) for text in question["allow"]]
        self.addresses = resolver.addresses(self.name)
        if not self.addresses:
            raise Fails("address", "the name has no address")
        private = [address for address in self.addresses if notes.is_private(address, self.allowed)]
        if private:
            raise Fails("private", f"{private[0]} is none of the public network")
        self.urls = []

    def connected(self, scheme):
        """A connection to the first address of the name that takes one."""
        why = "no address is of the family of the door's"
        version = ipaddress.ip_address(self.source).version if self.source else None
        usable = [text for text in self.addresses if version in (None, ipaddress.ip_address(text).version)]
        for address in usable[:MOST_ADDRESSES]:
            try:
                one = bound(socket.AF_INET6 if ":" in address else socket.AF_INET, socket.SOCK_STREAM, self.source)
                one.settimeout(self.deadline.left(self.deadline.left() / 2))
                one.connect((address, self.ports[scheme]))
                return self.secured(one) if scheme == "https" else one
            except OSError as failed:
                one.close()
                why = f"{address}: {failed}"
        raise Fails("connect", why)

    def secured(self, one):
        """TLS, whose certificate is not looked at: a name that has none yet is to be provable too."""
        context = ssl.create_default_context()
        context.check_hostname, context.verify_mode = False, ssl.CERT_NONE
        one.settimeout(self.deadline.left())
        return context.wrap_socket(one, server_hostname=self.name)

    def get(self, scheme, path):
        """The status, the head's lines and the body of an answer."""
        self.urls.append(f"{scheme}://{self.name}:{self.ports[scheme]}{path}")
        host = self.name if self.ports[scheme] in (80, 443) else f"{self.name}:{self.ports[scheme]}"
        with self.connected(scheme) as one:
            one.settimeout(self.deadline.left())
            one.sendall(f"GET {path} HTTP/1.0\r\nHost: {host}\r\nUser-Agent: arpki-door\r\nAccept: text/plain\r\n\r\n".encode("ascii"))
            data = b""
            while True:
                one.settimeout(self.deadline.left())
                try:
                    more = one.recv(1 << 14)
                except TimeoutError as why:
                    raise Fails("slow", f"{len(data)} bytes came in time") from why
                except OSError as why:
                    raise Fails("connect", f"the answer was cut off: {why}") from why
                if not more:
                    return self.read(data)
                data += more
                if len(data) > MOST_BYTES:
                    raise Fails("long", f"the answer has more than {MOST_BYTES} bytes")

    @staticmethod
    def read(data):
        head, mark, body = data.partition(b"\r\n\r\n")
        lines = head.decode("latin-1").split("\r\n")
        first = re.fullmatch(r"HTTP/1\.[01] ([1-5]\d\d)(?: .*)?", lines[0])
        if not mark or not first:
            raise Fails("answer", "it is no answer of HTTP")
        fields = {}
        for line in lines[1:]:
            word, colon, value = line.partition(":")
            if not colon or word.lower() in ("content-length", "location", "transfer-encoding") and word.lower() in fields:
                raise Fails("answer", "its head is none, or says a thing twice")
            fields[word.lower()] = value.strip()
        if "transfer-encoding" in fields or ("content-length" in fields and fields["content-length"] != str(len(body))):
            raise Fails("answer", "its length is not what it says")
        return int(first[1]), fields, body

    def redirected(self, base, to):
        """Where a redirect leads: to the same name, by the ports of a web server, or the look ends."""
        if not to or not to.isascii() or not to.isprintable() or " " in to:
            raise Fails("redirect", "it leads nowhere")
        try:
            url = urllib.parse.urlsplit(urllib.parse.urljoin(base, to))
            port = url.port
        except ValueError as why:
            raise Fails("redirect", f"it leads nowhere: {to[:80]}") from why
        if url.scheme not in self.ports or url.username is not None or url.password is not None:
            raise Fails("redirect", f"to {to[:80]}")
        if (url.hostname or "") != self.name or (port or {"http": 80, "https": 443}[url.scheme]) != self.ports[url.scheme]:
            raise Fails("redirect", f"to another host: {to[:80]}")
        return url.scheme, (url.path or "/") + (f"?{url.query}" if url.query else "")

    def file(self, path):
        """The words of the file that the web server has there."""
        scheme = "http"
        for _ in range(1 + MOST_REDIRECTS):
            status, fields, body = self.get(scheme, path)
            if status not in REDIRECTS:
                break
            scheme, path = self.redirected(self.urls[-1], fields.get("location", ""))
        else:
            raise Fails("redirect", f"more than {MOST_REDIRECTS} redirects")
        if status == 404:
            raise Fails("missing", "the web server has no such file (404)")
        if status != 200:
            raise Fails("status", f"the web server says {status}")
        if len(body) > MOST_BODY:
            raise Fails("long", f"what stands there has {len(body)} bytes")
        return body.decode("ascii", "replace").split()


# ---- a look


def look(question):
    """What is found: the values that stand there, or the reason why none does, and what was seen on the way."""
    deadline = Deadline(question["seconds"])
    told = {"values": [], "reason": None, "seen": "", "addresses": [], "verified": False}
    visit = resolver = None
    try:
        resolver = Resolver(question["resolver"], question["source"], deadline)
        if question["method"] == "dns":
            told["values"] = resolver.texts(f"{notes.LABEL}.{question['name']}")
            if not told["values"]:
                raise Fails("missing", f"{notes.LABEL}.{question['name']} has no TXT record")
        else:
            visit = Visit(question, resolver, deadline)
            told["addresses"] = visit.addresses
            told["values"] = visit.file(notes.PATH + question["token"])
    except Fails as why:
        told["reason"], told["seen"] = why.reason, why.seen
    except TimeoutError:
        told["reason"], told["seen"] = "slow", "the time of the look is over"
    except OSError as why:
        told["reason"], told["seen"] = "connect", str(why)
    if visit and visit.urls and not told["seen"]:
        told["seen"] = visit.urls[-1]
    told["verified"] = bool(resolver and resolver.verified)
    return told


def main():
    """Answers one question."""
    resource.setrlimit(resource.RLIMIT_AS, (MOST_MEMORY, MOST_MEMORY))
    resource.setrlimit(resource.RLIMIT_CPU, (MOST_SECONDS, MOST_SECONDS))
    resource.setrlimit(resource.RLIMIT_FSIZE, (0, 0))
    print(json.dumps(look(json.loads(sys.stdin.readline()))), flush=True)
    return 0
