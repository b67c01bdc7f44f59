"""What visitors of an archive are served, by GET and HEAD: pages, each as HTML and as JSON, feeds, and the paths of a site's needs.

A visitor reaches connections that cannot write, and no way by which anything is sent: what he asks for makes nobody sign anything. One
asker may ask so much in a minute; at a socket the asker is who nginx says (X-Real-IP), at a port whose connection it is."""
import contextlib
import hashlib
import http.server
import json
import os
import pathlib
import queue
import re
import socketserver
import threading
import time
import urllib.parse

from . import feeds, giving, pages, reading, sql, views

# Requests of one asker in a minute, what costs more than one, how many askers are counted, and lines of what a mirror is given at once.
MOST_EACH, SEARCH_COST, GIVE_COST, MOST_ASKERS, MOST_GIVEN = 600, 10, 20, 65_536, 256
# Seconds for which a visitor may be silent, how many may be there at once, and how many read the database at once.
SILENCE, MOST_VISITORS, MOST_READERS = 20, 256, 16
LONGEST_PATH = 1024
FOR_GOOD, SHORT = "max-age=31536000, immutable", "max-age=10"
POLICY = "default-src 'none'; style-src 'self'; form-action 'self'; base-uri 'none'; frame-ancestors 'none'"
STYLE = pathlib.Path(__file__).with_name("style.css").read_bytes()
BYTES, TEXT, HTML, JSON, ATOM = ("application/octet-stream", "text/plain; charset=utf-8", "text/html; charset=utf-8",
                                 "application/json", "application/atom+xml")
LISTENING = 0o111
NUMBER, DIGEST, PARTY = r"(0|[1-9][0-9]{0,17})", r"([0-9a-f]{64})", r"([LA](?:0|[1-9][0-9]?))"


class Refused(Exception):
    """A request that is answered by an error: its status, and why."""

    def __init__(self, status, told):
        super().__init__(told)
        self.status, self.told = status, told


class Limits:
    """How much each asker may ask: so many requests in a minute, all at once or spread."""

    def __init__(self, each):
        self.each, self.left, self.lock = each, {}, threading.Lock()

    def allows(self, asker, cost):
        now = time.monotonic()
        with self.lock:
            left, before = self.left.pop(asker, (self.each, now))
            left = min(self.each, left + (now - before) * self.each / 60)
            allowed = left >= cost
            self.left[asker] = left - cost if allowed else left, now
            while len(self.left) > MOST_ASKERS:
                self.left.pop(next(iter(self.left)))
        return allowed


class Readers:
    """Connections that cannot write, of which a request takes one."""

    def __init__(self, place):
        self.place, self.free, self.room = place, queue.LifoQueue(), threading.BoundedSemaphore(MOST_READERS)

    @contextlib.contextmanager
    def one(self):
        with self.room:
            try:
                base = self.free.get_nowait()
            except queue.Empty:
                base = sql.Database(self.place)
            try:
                with base.snapshot():
                    yield base
            except base.faults:
                base.close()
                raise
            except BaseException:
                self.free.put(base)
                raise
            self.free.put(base)


class Archive:
    """What is served, by path."""

    def __init__(self, asked, council, plan):
        self.readers, self.limits = Readers(asked.store), Limits(asked.each)
        self.council, self.plan, self.site, self.clock = council, plan, asked.site.rstrip("/"), asked.clock
        self.routes = [(re.compile(form), answer, cost) for form, answer, cost in (
            (r"/style\.css", self.style, 0),
            (rf"/message/{DIGEST}", self.message, 1), (rf"/decision/{NUMBER}", self.decision, 1),
            (r"/confirmation/(.+)", self.confirmation, 1), (rf"/links/([^/]+)/{DIGEST}", self.links, 1),
            (r"/rolls", self.rolls, 1), (rf"/rolls/{PARTY}/{NUMBER}", self.roll, 1), (rf"/give/mirror/{NUMBER}", self.give, GIVE_COST),
            (rf"/evidence/{NUMBER}", self.evidence_input, 1),
            (r"/name/([^/]+)/feed", self.name_feed, 1), (r"/pending/feed", self.recovery_feed, 1), (r"/evidence/feed", self.evidence_feed, 1),
            (r"(/)(json)?", self.front, 1), (r"(/search)(/json)?", self.search, SEARCH_COST), (r"(/name/[^/]+)(/json)?", self.name, 1),
            (r"(/pending)(/json)?", self.pending, 1), (r"(/epochs)(/json)?", self.epochs, 1), (rf"(/epoch/{NUMBER})(/json)?", self.epoch, 1),
            (r"(/parties)(/json)?", self.parties, 1), (r"(/evidence)(/json)?", self.evidence, 1), (r"(/refused)(/json)?", self.refused, 1))]

    def answer(self, target, asker):
        """What a request is answered: the status, the type, the bytes, and how long they may be kept."""
        if len(target) > LONGEST_PATH:
            raise Refused(414, "the path is too long")
        path, _, query = target.partition("?")
        path = urllib.parse.unquote(path, errors="replace")
        for form, answer, cost in self.routes:
            found = form.fullmatch(path)
            if found:
                if not self.limits.allows(asker, cost):
                    raise Refused(429, f"you ask for more than {self.limits.each} pages in a minute: wait, or run an archive of your own")
                words = dict(urllib.parse.parse_qsl(query, max_num_fields=8))
                if answer == self.style:
                    return 200, "text/css; charset=utf-8", STYLE, SHORT
                with self.readers.one() as base:
                    return self.told(answer, views.Views(base, self.council, self.plan, self.clock), found, words)
        raise Refused(404, "there is no such page")

    @staticmethod
    def told(answer, view, found, words):
        try:
            return answer(view, found, words)
        except views.Missing as why:
            raise Refused(404, str(why)) from why

    def style(self, *_):
        raise AssertionError

    # ---- the paths of a site's needs

    def until_next(self):
        """What changes with an epoch is kept until the next one begins, or for a minute where there is no schedule."""
        now = time.time() + self.clock
        return f"max-age={max(1, int(self.plan.next_begins(now) - now)) if self.plan else 60}"

    @staticmethod
    def name_in(text):
        if not reading.is_name(text):
            raise Refused(400, f"{text[:80]!r} is no name: a name has labels of a to z, 0 to 9 and -, with dots between them")
        return text

    def message(self, view, found, _):
        return 200, BYTES, view.message(bytes.fromhex(found[1])), FOR_GOOD

    def decision(self, view, found, _):
        return 200, BYTES, view.ending(int(found[1])), FOR_GOOD

    def confirmation(self, view, found, _):
        return 200, BYTES, view.confirmation(self.name_in(found[1])), self.until_next()

    def links(self, view, found, _):
        return 200, BYTES, view.links(self.name_in(found[1]), bytes.fromhex(found[2])), self.until_next()

    def rolls(self, view, *_):
        return 200, TEXT, view.rolls(), self.until_next()

    def roll(self, view, found, _):
        return 200, BYTES, view.roll(found[1], int(found[2])), FOR_GOOD

    def give(self, view, found, _):
        """What a mirror is given: with epoch 1 all RollNotes, and so many Decisions and SkipNotes, a line of hex each."""
        first = max(1, int(found[1]))
        ends = list(giving.endings(view.base, first, MOST_GIVEN))
        rolls = view.rolls().decode() if first == 1 else ""
        kept = FOR_GOOD if len(ends) == MOST_GIVEN and first > 1 else self.until_next()
        return 200, TEXT, (rolls + "".join(f"{line}\n" for line in ends)).encode(), kept

    def evidence_input(self, view, found, _):
        return 200, TEXT, view.evidence_input(int(found[1])), FOR_GOOD

    # ---- feeds

    def name_feed(self, view, found, _):
        return 200, ATOM, feeds.of_name(view, self.site, self.name_in(found[1])), SHORT

    def recovery_feed(self, view, *_):
        return 200, ATOM, feeds.of_recoveries(view, self.site), SHORT

    def evidence_feed(self, view, *_):
        return 200, ATOM, feeds.of_evidence(view, self.site), SHORT

    # ---- pages

    def shown(self, found, told, page, foot, feed=()):
        """A view as a page, or as JSON."""
        if found[found.re.groups]:
            return 200, JSON, (json.dumps(told, indent=1) + "\n").encode(), SHORT
        return 200, HTML, pages.page(told, found[1], page(told), foot, self.site, feed), SHORT

    @staticmethod
    def mirror_says(question):
        """The command by which a reader's own mirror answers."""
        return f"echo '{question}' | arpki_party mirror directory mirror.journal"

    @staticmethod
    def number_in(words, word):
        text = words.get(word, "")
        return int(text) if re.fullmatch(NUMBER, text) else None

    def front(self, view, found, _):
        return self.shown(found, view.front(), pages.front, self.mirror_says("epoch"),
                          [("recoveries as a feed", "/pending/feed"), ("evidence as a feed", "/evidence/feed")])

    def search(self, view, found, words):
        text = words.get("q", "")[:253]
        return self.shown(found, view.search(text, words.get("after", "")[:253]), pages.search, self.mirror_says("epoch"))

    def name(self, view, found, words):
        name = self.name_in(found[1].removeprefix("/name/"))
        return self.shown(found, view.name(name, self.number_in(words, "before")), pages.name, self.mirror_says(f"row {name}"),
                          [("this name as a feed", f"/name/{name}/feed")])

    def pending(self, view, found, _):
        told = view.pending()
        first = told["pending"][0]["name"] if told["pending"] else None
        return self.shown(found, told, pages.pending, self.mirror_says(f"row {first}" if first else "epoch"),
                          [("recoveries as a feed", "/pending/feed")])

    def epochs(self, view, found, words):
        return self.shown(found, view.epochs(self.number_in(words, "before")), pages.epochs, self.mirror_says("epoch"))

    def epoch(self, view, found, _):
        number = int(found[2])
        return self.shown(found, view.epoch(number), pages.epoch,
                          f"printf 'root {number}\\ndecision {number}\\n' | arpki_party mirror directory mirror.journal")

    def parties(self, view, found, _):
        return self.shown(found, view.parties(), pages.parties, self.mirror_says("rolls L0 0"))

    def evidence(self, view, found, _):
        return self.shown(found, view.evidence(), pages.evidence, None, [("evidence as a feed", "/evidence/feed")])

    def refused(self, view, found, _):
        return self.shown(found, view.refused(), pages.refused, self.mirror_says("epoch"))

    def trouble(self, status, told, wants_json):
        """The page of an error."""
        if wants_json:
            return JSON, (json.dumps({"error": told}) + "\n").encode()
        try:
            with self.readers.one() as base:
                state = views.Views(base, self.council, self.plan, self.clock).state()
        except (sql.Wrong, Exception):  # whatever is wrong with the database, the error is told
            state = {"open": "?", "decided": 0, "root": None}
        title = {400: "Not understood", 404: "Not found", 405: "Not possible", 414: "Too long", 429: "Too much"}.get(status, "Not now")
        view = {"title": title, "told": told[0].upper() + told[1:] + ".", "state": state}
        return HTML, pages.page(view, None, pages.trouble(view), None, self.site)


class Visit(http.server.BaseHTTPRequestHandler):
    """A visitor."""

    protocol_version, timeout = "HTTP/1.1", SILENCE
    server_version, sys_version = "arpki-archive", ""
    wbufsize = -1

    def do_GET(self):
        self.respond(True)

    def do_HEAD(self):
        self.respond(False)

    def respond(self, is_whole):
        archive = self.server.archive
        try:
            status, kind, data, kept = archive.answer(self.path, self.asker())
        except Refused as why:
            status, kept = why.status, "no-cache"
            kind, data = archive.trouble(status, why.told, self.path.split("?")[0].endswith("/json"))
        except Exception as why:  # the database is away, or something is wrong here: told, and tried again with the next request
            self.server.tell(f"{self.path[:200]!r} is not answered: {type(why).__name__}: {why}", 3)
            status, kept = 503, "no-cache"
            kind, data = TEXT, b"the archive cannot answer now: try again later\n"
        tag = f'"{hashlib.sha256(data).hexdigest()[:32]}"'
        if status == 200 and tag in self.headers.get("If-None-Match", ""):
            status, data, is_whole = 304, b"", False
        self.send_response(status)
        if status != 304:
            self.send_header("Content-Type", kind)
            self.send_header("Content-Length", str(len(data)))
        if status in (200, 304):
            self.send_header("ETag", tag)
        if status == 429:
            self.send_header("Retry-After", "60")
        for field, value in (("Cache-Control", kept), ("Content-Security-Policy", POLICY), ("X-Content-Type-Options", "nosniff"),
                             ("Referrer-Policy", "no-referrer")):
            self.send_header(field, value)
        self.end_headers()
        if is_whole:
            self.wfile.write(data)
        self.wfile.flush()

    def asker(self):
        """Who asks: of the network of an IPv6 address all are one."""
        who = self.headers.get("X-Real-IP", "?") if self.server.is_behind else self.client_address[0]
        return ":".join(who.split(":")[:4]) if who.count(":") > 3 else who

    def address_string(self):
        return "a visitor"

    def log_message(self, *_):
        pass


class Serving(socketserver.ThreadingMixIn):
    """Serves visitors, each in a thread, and not too many at once."""

    daemon_threads, request_queue_size, allow_reuse_address = True, 64, True

    def begin(self, archive, is_behind, tell):
        self.archive, self.is_behind, self.tell, self.room = archive, is_behind, tell, threading.BoundedSemaphore(MOST_VISITORS)
        threading.Thread(target=self.serve_forever, daemon=True).start()

    def process_request(self, request, client_address):
        if self.room.acquire(blocking=False):
            super().process_request(request, client_address)
        else:
            self.shutdown_request(request)

    def process_request_thread(self, request, client_address):
        try:
            super().process_request_thread(request, client_address)
        finally:
            self.room.release()

    def handle_error(self, request, client_address):
        pass  # a visitor went away


class AtPort(Serving, socketserver.TCPServer):
    pass


class AtSocket(Serving, socketserver.UnixStreamServer):
    pass


def serve(asked, council, plan, tell):
    """Begins to serve; the servers."""
    servers, archive = [], Archive(asked, council, plan)
    if asked.listen:
        asked.listen.unlink(missing_ok=True)
        mask = os.umask(LISTENING)
        servers.append(AtSocket(str(asked.listen), Visit))
        os.umask(mask)
    if asked.port is not None:
        servers.append(AtPort(("127.0.0.1", asked.port), Visit))
        tell(f"serves at port {servers[-1].server_address[1]}", 6)
    for server in servers:
        server.begin(archive, isinstance(server, AtSocket), tell)
    return servers
