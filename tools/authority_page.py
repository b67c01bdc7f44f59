"""The page of an authority's operators (tools/authority --page): the queue, what waits for a person, and the book by day. HTML without
scripts, for a browser on this machine, or through `ssh -L`. Each text from outside is escaped. Who is at the page is whoever opened
the connection, as the system says; a yes or a no comes with a word that only the page itself has."""
import hmac
import html
import http.server
import os
import pwd
import re
import secrets
import socket
import socketserver
import struct
import threading
import time
import urllib.parse

import authority_store as stores
import name_notes as notes
from network_files import Wrong

STYLE = """
:root { color-scheme: light dark; --paper: #fff; --ink: #1a1a1a; --soft: #555; --edge: #b9bfc6; --band: #f4f6f8; --link: #0b5cad;
  --good: #1e6b34; --wait: #805200; --refused: #b3261e; --good-ground: #e3f4e7; --wait-ground: #fdf1d8; --refused-ground: #fbe6e4 }
@media (prefers-color-scheme: dark) {
  :root { --paper: #0d1117; --ink: #f0f3f6; --soft: #b8bfc7; --edge: #4a535d; --band: #161c24; --link: #79b8ff; --good: #6fd58a;
    --wait: #f0b849; --refused: #ff8f85; --good-ground: #14301d; --wait-ground: #352a10; --refused-ground: #3b1a18 } }
* { box-sizing: border-box }
body { margin: 0 auto; max-width: 1120px; padding: 0 20px 40px; font: 15px/1.5 system-ui, sans-serif; color: var(--ink);
  background: var(--paper) }
header { display: flex; flex-wrap: wrap; gap: 4px 20px; align-items: baseline; padding: 14px 0 10px; border-bottom: 1px solid var(--edge) }
h1 { font-size: 19px; margin: 0 } h2 { font-size: 16px; margin: 26px 0 8px } nav { display: flex; gap: 14px; flex-wrap: wrap }
header .who { margin-left: auto; color: var(--soft) }
a { color: var(--link) } p { margin: 6px 0; max-width: 75ch } .soft { color: var(--soft) } code { font: 13px ui-monospace, monospace }
table { border-collapse: collapse; width: 100% } th { text-align: left; font-weight: 600; color: var(--soft); font-size: 13px }
th, td { padding: 5px 10px 5px 0; border-bottom: 1px solid var(--edge); vertical-align: top; overflow-wrap: anywhere }
td.time, td.number { white-space: nowrap; font-variant-numeric: tabular-nums } td.number { text-align: right; padding-right: 18px }
.state { display: inline-block; padding: 0 8px; border-radius: 4px; white-space: nowrap; background: var(--band) }
.state.endorsed, .state.yes { color: var(--good); background: var(--good-ground) }
.state.person { color: var(--wait); background: var(--wait-ground) }
.state.refused, .state.no { color: var(--refused); background: var(--refused-ground) }
.waits { border: 1px solid var(--edge); border-left: 4px solid var(--wait); border-radius: 4px; padding: 10px 16px; margin: 10px 0 }
.waits h3 { margin: 0 0 4px; font-size: 17px } dl { display: grid; grid-template-columns: max-content 1fr; gap: 2px 16px; margin: 6px 0 }
dt { color: var(--soft) } dd { margin: 0; overflow-wrap: anywhere }
form { display: flex; gap: 10px; margin: 10px 0 2px }
button { font: inherit; font-weight: 600; color: var(--ink); background: var(--band); border: 1px solid var(--edge); border-radius: 4px;
  padding: 3px 22px; cursor: pointer }
button.yes { color: var(--good); border-color: var(--good) } button.no { color: var(--refused); border-color: var(--refused) }
.told { padding: 8px 14px; border-radius: 4px; background: var(--wait-ground) }
:focus-visible { outline: 2px solid var(--link); outline-offset: 2px }
@media (max-width: 640px) { .long { display: none } }
"""
# The policy of what the page may load and where it may send, and what else a browser is told.
HEADERS = {"Content-Security-Policy": "default-src 'none'; style-src 'self'; form-action 'self'; base-uri 'none'; frame-ancestors 'none'",
           "Cache-Control": "no-store", "X-Content-Type-Options": "nosniff", "Referrer-Policy": "no-referrer",
           "Cross-Origin-Opener-Policy": "same-origin"}
# Seconds for which a browser may be silent, how many asks stand in a list, the most bytes of an answer, and what is masked of the
# rights of the socket: its user and group may open it.
SILENCE, MOST, MOST_BODY, MASK = 20, 200, 4096, 0o117
# What a state is called.
CALLED = {stores.TOKEN: "waits for the owner", stores.READY: "is looked at", stores.PERSON: "waits for a person",
          stores.PROVEN: "waits for the party", stores.ENDORSING: "is being endorsed", stores.ENDORSED: "endorsed", stores.REFUSED: "refused"}
DAY = re.compile(r"\d{4}-\d\d-\d\d")


def e(text):
    return html.escape(str(text))


def user_of(number):
    try:
        return pwd.getpwuid(number).pw_name
    except KeyError:
        return f"user {number}"


def user_at_port(peer, here):
    """The user who opened a connection from this machine to this machine, by the system's table; None where that does not say."""
    packed = lambda address, port: f"{struct.unpack('=I', socket.inet_aton(address))[0]:08X}:{port:04X}"
    wanted = packed(*peer), packed(*here)
    with open("/proc/net/tcp") as table:
        for words in map(str.split, table):
            if (words[1], words[2]) == wanted:
                return user_of(int(words[7]))
    return None


class Page:
    """What is shown."""

    def __init__(self, store, rules, party, answer):
        self.store, self.rules, self.party, self.answer, self.word = store, rules, party, answer, secrets.token_hex(16)
        self.operators = rules.operators or ["root", user_of(os.getuid())]

    def whole(self, title, body, who, told=""):
        waiting = len(self.store.in_state(stores.PERSON))
        head = f"{title} · {self.party}" if title else self.party
        return (f'<!doctype html>\n<html lang="en"><head><meta charset="utf-8"><meta name="viewport" content="width=device-width">'
                f'<title>{e(head)}</title><link rel="stylesheet" href="/style.css"></head>\n<body><header><h1>Authority {e(self.party)}</h1>'
                f'<nav><a href="/">Queue{f" ({waiting} waiting for you)" if waiting else ""}</a><a href="/book">Book</a></nav>'
                f'<span class="who">{e(who)}</span></header>\n<main>{f"<p class=told role=status>{e(told)}</p>" if told else ""}{body}</main>'
                "</body></html>\n")

    # ---- the queue

    def queue(self, who, told=""):
        waiting, others = self.store.in_state(stores.PERSON), self.store.in_state(*(one for one in stores.OPEN if one != stores.PERSON))
        body = ["<h2>Waiting for a person</h2>"]
        body += [self.waits(row) for row in waiting[:MOST]] or ['<p class="soft">Nothing waits for a yes or a no.</p>']
        body.append("<h2>Open</h2>")
        body.append(self.asks(others[:MOST]) if others else '<p class="soft">Nothing else is open.</p>')
        ended = self.store.rows("SELECT * FROM ask WHERE ended IS NOT NULL ORDER BY ended DESC LIMIT 12")
        if ended:
            body += ["<h2>Ended last</h2>", self.asks(ended)]
        return self.whole("", "\n".join(body), who, told)

    def certificate(self, row):
        """What is said of the certificate that is asked for."""
        certificate = notes.read_certificate(row["certificate"])
        if certificate.revoked:
            yield "it asks", "<strong>to revoke the certificate for good</strong>"
        yield "policy", policy_in_words(certificate.policy)
        yield "serial", f"{certificate.serial}" + (", the name's first" if certificate.serial == 0 else "")
        yield "certificate", f"<code>{certificate.digest.hex()}</code>"
        yield "key", f"<code>{certificate.key.hex()}</code>"
        yield "asked", f"{stores.time_of(row['came'])} by {e(row['sender'])}"

    def waits(self, row):
        """An ask that waits for a person, with a yes and a no."""
        facts = [*self.certificate(row), ("proved by", e(row["ground"])), ("until", stores.time_of(row["until"]))]
        listed = "".join(f"<dt>{what}</dt><dd>{said}</dd>" for what, said in facts)
        buttons = "".join(f'<button class="{word}" name="answer" value="{word}">{word.capitalize()}</button>' for word in ("yes", "no"))
        return (f'<section class="waits"><h3><a href="/ask/{row["id"]}">{e(row["name"])}</a></h3><dl>{listed}</dl>'
                f'<form method="post" action="/ask/{row["id"]}"><input type="hidden" name="word" value="{self.word}">{buttons}</form></section>')

    @staticmethod
    def asks(rows):
        lines = "".join(
            f'<tr><td class="time">{stores.time_of(row["came"])[5:16].replace("T", " ")}</td><td><a href="/ask/{row["id"]}">{e(row["name"])}</a></td>'
            f'<td><span class="state {row["state"]}">{CALLED[row["state"]]}</span></td><td>{e(row["reason"] or row["ground"])}</td>'
            f'<td class="long"><code>{row["digest"].hex()[:16]}…</code></td></tr>' for row in rows)
        return ("<table><thead><tr><th>Asked (UTC)</th><th>Name</th><th>State</th><th>Ground</th><th class=long>Certificate</th></tr></thead>"
                f"<tbody>{lines}</tbody></table>")

    def one(self, number, who):
        row = self.store.ask(number)
        if row is None:
            return None
        facts = [("state", f'<span class="state {row["state"]}">{CALLED[row["state"]]}</span> {e(row["reason"])}'), *self.certificate(row)]
        facts += [("proved by", e(row["ground"]))] if row["ground"] else []
        facts += [("looked", f"{row['tries']} times")]
        listed = "".join(f"<dt>{what}</dt><dd>{said}</dd>" for what, said in facts)
        form = self.waits(row) if row["state"] == stores.PERSON else f"<dl>{listed}</dl>"
        return self.whole(row["name"], f"<h2>{e(row['name'])}</h2>{form}<h2>What was done</h2>{self.entries(self.store.of_ask(number), True)}", who)

    # ---- the book

    @staticmethod
    def entries(rows, is_one=False):
        lines = "".join(
            f'<tr><td class="time">{stores.time_of(row["at"])[5 if is_one else 11:19].replace("T", " ")}</td>'
            + ("" if is_one else f'<td><a href="/ask/{row["ask"]}">{e(row["name"])}</a></td>')
            + f'<td><span class="state {e(row["what"])}">{e(row["what"])}</span></td><td>{e(row["answer"])}</td><td>{e(row["who"])}</td></tr>'
            for row in rows)
        name = "" if is_one else "<th>Name</th>"
        return (f"<table><thead><tr><th>Time (UTC)</th>{name}<th>What</th><th>Answer</th><th>By whom</th></tr></thead><tbody>{lines}</tbody></table>")

    def book(self, who):
        days = self.store.days()
        lines = "".join(f'<tr><td class="time"><a href="/book/{row["day"]}">{row["day"]}</a></td><td class="number">{row["entries"]}</td>'
                        f'<td class="number">{row["endorsed"]}</td><td><a href="/book/{row["day"]}.csv">CSV</a> <a href="/book/{row["day"]}.json">JSON</a></td></tr>'
                        for row in days)
        table = ('<table><thead><tr><th>Day (UTC)</th><th class="number">Entries</th><th class="number">Endorsed</th><th>As a file</th></tr></thead>'
                 f"<tbody>{lines}</tbody></table>")
        body = table if days else '<p class="soft">The book has no entry yet.</p>'
        return self.whole("Book", '<h2>Book</h2><p>What was checked when, by whom, and with what answer. Entries are never changed. All of '
                          f'it: <a href="/book.csv">CSV</a>, <a href="/book.json">JSON</a>.</p>{body}', who)

    def day(self, day, who):
        rows = self.store.of_day(day)
        ended = [row for row in rows if row["what"] == stores.ENDORSED]
        lines = "".join(f'<tr><td class="time">{stores.time_of(row["at"])[11:19]}</td><td><a href="/ask/{row["ask"]}">{e(row["name"])}</a></td>'
                        f'<td>{e(row["answer"])}</td><td class="long"><code>{row["digest"].hex()[:16]}…</code></td></tr>' for row in ended)
        endorsed = ("<table><thead><tr><th>Time (UTC)</th><th>For whom</th><th>On what ground</th><th class=long>Certificate</th></tr></thead>"
                    f"<tbody>{lines}</tbody></table>") if ended else '<p class="soft">Nothing was endorsed on this day.</p>'
        return self.whole(day, f'<h2>{day}</h2><p><a href="/book/{day}.csv">CSV</a>, <a href="/book/{day}.json">JSON</a></p><h2>Endorsed</h2>'
                          f"{endorsed}<h2>All entries</h2>{self.entries(rows)}", who)

    # ---- what is asked for

    def get(self, path, who):
        """The kind and the text of a page; None where there is none."""
        of_html = lambda text: text and ("text/html; charset=utf-8", text)
        if path == "/style.css":
            return "text/css; charset=utf-8", STYLE
        if path == "/":
            return of_html(self.queue(who))
        if path == "/book":
            return of_html(self.book(who))
        parts = path.strip("/").split("/")
        if len(parts) == 2 and parts[0] == "ask" and parts[1].isdigit() and len(parts[1]) < 16:
            return of_html(self.one(int(parts[1]), who))
        if parts[0] in ("book.csv", "book.json") and len(parts) == 1:
            return self.file(None, parts[0][5:])
        day, _, kind = parts[-1].partition(".")
        if len(parts) == 2 and parts[0] == "book" and DAY.fullmatch(day):
            return self.file(day, kind) if kind in ("csv", "json") else of_html(self.day(day, who)) if not kind else None
        return None

    def file(self, day, kind):
        if kind == "csv":
            return "text/csv; charset=utf-8", self.store.csv(day)
        return "application/json", self.store.json(day)

    def said(self, path, body, who):
        """A yes or a no; the page behind it, or None where it was none of this page's."""
        found, words = re.fullmatch(r"/ask/(\d{1,15})", path), urllib.parse.parse_qs(body)
        word, said = (words.get(name, [""])[0] for name in ("word", "answer"))
        if not found or said not in ("yes", "no") or not hmac.compare_digest(word.encode(), self.word.encode()):
            return None
        row = self.store.ask(int(found[1]))
        if row is None:
            return None
        if self.answer(self.store, row["id"], said == "yes", who):
            return self.queue(who, f"{row['name']}: {said}, by {who}.")
        row = self.store.ask(row["id"])
        by = f" by {row['decider']}" if row["decider"] else ""
        return self.queue(who, f"{row['name']} was answered before{by}: it is {CALLED[row['state']]}. Nothing was changed.")


class Visit(http.server.BaseHTTPRequestHandler):
    """A browser."""

    protocol_version, timeout, server_version, sys_version = "HTTP/1.1", SILENCE, "arpki-authority", ""

    def who(self):
        """The user at the other end, if he is one of the operators and came to this page by its own name; else None."""
        host = self.headers.get("Host", "").rsplit(":", 1)[0]
        origin = self.headers.get("Origin")
        if host not in ("localhost", "127.0.0.1") or (origin not in (None, "null") and urllib.parse.urlsplit(origin).hostname != host):
            return None
        user = self.server.user(self.connection)
        return user if user in self.server.page.operators else None

    def do_GET(self):
        who = self.who()
        found = who and self.server.page.get(urllib.parse.urlsplit(self.path).path, who)
        self.answer(200 if found else 404 if who else 403, *(found or ("text/plain", "nothing is here\n" if who else "not for you\n")))

    def do_POST(self):
        who, length = self.who(), self.headers.get("Content-Length", "")
        if not length.isdigit() or int(length) > MOST_BODY:
            self.close_connection = True
            self.answer(400, "text/plain", "no answer\n")
            return
        body = self.rfile.read(int(length)).decode("ascii", "replace")
        found = who and self.server.page.said(self.path, body, who)
        self.answer(200 if found else 403, *(("text/html; charset=utf-8", found) if found else ("text/plain", "this is no answer of the page\n")))

    def answer(self, status, kind, text):
        data = text.encode()
        self.send_response(status)
        for field, value in {**HEADERS, "Content-Type": kind, "Content-Length": str(len(data))}.items():
            self.send_header(field, value)
        self.end_headers()
        self.wfile.write(data)

    def address_string(self):
        return "a browser"

    def log_message(self, *_):
        pass


class AtSocket(socketserver.ThreadingMixIn, socketserver.UnixStreamServer):
    daemon_threads = True

    @staticmethod
    def user(connection):
        return user_of(struct.unpack("3i", connection.getsockopt(socket.SOL_SOCKET, socket.SO_PEERCRED, 12))[1])

    def handle_error(self, *_):
        pass


class AtPort(socketserver.ThreadingMixIn, socketserver.TCPServer):
    daemon_threads, allow_reuse_address = True, True

    @staticmethod
    def user(connection):
        return user_at_port(connection.getpeername(), connection.getsockname())

    def handle_error(self, *_):
        pass


def policy_in_words(policy):
    """What a policy says, for people."""
    trusted = ", ".join(f"A{number}" for number in policy.trusted) or "nobody"
    words = [f"{policy.threshold} of {trusted} endorse what follows"]
    if policy.keyed:
        words.append("the next certificate needs the old key")
    else:
        words.append("<strong>the next certificate does not need the old key</strong>")
    words.append(f"without that it waits {policy.wait} epochs" if policy.wait else "there is no other way")
    return "; ".join(words) + f"; good until epoch {policy.until}, a confirmation for {policy.age} epochs"


def serve(where, store, rules, party, answer, tell):
    """Serves the page at a socket or a port of this machine, in threads."""
    try:
        if where.isdigit():
            server = AtPort(("127.0.0.1", int(where)), Visit)
        else:
            if os.path.exists(where):
                os.unlink(where)
            mask = os.umask(MASK)
            server = AtSocket(where, Visit)
            os.umask(mask)
    except (OSError, OverflowError) as why:
        raise Wrong(f"the page cannot be at {where}: {why}") from why
    server.page, server.started = Page(store, rules, party, answer), time.time()
    threading.Thread(target=server.serve_forever, daemon=True).start()
    at = f"http://127.0.0.1:{server.server_address[1]}/" if where.isdigit() else where
    tell(f"the page is at {at}, for {', '.join(server.page.operators)}")
