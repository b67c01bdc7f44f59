"""Atom feeds (RFC 4287) of an archive: of a name, of all recoveries, and of evidence."""
import datetime
import uuid
from xml.sax.saxutils import escape, quoteattr

from . import words

SPACE = uuid.UUID("6c0d0f0e-6f0c-5d4a-9d52-0f4d1c4a9c11")
MOST = 64


def stamp(seconds):
    return datetime.datetime.fromtimestamp(seconds or 0, datetime.timezone.utc).strftime("%Y-%m-%dT%H:%M:%SZ")


def ident(*what):
    """What an entry or a feed is called, the same at each time and place."""
    return f"urn:uuid:{uuid.uuid5(SPACE, ' '.join(map(str, what)))}"


def feed(title, site, path, entries):
    """A feed of entries (ident, title, seconds, path, text), the newest first."""
    updated = stamp(max((entry[2] for entry in entries), default=0))
    lines = ['<?xml version="1.0" encoding="utf-8"?>', '<feed xmlns="http://www.w3.org/2005/Atom">', f"<title>{escape(title)}</title>",
             f"<id>{ident('feed', path)}</id>", f"<updated>{updated}</updated>", "<author><name>An archive</name></author>",
             f"<link rel=\"self\" href={quoteattr(f'{site}{path}/feed')}/>", f"<link href={quoteattr(f'{site}{path}')}/>"]
    for one, told, seconds, to, text in entries:
        lines += ["<entry>", f"<id>{one}</id>", f"<title>{escape(told)}</title>", f"<updated>{stamp(seconds)}</updated>",
                  f"<link href={quoteattr(site + to)}/>", f"<content type=\"text\">{escape(text)}</content>", "</entry>"]
    return ("\n".join([*lines, "</feed>"]) + "\n").encode()


def event_entry(event):
    word, told, _ = words.EVENTS[event["what"]]
    by = f" It is {event['by']}." if event["by"] else ""
    return (ident("event", event["name"], event["epoch"], event["what"], event["certificate"]), f"{event['name']}: {word} in epoch {event['epoch']}",
            event["seconds"], f"/name/{event['name']}", f"{told}{by} Certificate {event['certificate']}.")


def conflict_entry(one):
    told = f"{one['party']} {one['told']}"
    return (ident("conflict", one["one"], one["other"], one["rule"]), told, one["seconds"], "/evidence",
            f"{told}, in the messages {one['one']} and {one['other']}.")


def of_name(views, site, name):
    return feed(f"What happened to {name}", site, f"/name/{name}",
                [event_entry(event) for event in views.events("event.name = ?", name, most=MOST)])


def of_recoveries(views, site):
    events = views.events("event.what IN ('recovery', 'ripened', 'objected', 'ended')", most=MOST)
    return feed("Recoveries", site, "/pending", [event_entry(event) for event in events])


def of_evidence(views, site):
    return feed("Evidence", site, "/evidence", [conflict_entry(one) for one in views.evidence()["evidence"][:MOST]])
