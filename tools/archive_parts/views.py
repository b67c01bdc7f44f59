"""What an archive has to say, for a page or as JSON: each view is a dictionary of texts, numbers, lists and dictionaries. It is read from
the database by a connection that cannot write."""
import datetime
import re

from network_files import LEAVES

from . import reading, words
from .store import REFUSED, TAKEN, WAITS

# How many entries a page has, and a part of the front page.
MOST, FEW = 100, 8
DIGEST = re.compile("[0-9a-f]{64}")


class Missing(Exception):
    """There is no such page; the text says why."""


def moment(seconds):
    return datetime.datetime.fromtimestamp(seconds, datetime.timezone.utc).strftime("%Y-%m-%d %H:%M UTC")


class Views:
    """Views over a reader of the database."""

    def __init__(self, base, council, plan, clock=0.0):
        self.base, self.council, self.plan, self.clock = base, council, plan, clock

    # ---- epochs

    def open_epoch(self):
        return 1 + (self.base.value("SELECT MAX(number) FROM epoch") or 0)

    def root_now(self):
        """The newest epoch that was decided, and its root."""
        return self.base.one("SELECT number, root FROM epoch WHERE how = 'decided' ORDER BY number DESC LIMIT 1") or (0, None)

    def time_of(self, epoch, came=None):
        """When an epoch began by the schedule, or when its end came here."""
        if self.plan:
            return moment(self.plan.begins(epoch))
        return moment(came) if came else None

    def state(self):
        """What stands on each page: which epoch is open, and what was agreed last."""
        decided, root = self.root_now()
        return {"open": self.open_epoch(), "decided": decided, "root": root.hex() if root else None}

    def epochs(self, before=None):
        rows = self.base.all("SELECT number, how, root, came, changes FROM epoch WHERE number < ? ORDER BY number DESC LIMIT ?",
                             before or reading.MOST_EPOCH, MOST)
        first = self.base.value("SELECT MIN(number) FROM epoch")
        return {"title": "Epochs", "state": self.state(),
                "epochs": [{"epoch": number, "how": how, "root": root and root.hex(), "time": self.time_of(number, came),
                            "changes": changes} for number, how, root, came, changes in rows],
                "next": rows[-1][0] if rows and rows[-1][0] > first else None}

    def epoch(self, number):
        row = self.base.one("SELECT epoch.how, epoch.root, epoch.message, epoch.came, message.bytes FROM epoch JOIN message ON"
                            " message.digest = epoch.message WHERE epoch.number = ?", number)
        if row is None:
            raise Missing(f"epoch {number} has not ended here: epoch {self.open_epoch()} is open")
        how, root, digest, came, data = row
        message = reading.read(data)
        signed = [one for one in message.statements if one.kind in (reading.VOTE, reading.STATUS)]
        said = [{"party": one.party, "said": self.said(one), "generation": one.generation, "leaf": one.leaf} for one in signed]
        proposals = self.base.all("SELECT party, digest FROM message WHERE kind = ? AND epoch = ? ORDER BY number LIMIT ?",
                                  reading.PROPOSE, number, FEW)
        return {"title": f"Epoch {number}", "state": self.state(), "epoch": number, "how": how, "root": root and root.hex(),
                "time": self.time_of(number, came), "message": digest.hex(), "votes": said,
                "turn": f"L{number % self.council.logs}", "quorum": self.council.quorum, "logs": self.council.logs,
                "proposals": [{"party": party, "message": one.hex()} for party, one in proposals],
                "events": self.events("event.epoch = ?", number)}

    @staticmethod
    def said(statement):
        if statement.kind == reading.VOTE:
            return f"voted for the root {statement.text[44:76].hex()}"
        return f"voted for the root {statement.text[45:77].hex()}" if statement.text[12] else "voted for nothing, and will not"

    # ---- names

    def events(self, where, *values, most=MOST):
        rows = self.base.all("SELECT event.number, event.epoch, event.name, event.what, event.digest, event.change, epoch.came,"
                             " epoch.message FROM event JOIN epoch ON epoch.number = event.epoch WHERE "
                             f"{where} ORDER BY event.number DESC LIMIT {most}", *values)
        return [self.event(*row) for row in rows]

    def event(self, number, epoch, name, what, digest, change, came, message):
        change = reading.changes_in(change)[0] if change else None
        return {"number": number, "epoch": epoch, "time": self.time_of(epoch, came), "seconds": self.seconds(epoch, came), "name": name,
                "what": what, "certificate": digest.hex(), "by": words.by_whom(change) if change else "", "message": message.hex()}

    def seconds(self, epoch, came):
        return self.plan.begins(epoch) if self.plan else came

    def certificate(self, digest):
        data = self.base.value("SELECT bytes FROM certificate WHERE digest = ?", digest)
        one = reading.read_certificate(data)
        types = [int.from_bytes(one.key[at:at + 4], "big") for at in (0, 4)]
        return {"digest": digest.hex(), "serial": one.serial, "previous": one.previous.hex() if any(one.previous) else None,
                "key": one.key.hex(), "key_types": types, "key_digest": reading.sha256(one.key).hex(), "revoked": one.revoked,
                "policy": list(words.policy(one.policy)), "until": one.policy.until, "wait": one.policy.wait,
                "bytes": data.hex()}

    def name(self, name, before=None):
        state = self.state()
        newest = self.base.one("SELECT digest, how, epoch, place FROM held WHERE name = ? ORDER BY place DESC LIMIT 1", name)
        waits = self.base.one("SELECT digest, since, ripens, change FROM waits WHERE name = ?", name)
        confirmed = self.base.value("SELECT epoch FROM confirmation WHERE name = ?", name)
        view = {"title": name, "state": state, "name": name, "newest": None, "waits": None, "confirmed": confirmed,
                "events": self.events("event.name = ? AND event.number < ?", name, before or reading.MOST_EPOCH)}
        view["next"] = view["events"][-1]["number"] if len(view["events"]) == MOST else None
        if newest:
            change = self.base.value("SELECT change FROM held WHERE name = ? AND place = ?", name, newest[3])
            read = reading.changes_in(change)[0] if change else None
            view["newest"] = {**self.certificate(newest[0]), "how": newest[1], "since": newest[2], "count": newest[3] + 1,
                              "time": self.time_of(newest[2]), "endorsed": [one.party for one in read.endorsements] if read else []}
            for event in view["events"]:
                event["policy"] = self.certificate(bytes.fromhex(event["certificate"]))["policy"] if event["what"] in (
                    "registered", "updated", "recovery") else []
        if waits:
            view["waits"] = self.waiting(name, *waits, state["open"])
        return view

    def waiting(self, name, digest, since, ripens, change, now):
        read = reading.changes_in(change)[0] if change else None
        return {"name": name, "digest": digest.hex(), "since": since, "ripens": ripens, "left": max(0, ripens - now),
                "left_told": words.left(ripens - now, self.plan), "time": self.time_of(since), "ripens_time": self.plan and
                moment(self.plan.begins(ripens)), "by": words.by_whom(read) if read else "", "certificate": self.certificate(digest)}

    def pending(self):
        state = self.state()
        rows = self.base.all("SELECT name, digest, since, ripens, change FROM waits ORDER BY ripens, name LIMIT ?", MOST)
        return {"title": "What waits", "state": state, "count": self.base.value("SELECT COUNT(*) FROM waits"),
                "pending": [self.waiting(*row, state["open"]) for row in rows],
                "ended": self.events("event.what IN ('recovery', 'ripened', 'objected', 'ended')", most=FEW)}

    def search(self, text, after=""):
        """Names in which a text stands; a digest is looked for as a certificate and as a message."""
        text = text.strip().lower()
        view = {"title": "Search", "state": self.state(), "query": text, "names": [], "next": None, "others": []}
        if DIGEST.fullmatch(text):
            digest = bytes.fromhex(text)
            for name, in self.base.all("SELECT name FROM certificate WHERE digest = ?", digest):
                view["others"].append({"what": "a certificate of", "text": name, "path": f"/name/{name}"})
            if self.base.one("SELECT 1 FROM message WHERE digest = ?", digest):
                view["others"].append({"what": "a message", "text": text, "path": f"/message/{text}"})
        elif text:
            like = text.replace("\\", "\\\\").replace("%", "\\%").replace("_", "\\_")
            rows = self.base.all("SELECT name, how, epoch FROM held WHERE place = 0 AND name > ? AND name LIKE ? ESCAPE '\\' ORDER BY name"
                                 " LIMIT ?", after, f"%{like}%", MOST)
            view["names"] = [{"name": name, "epoch": epoch, "time": self.time_of(epoch)} for name, _, epoch in rows]
            view["next"] = rows[-1][0] if len(rows) == MOST else None
        return view

    # ---- parties

    def parties(self):
        rows = self.base.all("SELECT party, generation, leaf, epoch FROM highest ORDER BY party, generation")
        notes = dict(self.base.all("SELECT party, COUNT(*) FROM message WHERE kind = ? AND verdict = ? GROUP BY party", reading.ROLL_NOTE,
                                   TAKEN))
        guilty = dict(self.base.all("SELECT party, COUNT(*) FROM evidence GROUP BY party"))
        newest = {}
        for party, generation, leaf, epoch in rows:
            heard = max(epoch or 0, newest.get(party, (0, 0, 0))[2])
            newest[party] = generation, leaf, heard
        return {"title": "Parties", "state": self.state(), "quorum": self.council.quorum, "parties": [
            self.party(f"{letter}{number}", newest, notes, guilty)
            for letter, count in (("L", self.council.logs), ("A", self.council.authorities)) for number in range(count)]}

    def party(self, party, newest, notes, guilty):
        known = notes.get(party, 0)
        generation, leaf, epoch = newest.get(party, (0, None, None))
        if generation < known:  # nothing that its newest key signed came
            generation, leaf = known, None
        key = bytes.fromhex(self.council.keys[party[0]][int(party[1:])].split(" ")[1])
        if known:
            note = self.base.value("SELECT bytes FROM message WHERE kind = ? AND verdict = ? AND party = ? ORDER BY epoch DESC LIMIT 1",
                                   reading.ROLL_NOTE, TAKEN, party)
            key = reading.read(note).certificate
        leaves = LEAVES[int.from_bytes(key[:4], "big")]
        return {"party": party, "role": "log" if party[0] == "L" else "authority", "generations": known + 1, "generation": generation,
                "leaves": leaves, "highest": leaf, "left": leaves - 1 - leaf if leaf is not None else leaves, "epoch": epoch or None,
                "key": key.hex(), "conflicts": guilty.get(party, 0)}

    # ---- evidence, and what the mirror did not take

    def evidence(self):
        rows = self.base.all("SELECT number, party, rule, one, other, came, epoch FROM evidence ORDER BY number DESC LIMIT ?", MOST)
        return {"title": "Evidence", "state": self.state(), "evidence": [self.conflict(*row) for row in rows]}

    def conflict(self, number, party, rule, one, other, came, epoch):
        return {"number": number, "party": party, "rule": rule, "told": words.RULES.get(rule, ""), "one": one.hex(), "other": other.hex(),
                "seconds": came, "time": moment(came), "epoch": epoch}

    def evidence_input(self, number):
        text = self.base.value("SELECT input FROM evidence WHERE number = ?", number)
        if text is None:
            raise Missing(f"there is no evidence {number}")
        return text.encode()

    def refused(self):
        state = self.state()
        rows = self.base.all("SELECT digest, kind, epoch, party, topic, came, verdict, code FROM message WHERE verdict IN (?, ?)"
                             " ORDER BY number DESC LIMIT ?", REFUSED, WAITS, MOST)
        gap = self.base.value("SELECT MIN(epoch) FROM message WHERE verdict = ? AND kind IN (?, ?)", WAITS, reading.DECISION,
                              reading.SKIP_NOTE)
        return {"title": "Not taken", "state": state, "gap": [state["open"], gap - 1] if gap and gap > state["open"] else None,
                "messages": [{"message": digest.hex(), "kind": reading.KINDS[kind], "epoch": epoch, "party": party if kind != reading.SUBMIT
                              else None, "topic": topic, "time": moment(came), "verdict": verdict, "code": code}
                             for digest, kind, epoch, party, topic, came, verdict, code in rows]}

    # ---- the front

    def front(self):
        state = self.state()
        _, came = self.base.one("SELECT number, came FROM epoch ORDER BY number DESC LIMIT 1") or (0, None)
        behind = self.plan and self.plan.epoch_at(self.now()) - state["open"]
        return {"title": "Archive", "state": state, "names": self.base.value("SELECT COUNT(*) FROM held WHERE place = 0"),
                "waits": self.base.value("SELECT COUNT(*) FROM waits"), "evidence": self.base.value("SELECT COUNT(*) FROM evidence"),
                "refused": self.base.value("SELECT COUNT(*) FROM message WHERE verdict IN (?, ?)", REFUSED, WAITS),
                "behind": behind if behind and behind > 0 else 0, "came": moment(came) if came else None,
                "logs": self.council.logs, "quorum": self.council.quorum, "authorities": self.council.authorities,
                "pending": self.pending()["pending"][:FEW], "events": self.events("event.number > ?", 0, most=12)}

    def now(self):
        import time
        return time.time() + self.clock

    # ---- the paths of a site's needs

    def message(self, digest):
        data = self.base.value("SELECT bytes FROM message WHERE digest = ?", digest)
        if data is None:
            data = self.base.value("SELECT bytes FROM confirmation WHERE digest = ?", digest)
        if data is None:
            raise Missing("no message with this digest is kept")
        return data

    def ending(self, epoch):
        data = self.base.value("SELECT message.bytes FROM epoch JOIN message ON message.digest = epoch.message WHERE epoch.number = ?", epoch)
        if data is None:
            raise Missing(f"epoch {epoch} has not ended here: epoch {self.open_epoch()} is open")
        return data

    def confirmation(self, name):
        data = self.base.value("SELECT bytes FROM confirmation WHERE name = ?", name)
        if data is None:
            has = self.base.one("SELECT 1 FROM held WHERE name = ? LIMIT 1", name)
            raise Missing("no confirmation of this name is kept yet" if has else "the table has no such name: confirmations of absence are "
                          "not kept here, and none is asked for")
        return data

    def links(self, name, digest, most=64):
        """The changes behind the certificate with a digest, at most so many, and none from a recovery on."""
        place = self.base.value("SELECT place FROM held WHERE name = ? AND digest = ?", name, digest)
        if place is None:
            raise Missing("this name has no such certificate")
        rows = self.base.all("SELECT change, how FROM held WHERE name = ? AND place > ? ORDER BY place LIMIT ?", name, place, most)
        found = []
        for change, how in rows:
            if how == "ripened" or change is None:
                break
            found.append(change)
        return b"".join(found)

    def roll(self, party, generation):
        data = self.base.value("SELECT bytes FROM message WHERE kind = ? AND verdict = ? AND party = ? AND epoch = ?", reading.ROLL_NOTE,
                               TAKEN, party, generation)
        if data is None:
            raise Missing(f"no RollNote by which {party} leaves the generation {generation} was taken")
        return data

    def rolls(self):
        rows = self.base.all("SELECT bytes FROM message WHERE kind = ? AND verdict = ? ORDER BY party, epoch", reading.ROLL_NOTE, TAKEN)
        return "".join(f"{data.hex()}\n" for data, in rows).encode()
