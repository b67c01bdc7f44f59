"""What keeps a name (tools/name run): its keys' owners as processes, its asks and tokens, its certificates, and tools/site. docs/DOMAIN.md
says what it does for whom, docs/DOOR.md what it says to authorities.

All that has to outlive the process stands in the folder of the name, in `state`, before anything is ordered of it. Each order that an
owner is given may be given again: it makes nothing a second time, so whatever is killed goes on from `state`."""
import collections
import hashlib
import json
import os
import pathlib
import re
import secrets
import selectors
import socket
import subprocess
import sys
import time

import name_notes as notes
import party_door
import party_messages as messages
import site_rules
from line_pipes import READABLE, WRITABLE, Lines, named_pipe
from load_tool import load
from network_files import Council, Wrong, plan_in

TOOLS = pathlib.Path(__file__).resolve().parent
Judge = load("site").Judge
# What is being brought to the table: a name's first certificate, the same key again, another key by the old one's handover, another
# key without it, and the end.
FIRST, RENEW, NEXT, RECOVER, REVOKE = "first", "renew", "next", "recover", "revoke"
# How far it is.
BEGUN, DRAFTED, ASKED, SUBMITTED = "begun", "drafted", "asked", "submitted"
# How many endorsements a certificate needs, whatever its policy says.
LEAST_ENDORSED = 3
# Seconds until what is not answered is said again: first, and at last; and until a refused ask is asked again.
FIRST_PAUSE, LAST_PAUSE, ASK_ANEW = 2.0, 60.0, 6 * 3600
# Seconds until what ended is started again, and the lines that an owner is asked ahead.
RESTART, MOST_WAITING = 1.0, 256
# A part of its time before which a certificate is renewed; how many leaves have to be left for that, beside those of its staples.
RENEWED, SPARE = 3, 64
# How much a network may send a name in an epoch.
LIMITS = party_door.Limits(2000, 1 << 25, 0, 0)
# How many tokens of an authority are answered, and seconds for which the program of TXT records may run.
MOST_TOKENS, HOOK_TIME = 4, 120
# What is told where too few authorities are left.
TOO_FEW = "too few authorities are left that may endorse it"
# How many lines of what was told are kept for who comes to look.
TOLD = 200
LEAVES = {5: 1 << 5, 6: 1 << 10, 7: 1 << 15}
HEX = re.compile("[0-9a-f]+")


def start_party(program, number, directory, folder):
    """Starts an owner's process, whose secret and journal stand in a folder. Each start of an owner is made here."""
    words = [program, "owner", str(number), directory, folder / "secret", folder / "journal"]
    return subprocess.Popen(list(map(str, words)), stdin=subprocess.PIPE, stdout=subprocess.PIPE, stderr=subprocess.PIPE, bufsize=0)


class State:
    """The file `state`: written as a whole, and on the disk before it counts."""

    def __init__(self, folder):
        self.path = folder / "state"
        try:
            self.fields = json.loads(self.path.read_text())
        except (OSError, ValueError) as why:
            raise Wrong(f"{self.path} has no state of a name: {why}") from why

    def __getitem__(self, field):
        return self.fields[field]

    def __setitem__(self, field, value):
        self.fields[field] = value

    def save(self):
        save_state(self.path, self.fields)


def save_state(path, fields):
    other = path.with_name("state.new")
    with other.open("w") as file:
        file.write(json.dumps(fields, indent=1) + "\n")
        file.flush()
        os.fsync(file.fileno())
    other.replace(path)
    folder = os.open(path.parent, os.O_RDONLY)
    os.fsync(folder)
    os.close(folder)


def new_secret(folder, types):
    """A new key's folder with a secret; nothing is there before."""
    folder.mkdir(mode=0o700, parents=True)
    descriptor = os.open(folder / "secret", os.O_WRONLY | os.O_CREAT | os.O_EXCL, 0o600)
    with os.fdopen(descriptor, "w") as file:
        file.write(f"secret {secrets.token_bytes(32).hex()}\nkeys {types[0]} {types[1]}\n")
        file.flush()
        os.fsync(file.fileno())


class Owner:
    """The owner's process of one key. It is given one line at a time, and started again where it ends."""

    def __init__(self, keeper, at):
        self.keeper, self.at, self.folder = keeper, at, keeper.folder / "keys" / str(at)
        self.queue, self.given, self.wrote, self.free = collections.deque(), None, [], None
        self.process, self.ended_at, self.trouble = None, -RESTART, None

    def start(self):
        if self.process or self.trouble or time.monotonic() < self.ended_at + RESTART:
            return
        keeper = self.keeper
        self.process = start_party(keeper.program, keeper.number, keeper.directory, self.folder)
        self.given, self.wrote = ("opening", None), []
        for what, pipe in (("out", self.process.stdout), ("error", self.process.stderr)):
            keeper.selector.register(pipe, selectors.EVENT_READ, (self.read, Lines(pipe.fileno()), what))

    def order(self, line, then=None):
        """Gives it a line, in its turn; what it wrote goes to `then`."""
        self.queue.append((line, then))
        self.give()

    def give(self):
        if self.given is None and self.queue and self.process:
            self.given, self.wrote = self.queue.popleft(), []
            try:
                self.process.stdin.write(self.given[0].encode() + b"\n")
            except BrokenPipeError:
                pass  # that it ended is seen where it is read

    def read(self, lines, what):
        read = lines.read()
        for line in read or []:
            text = line.decode("ascii", "replace")
            if what == "out":
                self.heard(text)
            elif text:
                self.keeper.log(f"owner {self.at}: {text}")
        if read is None:
            self.keeper.selector.unregister(self.process.stdout if what == "out" else self.process.stderr)
            if what == "out":
                self.ended()

    def ended(self):
        """It ended: what it was given is given again."""
        for pipe in (self.process.stderr,):
            if pipe.fileno() in self.keeper.selector.get_map():
                self.keeper.selector.unregister(pipe)
        status = self.process.wait()
        for pipe in (self.process.stdin, self.process.stdout, self.process.stderr):
            pipe.close()
        self.process, self.ended_at = None, time.monotonic()
        if self.given and self.given[1] is not None or self.given and self.given[0] != "opening":
            self.queue.appendleft(self.given)
        self.given = None
        if status == 3:
            self.trouble = " ".join(self.wrote[-1:]) or "it cannot be opened"
            self.keeper.told(f"the key {self.at} is not opened: {self.trouble}", 3)
        elif status:
            self.keeper.log(f"owner {self.at} ended with status {status}")

    def heard(self, line):
        """A line that it wrote. The last one of an answer is none of those that are sent, nor of a staple, nor, but where they were asked
        for, of its leaves."""
        words = line.split(" ")
        self.wrote.append(line)
        if words[0] == "send" and len(words) == 3:
            self.keeper.sends(line)
        if words[1:2] == ["leaves"] and words[3:4] == ["of"]:
            self.free = int(words[2]), int(words[4])
        is_asked = self.given is not None and self.given[0].startswith("leaves ")
        if words[0] in ("send", "handed", "stapled") or (words[1:2] == ["leaves"] and not is_asked) or words[0] == "not":
            return
        given, wrote, self.given = self.given, self.wrote, None
        if given and given[1]:
            given[1](wrote)
        self.give()

    def stop(self):
        if self.process:
            self.process.terminate()
            self.process.wait()


class Site:
    """tools/site as a process, which is told what comes for the client, and asks for staples at the socket `answers`."""

    def __init__(self, keeper):
        self.keeper, self.process, self.ended_at, self.text = keeper, None, -RESTART, None
        self.listening, self.peer, self.lines = None, None, None

    def listen(self):
        """Listens for it, with rights for this user alone."""
        path = self.keeper.folder / "answers"
        path.unlink(missing_ok=True)
        self.listening = socket.socket(socket.AF_UNIX)
        mask = os.umask(0o177)
        self.listening.bind(str(path))
        os.umask(mask)
        self.listening.listen(2)
        self.keeper.selector.register(self.listening, selectors.EVENT_READ, (self.accept, None, None))

    def accept(self, *_):
        if self.peer:
            self.let_go()
        self.peer, _ = self.listening.accept()
        self.lines = Lines(os.dup(self.peer.fileno()))
        self.keeper.selector.register(self.lines.descriptor, selectors.EVENT_READ, (self.asked, None, None))

    def let_go(self):
        self.keeper.selector.unregister(self.lines.descriptor)
        os.close(self.lines.descriptor)
        self.peer.close()
        self.peer = None

    def asked(self, *_):
        """It asks for staples, and for nothing else."""
        lines = self.lines.read()
        if lines is None:
            self.let_go()
        for line in lines or []:
            words = line.decode("ascii", "replace").split(" ")
            if words[0] == "staple" and len(words) == 4 and HEX.fullmatch(words[2]) and HEX.fullmatch(words[3]):
                self.keeper.staple(words[2], words[3], self.answer)

    def answer(self, wrote):
        said = [line for line in wrote if line.startswith("stapled ") or " refused " in line]
        if self.peer and said:
            try:
                self.peer.settimeout(5)
                self.peer.sendall("".join(f"{line}\n" for line in said).encode())
            except OSError:
                self.let_go()

    def look(self):
        """Starts it where it is to run and does not, and again where its TLS keys are others."""
        text = self.keeper.keys_text()
        path = self.keeper.folder / "site.keys"
        if self.process and self.process.poll() is not None:
            self.gone()
        if self.process and text != self.text:
            self.process.terminate()
            self.process.wait()
            self.gone()
        if text and not self.process and time.monotonic() > self.ended_at + RESTART:
            path.write_text(text)
            self.text = text
            keeper = self.keeper
            words = [sys.executable, "-B", TOOLS / "site", "run", "--directory", keeper.directory, "--schedule", keeper.schedule, "--keys", path,
                     "--kept", keeper.folder / "site", "--client", keeper.number, "--answers", keeper.folder / "answers", "--listen",
                     keeper.state["listen"], "--program", keeper.arpki]
            with (keeper.folder / "site.log").open("ab") as log:
                self.process = subprocess.Popen(list(map(str, words)), stdin=subprocess.PIPE, stdout=subprocess.PIPE, stderr=log, bufsize=0)
            os.set_blocking(self.process.stdin.fileno(), False)
            keeper.selector.register(self.process.stdout, selectors.EVENT_READ, (self.read, Lines(self.process.stdout.fileno()), None))
            keeper.told(f"tools/site serves {keeper.name} at {keeper.state['listen']}")

    def gone(self):
        if self.process.stdout in {key.fileobj for key in self.keeper.selector.get_map().values()}:
            self.keeper.selector.unregister(self.process.stdout)
        self.process.stdout.close()
        self.process.stdin.close()
        self.process, self.ended_at = None, time.monotonic()

    def read(self, lines, _):
        read = lines.read()
        for line in read or []:
            text = line.decode("ascii", "replace")
            if text.startswith("send "):
                self.keeper.sends(text, "client")
        if read is None:
            self.keeper.selector.unregister(self.process.stdout)

    def come(self, line):
        """Hands it what came for the client; what it does not take now is lost, and asked again."""
        try:
            if self.process:
                self.process.stdin.write(line.encode() + b"\n")
        except OSError:
            pass

    def stop(self):
        if self.process:
            self.process.terminate()
            self.process.wait()


class Keeper:
    """A name, and what is done for it."""

    def __init__(self, folder, selector, now=time.time):
        self.folder, self.selector, self.now = folder, selector, now
        self.state = State(folder)
        self.name, self.number = self.state["name"], self.state["number"]
        etc, run = pathlib.Path(self.state["etc"]), pathlib.Path(self.state["run"])
        self.directory, self.schedule = etc / "directory", etc / "schedule"
        self.council, self.plan = Council(self.directory), plan_in(self.schedule)
        self.keys = [bytes.fromhex(line.split(" ")[1]) for line in self.council.keys["A"]]
        self.program, self.arpki = self.state["program"], self.state["arpki"]
        self.judge, self.door = Judge(self.arpki, self.council.lines), party_door.Door("owner", LIMITS, self.plan, None, self.dropped)
        self.stopped = False
        self.followers, self.lines_told = [], collections.deque(maxlen=TOLD)
        self.outs = {}
        for letter in "DC":
            place = run / f"{letter}{self.number}"
            place.mkdir(mode=0o750, parents=True, exist_ok=True)
            pipe = Lines(named_pipe(place / "messages", WRITABLE))
            selector.register(pipe.descriptor, selectors.EVENT_READ, (self.read_messages, pipe, letter))
            self.outs[letter] = named_pipe(place / "sends", READABLE)
            os.set_blocking(self.outs[letter], False)
            os.write(self.outs[letter], b"\n")
        self.owners, self.ordered, self.taken = {}, None, collections.OrderedDict()
        self.rolls = collections.defaultdict(list)
        for line in self.lines_of("rolls"):
            note = messages.read(line)
            if note and note.epoch == len(self.rolls[note.log]):
                self.rolls[note.log].append(line)
        self.pauses, self.confirmed, self.asked_at, self.asked_turn = {}, self.state.fields.get("confirmed", 0), -1e18, 0
        self.noted_at, self.note_turn, self.submitted_in, self.decided, self.allowing, self.waits_told = -1e18, 0, None, {}, set(), None
        self.counted_in = None  # the epoch and the key of which the leaves were asked last
        self.site = Site(self)
        self.site.listen()
        if self.state["begin"] and not self.next and not self.current:
            self.begin(self.state["begin"])

    def lines_of(self, name):
        try:
            return (self.folder / name).read_text().split("\n")[:-1]
        except OSError:
            return []

    # ---- what is told

    def log(self, text):
        print(text, flush=True)

    def told(self, text, level=6):
        """Tells people something."""
        line = f"{time.strftime('%H:%M:%S', time.gmtime(self.now()))} {'!' if level < 5 else ' '} {text}"
        self.log(line)
        self.lines_told.append(line)
        for follower in list(self.followers):
            follower(line)

    def dropped(self, sender, count, why):
        self.log(f"dropped of {sender}: {why}")

    # ---- what is sent and what comes

    def sends(self, line, of="owner"):
        """Puts a line to what is sent; where nobody reads that, it is lost, and said again."""
        try:
            os.write(self.outs["C" if of == "client" else "D"], line.encode() + b"\n")
        except BlockingIOError:
            pass

    def read_messages(self, pipe, letter):
        for line in pipe.read() or []:
            text = line.decode("ascii", "replace")
            if text and HEX.fullmatch(text) and len(text) % 2 == 0 and self.door.passes("any", line, self.now()):
                self.came(text, letter)

    def came(self, line, letter):
        """A message came for the owner, or for the client."""
        kind = int(line[:2], 16)
        if letter == "C":
            self.site.come(line)
        if kind == notes.NOTE:
            self.noted(notes.read_note(line))
        elif kind == messages.ROLL:
            self.rolled(line)
        elif kind == messages.ENDORSED and line not in self.taken:
            for owner in self.owners.values():
                owner.order(line, lambda wrote, line=line: self.endorsed(line, wrote)) if len(owner.queue) < MOST_WAITING else None
        elif kind == messages.CONFIRMATION:
            self.confirmation(bytes.fromhex(line))
        elif kind in (messages.DECISION, messages.SKIP):
            self.ended(messages.read(line))

    def rolled(self, line):
        """A RollNote: an owner that takes it has verified it."""
        note = messages.read(line)
        if note is None or note.log is None or line in self.rolls[note.log]:
            return

        def took(wrote):
            if wrote[-1].endswith(" ok") and note.epoch == len(self.rolls[note.log]):
                self.rolls[note.log].append(line)
                with (self.folder / "rolls").open("a") as file:
                    file.write(line + "\n")

        for owner in self.owners.values():
            owner.order(line, took)

    # ---- what is under way

    @property
    def next(self):
        return self.state["next"]

    @property
    def current(self):
        return self.state["current"]

    def owner(self, at):
        if at not in self.owners:
            self.owners[at] = Owner(self, at)
        return self.owners[at]

    def wanted_owners(self):
        """The keys whose processes are to run."""
        wanted = {part["key"] for part in (self.current, self.next) if part and part.get("key")}
        return wanted - set(self.state["lost"])

    def epoch(self):
        return self.plan.epoch_at(self.now())

    def begin(self, kind):
        """Begins to bring something to the table; why not, or None."""
        current = self.current
        if self.next:
            return f"something is under way already: {self.next['kind']}"
        if kind in (RENEW, NEXT, REVOKE) and not current:
            return "the name has no certificate yet"
        if kind in (FIRST,) and current:
            return "the name has a certificate"
        if current and current.get("revoked"):
            return "the name's certificate is revoked, for good"
        key = current["key"] if kind in (RENEW, REVOKE) else self.new_key()
        policy = self.state["policy"]
        until = self.epoch() + self.state["valid"]
        words = f"{policy['threshold']} {policy['kind']} {policy['age']} {until} {policy['trusted']}"
        self.state["next"] = {"kind": kind, "state": BEGUN, "key": key, "policy": words, "until": until, "draft": None, "digest": None,
                              "certificate": None, "endorsed": [], "tokens": {}, "put": [], "since": self.epoch(), "allowed": []}
        self.state.save()
        self.ordered = None
        return None

    def new_key(self):
        key = max([0, *map(int, (path.name for path in (self.folder / "keys").glob("[0-9]*")))]) + 1
        new_secret(self.folder / "keys" / str(key), self.state["types"])
        self.told(f"a new key, {key}, of the types {self.state['types'][0]} {self.state['types'][1]}")
        return key

    def bring(self):
        """Goes on with what is under way, one step at a time."""
        {BEGUN: self.make_draft, DRAFTED: self.hand_over, ASKED: self.ask, SUBMITTED: self.submit}[self.next["state"]]()

    def once(self, what):
        """Whether this is to be ordered now: it was not ordered yet in this life."""
        if self.ordered == what:
            return False
        self.ordered = what
        return True

    def moved(self, state, **fields):
        self.next.update(state=state, **fields)
        self.state.save()

    def make_draft(self):
        """Has the owner make the draft."""
        step, current = self.next, self.current
        if not self.once(BEGUN):
            return
        owner, asks, word = self.owner(step["key"]), ",".join(map(str, self.state["asks"])), f"D{self.number}"
        if step["kind"] == FIRST:
            owner.order(f"register {word} {self.name} {step['policy']} {asks}", self.drafted)
        elif step["kind"] == RENEW:
            owner.order(f"update {word} {current['draft']} {step['policy']} {asks}", self.drafted)
        elif step["kind"] == REVOKE:
            owner.order(f"revoke {word} {current['draft']} {asks}", self.drafted)
        elif current and current.get("certificate"):
            owner.order(f"draft {current['certificate']}", lambda wrote: owner.order(
                f"update {word} {number_in(wrote)} {step['policy']} {asks}", self.drafted))
        else:
            self.ordered = None  # until a confirmation tells which certificate the name has

    def drafted(self, wrote):
        """The draft is made: the asks in the answer have its certificate."""
        asks = [notes.read_ask(bytes.fromhex(line.split(" ")[2])) for line in wrote if line.startswith("send A")]
        number = number_in(wrote)
        if self.next is None or number is None or not asks:
            self.told(f"the owner makes no draft: {wrote[-1]}", 3)
            return
        certificate = asks[0].certificate
        self.told(f"draft {number}: certificate {certificate.digest.hex()}, serial {certificate.serial}, good until epoch {certificate.policy.until}")
        self.moved(DRAFTED, draft=number, digest=certificate.digest.hex(), certificate=certificate.data.hex(), serial=certificate.serial)

    def hand_over(self):
        """Has the old key hand over to the draft, where it has to and can."""
        step, current, word = self.next, self.current, f"D{self.number}"
        if not self.once(DRAFTED):
            return
        owner = self.owner(step["key"])
        if step["kind"] in (FIRST, RECOVER):
            self.moved(ASKED)
        elif step["kind"] in (RENEW, REVOKE):
            owner.order(f"handover {word} {step['draft']}", self.handed)
        else:
            old = self.owner(current["key"])

            def attach(wrote):
                signed = [line.split(" ")[2] for line in wrote if line.startswith("handed ")]
                if signed:
                    owner.order(f"attach {step['draft']} {signed[0]}", self.handed)
                else:
                    self.handed(wrote)

            old.order(f"draft {step['certificate']}", lambda wrote: old.order(f"handover {word} {number_in(wrote)}", attach))

    def handed(self, wrote):
        if wrote[-1].endswith(" ok"):
            self.told("the old key handed over")
            self.moved(ASKED)
        else:
            self.told(f"the old key does not hand over: {wrote[-1]}", 3)

    # ---- asks and tokens

    def due(self, what):
        """Whether it is time to say something again: first soon, then less and less often."""
        at, pause = self.pauses.get(what, (-1e18, FIRST_PAUSE))
        if time.monotonic() < at:
            return False
        self.pauses[what] = time.monotonic() + pause, min(2 * pause, LAST_PAUSE)
        return True

    def ask(self):
        step, digest = self.next, bytes.fromhex(self.next["digest"])
        for authority in self.state["asks"]:
            held = step["tokens"].get(str(authority), {})
            if authority in step["endorsed"]:
                continue
            if held.get("state") == notes.REFUSED and time.time() < held["at"] + ASK_ANEW:
                continue
            if held.get("state") == notes.REFUSED:
                del step["tokens"][str(authority)]
                held = {}
            if not held.get("tokens") or held.get("state") in (notes.ENDORSED, notes.PERSON):
                if self.due(("ask", authority, digest)):
                    certificate = bytes.fromhex(step["certificate"])
                    data = bytes([notes.ENDORSE_ASK]) + messages.u16(self.number) + messages.counted(certificate)
                    self.sends(f"send A{authority} {data.hex()}")
                continue
            for token in held["tokens"]:
                if self.due(("ready", authority, token)) and self.put_up(authority, token):
                    note = notes.Note(notes.READY, self.number, authority, digest, bytes.fromhex(token), notes.METHODS[self.state["method"]])
                    self.sends(f"send A{authority} {notes.note_of(note)}")
        refused = [one for one, held in step["tokens"].items() if held.get("state") == notes.REFUSED]
        if len(self.state["asks"]) - len(refused) < LEAST_ENDORSED and self.once(("few", len(refused))):
            self.told(f"{TOO_FEW}: mend what they say, and tools/name again {self.name}", 3)
        waiting = [one for one in self.state["asks"] if one not in step["endorsed"] and str(one) not in refused]
        if len(step["endorsed"]) >= LEAST_ENDORSED and not waiting:
            self.told(f"{len(step['endorsed'])} authorities endorsed it")
            self.take_down()
            self.moved(SUBMITTED)

    def noted(self, note):
        """A note of an authority's door."""
        step = self.next
        if note is None or step is None or not step["digest"] or note.owner != self.number or note.digest.hex() != step["digest"]:
            return
        if note.authority not in self.state["asks"]:
            return
        held = step["tokens"].setdefault(str(note.authority), {"tokens": []})
        if note.form == notes.TOKEN and note.token.hex() not in held["tokens"]:
            held.update(tokens=[*held["tokens"], note.token.hex()][-MOST_TOKENS:], state=notes.WAITS, reason="")
            self.state.save()
            self.told(f"A{note.authority} gave a token")
        elif note.form == notes.STATE and (held.get("state"), held.get("reason")) != (note.state, note.reason):
            held.update(state=note.state, reason=note.reason, at=time.time())
            self.state.save()
            text = {notes.WAITS: "looked, and does not see it", notes.PERSON: "has seen it; a person there has to say yes",
                    notes.ENDORSED: "has seen it, and endorses", notes.REFUSED: "refuses"}[note.state]
            self.told(f"A{note.authority} {text}{f': {note.reason}' if note.reason else ''}", 6 if note.state in (notes.ENDORSED, notes.PERSON) else 4)

    def put_up(self, authority, token):
        """Puts up the digest for an authority's token: of this name's own draft, whatever draft the token was given for. Where two
        authorities gave one token, as one that hands on another's does, the file has a line for each. Whether it is up."""
        of = lambda one: notes.proof(bytes.fromhex(token), self.keys[int(one)], self.name, bytes.fromhex(self.next["digest"]))
        if self.state["method"] == "dns":
            return of(authority) in self.next["put"] or self.hook("put", of(authority))
        place = pathlib.Path(self.state["web"]) / notes.PATH.strip("/")
        try:
            place.mkdir(parents=True, exist_ok=True)
            (place / token).write_text("".join(f"{of(one)}\n" for one, held in sorted(self.next["tokens"].items()) if token in held["tokens"]))
            (place / token).chmod(0o644)
        except OSError as why:
            self.told(f"nothing can be put up: {why}", 3)
            return False
        if token not in self.next["put"]:
            self.next["put"].append(token)
            self.state.save()
        return True

    def hook(self, word, value):
        """Has the operator's program put up a TXT record, or take it away; whether it did."""
        try:
            run = subprocess.run([self.state["hook"], word, f"{notes.LABEL}.{self.name}", value], stdin=subprocess.DEVNULL, capture_output=True,
                                 timeout=HOOK_TIME, check=False)
            why = f"ends with status {run.returncode}: {run.stderr.decode(errors='replace').strip()[:200]}" if run.returncode else ""
        except (OSError, subprocess.TimeoutExpired) as failed:
            why = f"cannot be run: {failed}"
        if why:
            self.told(f"{self.state['hook']} {word} {why}", 3)
        elif word == "put":
            self.next["put"].append(value)
            self.state.save()
        return not why

    def take_down(self):
        """Takes away what was put up."""
        for what in self.next["put"]:
            if self.state["method"] == "web":
                (pathlib.Path(self.state["web"]) / notes.PATH.strip("/") / what).unlink(missing_ok=True)
            else:
                self.hook("take", what)

    def endorsed(self, line, wrote):
        """An owner took an endorsement, or refused it."""
        self.taken[line] = None
        if len(self.taken) > MOST_WAITING:
            self.taken.popitem(last=False)
        at = messages.Fields(bytes.fromhex(line), 1)
        at.take(2)
        authority, digest = at.number(2), at.take(32).hex()
        step = self.next
        if not wrote[-1].endswith(" ok"):
            if "refused O5" not in wrote[-1]:
                self.taken.pop(line, None)
                self.log(f"an endorsement of A{authority}: {wrote[-1]}")
                if wrote[-1].endswith(" 6"):
                    self.note()
            return
        if step and digest == step["digest"] and authority not in step["endorsed"]:
            step["endorsed"].append(authority)
            self.state.save()
            self.told(f"A{authority} endorsed it ({len(step['endorsed'])} of {len(self.state['asks'])})")

    # ---- the table

    def submit(self):
        """Submits the draft, once in an epoch, until it is in the table."""
        if self.submitted_in != self.epoch():
            self.submitted_in = self.epoch()
            step = self.next
            if self.decided.get(step["digest"]) is None:
                self.told(f"submitted; the next epoch begins in {self.plan.next_begins(self.now()) - self.now():.0f} s")
                self.owner(step["key"]).order(f"submit {step['draft']}")
        for owner in [self.owner(self.next["key"])]:
            self.allow(owner, self.next)

    def ended(self, message):
        """How an epoch ended: whether something of this name is in it."""
        if message is None:
            return
        if message.epoch == self.state["ended"] + 1 or self.state["ended"] == 0:
            self.state["ended"] = message.epoch
            self.state.save()
        if message.kind != messages.DECISION:
            return
        at = messages.Fields(message.data, 1 + 8 + 64)
        for _ in range(at.number(1)):
            change = messages.read_change(at)
            certificate = notes.read_certificate(change.certificate)
            if certificate and certificate.name == self.name and not change.objection:
                self.changed(message.epoch, certificate)

    def changed(self, epoch, certificate):
        """A change of this name is said to be decided: a log's driver says so, and a confirmation is to show it."""
        digest, known = certificate.digest.hex(), {part["digest"] for part in (self.next, self.current) if part}
        if digest in self.decided or digest in self.state["seen"]:
            return
        self.decided[digest] = epoch
        if digest in known:
            waits = self.next and self.next["kind"] == RECOVER and digest == self.next["digest"]
            self.told(f"epoch {epoch} has it" + (": it waits, as the old policy says, and then takes the place of the old one" if waits else ""))
            return
        if self.current and certificate.serial > self.current["serial"]:
            self.state["seen"].append(digest)
            self.state["foreign"][digest] = {"certificate": certificate.data.hex(), "epoch": epoch}
            self.state.save()
            self.told(f"somebody else has a certificate of {self.name} decided in epoch {epoch}, {digest}. If it is not yours, object: "
                      f"tools/name object {self.name} {digest}", 2)

    def ask_confirmation(self):
        """Asks a log for a confirmation, where the site does not."""
        clock = self.epoch()
        if self.site.process or self.confirmed >= clock or self.now() < self.plan.begins(clock) + self.plan.grace / 2:
            return
        if not self.next or self.next["state"] not in (SUBMITTED, BEGUN) or (self.next["state"] == BEGUN and self.next["kind"] != RECOVER):
            return
        if self.now() < self.asked_at + max(1.0, self.plan.grace / 2):
            return
        self.asked_at, self.asked_turn = self.now(), self.asked_turn + 1
        turn, authorities = self.asked_turn, self.council.authorities
        first, second = turn % authorities, (turn + 1) % authorities
        asked = bytes([messages.ASK]) + messages.u16(self.number) + bytes([len(self.name)]) + self.name.encode() + messages.u16(first) + messages.u16(second)
        self.sends(f"send L{turn % self.council.logs} {asked.hex()}", "client")

    def note(self):
        """Asks a log's driver for RollNotes, and for how epochs ended."""
        if self.now() < self.noted_at + self.plan.grace / 2:
            return
        self.noted_at, self.note_turn = self.now(), self.note_turn + 1
        known = [[len(self.rolls[f"{letter}{number}"]) for number in range(count)]
                 for letter, count in (("L", self.council.logs), ("A", self.council.authorities))]
        note = messages.Note(f"C{self.number}", True, self.state["ended"] + 1 if self.state["ended"] else max(1, self.epoch() - 1), 0, 0,
                             False, bytes(32), *known)
        self.sends(f"send L{self.note_turn % self.council.logs} {messages.note_of(note)}", "client")

    def confirmation(self, data):
        """A confirmation came: what a client says of it counts."""
        read = site_rules.read_confirmation(data)
        if read is None or read.name != self.name or read.epoch <= self.confirmed:
            return
        needed = {}
        for party, generation in read.signers:
            needed[party] = max(generation, needed.get(party, 0))
        rolls = [line for party, count in sorted(needed.items()) for line in self.rolls[party][:count]]
        if len(rolls) != sum(needed.values()) or len(rolls) > site_rules.MOST_ROLLS:
            self.note()
            return
        said = self.judge.check(rolls, self.name, self.plan.now(self.now(), read.epoch), self.plan.age, data)
        if said[:1] == ["absent"]:
            self.confirmed = read.epoch
        elif said[:1] == ["accepted"] and read.digest:
            self.confirmed = read.epoch
            self.accepted(read.digest.hex(), read.epoch, data)
        elif said == ["refused", "10"] and self.next and self.next["kind"] == REVOKE and read.digest.hex() == self.next["digest"]:
            self.arrived(read.epoch)

    def accepted(self, digest, epoch, data):
        """A client takes this certificate for the name's."""
        if self.next and digest == self.next["digest"]:
            self.arrived(epoch)
        elif self.next and self.next["kind"] == RECOVER and not self.current:
            certificate = certificate_in(data)
            self.state["current"] = {"key": None, "draft": None, "digest": digest, "serial": certificate.serial, "certificate": certificate.data.hex(),
                                     "until": certificate.policy.until, "allowed": [], "wait": certificate.policy.wait}
            self.state.save()
            self.told(f"the name has the certificate {digest}, serial {certificate.serial}; under its policy a recovery waits {certificate.policy.wait} epochs")
            if not certificate.policy.wait and certificate.policy.keyed:
                self.told("its policy is keyed and has no wait: without its key nothing can follow it, and the logs will refuse this", 2)
        elif self.current and digest != self.current["digest"] and digest not in self.state["seen"]:
            self.state["seen"].append(digest)
            self.state.save()
            self.told(f"clients take the certificate {digest} for that of {self.name}, which is none of yours", 2)

    def arrived(self, epoch):
        """What was under way is in the table."""
        step, old = self.next, self.current
        self.state["current"] = {"key": step["key"], "draft": step["draft"], "digest": step["digest"], "serial": step["serial"],
                                 "certificate": step["certificate"], "until": step["until"], "allowed": step["allowed"],
                                 "revoked": step["kind"] == REVOKE}
        self.state["next"] = None
        self.state["confirmed"] = epoch
        self.state.save()
        self.pauses.clear()
        self.told(f"epoch {epoch}: {self.name} has the certificate {step['digest']}, serial {step['serial']}"
                  + (", which is revoked" if step["kind"] == REVOKE else f", until epoch {step['until']}"))
        if old and old["key"] and old["key"] != step["key"]:
            self.owners.pop(old["key"], Owner(self, old["key"])).stop()
            self.told(f"the key {old['key']} has done its work: its process ended, and it is never started again")

    # ---- TLS keys and staples

    def allow(self, owner, part):
        """Has an owner allow what is allowed, for a draft, and disallow the rest."""
        for tls in self.state["allowed"]:
            what = owner.at, part["draft"], tls
            if tls not in part["allowed"] and what not in self.allowing:
                self.allowing.add(what)

                def took(wrote, tls=tls, what=what):
                    self.allowing.discard(what)
                    if wrote[-1].endswith(" ok"):
                        part["allowed"].append(tls)
                        self.state.save()
                        self.told(f"staples are allowed for the TLS key {tls}")

                owner.order(f"allow {part['draft']} {tls}", took)
        for tls in [one for one in part["allowed"] if one not in self.state["allowed"]]:
            part["allowed"].remove(tls)
            self.state.save()
            owner.order(f"disallow {part['draft']} {tls}", lambda wrote, tls=tls: self.told(f"no more staples for the TLS key {tls}"))

    def keys_text(self):
        """The file of TLS keys that tools/site is to have; empty where it has nothing to show."""
        current = self.current
        if not current or not current["draft"] or current.get("revoked"):
            return ""
        return "".join(f"key {self.name} {tls} {current['draft']}\n" for tls in self.state["allowed"] if tls in current["allowed"])

    def staple(self, tls, confirmation, then):
        """The site asks for a staple: of the newest certificate, by its key."""
        current = self.current
        if current and current["key"] and current["key"] not in self.state["lost"]:
            def done(wrote):
                if wrote[-1].endswith(" ok") and not self.state["stapled"]:
                    self.state["stapled"] = True
                    self.state.save()
                    self.told(f"{self.name} is stapled, and served")
                then(wrote)

            owner = self.owner(current["key"])
            if len(owner.queue) < MOST_WAITING:
                owner.order(f"staple {current['draft']} {tls} {confirmation}", done)

    # ---- time

    def look_ahead(self):
        """Renews in time: with the same key while it has leaves for it, else with the next one."""
        current = self.current
        if not current or not current["key"] or current.get("revoked") or current["key"] in self.state["lost"]:
            return
        if self.epoch() < current["until"] - self.state["valid"] // RENEWED:
            return
        owner = self.owner(current["key"])
        if owner.free is None:
            return
        needed = self.state["valid"] * max(1, len(self.state["allowed"])) + SPARE
        kind = RENEW if owner.free[0] >= min(needed, owner.free[1] - SPARE // 4) else NEXT
        self.told(f"the certificate ends with epoch {current['until']}: {'it is renewed' if kind == RENEW else 'it goes on to the next key'}")
        self.begin(kind)

    def tick(self):
        for at in self.wanted_owners():
            self.owner(at).start()
        if self.next:
            self.bring()
        else:
            self.look_ahead()
        current = self.current
        if current and current["key"] and current["draft"] and current["key"] not in self.state["lost"]:
            self.allow(self.owner(current["key"]), current)
            if self.counted_in != (self.epoch(), current["key"]):
                self.counted_in = self.epoch(), current["key"]
                self.owner(current["key"]).order(f"leaves D{self.number}")
        self.ask_confirmation()
        if self.plan.epoch_at(self.noted_at) != self.epoch() and self.now() > self.plan.begins(self.epoch()) + self.plan.grace:
            self.note()
        self.site.look()

    def stop(self):
        for owner in self.owners.values():
            owner.stop()
        self.site.stop()

    # ---- orders of the operator

    def order(self, words):
        """An order of the operator's, by the tool: what is answered."""
        word, rest = words[0], words[1:]
        if word in (FIRST, RENEW, NEXT, RECOVER, REVOKE):
            if word == RECOVER and self.current and self.current["key"]:
                self.lose(self.current["key"])
            why = self.begin(word)
            return f"no {why}" if why else "ok"
        if word in ("allow", "disallow") and len(rest) == 1 and re.fullmatch("[0-9a-f]{64}", rest[0]):
            allowed = self.state["allowed"]
            if word == "allow" and rest[0] not in allowed:
                allowed.append(rest[0])
            if word == "disallow" and rest[0] in allowed:
                allowed.remove(rest[0])
            self.state.save()
            return "ok"
        if word == "object" and len(rest) == 1:
            return self.object(rest[0])
        if word == "again" and self.next:
            self.next["tokens"] = {at: token for at, token in self.next["tokens"].items() if token.get("state") != notes.REFUSED}
            self.state.save()
            self.pauses.clear()
            return "ok"
        if word == "stop":
            self.stopped = True
            return "ok"
        if word == "status":
            return "\n".join(self.page())
        return "no that is no order"

    def lose(self, key):
        """A key is lost: its process is never started again."""
        self.state["lost"].append(key)
        self.state.save()
        if key in self.owners:
            self.owners.pop(key).stop()

    def object(self, digest):
        """Objects to a certificate that waits, by the current key."""
        foreign, current = self.state["foreign"].get(digest), self.current
        if foreign is None or not current or not current["key"]:
            return "no such certificate waits, or there is no key to object with"
        owner = self.owner(current["key"])
        owner.order(f"draft {foreign['certificate']}", lambda wrote: owner.order(
            f"object D{self.number} {number_in(wrote)}", lambda said: self.told(f"objected to {digest}: {said[-1]}")))
        return "ok"

    def page(self):
        """How it stands, for people."""
        clock, current, step = self.epoch(), self.current, self.next
        yield f"{self.name}, owner and client {self.number}; epoch {clock}, the next begins in {self.plan.next_begins(self.now()) - self.now():.0f} s"
        if current and current["key"]:
            end = "revoked" if current.get("revoked") else f"good until epoch {current['until']}, {span((current['until'] - clock) * self.plan.length)}"
            yield f"certificate {current['digest']}, serial {current['serial']}, by key {current['key']}: {end}; confirmed in epoch {self.confirmed}"
            free = self.owner(current["key"]).free if current["key"] in self.owners else None
            if free:
                yield f"leaves {free[0]} of {free[1]} are left"
        elif not current:
            yield "no certificate yet"
        for tls in self.state["allowed"]:
            yield f"TLS key {tls}" + ("" if current and tls in current["allowed"] else " (not allowed by the key yet)")
        if step:
            yield f"under way: {step['kind']}, {step['state']}, certificate {step['digest'] or '(not made yet)'}"
            for authority in self.state["asks"]:
                token = step["tokens"].get(str(authority), {})
                how = "endorsed" if authority in step["endorsed"] else token.get("state") or "has not answered yet"
                yield f"  A{authority}: {how}{': ' + token['reason'] if token.get('reason') else ''}"
        for digest, foreign in self.state["foreign"].items():
            yield f"! somebody else's certificate {digest}, decided in epoch {foreign['epoch']}"
        for at, owner in self.owners.items():
            if owner.trouble:
                yield f"! the key {at} is not opened: {owner.trouble}"


def span(seconds):
    """A time for people."""
    for size, unit in ((86400, "days"), (3600, "hours"), (60, "minutes")):
        if seconds >= 2 * size:
            return f"{seconds / size:.0f} {unit}"
    return f"{max(0, seconds):.0f} seconds"


def number_in(wrote):
    """The number in an answer `draft <number> <digest>`."""
    words = wrote[-1].split(" ")
    return int(words[1]) if words[0] == "draft" and len(words) == 3 else None


def certificate_in(data):
    """The certificate in a Confirmation."""
    at = messages.Fields(data, 1)
    at.take(3 + 8)
    at.counted(1)
    at.take(32)
    return notes.read_certificate(at.counted())
