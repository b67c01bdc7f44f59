"""A driver of a party (tools/epochs), without its files, its socket and its clock: what it makes of what its party was given and
answered, of what other drivers tell, and of the time. Each call is given the time; `link` takes what is to be given to the party or
sent to others, and `store` keeps what has to outlive it."""
import collections
import random

import party_messages as messages
from epoch_rules import Council, Endings, Facts, due, waits
from schedule import LEAST_AGE

# How many messages that came too early, or before a key that they need, wait for it.
MOST_HELD = 64
# How many endings, and RollNotes, are handed to one that lacks them, at a time, and how many of both in an epoch of the clock to those
# together whom the broker does not name.
MOST_ENDINGS, MOST_ROLLS, MOST_TO_STRANGERS = 24, 16, 2048
# Refusals that tell of two next keys of one generation.
TWO_KEYS = ("L16", "A11", "O8")
# Refusals for want of a leaf.
SPENT = ("L14", "A10")
# The test that fails where a key is not known yet.
UNKNOWN_KEY = "6"
# The longest time, in seconds, in which a party that has a new key takes nothing, so that its RollNote is everywhere before.
MOST_SETTLING = 5.0
# The longest time, in seconds, before one who is behind asks again, and is helped again.
MOST_PAUSE = 2.0
# Refusals that are ordinary: of another epoch, and of a ballot or a status that another log counts.
ORDINARY = ("L5", "L6")
# How many epochs are looked back on for how many leaves one takes.
LOOKED_BACK = 8
ORDERS = ("propose", "pass", "roll")
# How many may lie.
MOST_LIARS = 2
# The sender of what a driver gives its own party.
DRIVER = "driver"


def refusal(words):
    """The code of a refusal and its values, or nothing."""
    return words[words.index("refused") + 1:] if "refused" in words else []


class Keys:
    """Which leaf of which key of the party signs next, as far as its signatures told, and how many leaves epochs took."""

    def __init__(self, leaves, kept):
        self.leaves = leaves
        self.at = kept  # the generation and the next leaf, or None
        self.used, self.recent = 0, collections.deque(maxlen=LOOKED_BACK)

    def signed(self, generation, leaf):
        """A leaf signed."""
        if self.at is None or (generation, leaf + 1) > self.at:
            self.used += leaf + 1 - self.at[1] if self.at and self.at[0] == generation else 1
            self.at = generation, leaf + 1

    def told(self, free, leaves):
        """An owner told how many leaves of how many are free."""
        self.leaves, self.at = leaves, (0, leaves - 1 - free)

    def rolled(self, generation):
        """The party left a generation."""
        if self.at is None or self.at[0] <= generation:
            self.at = generation + 1, 0

    def left(self):
        """How many leaves are left beside the last, which is kept for the roll; None where it is not known."""
        return None if self.at is None else self.leaves - 1 - self.at[1]

    def epoch_ended(self):
        self.recent.append(self.used)
        self.used = 0

    def most_in_an_epoch(self):
        return max(self.recent, default=0)


class Driver:
    """What stands beside a party, of whatever role."""

    def __init__(self, party, council, authorities, leaves, schedule, store, link, roll_at, tell, chance=random):
        self.party, self.role = party, {"L": "log", "A": "authority", "D": "owner"}[party[0]]
        self.number, self.council, self.authorities = int(party[1:]), Council(*council), authorities
        self.schedule, self.store, self.link, self.roll_at, self.tell, self.chance = schedule, store, link, roll_at, tell, chance
        self.keys = Keys(leaves, store.leaf)
        self.ready, self.asked, self.settles, self.named = False, None, None, False
        self.must_roll = False
        self.held = collections.deque(maxlen=MOST_HELD)
        self.heard, self.seen, self.helped = {}, {}, {}  # by party: the newest note and when; when it was heard of; when it was helped
        self.strangers = None, 0  # an epoch of the clock, and how many lines were handed in it to those whom the broker does not name
        self.refusals, self.guilty, self.disagree = collections.Counter(), {}, {}
        self.last_refusals = collections.deque(maxlen=8)
        self.noted_at, self.told = -1e18, set()

    # ---- what was given and answered

    def connected(self, named):
        """A gate is there, whose pipes name their senders or not."""
        self.ready, self.asked, self.settles, self.named = False, None, None, named

    def idle(self, now):
        """The party waits for a line."""
        self.ready = True
        self.tick(now)

    def order(self, line):
        """Has the party given a line, unless it was given another one meanwhile, and waits for its answer."""
        self.asked = line
        self.link.order(line)

    def stale(self):
        """The party was given another line before the one that was asked for, which is dropped."""
        self.asked = None

    def answered(self, sender, line, wrote, now):
        """What the party wrote when it was given a line; of its opening the line is empty."""
        given = messages.read(line) if line[:1].isdigit() or line[:1] in "abcdef" else None
        for text in wrote:
            words = text.split(" ")
            if words[0] == "send":
                self.said(words[1], words[2], now)
            elif words[0] == "handed":
                self.keys.signed(0, int(words[2][:8], 16))
            elif words[1:2] == ["leaves"] and words[3:4] == ["of"]:
                self.keys.told(int(words[2]), int(words[4]))
            elif words[1:2] == ["ended"]:
                self.ended(int(words[2]), given, wrote, now)
        words = wrote[-1].split(" ") if wrote else [""]
        self.ready = True
        if line == self.asked:
            self.asked = None
        code = refusal(words)
        if code:
            self.refused(sender, line, given, code, now)
        elif words[-1] == "ok":
            self.took(line, given, now)
        elif words[0] == "draft":
            self.advise(line, now)
        self.store.keep_leaf(self.keys.at)
        self.settles = now + min(self.schedule.hearing, MOST_SETTLING) if line.startswith("roll ") and not code else now
        self.tick(now)

    def said(self, to, line, now):
        """The party sent a message, now or, when it opened, before."""
        message = messages.read(line)
        if message is None:
            return
        leaf = messages.leaf_of(message, self.role)
        if message.kind == messages.ROLL:
            self.learned(message, line)
            self.keys.rolled(message.epoch)
        elif leaf:
            self.keys.signed(leaf[0], leaf[1] + (message.kind == messages.PROPOSE))
        self.own(message, to, line, now)

    def own(self, message, to, line, now):
        """A message of a log's own, of an epoch that it is to end."""

    def ended(self, epoch, given, wrote, now):
        """An epoch ended at the party."""

    def took(self, line, given, now):
        """The party took a line."""
        if given and given.kind == messages.ROLL:
            self.learned(given, line)
            self.give_held(lambda why: why == given.log)
        if line.split(" ")[0] == "roll":
            self.must_roll = False

    def refused(self, sender, line, given, code, now):
        """The party refused a line."""
        if sender != DRIVER:
            self.refusals[code[0]] += 1
            if code[0] not in ORDINARY:
                self.last_refusals.append((now, sender, " ".join(code), given.kind if given else 0))
        if code[0] in ("L4", "A4", "O4") and code[2:] == [UNKNOWN_KEY]:
            self.hold(code[1], line)
            self.ask("logs", now)
        elif code[0] in SPENT:
            self.must_roll = True
            self.hold(self.party, line)
        elif code[0] in TWO_KEYS:
            self.accuse(code[1], "rolled to two keys", [line], now)

    def advise(self, line, now):
        """Advises against a policy, as an owner's order has it, by which confirmations are soon too old."""
        words = line.split(" ")
        if words[0] in ("register", "update") and words[5:] and words[5].isdigit() and int(words[5]) < LEAST_AGE:
            self.tell(f"an age of {words[5]} is small for a policy: take {LEAST_AGE} or more ({' '.join(words[:3])})", 4)

    # ---- what waits

    def hold(self, why, line):
        """Keeps a line until what it waits for is there: a party's next key, or an epoch. An order is made anew in its time."""
        if (why, line) not in self.held and line.split(" ")[0] not in ORDERS:
            self.held.append((why, line))

    def give_held(self, is_due):
        """Gives again what waited for this."""
        for why, line in [one for one in self.held if is_due(one[0])]:
            self.held.remove((why, line))
            self.link.give(line)

    # ---- keys

    def learned(self, note, line):
        self.store.keep_roll(note.log, note.epoch, line)
        if note.log == self.party:
            self.give_held(lambda why: why == self.party)

    def generations(self, letter, count):
        return [self.store.generation(f"{letter}{number}") for number in range(count)]

    def needs_roll(self):
        """Whether the party is to go on to its next key."""
        if self.role == "owner":
            return False
        left = self.keys.left()
        return self.must_roll or (left is not None and left <= max(self.roll_at, self.keys.most_in_an_epoch()))

    # ---- notes

    def note(self, asks, now):
        return messages.Note(self.party, asks, 0, 0, 0, False, bytes(32), self.generations("L", self.council.logs),
                             self.generations("A", self.authorities))

    def ask(self, to, now):
        """Asks others for what this one lacks, not too often."""
        if now >= self.noted_at + self.pause:
            self.send_note(to, True, now)

    @property
    def pause(self):
        return min(self.schedule.again, MOST_PAUSE)

    def send_note(self, to, asks, now):
        self.noted_at = now
        self.link.send(to, messages.note_of(self.note(asks, now)).hex())

    def noted(self, sender, line, now):
        """Another driver tells of its party. Where the broker names senders, it speaks for no other."""
        note = messages.read_note(line)
        if note is None or note.party == self.party:
            return
        if note.party[0] in "DC":
            self.help_stranger(note, now)
            return
        if self.named and sender != note.party:
            return
        self.seen[note.party] = now
        self.heard[note.party] = note, now
        if now >= self.helped.get(note.party, -1e18) + self.pause:
            self.helped[note.party] = now
            self.help(note, now)
        self.noticed(note, now)
        self.tick(now)

    def help_stranger(self, note, now):
        """Helps an owner's driver, or a site. Anybody may pretend to be one, so they are handed so much in an epoch of the clock."""
        epoch, lines = self.schedule.epoch_at(now), self.lacking(note)
        if self.strangers[0] != epoch:
            self.strangers = epoch, 0
        if self.strangers[1] + len(lines) <= MOST_TO_STRANGERS:
            self.strangers = epoch, self.strangers[1] + len(lines)
            for line in lines:
                self.link.send(note.party, line)

    def noticed(self, note, now):
        """Compares what another driver tells with what this one knows."""

    def lacking(self, note):
        """The RollNotes that one lacks who tells this."""
        pairs = [(f"{letter}{number}", known) for letter, knows in (("L", note.logs), ("A", note.authorities))
                 for number, known in enumerate(knows)]
        return [line for party, known in pairs if party != note.party for line in self.store.rolls_from(party, known)][:MOST_ROLLS]

    def help(self, note, now):
        """Hands one what it lacks."""
        for line in self.lacking(note):
            self.link.send(note.party, line)

    # ---- alarms

    def once(self, key, text, now, level=4):
        """Tells something once."""
        if key not in self.told:
            self.told.add(key)
            self.tell(text, level)

    def accuse(self, party, what, lines, now):
        """Tells who contradicts himself, and keeps the evidence."""
        if (party, what) not in self.guilty:
            self.guilty[party, what] = now
            place = self.store.keep_evidence(party, what, lines)
            self.tell(f"{party} {what}: {place}", 3)

    # ---- time

    def tick(self, now):
        """Does what is due. Where a party has a new key, nothing is taken for a while."""
        if self.settles is not None and now < self.settles:
            return
        if self.ready and not self.asked:
            if self.needs_roll():
                self.order(f"roll {self.party}")
            else:
                self.act(now)
        if self.settles is not None:
            self.settles = None
            self.link.took()

    def act(self, now):
        """Tells logs once an epoch which keys this one knows."""
        if self.schedule.epoch_at(now) != self.schedule.epoch_at(self.noted_at) if self.noted_at > 0 else True:
            self.keys.epoch_ended()
            self.send_note("logs", True, now)


class LogDriver(Driver):
    """What stands beside a log."""

    def __init__(self, *words, **more):
        super().__init__(*words, **more)
        self.endings = Endings(self.schedule, self.council.logs)
        for epoch, when in self.store.ending_times():
            self.endings.ended(epoch, when)
        self.epoch, self.facts, self.opened, self.unsure = None, None, None, True
        self.early = collections.Counter()  # by party: how often it proposed before the time
        self.clear()

    def connected(self, named):
        super().connected(named)
        self.unsure, self.assembled = True, None

    def stale(self):
        super().stale()
        self.assembled = None

    def clear(self):
        """Forgets what was done in the epoch before."""
        self.voted, self.stated, self.proposed, self.assembled = None, False, False, None
        self.endable, self.listening, self.next_again, self.interval, self.stop = None, None, None, self.schedule.again, None
        self.claimed = None  # since when others say that they have a proposal, which did not come

    def open(self, epoch, now):
        """An epoch is open at the log."""
        self.epoch, self.facts = epoch, Facts(self.council, epoch)
        self.opened = self.endings.opened(epoch) or now
        self.clear()
        for _, line in self.store.sent(epoch):
            self.known(messages.read(line), now)
        self.give_held(lambda why: isinstance(why, int) and why <= epoch)
        if epoch > self.schedule.epoch_at(now + self.schedule.grace) + 1:
            self.once(("ahead", epoch), f"epoch {epoch} is open, and the clock's is {self.schedule.epoch_at(now)}", now)

    # ---- what was given and answered

    def answered(self, sender, line, wrote, now):
        if line.split(" ")[0] == "pass" and wrote and not refusal(wrote[-1].split(" ")):
            self.stated = True
            if not any(text.startswith("send L") for text in wrote) and self.keys.at:
                self.keys.signed(self.keys.at[0], self.keys.at[1])
        super().answered(sender, line, wrote, now)

    def known(self, message, now):
        """Takes a statement of the open epoch that the party verified or made."""
        if message is None or self.facts is None or not self.facts.add(message):
            return
        name = f"L{message.log}"
        self.seen[name] = now
        if name == self.party and message.kind in (messages.PROPOSE, messages.BALLOT):
            self.voted, self.proposed = message.value, self.proposed or message.kind == messages.PROPOSE
        elif name == self.party:
            self.stated = True
        if message.kind == messages.PROPOSE and now < self.schedule.begins(self.epoch) - 2 * self.schedule.window:
            early = self.schedule.begins(self.epoch) - now
            self.early[name] += 1
            self.once(("early", self.epoch), f"{name} proposes epoch {self.epoch} {early:.1f} s before its time", now)
        if self.next_again is None or self.next_again > now + self.schedule.again:
            self.next_again, self.interval = now + self.schedule.again, self.schedule.again
        for log, what, shown in self.facts.conflicts():
            self.accuse(f"L{log}", f"{what} in epoch {self.epoch}", [one.data.hex() for one in shown], now)

    def own(self, message, to, line, now):
        is_past = self.epoch is not None and message.epoch is not None and message.epoch < self.epoch
        if message.kind in (messages.PROPOSE, messages.BALLOT, messages.STATUS) and message.log == self.number and not is_past:
            self.store.keep_sent(message.epoch, to, line)
            self.known(message, now)

    def took(self, line, given, now):
        super().took(line, given, now)
        if given:
            self.known(given, now)

    def refused(self, sender, line, given, code, now):
        super().refused(sender, line, given, code, now)
        if code[0] == "L5":
            self.other_epoch(line, given, int(code[1]), now)
        elif code[0] == "L6" and not given:
            self.unsure = True  # the epoch is not what was thought
        elif code[0] == "L8" and not given:
            self.stated = True
        elif given and ((code[0] == "L6" and given.kind in (messages.BALLOT, messages.STATUS))
                        or (code[0] in ("L7", "L8") and given.kind == messages.PROPOSE)):
            self.known(given, now)  # who signs it is looked at before that

    def other_epoch(self, line, given, epoch, now):
        """The log told its epoch, in refusing a message of another, which those who sign it signed."""
        self.unsure = False
        if self.epoch != epoch:
            self.open(epoch, now)
        if given and given.epoch != messages.FAR and given.epoch > epoch:
            self.hold(given.epoch, line)
            self.ask("logs", now)

    def ended(self, epoch, given, wrote, now):
        """Keeps how an epoch ended, and opens the next."""
        lines = [text.split(" ")[2] for text in wrote if text.startswith("send logs 0")]
        told = [one for one in map(messages.read, lines) if one] + [given]
        ending = next((one for one in told if one and one.kind in (messages.DECISION, messages.SKIP) and one.epoch == epoch), None)
        if ending is None:
            return
        line = ending.data.hex()
        self.store.keep_ending(epoch, now, line, ending.names or ())
        self.endings.ended(epoch, now)
        self.keys.epoch_ended()
        if line == self.assembled:
            self.link.send("logs", line)
        self.open(epoch + 1, now)
        further = [party for party, (note, _) in self.heard.items() if note.epoch > epoch + 1]
        if further:
            self.ask(self.chance.choice(further), now)
        elif waits(self.schedule, self.epoch, self.opened) or now >= self.noted_at + self.schedule.again:
            self.send_note("logs", False, now)  # who proposes behind its time needs to know

    # ---- notes

    def note(self, asks, now):
        note = super().note(asks, now)
        if self.epoch is None:
            return note
        return note._replace(epoch=self.epoch, open_for=max(0, round(1000 * (now - self.opened))), proposals=len(self.facts.proposals),
                             stated=self.stated, ended=self.store.digest(self.epoch - 1))

    def lacking(self, note):
        """The RollNotes, and how epochs ended, that one lacks who tells this."""
        lines = super().lacking(note)
        if note.party[0] in "LC" and note.epoch and self.epoch is not None:
            epochs = range(note.epoch, min(self.epoch, note.epoch + MOST_ENDINGS))
            lines += [line for line in map(self.store.ending, epochs) if line]
        return lines

    def help(self, note, now):
        super().help(note, now)
        if note.party[0] != "L" or self.epoch is None:
            return
        if note.epoch == self.epoch:
            if note.proposals < len(self.facts.proposals):
                for message in self.facts.proposals.values():
                    self.link.send(note.party, message.data.hex())
            if note.asks:
                self.give_again_to(note.party)
        if note.asks:
            self.link.send(note.party, messages.note_of(self.note(False, now)).hex())

    def noticed(self, note, now):
        if self.epoch is None:
            return
        mine = self.store.digest(note.epoch - 1) if note.epoch else bytes(32)
        if any(mine) and any(note.ended) and mine != note.ended:
            self.disagree[note.party] = now
            self.once(("disagree", note.party, note.epoch), f"{note.party} says that epoch {note.epoch - 1} ended otherwise", now, 3)
        if note.epoch > self.epoch:
            self.ask(note.party, now)

    def give_again_to(self, to):
        """Gives again what the log itself said in the open epoch."""
        for _, line in self.store.sent(self.epoch):
            self.link.send(to, line)

    def others(self, since):
        """The newest notes of other logs, heard since then, which are of the epoch that is open."""
        return {party: (note, when) for party, (note, when) in self.heard.items()
                if party[0] == "L" and when >= since and note.epoch == self.epoch}

    # ---- time

    def due(self):
        return due(self.schedule, self.epoch, self.opened, self.endings.paced(self.epoch))

    def due_to_others(self):
        """When the proposal is due as others may see it: not before that and the grace does the log pass."""
        return max(self.due(), due(self.schedule, self.epoch, self.opened, self.endings.may_be_paced(self.epoch)))

    def act(self, now):
        if self.unsure:
            self.order(messages.probe().hex())
            return
        if self.end(now) or self.propose(now) or self.pass_by(now):
            return
        self.again(now)

    def end(self, now):
        """Ends the epoch where what the driver has suffices, and those who are to do so did not; whether the log is asked to."""
        ending = self.facts.ending()
        if ending is None:
            return False
        self.endable = self.endable or now
        if now < self.endable + self.schedule.again or self.assembled == ending.hex():
            return False
        self.assembled = ending.hex()
        self.order(self.assembled)
        return True

    def propose(self, now):
        """Proposes at the log's turn: within a window behind the time when that is due, for others pass later; whether it does."""
        if self.council.turn(self.epoch) != self.number or self.voted or self.proposed or self.stated:
            return False
        if not self.is_due(now):
            return False
        self.order(f"propose {self.party}")
        return True

    def is_due(self, now):
        """Whether it is time to propose. Where the epoch is behind its time, so many logs as a quorum have to tell that it is open
        there no longer than the window: those who opened it earlier may be about to pass. Where they hurry no clock counts, but for
        how long the epoch is open, so the window is twice as long."""
        when, is_late = self.due(), waits(self.schedule, self.epoch, self.opened)
        window = self.schedule.window * (2 if is_late and not self.endings.paced(self.epoch) else 1)
        if not when <= now <= when + window:
            return False
        if not is_late:
            return True
        fresh = [note for note, other in self.dues(self.opened, self.endings.paced(self.epoch))
                 if now <= other + window and not note.stated]
        if len(fresh) + 1 < self.council.quorum:
            self.ask("logs", now)
            return False
        return True

    def dues(self, since, paced):
        """The notes of others of the open epoch, heard since then, and when its proposal was due there."""
        return [(note, due(self.schedule, self.epoch, heard - note.open_for / 1000, paced)) for note, heard in self.others(since).values()]

    def pass_by(self, now):
        """Passes where the one whose turn it is has been silent for the grace, and no other has its proposal, as far as they are
        reached, and so many are, behind the grace too, that the epoch can be skipped; whether it does."""
        if self.voted or self.proposed or self.stated or now < self.due_to_others() + self.schedule.grace or self.comes(now):
            return False
        if self.listening is None or now >= self.listening + 2 * self.schedule.hearing:
            self.listening = now
            self.send_note("logs", True, now)
            return False
        behind = [note for note, other in self.dues(self.listening, self.endings.may_be_paced(self.epoch))
                  if now >= other + self.schedule.grace]
        if now < self.listening + self.schedule.hearing or len(behind) + 1 < self.council.enough:
            return False
        self.listening = None
        self.order(f"pass {self.party}")
        return True

    def comes(self, now):
        """Whether a proposal is on its way, as others tell: it may wait behind much else, which notes pass by. If three say that
        they have one, somebody honest does; fewer are believed for a grace."""
        have = sum(note.proposals > 0 for note, _ in self.others(self.opened).values())
        if not have:
            self.claimed = None
        elif self.claimed is None:
            self.claimed = now
        return have > MOST_LIARS or (have > 0 and now < self.claimed + self.schedule.grace)

    def again(self, now):
        """Gives again what was said, where the epoch should have ended, less and less often, and tells where it cannot end."""
        if self.next_again is None:
            self.next_again = self.due() + self.schedule.again
        if now < self.next_again:
            return
        self.interval = min(2 * self.interval, max(self.schedule.again, self.schedule.length / 2))
        self.next_again = now + self.interval
        self.give_again_to("logs")
        if len(self.facts.ballots) > 1 or len(self.facts.proposals) > 1:
            for message in self.facts.proposals.values():
                self.link.send("logs", message.data.hex())
        self.send_note("logs", True, now)
        self.name_stop(now)

    def reached(self, now):
        """The logs that were heard of lately, and this one."""
        since = now - max(2 * self.schedule.length, 4 * self.schedule.grace)
        return {self.number} | {int(party[1:]) for party, when in self.seen.items() if party[0] == "L" and when >= since}

    def stated_ones(self):
        """The logs that stated in the open epoch, as they tell."""
        others = {int(party[1:]) for party, (note, _) in self.others(self.opened).items() if note.stated}
        return others | ({self.number} if self.stated else set())

    def name_stop(self, now):
        """Names an epoch that cannot end, by what those have said who are reached."""
        reached = self.reached(now)
        if now <= self.due_to_others() + 2 * self.schedule.grace or self.facts.can_end(reached, self.stated_ones()):
            self.stop = None
            return
        silent = [f"L{log}" for log in range(self.council.logs) if log not in reached]
        two = [f"L{log}" for log, what, _ in self.facts.conflicts() if what.startswith("proposed")]
        why = f"{two[0]} proposed two things" if two else "too few logs are reached"
        if not two and len(reached) >= self.council.quorum:
            why = f"{len(self.facts.voters())} logs voted, and too many passed"
        self.stop = f"epoch {self.epoch} cannot end: {why}; not heard of: {', '.join(silent) or 'none'}"
        self.once(("stop", self.epoch, why), self.stop, now, 2)

    def told_stop(self):
        """That the open epoch cannot end, where it cannot."""
        return [self.stop] if self.stop else []
