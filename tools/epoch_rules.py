"""What a driver (tools/epochs) knows of the epoch that is open at its log, how that may end, and when its log may act in it: the
rules of docs/PROTOCOL.md ("Epochs by the clock") without files, sockets and clocks."""
import collections

import party_messages as messages

# How many epochs logs may be apart in what they see of an outage.
APART = 2
# How many proposals of one epoch are kept: more than one show that who made them follows no rule.
MOST_PROPOSALS = 4


class Council(collections.namedtuple("Council", "logs quorum")):
    """The numbers of a directory."""

    def turn(self, epoch):
        """The log whose turn it is."""
        return epoch % self.logs

    @property
    def enough(self):
        """The least number of statuses by which an epoch can be skipped."""
        return self.logs + 3 - self.quorum

    def excludes(self, values):
        """Whether statuses of different logs, what each voted for or None, exclude each root: none of them, and none that is not
        reported, could have a quorum, though those without a status voted for it, and two lied."""
        others = self.logs - len(values) + 2
        if others >= self.quorum:
            return False
        roots = collections.Counter(value[32:] for value in values if value)
        return max(roots.values(), default=0) + others < self.quorum


class Facts:
    """What is known of an epoch: verified by the log's own party, or said by it."""

    def __init__(self, council, epoch):
        self.council, self.epoch = council, epoch
        self.proposals = {}  # by value: the message
        self.ballots = collections.defaultdict(dict)  # by value: the signature of each log
        self.statuses = {}  # by log: the value or None, and the signature
        self.statements = collections.defaultdict(dict)  # by log: its messages, by what they say
        self.found = None  # how the epoch may end, where it was looked for since something came

    def add(self, message):
        """Takes a Propose, a Ballot or a StatusNote of the epoch; whether it says something new."""
        if message.epoch != self.epoch or message.kind not in (messages.PROPOSE, messages.BALLOT, messages.STATUS):
            return False
        self.found = None
        said = message.kind, message.value
        is_new = said not in self.statements[message.log]
        if is_new and len(self.statements[message.log]) < 2 * MOST_PROPOSALS:
            self.statements[message.log][said] = message
        if message.kind == messages.PROPOSE and len(self.proposals) < MOST_PROPOSALS:
            self.proposals.setdefault(message.value, message)
        elif message.kind == messages.BALLOT:
            self.ballots[message.value].setdefault(message.log, message.signature)
        elif message.kind == messages.STATUS:
            self.statuses.setdefault(message.log, (message.value, message.signature))
        return is_new

    # ---- how it may end

    def decision(self):
        """The Decision that the ballots make, or None."""
        for value, votes in self.ballots.items():
            if len(votes) >= self.council.quorum and value in self.proposals:
                return messages.decision_of(self.epoch, value, self.proposals[value].changes, votes)
        return None

    def skip(self):
        """The SkipNote that the statuses make, or None."""
        if self.council.excludes([value for value, _ in self.statuses.values()]):
            return messages.skip_of(self.epoch, self.statuses)
        return None

    def ending(self):
        """The Decision or SkipNote that may be made, or None."""
        if self.found is None:
            self.found = self.decision() or self.skip() or b""
        return self.found or None

    # ---- who did what

    def voters(self):
        """The logs that voted, as far as that is known, and for what. Who proposes one thing alone voted for it."""
        voted = {log: value for value, votes in self.ballots.items() for log in votes}
        if len(self.proposals) == 1:
            for value, message in self.proposals.items():
                voted.setdefault(message.log, value)
        return voted

    def conflicts(self):
        """Of each log that contradicts itself: what it said, in a word, and two messages of it that show so."""
        for log, said in sorted(self.statements.items()):
            for kind, what in ((messages.PROPOSE, "proposed two things"), (messages.BALLOT, "voted for two things"),
                               (messages.STATUS, "stated two things")):
                of_kind = [message for (one, _), message in said.items() if one == kind]
                if len(of_kind) > 1:
                    yield log, what, of_kind[:2]
            votes = [message for (one, _), message in said.items() if one == messages.BALLOT]
            stated = [message for (one, value), message in said.items() if one == messages.STATUS
                      and votes and all(vote.value != value for vote in votes)]
            if votes and stated:
                yield log, "stated another vote than its own", [votes[0], stated[0]]

    def can_end(self, reached, said):
        """Whether the epoch can end by what these logs have done and may still do: each that has neither voted nor stated votes,
        or states that it did not, and each voter may state its vote. Of some it is said that they stated: one who is to count the
        statuses sends its own to nobody."""
        voted, stated = self.voters(), {**dict.fromkeys(said), **{log: value for log, (value, _) in self.statuses.items()}}
        able = set(reached) | set(voted) | set(stated)
        undone = {log for log in reached if log not in voted and log not in stated}
        if undone:
            return len(able) >= min(self.council.quorum, self.council.enough)
        if self.ending():
            return True
        return self.council.excludes([voted[log] if log in voted else stated[log] for log in able])


# ---- when


def due(schedule, epoch, opened, paced):
    """When the proposal of an epoch is due at a log where it was opened then: at its time by the schedule; where that has gone by,
    at once, or, while each log has its turn at the schedule's pace, when the clock's next epoch begins. (One that begins in half of
    the grace has begun by the clock of another.)"""
    begins = schedule.begins(epoch)
    if opened <= begins:
        return begins
    return schedule.next_begins(opened + 2 * schedule.window) if paced else opened


def waits(schedule, epoch, opened):
    """Whether the epoch is opened behind its time, so that others may have opened it long before."""
    return opened > schedule.begins(epoch)


class Endings:
    """When epochs ended here, as far as it tells whether there was an outage: no epoch ended for as long as each log has a turn.
    Behind one, each log proposes at the schedule's pace once. Where it lasted nearly so long, others may see one, or its end, that
    this one does not: so it passes then as if there were one, which is later."""

    def __init__(self, schedule, logs):
        self.schedule, self.logs = schedule, logs
        self.last = None  # the newest that ended here, and when
        self.outage, self.doubt = None, None  # the epoch that ended an outage; that ended what may be one to others

    def ended(self, epoch, when):
        before = self.schedule.begins(epoch)
        if self.last and self.last[0] == epoch - 1:
            before = max(before, self.last[1])
        if when - before >= self.logs * self.schedule.length:
            self.outage = epoch
        if when - before >= (self.logs - APART) * self.schedule.length:
            self.doubt = epoch
        self.last = epoch, when

    def paced(self, epoch):
        """Whether a turn waits for the clock's next epoch."""
        return self.outage is not None and self.outage < epoch <= self.outage + self.logs

    def may_be_paced(self, epoch):
        """Whether another log's turn may wait for the clock's next epoch, as that one sees it."""
        return self.doubt is not None and self.doubt < epoch <= self.doubt + self.logs + APART

    def opened(self, epoch):
        """When the epoch was opened here, where that is known."""
        return self.last[1] if self.last and self.last[0] == epoch - 1 else None
