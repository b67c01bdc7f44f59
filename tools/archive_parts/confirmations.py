"""When an archive asks for confirmations: once in so many epochs of the schedule, of each name that the mirror's table has and that is
not revoked. No visitor has a part in it: each question costs a log and two authorities a leaf, and names that there are not have no end."""
import os

# The part of an epoch over which the questions are spread, and how many may be asked at one look at the clock.
SPREAD, AT_ONCE = 0.5, 16


class Questions:
    """What is asked, and when."""

    def __init__(self, base, council, plan, client, each, descriptor, tell):
        self.base, self.council, self.plan, self.client, self.each = base, council, plan, client, each
        self.descriptor, self.tell, self.period, self.due, self.total = descriptor, tell, None, [], 0

    def tick(self, now):
        """Asks for what is due."""
        clock = self.plan.epoch_at(now)
        if clock != self.period:
            self.period = clock
            rows = self.base.all("SELECT names.name FROM (SELECT name, MAX(place) AS place FROM held GROUP BY name) AS names JOIN held ON"
                                 " held.name = names.name AND held.place = names.place LEFT JOIN confirmation ON confirmation.name ="
                                 " names.name WHERE held.how <> 'revoked' AND COALESCE(confirmation.epoch, 0) + ? <= ?"
                                 " ORDER BY names.name DESC", self.each, clock)
            self.due, self.total = [name for name, in rows], len(rows)
        passed = (now - self.plan.begins(clock) - self.plan.grace / 2) / (self.plan.length * SPREAD)
        wanted = min(self.total, int(self.total * passed) + 1) if passed >= 0 else 0
        for _ in range(min(AT_ONCE, wanted - (self.total - len(self.due)))):
            self.ask(self.due.pop(), clock)

    def ask(self, name, clock):
        turn = clock + sum(name.encode())
        first = turn % self.council.authorities
        second = (first + 1 + turn // self.council.authorities % (self.council.authorities - 1)) % self.council.authorities
        data = (bytes([9]) + self.client.to_bytes(2, "big") + bytes([len(name)]) + name.encode() + first.to_bytes(2, "big")
                + second.to_bytes(2, "big"))
        try:
            os.write(self.descriptor, f"send L{turn % self.council.logs} {data.hex()}\n".encode())
        except BlockingIOError:
            self.tell("nobody reads what is sent: questions are dropped", 4)
