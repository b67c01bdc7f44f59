"""A party as a process, whose lines come and go by two pipes, or by a broker's topics: what tools/network starts and kills.

Both ways have one face. `give` hands it a line. `lives.heard(line)` is called for each line that it wrote, and
`lives.ended(status)` where it ended without being asked to. `kill` ends it by SIGKILL, or kills what brings its lines where
that is asked for, and gives the lines that it had written and that were not heard yet; `end` ends its input and waits for
it."""
import os
import pathlib
import select
import selectors
import shutil
import signal
import socket
import subprocess
import time

# Seconds after which a process that should end, or a broker that should answer, is given up.
PATIENCE = 600
# Seconds between two tries to reach a party by its topic.
PING = 0.2


class Wrong(Exception):
    """The run cannot go on."""


def killed(process):
    """Kills a process; whether it was the kill that ended it."""
    process.send_signal(signal.SIGKILL)
    return process.wait() == -signal.SIGKILL


class Carrier:
    """What both ways have."""

    @staticmethod
    def brings(chance):
        """Whether what a process had written that was killed, and was not heard, comes, or is lost on its way."""
        return chance.randrange(2) == 1


class Pipes(Carrier):
    """Carries lines by pipes. One selector has what all of them write."""

    parts = ("party",)

    def __init__(self):
        self.selector = selectors.DefaultSelector()

    def start(self, name, words, lives):
        return Piped(self, words, lives)

    def hear(self, seconds):
        """Hands on what was written, and waits at most so long for it."""
        for key, _ in self.selector.select(seconds):
            key.data.hear()

    def close(self):
        """Ends what is left where a run cannot go on."""
        for key in list(self.selector.get_map().values()):
            if key.data.process.poll() is None:
                killed(key.data.process)
        self.selector.close()


class Piped:
    """A process between two pipes."""

    def __init__(self, carrier, words, lives):
        self.carrier, self.lives, self.rest = carrier, lives, b""
        self.process = subprocess.Popen(words, stdin=subprocess.PIPE, stdout=subprocess.PIPE, bufsize=0)
        os.set_blocking(self.process.stdout.fileno(), False)
        carrier.selector.register(self.process.stdout, selectors.EVENT_READ, self)

    def give(self, line):
        try:
            self.process.stdin.write(line + b"\n")
        except BrokenPipeError:
            pass  # it has ended, which is seen where it is read

    def lines(self):
        """The whole lines that it wrote, and whether more may come."""
        while True:
            try:
                more = os.read(self.process.stdout.fileno(), 1 << 16)
            except BlockingIOError:
                return [], True
            if not more:
                return [], False
            *lines, self.rest = (self.rest + more).split(b"\n")
            if lines:
                return lines, True

    def hear(self):
        lines, more = self.lines()
        for line in lines:
            self.lives.heard(line.decode())
        if not more:
            self.lives.ended(self.process.wait())

    def await_answer(self, seconds):
        """Waits at most so long until it has written something, and does not hear it."""
        select.select([self.process.stdout], [], [], seconds)

    def stop(self):
        """The lines that were not heard yet, of a process that has ended."""
        unheard = []
        more = True
        while more:
            lines, more = self.lines()
            unheard += lines
        self.carrier.selector.unregister(self.process.stdout)
        self.process.stdout.close()
        return [line.decode() for line in unheard]

    def kill(self, part):
        was = killed(self.process)
        self.process.stdin.close()
        return was, self.stop()

    def end(self):
        self.process.stdin.close()
        os.set_blocking(self.process.stdout.fileno(), True)
        unheard = self.stop()
        return self.process.wait(), unheard


def found(program):
    """Where a program of the broker's is."""
    place = shutil.which(program, path=os.environ.get("PATH", os.defpath) + ":/usr/sbin:/usr/local/sbin")
    if not place:
        package = "mosquitto" if program == "mosquitto" else "mosquitto-clients"
        raise Wrong(f"there is no program {program}: install Debian's package {package}, as by apt-get install {package}")
    return place


def free_port():
    with socket.socket() as probe:
        probe.bind(("127.0.0.1", 0))
        return probe.getsockname()[1]


class Broker(Carrier):
    """Carries lines by a broker of its own on a free port of this machine. Each party has two topics, `parties/NAME/in` and
    `parties/NAME/out`, and is a process between a subscription to the one and a publication to the other."""

    parts = ("party", "party", "party", "party", "subscription", "publication")

    def __init__(self, folder):
        self.programs = {program: found(program) for program in ("mosquitto", "mosquitto_sub", "mosquitto_pub")}
        self.folder, self.lives, self.marks = pathlib.Path(folder), {}, {}
        self.process = None
        for _ in range(5):  # another process may take the port meanwhile
            self.port = free_port()
            if self.begin():
                break
        else:
            raise Wrong(f"the broker does not start: {(self.folder / 'broker.log').read_text()[-500:]}")
        self.ears = self.client("mosquitto_sub", "-t", "parties/+/out", "-F", "%t %p", stdout=subprocess.PIPE, bufsize=0)
        self.rest = b""
        self.selector = selectors.DefaultSelector()
        self.selector.register(self.ears.stdout, selectors.EVENT_READ)
        self.wait_for_ears()

    def begin(self):
        """Starts the broker; whether it listens."""
        file = self.folder / "broker.conf"
        file.write_text(f"listener {self.port} 127.0.0.1\nallow_anonymous true\npersistence false\nmax_queued_messages 0\n"
                        f"max_inflight_messages 1\nset_tcp_nodelay true\n")
        with open(self.folder / "broker.log", "wb") as log:
            words = [self.programs["mosquitto"], "-c", file]
            self.process = subprocess.Popen(words, stdin=subprocess.DEVNULL, stdout=log, stderr=log)
        until = time.monotonic() + PATIENCE
        while self.process.poll() is None and time.monotonic() < until:
            with socket.socket() as probe:
                if probe.connect_ex(("127.0.0.1", self.port)) == 0:
                    return True
            time.sleep(0.05)
        if self.process.poll() is None:
            killed(self.process)
        return False

    def client(self, program, *words, **how):
        return subprocess.Popen([self.programs[program], "-h", "127.0.0.1", "-p", str(self.port), "-q", "1", *words], **how)

    def publish(self, topic, text):
        """Publishes a line at once, and waits until the broker has it."""
        if self.client("mosquitto_pub", "-t", topic, "-m", text).wait(PATIENCE):
            raise Wrong("the broker takes no message")

    def wait_for_ears(self):
        """Waits until what is published is heard here."""
        self.marks["ears"] = None
        until = time.monotonic() + PATIENCE
        while self.marks["ears"] is None:
            if time.monotonic() > until:
                raise Wrong("nothing that is published comes back from the broker")
            self.publish("parties/ears/out", "mark 0")
            self.hear(PING)

    def start(self, name, words, lives):
        return Brokered(self, name, words, lives)

    def hear(self, seconds):
        if self.process.poll() is not None:
            raise Wrong(f"the broker ended with status {self.process.returncode}")
        if self.selector.select(seconds):
            more = os.read(self.ears.stdout.fileno(), 1 << 16)
            if not more:
                raise Wrong("the tool's own subscription ended")
            *lines, self.rest = (self.rest + more).split(b"\n")
            for line in lines:
                topic, _, text = line.decode().partition(" ")
                self.said(topic.split("/")[1], text)
        for party in list(self.lives.values()):
            party.look()

    def said(self, name, text):
        """Hands on a line of a party, or notes the mark behind its last line."""
        if text.startswith("mark "):
            self.marks[name] = text
        elif name in self.lives:
            self.lives[name].heard(text)

    def close(self):
        """Ends the broker, and all that would go on trying to reach it."""
        self.selector.close()
        for process in (self.ears, *(process for party in self.lives.values() for process in party.processes()), self.process):
            if process.poll() is None:
                killed(process)


class Brokered:
    """A process between a subscription and a publication."""

    def __init__(self, broker, name, words, lives):
        self.broker, self.name, self.lives = broker, name, lives
        self.ended_seen, self.unheard = False, None
        self.begun = self.reached = False
        self.pinged = 0.0
        self.subscription = broker.client("mosquitto_sub", "-t", f"parties/{name}/in", stdout=subprocess.PIPE)
        self.party = subprocess.Popen(words, stdin=self.subscription.stdout, stdout=subprocess.PIPE)
        self.publication = broker.client("mosquitto_pub", "-t", f"parties/{name}/out", "-l", stdin=self.party.stdout)
        self.to_it = broker.client("mosquitto_pub", "-t", f"parties/{name}/in", "-l", stdin=subprocess.PIPE, bufsize=0)
        self.subscription.stdout.close()
        self.party.stdout.close()
        broker.lives[name] = self

    def give(self, line):
        self.to_it.stdin.write(line + b"\n")

    def heard(self, text):
        """A line that it wrote. Until its subscription is known to stand it is sent lines of no form, and their answers are
        nothing."""
        if self.unheard is not None:
            self.unheard.append(text)
        elif text.startswith("line ") and text.endswith(": word"):
            if not self.reached:
                self.reached = True
                self.lives.heard(self.begun)
        elif text.startswith("opened "):
            self.begun = text  # told once its subscription stands
        else:
            self.lives.heard(text)

    def look(self):
        """Looks whether it has ended, and tries whether lines reach it."""
        now = time.monotonic()
        if self.begun and not self.reached and now > self.pinged + PING:
            self.pinged = now
            self.give(b"ping")
        if self.unheard is None and not self.ended_seen and self.party.poll() is not None:
            self.ended_seen = True
            self.publication.wait(PATIENCE)
            self.lives.ended(self.party.returncode)

    def stop(self):
        """The lines that were not heard yet, of a process that has ended: those before a mark that is published behind them."""
        for process in (self.subscription, self.to_it):
            if process.poll() is None:
                killed(process)
        self.to_it.stdin.close()
        self.publication.wait(PATIENCE)
        mark = f"mark {time.monotonic_ns()}"
        self.broker.publish(f"parties/{self.name}/out", mark)
        until = time.monotonic() + PATIENCE
        while self.broker.marks.get(self.name) != mark:
            if time.monotonic() > until:
                raise Wrong(f"the mark behind the lines of {self.name} does not come")
            self.broker.hear(PING)
        del self.broker.lives[self.name]
        return [text for text in self.unheard if not (text.startswith("line ") and text.endswith(": word"))]

    def await_answer(self, seconds):
        """What it writes is on its way then, or in what is killed with its publication."""
        time.sleep(min(seconds, PING))

    def processes(self):
        return self.subscription, self.party, self.publication, self.to_it

    def kill(self, part):
        process = {"party": self.party, "subscription": self.subscription, "publication": self.publication}[part]
        self.unheard = []
        was = killed(process)
        if part == "publication":
            killed(self.subscription)
        if part != "party":
            status = self.party.wait(PATIENCE)
            if part == "subscription" and status:  # its input ended, and it could write
                self.lives.ended(status)
        return was, self.stop()

    def end(self):
        self.subscription.terminate()
        self.unheard = []
        status = self.party.wait(PATIENCE)
        return status, self.stop()
