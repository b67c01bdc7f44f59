"""A network of processes that fills an archive, for tools/archive-test: five logs, four authorities and three owners, of whom L1 is two
processes with one secret (tools/network, --twins). Each line that anybody sends is noted with the topic by which an archive hears it.

What happens, epoch by epoch: names are registered, updated and revoked; a recovery ripens, one is objected to, and one waits; an
epoch is skipped; parties go on to their next keys."""
import argparse
import pathlib

import struct

from load_tool import load
from party_processes import Pipes

network = load("network")
TOP = pathlib.Path(__file__).resolve().parent.parent
# What is registered beside those that stories are told of.
PLAIN = ["shop.example", "mail.shop.example", "xn--bcher-kva.example",
         "a-very-long-label-that-goes-on-and-on-until-it-has-so-many-byzz.example", "0.example"]
POLICY = "2 keyed/3 20 1000000 0,1,2 0,1,2"


def built(name):
    """The program as it was built last, or as it was released."""
    path = TOP / f"crates/{name}/out/{name}"
    return path if path.exists() else TOP / "release/bin" / name


class Filling(network.Network):
    """A network whose lines are noted."""

    OWNERS = 3

    def __init__(self, asked, folder, carrier):
        self.lines = []
        super().__init__(asked, folder, carrier)

    def found(self):
        super().found()
        self.owner_keys = {"D0": self.owner_key}
        for number in range(1, self.OWNERS):
            name = f"D{number}"
            self.names.append(name)
            self.secrets[name] = self.chance.randbytes(32)
            self.file(name, "secret").write_text(f"secret {self.secrets[name].hex()}\n")
            self.keys[name] = self.key(name)
            self.owner_keys[name] = self.keys[name].split(" ")[1]

    def carry(self, sender, to, line):
        topic = f"arpki/{to}/{sender.party}"
        if not self.lines or self.lines[-1] != (topic, line):
            self.lines.append((topic, line))
        super().carry(sender, to, line)


class Story:
    """What happens."""

    def __init__(self, net):
        self.net, self.drafts, self.ended = net, {}, 0

    def order(self, name, line):
        self.net.orders(name, line)

    def begin(self, owner, line, name, authorities=(0, 1, 2)):
        """A line that begins a draft, of a name and the owner whose key it has; the number of the draft."""
        for number in authorities:
            self.order(f"A{number}", f"teach A{number} {name} {self.net.owner_keys[owner]}")
        self.order(owner, line)
        self.drafts[owner] = self.drafts.get(owner, 0) + 1
        return self.drafts[owner]

    def register(self, name, owner="D0", policy=POLICY):
        draft = self.begin(owner, f"register {owner} {name} {policy}", name)
        self.order(owner, f"submit {draft}")
        return draft

    def certificate(self, name):
        """The newest certificate that was submitted for a name, as bytes."""
        from archive_parts import reading
        for _, line in reversed(self.net.lines):
            message = reading.read(bytes.fromhex(line))
            if message and message.kind == reading.SUBMIT and message.name == name:
                return message.changes[0].certificate.data

    def knows(self, owner, certificate):
        """Gives an owner another's certificate as a draft."""
        self.order(owner, f"draft {certificate.hex()}")
        self.drafts[owner] = self.drafts.get(owner, 0) + 1
        return self.drafts[owner]

    def recover(self, name, owner):
        """An owner that has another key recovers a name."""
        known = self.knows(owner, self.certificate(name))
        draft = self.begin(owner, f"update {owner} {known} {POLICY}", name)
        self.order(owner, f"submit {draft}")

    def object(self, name, owner):
        draft = self.knows(owner, self.certificate(name))
        self.order(owner, f"object {owner} {draft}")

    def end(self, is_skipped=False):
        """Ends the open epoch."""
        epoch = self.ended + 1
        if not is_skipped:
            self.order(f"L{epoch % network.LOGS}", f"propose L{epoch % network.LOGS}")
        story = network.Story(self.net, None)
        if not story.is_ended(epoch):
            for number in range(network.LOGS):
                self.order(f"L{number}", f"pass L{number}")
            story.give_again(epoch)
        if not story.is_ended(epoch):
            raise RuntimeError(f"epoch {epoch} did not end: {dict(self.net.epochs.ways[epoch])}")
        self.ended = epoch

    def ask(self, name, client=7):
        log, first, second = self.ended % network.LOGS, self.ended % network.AUTHORITIES, (self.ended + 1) % network.AUTHORITIES
        data = bytes([9]) + struct.pack(">HB", client, len(name)) + name.encode() + struct.pack(">HH", first, second)
        self.net.post(f"L{log}", data.hex())
        self.net.settle()

    def roll(self, name):
        self.order(name, f"roll {name}")

    def tell(self):
        first = self.register("a.example")
        self.register("lost.example")
        self.end()
        self.register("thief.example")
        for name in PLAIN:
            self.register(name, policy="2 free 20 1000000 0,1,2 0,1,2")
        self.end()
        draft = self.begin("D0", f"update D0 {first} {POLICY}", "a.example")
        self.order("D0", f"handover D0 {draft}")
        self.order("D0", f"submit {draft}")
        self.roll("A1")
        self.end()
        self.recover("lost.example", "D1")
        self.recover("thief.example", "D2")
        self.end()
        self.roll("L2")
        self.object("thief.example", "D0")
        self.end()
        self.end(is_skipped=True)
        revoked = self.register("old.example", owner="D1")
        self.end()
        self.order("D1", f"revoke D1 {revoked} 0,1,2")
        self.drafts["D1"] += 1
        self.order("D1", f"submit {self.drafts['D1']}")
        self.end()
        self.recover("thief.example", "D2")
        self.end()
        for name in ("a.example", "lost.example", "shop.example"):
            self.ask(name)


def filled(folder, seed=1, twins=("L1",), kinds=(6, 3)):
    """Runs the story in a folder; the lines in the order in which they were sent, and the network, whose processes have ended."""
    asked = argparse.Namespace(program=built("arpki_party"), arpki=built("arpki"), keys=list(kinds), seed=seed, twins=list(twins), liars=[],
                               kills=0, every=4.0, epochs=100)
    network.LATE, network.TWICE, network.ALTERED = 0.001, 0, 0
    carrier = Pipes()
    try:
        net = Filling(asked, pathlib.Path(folder), carrier)
        story = Story(net)
        story.tell()
        net.end()
    finally:
        carrier.close()
    return net.lines, net, story
