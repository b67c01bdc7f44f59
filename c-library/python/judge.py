#!/usr/bin/env python3
"""Judges an input of `arpki check` through libarpki.so.1, by ctypes, and writes what `arpki check` writes. What is accepted
it also pins, and judges by its pin.

    LD_LIBRARY_PATH=c-library/out python3 c-library/python/judge.py examples/check/accepted.in
"""
import ctypes
import sys

KEY = ctypes.c_uint8 * 56
DIGEST = ctypes.c_uint8 * 32
ACCEPTED, ABSENT, REFUSED, LEARNT, KNOWN = 0, 1, 2, 0, 1


class Entry(ctypes.Structure):
    _fields_ = [("generation", ctypes.c_uint32), ("number", ctypes.c_uint16), ("role", ctypes.c_uint16), ("key", KEY)]


class Keys(ctypes.Structure):
    _fields_ = [("logs", ctypes.POINTER(KEY)), ("logs_len", ctypes.c_size_t),
                ("authorities", ctypes.POINTER(KEY)), ("authorities_len", ctypes.c_size_t),
                ("learnt", ctypes.POINTER(Entry)), ("learnt_len", ctypes.c_size_t), ("quorum", ctypes.c_size_t)]


class Question(ctypes.Structure):
    _fields_ = [("name", ctypes.c_char_p), ("name_len", ctypes.c_size_t),
                ("confirmation", ctypes.c_char_p), ("confirmation_len", ctypes.c_size_t),
                ("epoch", ctypes.c_uint64), ("age", ctypes.c_uint64)]


class Answer(ctypes.Structure):
    _fields_ = [("epoch", ctypes.c_uint64), ("serial", ctypes.c_uint64), ("subject", KEY), ("certificate", DIGEST),
                ("root", DIGEST), ("outcome", ctypes.c_uint32), ("check", ctypes.c_uint32)]


class Followed(ctypes.Structure):
    _fields_ = [("answer", Answer), ("first_len", ctypes.c_size_t), ("links", ctypes.c_size_t), ("keep", ctypes.c_uint32),
                ("first", ctypes.c_uint8 * 412)]


class Lesson(ctypes.Structure):
    _fields_ = [("entry", Entry), ("outcome", ctypes.c_uint32), ("check", ctypes.c_uint32)]


LIBRARY = ctypes.CDLL("libarpki.so.1")
LIBRARY.arpki_abi.restype = ctypes.c_uint32
LIBRARY.arpki_judge.restype = ctypes.c_uint32
LIBRARY.arpki_judge.argtypes = [ctypes.POINTER(Keys), ctypes.POINTER(Question), ctypes.POINTER(Answer)]
LIBRARY.arpki_follow.restype = ctypes.c_uint32
LIBRARY.arpki_follow.argtypes = [ctypes.POINTER(Keys), ctypes.POINTER(Question), ctypes.c_char_p, ctypes.c_size_t,
                                 ctypes.c_char_p, ctypes.c_size_t, ctypes.POINTER(Followed)]
LIBRARY.arpki_learn.restype = ctypes.c_uint32
LIBRARY.arpki_learn.argtypes = [ctypes.POINTER(Keys), ctypes.c_char_p, ctypes.c_size_t, ctypes.POINTER(Lesson)]


class Client:
    """What a client trusts: the texts of keys, how many logs are a quorum, and what was learnt so far."""

    def __init__(self, logs, authorities, quorum):
        self.logs, self.authorities, self.quorum, self.learnt = logs, authorities, quorum, []

    def _keys(self):
        """The same for a call. No pointer is null: an array of one serves where there is nothing."""
        logs = (KEY * len(self.logs))(*map(KEY.from_buffer_copy, self.logs))
        authorities = (KEY * len(self.authorities))(*map(KEY.from_buffer_copy, self.authorities))
        learnt = (Entry * max(1, len(self.learnt)))(*self.learnt)
        return Keys(logs, len(logs), authorities, len(authorities), learnt, len(self.learnt), self.quorum)

    def learn(self, note):
        """Whether the bytes of a RollNote taught a key, or one that was known."""
        lesson = Lesson()
        outcome = LIBRARY.arpki_learn(self._keys(), note, len(note), lesson)
        if outcome == LEARNT:
            self.learnt.append(lesson.entry)
        return outcome in (LEARNT, KNOWN)

    def judge(self, name, epoch, age, confirmation):
        """The answer for the bytes of a confirmation of a name, in an epoch, at most `age` epochs old."""
        answer = Answer()
        LIBRARY.arpki_judge(self._keys(), Question(name, len(name), confirmation, len(confirmation), epoch, age), answer)
        return answer

    def follow(self, name, epoch, age, confirmation, pin, links):
        """The answer by the pin of the name, no bytes where it has none, and by the bytes of links; and the pin to store."""
        followed = Followed()
        LIBRARY.arpki_follow(self._keys(), Question(name, len(name), confirmation, len(confirmation), epoch, age),
                             pin, len(pin), links, len(links), followed)
        more = {1: bytes(followed.first)[:followed.first_len], 2: links}.get(followed.keep, b"")
        return followed.answer, pin + more


def main():
    fields = {"key": [], "roll": []}
    with open(sys.argv[1], encoding="ascii") as lines:
        for line in lines:
            word, _, value = line.strip().partition(" ")
            fields[word] = fields[word] + [value] if word in ("key", "roll") else value
    logs, quorum = map(int, fields["logs"].split())
    keys = list(map(bytes.fromhex, fields["key"]))
    client = Client(keys[:logs], keys[logs:], quorum)
    if LIBRARY.arpki_abi() != 1 or not all(client.learn(bytes.fromhex(note)) for note in fields["roll"]):
        return 1
    name = fields["name"]
    asked = name.encode(), int(fields["now"]), int(fields["age"]), bytes.fromhex(fields["confirmation"])
    answer = client.judge(*asked)
    _, pin = client.follow(*asked, b"", b"")
    if bytes(client.follow(*asked, pin, b"")[0]) != bytes(answer):
        return 1
    root = bytes(answer.root).hex()
    if answer.outcome == ACCEPTED:
        print(f"accepted {name} serial {answer.serial} epoch {answer.epoch} root {root}"
              f" certificate {bytes(answer.certificate).hex()}")
    elif answer.outcome == ABSENT:
        print(f"absent {name} epoch {answer.epoch} root {root}")
    else:
        print(f"refused {answer.check}" if answer.outcome == REFUSED else f"outcome {answer.outcome} {answer.check}")
    return 0


if __name__ == "__main__":
    sys.exit(main())
