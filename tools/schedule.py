"""The schedule of a network (docs/FORMATS.md, "The schedule"): when each epoch is to begin by the clock. Times are seconds since
1970, as `time.time()` has them."""
import collections

# The lines of the file, in their order, with the least number of each.
LINES = (("zero", 0), ("length", 1000), ("grace", 100), ("age", 1))
# An age below this is advised against: a confirmation is an epoch old when the next one ends late, and two that are hurried by
# dishonest logs may lie ahead of it.
LEAST_AGE = 4
# By how many epochs a confirmation may be ahead of the clock: two dishonest logs may end theirs early.
MOST_AHEAD = 2


class NoSchedule(Exception):
    """The text is no schedule; the exception says which line is not."""


class Schedule(collections.namedtuple("Schedule", "zero length grace age")):
    """When epoch 0 begins, how long an epoch is, how long a log whose turn it is may be silent, and how old a confirmation may be
    that a client takes."""

    def begins(self, epoch):
        """When an epoch is to begin: it is proposed then, and not before."""
        return self.zero + epoch * self.length

    def epoch_at(self, when):
        """The clock's epoch: the newest that has begun."""
        return int((when - self.zero) // self.length)

    def next_begins(self, when):
        """When the clock's next epoch begins."""
        return self.begins(self.epoch_at(when) + 1)

    @property
    def window(self):
        """How long behind its time a log may still propose. With clocks a quarter of the grace off, and messages that take less
        than that, its proposal comes before anybody has passed."""
        return self.grace / 4

    @property
    def hearing(self):
        """How long a driver waits for what others have of an epoch, before its log passes."""
        return self.grace / 4

    @property
    def again(self):
        """Seconds until what was sent is given again."""
        return self.grace / 8

    def now(self, when, confirmed):
        """What a client takes for `now`, where a confirmation is of this epoch: the clock's epoch, or the confirmation's where
        that is one or two later. One number serves the checks on epoch, age and expiry."""
        clock = self.epoch_at(when)
        return confirmed if clock < confirmed <= clock + MOST_AHEAD else clock

    def advice(self):
        """What is advised against, in lines for people."""
        if self.age < LEAST_AGE:
            yield f"an age of {self.age} is small: take {LEAST_AGE} or more, and the same in policies"


def number_in(line, at, word, least):
    """The number of a line `<word> <number>`, written without a sign and without leading zeros."""
    first, _, digits = line.partition(" ")
    if first != word or not digits.isascii() or not digits.isdigit() or str(int(digits)) != digits or int(digits) >= 1 << 53:
        raise NoSchedule(f"line {at} is not '{word} <number>'")
    if int(digits) < least:
        raise NoSchedule(f"line {at}: {word} is below {least}")
    return int(digits)


def read(text):
    """The schedule that a text is: its four lines, in their order, with times in milliseconds."""
    lines = text.split("\n")
    if len(lines) != len(LINES) + 1 or lines[-1]:
        raise NoSchedule(f"it has not {len(LINES)} lines, each with its end")
    zero, length, grace, age = (number_in(line, at, *of) for at, (line, of) in enumerate(zip(lines, LINES), 1))
    if grace * 5 > length * 4:
        raise NoSchedule("the grace and a quarter of it are longer than an epoch")
    return Schedule(zero / 1000, length / 1000, grace / 1000, age)


def text_of(zero, length, grace, age):
    """The text of a schedule, from seconds."""
    numbers = (round(zero * 1000), round(length * 1000), round(grace * 1000), age)
    return "".join(f"{word} {number}\n" for (word, _), number in zip(LINES, numbers))
