"""How many compressions of SHA-256 a string, an LM-OTS or LMS key, a signature and its judgement need, by RFC 8554 and
docs/FORMATS.md. Nothing here asks the program that is measured."""
import functools
import hashlib

HEIGHTS = {5: 5, 6: 10, 7: 15}  # by the LMS type
WIDTHS = {1: 1, 2: 2, 3: 4, 4: 8}  # of a digit in bits, by the LM-OTS type
CHAINS = {1: 265, 2: 133, 3: 67, 4: 34}
LANES = 4  # chains that are stepped side by side
SHIFTS = {1: 7, 2: 6, 3: 4, 4: 0}  # of the checksum
HEAD = 16 + 4 + 2  # the bytes that each text of LMS begins with


def sha256(*parts):
    return hashlib.sha256(b"".join(parts)).digest()


def blocks(length):
    """The blocks of a message of so many bytes: a byte 0x80 and eight of length go behind it."""
    return (length + 9 + 63) // 64


STEP = blocks(HEAD + 1 + 32)
LEAF_NODE = blocks(HEAD + 32)
INNER_NODE = blocks(HEAD + 64)
ENTRY = NODE = blocks(1 + 64)


def one_time_key(ots):
    """The hash of the ends of all chains."""
    return blocks(HEAD + CHAINS[ots] * 32)


def message_hash(message):
    """The hash of a message, behind the randomizer."""
    return blocks(HEAD + 32 + len(message))


def digits(ots, digest):
    """The digits of a message's hash and of its checksum, by which the chains are cut."""
    width, last = WIDTHS[ots], 2 ** WIDTHS[ots] - 1
    cut = lambda text: [int.from_bytes(text, "big") >> 8 * len(text) - width * (i + 1) & last
                        for i in range(8 * len(text) // width)]
    checksum = sum(last - digit for digit in cut(digest)) << SHIFTS[ots]
    return cut(digest + checksum.to_bytes(2, "big"))[:CHAINS[ots]]


def signed_digits(ots, key, message, signature):
    """The digits of what was signed: I and the leaf's number, then the randomizer and the message are hashed."""
    return digits(ots, sha256(key[8:24], signature[:4], b"\x81\x81", signature[8:40], message))


def types_of(key):
    """The LMS and the LM-OTS type of a public key."""
    return int.from_bytes(key[:4], "big"), int.from_bytes(key[4:8], "big")


def needed_to_verify(key, message, signature):
    """The compressions of judging a valid signature."""
    lms, ots = types_of(key)
    steps = sum(2 ** WIDTHS[ots] - 1 - digit for digit in signed_digits(ots, key, message, signature))
    return message_hash(message) + steps * STEP + one_time_key(ots) + LEAF_NODE + HEIGHTS[lms] * INNER_NODE


def needed_to_make(lms, ots):
    """The compressions of making a key: of each leaf the beginnings of all chains, their steps, the one-time
    key and the node; the inner nodes; and I."""
    leaves = 2 ** HEIGHTS[lms]
    leaf = CHAINS[ots] * 2 ** WIDTHS[ots] * STEP + one_time_key(ots) + LEAF_NODE
    return leaves * leaf + (leaves - 1) * INNER_NODE + blocks(1 + 32)


def needed_to_sign(key, message, signature):
    """The compressions of a signature: the key of the generator of C, the message's hash, and of each chain
    its beginning and the steps up to its digit. The nodes are kept, and take none."""
    _, ots = types_of(key)
    steps = sum(1 + digit for digit in signed_digits(ots, key, message, signature))
    return blocks(1 + 32) + message_hash(message) + steps * STEP


def dropped(chains):
    """The steps that lanes take for nothing, where the longest chains go first, and the next that waits takes the lane of
    one that is at its end."""
    lanes = [0] * LANES
    for steps in sorted(chains, reverse=True):
        lanes[lanes.index(min(lanes))] += steps
    return LANES * max(lanes) - sum(lanes)


def dropped_to_sign(key, message, signature):
    _, ots = types_of(key)
    return -CHAINS[ots] % LANES + dropped(signed_digits(ots, key, message, signature))


def dropped_to_verify(key, message, signature):
    _, ots = types_of(key)
    return dropped([2 ** WIDTHS[ots] - 1 - digit for digit in signed_digits(ots, key, message, signature)])


@functools.lru_cache(maxsize=None)
def spread_of_digits(ots):
    """(the least, the mean, the greatest) that the digits of a hash and of its checksum are together, over all hashes.

    How many hashes have which sum of digits is read off a power: of the number that has a 1 at the place of each digit.
    """
    width, last = WIDTHS[ots], 2 ** WIDTHS[ots] - 1
    count, place = 256 // width, 33  # bytes: there are 2^256 hashes
    power = sum(1 << 8 * place * digit for digit in range(last + 1)) ** count
    ways = power.to_bytes(place * (count * last + 1), "little")
    sums, mean = [], 0
    for total in range(count * last + 1):
        checksum = count * last - total << SHIFTS[ots]
        sums.append(total + sum(checksum >> 16 - width * (i + 1) & last for i in range(CHAINS[ots] - count)))
        mean += sums[-1] * int.from_bytes(ways[place * total:place * (total + 1)], "little")
    return min(sums), mean / 2 ** 256, max(sums)
