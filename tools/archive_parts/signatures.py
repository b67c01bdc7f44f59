"""Whether a signature of LMS and LM-OTS (RFC 8554) with SHA-256 and n = m = 32 is valid: what an archive asks before it keeps a message.

Nothing that is promised rests on this: what is shown as agreed a mirror took, and who contradicts himself `arpki audit` says."""
import hashlib

HEIGHTS = {5: 5, 6: 10, 7: 15, 8: 20, 9: 25}
# Of each LM-OTS type: w, p and ls.
TYPES = {1: (1, 265, 7), 2: (2, 133, 6), 3: (4, 67, 4), 4: (8, 34, 0)}


def sha256(*parts):
    return hashlib.sha256(b"".join(parts)).digest()


def number(data, at, width=4):
    return int.from_bytes(data[at:at + width], "big")


def digits(hashed, width, count, shift):
    """The digits of a hash and of its checksum, each of `width` bits."""
    most, each = (1 << width) - 1, 8 // width
    found = [byte >> (8 - width - width * at) & most for byte in hashed for at in range(each)]
    total = sum(most - one for one in found) << shift & 0xFFFF
    found += [byte >> (8 - width - width * at) & most for byte in total.to_bytes(2, "big") for at in range(each)]
    return found[:count]


def is_valid(key, text, signature):
    """Whether a signature of a text is valid under a public key of 56 bytes."""
    lms, ots = number(key, 0), number(key, 4)
    if len(key) != 56 or lms not in HEIGHTS or ots not in TYPES:
        return False
    height, (width, count, shift) = HEIGHTS[lms], TYPES[ots]
    behind = 8 + 32 * (1 + count)
    if len(signature) != behind + 4 + 32 * height or number(signature, 4) != ots or number(signature, behind) != lms:
        return False
    leaf, name = number(signature, 0), key[8:24]
    if leaf >> height:
        return False
    front = name + signature[:4]
    most, hashed, ends = (1 << width) - 1, sha256(front, b"\x81\x81", signature[8:40], text), []
    steps = [bytes([step]) for step in range(most)]
    for at, digit in enumerate(digits(hashed, width, count, shift)):
        value, prefix = signature[40 + 32 * at:72 + 32 * at], front + at.to_bytes(2, "big")
        for step in range(digit, most):
            value = hashlib.sha256(prefix + steps[step] + value).digest()
        ends.append(value)
    node = (1 << height) + leaf
    value = sha256(name, node.to_bytes(4, "big"), b"\x82\x82", sha256(front, b"\x80\x80", *ends))
    for at in range(behind + 4, len(signature), 32):
        other = signature[at:at + 32]
        pair = (other, value) if node & 1 else (value, other)
        node //= 2
        value = sha256(name, node.to_bytes(4, "big"), b"\x83\x83", *pair)
    return value == key[24:]
