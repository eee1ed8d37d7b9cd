"""Hostile inputs: sequences of units, with fields at their bounds, cut, joined and broken.

`make` gives an input and the name of its kind. The same random number generator gives the same
inputs.
"""
import pathlib
import struct
import sys

sys.path.insert(0, str(pathlib.Path(__file__).resolve().parent.parent / "tests"))

import samples  # noqa: E402  (it lies in another folder)

# Values for a length field, around the bounds of each type that sequences have.
BOUNDS = {
    4: [16, 19, 20, 21, 32],
    6: [20, 31, 32, 33],
    7: [8, 11, 12, 13, 23, 24, 25],
    9: [31, 32, 33, 65534, 65535, 65536, 65537, 2**32 - 1],
    11: [8, 11, *[12] * 6, 13, 15, 16, 65532, 65535, 65536, 65537, 65538, 2**32 - 1],
}

# Values for a length field of any type.
LENGTHS = [0, 7, 8, 11, 12, 13, 15, 16, 19, 20, 21, 23, 24, 31, 32, 33]
LENGTHS += [65531, 65532, 65533, 65535, 65536, 65537, 2**16 + 20, 2**31, 2**32 - 1]

# Values for a prefix length or a max length.
PREFIX_LENGTHS = [0, 1, 8, 23, 31, 32, 33, 64, 127, 128, 129, 160, 254, 255]

VERSIONS = [0, 1, 2, 3, 4, 255]
TYPES = [*range(13), 255]
WIDTHS = {4: 32, 6: 128}
MOST_KEY_INFO = 65503
MOST_PROVIDERS = 16380

# This many units don't fit into the program's buffers.
MANY_UNITS = 2000


def free(rng, bits):
    """Returns a number of this many bits: zero, all ones or any."""
    return rng.choice([0, 2**bits - 1, rng.getrandbits(bits)])


def flags(rng):
    """Flags whose upper bits are random and mean nothing."""
    return free(rng, 7) << 1 | rng.getrandbits(1)


def count(rng, most):
    """Returns a small number, or now and then one up to `most`."""
    small = [0, 1, 2, 3, 4, rng.randint(0, 40)]
    return rng.choice([most, most - 1, rng.randint(0, most)] if rng.random() < 0.004 else small)


def unit(version, kind, session, body):
    """Returns a unit whose length field fits its body."""
    return struct.pack(">BBHI", version, kind, session, 8 + len(body)) + body


def prefix(rng, kind):
    """Returns a prefix with random free bytes and host bits."""
    width = WIDTHS[kind]
    length = rng.choice([0, width, rng.randint(0, width), rng.randint(0, width)])
    max_length = rng.choice([length, width, rng.randint(length, width)])
    body = struct.pack(">BBBB", flags(rng), length, max_length, free(rng, 8))
    body += free(rng, width).to_bytes(width // 8, "big") + rng.randbytes(4)
    return unit(rng.choice(VERSIONS), kind, free(rng, 16), body)


def router_key(rng):
    """Returns a router key with a random free byte."""
    session = flags(rng) << 8 | free(rng, 8)
    return unit(rng.choice(VERSIONS), 9, session, rng.randbytes(24 + count(rng, MOST_KEY_INFO)))


def aspa(rng):
    """Returns an ASPA, often with repeated providers; a withdrawal may have none."""
    action = flags(rng)
    providers = max(action % 2, count(rng, MOST_PROVIDERS))
    pool = [bytes(4), bytes([255] * 4), rng.randbytes(4), rng.randbytes(4)]
    body = rng.randbytes(4) + b"".join(rng.choices(pool, k=providers))
    return unit(rng.choice(VERSIONS), 11, action << 8 | free(rng, 8), body)


def end_of_data(rng):
    """Returns an end of data of a known version."""
    version = rng.randint(0, 2)
    return unit(version, 7, free(rng, 16), rng.randbytes(4 if version == 0 else 16))


def payload_unit(rng):
    """Returns an acceptable payload unit of any type."""
    kind = rng.choice([4, 6, 9, 9, 11, 11])
    if kind in WIDTHS:
        return prefix(rng, kind)
    return router_key(rng) if kind == 9 else aspa(rng)


def other_unit(rng):
    """Returns a unit that no sequence may have: of another type, or an ASPA announced without
    providers."""
    kind = rng.choice([0, 1, 2, 3, 5, 8, 10, 11, 11, 11, 12, 255])
    if kind == 11:
        return unit(rng.choice(VERSIONS), kind, (flags(rng) | 1) << 8, rng.randbytes(4))
    body = b"" if kind in (2, 3, 8) else rng.randbytes(4)
    if kind == 10:
        inner = payload_unit(rng)
        body = struct.pack(">I", len(inner)) + inner + struct.pack(">I", 4) + b"text"
    return unit(rng.choice(VERSIONS), kind, free(rng, 16), body)


def sequence(rng):
    """Returns some payload units and an end of data."""
    units = [payload_unit(rng) for _ in range(rng.choice([0, 0, 1, 1, 2, 3, 6]))]
    return [*units, end_of_data(rng)]


def stray(rng):
    """Returns some bytes after the end of data, or none."""
    return rng.choice([b"", b"", rng.randbytes(rng.randint(1, 40)), b"".join(sequence(rng))])


def put(data, offset, piece):
    """Returns the bytes, overwritten with a piece at an offset."""
    return data[:offset] + piece + data[offset + len(piece) :]


def length_for(rng, kind):
    """Returns a length at a bound, mostly at one of this type."""
    return rng.choice(BOUNDS[kind] if kind in BOUNDS and rng.random() < 0.7 else LENGTHS)


def with_length(rng, old):
    """Returns the unit with another length field, and often cut or padded to that length."""
    near = len(old) + rng.choice([-4, -1, 1, 4])
    length = near if rng.random() < 0.1 else length_for(rng, old[1])
    if rng.random() < (0.7 if length < 100 else 0.1 if length < 70000 else 0):
        old = (old + rng.randbytes(max(0, length - len(old))))[: max(8, length)]
    return put(old, 4, struct.pack(">I", length))


def with_prefix_lengths(rng, old):
    """Returns the unit with other prefix lengths."""
    length = rng.choice(PREFIX_LENGTHS)
    near = [max(0, length - 1), length, min(255, length + 1)]
    return put(old, 9, bytes([length, rng.choice([*near, *PREFIX_LENGTHS])]))


def with_altered_field(rng, old):
    """Returns the unit with another value in one field."""
    fields = ["version", "type", "session", "length", "length", "length"]
    if old[1] in WIDTHS:
        fields = ["version", "type", "session", "length", *["prefix lengths"] * 6]
    field = rng.choice(fields)
    if field == "version":
        return put(old, 0, bytes([rng.choice(VERSIONS)]))
    if field == "type":
        return put(old, 1, bytes([rng.choice(TYPES)]))
    if field == "session":
        return put(old, 2, rng.randbytes(2))
    return with_length(rng, old) if field == "length" else with_prefix_lengths(rng, old)


def whole(rng):
    """Returns a sequence with random free bytes."""
    return b"".join(sequence(rng)) + stray(rng)


def altered(rng):
    """Returns a sequence in which one unit has other values in some fields."""
    units = sequence(rng)
    index = rng.choice([0, 0, rng.randrange(len(units)), len(units) - 1])
    for _ in range(rng.choice([1, 1, 2])):
        units[index] = with_altered_field(rng, units[index])
    return b"".join(units) + stray(rng)


def cut(rng):
    """Returns a sequence that ends early, at any byte."""
    data = b"".join(sequence(rng))
    return data[: rng.randrange(len(data))]


def joined(rng):
    """Returns units and parts of units in any order."""
    makers = rng.choices([payload_unit, end_of_data, other_unit], [8, 2, 1], k=rng.randint(1, 6))
    pieces = [maker(rng) for maker in makers]
    if rng.random() < 0.3:
        index = rng.randrange(len(pieces))
        pieces[index] = pieces[index][rng.randint(0, 12) :]
    return b"".join(pieces)


def headers(rng):
    """Returns a header with random fields, perhaps after some units, and bytes that may complete
    its unit."""
    kind = rng.choice(list(BOUNDS) if rng.random() < 0.8 else TYPES)
    fields = (rng.choice(VERSIONS), kind, free(rng, 16), length_for(rng, kind))
    units = [payload_unit(rng) for _ in range(rng.choice([0, 0, 1, 2]))]
    rest = rng.randbytes(rng.choice([0, 1, 4, 16, 24, 40, rng.randint(0, 80)]))
    return b"".join(units) + struct.pack(">BBHI", *fields) + rest


def broken(rng, data):
    """Returns the bytes with one bit flipped, or a byte more or less."""
    offset = rng.randrange(len(data))
    change = rng.choice(["bit", "more", "less"])
    if change == "bit":
        return put(data, offset, bytes([data[offset] ^ 1 << rng.randrange(8)]))
    if change == "more":
        return data[:offset] + bytes([free(rng, 8)]) + data[offset:]
    return data[:offset] + data[offset + 1 :]


def mutated(rng):
    """Returns a recording of a sequence with a few broken bits or bytes."""
    data = whole(rng)
    for _ in range(rng.choice([1, 1, 2, 4])):
        data = broken(rng, data) or b"\0"
    return data


def sampled(rng):
    """Returns samples in any order, perhaps with a broken bit or byte, and mostly an end of
    data."""
    units = [sample.bytes for sample in samples.SAMPLES]
    if rng.random() < 0.7:
        units = [unit for unit in units if unit[1:2] in (b"\4", b"\6", b"\x09", b"\x0b")]
    data = b"".join(rng.choices(units, k=rng.randint(1, 6)))
    if rng.random() < 0.5:
        data = broken(rng, data)
    return data + rng.choice([b"", *[samples.unit("end of data")] * 3])


def long(rng):
    """Returns a sequence longer than the buffers of the program, perhaps broken or cut."""
    units = [payload_unit(rng) for _ in range(rng.randint(MANY_UNITS // 2, MANY_UNITS))]
    data = b"".join(units) + end_of_data(rng)
    deed = rng.choice(["none", "broken", "cut"])
    if deed == "broken":
        return broken(rng, data)
    return data[: rng.randrange(len(data))] if deed == "cut" else data


# Each kind of input, and its share in a thousand inputs.
KINDS = {
    whole: 200,
    altered: 278,
    cut: 80,
    joined: 80,
    headers: 160,
    mutated: 150,
    sampled: 50,
    long: 2,
}


def make(rng):
    """Returns the name of a kind, and an input of this kind."""
    kind = rng.choices(list(KINDS), weights=list(KINDS.values()))[0]
    return kind.__name__, kind(rng)
