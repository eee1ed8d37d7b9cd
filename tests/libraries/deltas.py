#!/usr/bin/env python3
"""Data and changes, and the expected results of the calls on them, computed by RFC 8210 and
docs/PROTOCOL.md without the library: data is a Python set of payloads.

usage: deltas.py [SEED] > CASES    for the tests of the bindings

Each case is

- one byte each: the call, of CALLS, and the status, the side and the detail of its answer;
- eight bytes each, little-endian: the offset of the answer, the lengths of the first input, the
  second input and the output, which is empty unless the status is 0, and how many places the index
  has, if the call has one;
- the first input, the second input and the output.

A call that sorts changes has one input.
"""
import random
import struct
import sys

import sessions
from sessions import ASPA, END, IPV4, IPV6, KEY, OK, UNIT_TYPE, UNIT_VERSION

CALLS = {"delta": 0, "apply": 1, "order": 2, "in_order": 3, "between": 4}
NOT_CANONICAL, OTHER_SESSION, DUPLICATE, UNKNOWN, UNDECIDED, NO_INDEX = range(12, 18)
ANNOUNCE, WITHDRAW = 1, 0
WIDTHS = {IPV4: 4, IPV6: 16}
RECOMMENDED = [3600, 600, 7200]  # RFC 8210 section 6: refresh, retry, expire


# ---- payloads: (IPV4 or IPV6, address, prefix length, max length, ASN), (KEY, identifier, ASN, key
# info) and (ASPA, customer, providers), of which tuples compare in the order of payloads

def name(payload):
    """Returns the key of a payload, which decides its order: of an ASPA the customer."""
    return payload[:2] if payload[0] == ASPA else payload


def form(version, action, payload):
    """Returns the unit that announces or withdraws the payload, with all free bits zero."""
    kind = payload[0]
    if kind in WIDTHS:
        _, address, length, most, asn = payload
        body = bytes([action, length, most, 0]) + address + struct.pack(">I", asn)
        return sessions.unit(version, kind, 0, body)
    if kind == KEY:
        _, identifier, asn, info = payload
        return sessions.unit(version, kind, action << 8, identifier + struct.pack(">I", asn) + info)
    _, customer, providers = payload
    named = providers if action == ANNOUNCE else ()
    return sessions.unit(version, kind, action << 8, struct.pack(f">{1 + len(named)}I", customer,
                                                                 *named))


def end_form(end):
    """Returns the end of data of (version, session, serial, timings)."""
    version, session, serial, timings = end
    body = struct.pack(">I", serial)
    if version > 0:
        body += struct.pack(">III", *timings)
    return sessions.unit(version, END, session, body)


def stray(rng, unit):
    """Returns the same unit with random free bits: the bytes mean the same."""
    unit = bytearray(unit)
    kind = unit[1]
    if kind in WIDTHS:
        width, length = 8 * WIDTHS[kind], unit[9]
        unit[2:4] = rng.randbytes(2)
        unit[8] |= rng.getrandbits(8) & 0xfe
        unit[11] = rng.getrandbits(8)
        host = rng.getrandbits(width) & ((1 << (width - length)) - 1)
        address = int.from_bytes(unit[12:12 + WIDTHS[kind]], "big") | host
        unit[12:12 + WIDTHS[kind]] = address.to_bytes(WIDTHS[kind], "big")
    elif kind in (KEY, ASPA):
        unit[2] |= rng.getrandbits(8) & 0xfe
        unit[3] = rng.getrandbits(8)
    return bytes(unit)


def units_of(rng, version, changes):
    """Returns the units of the changes, some of them with free bits set or with providers of a
    withdrawal."""
    units = []
    for action, payload in changes:
        unit = form(version, action, payload)
        if payload[0] == ASPA and action == WITHDRAW and rng.random() < 0.3:
            unit = form(version, ANNOUNCE, payload[:2] + ((1, 2),))
            unit = unit[:2] + b"\0" + unit[3:]
        units.append(stray(rng, unit) if rng.random() < 0.3 else unit)
    return units


def in_order(changes):
    """Returns announcements and then withdrawals, each in the order of payloads."""
    return sorted(changes, key=lambda change: (1 - change[0], name(change[1])))


def data_units(rng, data, version):
    """Returns the units of data in canonical form."""
    return units_of(rng, version, in_order((ANNOUNCE, payload) for payload in data))


def written(changes, end):
    """Returns changes in canonical form, and their end of data."""
    units = [form(end[0], action, payload) for action, payload in in_order(changes)]
    return b"".join(units) + end_form(end)


def delta(old, new):
    """Returns the changes from old data to new."""
    names = {name(payload) for payload in new}
    return ([(ANNOUNCE, payload) for payload in new if payload not in old]
            + [(WITHDRAW, payload) for payload in old if name(payload) not in names])


def applied(data, changes):
    """Applies the changes to the data; returns the result, or the status of the first that is
    refused, and how many changes come before it."""
    held = {name(payload): payload for payload in data}
    for count, (action, payload) in enumerate(changes):
        there = name(payload) in held
        if action == ANNOUNCE and there and payload[0] != ASPA:
            return DUPLICATE, count
        if action == WITHDRAW and not there:
            return UNKNOWN, count
        if action == ANNOUNCE:
            held[name(payload)] = payload
        else:
            del held[name(payload)]
    return frozenset(held.values()), None


def come_to(changes):
    """Returns the net effect of changes, applied one after the other; or a status, and how many
    changes come before the one at fault. Each key has two possible states at first, present and
    absent; the net effect is the same from all allowed ones."""
    kept = []
    for of in sorted({name(payload) for _, payload in changes}):
        indexes = [index for index, (_, payload) in enumerate(changes) if name(payload) == of]
        actions = [changes[index][0] for index in indexes]
        for index, before, action in zip(indexes[1:], actions, actions[1:]):
            if action == before and (action == WITHDRAW or of[0] != ASPA):
                return DUPLICATE if action == ANNOUNCE else UNKNOWN, index
        if of[0] == ASPA and actions[0] == ANNOUNCE and actions[-1] == WITHDRAW:
            return UNDECIDED, indexes[-1]
        if of[0] == ASPA or actions[0] == actions[-1]:
            kept.append(changes[indexes[-1]])
    return kept, None


# ---- the faults of an input

def meant(unit):
    """Returns the payload of a unit, as a tuple."""
    shown, address, identifier, _ = sessions.fields(unit)
    if unit[1] in WIDTHS:
        return (unit[1], address[:WIDTHS[unit[1]]], shown["prefix_length"], shown["max_length"],
                shown["asn"])
    if unit[1] == KEY:
        return KEY, identifier, shown["asn"], unit[32:]
    return ASPA, shown["customer"], struct.unpack(f">{len(unit) // 4 - 3}I", unit[12:])


def unit_fault(rest):
    """Returns the status and the detail of the unit at the start of the bytes, in a sequence."""
    if len(rest) >= 8 and rest[1] not in (IPV4, IPV6, KEY, ASPA, END):
        return UNIT_TYPE, rest[1]
    shown = sessions.answer(rest)[0]
    return shown.get("status", OK), shown.get("detail", 0)


def may_follow(last, unit, call, announced):
    """Reports whether a unit, or an end of data, may follow the last unit in the input of the
    call."""
    if last is not None and last[0] != unit[0]:
        return False
    if unit[1] == END or call in ("order", "in_order"):
        return True
    action, payload = change_of(unit)
    if action == WITHDRAW and (call == "data" or name(payload) in announced):
        return False
    before, other = change_of(last) if last is not None else (ANNOUNCE, None)
    if action == before:
        return other is None or name(other) < name(payload)
    return action == WITHDRAW


def change_of(unit):
    """Returns the action and the payload of a unit."""
    return unit[8 if unit[1] in WIDTHS else 2] % 2, meant(unit)


def read(data, call):
    """Returns the status, the offset and the detail of the first fault of an input, or None; its
    units and its end of data."""
    offset, units, announced = 0, [], set()
    while True:
        status, detail = unit_fault(data[offset:])
        if status != OK:
            return (status, offset, detail), units
        unit = data[offset:offset + sessions.number(data[offset + 4:offset + 8])]
        if not may_follow(units[-1] if units else None, unit, call, announced):
            return (NOT_CANONICAL, offset, 0), units
        units.append(unit)
        if unit[1] == END:
            return None, units
        if change_of(unit)[0] == ANNOUNCE:
            announced.add(name(meant(unit)))
        offset += len(unit)


# The form of a call's second input.
READ_AS = {"delta": "data", "apply": "changes", "in_order": "in_order"}


def of_two(call, first, second, output, places=1):
    """Returns the case of two inputs, with this output unless they are refused, and an index with
    this many spare entries, if the call has one."""
    sides = read(first, "data"), read(second, READ_AS[call])
    index = max(0, len(sides[1][1]) - 1 + places) if call == "in_order" else 0

    def refused(status, side=0, detail=0, offset=0):
        return call, status, side, detail, offset, index, first, second, b""

    for side, (wrong, _) in enumerate(sides, 1):
        if wrong:
            status, offset, detail = wrong
            return refused(status, side, detail, offset)
    old_end, new_end = sides[0][1][-1], sides[1][1][-1]
    if old_end[0] != new_end[0]:
        return refused(UNIT_VERSION, detail=new_end[0])
    if old_end[2:4] != new_end[2:4]:
        return refused(OTHER_SESSION)
    if call == "in_order" and places < 0:
        return refused(NO_INDEX)
    if call != "delta":
        units = sides[1][1]
        refusal, count = applied([meant(unit) for unit in sides[0][1][:-1]],
                                 [change_of(unit) for unit in units[:-1]])
        if count is not None:
            return refused(refusal, 2, offset=sum(map(len, units[:count])))
    assert output is not None
    return call, OK, 0, 0, 0, index, first, second, output


def of_one(data, output, places=1):
    """Returns the case of an input whose changes are sorted, with this output unless they are
    refused, and an index with this many spare entries."""
    wrong, units = read(data, "order")
    index = max(0, len(units) - 1 + places)

    def refused(status, side=0, detail=0, offset=0):
        return "order", status, side, detail, offset, index, data, b"", b""

    if wrong:
        status, offset, detail = wrong
        return refused(status, 1, detail, offset)
    if places < 0:
        return refused(NO_INDEX)
    status, count = come_to([change_of(unit) for unit in units[:-1]])
    if count is not None:
        return refused(status, 1, offset=sum(map(len, units[:count])))
    assert output is not None
    return "order", OK, 0, 0, 0, index, data, b"", output


def of_between(first, second, output):
    """Returns the case of two data of any versions and sessions, either of which may be empty, with
    this output unless they are refused."""
    for side, data in ((1, first), (2, second)):
        wrong = read(data, "data")[0] if data or (side == 2 and not first) else None
        if wrong:
            status, offset, detail = wrong
            return "between", status, side, detail, offset, 0, first, second, b""
    assert output is not None
    return "between", OK, 0, 0, 0, 0, first, second, output


# ---- inputs

def any_payload(rng):
    """Returns one of few payloads, so that data have some in common."""
    kind = rng.choice([IPV4, IPV4, IPV6, KEY, ASPA])
    asn = rng.choice([0, 1, 64496, 64497, 2**32 - 1])
    if kind in WIDTHS:
        width = 8 * WIDTHS[kind]
        length = rng.choice([0, 1, 8, 23, 24, 31, width])
        bits = rng.choice([0, 1, 0xc0000200, 2**width - 1]) >> (width - length) << (width - length)
        bits &= 2**width - 1
        most = rng.choice([length, min(length + 1, width), width])
        return kind, bits.to_bytes(WIDTHS[kind], "big"), length, most, asn
    if kind == KEY:
        identifier = bytes(19) + bytes([rng.choice([0, 1, 255])])
        return kind, identifier, asn, bytes(rng.choice([0, 1, 91])) + rng.choice([b"", b"\1"])
    count = rng.choice([1, 2, 5])
    return kind, asn, tuple(rng.choice([0, 64500, 2**32 - 1]) for _ in range(count))


def any_data(rng, most):
    """Returns a set of payloads, with at most one ASPA per customer."""
    named = {name(payload): payload
             for payload in (any_payload(rng) for _ in range(rng.randint(0, most)))}
    return frozenset(named.values())


def changed(rng, data):
    """Returns data that have much in common with these."""
    kept = {name(payload): payload for payload in data if rng.random() < 0.7}
    kept.update((name(payload), payload) for payload in any_data(rng, 6))
    return frozenset(kept.values())


def any_end(rng, version, session):
    return version, session, rng.getrandbits(32), [rng.getrandbits(32) for _ in range(3)]


def spoiled(rng, units):
    """Returns the units with one fault, of a random kind."""
    units, index = list(units), rng.randrange(len(units))
    unit = bytearray(units[index])
    how = rng.randrange(9)
    if how == 0:
        units[index] = bytes(unit[:rng.randrange(len(unit))])
        return units[:index + 1]
    if how == 1:
        unit[1] = rng.choice([0, 1, 2, 3, 5, 8, 10, 12, 255])
    elif how == 2:
        unit[0] = rng.choice([0, 1, 2, 3, 255])
    elif how == 3:
        unit[4:8] = struct.pack(">I", rng.choice([0, 7, 8, 12, 20, 33, 65535, 65536, 2**32 - 1]))
    elif how == 4 and unit[1] in WIDTHS:
        unit[9], unit[10] = rng.choice([(33, 33), (129, 129), (8, 7), (8, 130)])
    elif how == 5:
        unit[8 if unit[1] in WIDTHS else 2] ^= 1
    elif how == 6:
        units.insert(index, units[index])
    elif how == 7:
        other = rng.randrange(len(units))
        units[index], units[other] = units[other], units[index]
        return units
    else:
        return units[:index]
    units[index] = bytes(unit)
    return units


def spoiled_pairs(rng, call, units):
    """Yields cases of two inputs, one or both of which have a fault."""
    first, second = (b"".join(side) for side in units)
    bad = b"".join(spoiled(rng, units[0])), b"".join(spoiled(rng, units[1]))
    for first_input, second_input in ((bad[0], second), (first, bad[1]), bad):
        if read(first_input, "data")[0] or read(second_input, READ_AS[call])[0]:
            yield of_two(call, first_input, second_input, None)


def delta_cases(rng):
    """Yields pairs of data, and pairs with faults in one or both."""
    for _ in range(700):
        version, session = rng.choice([0, 1, 2]), rng.getrandbits(16)
        old, most = any_data(rng, 12), rng.choice([0, 3, 12])
        new = rng.choice([old, changed(rng, old), any_data(rng, most)])
        ends = any_end(rng, version, session), any_end(rng, version, session)
        units = [data_units(rng, data, version) + [end_form(end)]
                 for data, end in zip((old, new), ends)]
        first, second = (b"".join(side) for side in units)
        yield of_two("delta", first + rng.choice([b"", rng.randbytes(9)]),
                     second + rng.choice([b"", rng.randbytes(30)]),
                     written(delta(old, new), ends[1]))
        other = any_end(rng, rng.choice([version, (version + 1) % 3]), rng.choice([session, 7]))
        moved = b"".join(data_units(rng, new, other[0])) + end_form(other)
        yield of_two("delta", first, moved, written(delta(old, new), other))
        yield from spoiled_pairs(rng, "delta", units)


def between_cases(rng):
    """Yields pairs of data of any versions and sessions, data and nothing, and pairs with faults in
    one or both."""
    yield of_between(b"", b"", None)
    for _ in range(700):
        old, most = any_data(rng, 12), rng.choice([0, 3, 12])
        new = rng.choice([old, changed(rng, old), any_data(rng, most)])
        session = rng.getrandbits(16)
        ends = [any_end(rng, rng.choice([0, 1, 2]), rng.choice([session, 7])) for _ in range(2)]
        units = [data_units(rng, data, end[0]) + [end_form(end)]
                 for data, end in zip((old, new), ends)]
        first, second = (b"".join(side) for side in units)
        version, session, serial, timings = ends[1]
        last = max(ends[0][0], version), session, serial, timings if version else RECOMMENDED
        yield of_between(first + rng.choice([b"", rng.randbytes(9)]),
                         second + rng.choice([b"", rng.randbytes(30)]),
                         written(delta(old, new), last))
        yield of_between(first, b"", written(delta(old, ()), ends[0]))
        yield of_between(b"", second, written(delta((), new), ends[1]))
        bad = [b"".join(spoiled(rng, side)) for side in units]
        for inputs in ((bad[0], second), (first, bad[1]), bad, (bad[0], b""), (b"", bad[1])):
            if any(side and read(side, "data")[0] for side in inputs):
                yield of_between(*inputs, None)


def any_changes(rng, data):
    """Returns changes, one per key, most of them allowed by the data."""
    named = {name(payload): payload for payload in data}
    changes = {}
    for payload in list(data) + list(any_data(rng, 8)):
        there, wrong = name(payload) in named, rng.random() < 0.05
        action = WITHDRAW if there != wrong else ANNOUNCE
        if payload[0] == ASPA and there and rng.random() < 0.5:
            action, payload = ANNOUNCE, payload[:2] + ((rng.choice([1, 2]),),)
        if rng.random() < 0.5:
            changes[name(payload)] = action, payload
    return list(changes.values())


def with_ends(rng, version, session, data, changes):
    """Returns the units of data and of changes, each with an end of data, and the data after the
    changes, or None if they are refused."""
    ends = any_end(rng, version, session), any_end(rng, version, session)
    units = (data_units(rng, data, version) + [end_form(ends[0])],
             units_of(rng, version, changes) + [end_form(ends[1])])
    result, refused = applied(data, changes)
    return units, announced(result if refused is None else None, ends[1])


def apply_cases(rng):
    """Yields data and changes, also with faults in one or both."""
    for _ in range(700):
        version, session = rng.choice([0, 1, 2]), rng.getrandbits(16)
        data = any_data(rng, 12)
        changes = in_order(any_changes(rng, data))
        units, output = with_ends(rng, version, session, data, changes)
        first, second = (b"".join(side) for side in units)
        yield of_two("apply", first + rng.choice([b"", rng.randbytes(9)]),
                     second + rng.choice([b"", rng.randbytes(30)]), output)
        other = any_end(rng, (version + 1) % 3, rng.choice([session, 7]))
        moved = b"".join(units_of(rng, other[0], changes)) + end_form(other)
        yield of_two("apply", first, moved, None)
        yield of_two("apply", first, b"".join(units[1][:-1]) + end_form(
            any_end(rng, version, session ^ 1)), None)
        yield from spoiled_pairs(rng, "apply", units)


def any_sequence(rng, data):
    """Returns changes in any order, some of the same key, and most of them allowed by the data."""
    changes, held = [], {name(payload): payload for payload in data}
    for _ in range(rng.choice([0, 3, 12])):
        payload = rng.choice([any_payload(rng), *data])
        there = name(payload) in held
        action = rng.choice([ANNOUNCE, WITHDRAW]) if rng.random() < 0.1 else (
            WITHDRAW if there else ANNOUNCE)
        if payload[0] == ASPA and rng.random() < 0.4:
            action = ANNOUNCE
        held.pop(name(payload), None)
        if action == ANNOUNCE:
            held[name(payload)] = payload
        changes.append((action, payload))
    return changes


def in_order_cases(rng):
    """Yields data, and changes in any order, also with faults in one or both."""
    for _ in range(900):
        version, session = rng.choice([0, 1, 2]), rng.getrandbits(16)
        data = any_data(rng, 10)
        changes = any_sequence(rng, data)
        units, output = with_ends(rng, version, session, data, changes)
        first, second = (b"".join(side) for side in units)
        first += rng.choice([b"", rng.randbytes(9)])
        yield of_two("in_order", first, second + rng.choice([b"", rng.randbytes(30)]), output,
                     rng.choice([0, 1, 3]))
        if changes:
            yield of_two("in_order", first, second, None, -1)
        other = any_end(rng, (version + 1) % 3, rng.choice([session, 7]))
        moved = b"".join(units_of(rng, other[0], changes)) + end_form(other)
        yield of_two("in_order", first, moved, None)
        yield from spoiled_pairs(rng, "in_order", units)


def order_cases(rng):
    """Yields changes in any order, some of the same key, also with faults."""
    for _ in range(900):
        version, data = rng.choice([0, 1, 2]), any_data(rng, 10)
        changes = any_sequence(rng, data)
        end = any_end(rng, version, rng.getrandbits(16))
        units = units_of(rng, version, changes) + [end_form(end)]
        kept, refused = come_to(changes)
        output = None if refused is not None else written(kept, end)
        if output is not None and applied(data, changes)[1] is None:
            assert applied(data, in_order(kept)) == applied(data, changes)
        after = rng.choice([b"", rng.randbytes(9)])
        yield of_one(b"".join(units) + after, output, rng.choice([0, 1, 3]))
        yield of_one(b"".join(units) + after, output, -1) if changes else of_one(b"", None)
        bad = b"".join(spoiled(rng, units))
        if read(bad, "order")[0]:
            yield of_one(bad, None)


def announced(payloads, end):
    """Returns the canonical form of the data that these payloads make, or None without payloads."""
    return None if payloads is None else written([(ANNOUNCE, each) for each in payloads], end)


def large_cases(rng):
    """Yields data with the longest units, and with thousands of units."""
    end = any_end(rng, 2, 1)
    long_key = (KEY, rng.randbytes(20), 1, rng.randbytes(65503))
    long_aspa = (ASPA, 7, tuple(rng.getrandbits(32) for _ in range(16380)))
    many = frozenset((IPV4, bytes([10, i >> 8, i & 255, 0]), 24, 24, 64496) for i in range(3000))
    few = frozenset([long_key, long_aspa, (ASPA, 7 << 8, (1,))])
    for old, new in ((few, frozenset()), (frozenset(), few), (many, frozenset(list(many)[::2])),
                     (few, frozenset([(ASPA, 7, long_aspa[2][:-1] + (3,)), long_key]))):
        sides = [b"".join(data_units(rng, data, 2)) + end_form(end) for data in (old, new)]
        changes = in_order(delta(old, new))
        bytes_of = b"".join(units_of(rng, 2, changes)) + end_form(end)
        yield of_two("delta", *sides, written(changes, end))
        yield of_two("apply", sides[0], bytes_of, announced(new, end))
        mixed = b"".join(units_of(rng, 2, rng.sample(changes, len(changes)))) + end_form(end)
        yield of_one(mixed, written(changes, end))
        yield of_two("in_order", sides[0], mixed, announced(new, end))
    # The shortest units, so that an index needs the most entries for its input's length.
    gone = [(WITHDRAW, (ASPA, customer, ())) for customer in range(3000)]
    mixed = b"".join(form(2, *change) for change in rng.sample(gone, len(gone))) + end_form(end)
    yield of_one(mixed, written(gone, end), 0)
    data = announced([(ASPA, customer, (1,)) for customer in range(3000)], end)
    yield of_two("in_order", data, mixed, end_form(end), 0)


def main():
    if len(sys.argv) > 2:
        sys.exit(__doc__)
    rng = random.Random(sys.argv[1] if len(sys.argv) > 1 else "1")
    for cases in (delta_cases, apply_cases, order_cases, in_order_cases, large_cases,
                  between_cases):
        for call, status, side, detail, offset, places, first, second, output in cases(rng):
            sys.stdout.buffer.write(
                struct.pack("<4B5Q", CALLS[call], status, side, detail, offset, len(first),
                            len(second), len(output), places) + first + second + output)


if __name__ == "__main__":
    main()
