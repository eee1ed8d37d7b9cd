"""The summaries that `rtr_list --summary` prints, computed without the library."""
import collections
import struct

from listed_units import (ASPA, CLEAN, END, IPV4, IPV4_GONE, IPV6, KEY, RESPONSE, split)

# The summary of CLEAN.
SUMMARY = """\
complete:             yes
bytes:                120
units:                5
serial notify:        0
serial query:         0
reset query:          0
cache response:       1
IPv4 prefix announce: 1
IPv4 prefix withdraw: 0
IPv6 prefix announce: 1
IPv6 prefix withdraw: 0
router key announce:  1
router key withdraw:  0
ASPA announce:        0
ASPA withdraw:        0
end of data:          1
cache reset:          0
error report:         0
answer:               session 4660 serial 3735928559 announces 3 withdraws 0
IPv4 prefix length:   /23 1
IPv6 prefix length:   /23 1
largest AS:           AS65551 2
"""

# The summaries of answers: the units, and the lines.
OTHER_RESPONSE = "01 03 00 07 00 00 00 08"
OTHER_END = f"01 07 00 07 00 00 00 18 00 00 00 01 {END[36:]}"
KEY_GONE = KEY.replace("09 01", "09 00")
ASPA_GONE = "02 0b 00 00 00 00 00 0c 00 01 00 0f"
ANSWERS = [
    ("", ["none"]),
    (f"{RESPONSE} {IPV4} {IPV6}", ["none"]),
    (END, ["session 4660 serial 3735928559 announces 0 withdraws 0"]),
    # Several answers of two sessions; the last is cut off.
    (f"{CLEAN} {RESPONSE} {IPV4_GONE} {KEY_GONE} {ASPA} {END} {OTHER_RESPONSE} {OTHER_END} "
     f"{OTHER_RESPONSE} {IPV4} {ASPA_GONE} {OTHER_END} {OTHER_RESPONSE} {IPV4}",
     ["session 4660 serial 3735928559 announces 3 withdraws 0",
      "session 4660 serial 3735928559 announces 1 withdraws 2",
      "session 7 serial 1 announces 0 withdraws 0",
      "session 7 serial 1 announces 1 withdraws 1"]),
    # A cache response cuts an answer off; the last answer has none, and other units inside.
    (f"{RESPONSE} {IPV4} {IPV6} {KEY_GONE} {OTHER_RESPONSE} {IPV4_GONE} {OTHER_END} "
     f"{IPV6} 01 00 12 34 00 00 00 0c de ad be ef {KEY} 01 08 00 00 00 00 00 08 {KEY_GONE} {END}",
     ["session 7 serial 1 announces 0 withdraws 1",
      "session 4660 serial 3735928559 announces 2 withdraws 1"]),
]

# ASes with how many prefixes each announces, in some order of them, and the lines of the largest:
# AS7 and AS4294967295 aren't among the ten.
ASES = [(4294967295, 2), (7, 1), (300, 5), (12, 2), (0, 2), (65551, 9), (4200000000, 5), (11, 2),
        (2147483648, 5), (64496, 2), (256, 2), (1, 2)]
LARGEST = """\
largest AS:           AS65551 9
largest AS:           AS300 5
largest AS:           AS2147483648 5
largest AS:           AS4200000000 5
largest AS:           AS0 2
largest AS:           AS1 2
largest AS:           AS11 2
largest AS:           AS12 2
largest AS:           AS256 2
largest AS:           AS64496 2
"""

# The lines of a summary that count units: the name, and the types.
SUMMED = [
    ("serial notify", 0),
    ("serial query", 1),
    ("reset query", 2),
    ("cache response", 3),
    ("IPv4 prefix", 4),
    ("IPv6 prefix", 6),
    ("router key", 9),
    ("ASPA", 11),
    ("end of data", 7),
    ("cache reset", 8),
    ("error report", 10),
]


def announces(unit):
    """Reports whether the unit announces a payload."""
    flags = unit[8] if unit[1] in (4, 6) else unit[2]
    return unit[1] in (4, 6, 9, 11) and flags & 1 == 1


def answers(units):
    """Yields the expected summary line of each answer in these units."""
    bounds = [-1] + [index for index, unit in enumerate(units) if unit[1] in (3, 7)]
    for before, index in zip(bounds, bounds[1:]):
        if units[index][1] == 7:
            session, serial = struct.unpack(">HxxxxI", units[index][2:12])
            flags = [announces(unit) for unit in units[before + 1 : index]
                     if unit[1] in (4, 6, 9, 11)]
            counts = f"announces {flags.count(True)} withdraws {flags.count(False)}"
            yield f"session {session} serial {serial} {counts}"


def summary(data, complete="yes"):
    """Returns the expected summary of these whole units."""
    units = [unit for _, unit in split(data)]
    kinds = collections.Counter((unit[1], announces(unit)) for unit in units)
    rows = [("complete", complete), ("bytes", len(data)), ("units", len(units))]
    for name, kind in SUMMED:
        if kind in (4, 6, 9, 11):
            rows.append((f"{name} announce", kinds[kind, True]))
            rows.append((f"{name} withdraw", kinds[kind, False]))
        else:
            rows.append((name, kinds[kind, False]))
    rows += [("answer", text) for text in list(answers(units)) or ["none"]]
    for name, kind in (("IPv4", 4), ("IPv6", 6)):
        found = [unit[9] for unit in units if unit[1] == kind and announces(unit)]
        rows += [(f"{name} prefix length", f"/{length} {count}")
                 for length, count in sorted(collections.Counter(found).items())]
    found = collections.Counter(unit[-4:] for unit in units
                                if unit[1] in (4, 6) and announces(unit))
    rows += [("largest AS", f"AS{int.from_bytes(asn, 'big')} {count}")
             for asn, count in sorted(found.items(), key=lambda row: (-row[1], row[0]))[:10]]
    return "".join(f"{name + ':':22}{value}\n" for name, value in rows)
