"""Recordings, and the lines that `rtr_list --check` prints of them."""
import struct
import sys

from listed_units import (ASPA, CLEAN, END, IPV4, IPV4_GONE, IPV4_HOST, IPV6, KEY, OLDER, RESPONSE,
                          lines, split, unhex)


def timed(refresh, retry, expire):
    """Returns the end of data with these timings."""
    return END[:36] + struct.pack(">3I", refresh, retry, expire).hex(" ")


# The recordings in hex digits, each with its findings.
CHECKS = [
    ("", []),
    (CLEAN, []),
    (CLEAN * 3, []),
    (f"{ASPA} 02 07 12 34 00 00 00 18 de ad be ef 00 00 0e 10 00 00 02 58 00 00 1c 20", []),
    ("01 00 12 34 00 00 00 0c de ad be ef 01 01 12 34 00 00 00 0c de ad be ef", []),
    # Reserved bytes and bits.
    (f"{RESPONSE} 01 02 00 01 00 00 00 08", ["offset 8: reserved byte 3 is not zero"]),
    ("01 08 ff 00 00 00 00 08", ["offset 0: reserved byte 2 is not zero"]),
    (IPV4.replace("04 00 00", "04 01 02"),
     ["offset 0: reserved byte 2 is not zero", "offset 0: reserved byte 3 is not zero"]),
    (IPV4.replace("1a 00", "1a 01"), ["offset 0: reserved byte 11 is not zero"]),
    (IPV4.replace("14 01", "14 81"), ["offset 0: reserved bits of the flags are not zero"]),
    (IPV6.replace("20 01 17 1a 00", "20 03 17 1a 80"),
     ["offset 0: reserved bits of the flags are not zero",
      "offset 0: reserved byte 11 is not zero"]),
    (KEY.replace("09 01 00", "09 03 07"),
     ["offset 0: reserved bits of the flags are not zero",
      "offset 0: reserved byte 3 is not zero"]),
    (ASPA.replace("0b 01 00", "0b 01 ff"), ["offset 0: reserved byte 3 is not zero"]),
    # Prefixes.
    (IPV4_HOST, ["offset 0: host bits of the prefix are not zero"]),
    (IPV6.replace("0c 00", "0c 01"), ["offset 0: host bits of the prefix are not zero"]),
    (IPV6.replace("20 01 0c", "20 01 0d"), ["offset 0: host bits of the prefix are not zero"]),
    (IPV4.replace("17 1a", "21 21"), ["offset 0: prefix length is too large"]),
    (IPV6.replace("17 1a", "81 81"), ["offset 0: prefix length is too large"]),
    (IPV4.replace("17 1a", "17 21"), ["offset 0: max length is too large"]),
    (IPV4.replace("17 1a", "17 16"), ["offset 0: max length is below the prefix length"]),
    # Versions.
    (f"{RESPONSE} 00{IPV4[2:]} {END}",
     ["offset 8: version 0 differs from version 1 of the sequence"]),
    (f"{RESPONSE} 02{END[2:]}", ["offset 8: version 2 differs from version 1 of the sequence"]),
    (f"{IPV4} 00{IPV6[2:]}", ["offset 20: version 0 differs from version 1 of the sequence"]),
    (f"{CLEAN} 00 03 12 34 00 00 00 08 00{IPV4[2:]}", []),
    (f"00{KEY[2:]}", ["offset 0: version 0 has no unit of this type"]),
    (f"01{ASPA[2:]}", ["offset 0: version 1 has no unit of this type"]),
    # Sessions.
    (f"01 03 00 01 00 00 00 08 {END}",
     ["offset 8: session 4660 differs from session 1 of the answer"]),
    (f"01 03 00 01 00 00 00 08 02{END[2:]}",
     ["offset 8: version 2 differs from version 1 of the sequence",
      "offset 8: session 4660 differs from session 1 of the answer"]),
    # Payloads that are announced twice.
    (f"{IPV4} {IPV4}", ["offset 20: announced twice in the sequence"]),
    (f"{IPV4} {IPV4_GONE} {IPV4}", []),
    (f"{IPV4} {IPV4_HOST}",
     ["offset 20: host bits of the prefix are not zero",
      "offset 20: announced twice in the sequence"]),
    (f"{IPV4} {IPV4.replace('1a 00', '1b 00')}", []),
    (f"{IPV4} {END} {IPV4} {RESPONSE} {IPV4}", ["offset 64: answer without an end of data"]),
    (f"{KEY} {KEY}", ["offset 36: announced twice in the sequence"]),
    (f"{IPV4} {IPV4.replace('00 01 00 0f', '00 01 00 10')}", []),
    (f"{IPV4} {IPV4.replace('00 01 00 0f', '00 01 00 0e')}", []),
    (f"{IPV6} {IPV6.replace('00 01 00 0f', '00 01 00 10')}", []),
    (f"{KEY} {KEY.replace('00 01 00 0f', '00 01 00 10')}", []),
    (f"{ASPA} {ASPA.replace('00 01 00 0f', '00 01 00 10')}", []),
    (f"{KEY} {KEY.replace('15 16', '15 17')}", []),
    (f"{ASPA} {ASPA.replace('00 0d', '00 0c')}", ["offset 20: announced twice in the sequence"]),
    (f"{ASPA} 02 0b 00 00 00 00 00 0c 00 01 00 0f {ASPA}", []),
    # Providers out of order, and twice.
    (ASPA.replace("00 0e", "00 0c"), ["offset 0: providers are not in ascending order"]),
    (ASPA.replace("00 0e", "00 0d"), ["offset 0: providers are not in ascending order"]),
    # Withdrawals with providers. In draft 10's layout: AS65010 announced with two providers, and
    # withdrawn. Then units that are one byte off that layout.
    (OLDER, ["offset 0: withdrawn ASPA has providers; looks like the layout of an older draft"]),
    (OLDER.replace("01 00 00 02", "01 01 00 02"),
     ["offset 0: withdrawn ASPA has providers; looks like the layout of an older draft"]),
    ("02 0b 00 00 00 00 00 10 00 00 00 00 00 00 fd f2",
     ["offset 0: withdrawn ASPA has providers; looks like the layout of an older draft"]),
    (f"01{OLDER[2:]}",
     ["offset 0: version 1 has no unit of this type",
      "offset 0: withdrawn ASPA has providers; looks like the layout of an older draft"]),
    (OLDER.replace("00 01 00 0d", "00 00 fd f1"),
     ["offset 0: withdrawn ASPA has providers; looks like the layout of an older draft",
      "offset 0: providers are not in ascending order"]),
    (OLDER.replace("01 00 00 02", "02 00 00 02"), ["offset 0: withdrawn ASPA has providers"]),
    (OLDER.replace("01 00 00 02", "01 02 00 02"), ["offset 0: withdrawn ASPA has providers"]),
    (OLDER.replace("01 00 00 02", "01 00 00 03"), ["offset 0: withdrawn ASPA has providers"]),
    (OLDER.replace("0b 00 00", "0b 00 01"),
     ["offset 0: reserved byte 3 is not zero", "offset 0: withdrawn ASPA has providers"]),
    (OLDER.replace("0b 00 00", "0b 02 00"),
     ["offset 0: reserved bits of the flags are not zero",
      "offset 0: withdrawn ASPA has providers"]),
    (ASPA.replace("0b 01", "0b 00"), ["offset 0: withdrawn ASPA has providers"]),
    (OLDER.replace("0b 00", "0b 01"), []),
    # Times, on both sides of each bound (RFC 8210 section 6); version 0 has none.
    (timed(1, 1, 600), []),
    (timed(86400, 7200, 172800), []),
    (timed(0, 600, 7200), ["offset 0: the refresh time has to be 1 to 86400 seconds"]),
    (timed(86401, 600, 172800), ["offset 0: the refresh time has to be 1 to 86400 seconds"]),
    (timed(3600, 0, 7200), ["offset 0: the retry time has to be 1 to 7200 seconds"]),
    (timed(3600, 7201, 172800), ["offset 0: the retry time has to be 1 to 7200 seconds"]),
    (timed(1, 1, 599), ["offset 0: the expire time has to be 600 to 172800 seconds"]),
    (timed(3600, 600, 172801), ["offset 0: the expire time has to be 600 to 172800 seconds"]),
    (timed(7200, 600, 7200), ["offset 0: the expire time has to be longer than the refresh time"]),
    (timed(7199, 600, 7200), []),
    (timed(3600, 7200, 7200), ["offset 0: the expire time has to be longer than the retry time"]),
    (timed(3600, 7199, 7200), []),
    (f"02{timed(0, 0, 0)[2:]}", ["offset 0: the refresh time has to be 1 to 86400 seconds"]),
    ("00 07 12 34 00 00 00 0c de ad be ef", []),
    (f"01 03 00 01 00 00 00 08 02{timed(3600, 600, 10)[2:]}",
     ["offset 8: version 2 differs from version 1 of the sequence",
      "offset 8: the expire time has to be 600 to 172800 seconds",
      "offset 8: session 4660 differs from session 1 of the answer"]),
    # Units one after the other, in two sequences.
    (f"{IPV4_HOST} {KEY.replace('09 01 00', '09 03 07')} {END} 01 02 00 01 00 00 00 08",
     ["offset 0: host bits of the prefix are not zero",
      "offset 20: reserved bits of the flags are not zero",
      "offset 20: reserved byte 3 is not zero",
      "offset 80: reserved byte 3 is not zero"]),
    # Error reports.
    ("01 0a 00 00 00 00 00 12 00 00 00 03 00 00 00 00 00 00",
     ["offset 0: lengths inside the error report do not fit"]),
    ("01 0a 00 00 00 00 00 12 00 00 00 00 00 00 00 01 41 41",
     ["offset 0: lengths inside the error report do not fit"]),
    ("01 0a 00 00 00 00 00 12 00 00 00 00 00 00 00 02 ff fe",
     ["offset 0: text of the error report is not UTF-8"]),
    ("01 0a 00 00 00 00 00 12 00 00 00 02 01 0a 00 00 00 00",
     ["offset 0: error report about an error report"]),
]


def counted(data):
    """Returns the last line of `--check`, after these whole units."""
    units = [unit for _, unit in split(data)]
    answers = sum(unit[1] == 7 for unit in units)
    return f"rtr_list: looked at units {len(units)}, answers {answers}\n"


def missing(data):
    """Returns the finding of `--check` when the input ends after these whole units."""
    kinds = [unit[1] for _, unit in split(data)]
    marks = [kind for kind in kinds if kind in (3, 4, 6, 7, 9, 11)]
    if not marks and {1, 2} & set(kinds):
        return []
    if not marks:
        return [f"offset {len(data)}: recording without an end of data"]
    return [] if marks[-1] == 7 else [f"offset {len(data)}: answer without an end of data"]


def print_findings():
    """Prints the recordings of CHECKS, each with its lines."""
    for data, findings in CHECKS:
        units = unhex(data)
        text = lines(findings + missing(units)).encode()
        sys.stdout.buffer.write(struct.pack("<2I", len(units), len(text)) + units + text)
