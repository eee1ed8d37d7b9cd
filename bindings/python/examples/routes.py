"""Prints whether three routes are valid by the recording on standard input, and why one isn't."""
import sys

from rtr_wire import Fault, Validity, load_data

ROUTES = [("192.0.2.0/24", 65551), ("192.0.2.0/27", 65551), ("203.0.113.0/24", 65551)]

try:
    data, has_cut = load_data(sys.stdin.buffer.read())
except Fault as fault:
    sys.exit(f"routes: {fault}")
if has_cut:
    print("routes: left out: an answer without an end of data", file=sys.stderr)
for prefix, asn in ROUTES:
    validity = data.validate(prefix, asn)
    print(f"{prefix} AS{asn} {validity.name}")
    if validity is Validity.INVALID:
        for vrp, mismatch in data.covering(prefix, asn):
            print(f"  {vrp.prefix} up to {vrp.max_length}, AS{vrp.asn}: {mismatch.name}")
