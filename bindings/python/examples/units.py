"""Prints the units of the sequence on standard input, and the length of its form."""
import sys

from rtr_wire import EndOfData, normalise, units

data = sys.stdin.buffer.read()
for unit in units(data):
    print(unit)
    if isinstance(unit, EndOfData):
        break
done = normalise(data)
print(f"payload units: {done.units}, bytes of their form: {len(done.form)}")
