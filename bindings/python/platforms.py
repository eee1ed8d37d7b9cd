"""The requirements of a shared library, read from its file, and the platform tags of its wheel (PEP
600, PEP 656)."""
import pathlib
import re
import struct

# The machines that have tags, by their ELF number.
MACHINES = {62: "x86_64", 183: "aarch64"}

# The library and the symbol versions of glibc, the glibc of manylinux2014, and the names of its
# tag: the second is for versions of pip that don't know the first.
GLIBC = "libc.so.6"
VERSION = re.compile(r"GLIBC_(\d+)\.(\d+)(?:\.\d+)?")
OLDEST = (2, 17)
OLDEST_NAMES = ("manylinux_2_17", "manylinux2014")

# The version of musl with which wheels that need no C library are tested.
MUSL = "musllinux_1_2"

# The functions that every C library has: a wheel's library may use those of its process.
EVERYWHERE = {"memcpy", "memmove", "memset"}

# Kinds of sections, tags, and a binding of symbols (System V ABI, Linux Standard Base).
DYNAMIC, DYNSYM, VERNEED = 6, 11, 0x6ffffffe
NEEDED, WEAK = 1, 2


class Unfit(Exception):
    """No tag fits a shared library."""


class Needs:
    """What a shared library for Linux on a 64-bit machine needs: the machine, libraries, symbol
    versions, and undefined symbols that aren't weak."""

    def __init__(self, library):
        self.file = pathlib.Path(library).read_bytes()
        if self.file[:6] != b"\x7fELF\x02\x01":
            raise Unfit(f"{library} isn't a shared library of a 64-bit little-endian machine")
        self.machine = MACHINES.get(self.number(18, "H"))
        if self.machine is None:
            raise Unfit(f"{library} is for another machine than {' and '.join(MACHINES.values())}")
        start, (size, count) = self.number(40, "Q"), struct.unpack_from("<2H", self.file, 58)
        # The kind, offset, size and linked section of each section.
        self.sections = [struct.unpack_from("<4xI16xQQI", self.file, start + size * index)
                         for index in range(count)]
        self.libraries = sorted(self.libraries_needed())
        self.versions = sorted(self.versions_needed())
        self.symbols = sorted(self.symbols_needed())

    def number(self, at, kind):
        return struct.unpack_from(f"<{kind}", self.file, at)[0]

    def text(self, names, at):
        """Returns the text at an offset of a table of names, a section given by its index."""
        begins = self.sections[names][1] + at
        return self.file[begins:self.file.index(b"\0", begins)].decode()

    def of_kind(self, kind):
        """Returns the offset, the size and the table of names of each section of a kind."""
        return [rest for other, *rest in self.sections if other == kind]

    def libraries_needed(self):
        for start, size, names in self.of_kind(DYNAMIC):
            for at in range(start, start + size, 16):
                if self.number(at, "Q") == NEEDED:
                    yield self.text(names, self.number(at + 8, "Q"))

    def versions_needed(self):
        for start, size, names in self.of_kind(VERNEED):
            step = start
            while step:
                count, _, inner, following = struct.unpack_from("<2xHIII", self.file, step)
                at = step + inner
                for _ in range(count):
                    yield self.text(names, self.number(at + 8, "I"))
                    at += self.number(at + 12, "I")
                step = step + following if following else 0

    def symbols_needed(self):
        for start, size, names in self.of_kind(DYNSYM):
            for at in range(start + 24, start + size, 24):
                name, kind, section = struct.unpack_from("<IBxH", self.file, at)
                if section == 0 and kind >> 4 != WEAK:
                    yield self.text(names, name)


def tag(library):
    """Returns the platforms of a wheel with this shared library, joined by dots as in the wheel's
    name: manylinux with the newest glibc of its symbol versions, or manylinux2014; and musllinux if
    it only needs functions that every C library has. Raises `Unfit` if it needs another library, or
    a function that none has."""
    needs = Needs(library)
    others = set(needs.libraries) - {GLIBC}
    if others:
        raise Unfit(f"{library} needs {', '.join(sorted(others))}, which no platform has")
    if not needs.libraries and set(needs.symbols) - EVERYWHERE:
        missing = ", ".join(sorted(set(needs.symbols) - EVERYWHERE))
        raise Unfit(f"{library} needs {missing}, and no library that has it")
    unknown = [version for version in needs.versions if not VERSION.fullmatch(version)]
    if unknown:
        raise Unfit(f"{library} needs {', '.join(unknown)}, which isn't a version of glibc")
    newest = max((tuple(map(int, VERSION.fullmatch(version).groups()))
                  for version in needs.versions), default=OLDEST)
    names = list(OLDEST_NAMES) if newest <= OLDEST else [f"manylinux_{newest[0]}_{newest[1]}"]
    names += [] if needs.libraries else [MUSL]
    return ".".join(f"{name}_{needs.machine}" for name in names)
