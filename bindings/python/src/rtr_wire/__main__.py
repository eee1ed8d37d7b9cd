"""The commands of the package.

usage: python -m rtr_wire fetch HOST:PORT [--version 0|1|2] [--tls] [--ca FILE] [--output FILE]
       python -m rtr_wire list [--json] FILE
       python -m rtr_wire check FILE
       python -m rtr_wire validate FILE PREFIX ASN

fetch asks a cache for all of its data, and writes them in canonical form to standard output or a
file. --tls uses TLS, and --ca, which implies it, names a file of CA certificates to trust instead
of the system's.
list prints a line for each unit of a recording, as rtr_list does; with --json, an object. check
prints the protocol's rules that the units of a recording break, as rtr_list --check does. validate
reports whether a route is valid by the data of a recording (RFC 6811), and which VRPs cover it,
each with the reason why it doesn't match; it ignores an answer that is cut off, and reports that.
For the FILE - it reads standard input.

Exit status: 0 for success; 1 if the data didn't come or are invalid, or a unit is refused or breaks
a rule; 2 for wrong arguments.
"""
from __future__ import annotations

import argparse
import errno
import ipaddress
import os
import pathlib
import ssl
import sys
from typing import Any, List, Optional, TextIO, Tuple

from . import Client, Fault, SessionError, Settings, check, load_data, unit_lines, unit_objects
from ._rtr import HIGHEST_VERSION, VERSION


def _address(text: str) -> Tuple[str, int]:
    """Splits HOST:PORT; the host may be in brackets."""
    host, _, port = text.rpartition(":")
    host = host.strip("[]")
    if not host or not port.isdecimal() or int(port) >= 2**16:
        raise argparse.ArgumentTypeError(f"{text!r} isn't HOST:PORT")
    return host, int(port)


def _file(name: str) -> str:
    """Checks the name of a file: an empty one would be no option, or the folder."""
    if not name:
        raise argparse.ArgumentTypeError("it is empty")
    return name


def _prefix(text: str) -> str:
    """Checks a prefix, which has no host bits."""
    try:
        ipaddress.ip_network(text)
    except ValueError as error:
        raise argparse.ArgumentTypeError(str(error)) from None
    return text


def _asn(text: str) -> int:
    """Parses the number of an AS, with or without AS before it."""
    digits = text[2:] if text[:2].upper() == "AS" else text
    if not digits.isdecimal() or int(digits) >= 1 << 32:
        raise argparse.ArgumentTypeError(f"{text!r} isn't an AS number")
    return int(digits)


class _Once(argparse.Action):
    """Stores the argument of an option, and refuses a second one, which would replace it."""

    def __call__(self, parser: argparse.ArgumentParser, namespace: argparse.Namespace,
                 values: Any, option_string: Optional[str] = None) -> None:
        given = vars(namespace).setdefault("given", set())
        if self.dest in given:
            raise argparse.ArgumentError(self, "it is given twice")
        given.add(self.dest)
        setattr(namespace, self.dest, values)


def _arguments(words: Optional[List[str]]) -> argparse.Namespace:
    parser = argparse.ArgumentParser(
        prog="python -m rtr_wire", description=__doc__, allow_abbrev=False,
        formatter_class=argparse.RawDescriptionHelpFormatter)
    parser.add_argument("--version", action="version", version=f"rtr_wire {VERSION}")
    commands = parser.add_subparsers(dest="command", required=True)
    fetch = commands.add_parser("fetch", allow_abbrev=False)
    fetch.add_argument("address", type=_address, metavar="HOST:PORT")
    fetch.add_argument("--version", type=int, choices=range(HIGHEST_VERSION + 1), default=Settings().version,
                       action=_Once)
    fetch.add_argument("--tls", action="store_true")
    fetch.add_argument("--ca", metavar="FILE", type=_file, action=_Once)
    fetch.add_argument("--output", metavar="FILE", type=_file, action=_Once)
    listed = commands.add_parser("list", allow_abbrev=False)
    listed.add_argument("--json", action="store_true")
    listed.add_argument("file", metavar="FILE", type=_file)
    checked = commands.add_parser("check", allow_abbrev=False)
    checked.add_argument("file", metavar="FILE", type=_file)
    validate = commands.add_parser("validate", allow_abbrev=False)
    validate.add_argument("file", metavar="FILE", type=_file)
    validate.add_argument("prefix", metavar="PREFIX", type=_prefix)
    validate.add_argument("asn", metavar="ASN", type=_asn)
    arguments = parser.parse_args(words)
    if arguments.command == "fetch":
        arguments.tls = arguments.tls or arguments.ca is not None
        if arguments.output is None and sys.stdout and sys.stdout.isatty():
            fetch.error("data aren't text for a terminal: name a file by --output")
    return arguments


def _fetch(arguments: argparse.Namespace) -> None:
    """Writes the data of a cache."""
    context = ssl.create_default_context(cafile=arguments.ca) if arguments.tls else None
    host, port = arguments.address
    data = Client(host, port, Settings(version=arguments.version), ssl=context).fetch()
    if arguments.output is None:
        _output().buffer.write(bytes(data))
        _output().flush()
    else:
        pathlib.Path(arguments.output).write_bytes(bytes(data))
    payloads = "payload" if len(data) == 1 else "payloads"
    print(f"session {data.session} serial {data.serial} version {data.version}: "
          f"{len(data)} {payloads}", file=sys.stderr)


def _output() -> TextIO:
    """Returns standard output. Raises OSError if it is closed."""
    if not sys.stdout:
        raise OSError(errno.EBADF, "standard output is closed")
    return sys.stdout


def _input(name: str) -> bytes:
    """Reads a file, or standard input."""
    return sys.stdin.buffer.read() if name == "-" else pathlib.Path(name).read_bytes()


def _list(arguments: argparse.Namespace) -> None:
    """Prints the line, or the JSON object, of each unit."""
    listing = unit_objects if arguments.json else unit_lines
    for line in listing(_input(arguments.file)):
        print(line)


def _check(arguments: argparse.Namespace) -> int:
    """Prints the broken rules, and returns the exit status."""
    status = 0
    for finding in check(_input(arguments.file)):
        status = 1
        print(finding)
    return status


def _validate(arguments: argparse.Namespace) -> None:
    """Prints the validity of a route, and the VRPs that cover it."""
    data, has_cut = load_data(_input(arguments.file))
    if has_cut:
        print("rtr_wire: left out: an answer without an end of data", file=sys.stderr)
    validity = _words(data.validate(arguments.prefix, arguments.asn).name)
    print(f"{arguments.prefix} AS{arguments.asn} {validity}")
    for vrp, mismatch in data.covering(arguments.prefix, arguments.asn):
        print(f"  {vrp.prefix}-{vrp.max_length} AS{vrp.asn}: {_words(mismatch.name)}")


def _words(name: str) -> str:
    """Returns the name of an enum member as words."""
    return name.lower().replace("_", " ")


def _run(arguments: argparse.Namespace) -> int:
    """Runs a command, and returns the exit status."""
    if arguments.command == "fetch":
        _fetch(arguments)
    elif arguments.command == "list":
        _list(arguments)
    elif arguments.command == "check":
        return _check(arguments)
    else:
        _validate(arguments)
    return 0


def main(words: Optional[List[str]] = None) -> int:
    """Runs the command in these words, or in the command line, and returns the exit status."""
    arguments = _arguments(words)
    try:
        try:
            return _run(arguments)
        finally:
            if arguments.command != "fetch" or arguments.output is None:
                _output().flush()
    except (OSError, Fault, SessionError, ValueError) as error:
        print(f"rtr_wire: {error}", file=sys.stderr)
        return 1


def _program() -> int:
    """Runs the command line, and returns the exit status."""
    status = main()
    if status:
        # Python writes what standard output didn't take again at its exit: into nothing.
        os.dup2(os.open(os.devnull, os.O_WRONLY), 1)
    return status


if __name__ == "__main__":
    sys.exit(_program())
