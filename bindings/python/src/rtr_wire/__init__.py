"""Units of the RPKI to Router protocol (RFC 6810, RFC 8210), data and their changes, clients of a
cache, and a cache. All rules of the protocol are in a library whose functions are proved to meet
their contracts; this package calls it by ctypes, and is tested. It requires Python 3.9 or newer,
and nothing else: the wheels for Linux on x86-64 and aarch64 have the library, elsewhere pip
compiles it.

Units
    Each of the eleven kinds is a frozen dataclass: `IPv4Prefix` and `IPv6Prefix`, which are both a
    `Prefix`, `RouterKey`, `Aspa`, `EndOfData`, `ErrorReport`, `SerialNotify`, `SerialQuery`,
    `ResetQuery`, `CacheResponse` and `CacheReset`. `units(source)` reads them from bytes or a
    binary file, `bytes(unit)` encodes a unit, and units are equal if they mean the same.

        for unit in units(open("recording", "rb")):
            print(unit)

    `unit_lines`, `unit_objects` and `check` give the output of the program rtr_list for a
    recording.

Data
    `Data` are the data of a cache or a router: an immutable collection of payloads. `load_data`
    loads a recording or a list, `Data.from_bytes` a sequence, and `Data.from_vrps` the VRPs of a
    validator; `apply` applies the changes of an answer, `delta` returns `Changes`, `validate` and
    `covering` are origin validation (RFC 6811).

        data.validate("192.0.2.0/24", 65551) is Validity.VALID

Clients
    `Client` follows a cache over sockets, `AsyncClient` does so for asyncio, and `Router` is the
    session that both use, without sockets or a clock. `follow` follows several caches by
    preference, and `aio.follow` does so for asyncio.

        for update in Client("cache.example", 3323):
            print(update.data, list(update.changes))

Servers
    `Server` is a cache for asyncio: it serves data, notifies routers of new ones, sends the changes
    from earlier data, and saves what a restart needs.

        server = Server()
        server.update(data)
        await server.serve("::", 3323)

Faults
    An input that the library refuses raises a `Fault`, a ValueError, with a class for each status.
    It has the offset and the bytes of the unit, and the error report that the peer is owed. Any
    other reason for which a session ends is a `SessionError`, or a `ServerError` of a server.

Several threads may use units, data, changes and clients at once, but an iterator or a router only
one at a time.

`python -m rtr_wire --help` shows the commands of the package.

Copyright (c) 2026, the authors of Fishreef; copyright (c) 2018, NLnet Labs. BSD 3-Clause License.
"""
from __future__ import annotations

import importlib
from typing import TYPE_CHECKING, Any

from ._rtr import VERSION as __version__
from ._rtr import (WARNING_SERIAL_0, Cause, ErrorCode, Kind, Mismatch, PrefixRule, Reason, Rule,
                   SerialOrder, Side, Status, StoresStatus, TimeRule, Validity)
from .checking import Finding, check
from .client import Client
from .data import Changes, Covering, Data, Loaded, load_data
from .faults import (DuplicateError, EmptyProvidersError, Fault, NoFormError, NoIndexError,
                     NoRoomError, NotCanonicalError, OldSerialError, OtherSessionError,
                     OtherVersionError, PrefixError, ReportInsideError, ResetInsideError,
                     ShortError, TooLongError, TooManyError, UndecidedError, UnitLengthError,
                     UnitTypeError, UnitVersionError, UnknownError)
from .following import follow
from .group import NoPayloads
from .lines import change_json, change_line, unit_lines, unit_objects
from .reader import Normalised, Units, normalise, same_meaning, units
from .router import Close, Connect, Failed, NoData, Router, SessionError, Settings, Update
from .serving import BehindError, ServerError, ServerLimits
from .store import DamagedError, NotRestoredError, OtherFileError, UnsyncedError, retry_after
from .units import (AnyUnit, Aspa, CacheReset, CacheResponse, EndOfData, ErrorReport, IPv4Prefix,
                    IPv6Prefix, Payload, Prefix, ResetQuery, RouterKey, SerialNotify, SerialQuery,
                    Unit, Vrp, serial_order, version_has)

if TYPE_CHECKING:
    from .aio import AsyncClient
    from .server import Server, ServerClosed, UpdateError
else:
    _OF_ASYNCIO = {"AsyncClient": "aio", "Server": "server", "ServerClosed": "server",
                   "UpdateError": "server"}

    def __getattr__(name: str) -> Any:
        """Imports what uses asyncio on first use, since importing asyncio is slow."""
        if name not in _OF_ASYNCIO:
            raise AttributeError(f"module {__name__!r} has no attribute {name!r}")
        module = importlib.import_module(f".{_OF_ASYNCIO[name]}", __name__)
        globals()[name] = getattr(module, name)
        return globals()[name]

__all__ = [
    "AnyUnit", "Aspa", "AsyncClient", "BehindError", "CacheReset", "CacheResponse", "Cause",
    "Changes", "Client", "Close", "Connect", "Covering", "DamagedError", "Data",
    "DuplicateError", "EmptyProvidersError", "EndOfData", "ErrorCode", "ErrorReport", "Failed",
    "Fault", "Finding", "IPv4Prefix", "IPv6Prefix", "Kind", "Loaded", "Mismatch", "NoData",
    "NoFormError", "NoIndexError", "NoPayloads", "NoRoomError", "Normalised",
    "NotCanonicalError", "NotRestoredError", "OldSerialError", "OtherFileError",
    "OtherSessionError", "OtherVersionError", "Payload", "Prefix", "PrefixError", "PrefixRule",
    "Reason", "ReportInsideError", "ResetInsideError", "ResetQuery", "Router", "RouterKey",
    "Rule", "SerialNotify", "SerialOrder", "SerialQuery", "Server", "ServerClosed",
    "ServerError", "ServerLimits", "SessionError", "Settings", "ShortError", "Side", "Status",
    "StoresStatus", "TimeRule", "TooLongError", "TooManyError", "UndecidedError", "Unit",
    "UnitLengthError", "UnitTypeError", "UnitVersionError", "Units", "UnknownError",
    "UnsyncedError", "Update", "UpdateError", "Validity", "Vrp", "WARNING_SERIAL_0",
    "__version__", "change_json", "change_line", "check", "follow", "load_data", "normalise",
    "retry_after", "same_meaning", "serial_order", "unit_lines", "unit_objects", "units",
    "version_has",
]
