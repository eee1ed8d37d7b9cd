"""The eleven kinds of units, each a frozen dataclass."""
from __future__ import annotations

import ipaddress
import struct
from dataclasses import dataclass, fields as fields_of
from typing import Any, Callable, ClassVar, Dict, Generic, NamedTuple, Tuple, Type, TypeVar, Union

from . import _library, _rtr
from ._library import number, whole
from ._rtr import Kind, SerialOrder, Status
from .faults import fault

# The fields of a struct rtr_unit by their index in a tuple.
_INDEXES = {name: index for index, (name, _) in enumerate(_rtr.rtr_unit._fields_)}
_EMPTY: Tuple[Any, ...] = tuple(
    b"" if name in ("address", "key_identifier") else 0 for name in _INDEXES)
(_SIZE, _PART, _PART_LENGTH, _TEXT, _TEXT_LENGTH, _ASN, _CUSTOMER, _SERIAL, _REFRESH, _RETRY,
 _EXPIRE, _SESSION, _CODE, KIND_INDEX, _VERSION, _ACTION, _PREFIX_LENGTH, _MAX_LENGTH, _ADDRESS,
 _KEY_IDENTIFIER) = (_INDEXES[name] for name in (
     "size", "part_start", "part_length", "text_start", "text_length", "asn", "customer", "serial",
     "refresh", "retry", "expire", "session", "code", "kind", "version", "action",
     "prefix_length", "max_length", "address", "key_identifier"))

# The size in bits of each field of a struct rtr_unit, and the attribute if it has another name.
_BITS = {name: 8 * getattr(_rtr.rtr_unit, name).size for name in _INDEXES}
_NAMES = {"action": "announce"}

# The fields of a struct rtr_unit, as the library decodes it.
_Fields = Tuple[Any, ...]


@dataclass(frozen=True)
class Unit:
    """A unit of any kind. `bytes(unit)` is its form (docs/PROTOCOL.md), in which all bits without a
    meaning are zero. Two units are equal, and have the same hash, if and only if their forms are
    the same, so if they mean the same.

    The constructors raise a `Fault` for a unit that can't be written, a ValueError for a number out
    of its field's range, and a TypeError for a value of another type; the last two name the field.
    Arguments that are easily confused are keyword-only: times, lengths and ASes of prefixes, the
    parts of a report, `announce` and `version`.
    """

    KIND: ClassVar[Kind]

    def _parts(self) -> Tuple[Dict[str, Any], bytes]:
        """Returns the fields of a struct rtr_unit, and the bytes that hold its parts."""
        return dict(self.__dict__), b""

    def __bytes__(self) -> bytes:
        values = list(_EMPTY)
        fields, part = self._parts()
        values[KIND_INDEX] = self.KIND
        for name, value in fields.items():
            values[_INDEXES[name]] = value
        try:
            status, form = _library.written(tuple(values), part)
        except struct.error:
            for name, value in fields.items():
                if name not in ("address", "key_identifier"):
                    number(_NAMES.get(name, name), value, _BITS[name])
            raise
        if status != Status.OK:
            raise fault(status)
        return form

    def _set(self, **fields: Any) -> None:
        """Sets the attributes of a new unit, and checks them."""
        self.__dict__.update(fields)
        self.__post_init__()

    def __post_init__(self) -> None:
        if not hasattr(self, "KIND"):
            raise TypeError(f"a {type(self).__name__} is one of its subclasses")
        bytes(self)


_Unit = TypeVar("_Unit", bound="Unit")


def _new(kind: Type[_Unit], fields: Dict[str, Any]) -> _Unit:
    """Returns a unit with these attributes, which the library decoded, so they need no check."""
    unit: _Unit = object.__new__(kind)
    unit.__dict__.update(fields)
    return unit


_Network = TypeVar("_Network", ipaddress.IPv4Network, ipaddress.IPv6Network)


@dataclass(frozen=True, init=False)
class Prefix(Unit, Generic[_Network]):
    """A prefix of either family: an `IPv4Prefix` or an `IPv6Prefix`.

    Attributes:
        prefix: the prefix
        max_length: the longest prefix length that the AS may announce
        asn: the AS that may announce it
        announce: whether it is announced; if not, it is withdrawn
        version: of the protocol
    """

    FAMILY: ClassVar[Any]
    prefix: _Network
    max_length: int
    asn: int
    announce: bool = True
    version: int = 1

    def __init__(self, prefix: _Network, *, max_length: int, asn: int, announce: bool = True,
                 version: int = 1) -> None:
        self._set(prefix=prefix, max_length=max_length, asn=asn, announce=announce, version=version)

    def _parts(self) -> Tuple[Dict[str, Any], bytes]:
        network = self.prefix
        if not isinstance(network, self.FAMILY):
            raise TypeError(f"prefix must be an ipaddress.{self.FAMILY.__name__}, not "
                            f"{type(network).__name__}")
        return {"address": network.network_address.packed, "prefix_length": network.prefixlen,
                "max_length": self.max_length, "asn": self.asn, "action": self.announce,
                "version": self.version, "family": network.version}, b""


class IPv4Prefix(Prefix[ipaddress.IPv4Network]):
    """An IPv4 prefix, type 4 (RFC 8210 section 5.6). Its attributes are those of a `Prefix`."""

    KIND: ClassVar[Kind] = Kind.IPV4_PREFIX
    FAMILY: ClassVar[Any] = ipaddress.IPv4Network


class IPv6Prefix(Prefix[ipaddress.IPv6Network]):
    """An IPv6 prefix, type 6 (RFC 8210 section 5.7). Its attributes are those of a `Prefix`."""

    KIND: ClassVar[Kind] = Kind.IPV6_PREFIX
    FAMILY: ClassVar[Any] = ipaddress.IPv6Network


@dataclass(frozen=True, init=False)
class RouterKey(Unit):
    """A router key, type 9 (RFC 8210 section 5.10).

    Attributes:
        key_identifier: the subject key identifier, 20 bytes
        asn: the AS of the router
        key_info: the subject public key info
        announce: whether it is announced; if not, it is withdrawn
        version: of the protocol
    """

    KIND: ClassVar[Kind] = Kind.ROUTER_KEY
    key_identifier: bytes
    asn: int
    key_info: bytes
    announce: bool = True
    version: int = 1

    def __init__(self, key_identifier: bytes, asn: int, key_info: bytes, *, announce: bool = True,
                 version: int = 1) -> None:
        self._set(key_identifier=key_identifier, asn=asn, key_info=key_info, announce=announce,
                  version=version)

    def _parts(self) -> Tuple[Dict[str, Any], bytes]:
        identifier = whole(self.key_identifier, "key_identifier")
        size = _rtr.rtr_unit.key_identifier.size
        if len(identifier) != size:
            raise ValueError(f"key_identifier has {len(identifier)} bytes: it must have {size}")
        info = whole(self.key_info, "key_info")
        fields = {"key_identifier": identifier, "asn": self.asn, "action": self.announce,
                  "version": self.version, "part_length": len(info)}
        return fields, info


class _ByForm(Unit):
    """A kind with attributes that may be ignored: units are equal if their forms are."""

    def __eq__(self, other: object) -> bool:
        return type(other) is type(self) and bytes(self) == bytes(other)  # type: ignore

    def __hash__(self) -> int:
        return hash(bytes(self))


@dataclass(frozen=True, eq=False, init=False)
class Aspa(_ByForm):
    """An ASPA, type 11, in the layout of docs/PROTOCOL.md.

    Attributes:
        customer: the customer AS
        providers: the provider ASes; ignored in a withdrawal
        announce: whether it is announced; if not, it is withdrawn
        version: of the protocol
    """

    KIND: ClassVar[Kind] = Kind.ASPA
    customer: int
    providers: Tuple[int, ...]
    announce: bool = True
    version: int = 2

    def __init__(self, customer: int, providers: Tuple[int, ...], *, announce: bool = True,
                 version: int = 2) -> None:
        self._set(customer=customer, providers=providers, announce=announce, version=version)

    def _parts(self) -> Tuple[Dict[str, Any], bytes]:
        part = _packed(self.providers)
        fields = {"customer": self.customer, "action": self.announce, "version": self.version,
                  "part_length": len(part)}
        return fields, part


def _packed(providers: Tuple[int, ...]) -> bytes:
    """Encodes the providers of an ASPA in network byte order."""
    try:
        return struct.pack(f">{len(providers)}I", *providers)
    except TypeError:
        kind = type(providers).__name__
        raise TypeError(f"providers must be a sequence of ASes, not {kind}") from None
    except struct.error:
        for index, provider in enumerate(providers):
            number(f"providers[{index}]", provider, 32)
        raise


@dataclass(frozen=True, eq=False, init=False)
class EndOfData(_ByForm):
    """An end of data, type 7 (RFC 8210 section 5.8, RFC 6810 section 5.8). In version 0 the three
    times are ignored.

    Attributes:
        session: the session of the cache
        serial: the serial number of the data
        refresh: seconds until the next query
        retry: seconds from a failed query to the next
        expire: seconds after which the data may no longer be used
        version: of the protocol
    """

    KIND: ClassVar[Kind] = Kind.END_OF_DATA
    session: int
    serial: int
    refresh: int = _rtr.USUAL_REFRESH
    retry: int = _rtr.USUAL_RETRY
    expire: int = _rtr.USUAL_EXPIRE
    version: int = 1

    def __init__(self, session: int, serial: int, *, refresh: int = _rtr.USUAL_REFRESH,
                 retry: int = _rtr.USUAL_RETRY, expire: int = _rtr.USUAL_EXPIRE,
                 version: int = 1) -> None:
        self._set(session=session, serial=serial, refresh=refresh, retry=retry, expire=expire,
                  version=version)


@dataclass(frozen=True, eq=False, init=False)
class ErrorReport(_ByForm):
    """An error report, type 10 (RFC 8210 section 5.11).

    Attributes:
        code: the error code (section 12)
        enclosed: the unit that it is about, or its start. Both this and the text are empty if the
            lengths inside of the report are wrong
        text: a text, which should be UTF-8
        version: of the protocol
    """

    KIND: ClassVar[Kind] = Kind.ERROR_REPORT
    code: int
    enclosed: bytes = b""
    text: bytes = b""
    version: int = 1

    def __init__(self, code: int, *, enclosed: bytes = b"", text: bytes = b"",
                 version: int = 1) -> None:
        self._set(code=code, enclosed=enclosed, text=text, version=version)

    def _parts(self) -> Tuple[Dict[str, Any], bytes]:
        enclosed, text = whole(self.enclosed, "enclosed"), whole(self.text, "text")
        fields = {"code": self.code, "version": self.version, "part_length": len(enclosed),
                  "text_start": len(enclosed), "text_length": len(text)}
        return fields, enclosed + text


@dataclass(frozen=True)
class SerialNotify(Unit):
    """A serial notify, type 0 (RFC 8210 section 5.2): the cache has new data.

    Attributes:
        session: the session of the cache
        serial: the serial number of its data
        version: of the protocol
    """

    KIND: ClassVar[Kind] = Kind.SERIAL_NOTIFY
    session: int
    serial: int
    version: int = 1


@dataclass(frozen=True)
class SerialQuery(Unit):
    """A serial query, type 1 (RFC 8210 section 5.3): what changed since this serial number?

    Attributes:
        session: the session of the router's data
        serial: the serial number of the router's data
        version: of the protocol
    """

    KIND: ClassVar[Kind] = Kind.SERIAL_QUERY
    session: int
    serial: int
    version: int = 1


@dataclass(frozen=True)
class ResetQuery(Unit):
    """A reset query, type 2 (RFC 8210 section 5.4): what are all data?

    Attributes:
        version: of the protocol
    """

    KIND: ClassVar[Kind] = Kind.RESET_QUERY
    version: int = 1


@dataclass(frozen=True)
class CacheResponse(Unit):
    """A cache response, type 3 (RFC 8210 section 5.5): payloads follow, and an end of data.

    Attributes:
        session: the session of the cache
        version: of the protocol
    """

    KIND: ClassVar[Kind] = Kind.CACHE_RESPONSE
    session: int
    version: int = 1


@dataclass(frozen=True)
class CacheReset(Unit):
    """A cache reset, type 8 (RFC 8210 section 5.9): the cache can't send the changes.

    Attributes:
        version: of the protocol
    """

    KIND: ClassVar[Kind] = Kind.CACHE_RESET
    version: int = 1


Payload = Union[IPv4Prefix, IPv6Prefix, RouterKey, Aspa]
AnyUnit = Union[IPv4Prefix, IPv6Prefix, RouterKey, Aspa, EndOfData, ErrorReport, SerialNotify,
                SerialQuery, ResetQuery, CacheResponse, CacheReset]


# ---- decoding: units from the fields of a struct rtr_unit, their bytes and their offset

def _of_ipv4(fields: _Fields, data: bytes, offset: int) -> IPv4Prefix:
    unit: IPv4Prefix = object.__new__(IPv4Prefix)
    unit.__dict__.update(
        prefix=ipaddress.IPv4Network((fields[_ADDRESS][:4], fields[_PREFIX_LENGTH])),
        max_length=fields[_MAX_LENGTH], asn=fields[_ASN], announce=fields[_ACTION] == 1,
        version=fields[_VERSION])
    return unit


def _of_ipv6(fields: _Fields, data: bytes, offset: int) -> IPv6Prefix:
    unit: IPv6Prefix = object.__new__(IPv6Prefix)
    unit.__dict__.update(
        prefix=ipaddress.IPv6Network((fields[_ADDRESS], fields[_PREFIX_LENGTH])),
        max_length=fields[_MAX_LENGTH], asn=fields[_ASN], announce=fields[_ACTION] == 1,
        version=fields[_VERSION])
    return unit


def _part(fields: _Fields, data: bytes, offset: int) -> bytes:
    """Returns the part of a unit: key info, providers or an enclosed unit."""
    start = offset + fields[_PART]
    return data[start:start + fields[_PART_LENGTH]]


def _of_key(fields: _Fields, data: bytes, offset: int) -> RouterKey:
    return _new(RouterKey, {
        "key_identifier": fields[_KEY_IDENTIFIER], "asn": fields[_ASN],
        "key_info": _part(fields, data, offset), "announce": fields[_ACTION] == 1,
        "version": fields[_VERSION]})


def _of_aspa(fields: _Fields, data: bytes, offset: int) -> Aspa:
    part = _part(fields, data, offset)
    return _new(Aspa, {
        "customer": fields[_CUSTOMER], "providers": struct.unpack(f">{len(part) // 4}I", part),
        "announce": fields[_ACTION] == 1, "version": fields[_VERSION]})


def _of_report(fields: _Fields, data: bytes, offset: int) -> ErrorReport:
    start = offset + fields[_TEXT]
    return _new(ErrorReport, {
        "code": fields[_CODE], "enclosed": _part(fields, data, offset),
        "text": data[start:start + fields[_TEXT_LENGTH]], "version": fields[_VERSION]})


def _of_numbers(kind: Type[_Unit]) -> Callable[[_Fields, bytes, int], _Unit]:
    """Returns the decoder of a kind whose attributes have the names of fields of rtr_unit."""
    names = [field.name for field in fields_of(kind)]

    def decode(fields: _Fields, data: bytes, offset: int) -> _Unit:
        return _new(kind, {name: fields[_INDEXES[name]] for name in names})
    return decode


MAKERS: Dict[int, Callable[[_Fields, bytes, int], AnyUnit]] = {
    Kind.IPV4_PREFIX: _of_ipv4, Kind.IPV6_PREFIX: _of_ipv6, Kind.ROUTER_KEY: _of_key,
    Kind.ASPA: _of_aspa, Kind.ERROR_REPORT: _of_report,
    Kind.END_OF_DATA: _of_numbers(EndOfData), Kind.SERIAL_NOTIFY: _of_numbers(SerialNotify),
    Kind.SERIAL_QUERY: _of_numbers(SerialQuery), Kind.RESET_QUERY: _of_numbers(ResetQuery),
    Kind.CACHE_RESPONSE: _of_numbers(CacheResponse), Kind.CACHE_RESET: _of_numbers(CacheReset),
}


class _Vrp(NamedTuple):
    prefix: Union[ipaddress.IPv4Network, ipaddress.IPv6Network]
    asn: int
    max_length: Union[int, None]


class Vrp(_Vrp):
    """A validated ROA payload (RFC 6811 section 2): the AS may announce the prefix, and longer ones
    in it up to the max length. None, for a ROA without a max length, stands for the prefix length.

    A tuple of the three: `Vrp(prefix, asn=65551, max_length=24)`.
    """

    __slots__ = ()

    def __new__(cls, prefix: Union[ipaddress.IPv4Network, ipaddress.IPv6Network], *, asn: int,
                max_length: Union[int, None] = None) -> Vrp:
        return super().__new__(cls, prefix, asn, max_length)

    def __reduce__(self) -> Tuple[Any, ...]:
        return Vrp._make, (tuple(self),)

    def unit(self, version: int = 1) -> Union[IPv4Prefix, IPv6Prefix]:
        """Returns the unit that announces it in a version."""
        if not isinstance(self.prefix, (ipaddress.IPv4Network, ipaddress.IPv6Network)):
            raise TypeError(f"prefix must be a network of ipaddress, not "
                            f"{type(self.prefix).__name__}")
        most = self.prefix.prefixlen if self.max_length is None else self.max_length
        if isinstance(self.prefix, ipaddress.IPv4Network):
            return IPv4Prefix(self.prefix, max_length=most, asn=self.asn, version=version)
        return IPv6Prefix(self.prefix, max_length=most, asn=self.asn, version=version)


def version_has(version: int, kind: Kind) -> bool:
    """Reports whether a protocol version has units of this kind. Version 0 has all but router keys
    and ASPAs, version 1 all but ASPAs, version 2 all; other versions have none.
    """
    return bool(_library.CALLS.rtr_version_has(_library.octet(version), number("kind", kind, 8)))


def serial_order(left: int, right: int) -> SerialOrder:
    """Returns the order of two serial numbers (RFC 1982 section 3.2)."""
    serials = number("left", left, 32), number("right", right, 32)
    return SerialOrder(_library.CALLS.rtr_serial_order(*serials))
