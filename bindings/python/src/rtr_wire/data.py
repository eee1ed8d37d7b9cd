"""Data of a cache or a router, and changes of data."""
from __future__ import annotations

import ctypes
import ipaddress
from typing import (Any, Callable, Collection, FrozenSet, Iterable, Iterator, List, NamedTuple,
                    Optional, Tuple, Type, TypeVar, Union)

from . import _library, _rtr
from ._library import CALLS, HEADER, ROUTE, Buffer, front, memory, number, whole
from ._rtr import Covers, Mismatch, Status, Validity
from .faults import Fault, TooManyError, fault, refusal
from .reader import Units, count_units, normalise
from .units import EndOfData, Payload, Unit, Vrp

Network = Union[ipaddress.IPv4Network, ipaddress.IPv6Network]
_Self = TypeVar("_Self", bound="_Canonical")

# The first size, at most, of the buffers for the data of a recording; they grow if needed.
_FIRST_CAPACITY = 1 << 24


class Part(NamedTuple):
    """The start of a buffer: bytes, or memory that the library wrote, from which bytes are made on
    demand."""

    memory: Any
    length: int


def _all_of(data: bytes) -> Part:
    """Returns the part with all of these bytes."""
    return Part(data, len(data))


def fitted(output: Any, written: int, capacity: int) -> Part:
    """Returns the written part of an output of this capacity, as a copy if much of it is unused and
    memory allows."""
    part = Part(output, written)
    if 4 * written > 3 * capacity:
        return part
    try:
        return _all_of(front(*part))
    except MemoryError:
        return part


def _refused(answer: _rtr.rtr_data_answer, *inputs: Part) -> Fault:
    """Returns the fault of one of these inputs, or of both together."""
    if answer.side == 0:
        return fault(answer.status, answer.detail)
    data = front(*inputs[answer.side - 1])
    return refusal(answer.status, answer.detail, data, answer.offset, side=answer.side)


def _compared(call: Callable[..., int], old: Part, new: Part) -> Part:
    """Calls rtr_delta or rtr_changes_between."""
    capacity = old.length + new.length
    output, answer = memory(capacity), _rtr.rtr_data_answer()
    status = call(old.memory, old.length, new.memory, new.length, output, capacity, answer)
    if status != Status.OK:
        raise _refused(answer, old, new)
    return fitted(output, answer.written, capacity)


def _index(entries: int) -> Any:
    """Allocates an index with this many entries."""
    return memory(ctypes.sizeof(ctypes.c_size_t) * (entries + 1))


def _index_for(changes: Part) -> Tuple[Any, int]:
    """Allocates an index for changes, and returns its length: no unit is shorter than a header."""
    entries = changes.length // HEADER
    return _index(entries), entries


def _ordered(changes: Part) -> Part:
    """Calls rtr_order."""
    capacity, (index, entries) = changes.length, _index_for(changes)
    output, answer = memory(capacity), _rtr.rtr_data_answer()
    status = CALLS.rtr_order_nonnull(
        changes.memory, changes.length, index, entries, output, capacity, answer)
    if status != Status.OK:
        raise _refused(answer, changes)
    return fitted(output, answer.written, capacity)


def _applied(data: Part, changes: Part) -> Part:
    """Calls rtr_apply_in_order."""
    capacity, (index, entries) = data.length + changes.length, _index_for(changes)
    output, answer = memory(capacity), _rtr.rtr_data_answer()
    status = CALLS.rtr_apply_in_order_nonnull(
        data.memory, data.length, changes.memory, changes.length, index, entries, output, capacity,
        answer)
    if status != Status.OK:
        raise _refused(answer, data, changes)
    return fitted(output, answer.written, capacity)


class _Canonical(Collection[Payload]):
    """Payload units in canonical form, and an end of data."""

    _stored: Optional[Part]
    _length: Optional[int]
    _end: Optional[EndOfData]
    _forms: Optional[FrozenSet[bytes]]
    _lookup: Optional[_rtr.rtr_lookup]

    @classmethod
    def _of(cls: Type[_Self], part: Optional[Part]) -> _Self:
        """Wraps memory that is in canonical form and no longer changes."""
        instance = object.__new__(cls)
        instance._stored = part
        instance._length = instance._end = instance._forms = instance._lookup = None
        return instance

    @property
    def _part(self) -> Part:
        """The memory that has them, and their length."""
        assert self._stored is not None
        return self._stored

    @property
    def _bytes(self) -> bytes:
        """Their bytes, which replace the memory."""
        all_bytes = front(*self._part)
        self._stored = _all_of(all_bytes)
        return all_bytes

    def __bytes__(self) -> bytes:
        return self._bytes

    @property
    def end(self) -> EndOfData:
        """The end of data: the version, the session, the serial number and the times."""
        if self._end is None:
            self._end = end_of(_library.address_of(self._part.memory), self._part.length)
        return self._end

    @property
    def version(self) -> int:
        """The version of all units."""
        return self.end.version

    @property
    def session(self) -> int:
        """The session of the cache."""
        return self.end.session

    @property
    def serial(self) -> int:
        """The serial number of the data."""
        return self.end.serial

    def __len__(self) -> int:
        if self._length is None:
            self._length = count_units(self._part.memory, self._part.length) - 1
        return self._length

    def __bool__(self) -> bool:
        return bool(CALLS.rtr_end_offset_nonnull(*self._part))

    def __iter__(self) -> Iterator[Payload]:
        for unit in Units(self._bytes):
            if isinstance(unit, EndOfData):
                return
            yield unit  # type: ignore[misc]

    def __contains__(self, unit: object) -> bool:
        if not isinstance(unit, Unit) or isinstance(unit, EndOfData):
            return False
        if self._forms is None:
            self._forms = frozenset(_pieces(self._bytes))
        return bytes(unit) in self._forms

    def __eq__(self, other: object) -> bool:
        return type(other) is type(self) and self._bytes == other._bytes  # type: ignore

    def __hash__(self) -> int:
        return hash(self._bytes)

    def __repr__(self) -> str:
        end = self.end
        payloads = "payload" if len(self) == 1 else "payloads"
        return (f"<{type(self).__name__} of {len(self)} {payloads}, session {end.session}, "
                f"serial {end.serial}, version {end.version}>")


def end_of(address: int, length: int) -> EndOfData:
    """Returns the end of data of data in canonical form at this address, of this length."""
    offset = CALLS.rtr_end_offset_nonnull(address, length)
    last = next(Units(ctypes.string_at(address + offset, length - offset)))
    assert isinstance(last, EndOfData)
    return last


def _pieces(data: bytes) -> Iterator[bytes]:
    """Yields the bytes of each unit of data."""
    offset = 0
    while offset < len(data):
        _, size, _ = _library.unit_size(data, offset)
        yield data[offset:offset + size]
        offset += size


def _end_in(sequence: bytes) -> bytes:
    """Returns the bytes of a sequence's end of data; its units may be of several versions."""
    try:
        normalise(sequence, limit=normalise(sequence).units)
    except TooManyError as stopped:
        return bytes(next(Units(sequence[stopped.before.taken:])))
    raise AssertionError("a sequence has an end of data")


class Changes(_Canonical):
    """The changes from data to other data, as `Data.delta` returns them: the payloads that are
    announced and then those that are withdrawn, each in the order of payloads, with the end of data
    of the new data.

    `for unit in changes` iterates over them, `len` counts them, `bytes` encodes them as the
    sequence that a cache sends after its response to a serial query (RFC 8210 section 8.2).

    Those of an `Update` are computed when they are first used, and keep the old data until then.
    That may raise a MemoryError; a later use tries again.
    """

    _sides: Optional[Tuple[Optional[Data], Optional[Data]]] = None

    @property
    def _part(self) -> Part:
        sides = self._sides
        if sides is not None:
            self._stored = _difference(*sides)
            self._sides = None  # only now, since another thread may read it
        return super()._part

    @classmethod
    def from_bytes(cls, sequence: Buffer) -> Changes:
        """Returns the net effect of the changes in the sequence at the start of these bytes,
        applied one after the other: payload units in any order, and an end of data, all of one
        version.

        Raises a Fault with the offset of the unit, in this order: ShortError to PrefixError;
        NotCanonicalError for a unit of another version; DuplicateError, UnknownError for a payload
        that is announced, or withdrawn, twice in a row; UndecidedError for an ASPA that is
        announced and in the end withdrawn.
        """
        return cls._of(_ordered(_all_of(whole(sequence, "sequence"))))

    def __reduce__(self) -> Tuple[Any, ...]:
        return Changes.from_bytes, (self._bytes,)


class Covering(NamedTuple):
    """A VRP that covers a route, and why it doesn't match it, or `Mismatch.MATCHES`."""

    vrp: Vrp
    mismatch: Mismatch


class Data(_Canonical):
    """The data of a cache or a router: payloads, and the end of data with their version, session,
    serial number and times. Immutable, so threads may share one.

    It is a collection: `for unit in data` iterates over the units that announce its payloads, in
    order, and it has `len(data)` and `unit in data`. `bytes(data)` is a sequence in canonical form
    (defined in rtr.h); it is equal if and only if the data mean the same.

    Args:
        payloads: announcements, in any order, without duplicates; the last ASPA of a customer
            replaces the earlier ones
        end: the end of data; all units have its version

    Raises:
        NotCanonicalError: a unit isn't of the version of the end of data
        DuplicateError, UnknownError: a payload is announced twice, or withdrawn
    """

    def __new__(cls, payloads: Iterable[Payload] = (), end: EndOfData = EndOfData(0, 0)) -> Data:
        return cls.from_bytes(b"".join([*map(bytes, payloads), bytes(end)]))

    @classmethod
    def from_bytes(cls, sequence: Buffer) -> Data:
        """Returns the data of the sequence at the start of these bytes, as a cache sends it after
        its response to a reset query: payload units in any order, applied one after the other, and
        an end of data, all of one version. Later bytes are ignored; `load_data` loads whole
        recordings.

        Raises a Fault with the offset of the unit, in this order: ShortError to PrefixError;
        NotCanonicalError for a unit of another version; DuplicateError, UnknownError for the first
        unit that announces a payload which is already present, or withdraws one which isn't.
        """
        changes = whole(sequence, "sequence")
        return cls._of(_applied(_all_of(_end_in(changes)), _all_of(changes)))

    @classmethod
    def from_vrps(cls, vrps: Iterable[Vrp], end: EndOfData = EndOfData(0, 0)) -> Data:
        """Returns the data of VRPs in any order, in the version of this end of data. Duplicates are
        ignored, since validators print one VRP for each ROA.

        Raises PrefixError for a max length below the prefix length or above the address length.
        """
        return cls(dict.fromkeys(_vrp(vrp).unit(end.version) for vrp in vrps), end)

    def __reduce__(self) -> Tuple[Any, ...]:
        return Data.from_bytes, (self._bytes,)

    def apply(self, changes: Union[Buffer, Changes]) -> Data:
        """Applies the changes of an answer to the data, one after the other, and returns the
        result, with the end of data of the changes; after a fault nothing is applied. An announced
        ASPA replaces that of its customer.

        Raises a Fault, with the offset in the changes, in this order: ShortError to PrefixError;
        NotCanonicalError for a unit of another version than those before it; UnitVersionError,
        OtherSessionError for changes of another version or session than the data; DuplicateError,
        UnknownError for the first unit that announces a payload which is already present, or
        withdraws one which isn't. Send the cache a report about it (RFC 8210 section 12).
        """
        part = changes._part if isinstance(changes, Changes) else _all_of(whole(changes, "changes"))
        return self._of(_applied(self._part, part))

    def delta(self, new: Data) -> Changes:
        """Returns the delta from these data to the new ones, for `apply`.

        Raises UnitVersionError or OtherSessionError for data of another version or session.
        """
        if not isinstance(new, Data):
            raise TypeError(f"new must be Data, not {type(new).__name__}")
        return Changes._of(_compared(CALLS.rtr_delta_nonnull, self._part, new._part))

    def for_version(self, version: int) -> Data:
        """Returns the data for clients of a version: in this version, without the payloads that it
        can't carry.

        Raises UnitVersionError for an unknown version.
        """
        return self._of(_all_of(normalise(self._bytes, version=version).form))

    def with_end(self, end: EndOfData) -> Data:
        """Returns the same payloads with another end of data, of the same version."""
        payloads = self._bytes[:CALLS.rtr_end_offset_nonnull(*self._part)]
        return self.from_bytes(payloads + bytes(end))

    def validate(self, prefix: Union[Network, str], asn: int) -> Validity:
        """Returns the validity of a route of this prefix from this AS (RFC 6811 section 2). AS 0
        stands for a route without a single origin, which no VRP matches. Host bits are ignored.

        Raises ValueError for an invalid prefix or AS, and TypeError for other types.
        """
        route, (memory, length) = _route(prefix, asn), self._part
        return Validity(CALLS.rtr_validate_nonnull(memory, length, self._lookup_index(), route))

    def validate_all(self, routes: Iterable[Tuple[Union[Network, str], int]]) -> List[Validity]:
        """Returns the validity of each route, a prefix and an AS, as `validate` does, in one call
        and in the same order. The routes may come in any order; it is fastest if those of a family
        are in the order of their addresses, as in a routing table.

            data.validate_all([("192.0.2.0/24", 65551), ("2001:db8::/32", 65551)])

        Raises as `validate`, for the first route that it refuses.
        """
        given = bytearray().join(_route(prefix, asn) for prefix, asn in routes)
        count, (memory, length) = len(given) // ROUTE.size, self._part
        packed, found = (_rtr.rtr_route * count).from_buffer(given), bytearray(count)
        CALLS.rtr_validate_many_nonnull(memory, length, self._lookup_index(), packed, count,
                                        (ctypes.c_uint8 * count).from_buffer(found), count)
        return [Validity(each) for each in found]

    def covering(self, prefix: Union[Network, str], asn: int) -> Iterator[Covering]:
        """Returns the VRPs that cover such a route, in the order of payloads, and why each doesn't
        match.

        Raises as `validate`.
        """
        return self._covering(_network(prefix), _route(prefix, asn))

    def _covering(self, network: Network, route: _rtr.rtr_route) -> Iterator[Covering]:
        found, index = _rtr.rtr_covering(), 0
        family, address = type(network), network.network_address.packed
        lookup, (memory, length) = self._lookup_index(), self._part
        while CALLS.rtr_covering_nonnull(memory, length, lookup, route, index,
                                         found) == Covers.ONE:
            index = found.place + 1
            covers = family((address, found.prefix_length), strict=False)
            yield Covering(Vrp(covers, asn=found.asn, max_length=found.max_length),
                           Mismatch(found.mismatch))

    def _lookup_index(self) -> _rtr.rtr_lookup:
        """Returns the index of the prefixes, which is built on first use."""
        if self._lookup is None:
            lookup, answer = _rtr.rtr_lookup(), _rtr.rtr_data_answer()
            status = CALLS.rtr_check_data_nonnull(*self._part, lookup, answer)
            if status != Status.OK:
                raise _refused(answer, self._part)
            self._lookup = lookup
        return self._lookup


class Loaded(NamedTuple):
    """The result of `load_data`.

    Attributes:
        data: the data after all whole answers
        has_cut: whether an answer was ignored, since the next one began before its end of data
    """

    data: Data
    has_cut: bool


def load_data(recording: Buffer) -> Loaded:
    """Loads the data that a recording or a list of units results in. It applies all answers one
    after the other, each with or without a cache response, with payload units in any order. An
    answer changes the data before it; after a reset query or a cache reset, and in another session,
    it replaces them (RFC 8210 sections 5.1, 5.4 and 5.9). The input may have units of the router,
    too.

        data, has_cut = load_data(pathlib.Path("recording").read_bytes())

    It allocates two buffers as long as the input, but at first at most 16 MiB, which grow if the
    data are longer, and an index of the payload units of an answer.

    Raises a Fault, with the offset of the first unit that is refused:
        ShortError to PrefixError: an invalid unit; ShortError also at the end of the input, if an
            answer lacks its end of data or there is no answer
        DuplicateError, UnknownError: a change that RFC 8210 section 12 doesn't allow
        OtherVersionError: a payload unit or an end of data of another version than those before it
            in its answer, or than the data that it changes
        OtherSessionError: an end of data of another session than its answer (section 5.8)
        OldSerialError: an end of data of changes whose serial number comes before that of the data
            (RFC 1982)
        ResetInsideError, ReportInsideError: a cache reset or an error report inside an answer
    """
    data, loaded = whole(recording, "recording"), _rtr.rtr_loaded()
    capacity = min(len(data), _FIRST_CAPACITY)
    entries = capacity // _rtr.IPV4_SIZE
    while True:
        output = memory(capacity)
        status = CALLS.rtr_load_nonnull(
            data, len(data), _index(entries), entries, memory(capacity), capacity, output, capacity,
            loaded)
        if status == Status.OK:
            part = fitted(output, loaded.length, capacity)
            return Loaded(Data._of(part), loaded.has_cut)
        if status == Status.NO_INDEX:
            entries = max(loaded.wanted, 2 * entries)
        elif status == Status.NO_ROOM:
            capacity = min(2 * capacity, len(data))
        else:
            raise refusal(status, loaded.detail, data, loaded.offset)


def _vrp(vrp: Vrp) -> Vrp:
    if not isinstance(vrp, Vrp):
        raise TypeError(f"each of vrps must be a Vrp, not {type(vrp).__name__}")
    return vrp


def _network(prefix: Union[Network, str]) -> Network:
    if isinstance(prefix, str):
        return ipaddress.ip_network(prefix, strict=False)
    if not isinstance(prefix, (ipaddress.IPv4Network, ipaddress.IPv6Network)):
        raise TypeError(f"prefix must be a network of ipaddress, or its text, not "
                        f"{type(prefix).__name__}")
    return prefix


def _route(prefix: Union[Network, str], asn: int) -> _rtr.rtr_route:
    """Returns the route of a prefix from an AS."""
    network, route = _network(prefix), _rtr.rtr_route()
    ROUTE.pack_into(route, 0, number("asn", asn, 32), network.version, network.prefixlen,
                    network.network_address.packed)
    return route


def data_in(part: Part) -> Data:
    """Wraps data in canonical form. The memory must not change any more."""
    return Data._of(part)


def part_of(data: Data) -> Part:
    """Returns the memory that has the data."""
    return data._part


def difference(old: Optional[Data], new: Optional[Data]) -> Changes:
    """Returns the changes from old data to new data of any versions and sessions, in the higher of
    the versions, so that payloads that the lower one can't carry are withdrawn. One of them may be
    None, for no data. The changes are computed when they are first used."""
    changes = Changes._of(None)
    changes._sides = (old, new)
    return changes


def _difference(old: Optional[Data], new: Optional[Data]) -> Part:
    """Computes the changes of `difference`; those from no data are the data."""
    if old is None:
        assert new is not None
        return new._part
    return _compared(CALLS.rtr_changes_between_nonnull, old._part,
                     _all_of(b"") if new is None else new._part)
