"""What the crate rtr_c declares. `generate` made this file of it: don't edit it."""
from __future__ import annotations

import enum
from ctypes import (POINTER, Structure, c_bool, c_size_t, c_uint8, c_uint16, c_uint32, c_uint64,
                    c_void_p)
from typing import Any

VERSION = "0.3.0"
VERSION_NUMBER = 300
HIGHEST_VERSION = 2
HEADER_SIZE = 8
SERIAL_SIZE = 12
IPV4_SIZE = 20
IPV6_SIZE = 32
KEY_SIZE = 32
ASPA_SIZE = 12
REPORT_SIZE = 16
SHORTEST_END = 12
LONGEST_END = 24
SHORTEST_PAYLOAD = 12
LONGEST_UNIT = 65535
MOST_KEY_INFO = 65503
MOST_PROVIDER_BYTES = 65520
MOST_REPORT_PARTS = 65519
USUAL_REFRESH = 3600
LEAST_REFRESH = 1
MOST_REFRESH = 86400
USUAL_RETRY = 600
LEAST_RETRY = 1
MOST_RETRY = 7200
USUAL_EXPIRE = 7200
LEAST_EXPIRE = 600
MOST_EXPIRE = 172800
USUAL_VERSION = 1
MOST_MEMBERS = 16
LAST_REPORT_LIMIT = 2000
LAST_REPORT_BYTES = 1048576
TEXT_ROOM = 64
TEXT_AT_ROOM = 96
REPORT_TEXT_ROOM = 136
NAME_ROOM = 65528
LINE_ROOM = 160
FINDING_ROOM = 128
MOST_QUOTED = 100
FAILURE_NO_MEMORY = "no memory"
FAILURE_EMPTY = "the cache has no payloads"
FAILURE_STOPPED = "the client was stopped"
FAILURE_SLOW = "the peer is too slow"
FAILURE_NO_OTHER = "there is no other connection"
FAILURE_MORE_READ = "more bytes were read than there is room for"
FAILURE_MORE_SENT = "more bytes were sent than there are"
FAILURE_BEHIND = "the router is too far behind"
FAILURE_CLOSED = "the server is closed"
FAILURE_OLD_SERIAL = "the serial number isn't later than that of the present data"
FAILURE_OTHER_TIMES = "only the times differ from those of the present data"
FAILURE_SESSION_LEFT = "the cache left this session: the data need a new one"
FAILURE_OTHER_SESSION = "a cache that doesn't save has one session"
FAILURE_UNSAVED = "the cache serves data that it didn't save"
FAILURE_NOT_RESTORED = "the file exists, and wasn't restored"
FAILURE_OTHER_FILE = "the data are saved in another file"
FAILURE_UNSYNCED = "the folder isn't synced"
FAILURE_HIGHER_VERSION = "the saved data are of a lower version: the data need a new session"
FAILURE_UNSERVED = "new data aren't served before they are saved"
FAILURE_DAMAGED = "the saved file is damaged: the data need a new session"
WARNING_SERIAL_0 = (
    "serial number 0: a router that lost its first answer may ask with it, and keep a part of "
    "the data")


class Status(enum.IntEnum):
    """The result of a call; each call below lists the statuses that it returns. The faults of a
    unit are 1 to 7, checked in the order of docs/PROTOCOL.md. Number 11 was "out of memory",
    which no call returns any more.
    """

    # The call succeeded.
    OK = 0
    # The input ends inside a unit, or before one.
    SHORT = 1
    # `detail` is a type that is not allowed here.
    UNIT_TYPE = 2
    # `detail` is a version that is not allowed here.
    UNIT_VERSION = 3
    # A router key, an ASPA or a report of more than 65535 bytes.
    TOO_LONG = 4
    # The length is wrong for the type.
    UNIT_LENGTH = 5
    # An ASPA is announced without providers.
    EMPTY_PROVIDERS = 6
    # A prefix breaks the rule `detail`, an rtr_prefix_rule.
    PREFIX = 7
    # `limit` units were read, none of them an end of data.
    TOO_MANY = 8
    # The output is too short for the next unit or text.
    NO_ROOM = 9
    # The action, the family or a part of a unit to write is wrong.
    NO_FORM = 10
    # A unit or an end of data breaks the canonical form of data or changes.
    NOT_CANONICAL = 12
    # The second input is of another session than the first, or an end of data of another
    # session than its answer.
    OTHER_SESSION = 13
    # A payload other than an ASPA is announced that is already present.
    DUPLICATE = 14
    # A payload is withdrawn that isn't present.
    UNKNOWN = 15
    # Changes to sort announce and then withdraw an ASPA, so the net change depends on the
    # data.
    UNDECIDED = 16
    # The index has fewer entries than there are units.
    NO_INDEX = 17
    # A group would have more than RTR_MOST_MEMBERS members.
    TOO_MANY_MEMBERS = 18
    # A recorded unit has version `detail`, and the units before it in its answer, or the data
    # that it changes, have another.
    OTHER_VERSION = 19
    # The serial number of a recorded answer comes before that of the data that it changes.
    OLD_SERIAL = 20
    # A recording has a cache reset inside an answer.
    RESET_INSIDE = 21
    # A recording has an error report inside an answer.
    REPORT_INSIDE = 22


class PrefixRule(enum.IntEnum):
    """enum rtr_prefix_rule of rtr.h."""

    # The prefix length is above 32 for IPv4 or 128 for IPv6.
    LENGTH_OVER = 1
    # The max length is above 32 for IPv4 or 128 for IPv6.
    MAX_LENGTH_OVER = 2
    # The max length is below the prefix length.
    MAX_LENGTH_UNDER = 3


class Kind(enum.IntEnum):
    """The kinds of units, numbered by PDU type."""

    # A serial notify (RFC 8210 section 5.2).
    SERIAL_NOTIFY = 0
    # A serial query (RFC 8210 section 5.3).
    SERIAL_QUERY = 1
    # A reset query (RFC 8210 section 5.4).
    RESET_QUERY = 2
    # A cache response (RFC 8210 section 5.5).
    CACHE_RESPONSE = 3
    # An IPv4 prefix (RFC 8210 section 5.6).
    IPV4_PREFIX = 4
    # An IPv6 prefix (RFC 8210 section 5.7).
    IPV6_PREFIX = 6
    # An end of data (RFC 6810 and RFC 8210 section 5.8).
    END_OF_DATA = 7
    # A cache reset (RFC 8210 section 5.9).
    CACHE_RESET = 8
    # A router key (RFC 8210 section 5.10).
    ROUTER_KEY = 9
    # An error report (RFC 8210 section 5.11).
    ERROR_REPORT = 10
    # An ASPA, an autonomous system provider authorization.
    ASPA = 11


class ErrorCode(enum.IntEnum):
    """The codes of error reports (RFC 8210 section 12); those above 8 are the Rust crate rpki's.
    """

    # The data can't be parsed, or contradict themselves.
    CORRUPT_DATA = 0
    # The peer had an internal error.
    INTERNAL_ERROR = 1
    # The cache has no data yet.
    NO_DATA_AVAILABLE = 2
    # The request makes no sense to the cache.
    INVALID_REQUEST = 3
    UNSUPPORTED_PROTOCOL_VERSION = 4
    UNSUPPORTED_PDU_TYPE = 5
    WITHDRAWAL_OF_UNKNOWN_RECORD = 6
    DUPLICATE_ANNOUNCEMENT_RECEIVED = 7
    # Not the negotiated version.
    UNEXPECTED_PROTOCOL_VERSION = 8
    # An ASPA may not have these providers.
    ASPA_PROVIDER_LIST_ERROR = 9
    # The connection failed.
    TRANSPORT_ERROR = 10
    # Units came in the wrong order.
    ORDERING_ERROR = 11


class SerialOrder(enum.IntEnum):
    """The order of two serial numbers (RFC 1982 section 3.2)."""

    EQUAL = 0
    # The left one is less.
    LESS = 1
    # The left one is greater.
    GREATER = 2
    # They are 2^31 apart.
    NO_ORDER = 3


class Named(enum.IntEnum):
    """The kinds of numbers that rtr_name names."""

    # An rtr_status, without its detail: "unit type is not allowed here".
    STATUS = 0
    # An rtr_kind: "IPv4 prefix".
    KIND = 1
    # An rtr_cause: "the cache is too slow".
    CAUSE = 2
    # An rtr_reason: "the router is too slow".
    REASON = 3
    # An error code (RFC 8210 section 12): "Corrupt Data".
    CODE = 4
    # An rtr_time_rule: "the retry time has to be 1 to 7200 seconds".
    TIME_RULE = 5


class TimeRule(enum.IntEnum):
    """The rules on the times that a cache sends, in seconds (RFC 8210 section 6);
    rtr_time_rule_text returns their texts.
    """

    NONE = 0
    # The refresh time is 1 to 86400.
    REFRESH = 1
    # The retry time is 1 to 7200.
    RETRY = 2
    # The expire time is 600 to 172800.
    EXPIRE = 3
    # The expire time is longer than the refresh time.
    ABOVE_REFRESH = 4
    # The expire time is longer than the retry time.
    ABOVE_RETRY = 5


class Side(enum.IntEnum):
    """The two inputs of a comparison."""

    LEFT = 1
    RIGHT = 2


class Validity(enum.IntEnum):
    """The validation state of a route (RFC 6811 section 2)."""

    # No VRP covers the route.
    NOT_FOUND = 0
    # A VRP matches it.
    VALID = 1
    # VRPs cover it, and none matches.
    INVALID = 2
    # The family is neither 4 nor 6, or the prefix length is above 32 or 128.
    NO_ROUTE = 3
    # The struct rtr_data wasn't filled by rtr_check_data.
    UNCHECKED = 4


class Covers(enum.IntEnum):
    """Whether a VRP covers a route."""

    # No VRP covers it, or no further one.
    NONE = 0
    # A VRP covers it.
    ONE = 1
    # As RTR_NO_ROUTE.
    NO_ROUTE = 2
    # As RTR_UNCHECKED.
    UNCHECKED = 3


class Mismatch(enum.IntEnum):
    """Why a VRP that covers a route doesn't match it: the first of these that holds."""

    # It matches.
    MATCHES = 0
    # Its AS is 0, which no route may match.
    AS_ZERO = 1
    # The route's origin is another AS.
    OTHER_AS = 2
    # The route's prefix is longer than its max length.
    LONGER = 3


class Rule(enum.IntEnum):
    """A rule that a unit breaks."""

    NONE = 0
    # The byte at `value` has to be zero.
    RESERVED = 1
    # All bits of the flags but the lowest have to be zero.
    FLAGS = 2
    # The prefix length is at most 32 or 128.
    PREFIX_LENGTH = 3
    # The max length is at most 32 or 128.
    MAX_LENGTH = 4
    # The max length is no less than the prefix length.
    MAX_BELOW = 5
    # A prefix has no bits after its length.
    HOST_BITS = 6
    # The version, `value`, is that of the sequence, `begun`.
    VERSION = 7
    # The session, `value`, is that of the answer, `begun`.
    SESSION = 8
    # An answer ends with an end of data.
    CUT_OFF = 9
    # A recording has an end of data.
    NO_ANSWER = 10
    # The version, `value`, has such units.
    LACKS = 11
    # A withdrawn ASPA has no providers; with `value` 1 the unit reads as one of an older
    # draft.
    WITHDRAWN_PROVIDERS = 12
    # A payload is announced once.
    TWICE = 13
    # Providers ascend.
    PROVIDER_ORDER = 14
    # The lengths inside an error report add up to its length.
    REPORT_PARTS = 15
    # The text of an error report is UTF-8.
    REPORT_TEXT = 16
    # No error report is about an error report.
    REPORT_OF_REPORT = 17
    # A cache may send the times: the rule that they break is `value`, an rtr_time_rule.
    TIMES = 18


class Phase(enum.IntEnum):
    """The states of a router, in `phase` of its struct."""

    # There is no connection.
    OFFLINE = 0
    # A connection is being made.
    CONNECTING = 1
    # Waiting for an answer.
    ASKED = 2
    # Reading a response.
    READING = 3
    # Its changes are being applied.
    APPLYING = 4
    # Idle until a notify comes or it is time to ask.
    WAITING = 5


class ActionKind(enum.IntEnum):
    """enum rtr_action_kind of rtr.h."""

    WAIT = 0
    CONNECT = 1
    ASK = 2
    BEGIN = 3
    KEEP = 4
    APPLY = 5
    SHOW = 6
    NO_DATA = 7
    DROP = 8
    END = 9


class Cause(enum.IntEnum):
    """Why a connection ends; rtr_cause_text returns the text."""

    LOST = 0
    SLOW = 1
    # A unit is refused, for `status`.
    FAULTY = 2
    # The cache reports an error, in the unit from `start` to `taken`.
    REPORTED = 3
    OUT_OF_PLACE = 4
    NO_SUCH_PAYLOAD = 5
    OTHER_VERSION = 6
    HIGHER_VERSION = 7
    OTHER_SESSION = 8
    OLD_SERIAL = 9
    OTHER_DATA = 10
    TOO_LONG = 11
    # Changes are refused, for `status`.
    NOT_APPLIED = 12
    EXPIRED = 13
    # No failure: it reconnects at once, in a lower version.
    LOWER = 14
    # No failure: it reconnects at once, in the highest version.
    HIGHER = 15


class LinkStatus(enum.IntEnum):
    """How a call for a router's end ended."""

    OK = 0
    # No call leaves the struct like this.
    NOT_BEGUN = 1
    # A buffer is shorter than what it holds; for rtr_link_give_up, the output is shorter than
    # RTR_LONGEST_UNIT.
    SHORT_BUFFER = 2
    # The time is before that of an earlier call, or not below 2^63.
    BAD_TIME = 3
    # There is no connection, open or being opened, for this call.
    OUT_OF_TURN = 4
    # More bytes than there is room for, or than are unsent.
    TOO_LONG = 5


class TodoKind(enum.IntEnum):
    """enum rtr_todo_kind of rtr.h."""

    # The call was refused.
    NOTHING = 0
    GO = 1
    WAIT = 2
    CONNECT = 3
    CLOSE = 4
    DATA = 5
    DROPPED = 6
    NO_DATA = 7
    INPUT_ROOM = 8
    FIRST_ROOM = 9
    SECOND_ROOM = 10
    INDEX_ROOM = 11
    OUTPUT_ROOM = 12


class ClientFailure(enum.IntEnum):
    """Why there is no connection, or no data. docs/SESSIONS.md has what is reported to the cache.
    """

    # Nothing failed; the client may reconnect at once in another version.
    NONE = 0
    # Connecting failed, or the connection broke or was closed.
    LOST = 1
    # The cache didn't answer or finish an answer in time.
    SLOW = 2
    # An answer has too many units or bytes.
    TOO_LONG = 3
    # A unit or the changes are refused for `status`.
    REFUSED = 4
    # A unit breaks the rules of a session.
    BREACH = 5
    # The cache reports the error `code`.
    REPORTED = 6
    # The data have expired, and were dropped.
    EXPIRED = 7
    # There is no memory for an answer; or of an rtr_client to connect: then RTR_CLIENT_CONNECT
    # hasn't come, and it retries at `wakes`.
    MEMORY = 8


class GroupShown(enum.IntEnum):
    """How the shown data change."""

    SAME = 0
    DATA = 1
    NOTHING = 2


class GroupStatus(enum.IntEnum):
    """How rtr_group_tell ended."""

    TOLD = 0
    # Only a refused call for a router's end returns this todo.
    NO_TODO = 1
    # The group has no such member.
    NO_MEMBER = 2


class ServingKind(enum.IntEnum):
    """enum rtr_serving_kind of rtr.h."""

    WAIT = 0
    ALL = 1
    CHANGES = 2
    RESET = 3
    NO_DATA = 4
    NOTIFY = 5
    END = 6


class Reason(enum.IntEnum):
    """Why a cache ends a connection; rtr_reason_text returns the text."""

    LOST = 0
    SLOW = 1
    FULL = 2
    # A unit is refused, for `status`.
    FAULTY = 3
    # The router reports an error, in `taken` bytes of input.
    REPORTED = 4
    NO_QUERY = 5
    OTHER_VERSION = 6
    NO_VERSION = 7
    NEW_SESSION = 8
    UNKNOWN = 9


class Entry(enum.IntEnum):
    """What a new connection gets."""

    SERVE = 0
    # rtr_cache_full, its report, and the close.
    REFUSE = 1
    # It isn't accepted now; if it is already, it is closed without a report.
    WAIT = 2


class Step(enum.IntEnum):
    """What the program does next. After an answer, or an end, of the struct rtr_cache it calls
    rtr_connection_answers or rtr_connection_ends with the number of bytes that this sends.
    """

    WAIT = 0
    # Call rtr_cache_read, then rtr_connection_heard.
    HEAR = 1
    # Call rtr_cache_tick.
    TICK = 2
    # Call rtr_cache_lost.
    LOSE = 3
    # Send, then call rtr_connection_sent.
    SEND = 4
    # Shut down for writing, and read until the router closes.
    FINISH = 5
    # Close, for an rtr_cut.
    CLOSE = 6


class Cut(enum.IntEnum):
    """The limit that ended a connection."""

    # The rtr_cache ended it, or it broke.
    NONE = 0
    # A unit or an answer took too long.
    SLOW = 1
    # There are data of another session.
    NEW_SESSION = 2
    # More than `most_behind` newer data came.
    BEHIND = 3


class StoresStatus(enum.IntEnum):
    """How a call on stores or on a history ended. RTR_STORES_NOT_MADE is checked first, and then
    RTR_STORES_SHORT_BUFFER.
    """

    OK = 0
    # No call leaves the struct like this.
    NOT_MADE = 1
    # A buffer is shorter than the store in it.
    SHORT_BUFFER = 2
    # A store waits to be saved or given up.
    WAITS = 3
    # The data aren't in canonical form.
    FLAW = 4
    # The cache doesn't save, and started with another session.
    OTHER_SESSION = 5
    # The cache used the session of the data before another one.
    SESSION_LEFT = 6
    # The data before are of another protocol version.
    OTHER_VERSION = 7
    # The data equal the served ones.
    SAME_DATA = 8
    # Only the times differ from those of the served data.
    OTHER_TIMES = 9
    # The serial number isn't later than that of the served data.
    OLD_SERIAL = 10
    # The bytes aren't a store, or aren't a history.
    MALFORMED = 11
    # A buffer is too short for this call.
    NO_ROOM = 12
    # The history has no data of this serial number.
    UNKNOWN_SERIAL = 13
    # The protocol version is above RTR_HIGHEST_VERSION.
    UNIT_VERSION = 14


class Room(enum.IntEnum):
    """The buffer that is too short."""

    INDEX = 1
    BUFFER = 2
    SPARE = 3
    OUTPUT = 4
    FIRST = 5
    SECOND = 6


class rtr_answer(Structure):
    # Payload units that were read, without the end of data.
    units: int
    # Payload units that were written; fewer than `units` only for one version.
    forms: int
    # Bytes of the input that were read: whole units, and the end of data. If the call stopped,
    # the offset of the unit at which it stopped.
    taken: int
    # Bytes of the output that were written, from its start.
    written: int
    # After RTR_SHORT, the least number of bytes needed from input + taken on, as in an
    # rtr_unit; else 0.
    wanted: int
    # The result of the call, an rtr_status, which the call returns too.
    status: int
    # The type, version or rule that RTR_UNIT_TYPE, RTR_UNIT_VERSION or RTR_PREFIX refuses, as
    # enum rtr_status says; else 0.
    detail: int

    _fields_ = [
        ("units", c_uint64),
        ("forms", c_uint64),
        ("taken", c_size_t),
        ("written", c_size_t),
        ("wanted", c_size_t),
        ("status", c_uint8),
        ("detail", c_uint8),
    ]


class rtr_data_answer(Structure):
    # After RTR_OK the bytes of the output that were written, from its start; else 0. After
    # RTR_NO_ROOM the output's contents are unspecified, after any other status unchanged.
    written: int
    # The offset of the unit at fault in its input; 0 if no unit is at fault.
    offset: int
    # The result of the call, an rtr_status, which the call returns too.
    status: int
    # 1 or 2 if the first or the second input is at fault, else 0.
    side: int
    # The detail of the status, as in an rtr_answer.
    detail: int

    _fields_ = [
        ("written", c_size_t),
        ("offset", c_size_t),
        ("status", c_uint8),
        ("side", c_uint8),
        ("detail", c_uint8),
    ]


class rtr_loaded(Structure):
    # Bytes of the data, from the front of the output; like all that describes data, 0 unless
    # the status is RTR_OK.
    length: int
    # The offset of the unit at fault in the input; 0 if no unit is at fault.
    offset: int
    # After RTR_SHORT, the least number of bytes needed from input + offset on, as in an
    # rtr_unit; after RTR_NO_INDEX, the least number of entries that the index needs; else 0.
    wanted: int
    # The serial number of the data.
    serial: int
    # The refresh time of the data, in seconds; 0 in version 0.
    refresh: int
    # The retry time of the data, likewise.
    retry: int
    # The expire time of the data, likewise.
    expire: int
    # The session of the data.
    session: int
    # The protocol version of the data, and of each of their units.
    version: int
    # Whether an answer was left out: the next one began before its end.
    has_cut: bool
    # The result of the call, an rtr_status, which the call returns too.
    status: int
    # The version that RTR_OTHER_VERSION refuses; else the detail of the status, as in an
    # rtr_answer.
    detail: int

    _fields_ = [
        ("length", c_size_t),
        ("offset", c_size_t),
        ("wanted", c_size_t),
        ("serial", c_uint32),
        ("refresh", c_uint32),
        ("retry", c_uint32),
        ("expire", c_uint32),
        ("session", c_uint16),
        ("version", c_uint8),
        ("has_cut", c_bool),
        ("status", c_uint8),
        ("detail", c_uint8),
    ]


class rtr_comparison(Structure):
    # The offset of the unit at which the call stopped, in the input of `side`; 0 after RTR_OK.
    offset: int
    # After RTR_SHORT, the least number of bytes of that input needed from `offset` on, as in
    # an rtr_unit; else 0.
    wanted: int
    # The result of the call, an rtr_status, which the call returns too.
    status: int
    # An rtr_side: the input in which the call stopped; 0 after RTR_OK.
    side: int
    # The detail of the status, as in an rtr_answer.
    detail: int
    # Whether both inputs mean the same; false unless the status is RTR_OK.
    same: bool

    _fields_ = [
        ("offset", c_size_t),
        ("wanted", c_size_t),
        ("status", c_uint8),
        ("side", c_uint8),
        ("detail", c_uint8),
        ("same", c_bool),
    ]


class rtr_line(Structure):
    # Bytes of the unit in the input.
    size: int
    # Bytes of the whole line, even if the output is shorter.
    length: int
    # After RTR_SHORT, the least number of input bytes needed, as in an rtr_unit; else 0.
    wanted: int
    # The result of the call, an rtr_status, which the call returns too.
    status: int
    # The detail of the status, as in an rtr_answer.
    detail: int

    _fields_ = [
        ("size", c_size_t),
        ("length", c_size_t),
        ("wanted", c_size_t),
        ("status", c_uint8),
        ("detail", c_uint8),
    ]


class rtr_unit(Structure):
    # Bytes of the unit in the input, header included; also set if rtr_next returns RTR_PREFIX.
    size: int
    # If rtr_next returns RTR_SHORT, the least number of input bytes needed: 8 without a whole
    # header, else the length of the unit.
    wanted: int
    # The offset in the unit of a router key's key info, an ASPA's providers, or the unit that
    # a report encloses.
    part_start: int
    # The length of that part in bytes; a provider has 4, in network byte order.
    part_length: int
    # The offset in the unit of a report's text. A report whose inner lengths don't fit has 0
    # here and in part_start and both lengths.
    text_start: int
    # The length of a report's text in bytes; it should be UTF-8, which isn't checked.
    text_length: int
    # The AS of a prefix or a router key.
    asn: int
    # The customer AS of an ASPA.
    customer: int
    # The serial number of a serial notify, a serial query or an end of data.
    serial: int
    # The refresh time of an end of data, in seconds; 0 in version 0.
    refresh: int
    # The retry time of an end of data, likewise.
    retry: int
    # The expire time of an end of data, likewise.
    expire: int
    # The session of a serial notify, a serial query, a cache response or an end of data.
    session: int
    # The error code of a report (RFC 8210 section 12).
    code: int
    # The kind of the unit, an rtr_kind.
    kind: int
    # The protocol version of the unit.
    version: int
    # 1 if the payload is announced, 0 if it is withdrawn; 0 for what has no payload.
    action: int
    # The address family of a prefix, 4 or 6.
    family: int
    # The length of a prefix.
    prefix_length: int
    # The max length of a prefix.
    max_length: int
    # The address of a prefix, in network byte order, the bits after the prefix length zero;
    # for IPv4 the first 4 bytes.
    address: Any
    # The subject key identifier of a router key.
    key_identifier: Any
    # If rtr_next returns a fault, its detail, as in an rtr_answer; else 0.
    detail: int

    _fields_ = [
        ("size", c_size_t),
        ("wanted", c_size_t),
        ("part_start", c_size_t),
        ("part_length", c_size_t),
        ("text_start", c_size_t),
        ("text_length", c_size_t),
        ("asn", c_uint32),
        ("customer", c_uint32),
        ("serial", c_uint32),
        ("refresh", c_uint32),
        ("retry", c_uint32),
        ("expire", c_uint32),
        ("session", c_uint16),
        ("code", c_uint16),
        ("kind", c_uint8),
        ("version", c_uint8),
        ("action", c_uint8),
        ("family", c_uint8),
        ("prefix_length", c_uint8),
        ("max_length", c_uint8),
        ("address", c_uint8 * 16),
        ("key_identifier", c_uint8 * 20),
        ("detail", c_uint8),
    ]


class rtr_route(Structure):
    # The origin AS; 0 if there is no single one, as with an AS_SET at the end of the path:
    # then no VRP matches.
    asn: int
    # The address family, 4 or 6.
    family: int
    # The length of the prefix.
    prefix_length: int
    # The address, in network byte order, for IPv4 the first 4 bytes; the bits after the prefix
    # length are ignored.
    address: Any

    _fields_ = [
        ("asn", c_uint32),
        ("family", c_uint8),
        ("prefix_length", c_uint8),
        ("address", c_uint8 * 16),
    ]


class rtr_tables(Structure):
    ipv4: int
    ipv6: int
    # For each first byte, the index of the first IPv4 unit with such an address.
    starts: Any
    # The length of the shortest IPv4 prefix; 255 if there is none.
    shortest_ipv4: int
    # The length of the shortest IPv6 prefix; 255 if there is none.
    shortest_ipv6: int
    # For each first byte, the length of the shortest IPv4 prefix of at least eight bits.
    shortest: Any

    _fields_ = [
        ("ipv4", c_size_t),
        ("ipv6", c_size_t),
        ("starts", c_size_t * 256),
        ("shortest_ipv4", c_uint8),
        ("shortest_ipv6", c_uint8),
        ("shortest", c_uint8 * 256),
    ]


class rtr_lookup(Structure):
    # The length of the data in bytes, or 0.
    length: int
    # The greatest number minus this length.
    seal: int
    # The tables of the data.
    tables: rtr_tables

    _fields_ = [
        ("length", c_size_t),
        ("seal", c_size_t),
        ("tables", rtr_tables),
    ]


class rtr_covering(Structure):
    # The index of the payload in the data, from 0.
    place: int
    # The AS of the VRP.
    asn: int
    # The length of its prefix.
    prefix_length: int
    # Its max length.
    max_length: int
    # Why it doesn't match the route, an rtr_mismatch.
    mismatch: int

    _fields_ = [
        ("place", c_size_t),
        ("asn", c_uint32),
        ("prefix_length", c_uint8),
        ("max_length", c_uint8),
        ("mismatch", c_uint8),
    ]


class rtr_check(Structure):
    session: int
    version: int
    has_session: bool
    has_version: bool
    stage: int

    _fields_ = [
        ("session", c_uint16),
        ("version", c_uint8),
        ("has_session", c_bool),
        ("has_version", c_bool),
        ("stage", c_uint8),
    ]


class rtr_finding(Structure):
    # The value that enum rtr_rule describes for this rule; else 0.
    value: int
    # What the sequence or the answer began with, if enum rtr_rule names it; else 0.
    begun: int
    # The rule that is broken, an rtr_rule.
    rule: int

    _fields_ = [
        ("value", c_uint16),
        ("begun", c_uint16),
        ("rule", c_uint8),
    ]


class rtr_checked(Structure):
    # Bytes of the unit in the input.
    size: int
    # After RTR_SHORT, the least number of input bytes needed, as in an rtr_unit; else 0.
    wanted: int
    # The broken rules, in the order of rtr_list's lines; RTR_RULE_NONE may be between them.
    findings: Any
    # The result of the call, an rtr_status, which the call returns too.
    status: int
    # The detail of the status, as in an rtr_answer.
    detail: int

    _fields_ = [
        ("size", c_size_t),
        ("wanted", c_size_t),
        ("findings", rtr_finding * 7),
        ("status", c_uint8),
        ("detail", c_uint8),
    ]


class rtr_naming(Structure):
    # Bytes of the unit in the input.
    size: int
    # Bytes of the name, even if the output is shorter; 0 if the unit names no payload.
    length: int
    # After RTR_SHORT, the least number of input bytes needed, as in an rtr_unit; else 0.
    wanted: int
    # The result of the call, an rtr_status, which the call returns too.
    status: int
    # The detail of the status, as in an rtr_answer.
    detail: int
    # Whether the unit begins a sequence.
    begins: bool
    # Whether the payload is announced.
    announces: bool

    _fields_ = [
        ("size", c_size_t),
        ("length", c_size_t),
        ("wanted", c_size_t),
        ("status", c_uint8),
        ("detail", c_uint8),
        ("begins", c_bool),
        ("announces", c_bool),
    ]


class rtr_settings(Structure):
    # The most bytes of an answer's payload units; default 128 MiB.
    most_bytes: int
    # The least time between two queries or connections; default 1 s.
    pause: int
    # The time limit for connecting; default 30 seconds.
    connect_limit: int
    # The time limit from a query to its end of data; default 2 minutes.
    response_limit: int
    # The refresh time, used instead of the cache's (RFC 8210 section 6) if it isn't 0.
    refresh: int
    # The retry time, likewise.
    retry: int
    # The expire time, likewise.
    expire: int
    # The most payload units of an answer; default 4 million.
    most_units: int
    # A random number: growing waits are shortened by chance / 131072.
    chance: int
    # The version in which a connection begins: 0, 1 or 2.
    highest: int

    _fields_ = [
        ("most_bytes", c_uint64),
        ("pause", c_uint32),
        ("connect_limit", c_uint32),
        ("response_limit", c_uint32),
        ("refresh", c_uint32),
        ("retry", c_uint32),
        ("expire", c_uint32),
        ("most_units", c_uint32),
        ("chance", c_uint16),
        ("highest", c_uint8),
    ]


class rtr_known(Structure):
    # The serial number of the data.
    serial: int
    # The refresh time of the data, in seconds.
    refresh: int
    # The retry time of the data, in seconds.
    retry: int
    # The expire time of the data, in seconds.
    expire: int
    # The session of the data.
    session: int
    # The protocol version of the data.
    version: int

    _fields_ = [
        ("serial", c_uint32),
        ("refresh", c_uint32),
        ("retry", c_uint32),
        ("expire", c_uint32),
        ("session", c_uint16),
        ("version", c_uint8),
    ]


class rtr_router(Structure):
    settings: rtr_settings
    expires: int
    came: int
    asked: int
    tried: int
    due: int
    rises: int
    bytes: int
    # The session, serial number and times of the data, if `has_data`.
    known: rtr_known
    answer: rtr_known
    wait: int
    rise_wait: int
    # The number of payload units of the response so far.
    units: int
    note: int
    session: int
    # The state of the router, an rtr_phase; any other number stands for RTR_PHASE_OFFLINE.
    phase: int
    version: int
    floor: int
    agreed: bool
    fell: bool
    silent: bool
    changes: bool
    resync: bool
    answered: bool
    noted: bool
    has_data: bool

    _fields_ = [
        ("settings", rtr_settings),
        ("expires", c_uint64),
        ("came", c_uint64),
        ("asked", c_uint64),
        ("tried", c_uint64),
        ("due", c_uint64),
        ("rises", c_uint64),
        ("bytes", c_uint64),
        ("known", rtr_known),
        ("answer", rtr_known),
        ("wait", c_uint32),
        ("rise_wait", c_uint32),
        ("units", c_uint32),
        ("note", c_uint32),
        ("session", c_uint16),
        ("phase", c_uint8),
        ("version", c_uint8),
        ("floor", c_uint8),
        ("agreed", c_bool),
        ("fell", c_bool),
        ("silent", c_bool),
        ("changes", c_bool),
        ("resync", c_bool),
        ("answered", c_bool),
        ("noted", c_bool),
        ("has_data", c_bool),
    ]


class rtr_action(Structure):
    # The offset in the input of the unit that the action is about.
    start: int
    # The number of bytes of the input that were consumed, that unit included; a unit that is
    # refused isn't consumed, since the connection ends.
    taken: int
    # After rtr_router_read, if there is no whole unit, the least number of input bytes needed,
    # as in an rtr_unit.
    wanted: int
    # The serial number of a serial query.
    serial: int
    # The session of a serial query.
    session: int
    # The error code of the report.
    code: int
    # What to do, an rtr_action_kind.
    kind: int
    # The version of a query or a report.
    version: int
    # Why the connection ends, an rtr_cause.
    cause: int
    # Why a unit or a change is refused, an rtr_status; else 0.
    status: int
    # The detail of the status, as in an rtr_answer.
    detail: int
    # For RTR_ASK, whether the query is a serial query; for RTR_APPLY, whether the units change
    # the data.
    changes: bool
    # Whether there are no data any more.
    drops: bool
    # Whether a report is owed.
    reports: bool

    _fields_ = [
        ("start", c_size_t),
        ("taken", c_size_t),
        ("wanted", c_size_t),
        ("serial", c_uint32),
        ("session", c_uint16),
        ("code", c_uint16),
        ("kind", c_uint8),
        ("version", c_uint8),
        ("cause", c_uint8),
        ("status", c_uint8),
        ("detail", c_uint8),
        ("changes", c_bool),
        ("drops", c_bool),
        ("reports", c_bool),
    ]


class rtr_link(Structure):
    settings: rtr_settings
    expires: int
    came: int
    asked: int
    tried: int
    due: int
    rises: int
    bytes: int
    # The latest time that was passed.
    latest: int
    # How many bytes came on the connection.
    received: int
    # The length of the payload units at the front of the input.
    kept: int
    # The length of the end of data behind them, in a whole answer, or 0.
    end_size: int
    # The offset in the input at which the next bytes are read.
    filled: int
    # The length of the data, or 0.
    shown: int
    # How many bytes of the output are still to be sent.
    unsent: int
    known: rtr_known
    answer: rtr_known
    wait: int
    rise_wait: int
    units: int
    note: int
    mark: int
    session: int
    # As in an `RtrRouter`.
    phase: int
    version: int
    floor: int
    agreed: int
    fell: int
    silent: int
    changes: int
    resync: int
    answered: int
    noted: int
    has_data: int
    # What the first bytes of the input are: 0 nothing that counts, 1 payload units, 2 a whole
    # answer.
    holding: int
    # Whether an answer is changes of the data, and not of no data.
    since: int
    # Whether there are data.
    shows: int
    # Whether they are in the second data buffer.
    second: int
    opened: int
    closed: int

    _fields_ = [
        ("settings", rtr_settings),
        ("expires", c_uint64),
        ("came", c_uint64),
        ("asked", c_uint64),
        ("tried", c_uint64),
        ("due", c_uint64),
        ("rises", c_uint64),
        ("bytes", c_uint64),
        ("latest", c_uint64),
        ("received", c_uint64),
        ("kept", c_size_t),
        ("end_size", c_size_t),
        ("filled", c_size_t),
        ("shown", c_size_t),
        ("unsent", c_size_t),
        ("known", rtr_known),
        ("answer", rtr_known),
        ("wait", c_uint32),
        ("rise_wait", c_uint32),
        ("units", c_uint32),
        ("note", c_uint32),
        ("mark", c_uint32),
        ("session", c_uint16),
        ("phase", c_uint8),
        ("version", c_uint8),
        ("floor", c_uint8),
        ("agreed", c_uint8),
        ("fell", c_uint8),
        ("silent", c_uint8),
        ("changes", c_uint8),
        ("resync", c_uint8),
        ("answered", c_uint8),
        ("noted", c_uint8),
        ("has_data", c_uint8),
        ("holding", c_uint8),
        ("since", c_uint8),
        ("shows", c_uint8),
        ("second", c_uint8),
        ("opened", c_uint8),
        ("closed", c_uint8),
    ]


class rtr_todo(Structure):
    # When to call rtr_link_next, if nothing comes before. It may have passed.
    wakes: int
    # The offset of the unit that it is about, in all bytes of the connection. If an answer
    # can't be applied, the offset of the refused change in the payload units of the answer, or
    # 0 if none is refused. At any other end that is about no unit, the number of bytes that
    # came before those of the input.
    position: int
    # The length that a buffer needs: in bytes, of the index in entries.
    room: int
    # The offset of that unit in the input.
    offset: int
    # The error code of the report that the output ends with.
    code: int
    # What to do, an rtr_todo_kind.
    kind: int
    # Why the connection ends, an rtr_cause.
    cause: int
    # Why a unit or a change is refused, an rtr_status; else 0.
    status: int
    # The detail of the status, as in an rtr_answer.
    detail: int
    # Whether there are no data any more.
    drops: bool
    # Whether the output ends with a report.
    reports: bool

    _fields_ = [
        ("wakes", c_uint64),
        ("position", c_uint64),
        ("room", c_size_t),
        ("offset", c_size_t),
        ("code", c_uint16),
        ("kind", c_uint8),
        ("cause", c_uint8),
        ("status", c_uint8),
        ("detail", c_uint8),
        ("drops", c_bool),
        ("reports", c_bool),
    ]


class rtr_link_state(Structure):
    # When to call rtr_link_next, if nothing comes before. It may have passed.
    wakes: int
    # The offset in the input at which the next bytes are read.
    filled: int
    # The number of unsent bytes of the output, from its front.
    unsent: int
    # The length of the data, in canonical form; 0 if there are none.
    shown: int
    # The length of the payload units of a whole answer, at the front of the input, which the
    # next rtr_link_next applies; or 0.
    answer: int
    # Whether there are data, which haven't expired at this time.
    has_data: bool
    # Whether the data are in the second buffer.
    second: bool
    # Whether a whole answer is there.
    answers: bool
    # Whether its units are changes of the data, and not all payloads.
    since: bool

    _fields_ = [
        ("wakes", c_uint64),
        ("filled", c_size_t),
        ("unsent", c_size_t),
        ("shown", c_size_t),
        ("answer", c_size_t),
        ("has_data", c_bool),
        ("second", c_bool),
        ("answers", c_bool),
        ("since", c_bool),
    ]


class rtr_group_settings(Structure):
    # How long, in milliseconds, a member may have no whole answer before the next one is
    # started too, while none is current; default 5 seconds.
    patience: int
    # Whether a whole answer without payloads counts as data, and not as a failure that drops
    # them; default false.
    empty_is_data: bool

    _fields_ = [
        ("patience", c_uint32),
        ("empty_is_data", c_bool),
    ]


class rtr_group(Structure):
    # The settings of the group.
    settings: rtr_group_settings
    # The number of members.
    count: int
    # The number of members that run, from the first on.
    runs: int
    # When the next member is started, while none is current.
    due: int
    # Whether each member that runs has data.
    has: Any
    # Whether the last member that runs is current.
    current: bool

    _fields_ = [
        ("settings", rtr_group_settings),
        ("count", c_size_t),
        ("runs", c_size_t),
        ("due", c_uint64),
        ("has", c_bool * 16),
        ("current", c_bool),
    ]


class rtr_group_answer(Structure):
    # The member whose data to show, for RTR_GROUP_DATA.
    member: int
    # The first member to stop, if `stops`.
    stop: int
    # The member to start, if `starts`.
    start: int
    # How the shown data change, an rtr_group_shown.
    shown: int
    # Whether members have to be stopped.
    stops: bool
    # Whether a member has to be started.
    starts: bool

    _fields_ = [
        ("member", c_size_t),
        ("stop", c_size_t),
        ("start", c_size_t),
        ("shown", c_uint8),
        ("stops", c_bool),
        ("starts", c_bool),
    ]


class rtr_present(Structure):
    # The serial number of the newest data.
    serial: int
    # The session of the newest data.
    session: int
    # Whether there are data; if not, the two other fields are ignored.
    has: bool

    _fields_ = [
        ("serial", c_uint32),
        ("session", c_uint16),
        ("has", c_bool),
    ]


class rtr_cache_settings(Structure):
    # The time limit to the first query; default 30 seconds.
    first_limit: int
    # The time limit from a query to the next; default 25 hours.
    idle_limit: int
    # The least time between two notifies; default 1 minute.
    pause: int
    # Whether a serial query whose changes aren't known is answered by a report of code 0 and
    # the end, instead of a cache reset; default false.
    refuses: bool

    _fields_ = [
        ("first_limit", c_uint32),
        ("idle_limit", c_uint32),
        ("pause", c_uint32),
        ("refuses", c_bool),
    ]


class rtr_cache(Structure):
    settings: rtr_cache_settings
    notify_from: int
    due: int
    # The serial number of the newest data that the router was sent or notified of, if `told`;
    # or of the newest data at the cache reset that made it ask for all data, if `reset`.
    serial: int
    session: int
    # The version of the connection, if a query came, `asked`.
    version: int
    live: bool
    asked: bool
    told: bool
    reset: bool

    _fields_ = [
        ("settings", rtr_cache_settings),
        ("notify_from", c_uint64),
        ("due", c_uint64),
        ("serial", c_uint32),
        ("session", c_uint16),
        ("version", c_uint8),
        ("live", c_bool),
        ("asked", c_bool),
        ("told", c_bool),
        ("reset", c_bool),
    ]


class rtr_serving(Structure):
    # The number of bytes of the input that were consumed: its first unit; a unit that is
    # refused isn't consumed, since the connection ends.
    taken: int
    # After rtr_cache_read, if there is no whole unit, the least number of input bytes needed,
    # as in an rtr_unit.
    wanted: int
    # The serial number of all data or a notify; for RTR_SERVE_CHANGES, that of the data from
    # which they lead.
    serial: int
    # The session of all data, changes or a notify.
    session: int
    # The error code of the report.
    code: int
    # What to send, an rtr_serving_kind.
    kind: int
    # The protocol version of what is sent.
    version: int
    # Why the connection ends, an rtr_reason.
    reason: int
    # Why a unit is refused, an rtr_status; else 0.
    status: int
    # The detail of the status, as in an rtr_answer.
    detail: int
    # Whether a report is owed.
    reports: bool

    _fields_ = [
        ("taken", c_size_t),
        ("wanted", c_size_t),
        ("serial", c_uint32),
        ("session", c_uint16),
        ("code", c_uint16),
        ("kind", c_uint8),
        ("version", c_uint8),
        ("reason", c_uint8),
        ("status", c_uint8),
        ("detail", c_uint8),
        ("reports", c_bool),
    ]


class rtr_server_settings(Structure):
    cache: rtr_cache_settings
    # How long, at least, changes from data are kept after newer data came; default 2 hours.
    keep: int
    # The most bytes of changes that are kept; default 64 MiB.
    keep_bytes: int
    # From a unit's first byte to its last; default 10 seconds.
    unit_limit: int
    # Without a byte of an answer sent; default 30 seconds.
    write_limit: int
    # To send a whole answer; default 10 minutes.
    response_limit: int
    # To send the last report, and for the router to read it; default 10 seconds.
    report_limit: int
    # The most connections that are served at once; default 1024.
    most_connections: int
    # The most connections above that limit that get a report of code 1 at once; default 64.
    most_refused: int
    # How many newer data may come while a connection is sent an answer; default 2.
    most_behind: int

    _fields_ = [
        ("cache", rtr_cache_settings),
        ("keep", c_uint64),
        ("keep_bytes", c_size_t),
        ("unit_limit", c_uint32),
        ("write_limit", c_uint32),
        ("response_limit", c_uint32),
        ("report_limit", c_uint32),
        ("most_connections", c_uint32),
        ("most_refused", c_uint32),
        ("most_behind", c_uint32),
    ]


class rtr_door(Structure):
    most_connections: int
    most_refused: int
    # The connections that are served.
    served: int
    # The connections that are being refused.
    refused: int

    _fields_ = [
        ("most_connections", c_uint32),
        ("most_refused", c_uint32),
        ("served", c_uint32),
        ("refused", c_uint32),
    ]


class rtr_connection(Structure):
    settings: rtr_server_settings
    # When the first unheard byte came.
    begun: int
    # When a byte of the answer was sent last.
    taken: int
    # When all of the answer must be sent; at an end, when to close.
    until: int
    # The number of the newest data when the answer began.
    number: int
    # The bytes that came and weren't heard.
    filled: int
    # The bytes of the answer, or of the last report, that weren't sent.
    unsent: int
    # 0 if it is served, 1 if it ended with a report, 2 if it ended without one or broke.
    state: int
    # Whether there may be a whole unit among the unheard bytes.
    fresh: bool
    # Whether the router has closed.
    closed: bool

    _fields_ = [
        ("settings", rtr_server_settings),
        ("begun", c_uint64),
        ("taken", c_uint64),
        ("until", c_uint64),
        ("number", c_uint64),
        ("filled", c_size_t),
        ("unsent", c_size_t),
        ("state", c_uint8),
        ("fresh", c_bool),
        ("closed", c_bool),
    ]


class rtr_stores(Structure):
    # The length of the store that is served, or 0.
    served: int
    # The length of the store that waits to be saved, or 0.
    taken: int
    mark: int
    # The session of a start that doesn't save, or 0.
    session: int
    # Whether a store is served.
    serves: int
    # Whether a store waits to be saved.
    waits: int
    # Whether the store that is served is in the second buffer.
    second: int
    # Whether the cache doesn't save.
    unsaved: int

    _fields_ = [
        ("served", c_size_t),
        ("taken", c_size_t),
        ("mark", c_uint32),
        ("session", c_uint16),
        ("serves", c_uint8),
        ("waits", c_uint8),
        ("second", c_uint8),
        ("unsaved", c_uint8),
    ]


class rtr_history_limits(Structure):
    # The time for which a step is kept, in milliseconds.
    time: int
    # The greatest size of all steps in bytes, 16 bytes for each step included.
    bytes: int

    _fields_ = [
        ("time", c_uint64),
        ("bytes", c_size_t),
    ]


class rtr_stores_answer(Structure):
    # The length of the store or the changes that were written, or the number of serial
    # numbers.
    length: int
    # After RTR_STORES_FLAW, the offset of the unit at fault in the data.
    offset: int
    # After RTR_STORES_NO_ROOM, the length that suffices for this call; of the index and of
    # serial numbers in entries.
    wanted: int
    # The result of the call, an rtr_stores_status.
    status: int
    # After RTR_STORES_NO_ROOM, the buffer that is too short, an rtr_room.
    room: int
    # After RTR_STORES_FLAW, why the unit is refused, an rtr_status.
    flaw: int
    # After RTR_STORES_FLAW, the detail of that, as in an rtr_data_answer; after
    # RTR_STORES_OTHER_VERSION, the version of the data.
    detail: int

    _fields_ = [
        ("length", c_size_t),
        ("offset", c_size_t),
        ("wanted", c_size_t),
        ("status", c_uint8),
        ("room", c_uint8),
        ("flaw", c_uint8),
        ("detail", c_uint8),
    ]


class rtr_stores_state(Structure):
    # The offset of the history that is served, in the buffer of its store.
    offset: int
    # The length of that history.
    length: int
    # The length of the store to save, at the front of the other buffer.
    taken: int
    # Whether a history is served.
    serves: bool
    # Whether a store has to be saved.
    waits: bool
    # Whether the second buffer has the store that is served, and the first the other one.
    second: bool

    _fields_ = [
        ("offset", c_size_t),
        ("length", c_size_t),
        ("taken", c_size_t),
        ("serves", c_bool),
        ("waits", c_bool),
        ("second", c_bool),
    ]


class rtr_store_head(Structure):
    # The head, as it begins the file.
    bytes: Any

    _fields_ = [
        ("bytes", c_uint8 * 24),
    ]


# The fields of these structs, for the module struct.
UNIT_LETTERS = "@NNNNNNIIIIIIHHBBBBBB16s20sB0N"
ROUTE_LETTERS = "@IBB16s0I"

# What each function of the library returns, and what it takes.
PROTOTYPES: dict[str, tuple[Any, list[Any]]] = {
    "rtr_normalise_slice_nonnull": (c_uint8, [c_void_p, c_size_t, c_void_p, c_size_t, c_uint64,
        POINTER(rtr_answer)]),
    "rtr_normalise_for_slice_nonnull": (c_uint8, [c_void_p, c_size_t, c_void_p, c_size_t, c_uint64,
        c_uint8, POINTER(rtr_answer)]),
    "rtr_unit_size_nonnull": (c_uint8, [c_void_p, c_size_t, c_void_p, c_void_p]),
    "rtr_next_nonnull": (c_uint8, [c_void_p, c_size_t, POINTER(rtr_unit)]),
    "rtr_next_many_nonnull": (c_uint8, [c_void_p, c_size_t, POINTER(rtr_unit), c_size_t, c_void_p,
        c_void_p]),
    "rtr_line_nonnull": (c_uint8, [c_void_p, c_size_t, c_uint64, c_void_p, c_size_t,
        POINTER(rtr_line)]),
    "rtr_json_nonnull": (c_uint8, [c_void_p, c_size_t, c_uint64, c_void_p, c_size_t,
        POINTER(rtr_line)]),
    "rtr_change_line_nonnull": (c_uint8, [c_void_p, c_size_t, c_void_p, c_size_t,
        POINTER(rtr_line)]),
    "rtr_change_json_nonnull": (c_uint8, [c_void_p, c_size_t, c_void_p, c_size_t,
        POINTER(rtr_line)]),
    "rtr_text_nonnull": (c_uint8, [c_uint8, c_uint8, c_void_p, c_size_t, c_void_p]),
    "rtr_text_at_nonnull": (c_uint8, [c_uint8, c_uint8, c_uint64, c_void_p, c_size_t, c_void_p]),
    "rtr_report_text_nonnull": (c_uint8, [c_uint16, c_void_p, c_size_t, c_void_p, c_size_t,
        c_void_p]),
    "rtr_name_nonnull": (c_uint8, [c_uint8, c_uint16, c_void_p, c_size_t, c_void_p]),
    "rtr_provider_nonnull": (c_bool, [POINTER(rtr_unit), c_void_p, c_size_t, c_size_t, c_void_p]),
    "rtr_error_code_nonnull": (c_bool, [c_uint8, c_void_p, c_size_t, c_void_p]),
    "rtr_serial_order": (c_uint8, [c_uint32, c_uint32]),
    "rtr_version_has": (c_bool, [c_uint8, c_uint8]),
    "rtr_times_rule": (c_uint8, [c_uint32, c_uint32, c_uint32]),
    "rtr_end_rule": (c_uint8, [c_uint8, c_uint32, c_uint32, c_uint32]),
    "rtr_wire_version": (c_uint32, []),
    "rtr_write_unit_nonnull": (c_uint8, [POINTER(rtr_unit), c_void_p, c_size_t, c_void_p, c_size_t,
        c_void_p]),
    "rtr_same_meaning_nonnull": (c_uint8, [c_void_p, c_size_t, c_void_p, c_size_t, c_uint64,
        POINTER(rtr_comparison)]),
    "rtr_delta_nonnull": (c_uint8, [c_void_p, c_size_t, c_void_p, c_size_t, c_void_p, c_size_t,
        POINTER(rtr_data_answer)]),
    "rtr_changes_between_nonnull": (c_uint8, [c_void_p, c_size_t, c_void_p, c_size_t, c_void_p,
        c_size_t, POINTER(rtr_data_answer)]),
    "rtr_apply_nonnull": (c_uint8, [c_void_p, c_size_t, c_void_p, c_size_t, c_void_p, c_size_t,
        POINTER(rtr_data_answer)]),
    "rtr_apply_in_order_nonnull": (c_uint8, [c_void_p, c_size_t, c_void_p, c_size_t, c_void_p,
        c_size_t, c_void_p, c_size_t, POINTER(rtr_data_answer)]),
    "rtr_order_nonnull": (c_uint8, [c_void_p, c_size_t, c_void_p, c_size_t, c_void_p, c_size_t,
        POINTER(rtr_data_answer)]),
    "rtr_load_nonnull": (c_uint8, [c_void_p, c_size_t, c_void_p, c_size_t, c_void_p, c_size_t,
        c_void_p, c_size_t, POINTER(rtr_loaded)]),
    "rtr_end_offset_nonnull": (c_size_t, [c_void_p, c_size_t]),
    "rtr_check_data_nonnull": (c_uint8, [c_void_p, c_size_t, POINTER(rtr_lookup),
        POINTER(rtr_data_answer)]),
    "rtr_validate_nonnull": (c_uint8, [c_void_p, c_size_t, POINTER(rtr_lookup),
        POINTER(rtr_route)]),
    "rtr_validate_many_nonnull": (c_size_t, [c_void_p, c_size_t, POINTER(rtr_lookup),
        POINTER(rtr_route), c_size_t, c_void_p, c_size_t]),
    "rtr_covering_nonnull": (c_uint8, [c_void_p, c_size_t, POINTER(rtr_lookup), POINTER(rtr_route),
        c_size_t, POINTER(rtr_covering)]),
    "rtr_check_name_nonnull": (c_uint8, [c_void_p, c_size_t, c_void_p, c_size_t,
        POINTER(rtr_naming)]),
    "rtr_check_unit_nonnull": (c_uint8, [POINTER(rtr_check), c_void_p, c_size_t, c_bool,
        POINTER(rtr_checked)]),
    "rtr_check_end": (None, [POINTER(rtr_check), POINTER(rtr_finding)]),
    "rtr_finding_line_nonnull": (c_size_t, [POINTER(rtr_finding), c_uint64, c_void_p, c_size_t]),
    "rtr_settings_usual": (None, [POINTER(rtr_settings), c_uint8]),
    "rtr_router_init": (None, [POINTER(rtr_router), POINTER(rtr_settings)]),
    "rtr_router_again": (None, [POINTER(rtr_router)]),
    "rtr_router_has_data": (c_bool, [POINTER(rtr_router), c_uint64]),
    "rtr_router_tick": (None, [POINTER(rtr_router), c_uint64, POINTER(rtr_action)]),
    "rtr_router_asked": (None, [POINTER(rtr_router), c_uint64, POINTER(rtr_action)]),
    "rtr_router_connected": (None, [POINTER(rtr_router), c_uint64, POINTER(rtr_action)]),
    "rtr_router_lost": (None, [POINTER(rtr_router), c_uint64, POINTER(rtr_action)]),
    "rtr_router_applied": (None, [POINTER(rtr_router), c_uint64, POINTER(rtr_action)]),
    "rtr_router_not_applied": (None, [POINTER(rtr_router), c_uint64, c_uint8, POINTER(rtr_action)]),
    "rtr_router_wakes": (c_uint64, [POINTER(rtr_router)]),
    "rtr_router_read_nonnull": (None, [POINTER(rtr_router), c_uint64, c_void_p, c_size_t, c_bool,
        POINTER(rtr_action)]),
    "rtr_router_query_nonnull": (c_size_t, [POINTER(rtr_action), c_void_p, c_size_t]),
    "rtr_router_report_nonnull": (c_bool, [POINTER(rtr_action), c_void_p, c_size_t, c_void_p,
        c_size_t, c_void_p]),
    "rtr_link_init": (None, [POINTER(rtr_link), POINTER(rtr_settings)]),
    "rtr_link_again": (c_uint8, [POINTER(rtr_link)]),
    "rtr_link_opened": (c_uint8, [POINTER(rtr_link)]),
    "rtr_link_lost": (c_uint8, [POINTER(rtr_link)]),
    "rtr_link_received_nonnull": (c_uint8, [POINTER(rtr_link), c_void_p, c_size_t, c_size_t]),
    "rtr_link_sent_nonnull": (c_uint8, [POINTER(rtr_link), c_void_p, c_size_t, c_size_t]),
    "rtr_link_next_nonnull": (c_uint8, [POINTER(rtr_link), c_uint64, c_void_p, c_size_t, c_void_p,
        c_size_t, c_void_p, c_size_t, c_void_p, c_size_t, c_void_p, c_size_t, POINTER(rtr_todo)]),
    "rtr_link_ask_now_nonnull": (c_uint8, [POINTER(rtr_link), c_uint64, c_void_p, c_size_t,
        c_void_p, c_size_t, POINTER(rtr_todo)]),
    "rtr_link_give_up_nonnull": (c_uint8, [POINTER(rtr_link), c_uint64, c_void_p, c_size_t,
        c_void_p, c_size_t, POINTER(rtr_todo)]),
    "rtr_todo_failure": (c_uint8, [POINTER(rtr_todo), c_bool]),
    "rtr_link_state_of": (c_uint8, [POINTER(rtr_link), c_uint64, c_size_t, c_size_t, c_size_t,
        c_size_t, POINTER(rtr_link_state)]),
    "rtr_group_usual": (None, [POINTER(rtr_group_settings)]),
    "rtr_group_init": (c_uint8, [POINTER(rtr_group), POINTER(rtr_group_settings), c_size_t,
        c_uint64]),
    "rtr_group_best": (c_bool, [POINTER(rtr_group), c_void_p]),
    "rtr_group_counts": (c_bool, [POINTER(rtr_group), c_size_t]),
    "rtr_group_wakes": (c_uint64, [POINTER(rtr_group)]),
    "rtr_group_tick": (None, [POINTER(rtr_group), c_uint64, POINTER(rtr_group_answer)]),
    "rtr_group_tell": (c_uint8, [POINTER(rtr_group), c_uint64, c_size_t, POINTER(rtr_todo),
        c_size_t, POINTER(rtr_group_answer)]),
    "rtr_group_shows": (None, [POINTER(rtr_group), c_uint64, c_size_t, c_size_t,
        POINTER(rtr_group_answer)]),
    "rtr_group_drops": (None, [POINTER(rtr_group), c_uint64, c_size_t, POINTER(rtr_group_answer)]),
    "rtr_group_fails": (None, [POINTER(rtr_group), c_uint64, c_size_t, POINTER(rtr_group_answer)]),
    "rtr_cache_settings_usual": (None, [POINTER(rtr_cache_settings)]),
    "rtr_cache_init": (None, [POINTER(rtr_cache), c_uint64, POINTER(rtr_cache_settings)]),
    "rtr_cache_tick": (None, [POINTER(rtr_cache), c_uint64, POINTER(rtr_present),
        POINTER(rtr_serving)]),
    "rtr_cache_full": (None, [POINTER(rtr_cache), c_uint64, POINTER(rtr_present),
        POINTER(rtr_serving)]),
    "rtr_cache_lost": (None, [POINTER(rtr_cache), c_uint64, POINTER(rtr_present),
        POINTER(rtr_serving)]),
    "rtr_cache_wakes": (c_uint64, [POINTER(rtr_cache), POINTER(rtr_present)]),
    "rtr_cache_read_nonnull": (None, [POINTER(rtr_cache), c_uint64, POINTER(rtr_present), c_void_p,
        c_size_t, c_void_p, c_size_t, c_bool, POINTER(rtr_serving)]),
    "rtr_cache_unit_nonnull": (c_size_t, [POINTER(rtr_serving), c_void_p, c_size_t]),
    "rtr_cache_report_nonnull": (c_bool, [POINTER(rtr_serving), c_void_p, c_size_t, c_void_p,
        c_size_t, c_void_p]),
    "rtr_server_settings_usual": (None, [POINTER(rtr_server_settings)]),
    "rtr_server_keeps": (c_bool, [POINTER(rtr_server_settings), c_size_t, c_size_t]),
    "rtr_door_init": (None, [POINTER(rtr_door), POINTER(rtr_server_settings)]),
    "rtr_door_next": (c_uint8, [POINTER(rtr_door), c_bool]),
    "rtr_door_enter": (c_uint8, [POINTER(rtr_door), c_bool]),
    "rtr_door_leave": (c_bool, [POINTER(rtr_door), c_uint8]),
    "rtr_connection_init": (None, [POINTER(rtr_connection), c_uint64,
        POINTER(rtr_server_settings)]),
    "rtr_connection_received": (None, [POINTER(rtr_connection), c_uint64, c_size_t]),
    "rtr_connection_closed": (None, [POINTER(rtr_connection)]),
    "rtr_connection_broke": (None, [POINTER(rtr_connection)]),
    "rtr_connection_reads": (c_bool, [POINTER(rtr_connection)]),
    "rtr_connection_heard": (None, [POINTER(rtr_connection), c_uint64, c_size_t]),
    "rtr_connection_answers": (c_bool, [POINTER(rtr_connection), c_uint64, c_size_t, c_uint64]),
    "rtr_connection_ends": (c_bool, [POINTER(rtr_connection), c_uint64, c_size_t]),
    "rtr_connection_sent": (c_bool, [POINTER(rtr_connection), c_uint64, c_size_t]),
    "rtr_connection_next": (c_uint8, [POINTER(rtr_connection), c_uint64, POINTER(rtr_cache),
        POINTER(rtr_present), c_uint64, c_void_p]),
    "rtr_connection_wakes": (c_uint64, [POINTER(rtr_connection), POINTER(rtr_cache),
        POINTER(rtr_present)]),
    "rtr_stores_new": (None, [POINTER(rtr_stores)]),
    "rtr_stores_unsaved": (None, [POINTER(rtr_stores), c_uint16]),
    "rtr_stores_start_nonnull": (c_uint8, [POINTER(rtr_stores), c_size_t, c_void_p, c_size_t,
        c_void_p, c_size_t, c_void_p, c_size_t, POINTER(rtr_stores_answer)]),
    "rtr_stores_take_nonnull": (c_uint8, [POINTER(rtr_stores), c_void_p, c_size_t, c_uint64,
        POINTER(rtr_history_limits), c_void_p, c_size_t, c_void_p, c_size_t, c_void_p, c_size_t,
        c_void_p, c_size_t, POINTER(rtr_stores_answer)]),
    "rtr_stores_version": (c_uint8, [POINTER(rtr_present), c_uint8, c_uint16, c_uint8]),
    "rtr_stores_saved": (c_uint8, [POINTER(rtr_stores)]),
    "rtr_stores_give_up": (c_uint8, [POINTER(rtr_stores)]),
    "rtr_retry_after": (c_uint32, [c_uint32]),
    "rtr_stores_state_nonnull": (c_uint8, [POINTER(rtr_stores), c_void_p, c_size_t, c_void_p,
        c_size_t, POINTER(rtr_stores_state)]),
    "rtr_history_since_nonnull": (c_uint8, [c_void_p, c_size_t, c_uint32, c_uint8, c_void_p,
        c_size_t, c_void_p, c_size_t, c_void_p, c_size_t, c_void_p, c_size_t,
        POINTER(rtr_stores_answer)]),
    "rtr_history_data_nonnull": (c_bool, [c_void_p, c_size_t, c_void_p, c_void_p]),
    "rtr_history_knows_nonnull": (c_bool, [c_void_p, c_size_t, c_uint32]),
    "rtr_history_serials_nonnull": (c_uint8, [c_void_p, c_size_t, c_void_p, c_size_t,
        POINTER(rtr_stores_answer)]),
    "rtr_store_seal_nonnull": (None, [c_void_p, c_size_t, POINTER(rtr_store_head)]),
    "rtr_store_open_nonnull": (c_bool, [c_void_p, c_size_t]),
    "rtr_store_open_old_nonnull": (c_uint8, [c_void_p, c_size_t, c_void_p, c_size_t,
        POINTER(rtr_stores_answer)]),
}
