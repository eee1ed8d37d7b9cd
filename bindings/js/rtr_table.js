// What the crate rtr_c declares. `generate` made this file of it: don't edit it.

export const VERSION = "0.3.0";
export const VERSION_NUMBER = 300;
export const HIGHEST_VERSION = 2;
export const HEADER_SIZE = 8;
export const SERIAL_SIZE = 12;
export const IPV4_SIZE = 20;
export const IPV6_SIZE = 32;
export const KEY_SIZE = 32;
export const ASPA_SIZE = 12;
export const REPORT_SIZE = 16;
export const SHORTEST_END = 12;
export const LONGEST_END = 24;
export const SHORTEST_PAYLOAD = 12;
export const LONGEST_UNIT = 65535;
export const MOST_KEY_INFO = 65503;
export const MOST_PROVIDER_BYTES = 65520;
export const MOST_REPORT_PARTS = 65519;
export const USUAL_REFRESH = 3600;
export const LEAST_REFRESH = 1;
export const MOST_REFRESH = 86400;
export const USUAL_RETRY = 600;
export const LEAST_RETRY = 1;
export const MOST_RETRY = 7200;
export const USUAL_EXPIRE = 7200;
export const LEAST_EXPIRE = 600;
export const MOST_EXPIRE = 172800;
export const USUAL_VERSION = 1;
export const MOST_MEMBERS = 16;
export const LAST_REPORT_LIMIT = 2000;
export const LAST_REPORT_BYTES = 1048576;
export const TEXT_ROOM = 64;
export const TEXT_AT_ROOM = 96;
export const REPORT_TEXT_ROOM = 136;
export const NAME_ROOM = 65528;
export const LINE_ROOM = 160;
export const FINDING_ROOM = 128;
export const MOST_QUOTED = 100;
export const FAILURE_NO_MEMORY = "no memory";
export const FAILURE_EMPTY = "the cache has no payloads";
export const FAILURE_STOPPED = "the client was stopped";
export const FAILURE_SLOW = "the peer is too slow";
export const FAILURE_NO_OTHER = "there is no other connection";
export const FAILURE_MORE_READ = "more bytes were read than there is room for";
export const FAILURE_MORE_SENT = "more bytes were sent than there are";
export const FAILURE_BEHIND = "the router is too far behind";
export const FAILURE_CLOSED = "the server is closed";
export const FAILURE_OLD_SERIAL = "the serial number isn't later than that of the present data";
export const FAILURE_OTHER_TIMES = "only the times differ from those of the present data";
export const FAILURE_SESSION_LEFT = "the cache left this session: the data need a new one";
export const FAILURE_OTHER_SESSION = "a cache that doesn't save has one session";
export const FAILURE_UNSAVED = "the cache serves data that it didn't save";
export const FAILURE_NOT_RESTORED = "the file exists, and wasn't restored";
export const FAILURE_OTHER_FILE = "the data are saved in another file";
export const FAILURE_UNSYNCED = "the folder isn't synced";
export const FAILURE_HIGHER_VERSION = "the saved data are of a lower version: the data need a new session";
export const FAILURE_UNSERVED = "new data aren't served before they are saved";
export const FAILURE_DAMAGED = "the saved file is damaged: the data need a new session";
export const WARNING_SERIAL_0 = "serial number 0: a router that lost its first answer may ask with it, and keep a part of the data";

export const Status = Object.freeze({
    OK: 0,
    SHORT: 1,
    UNIT_TYPE: 2,
    UNIT_VERSION: 3,
    TOO_LONG: 4,
    UNIT_LENGTH: 5,
    EMPTY_PROVIDERS: 6,
    PREFIX: 7,
    TOO_MANY: 8,
    NO_ROOM: 9,
    NO_FORM: 10,
    NOT_CANONICAL: 12,
    OTHER_SESSION: 13,
    DUPLICATE: 14,
    UNKNOWN: 15,
    UNDECIDED: 16,
    NO_INDEX: 17,
    TOO_MANY_MEMBERS: 18,
    OTHER_VERSION: 19,
    OLD_SERIAL: 20,
    RESET_INSIDE: 21,
    REPORT_INSIDE: 22,
});

export const PrefixRule = Object.freeze({
    LENGTH_OVER: 1,
    MAX_LENGTH_OVER: 2,
    MAX_LENGTH_UNDER: 3,
});

export const Kind = Object.freeze({
    SERIAL_NOTIFY: 0,
    SERIAL_QUERY: 1,
    RESET_QUERY: 2,
    CACHE_RESPONSE: 3,
    IPV4_PREFIX: 4,
    IPV6_PREFIX: 6,
    END_OF_DATA: 7,
    CACHE_RESET: 8,
    ROUTER_KEY: 9,
    ERROR_REPORT: 10,
    ASPA: 11,
});

export const ErrorCode = Object.freeze({
    CORRUPT_DATA: 0,
    INTERNAL_ERROR: 1,
    NO_DATA_AVAILABLE: 2,
    INVALID_REQUEST: 3,
    UNSUPPORTED_PROTOCOL_VERSION: 4,
    UNSUPPORTED_PDU_TYPE: 5,
    WITHDRAWAL_OF_UNKNOWN_RECORD: 6,
    DUPLICATE_ANNOUNCEMENT_RECEIVED: 7,
    UNEXPECTED_PROTOCOL_VERSION: 8,
    ASPA_PROVIDER_LIST_ERROR: 9,
    TRANSPORT_ERROR: 10,
    ORDERING_ERROR: 11,
});

export const SerialOrder = Object.freeze({
    EQUAL: 0,
    LESS: 1,
    GREATER: 2,
    NO_ORDER: 3,
});

export const Named = Object.freeze({
    STATUS: 0,
    KIND: 1,
    CAUSE: 2,
    REASON: 3,
    CODE: 4,
    TIME_RULE: 5,
});

export const TimeRule = Object.freeze({
    NONE: 0,
    REFRESH: 1,
    RETRY: 2,
    EXPIRE: 3,
    ABOVE_REFRESH: 4,
    ABOVE_RETRY: 5,
});

export const Side = Object.freeze({
    LEFT: 1,
    RIGHT: 2,
});

export const Validity = Object.freeze({
    NOT_FOUND: 0,
    VALID: 1,
    INVALID: 2,
    NO_ROUTE: 3,
    UNCHECKED: 4,
});

export const Covers = Object.freeze({
    NONE: 0,
    ONE: 1,
    NO_ROUTE: 2,
    UNCHECKED: 3,
});

export const Mismatch = Object.freeze({
    MATCHES: 0,
    AS_ZERO: 1,
    OTHER_AS: 2,
    LONGER: 3,
});

export const Rule = Object.freeze({
    NONE: 0,
    RESERVED: 1,
    FLAGS: 2,
    PREFIX_LENGTH: 3,
    MAX_LENGTH: 4,
    MAX_BELOW: 5,
    HOST_BITS: 6,
    VERSION: 7,
    SESSION: 8,
    CUT_OFF: 9,
    NO_ANSWER: 10,
    LACKS: 11,
    WITHDRAWN_PROVIDERS: 12,
    TWICE: 13,
    PROVIDER_ORDER: 14,
    REPORT_PARTS: 15,
    REPORT_TEXT: 16,
    REPORT_OF_REPORT: 17,
    TIMES: 18,
});

export const Phase = Object.freeze({
    OFFLINE: 0,
    CONNECTING: 1,
    ASKED: 2,
    READING: 3,
    APPLYING: 4,
    WAITING: 5,
});

export const ActionKind = Object.freeze({
    WAIT: 0,
    CONNECT: 1,
    ASK: 2,
    BEGIN: 3,
    KEEP: 4,
    APPLY: 5,
    SHOW: 6,
    NO_DATA: 7,
    DROP: 8,
    END: 9,
});

export const Cause = Object.freeze({
    LOST: 0,
    SLOW: 1,
    FAULTY: 2,
    REPORTED: 3,
    OUT_OF_PLACE: 4,
    NO_SUCH_PAYLOAD: 5,
    OTHER_VERSION: 6,
    HIGHER_VERSION: 7,
    OTHER_SESSION: 8,
    OLD_SERIAL: 9,
    OTHER_DATA: 10,
    TOO_LONG: 11,
    NOT_APPLIED: 12,
    EXPIRED: 13,
    LOWER: 14,
    HIGHER: 15,
});

export const LinkStatus = Object.freeze({
    OK: 0,
    NOT_BEGUN: 1,
    SHORT_BUFFER: 2,
    BAD_TIME: 3,
    OUT_OF_TURN: 4,
    TOO_LONG: 5,
});

export const TodoKind = Object.freeze({
    NOTHING: 0,
    GO: 1,
    WAIT: 2,
    CONNECT: 3,
    CLOSE: 4,
    DATA: 5,
    DROPPED: 6,
    NO_DATA: 7,
    INPUT_ROOM: 8,
    FIRST_ROOM: 9,
    SECOND_ROOM: 10,
    INDEX_ROOM: 11,
    OUTPUT_ROOM: 12,
});

export const ClientFailure = Object.freeze({
    NONE: 0,
    LOST: 1,
    SLOW: 2,
    TOO_LONG: 3,
    REFUSED: 4,
    BREACH: 5,
    REPORTED: 6,
    EXPIRED: 7,
    MEMORY: 8,
});

export const GroupShown = Object.freeze({
    SAME: 0,
    DATA: 1,
    NOTHING: 2,
});

export const GroupStatus = Object.freeze({
    TOLD: 0,
    NO_TODO: 1,
    NO_MEMBER: 2,
});

export const ServingKind = Object.freeze({
    WAIT: 0,
    ALL: 1,
    CHANGES: 2,
    RESET: 3,
    NO_DATA: 4,
    NOTIFY: 5,
    END: 6,
});

export const Reason = Object.freeze({
    LOST: 0,
    SLOW: 1,
    FULL: 2,
    FAULTY: 3,
    REPORTED: 4,
    NO_QUERY: 5,
    OTHER_VERSION: 6,
    NO_VERSION: 7,
    NEW_SESSION: 8,
    UNKNOWN: 9,
});

export const Entry = Object.freeze({
    SERVE: 0,
    REFUSE: 1,
    WAIT: 2,
});

export const Step = Object.freeze({
    WAIT: 0,
    HEAR: 1,
    TICK: 2,
    LOSE: 3,
    SEND: 4,
    FINISH: 5,
    CLOSE: 6,
});

export const Cut = Object.freeze({
    NONE: 0,
    SLOW: 1,
    NEW_SESSION: 2,
    BEHIND: 3,
});

export const StoresStatus = Object.freeze({
    OK: 0,
    NOT_MADE: 1,
    SHORT_BUFFER: 2,
    WAITS: 3,
    FLAW: 4,
    OTHER_SESSION: 5,
    SESSION_LEFT: 6,
    OTHER_VERSION: 7,
    SAME_DATA: 8,
    OTHER_TIMES: 9,
    OLD_SERIAL: 10,
    MALFORMED: 11,
    NO_ROOM: 12,
    UNKNOWN_SERIAL: 13,
    UNIT_VERSION: 14,
});

export const Room = Object.freeze({
    INDEX: 1,
    BUFFER: 2,
    SPARE: 3,
    OUTPUT: 4,
    FIRST: 5,
    SECOND: 6,
});

export const STRUCTS = Object.freeze({
    answer: { size: 48, fields: [
        ["units", 0, "uint64"],
        ["forms", 8, "uint64"],
        ["taken", 16, "size"],
        ["written", 24, "size"],
        ["wanted", 32, "size"],
        ["status", 40, "uint8"],
        ["detail", 41, "uint8"],
    ] },
    dataAnswer: { size: 24, fields: [
        ["written", 0, "size"],
        ["offset", 8, "size"],
        ["status", 16, "uint8"],
        ["side", 17, "uint8"],
        ["detail", 18, "uint8"],
    ] },
    loaded: { size: 48, fields: [
        ["length", 0, "size"],
        ["offset", 8, "size"],
        ["wanted", 16, "size"],
        ["serial", 24, "uint32"],
        ["refresh", 28, "uint32"],
        ["retry", 32, "uint32"],
        ["expire", 36, "uint32"],
        ["session", 40, "uint16"],
        ["version", 42, "uint8"],
        ["hasCut", 43, "bool"],
        ["status", 44, "uint8"],
        ["detail", 45, "uint8"],
    ] },
    comparison: { size: 24, fields: [
        ["offset", 0, "size"],
        ["wanted", 8, "size"],
        ["status", 16, "uint8"],
        ["side", 17, "uint8"],
        ["detail", 18, "uint8"],
        ["same", 19, "bool"],
    ] },
    line: { size: 32, fields: [
        ["size", 0, "size"],
        ["length", 8, "size"],
        ["wanted", 16, "size"],
        ["status", 24, "uint8"],
        ["detail", 25, "uint8"],
    ] },
    unit: { size: 120, fields: [
        ["size", 0, "size"],
        ["wanted", 8, "size"],
        ["partStart", 16, "size"],
        ["partLength", 24, "size"],
        ["textStart", 32, "size"],
        ["textLength", 40, "size"],
        ["asn", 48, "uint32"],
        ["customer", 52, "uint32"],
        ["serial", 56, "uint32"],
        ["refresh", 60, "uint32"],
        ["retry", 64, "uint32"],
        ["expire", 68, "uint32"],
        ["session", 72, "uint16"],
        ["code", 74, "uint16"],
        ["kind", 76, "uint8"],
        ["version", 77, "uint8"],
        ["action", 78, "uint8"],
        ["family", 79, "uint8"],
        ["prefixLength", 80, "uint8"],
        ["maxLength", 81, "uint8"],
        ["address", 82, "uint8", 16],
        ["keyIdentifier", 98, "uint8", 20],
        ["detail", 118, "uint8"],
    ] },
    route: { size: 24, fields: [
        ["asn", 0, "uint32"],
        ["family", 4, "uint8"],
        ["prefixLength", 5, "uint8"],
        ["address", 6, "uint8", 16],
    ] },
    tables: { size: 2328, fields: [
        ["ipv4", 0, "size"],
        ["ipv6", 8, "size"],
        ["starts", 16, "size", 256],
        ["shortestIpv4", 2064, "uint8"],
        ["shortestIpv6", 2065, "uint8"],
        ["shortest", 2066, "uint8", 256],
    ] },
    lookup: { size: 2344, fields: [
        ["length", 0, "size"],
        ["seal", 8, "size"],
        ["tables", 16, "tables"],
    ] },
    covering: { size: 16, fields: [
        ["place", 0, "size"],
        ["asn", 8, "uint32"],
        ["prefixLength", 12, "uint8"],
        ["maxLength", 13, "uint8"],
        ["mismatch", 14, "uint8"],
    ] },
    check: { size: 6, fields: [
        ["session", 0, "uint16"],
        ["version", 2, "uint8"],
        ["hasSession", 3, "bool"],
        ["hasVersion", 4, "bool"],
        ["stage", 5, "uint8"],
    ] },
    finding: { size: 6, fields: [
        ["value", 0, "uint16"],
        ["begun", 2, "uint16"],
        ["rule", 4, "uint8"],
    ] },
    checked: { size: 64, fields: [
        ["size", 0, "size"],
        ["wanted", 8, "size"],
        ["findings", 16, "finding", 7],
        ["status", 58, "uint8"],
        ["detail", 59, "uint8"],
    ] },
    naming: { size: 32, fields: [
        ["size", 0, "size"],
        ["length", 8, "size"],
        ["wanted", 16, "size"],
        ["status", 24, "uint8"],
        ["detail", 25, "uint8"],
        ["begins", 26, "bool"],
        ["announces", 27, "bool"],
    ] },
    settings: { size: 40, fields: [
        ["mostBytes", 0, "uint64"],
        ["pause", 8, "uint32"],
        ["connectLimit", 12, "uint32"],
        ["responseLimit", 16, "uint32"],
        ["refresh", 20, "uint32"],
        ["retry", 24, "uint32"],
        ["expire", 28, "uint32"],
        ["mostUnits", 32, "uint32"],
        ["chance", 36, "uint16"],
        ["highest", 38, "uint8"],
    ] },
    known: { size: 20, fields: [
        ["serial", 0, "uint32"],
        ["refresh", 4, "uint32"],
        ["retry", 8, "uint32"],
        ["expire", 12, "uint32"],
        ["session", 16, "uint16"],
        ["version", 18, "uint8"],
    ] },
    router: { size: 168, fields: [
        ["settings", 0, "settings"],
        ["expires", 40, "uint64"],
        ["came", 48, "uint64"],
        ["asked", 56, "uint64"],
        ["tried", 64, "uint64"],
        ["due", 72, "uint64"],
        ["rises", 80, "uint64"],
        ["bytes", 88, "uint64"],
        ["known", 96, "known"],
        ["answer", 116, "known"],
        ["wait", 136, "uint32"],
        ["riseWait", 140, "uint32"],
        ["units", 144, "uint32"],
        ["note", 148, "uint32"],
        ["session", 152, "uint16"],
        ["phase", 154, "uint8"],
        ["version", 155, "uint8"],
        ["floor", 156, "uint8"],
        ["agreed", 157, "bool"],
        ["fell", 158, "bool"],
        ["silent", 159, "bool"],
        ["changes", 160, "bool"],
        ["resync", 161, "bool"],
        ["answered", 162, "bool"],
        ["noted", 163, "bool"],
        ["hasData", 164, "bool"],
    ] },
    action: { size: 40, fields: [
        ["start", 0, "size"],
        ["taken", 8, "size"],
        ["wanted", 16, "size"],
        ["serial", 24, "uint32"],
        ["session", 28, "uint16"],
        ["code", 30, "uint16"],
        ["kind", 32, "uint8"],
        ["version", 33, "uint8"],
        ["cause", 34, "uint8"],
        ["status", 35, "uint8"],
        ["detail", 36, "uint8"],
        ["changes", 37, "bool"],
        ["drops", 38, "bool"],
        ["reports", 39, "bool"],
    ] },
    link: { size: 232, fields: [
        ["settings", 0, "settings"],
        ["expires", 40, "uint64"],
        ["came", 48, "uint64"],
        ["asked", 56, "uint64"],
        ["tried", 64, "uint64"],
        ["due", 72, "uint64"],
        ["rises", 80, "uint64"],
        ["bytes", 88, "uint64"],
        ["latest", 96, "uint64"],
        ["received", 104, "uint64"],
        ["kept", 112, "size"],
        ["endSize", 120, "size"],
        ["filled", 128, "size"],
        ["shown", 136, "size"],
        ["unsent", 144, "size"],
        ["known", 152, "known"],
        ["answer", 172, "known"],
        ["wait", 192, "uint32"],
        ["riseWait", 196, "uint32"],
        ["units", 200, "uint32"],
        ["note", 204, "uint32"],
        ["mark", 208, "uint32"],
        ["session", 212, "uint16"],
        ["phase", 214, "uint8"],
        ["version", 215, "uint8"],
        ["floor", 216, "uint8"],
        ["agreed", 217, "uint8"],
        ["fell", 218, "uint8"],
        ["silent", 219, "uint8"],
        ["changes", 220, "uint8"],
        ["resync", 221, "uint8"],
        ["answered", 222, "uint8"],
        ["noted", 223, "uint8"],
        ["hasData", 224, "uint8"],
        ["holding", 225, "uint8"],
        ["since", 226, "uint8"],
        ["shows", 227, "uint8"],
        ["second", 228, "uint8"],
        ["opened", 229, "uint8"],
        ["closed", 230, "uint8"],
    ] },
    todo: { size: 40, fields: [
        ["wakes", 0, "uint64"],
        ["position", 8, "uint64"],
        ["room", 16, "size"],
        ["offset", 24, "size"],
        ["code", 32, "uint16"],
        ["kind", 34, "uint8"],
        ["cause", 35, "uint8"],
        ["status", 36, "uint8"],
        ["detail", 37, "uint8"],
        ["drops", 38, "bool"],
        ["reports", 39, "bool"],
    ] },
    linkState: { size: 48, fields: [
        ["wakes", 0, "uint64"],
        ["filled", 8, "size"],
        ["unsent", 16, "size"],
        ["shown", 24, "size"],
        ["answer", 32, "size"],
        ["hasData", 40, "bool"],
        ["second", 41, "bool"],
        ["answers", 42, "bool"],
        ["since", 43, "bool"],
    ] },
    groupSettings: { size: 8, fields: [
        ["patience", 0, "uint32"],
        ["emptyIsData", 4, "bool"],
    ] },
    group: { size: 56, fields: [
        ["settings", 0, "groupSettings"],
        ["count", 8, "size"],
        ["runs", 16, "size"],
        ["due", 24, "uint64"],
        ["has", 32, "bool", 16],
        ["current", 48, "bool"],
    ] },
    groupAnswer: { size: 32, fields: [
        ["member", 0, "size"],
        ["stop", 8, "size"],
        ["start", 16, "size"],
        ["shown", 24, "uint8"],
        ["stops", 25, "bool"],
        ["starts", 26, "bool"],
    ] },
    present: { size: 8, fields: [
        ["serial", 0, "uint32"],
        ["session", 4, "uint16"],
        ["has", 6, "bool"],
    ] },
    cacheSettings: { size: 16, fields: [
        ["firstLimit", 0, "uint32"],
        ["idleLimit", 4, "uint32"],
        ["pause", 8, "uint32"],
        ["refuses", 12, "bool"],
    ] },
    cache: { size: 48, fields: [
        ["settings", 0, "cacheSettings"],
        ["notifyFrom", 16, "uint64"],
        ["due", 24, "uint64"],
        ["serial", 32, "uint32"],
        ["session", 36, "uint16"],
        ["version", 38, "uint8"],
        ["live", 39, "bool"],
        ["asked", 40, "bool"],
        ["told", 41, "bool"],
        ["reset", 42, "bool"],
    ] },
    serving: { size: 32, fields: [
        ["taken", 0, "size"],
        ["wanted", 8, "size"],
        ["serial", 16, "uint32"],
        ["session", 20, "uint16"],
        ["code", 22, "uint16"],
        ["kind", 24, "uint8"],
        ["version", 25, "uint8"],
        ["reason", 26, "uint8"],
        ["status", 27, "uint8"],
        ["detail", 28, "uint8"],
        ["reports", 29, "bool"],
    ] },
    serverSettings: { size: 64, fields: [
        ["cache", 0, "cacheSettings"],
        ["keep", 16, "uint64"],
        ["keepBytes", 24, "size"],
        ["unitLimit", 32, "uint32"],
        ["writeLimit", 36, "uint32"],
        ["responseLimit", 40, "uint32"],
        ["reportLimit", 44, "uint32"],
        ["mostConnections", 48, "uint32"],
        ["mostRefused", 52, "uint32"],
        ["mostBehind", 56, "uint32"],
    ] },
    door: { size: 16, fields: [
        ["mostConnections", 0, "uint32"],
        ["mostRefused", 4, "uint32"],
        ["served", 8, "uint32"],
        ["refused", 12, "uint32"],
    ] },
    connection: { size: 120, fields: [
        ["settings", 0, "serverSettings"],
        ["begun", 64, "uint64"],
        ["taken", 72, "uint64"],
        ["until", 80, "uint64"],
        ["number", 88, "uint64"],
        ["filled", 96, "size"],
        ["unsent", 104, "size"],
        ["state", 112, "uint8"],
        ["fresh", 113, "bool"],
        ["closed", 114, "bool"],
    ] },
    stores: { size: 32, fields: [
        ["served", 0, "size"],
        ["taken", 8, "size"],
        ["mark", 16, "uint32"],
        ["session", 20, "uint16"],
        ["serves", 22, "uint8"],
        ["waits", 23, "uint8"],
        ["second", 24, "uint8"],
        ["unsaved", 25, "uint8"],
    ] },
    historyLimits: { size: 16, fields: [
        ["time", 0, "uint64"],
        ["bytes", 8, "size"],
    ] },
    storesAnswer: { size: 32, fields: [
        ["length", 0, "size"],
        ["offset", 8, "size"],
        ["wanted", 16, "size"],
        ["status", 24, "uint8"],
        ["room", 25, "uint8"],
        ["flaw", 26, "uint8"],
        ["detail", 27, "uint8"],
    ] },
    storesState: { size: 32, fields: [
        ["offset", 0, "size"],
        ["length", 8, "size"],
        ["taken", 16, "size"],
        ["serves", 24, "bool"],
        ["waits", 25, "bool"],
        ["second", 26, "bool"],
    ] },
    storeHead: { size: 24, fields: [
        ["bytes", 0, "uint8", 24],
    ] },
});

export const FUNCTIONS = Object.freeze({
    rtr_normalise_slice_nonnull: ["uint8", "*", "size", "*", "size", "uint64", "*"],
    rtr_normalise_for_slice_nonnull: ["uint8", "*", "size", "*", "size", "uint64", "uint8", "*"],
    rtr_unit_size_nonnull: ["uint8", "*", "size", "*", "*"],
    rtr_next_nonnull: ["uint8", "*", "size", "*"],
    rtr_next_many_nonnull: ["uint8", "*", "size", "*", "size", "*", "*"],
    rtr_line_nonnull: ["uint8", "*", "size", "uint64", "*", "size", "*"],
    rtr_json_nonnull: ["uint8", "*", "size", "uint64", "*", "size", "*"],
    rtr_change_line_nonnull: ["uint8", "*", "size", "*", "size", "*"],
    rtr_change_json_nonnull: ["uint8", "*", "size", "*", "size", "*"],
    rtr_text_nonnull: ["uint8", "uint8", "uint8", "*", "size", "*"],
    rtr_text_at_nonnull: ["uint8", "uint8", "uint8", "uint64", "*", "size", "*"],
    rtr_report_text_nonnull: ["uint8", "uint16", "*", "size", "*", "size", "*"],
    rtr_name_nonnull: ["uint8", "uint8", "uint16", "*", "size", "*"],
    rtr_provider_nonnull: ["bool", "*", "*", "size", "size", "*"],
    rtr_error_code_nonnull: ["bool", "uint8", "*", "size", "*"],
    rtr_serial_order: ["uint8", "uint32", "uint32"],
    rtr_version_has: ["bool", "uint8", "uint8"],
    rtr_times_rule: ["uint8", "uint32", "uint32", "uint32"],
    rtr_end_rule: ["uint8", "uint8", "uint32", "uint32", "uint32"],
    rtr_wire_version: ["uint32"],
    rtr_write_unit_nonnull: ["uint8", "*", "*", "size", "*", "size", "*"],
    rtr_same_meaning_nonnull: ["uint8", "*", "size", "*", "size", "uint64", "*"],
    rtr_delta_nonnull: ["uint8", "*", "size", "*", "size", "*", "size", "*"],
    rtr_changes_between_nonnull: ["uint8", "*", "size", "*", "size", "*", "size", "*"],
    rtr_apply_nonnull: ["uint8", "*", "size", "*", "size", "*", "size", "*"],
    rtr_apply_in_order_nonnull: ["uint8", "*", "size", "*", "size", "*", "size", "*", "size", "*"],
    rtr_order_nonnull: ["uint8", "*", "size", "*", "size", "*", "size", "*"],
    rtr_load_nonnull: ["uint8", "*", "size", "*", "size", "*", "size", "*", "size", "*"],
    rtr_end_offset_nonnull: ["size", "*", "size"],
    rtr_check_data_nonnull: ["uint8", "*", "size", "*", "*"],
    rtr_validate_nonnull: ["uint8", "*", "size", "*", "*"],
    rtr_validate_many_nonnull: ["size", "*", "size", "*", "*", "size", "*", "size"],
    rtr_covering_nonnull: ["uint8", "*", "size", "*", "*", "size", "*"],
    rtr_check_name_nonnull: ["uint8", "*", "size", "*", "size", "*"],
    rtr_check_unit_nonnull: ["uint8", "*", "*", "size", "bool", "*"],
    rtr_check_end: ["void", "*", "*"],
    rtr_finding_line_nonnull: ["size", "*", "uint64", "*", "size"],
    rtr_settings_usual: ["void", "*", "uint8"],
    rtr_router_init: ["void", "*", "*"],
    rtr_router_again: ["void", "*"],
    rtr_router_has_data: ["bool", "*", "uint64"],
    rtr_router_tick: ["void", "*", "uint64", "*"],
    rtr_router_asked: ["void", "*", "uint64", "*"],
    rtr_router_connected: ["void", "*", "uint64", "*"],
    rtr_router_lost: ["void", "*", "uint64", "*"],
    rtr_router_applied: ["void", "*", "uint64", "*"],
    rtr_router_not_applied: ["void", "*", "uint64", "uint8", "*"],
    rtr_router_wakes: ["uint64", "*"],
    rtr_router_read_nonnull: ["void", "*", "uint64", "*", "size", "bool", "*"],
    rtr_router_query_nonnull: ["size", "*", "*", "size"],
    rtr_router_report_nonnull: ["bool", "*", "*", "size", "*", "size", "*"],
    rtr_link_init: ["void", "*", "*"],
    rtr_link_again: ["uint8", "*"],
    rtr_link_opened: ["uint8", "*"],
    rtr_link_lost: ["uint8", "*"],
    rtr_link_received_nonnull: ["uint8", "*", "*", "size", "size"],
    rtr_link_sent_nonnull: ["uint8", "*", "*", "size", "size"],
    rtr_link_next_nonnull: ["uint8", "*", "uint64", "*", "size", "*", "size", "*", "size", "*", "size", "*", "size", "*"],
    rtr_link_ask_now_nonnull: ["uint8", "*", "uint64", "*", "size", "*", "size", "*"],
    rtr_link_give_up_nonnull: ["uint8", "*", "uint64", "*", "size", "*", "size", "*"],
    rtr_todo_failure: ["uint8", "*", "bool"],
    rtr_link_state_of: ["uint8", "*", "uint64", "size", "size", "size", "size", "*"],
    rtr_group_usual: ["void", "*"],
    rtr_group_init: ["uint8", "*", "*", "size", "uint64"],
    rtr_group_best: ["bool", "*", "*"],
    rtr_group_counts: ["bool", "*", "size"],
    rtr_group_wakes: ["uint64", "*"],
    rtr_group_tick: ["void", "*", "uint64", "*"],
    rtr_group_tell: ["uint8", "*", "uint64", "size", "*", "size", "*"],
    rtr_group_shows: ["void", "*", "uint64", "size", "size", "*"],
    rtr_group_drops: ["void", "*", "uint64", "size", "*"],
    rtr_group_fails: ["void", "*", "uint64", "size", "*"],
    rtr_cache_settings_usual: ["void", "*"],
    rtr_cache_init: ["void", "*", "uint64", "*"],
    rtr_cache_tick: ["void", "*", "uint64", "*", "*"],
    rtr_cache_full: ["void", "*", "uint64", "*", "*"],
    rtr_cache_lost: ["void", "*", "uint64", "*", "*"],
    rtr_cache_wakes: ["uint64", "*", "*"],
    rtr_cache_read_nonnull: ["void", "*", "uint64", "*", "*", "size", "*", "size", "bool", "*"],
    rtr_cache_unit_nonnull: ["size", "*", "*", "size"],
    rtr_cache_report_nonnull: ["bool", "*", "*", "size", "*", "size", "*"],
    rtr_server_settings_usual: ["void", "*"],
    rtr_server_keeps: ["bool", "*", "size", "size"],
    rtr_door_init: ["void", "*", "*"],
    rtr_door_next: ["uint8", "*", "bool"],
    rtr_door_enter: ["uint8", "*", "bool"],
    rtr_door_leave: ["bool", "*", "uint8"],
    rtr_connection_init: ["void", "*", "uint64", "*"],
    rtr_connection_received: ["void", "*", "uint64", "size"],
    rtr_connection_closed: ["void", "*"],
    rtr_connection_broke: ["void", "*"],
    rtr_connection_reads: ["bool", "*"],
    rtr_connection_heard: ["void", "*", "uint64", "size"],
    rtr_connection_answers: ["bool", "*", "uint64", "size", "uint64"],
    rtr_connection_ends: ["bool", "*", "uint64", "size"],
    rtr_connection_sent: ["bool", "*", "uint64", "size"],
    rtr_connection_next: ["uint8", "*", "uint64", "*", "*", "uint64", "*"],
    rtr_connection_wakes: ["uint64", "*", "*", "*"],
    rtr_stores_new: ["void", "*"],
    rtr_stores_unsaved: ["void", "*", "uint16"],
    rtr_stores_start_nonnull: ["uint8", "*", "size", "*", "size", "*", "size", "*", "size", "*"],
    rtr_stores_take_nonnull: ["uint8", "*", "*", "size", "uint64", "*", "*", "size", "*", "size", "*", "size", "*", "size", "*"],
    rtr_stores_version: ["uint8", "*", "uint8", "uint16", "uint8"],
    rtr_stores_saved: ["uint8", "*"],
    rtr_stores_give_up: ["uint8", "*"],
    rtr_retry_after: ["uint32", "uint32"],
    rtr_stores_state_nonnull: ["uint8", "*", "*", "size", "*", "size", "*"],
    rtr_history_since_nonnull: ["uint8", "*", "size", "uint32", "uint8", "*", "size", "*", "size", "*", "size", "*", "size", "*"],
    rtr_history_data_nonnull: ["bool", "*", "size", "*", "*"],
    rtr_history_knows_nonnull: ["bool", "*", "size", "uint32"],
    rtr_history_serials_nonnull: ["uint8", "*", "size", "*", "size", "*"],
    rtr_store_seal_nonnull: ["void", "*", "size", "*"],
    rtr_store_open_nonnull: ["bool", "*", "size"],
    rtr_store_open_old_nonnull: ["uint8", "*", "size", "*", "size", "*"],
});

const statusTexts = [
    "accepted",
    "unexpected end of input",
    "unit type is not allowed here",
    "version is not supported here",
    "unit is longer than 65535 bytes",
    "invalid unit length",
    "ASPA unit has no providers",
    "prefix fields are not allowed",
    "too many units",
    "no room in the output",
    "no unit has these fields",
    null,
    "not in canonical form",
    "of another session",
    "duplicate announcement",
    "withdrawal of an unknown record",
    "an ASPA is announced and then withdrawn",
    "no room in the index",
    "too many members",
    "of another version than the units before",
    "serial number before that of the data",
    "cache reset inside an answer",
    "error report inside an answer",
];

export function statusText(number) {
    return statusTexts[number] ?? "unknown status";
}

const kindTexts = [
    "serial notify",
    "serial query",
    "reset query",
    "cache response",
    "IPv4 prefix",
    null,
    "IPv6 prefix",
    "end of data",
    "cache reset",
    "router key",
    "error report",
    "ASPA",
];

export function kindText(number) {
    return kindTexts[number] ?? "unknown kind";
}

const causeTexts = [
    "the cache closed the connection",
    "the cache is too slow",
    "unit is refused",
    "the cache reports an error",
    "unit is not allowed here",
    "version does not have such payloads",
    "unit of another version than the session",
    "answer of a higher version than the query",
    "unit of another session",
    "serial number before that of the query",
    "other data at the serial number of the query",
    "the answer is too long",
    "changes are refused",
    "the data have expired",
    "the cache may have a lower version",
    "the cache may have a higher version",
];

export function causeText(number) {
    return causeTexts[number] ?? "unknown cause";
}

const reasonTexts = [
    "the router closed the connection",
    "the router is too slow",
    "too many connections",
    "unit is refused",
    "the router reports an error",
    "unit is not a query",
    "unit of another version than the session",
    "version is not supported",
    "the data are of a new session",
    "no data of this session and serial number",
];

export function reasonText(number) {
    return reasonTexts[number] ?? "unknown reason";
}

const codeTexts = [
    "Corrupt Data",
    "Internal Error",
    "No Data Available",
    "Invalid Request",
    "Unsupported Protocol Version",
    "Unsupported PDU Type",
    "Withdrawal of Unknown Record",
    "Duplicate Announcement Received",
    "Unexpected Protocol Version",
    "ASPA Provider List Error",
    "Transport Error",
    "Ordering Error",
];

export function codeText(number) {
    return codeTexts[number] ?? `error code ${number}`;
}
