//! What the crate `rtr_c` declares. `generate` made this file of it: don't edit it.
#![allow(dead_code)]

/// The highest protocol version; the lowest is 0.
pub(crate) const HIGHEST_VERSION: u8 = 2;
/// The size of a header, which is a whole reset query.
pub(crate) const HEADER_SIZE: usize = 8;
/// The size of a serial notify or a serial query.
pub(crate) const SERIAL_SIZE: usize = 12;
/// The size of an IPv4 prefix.
pub(crate) const IPV4_SIZE: usize = 20;
/// The size of an IPv6 prefix.
pub(crate) const IPV6_SIZE: usize = 32;
/// The size of a router key without its key info.
pub(crate) const KEY_SIZE: usize = 32;
/// The size of an ASPA without its providers.
pub(crate) const ASPA_SIZE: usize = 12;
/// The size of an error report without unit and text.
pub(crate) const REPORT_SIZE: usize = 16;
/// The size of an end of data in version 0.
pub(crate) const SHORTEST_END: usize = 12;
/// The size of an end of data in versions 1 and 2.
pub(crate) const LONGEST_END: usize = 24;
/// The shortest payload unit: an ASPA without providers.
pub(crate) const SHORTEST_PAYLOAD: usize = 12;
/// The size of the longest unit that is read or written.
pub(crate) const LONGEST_UNIT: usize = 65535;
/// The most bytes of key info in a router key.
pub(crate) const MOST_KEY_INFO: usize = 65503;
/// The most bytes of providers in an ASPA.
pub(crate) const MOST_PROVIDER_BYTES: usize = 65520;
/// The most bytes of a report's unit and text together.
pub(crate) const MOST_REPORT_PARTS: usize = 65519;
pub(crate) const USUAL_REFRESH: u32 = 3600;
pub(crate) const LEAST_REFRESH: u32 = 1;
pub(crate) const MOST_REFRESH: u32 = 86400;
pub(crate) const USUAL_RETRY: u32 = 600;
pub(crate) const LEAST_RETRY: u32 = 1;
pub(crate) const MOST_RETRY: u32 = 7200;
pub(crate) const USUAL_EXPIRE: u32 = 7200;
pub(crate) const LEAST_EXPIRE: u32 = 600;
pub(crate) const MOST_EXPIRE: u32 = 172800;
pub(crate) const USUAL_VERSION: u8 = 1;
pub(crate) const MOST_MEMBERS: usize = 16;
pub(crate) const LAST_REPORT_LIMIT: u32 = 2000;
pub(crate) const LAST_REPORT_BYTES: usize = 1048576;
/// For rtr_text and rtr_name, with a 0 after the text.
pub(crate) const TEXT_ROOM: usize = 64;
/// For rtr_text_at, with a 0 after the text.
pub(crate) const TEXT_AT_ROOM: usize = 96;
/// For rtr_report_text, with a 0 after the text.
pub(crate) const REPORT_TEXT_ROOM: usize = 136;
/// For rtr_check_name.
pub(crate) const NAME_ROOM: usize = 65528;
/// For rtr_line of most units: not of long keys, ASPAs, reports.
pub(crate) const LINE_ROOM: usize = 160;
/// For rtr_finding_line.
pub(crate) const FINDING_ROOM: usize = 128;
/// The most bytes of a report's text that a failure shows.
pub(crate) const MOST_QUOTED: usize = 100;

/// Texts of failures that no call returns.
pub(crate) mod failure {
    pub(crate) const NO_MEMORY: &str =
        "no memory";
    pub(crate) const EMPTY: &str =
        "the cache has no payloads";
    pub(crate) const STOPPED: &str =
        "the client was stopped";
    pub(crate) const SLOW: &str =
        "the peer is too slow";
    pub(crate) const NO_OTHER: &str =
        "there is no other connection";
    pub(crate) const MORE_READ: &str =
        "more bytes were read than there is room for";
    pub(crate) const MORE_SENT: &str =
        "more bytes were sent than there are";
    pub(crate) const BEHIND: &str =
        "the router is too far behind";
    pub(crate) const CLOSED: &str =
        "the server is closed";
    pub(crate) const OLD_SERIAL: &str =
        "the serial number isn't later than that of the present data";
    pub(crate) const OTHER_TIMES: &str =
        "only the times differ from those of the present data";
    pub(crate) const SESSION_LEFT: &str =
        "the cache left this session: the data need a new one";
    pub(crate) const OTHER_SESSION: &str =
        "a cache that doesn't save has one session";
    pub(crate) const UNSAVED: &str =
        "the cache serves data that it didn't save";
    pub(crate) const NOT_RESTORED: &str =
        "the file exists, and wasn't restored";
    pub(crate) const OTHER_FILE: &str =
        "the data are saved in another file";
    pub(crate) const UNSYNCED: &str =
        "the folder isn't synced";
    pub(crate) const HIGHER_VERSION: &str =
        "the saved data are of a lower version: the data need a new session";
    pub(crate) const UNSERVED: &str =
        "new data aren't served before they are saved";
    pub(crate) const DAMAGED: &str =
        "the saved file is damaged: the data need a new session";
    pub(crate) const WARNING_SERIAL_0: &str =
        "serial number 0: a router that lost its first answer may ask with it, and keep a part of the data";
}

/// The result of a call; each call below lists the statuses that it returns. The faults of a unit
/// are 1 to 7, checked in the order of docs/PROTOCOL.md. Number 11 was "out of memory", which no
/// call returns any more.
pub(crate) mod status {
    /// The call succeeded.
    pub(crate) const OK: u8 = 0;
    /// The input ends inside a unit, or before one.
    pub(crate) const SHORT: u8 = 1;
    /// `detail` is a type that is not allowed here.
    pub(crate) const UNIT_TYPE: u8 = 2;
    /// `detail` is a version that is not allowed here.
    pub(crate) const UNIT_VERSION: u8 = 3;
    /// A router key, an ASPA or a report of more than 65535 bytes.
    pub(crate) const TOO_LONG: u8 = 4;
    /// The length is wrong for the type.
    pub(crate) const UNIT_LENGTH: u8 = 5;
    /// An ASPA is announced without providers.
    pub(crate) const EMPTY_PROVIDERS: u8 = 6;
    /// A prefix breaks the rule `detail`, an rtr_prefix_rule.
    pub(crate) const PREFIX: u8 = 7;
    /// `limit` units were read, none of them an end of data.
    pub(crate) const TOO_MANY: u8 = 8;
    /// The output is too short for the next unit or text.
    pub(crate) const NO_ROOM: u8 = 9;
    /// The action, the family or a part of a unit to write is wrong.
    pub(crate) const NO_FORM: u8 = 10;
    /// A unit or an end of data breaks the canonical form of data or changes.
    pub(crate) const NOT_CANONICAL: u8 = 12;
    /// The second input is of another session than the first, or an end of data of another session
    /// than its answer.
    pub(crate) const OTHER_SESSION: u8 = 13;
    /// A payload other than an ASPA is announced that is already present.
    pub(crate) const DUPLICATE: u8 = 14;
    /// A payload is withdrawn that isn't present.
    pub(crate) const UNKNOWN: u8 = 15;
    /// Changes to sort announce and then withdraw an ASPA, so the net change depends on the data.
    pub(crate) const UNDECIDED: u8 = 16;
    /// The index has fewer entries than there are units.
    pub(crate) const NO_INDEX: u8 = 17;
    /// A group would have more than RTR_MOST_MEMBERS members.
    pub(crate) const TOO_MANY_MEMBERS: u8 = 18;
    /// A recorded unit has version `detail`, and the units before it in its answer, or the data
    /// that it changes, have another.
    pub(crate) const OTHER_VERSION: u8 = 19;
    /// The serial number of a recorded answer comes before that of the data that it changes.
    pub(crate) const OLD_SERIAL: u8 = 20;
    /// A recording has a cache reset inside an answer.
    pub(crate) const RESET_INSIDE: u8 = 21;
    /// A recording has an error report inside an answer.
    pub(crate) const REPORT_INSIDE: u8 = 22;
}

/// The numbers of enum rtr_prefix_rule.
pub(crate) mod prefix_rule {
    /// The prefix length is above 32 for IPv4 or 128 for IPv6.
    pub(crate) const LENGTH_OVER: u8 = 1;
    /// The max length is above 32 for IPv4 or 128 for IPv6.
    pub(crate) const MAX_LENGTH_OVER: u8 = 2;
    /// The max length is below the prefix length.
    pub(crate) const MAX_LENGTH_UNDER: u8 = 3;
}

/// The kinds of units, numbered by PDU type.
pub(crate) mod kind {
    /// A serial notify (RFC 8210 section 5.2).
    pub(crate) const SERIAL_NOTIFY: u8 = 0;
    /// A serial query (RFC 8210 section 5.3).
    pub(crate) const SERIAL_QUERY: u8 = 1;
    /// A reset query (RFC 8210 section 5.4).
    pub(crate) const RESET_QUERY: u8 = 2;
    /// A cache response (RFC 8210 section 5.5).
    pub(crate) const CACHE_RESPONSE: u8 = 3;
    /// An IPv4 prefix (RFC 8210 section 5.6).
    pub(crate) const IPV4_PREFIX: u8 = 4;
    /// An IPv6 prefix (RFC 8210 section 5.7).
    pub(crate) const IPV6_PREFIX: u8 = 6;
    /// An end of data (RFC 6810 and RFC 8210 section 5.8).
    pub(crate) const END_OF_DATA: u8 = 7;
    /// A cache reset (RFC 8210 section 5.9).
    pub(crate) const CACHE_RESET: u8 = 8;
    /// A router key (RFC 8210 section 5.10).
    pub(crate) const ROUTER_KEY: u8 = 9;
    /// An error report (RFC 8210 section 5.11).
    pub(crate) const ERROR_REPORT: u8 = 10;
    /// An ASPA, an autonomous system provider authorization.
    pub(crate) const ASPA: u8 = 11;
}

/// The codes of error reports (RFC 8210 section 12); those above 8 are the Rust crate rpki's.
pub(crate) mod code {
    /// The data can't be parsed, or contradict themselves.
    pub(crate) const CORRUPT_DATA: u16 = 0;
    /// The peer had an internal error.
    pub(crate) const INTERNAL_ERROR: u16 = 1;
    /// The cache has no data yet.
    pub(crate) const NO_DATA_AVAILABLE: u16 = 2;
    /// The request makes no sense to the cache.
    pub(crate) const INVALID_REQUEST: u16 = 3;
    pub(crate) const UNSUPPORTED_PROTOCOL_VERSION: u16 = 4;
    pub(crate) const UNSUPPORTED_PDU_TYPE: u16 = 5;
    pub(crate) const WITHDRAWAL_OF_UNKNOWN_RECORD: u16 = 6;
    pub(crate) const DUPLICATE_ANNOUNCEMENT_RECEIVED: u16 = 7;
    /// Not the negotiated version.
    pub(crate) const UNEXPECTED_PROTOCOL_VERSION: u16 = 8;
    /// An ASPA may not have these providers.
    pub(crate) const ASPA_PROVIDER_LIST_ERROR: u16 = 9;
    /// The connection failed.
    pub(crate) const TRANSPORT_ERROR: u16 = 10;
    /// Units came in the wrong order.
    pub(crate) const ORDERING_ERROR: u16 = 11;
}

/// The order of two serial numbers (RFC 1982 section 3.2).
pub(crate) mod order {
    pub(crate) const EQUAL: u8 = 0;
    /// The left one is less.
    pub(crate) const LESS: u8 = 1;
    /// The left one is greater.
    pub(crate) const GREATER: u8 = 2;
    /// They are 2^31 apart.
    pub(crate) const NO_ORDER: u8 = 3;
}

/// The kinds of numbers that rtr_name names.
pub(crate) mod named {
    /// An rtr_status, without its detail: "unit type is not allowed here".
    pub(crate) const STATUS: u8 = 0;
    /// An rtr_kind: "IPv4 prefix".
    pub(crate) const KIND: u8 = 1;
    /// An rtr_cause: "the cache is too slow".
    pub(crate) const CAUSE: u8 = 2;
    /// An rtr_reason: "the router is too slow".
    pub(crate) const REASON: u8 = 3;
    /// An error code (RFC 8210 section 12): "Corrupt Data".
    pub(crate) const CODE: u8 = 4;
    /// An rtr_time_rule: "the retry time has to be 1 to 7200 seconds".
    pub(crate) const TIME_RULE: u8 = 5;
}

/// The rules on the times that a cache sends, in seconds (RFC 8210 section 6); rtr_time_rule_text
/// returns their texts.
pub(crate) mod time_rule {
    pub(crate) const NONE: u8 = 0;
    /// The refresh time is 1 to 86400.
    pub(crate) const REFRESH: u8 = 1;
    /// The retry time is 1 to 7200.
    pub(crate) const RETRY: u8 = 2;
    /// The expire time is 600 to 172800.
    pub(crate) const EXPIRE: u8 = 3;
    /// The expire time is longer than the refresh time.
    pub(crate) const ABOVE_REFRESH: u8 = 4;
    /// The expire time is longer than the retry time.
    pub(crate) const ABOVE_RETRY: u8 = 5;
}

/// The two inputs of a comparison.
pub(crate) mod side {
    pub(crate) const LEFT: u8 = 1;
    pub(crate) const RIGHT: u8 = 2;
}

/// The validation state of a route (RFC 6811 section 2).
pub(crate) mod validity {
    /// No VRP covers the route.
    pub(crate) const NOT_FOUND: u8 = 0;
    /// A VRP matches it.
    pub(crate) const VALID: u8 = 1;
    /// VRPs cover it, and none matches.
    pub(crate) const INVALID: u8 = 2;
    /// The family is neither 4 nor 6, or the prefix length is above 32 or 128.
    pub(crate) const NO_ROUTE: u8 = 3;
    /// The struct rtr_data wasn't filled by rtr_check_data.
    pub(crate) const UNCHECKED: u8 = 4;
}

/// Whether a VRP covers a route.
pub(crate) mod covers {
    /// No VRP covers it, or no further one.
    pub(crate) const NONE: u8 = 0;
    /// A VRP covers it.
    pub(crate) const ONE: u8 = 1;
    /// As RTR_NO_ROUTE.
    pub(crate) const NO_ROUTE: u8 = 2;
    /// As RTR_UNCHECKED.
    pub(crate) const UNCHECKED: u8 = 3;
}

/// Why a VRP that covers a route doesn't match it: the first of these that holds.
pub(crate) mod mismatch {
    /// It matches.
    pub(crate) const MATCHES: u8 = 0;
    /// Its AS is 0, which no route may match.
    pub(crate) const AS_ZERO: u8 = 1;
    /// The route's origin is another AS.
    pub(crate) const OTHER_AS: u8 = 2;
    /// The route's prefix is longer than its max length.
    pub(crate) const LONGER: u8 = 3;
}

/// A rule that a unit breaks.
pub(crate) mod rule {
    pub(crate) const RULE_NONE: u8 = 0;
    /// The byte at `value` has to be zero.
    pub(crate) const RULE_RESERVED: u8 = 1;
    /// All bits of the flags but the lowest have to be zero.
    pub(crate) const RULE_FLAGS: u8 = 2;
    /// The prefix length is at most 32 or 128.
    pub(crate) const RULE_PREFIX_LENGTH: u8 = 3;
    /// The max length is at most 32 or 128.
    pub(crate) const RULE_MAX_LENGTH: u8 = 4;
    /// The max length is no less than the prefix length.
    pub(crate) const RULE_MAX_BELOW: u8 = 5;
    /// A prefix has no bits after its length.
    pub(crate) const RULE_HOST_BITS: u8 = 6;
    /// The version, `value`, is that of the sequence, `begun`.
    pub(crate) const RULE_VERSION: u8 = 7;
    /// The session, `value`, is that of the answer, `begun`.
    pub(crate) const RULE_SESSION: u8 = 8;
    /// An answer ends with an end of data.
    pub(crate) const RULE_CUT_OFF: u8 = 9;
    /// A recording has an end of data.
    pub(crate) const RULE_NO_ANSWER: u8 = 10;
    /// The version, `value`, has such units.
    pub(crate) const RULE_LACKS: u8 = 11;
    /// A withdrawn ASPA has no providers; with `value` 1 the unit reads as one of an older draft.
    pub(crate) const RULE_WITHDRAWN_PROVIDERS: u8 = 12;
    /// A payload is announced once.
    pub(crate) const RULE_TWICE: u8 = 13;
    /// Providers ascend.
    pub(crate) const RULE_PROVIDER_ORDER: u8 = 14;
    /// The lengths inside an error report add up to its length.
    pub(crate) const RULE_REPORT_PARTS: u8 = 15;
    /// The text of an error report is UTF-8.
    pub(crate) const RULE_REPORT_TEXT: u8 = 16;
    /// No error report is about an error report.
    pub(crate) const RULE_REPORT_OF_REPORT: u8 = 17;
    /// A cache may send the times: the rule that they break is `value`, an rtr_time_rule.
    pub(crate) const RULE_TIMES: u8 = 18;
}

/// The states of a router, in `phase` of its struct.
pub(crate) mod phase {
    /// There is no connection.
    pub(crate) const OFFLINE: u8 = 0;
    /// A connection is being made.
    pub(crate) const CONNECTING: u8 = 1;
    /// Waiting for an answer.
    pub(crate) const ASKED: u8 = 2;
    /// Reading a response.
    pub(crate) const READING: u8 = 3;
    /// Its changes are being applied.
    pub(crate) const APPLYING: u8 = 4;
    /// Idle until a notify comes or it is time to ask.
    pub(crate) const WAITING: u8 = 5;
}

/// The numbers of enum rtr_action_kind.
pub(crate) mod action {
    pub(crate) const WAIT: u8 = 0;
    pub(crate) const CONNECT: u8 = 1;
    pub(crate) const ASK: u8 = 2;
    pub(crate) const BEGIN: u8 = 3;
    pub(crate) const KEEP: u8 = 4;
    pub(crate) const APPLY: u8 = 5;
    pub(crate) const SHOW: u8 = 6;
    pub(crate) const NO_DATA: u8 = 7;
    pub(crate) const DROP: u8 = 8;
    pub(crate) const END: u8 = 9;
}

/// Why a connection ends; rtr_cause_text returns the text.
pub(crate) mod cause {
    pub(crate) const LOST: u8 = 0;
    pub(crate) const SLOW: u8 = 1;
    /// A unit is refused, for `status`.
    pub(crate) const FAULTY: u8 = 2;
    /// The cache reports an error, in the unit from `start` to `taken`.
    pub(crate) const REPORTED: u8 = 3;
    pub(crate) const OUT_OF_PLACE: u8 = 4;
    pub(crate) const NO_SUCH_PAYLOAD: u8 = 5;
    pub(crate) const OTHER_VERSION: u8 = 6;
    pub(crate) const HIGHER_VERSION: u8 = 7;
    pub(crate) const OTHER_SESSION: u8 = 8;
    pub(crate) const OLD_SERIAL: u8 = 9;
    pub(crate) const OTHER_DATA: u8 = 10;
    pub(crate) const TOO_LONG: u8 = 11;
    /// Changes are refused, for `status`.
    pub(crate) const NOT_APPLIED: u8 = 12;
    pub(crate) const EXPIRED: u8 = 13;
    /// No failure: it reconnects at once, in a lower version.
    pub(crate) const LOWER: u8 = 14;
    /// No failure: it reconnects at once, in the highest version.
    pub(crate) const HIGHER: u8 = 15;
}

/// How a call for a router's end ended.
pub(crate) mod link_status {
    pub(crate) const OK: u8 = 0;
    /// No call leaves the struct like this.
    pub(crate) const NOT_BEGUN: u8 = 1;
    /// A buffer is shorter than what it holds; for rtr_link_give_up, the output is shorter than
    /// RTR_LONGEST_UNIT.
    pub(crate) const SHORT_BUFFER: u8 = 2;
    /// The time is before that of an earlier call, or not below 2^63.
    pub(crate) const BAD_TIME: u8 = 3;
    /// There is no connection, open or being opened, for this call.
    pub(crate) const OUT_OF_TURN: u8 = 4;
    /// More bytes than there is room for, or than are unsent.
    pub(crate) const TOO_LONG: u8 = 5;
}

/// The numbers of enum rtr_todo_kind.
pub(crate) mod todo_kind {
    /// The call was refused.
    pub(crate) const NOTHING: u8 = 0;
    pub(crate) const GO: u8 = 1;
    pub(crate) const WAIT: u8 = 2;
    pub(crate) const CONNECT: u8 = 3;
    pub(crate) const CLOSE: u8 = 4;
    pub(crate) const DATA: u8 = 5;
    pub(crate) const DROPPED: u8 = 6;
    pub(crate) const NO_DATA: u8 = 7;
    pub(crate) const INPUT_ROOM: u8 = 8;
    pub(crate) const FIRST_ROOM: u8 = 9;
    pub(crate) const SECOND_ROOM: u8 = 10;
    pub(crate) const INDEX_ROOM: u8 = 11;
    pub(crate) const OUTPUT_ROOM: u8 = 12;
}

/// Why there is no connection, or no data. docs/SESSIONS.md has what is reported to the cache.
pub(crate) mod client_failure {
    /// Nothing failed; the client may reconnect at once in another version.
    pub(crate) const NONE: u8 = 0;
    /// Connecting failed, or the connection broke or was closed.
    pub(crate) const LOST: u8 = 1;
    /// The cache didn't answer or finish an answer in time.
    pub(crate) const SLOW: u8 = 2;
    /// An answer has too many units or bytes.
    pub(crate) const TOO_LONG: u8 = 3;
    /// A unit or the changes are refused for `status`.
    pub(crate) const REFUSED: u8 = 4;
    /// A unit breaks the rules of a session.
    pub(crate) const BREACH: u8 = 5;
    /// The cache reports the error `code`.
    pub(crate) const REPORTED: u8 = 6;
    /// The data have expired, and were dropped.
    pub(crate) const EXPIRED: u8 = 7;
    /// There is no memory for an answer; or of an rtr_client to connect: then RTR_CLIENT_CONNECT
    /// hasn't come, and it retries at `wakes`.
    pub(crate) const MEMORY: u8 = 8;
}

/// How the shown data change.
pub(crate) mod group_shown {
    pub(crate) const SAME: u8 = 0;
    pub(crate) const DATA: u8 = 1;
    pub(crate) const NOTHING: u8 = 2;
}

/// How rtr_group_tell ended.
pub(crate) mod group_status {
    pub(crate) const TOLD: u8 = 0;
    /// Only a refused call for a router's end returns this todo.
    pub(crate) const NO_TODO: u8 = 1;
    /// The group has no such member.
    pub(crate) const NO_MEMBER: u8 = 2;
}

/// The numbers of enum rtr_serving_kind.
pub(crate) mod serving {
    pub(crate) const WAIT: u8 = 0;
    pub(crate) const ALL: u8 = 1;
    pub(crate) const CHANGES: u8 = 2;
    pub(crate) const RESET: u8 = 3;
    pub(crate) const NO_DATA: u8 = 4;
    pub(crate) const NOTIFY: u8 = 5;
    pub(crate) const END: u8 = 6;
}

/// Why a cache ends a connection; rtr_reason_text returns the text.
pub(crate) mod reason {
    pub(crate) const LOST: u8 = 0;
    pub(crate) const SLOW: u8 = 1;
    pub(crate) const FULL: u8 = 2;
    /// A unit is refused, for `status`.
    pub(crate) const FAULTY: u8 = 3;
    /// The router reports an error, in `taken` bytes of input.
    pub(crate) const REPORTED: u8 = 4;
    pub(crate) const NO_QUERY: u8 = 5;
    pub(crate) const OTHER_VERSION: u8 = 6;
    pub(crate) const NO_VERSION: u8 = 7;
    pub(crate) const NEW_SESSION: u8 = 8;
    pub(crate) const UNKNOWN: u8 = 9;
}

/// What a new connection gets.
pub(crate) mod entry {
    pub(crate) const ENTRY_SERVE: u8 = 0;
    /// rtr_cache_full, its report, and the close.
    pub(crate) const ENTRY_REFUSE: u8 = 1;
    /// It isn't accepted now; if it is already, it is closed without a report.
    pub(crate) const ENTRY_WAIT: u8 = 2;
}

/// What the program does next. After an answer, or an end, of the struct rtr_cache it calls
/// rtr_connection_answers or rtr_connection_ends with the number of bytes that this sends.
pub(crate) mod step {
    pub(crate) const STEP_WAIT: u8 = 0;
    /// Call rtr_cache_read, then rtr_connection_heard.
    pub(crate) const STEP_HEAR: u8 = 1;
    /// Call rtr_cache_tick.
    pub(crate) const STEP_TICK: u8 = 2;
    /// Call rtr_cache_lost.
    pub(crate) const STEP_LOSE: u8 = 3;
    /// Send, then call rtr_connection_sent.
    pub(crate) const STEP_SEND: u8 = 4;
    /// Shut down for writing, and read until the router closes.
    pub(crate) const STEP_FINISH: u8 = 5;
    /// Close, for an rtr_cut.
    pub(crate) const STEP_CLOSE: u8 = 6;
}

/// The limit that ended a connection.
pub(crate) mod cut {
    /// The rtr_cache ended it, or it broke.
    pub(crate) const CUT_NONE: u8 = 0;
    /// A unit or an answer took too long.
    pub(crate) const CUT_SLOW: u8 = 1;
    /// There are data of another session.
    pub(crate) const CUT_NEW_SESSION: u8 = 2;
    /// More than `most_behind` newer data came.
    pub(crate) const CUT_BEHIND: u8 = 3;
}

/// How a call on stores or on a history ended. RTR_STORES_NOT_MADE is checked first, and then
/// RTR_STORES_SHORT_BUFFER.
pub(crate) mod stores_status {
    pub(crate) const OK: u8 = 0;
    /// No call leaves the struct like this.
    pub(crate) const NOT_MADE: u8 = 1;
    /// A buffer is shorter than the store in it.
    pub(crate) const SHORT_BUFFER: u8 = 2;
    /// A store waits to be saved or given up.
    pub(crate) const WAITS: u8 = 3;
    /// The data aren't in canonical form.
    pub(crate) const FLAW: u8 = 4;
    /// The cache doesn't save, and started with another session.
    pub(crate) const OTHER_SESSION: u8 = 5;
    /// The cache used the session of the data before another one.
    pub(crate) const SESSION_LEFT: u8 = 6;
    /// The data before are of another protocol version.
    pub(crate) const OTHER_VERSION: u8 = 7;
    /// The data equal the served ones.
    pub(crate) const SAME_DATA: u8 = 8;
    /// Only the times differ from those of the served data.
    pub(crate) const OTHER_TIMES: u8 = 9;
    /// The serial number isn't later than that of the served data.
    pub(crate) const OLD_SERIAL: u8 = 10;
    /// The bytes aren't a store, or aren't a history.
    pub(crate) const MALFORMED: u8 = 11;
    /// A buffer is too short for this call.
    pub(crate) const NO_ROOM: u8 = 12;
    /// The history has no data of this serial number.
    pub(crate) const UNKNOWN_SERIAL: u8 = 13;
    /// The protocol version is above RTR_HIGHEST_VERSION.
    pub(crate) const UNIT_VERSION: u8 = 14;
}

/// The buffer that is too short.
pub(crate) mod room {
    pub(crate) const INDEX: u8 = 1;
    pub(crate) const BUFFER: u8 = 2;
    pub(crate) const SPARE: u8 = 3;
    pub(crate) const OUTPUT: u8 = 4;
    pub(crate) const FIRST: u8 = 5;
    pub(crate) const SECOND: u8 = 6;
}

#[repr(C)]
#[derive(Clone, Copy, Debug, Default, PartialEq, Eq, Hash)]
pub(crate) struct Answer {
    /// Payload units that were read, without the end of data.
    pub(crate) units: u64,
    /// Payload units that were written; fewer than `units` only for one version.
    pub(crate) forms: u64,
    /// Bytes of the input that were read: whole units, and the end of data. If the call stopped,
    /// the offset of the unit at which it stopped.
    pub(crate) taken: usize,
    /// Bytes of the output that were written, from its start.
    pub(crate) written: usize,
    /// After RTR_SHORT, the least number of bytes needed from input + taken on, as in an rtr_unit;
    /// else 0.
    pub(crate) wanted: usize,
    /// The result of the call, an rtr_status, which the call returns too.
    pub(crate) status: u8,
    /// The type, version or rule that RTR_UNIT_TYPE, RTR_UNIT_VERSION or RTR_PREFIX refuses, as
    /// enum rtr_status says; else 0.
    pub(crate) detail: u8,
}

#[repr(C)]
#[derive(Clone, Copy, Debug, Default, PartialEq, Eq, Hash)]
pub(crate) struct DataAnswer {
    /// After RTR_OK the bytes of the output that were written, from its start; else 0. After
    /// RTR_NO_ROOM the output's contents are unspecified, after any other status unchanged.
    pub(crate) written: usize,
    /// The offset of the unit at fault in its input; 0 if no unit is at fault.
    pub(crate) offset: usize,
    /// The result of the call, an rtr_status, which the call returns too.
    pub(crate) status: u8,
    /// 1 or 2 if the first or the second input is at fault, else 0.
    pub(crate) side: u8,
    /// The detail of the status, as in an rtr_answer.
    pub(crate) detail: u8,
}

#[repr(C)]
#[derive(Clone, Copy, Debug, Default, PartialEq, Eq, Hash)]
pub(crate) struct Loaded {
    /// Bytes of the data, from the front of the output; like all that describes data, 0 unless the
    /// status is RTR_OK.
    pub(crate) length: usize,
    /// The offset of the unit at fault in the input; 0 if no unit is at fault.
    pub(crate) offset: usize,
    /// After RTR_SHORT, the least number of bytes needed from input + offset on, as in an
    /// rtr_unit; after RTR_NO_INDEX, the least number of entries that the index needs; else 0.
    pub(crate) wanted: usize,
    /// The serial number of the data.
    pub(crate) serial: u32,
    /// The refresh time of the data, in seconds; 0 in version 0.
    pub(crate) refresh: u32,
    /// The retry time of the data, likewise.
    pub(crate) retry: u32,
    /// The expire time of the data, likewise.
    pub(crate) expire: u32,
    /// The session of the data.
    pub(crate) session: u16,
    /// The protocol version of the data, and of each of their units.
    pub(crate) version: u8,
    /// Whether an answer was left out: the next one began before its end.
    pub(crate) has_cut: bool,
    /// The result of the call, an rtr_status, which the call returns too.
    pub(crate) status: u8,
    /// The version that RTR_OTHER_VERSION refuses; else the detail of the status, as in an
    /// rtr_answer.
    pub(crate) detail: u8,
}

#[repr(C)]
#[derive(Clone, Copy, Debug, Default, PartialEq, Eq, Hash)]
pub(crate) struct Comparison {
    /// The offset of the unit at which the call stopped, in the input of `side`; 0 after RTR_OK.
    pub(crate) offset: usize,
    /// After RTR_SHORT, the least number of bytes of that input needed from `offset` on, as in an
    /// rtr_unit; else 0.
    pub(crate) wanted: usize,
    /// The result of the call, an rtr_status, which the call returns too.
    pub(crate) status: u8,
    /// An rtr_side: the input in which the call stopped; 0 after RTR_OK.
    pub(crate) side: u8,
    /// The detail of the status, as in an rtr_answer.
    pub(crate) detail: u8,
    /// Whether both inputs mean the same; false unless the status is RTR_OK.
    pub(crate) same: bool,
}

#[repr(C)]
#[derive(Clone, Copy, Debug, Default, PartialEq, Eq, Hash)]
pub(crate) struct Line {
    /// Bytes of the unit in the input.
    pub(crate) size: usize,
    /// Bytes of the whole line, even if the output is shorter.
    pub(crate) length: usize,
    /// After RTR_SHORT, the least number of input bytes needed, as in an rtr_unit; else 0.
    pub(crate) wanted: usize,
    /// The result of the call, an rtr_status, which the call returns too.
    pub(crate) status: u8,
    /// The detail of the status, as in an rtr_answer.
    pub(crate) detail: u8,
}

#[repr(C)]
#[derive(Clone, Copy, Debug, Default, PartialEq, Eq, Hash)]
pub(crate) struct Unit {
    /// Bytes of the unit in the input, header included; also set if rtr_next returns RTR_PREFIX.
    pub(crate) size: usize,
    /// If rtr_next returns RTR_SHORT, the least number of input bytes needed: 8 without a whole
    /// header, else the length of the unit.
    pub(crate) wanted: usize,
    /// The offset in the unit of a router key's key info, an ASPA's providers, or the unit that a
    /// report encloses.
    pub(crate) part_start: usize,
    /// The length of that part in bytes; a provider has 4, in network byte order.
    pub(crate) part_length: usize,
    /// The offset in the unit of a report's text. A report whose inner lengths don't fit has 0
    /// here and in part_start and both lengths.
    pub(crate) text_start: usize,
    /// The length of a report's text in bytes; it should be UTF-8, which isn't checked.
    pub(crate) text_length: usize,
    /// The AS of a prefix or a router key.
    pub(crate) asn: u32,
    /// The customer AS of an ASPA.
    pub(crate) customer: u32,
    /// The serial number of a serial notify, a serial query or an end of data.
    pub(crate) serial: u32,
    /// The refresh time of an end of data, in seconds; 0 in version 0.
    pub(crate) refresh: u32,
    /// The retry time of an end of data, likewise.
    pub(crate) retry: u32,
    /// The expire time of an end of data, likewise.
    pub(crate) expire: u32,
    /// The session of a serial notify, a serial query, a cache response or an end of data.
    pub(crate) session: u16,
    /// The error code of a report (RFC 8210 section 12).
    pub(crate) code: u16,
    /// The kind of the unit, an rtr_kind.
    pub(crate) kind: u8,
    /// The protocol version of the unit.
    pub(crate) version: u8,
    /// 1 if the payload is announced, 0 if it is withdrawn; 0 for what has no payload.
    pub(crate) action: u8,
    /// The address family of a prefix, 4 or 6.
    pub(crate) family: u8,
    /// The length of a prefix.
    pub(crate) prefix_length: u8,
    /// The max length of a prefix.
    pub(crate) max_length: u8,
    /// The address of a prefix, in network byte order, the bits after the prefix length zero; for
    /// IPv4 the first 4 bytes.
    pub(crate) address: [u8; 16],
    /// The subject key identifier of a router key.
    pub(crate) key_identifier: [u8; 20],
    /// If rtr_next returns a fault, its detail, as in an rtr_answer; else 0.
    pub(crate) detail: u8,
}

#[repr(C)]
#[derive(Clone, Copy, Debug, Default, PartialEq, Eq, Hash)]
pub(crate) struct Route {
    /// The origin AS; 0 if there is no single one, as with an AS_SET at the end of the path: then
    /// no VRP matches.
    pub(crate) asn: u32,
    /// The address family, 4 or 6.
    pub(crate) family: u8,
    /// The length of the prefix.
    pub(crate) prefix_length: u8,
    /// The address, in network byte order, for IPv4 the first 4 bytes; the bits after the prefix
    /// length are ignored.
    pub(crate) address: [u8; 16],
}

#[repr(C)]
#[derive(Clone, Copy, Debug, PartialEq, Eq, Hash)]
pub(crate) struct Tables {
    pub(crate) ipv4: usize,
    pub(crate) ipv6: usize,
    /// For each first byte, the index of the first IPv4 unit with such an address.
    pub(crate) starts: [usize; 256],
    /// The length of the shortest IPv4 prefix; 255 if there is none.
    pub(crate) shortest_ipv4: u8,
    /// The length of the shortest IPv6 prefix; 255 if there is none.
    pub(crate) shortest_ipv6: u8,
    /// For each first byte, the length of the shortest IPv4 prefix of at least eight bits.
    pub(crate) shortest: [u8; 256],
}

impl Default for Tables {
    fn default() -> Self {
        Tables {
            ipv4: 0,
            ipv6: 0,
            starts: [0; 256],
            shortest_ipv4: 0,
            shortest_ipv6: 0,
            shortest: [0; 256],
        }
    }
}

#[repr(C)]
#[derive(Clone, Copy, Debug, Default, PartialEq, Eq, Hash)]
pub(crate) struct Lookup {
    /// The length of the data in bytes, or 0.
    pub(crate) length: usize,
    /// The greatest number minus this length.
    pub(crate) seal: usize,
    /// The tables of the data.
    pub(crate) tables: Tables,
}

#[repr(C)]
#[derive(Clone, Copy, Debug, Default, PartialEq, Eq, Hash)]
pub(crate) struct Covering {
    /// The index of the payload in the data, from 0.
    pub(crate) place: usize,
    /// The AS of the VRP.
    pub(crate) asn: u32,
    /// The length of its prefix.
    pub(crate) prefix_length: u8,
    /// Its max length.
    pub(crate) max_length: u8,
    /// Why it doesn't match the route, an rtr_mismatch.
    pub(crate) mismatch: u8,
}

#[repr(C)]
#[derive(Clone, Copy, Debug, Default, PartialEq, Eq, Hash)]
pub(crate) struct Check {
    pub(crate) session: u16,
    pub(crate) version: u8,
    pub(crate) has_session: bool,
    pub(crate) has_version: bool,
    pub(crate) stage: u8,
}

#[repr(C)]
#[derive(Clone, Copy, Debug, Default, PartialEq, Eq, Hash)]
pub(crate) struct Finding {
    /// The value that enum rtr_rule describes for this rule; else 0.
    pub(crate) value: u16,
    /// What the sequence or the answer began with, if enum rtr_rule names it; else 0.
    pub(crate) begun: u16,
    /// The rule that is broken, an rtr_rule.
    pub(crate) rule: u8,
}

#[repr(C)]
#[derive(Clone, Copy, Debug, Default, PartialEq, Eq, Hash)]
pub(crate) struct Checked {
    /// Bytes of the unit in the input.
    pub(crate) size: usize,
    /// After RTR_SHORT, the least number of input bytes needed, as in an rtr_unit; else 0.
    pub(crate) wanted: usize,
    /// The broken rules, in the order of rtr_list's lines; RTR_RULE_NONE may be between them.
    pub(crate) findings: [Finding; 7],
    /// The result of the call, an rtr_status, which the call returns too.
    pub(crate) status: u8,
    /// The detail of the status, as in an rtr_answer.
    pub(crate) detail: u8,
}

#[repr(C)]
#[derive(Clone, Copy, Debug, Default, PartialEq, Eq, Hash)]
pub(crate) struct Naming {
    /// Bytes of the unit in the input.
    pub(crate) size: usize,
    /// Bytes of the name, even if the output is shorter; 0 if the unit names no payload.
    pub(crate) length: usize,
    /// After RTR_SHORT, the least number of input bytes needed, as in an rtr_unit; else 0.
    pub(crate) wanted: usize,
    /// The result of the call, an rtr_status, which the call returns too.
    pub(crate) status: u8,
    /// The detail of the status, as in an rtr_answer.
    pub(crate) detail: u8,
    /// Whether the unit begins a sequence.
    pub(crate) begins: bool,
    /// Whether the payload is announced.
    pub(crate) announces: bool,
}

#[repr(C)]
#[derive(Clone, Copy, Debug, Default, PartialEq, Eq, Hash)]
pub(crate) struct Settings {
    /// The most bytes of an answer's payload units; default 128 MiB.
    pub(crate) most_bytes: u64,
    /// The least time between two queries or connections; default 1 s.
    pub(crate) pause: u32,
    /// The time limit for connecting; default 30 seconds.
    pub(crate) connect_limit: u32,
    /// The time limit from a query to its end of data; default 2 minutes.
    pub(crate) response_limit: u32,
    /// The refresh time, used instead of the cache's (RFC 8210 section 6) if it isn't 0.
    pub(crate) refresh: u32,
    /// The retry time, likewise.
    pub(crate) retry: u32,
    /// The expire time, likewise.
    pub(crate) expire: u32,
    /// The most payload units of an answer; default 4 million.
    pub(crate) most_units: u32,
    /// A random number: growing waits are shortened by chance / 131072.
    pub(crate) chance: u16,
    /// The version in which a connection begins: 0, 1 or 2.
    pub(crate) highest: u8,
}

#[repr(C)]
#[derive(Clone, Copy, Debug, Default, PartialEq, Eq, Hash)]
pub(crate) struct Known {
    /// The serial number of the data.
    pub(crate) serial: u32,
    /// The refresh time of the data, in seconds.
    pub(crate) refresh: u32,
    /// The retry time of the data, in seconds.
    pub(crate) retry: u32,
    /// The expire time of the data, in seconds.
    pub(crate) expire: u32,
    /// The session of the data.
    pub(crate) session: u16,
    /// The protocol version of the data.
    pub(crate) version: u8,
}

#[repr(C)]
#[derive(Clone, Copy, Debug, Default, PartialEq, Eq, Hash)]
pub(crate) struct Router {
    pub(crate) settings: Settings,
    pub(crate) expires: u64,
    pub(crate) came: u64,
    pub(crate) asked: u64,
    pub(crate) tried: u64,
    pub(crate) due: u64,
    pub(crate) rises: u64,
    pub(crate) bytes: u64,
    /// The session, serial number and times of the data, if `has_data`.
    pub(crate) known: Known,
    pub(crate) answer: Known,
    pub(crate) wait: u32,
    pub(crate) rise_wait: u32,
    /// The number of payload units of the response so far.
    pub(crate) units: u32,
    pub(crate) note: u32,
    pub(crate) session: u16,
    /// The state of the router, an rtr_phase; any other number stands for RTR_PHASE_OFFLINE.
    pub(crate) phase: u8,
    pub(crate) version: u8,
    pub(crate) floor: u8,
    pub(crate) agreed: bool,
    pub(crate) fell: bool,
    pub(crate) silent: bool,
    pub(crate) changes: bool,
    pub(crate) resync: bool,
    pub(crate) answered: bool,
    pub(crate) noted: bool,
    pub(crate) has_data: bool,
}

#[repr(C)]
#[derive(Clone, Copy, Debug, Default, PartialEq, Eq, Hash)]
pub(crate) struct Action {
    /// The offset in the input of the unit that the action is about.
    pub(crate) start: usize,
    /// The number of bytes of the input that were consumed, that unit included; a unit that is
    /// refused isn't consumed, since the connection ends.
    pub(crate) taken: usize,
    /// After rtr_router_read, if there is no whole unit, the least number of input bytes needed,
    /// as in an rtr_unit.
    pub(crate) wanted: usize,
    /// The serial number of a serial query.
    pub(crate) serial: u32,
    /// The session of a serial query.
    pub(crate) session: u16,
    /// The error code of the report.
    pub(crate) code: u16,
    /// What to do, an rtr_action_kind.
    pub(crate) kind: u8,
    /// The version of a query or a report.
    pub(crate) version: u8,
    /// Why the connection ends, an rtr_cause.
    pub(crate) cause: u8,
    /// Why a unit or a change is refused, an rtr_status; else 0.
    pub(crate) status: u8,
    /// The detail of the status, as in an rtr_answer.
    pub(crate) detail: u8,
    /// For RTR_ASK, whether the query is a serial query; for RTR_APPLY, whether the units change
    /// the data.
    pub(crate) changes: bool,
    /// Whether there are no data any more.
    pub(crate) drops: bool,
    /// Whether a report is owed.
    pub(crate) reports: bool,
}

#[repr(C)]
#[derive(Clone, Copy, Debug, Default, PartialEq, Eq, Hash)]
pub(crate) struct Link {
    pub(crate) settings: Settings,
    pub(crate) expires: u64,
    pub(crate) came: u64,
    pub(crate) asked: u64,
    pub(crate) tried: u64,
    pub(crate) due: u64,
    pub(crate) rises: u64,
    pub(crate) bytes: u64,
    /// The latest time that was passed.
    pub(crate) latest: u64,
    /// How many bytes came on the connection.
    pub(crate) received: u64,
    /// The length of the payload units at the front of the input.
    pub(crate) kept: usize,
    /// The length of the end of data behind them, in a whole answer, or 0.
    pub(crate) end_size: usize,
    /// The offset in the input at which the next bytes are read.
    pub(crate) filled: usize,
    /// The length of the data, or 0.
    pub(crate) shown: usize,
    /// How many bytes of the output are still to be sent.
    pub(crate) unsent: usize,
    pub(crate) known: Known,
    pub(crate) answer: Known,
    pub(crate) wait: u32,
    pub(crate) rise_wait: u32,
    pub(crate) units: u32,
    pub(crate) note: u32,
    pub(crate) mark: u32,
    pub(crate) session: u16,
    /// As in an `RtrRouter`.
    pub(crate) phase: u8,
    pub(crate) version: u8,
    pub(crate) floor: u8,
    pub(crate) agreed: u8,
    pub(crate) fell: u8,
    pub(crate) silent: u8,
    pub(crate) changes: u8,
    pub(crate) resync: u8,
    pub(crate) answered: u8,
    pub(crate) noted: u8,
    pub(crate) has_data: u8,
    /// What the first bytes of the input are: 0 nothing that counts, 1 payload units, 2 a whole
    /// answer.
    pub(crate) holding: u8,
    /// Whether an answer is changes of the data, and not of no data.
    pub(crate) since: u8,
    /// Whether there are data.
    pub(crate) shows: u8,
    /// Whether they are in the second data buffer.
    pub(crate) second: u8,
    pub(crate) opened: u8,
    pub(crate) closed: u8,
}

#[repr(C)]
#[derive(Clone, Copy, Debug, Default, PartialEq, Eq, Hash)]
pub(crate) struct Todo {
    /// When to call rtr_link_next, if nothing comes before. It may have passed.
    pub(crate) wakes: u64,
    /// The offset of the unit that it is about, in all bytes of the connection. If an answer can't
    /// be applied, the offset of the refused change in the payload units of the answer, or 0 if
    /// none is refused. At any other end that is about no unit, the number of bytes that came
    /// before those of the input.
    pub(crate) position: u64,
    /// The length that a buffer needs: in bytes, of the index in entries.
    pub(crate) room: usize,
    /// The offset of that unit in the input.
    pub(crate) offset: usize,
    /// The error code of the report that the output ends with.
    pub(crate) code: u16,
    /// What to do, an rtr_todo_kind.
    pub(crate) kind: u8,
    /// Why the connection ends, an rtr_cause.
    pub(crate) cause: u8,
    /// Why a unit or a change is refused, an rtr_status; else 0.
    pub(crate) status: u8,
    /// The detail of the status, as in an rtr_answer.
    pub(crate) detail: u8,
    /// Whether there are no data any more.
    pub(crate) drops: bool,
    /// Whether the output ends with a report.
    pub(crate) reports: bool,
}

#[repr(C)]
#[derive(Clone, Copy, Debug, Default, PartialEq, Eq, Hash)]
pub(crate) struct LinkState {
    /// When to call rtr_link_next, if nothing comes before. It may have passed.
    pub(crate) wakes: u64,
    /// The offset in the input at which the next bytes are read.
    pub(crate) filled: usize,
    /// The number of unsent bytes of the output, from its front.
    pub(crate) unsent: usize,
    /// The length of the data, in canonical form; 0 if there are none.
    pub(crate) shown: usize,
    /// The length of the payload units of a whole answer, at the front of the input, which the
    /// next rtr_link_next applies; or 0.
    pub(crate) answer: usize,
    /// Whether there are data, which haven't expired at this time.
    pub(crate) has_data: bool,
    /// Whether the data are in the second buffer.
    pub(crate) second: bool,
    /// Whether a whole answer is there.
    pub(crate) answers: bool,
    /// Whether its units are changes of the data, and not all payloads.
    pub(crate) since: bool,
}

#[repr(C)]
#[derive(Clone, Copy, Debug, Default, PartialEq, Eq, Hash)]
pub(crate) struct GroupSettings {
    /// How long, in milliseconds, a member may have no whole answer before the next one is started
    /// too, while none is current; default 5 seconds.
    pub(crate) patience: u32,
    /// Whether a whole answer without payloads counts as data, and not as a failure that drops
    /// them; default false.
    pub(crate) empty_is_data: bool,
}

#[repr(C)]
#[derive(Clone, Copy, Debug, Default, PartialEq, Eq, Hash)]
pub(crate) struct Group {
    /// The settings of the group.
    pub(crate) settings: GroupSettings,
    /// The number of members.
    pub(crate) count: usize,
    /// The number of members that run, from the first on.
    pub(crate) runs: usize,
    /// When the next member is started, while none is current.
    pub(crate) due: u64,
    /// Whether each member that runs has data.
    pub(crate) has: [bool; 16],
    /// Whether the last member that runs is current.
    pub(crate) current: bool,
}

#[repr(C)]
#[derive(Clone, Copy, Debug, Default, PartialEq, Eq, Hash)]
pub(crate) struct GroupAnswer {
    /// The member whose data to show, for RTR_GROUP_DATA.
    pub(crate) member: usize,
    /// The first member to stop, if `stops`.
    pub(crate) stop: usize,
    /// The member to start, if `starts`.
    pub(crate) start: usize,
    /// How the shown data change, an rtr_group_shown.
    pub(crate) shown: u8,
    /// Whether members have to be stopped.
    pub(crate) stops: bool,
    /// Whether a member has to be started.
    pub(crate) starts: bool,
}

#[repr(C)]
#[derive(Clone, Copy, Debug, Default, PartialEq, Eq, Hash)]
pub(crate) struct Present {
    /// The serial number of the newest data.
    pub(crate) serial: u32,
    /// The session of the newest data.
    pub(crate) session: u16,
    /// Whether there are data; if not, the two other fields are ignored.
    pub(crate) has: bool,
}

#[repr(C)]
#[derive(Clone, Copy, Debug, Default, PartialEq, Eq, Hash)]
pub(crate) struct CacheSettings {
    /// The time limit to the first query; default 30 seconds.
    pub(crate) first_limit: u32,
    /// The time limit from a query to the next; default 25 hours.
    pub(crate) idle_limit: u32,
    /// The least time between two notifies; default 1 minute.
    pub(crate) pause: u32,
    /// Whether a serial query whose changes aren't known is answered by a report of code 0 and the
    /// end, instead of a cache reset; default false.
    pub(crate) refuses: bool,
}

#[repr(C)]
#[derive(Clone, Copy, Debug, Default, PartialEq, Eq, Hash)]
pub(crate) struct Cache {
    pub(crate) settings: CacheSettings,
    pub(crate) notify_from: u64,
    pub(crate) due: u64,
    /// The serial number of the newest data that the router was sent or notified of, if `told`; or
    /// of the newest data at the cache reset that made it ask for all data, if `reset`.
    pub(crate) serial: u32,
    pub(crate) session: u16,
    /// The version of the connection, if a query came, `asked`.
    pub(crate) version: u8,
    pub(crate) live: bool,
    pub(crate) asked: bool,
    pub(crate) told: bool,
    pub(crate) reset: bool,
}

#[repr(C)]
#[derive(Clone, Copy, Debug, Default, PartialEq, Eq, Hash)]
pub(crate) struct Serving {
    /// The number of bytes of the input that were consumed: its first unit; a unit that is refused
    /// isn't consumed, since the connection ends.
    pub(crate) taken: usize,
    /// After rtr_cache_read, if there is no whole unit, the least number of input bytes needed, as
    /// in an rtr_unit.
    pub(crate) wanted: usize,
    /// The serial number of all data or a notify; for RTR_SERVE_CHANGES, that of the data from
    /// which they lead.
    pub(crate) serial: u32,
    /// The session of all data, changes or a notify.
    pub(crate) session: u16,
    /// The error code of the report.
    pub(crate) code: u16,
    /// What to send, an rtr_serving_kind.
    pub(crate) kind: u8,
    /// The protocol version of what is sent.
    pub(crate) version: u8,
    /// Why the connection ends, an rtr_reason.
    pub(crate) reason: u8,
    /// Why a unit is refused, an rtr_status; else 0.
    pub(crate) status: u8,
    /// The detail of the status, as in an rtr_answer.
    pub(crate) detail: u8,
    /// Whether a report is owed.
    pub(crate) reports: bool,
}

#[repr(C)]
#[derive(Clone, Copy, Debug, Default, PartialEq, Eq, Hash)]
pub(crate) struct ServerSettings {
    pub(crate) cache: CacheSettings,
    /// How long, at least, changes from data are kept after newer data came; default 2 hours.
    pub(crate) keep: u64,
    /// The most bytes of changes that are kept; default 64 MiB.
    pub(crate) keep_bytes: usize,
    /// From a unit's first byte to its last; default 10 seconds.
    pub(crate) unit_limit: u32,
    /// Without a byte of an answer sent; default 30 seconds.
    pub(crate) write_limit: u32,
    /// To send a whole answer; default 10 minutes.
    pub(crate) response_limit: u32,
    /// To send the last report, and for the router to read it; default 10 seconds.
    pub(crate) report_limit: u32,
    /// The most connections that are served at once; default 1024.
    pub(crate) most_connections: u32,
    /// The most connections above that limit that get a report of code 1 at once; default 64.
    pub(crate) most_refused: u32,
    /// How many newer data may come while a connection is sent an answer; default 2.
    pub(crate) most_behind: u32,
}

#[repr(C)]
#[derive(Clone, Copy, Debug, Default, PartialEq, Eq, Hash)]
pub(crate) struct Door {
    pub(crate) most_connections: u32,
    pub(crate) most_refused: u32,
    /// The connections that are served.
    pub(crate) served: u32,
    /// The connections that are being refused.
    pub(crate) refused: u32,
}

#[repr(C)]
#[derive(Clone, Copy, Debug, Default, PartialEq, Eq, Hash)]
pub(crate) struct Connection {
    pub(crate) settings: ServerSettings,
    /// When the first unheard byte came.
    pub(crate) begun: u64,
    /// When a byte of the answer was sent last.
    pub(crate) taken: u64,
    /// When all of the answer must be sent; at an end, when to close.
    pub(crate) until: u64,
    /// The number of the newest data when the answer began.
    pub(crate) number: u64,
    /// The bytes that came and weren't heard.
    pub(crate) filled: usize,
    /// The bytes of the answer, or of the last report, that weren't sent.
    pub(crate) unsent: usize,
    /// 0 if it is served, 1 if it ended with a report, 2 if it ended without one or broke.
    pub(crate) state: u8,
    /// Whether there may be a whole unit among the unheard bytes.
    pub(crate) fresh: bool,
    /// Whether the router has closed.
    pub(crate) closed: bool,
}

#[repr(C)]
#[derive(Clone, Copy, Debug, Default, PartialEq, Eq, Hash)]
pub(crate) struct Stores {
    /// The length of the store that is served, or 0.
    pub(crate) served: usize,
    /// The length of the store that waits to be saved, or 0.
    pub(crate) taken: usize,
    pub(crate) mark: u32,
    /// The session of a start that doesn't save, or 0.
    pub(crate) session: u16,
    /// Whether a store is served.
    pub(crate) serves: u8,
    /// Whether a store waits to be saved.
    pub(crate) waits: u8,
    /// Whether the store that is served is in the second buffer.
    pub(crate) second: u8,
    /// Whether the cache doesn't save.
    pub(crate) unsaved: u8,
}

#[repr(C)]
#[derive(Clone, Copy, Debug, Default, PartialEq, Eq, Hash)]
pub(crate) struct HistoryLimits {
    /// The time for which a step is kept, in milliseconds.
    pub(crate) time: u64,
    /// The greatest size of all steps in bytes, 16 bytes for each step included.
    pub(crate) bytes: usize,
}

#[repr(C)]
#[derive(Clone, Copy, Debug, Default, PartialEq, Eq, Hash)]
pub(crate) struct StoresAnswer {
    /// The length of the store or the changes that were written, or the number of serial numbers.
    pub(crate) length: usize,
    /// After RTR_STORES_FLAW, the offset of the unit at fault in the data.
    pub(crate) offset: usize,
    /// After RTR_STORES_NO_ROOM, the length that suffices for this call; of the index and of
    /// serial numbers in entries.
    pub(crate) wanted: usize,
    /// The result of the call, an rtr_stores_status.
    pub(crate) status: u8,
    /// After RTR_STORES_NO_ROOM, the buffer that is too short, an rtr_room.
    pub(crate) room: u8,
    /// After RTR_STORES_FLAW, why the unit is refused, an rtr_status.
    pub(crate) flaw: u8,
    /// After RTR_STORES_FLAW, the detail of that, as in an rtr_data_answer; after
    /// RTR_STORES_OTHER_VERSION, the version of the data.
    pub(crate) detail: u8,
}

#[repr(C)]
#[derive(Clone, Copy, Debug, Default, PartialEq, Eq, Hash)]
pub(crate) struct StoresState {
    /// The offset of the history that is served, in the buffer of its store.
    pub(crate) offset: usize,
    /// The length of that history.
    pub(crate) length: usize,
    /// The length of the store to save, at the front of the other buffer.
    pub(crate) taken: usize,
    /// Whether a history is served.
    pub(crate) serves: bool,
    /// Whether a store has to be saved.
    pub(crate) waits: bool,
    /// Whether the second buffer has the store that is served, and the first the other one.
    pub(crate) second: bool,
}

#[repr(C)]
#[derive(Clone, Copy, Debug, Default, PartialEq, Eq, Hash)]
pub(crate) struct StoreHead {
    /// The head, as it begins the file.
    pub(crate) bytes: [u8; 24],
}

extern "C" {
    pub(crate) fn rtr_normalise_slice_nonnull(
        input: *const u8,
        input_length: usize,
        output: *mut u8,
        output_length: usize,
        limit: u64,
        answer: *mut Answer,
    ) -> u8;
    pub(crate) fn rtr_normalise_for_slice_nonnull(
        input: *const u8,
        input_length: usize,
        output: *mut u8,
        output_length: usize,
        limit: u64,
        version: u8,
        answer: *mut Answer,
    ) -> u8;
    pub(crate) fn rtr_unit_size_nonnull(
        input: *const u8,
        input_length: usize,
        size: *mut usize,
        detail: *mut u8,
    ) -> u8;
    pub(crate) fn rtr_next_nonnull(
        input: *const u8,
        input_length: usize,
        unit: *mut Unit,
    ) -> u8;
    pub(crate) fn rtr_next_many_nonnull(
        input: *const u8,
        input_length: usize,
        units: *mut Unit,
        units_length: usize,
        count: *mut usize,
        taken: *mut usize,
    ) -> u8;
    pub(crate) fn rtr_line_nonnull(
        input: *const u8,
        input_length: usize,
        offset: u64,
        output: *mut u8,
        output_length: usize,
        answer: *mut Line,
    ) -> u8;
    pub(crate) fn rtr_json_nonnull(
        input: *const u8,
        input_length: usize,
        offset: u64,
        output: *mut u8,
        output_length: usize,
        answer: *mut Line,
    ) -> u8;
    pub(crate) fn rtr_change_line_nonnull(
        input: *const u8,
        input_length: usize,
        output: *mut u8,
        output_length: usize,
        answer: *mut Line,
    ) -> u8;
    pub(crate) fn rtr_change_json_nonnull(
        input: *const u8,
        input_length: usize,
        output: *mut u8,
        output_length: usize,
        answer: *mut Line,
    ) -> u8;
    pub(crate) fn rtr_text_nonnull(
        status: u8,
        detail: u8,
        output: *mut u8,
        output_length: usize,
        text_length: *mut usize,
    ) -> u8;
    pub(crate) fn rtr_text_at_nonnull(
        status: u8,
        detail: u8,
        offset: u64,
        output: *mut u8,
        output_length: usize,
        text_length: *mut usize,
    ) -> u8;
    pub(crate) fn rtr_report_text_nonnull(
        code: u16,
        reported: *const u8,
        reported_length: usize,
        output: *mut u8,
        output_length: usize,
        text_length: *mut usize,
    ) -> u8;
    pub(crate) fn rtr_name_nonnull(
        named: u8,
        number: u16,
        output: *mut u8,
        output_length: usize,
        text_length: *mut usize,
    ) -> u8;
    pub(crate) fn rtr_provider_nonnull(
        unit: *const Unit,
        input: *const u8,
        input_length: usize,
        index: usize,
        provider: *mut u32,
    ) -> bool;
    pub(crate) fn rtr_error_code_nonnull(
        status: u8,
        input: *const u8,
        input_length: usize,
        code: *mut u16,
    ) -> bool;
    pub(crate) fn rtr_serial_order(
        left: u32,
        right: u32,
    ) -> u8;
    pub(crate) fn rtr_version_has(
        version: u8,
        kind: u8,
    ) -> bool;
    pub(crate) fn rtr_times_rule(
        refresh: u32,
        retry: u32,
        expire: u32,
    ) -> u8;
    pub(crate) fn rtr_end_rule(
        version: u8,
        refresh: u32,
        retry: u32,
        expire: u32,
    ) -> u8;
    pub(crate) fn rtr_wire_version(
    ) -> u32;
    pub(crate) fn rtr_write_unit_nonnull(
        unit: *const Unit,
        input: *const u8,
        input_length: usize,
        output: *mut u8,
        output_length: usize,
        written: *mut usize,
    ) -> u8;
    pub(crate) fn rtr_same_meaning_nonnull(
        left: *const u8,
        left_length: usize,
        right: *const u8,
        right_length: usize,
        limit: u64,
        answer: *mut Comparison,
    ) -> u8;
    pub(crate) fn rtr_delta_nonnull(
        old_data: *const u8,
        old_data_length: usize,
        new_data: *const u8,
        new_data_length: usize,
        output: *mut u8,
        output_length: usize,
        answer: *mut DataAnswer,
    ) -> u8;
    pub(crate) fn rtr_changes_between_nonnull(
        old_data: *const u8,
        old_data_length: usize,
        new_data: *const u8,
        new_data_length: usize,
        output: *mut u8,
        output_length: usize,
        answer: *mut DataAnswer,
    ) -> u8;
    pub(crate) fn rtr_apply_nonnull(
        data: *const u8,
        data_length: usize,
        changes: *const u8,
        changes_length: usize,
        output: *mut u8,
        output_length: usize,
        answer: *mut DataAnswer,
    ) -> u8;
    pub(crate) fn rtr_apply_in_order_nonnull(
        data: *const u8,
        data_length: usize,
        changes: *const u8,
        changes_length: usize,
        index: *mut usize,
        index_length: usize,
        output: *mut u8,
        output_length: usize,
        answer: *mut DataAnswer,
    ) -> u8;
    pub(crate) fn rtr_order_nonnull(
        input: *const u8,
        input_length: usize,
        index: *mut usize,
        index_length: usize,
        output: *mut u8,
        output_length: usize,
        answer: *mut DataAnswer,
    ) -> u8;
    pub(crate) fn rtr_load_nonnull(
        input: *const u8,
        input_length: usize,
        index: *mut usize,
        index_length: usize,
        work: *mut u8,
        work_length: usize,
        output: *mut u8,
        output_length: usize,
        loaded: *mut Loaded,
    ) -> u8;
    pub(crate) fn rtr_end_offset_nonnull(
        data: *const u8,
        data_length: usize,
    ) -> usize;
    pub(crate) fn rtr_check_data_nonnull(
        data: *const u8,
        data_length: usize,
        lookup: *mut Lookup,
        answer: *mut DataAnswer,
    ) -> u8;
    pub(crate) fn rtr_validate_nonnull(
        data: *const u8,
        data_length: usize,
        lookup: *const Lookup,
        route: *const Route,
    ) -> u8;
    pub(crate) fn rtr_validate_many_nonnull(
        data: *const u8,
        data_length: usize,
        lookup: *const Lookup,
        routes: *const Route,
        routes_length: usize,
        validities: *mut u8,
        validities_length: usize,
    ) -> usize;
    pub(crate) fn rtr_covering_nonnull(
        data: *const u8,
        data_length: usize,
        lookup: *const Lookup,
        route: *const Route,
        from: usize,
        covering: *mut Covering,
    ) -> u8;
    pub(crate) fn rtr_check_name_nonnull(
        input: *const u8,
        input_length: usize,
        output: *mut u8,
        output_length: usize,
        answer: *mut Naming,
    ) -> u8;
    pub(crate) fn rtr_check_unit_nonnull(
        check: *mut Check,
        input: *const u8,
        input_length: usize,
        was_there: bool,
        answer: *mut Checked,
    ) -> u8;
    pub(crate) fn rtr_check_end(
        check: *const Check,
        finding: *mut Finding,
    );
    pub(crate) fn rtr_finding_line_nonnull(
        finding: *const Finding,
        offset: u64,
        output: *mut u8,
        output_length: usize,
    ) -> usize;
    pub(crate) fn rtr_settings_usual(
        settings: *mut Settings,
        highest: u8,
    );
    pub(crate) fn rtr_router_init(
        router: *mut Router,
        settings: *const Settings,
    );
    pub(crate) fn rtr_router_again(
        router: *mut Router,
    );
    pub(crate) fn rtr_router_has_data(
        router: *const Router,
        now: u64,
    ) -> bool;
    pub(crate) fn rtr_router_tick(
        router: *mut Router,
        now: u64,
        action: *mut Action,
    );
    pub(crate) fn rtr_router_asked(
        router: *mut Router,
        now: u64,
        action: *mut Action,
    );
    pub(crate) fn rtr_router_connected(
        router: *mut Router,
        now: u64,
        action: *mut Action,
    );
    pub(crate) fn rtr_router_lost(
        router: *mut Router,
        now: u64,
        action: *mut Action,
    );
    pub(crate) fn rtr_router_applied(
        router: *mut Router,
        now: u64,
        action: *mut Action,
    );
    pub(crate) fn rtr_router_not_applied(
        router: *mut Router,
        now: u64,
        status: u8,
        action: *mut Action,
    );
    pub(crate) fn rtr_router_wakes(
        router: *const Router,
    ) -> u64;
    pub(crate) fn rtr_router_read_nonnull(
        router: *mut Router,
        now: u64,
        input: *const u8,
        input_length: usize,
        ended: bool,
        action: *mut Action,
    );
    pub(crate) fn rtr_router_query_nonnull(
        action: *const Action,
        output: *mut u8,
        output_length: usize,
    ) -> usize;
    pub(crate) fn rtr_router_report_nonnull(
        action: *const Action,
        input: *const u8,
        input_length: usize,
        output: *mut u8,
        output_length: usize,
        written: *mut usize,
    ) -> bool;
    pub(crate) fn rtr_link_init(
        link: *mut Link,
        settings: *const Settings,
    );
    pub(crate) fn rtr_link_again(
        link: *mut Link,
    ) -> u8;
    pub(crate) fn rtr_link_opened(
        link: *mut Link,
    ) -> u8;
    pub(crate) fn rtr_link_lost(
        link: *mut Link,
    ) -> u8;
    pub(crate) fn rtr_link_received_nonnull(
        link: *mut Link,
        input: *const u8,
        input_length: usize,
        size: usize,
    ) -> u8;
    pub(crate) fn rtr_link_sent_nonnull(
        link: *mut Link,
        output: *mut u8,
        output_length: usize,
        size: usize,
    ) -> u8;
    pub(crate) fn rtr_link_next_nonnull(
        link: *mut Link,
        now: u64,
        input: *mut u8,
        input_length: usize,
        first: *mut u8,
        first_length: usize,
        second: *mut u8,
        second_length: usize,
        index: *mut usize,
        index_length: usize,
        output: *mut u8,
        output_length: usize,
        todo: *mut Todo,
    ) -> u8;
    pub(crate) fn rtr_link_ask_now_nonnull(
        link: *mut Link,
        now: u64,
        input: *mut u8,
        input_length: usize,
        output: *mut u8,
        output_length: usize,
        todo: *mut Todo,
    ) -> u8;
    pub(crate) fn rtr_link_give_up_nonnull(
        link: *mut Link,
        now: u64,
        input: *mut u8,
        input_length: usize,
        output: *mut u8,
        output_length: usize,
        todo: *mut Todo,
    ) -> u8;
    pub(crate) fn rtr_todo_failure(
        todo: *const Todo,
        gave_up: bool,
    ) -> u8;
    pub(crate) fn rtr_link_state_of(
        link: *const Link,
        now: u64,
        input: usize,
        first: usize,
        second: usize,
        output: usize,
        state: *mut LinkState,
    ) -> u8;
    pub(crate) fn rtr_group_usual(
        settings: *mut GroupSettings,
    );
    pub(crate) fn rtr_group_init(
        group: *mut Group,
        settings: *const GroupSettings,
        count: usize,
        now: u64,
    ) -> u8;
    pub(crate) fn rtr_group_best(
        group: *const Group,
        member: *mut usize,
    ) -> bool;
    pub(crate) fn rtr_group_counts(
        group: *const Group,
        payloads: usize,
    ) -> bool;
    pub(crate) fn rtr_group_wakes(
        group: *const Group,
    ) -> u64;
    pub(crate) fn rtr_group_tick(
        group: *mut Group,
        now: u64,
        answer: *mut GroupAnswer,
    );
    pub(crate) fn rtr_group_tell(
        group: *mut Group,
        now: u64,
        member: usize,
        todo: *const Todo,
        payloads: usize,
        answer: *mut GroupAnswer,
    ) -> u8;
    pub(crate) fn rtr_group_shows(
        group: *mut Group,
        now: u64,
        member: usize,
        payloads: usize,
        answer: *mut GroupAnswer,
    );
    pub(crate) fn rtr_group_drops(
        group: *mut Group,
        now: u64,
        member: usize,
        answer: *mut GroupAnswer,
    );
    pub(crate) fn rtr_group_fails(
        group: *mut Group,
        now: u64,
        member: usize,
        answer: *mut GroupAnswer,
    );
    pub(crate) fn rtr_cache_settings_usual(
        settings: *mut CacheSettings,
    );
    pub(crate) fn rtr_cache_init(
        cache: *mut Cache,
        now: u64,
        settings: *const CacheSettings,
    );
    pub(crate) fn rtr_cache_tick(
        cache: *mut Cache,
        now: u64,
        present: *const Present,
        serving: *mut Serving,
    );
    pub(crate) fn rtr_cache_full(
        cache: *mut Cache,
        now: u64,
        present: *const Present,
        serving: *mut Serving,
    );
    pub(crate) fn rtr_cache_lost(
        cache: *mut Cache,
        now: u64,
        present: *const Present,
        serving: *mut Serving,
    );
    pub(crate) fn rtr_cache_wakes(
        cache: *const Cache,
        present: *const Present,
    ) -> u64;
    pub(crate) fn rtr_cache_read_nonnull(
        cache: *mut Cache,
        now: u64,
        present: *const Present,
        kept: *const u32,
        kept_length: usize,
        input: *const u8,
        input_length: usize,
        ended: bool,
        serving: *mut Serving,
    );
    pub(crate) fn rtr_cache_unit_nonnull(
        serving: *const Serving,
        output: *mut u8,
        output_length: usize,
    ) -> usize;
    pub(crate) fn rtr_cache_report_nonnull(
        serving: *const Serving,
        input: *const u8,
        input_length: usize,
        output: *mut u8,
        output_length: usize,
        written: *mut usize,
    ) -> bool;
    pub(crate) fn rtr_server_settings_usual(
        settings: *mut ServerSettings,
    );
    pub(crate) fn rtr_server_keeps(
        settings: *const ServerSettings,
        kept_bytes: usize,
        length: usize,
    ) -> bool;
    pub(crate) fn rtr_door_init(
        door: *mut Door,
        settings: *const ServerSettings,
    );
    pub(crate) fn rtr_door_next(
        door: *const Door,
        spare: bool,
    ) -> u8;
    pub(crate) fn rtr_door_enter(
        door: *mut Door,
        spare: bool,
    ) -> u8;
    pub(crate) fn rtr_door_leave(
        door: *mut Door,
        entry: u8,
    ) -> bool;
    pub(crate) fn rtr_connection_init(
        connection: *mut Connection,
        now: u64,
        settings: *const ServerSettings,
    );
    pub(crate) fn rtr_connection_received(
        connection: *mut Connection,
        now: u64,
        size: usize,
    );
    pub(crate) fn rtr_connection_closed(
        connection: *mut Connection,
    );
    pub(crate) fn rtr_connection_broke(
        connection: *mut Connection,
    );
    pub(crate) fn rtr_connection_reads(
        connection: *const Connection,
    ) -> bool;
    pub(crate) fn rtr_connection_heard(
        connection: *mut Connection,
        now: u64,
        size: usize,
    );
    pub(crate) fn rtr_connection_answers(
        connection: *mut Connection,
        now: u64,
        size: usize,
        number: u64,
    ) -> bool;
    pub(crate) fn rtr_connection_ends(
        connection: *mut Connection,
        now: u64,
        size: usize,
    ) -> bool;
    pub(crate) fn rtr_connection_sent(
        connection: *mut Connection,
        now: u64,
        size: usize,
    ) -> bool;
    pub(crate) fn rtr_connection_next(
        connection: *const Connection,
        now: u64,
        cache: *const Cache,
        present: *const Present,
        number: u64,
        cut: *mut u8,
    ) -> u8;
    pub(crate) fn rtr_connection_wakes(
        connection: *const Connection,
        cache: *const Cache,
        present: *const Present,
    ) -> u64;
    pub(crate) fn rtr_stores_new(
        stores: *mut Stores,
    );
    pub(crate) fn rtr_stores_unsaved(
        stores: *mut Stores,
        session: u16,
    );
    pub(crate) fn rtr_stores_start_nonnull(
        stores: *mut Stores,
        size: usize,
        first: *const u8,
        first_length: usize,
        index: *mut usize,
        index_length: usize,
        buffer: *mut u8,
        buffer_length: usize,
        answer: *mut StoresAnswer,
    ) -> u8;
    pub(crate) fn rtr_stores_take_nonnull(
        stores: *mut Stores,
        new: *const u8,
        new_length: usize,
        now: u64,
        limits: *const HistoryLimits,
        buffer: *mut u8,
        buffer_length: usize,
        spare: *mut u8,
        spare_length: usize,
        first: *mut u8,
        first_length: usize,
        second: *mut u8,
        second_length: usize,
        answer: *mut StoresAnswer,
    ) -> u8;
    pub(crate) fn rtr_stores_version(
        present: *const Present,
        present_version: u8,
        session: u16,
        version: u8,
    ) -> u8;
    pub(crate) fn rtr_stores_saved(
        stores: *mut Stores,
    ) -> u8;
    pub(crate) fn rtr_stores_give_up(
        stores: *mut Stores,
    ) -> u8;
    pub(crate) fn rtr_retry_after(
        previous: u32,
    ) -> u32;
    pub(crate) fn rtr_stores_state_nonnull(
        stores: *const Stores,
        first: *const u8,
        first_length: usize,
        second: *const u8,
        second_length: usize,
        state: *mut StoresState,
    ) -> u8;
    pub(crate) fn rtr_history_since_nonnull(
        history: *const u8,
        history_length: usize,
        serial: u32,
        version: u8,
        index: *mut usize,
        index_length: usize,
        buffer: *mut u8,
        buffer_length: usize,
        spare: *mut u8,
        spare_length: usize,
        output: *mut u8,
        output_length: usize,
        answer: *mut StoresAnswer,
    ) -> u8;
    pub(crate) fn rtr_history_data_nonnull(
        history: *const u8,
        history_length: usize,
        offset: *mut usize,
        length: *mut usize,
    ) -> bool;
    pub(crate) fn rtr_history_knows_nonnull(
        history: *const u8,
        history_length: usize,
        serial: u32,
    ) -> bool;
    pub(crate) fn rtr_history_serials_nonnull(
        history: *const u8,
        history_length: usize,
        serials: *mut u32,
        serials_length: usize,
        answer: *mut StoresAnswer,
    ) -> u8;
    pub(crate) fn rtr_store_seal_nonnull(
        store: *const u8,
        store_length: usize,
        head: *mut StoreHead,
    );
    pub(crate) fn rtr_store_open_nonnull(
        file: *const u8,
        file_length: usize,
    ) -> bool;
    pub(crate) fn rtr_store_open_old_nonnull(
        file: *const u8,
        file_length: usize,
        output: *mut u8,
        output_length: usize,
        answer: *mut StoresAnswer,
    ) -> u8;
}

#[cfg(all(test, target_pointer_width = "64"))]
mod tests {
    use core::mem::size_of;
    use core::ptr::addr_of;

    /// How many bytes come before a field in a struct.
    macro_rules! place {
        ($value:ident.$field:ident) => {
            addr_of!($value.$field) as usize - addr_of!($value) as usize
        };
    }

    #[test]
    fn layout() {
        let value = super::Answer::default();
        assert_eq!(size_of::<super::Answer>(), 48);
        assert_eq!(place!(value.units), 0);
        assert_eq!(place!(value.forms), 8);
        assert_eq!(place!(value.taken), 16);
        assert_eq!(place!(value.written), 24);
        assert_eq!(place!(value.wanted), 32);
        assert_eq!(place!(value.status), 40);
        assert_eq!(place!(value.detail), 41);
        let value = super::DataAnswer::default();
        assert_eq!(size_of::<super::DataAnswer>(), 24);
        assert_eq!(place!(value.written), 0);
        assert_eq!(place!(value.offset), 8);
        assert_eq!(place!(value.status), 16);
        assert_eq!(place!(value.side), 17);
        assert_eq!(place!(value.detail), 18);
        let value = super::Loaded::default();
        assert_eq!(size_of::<super::Loaded>(), 48);
        assert_eq!(place!(value.length), 0);
        assert_eq!(place!(value.offset), 8);
        assert_eq!(place!(value.wanted), 16);
        assert_eq!(place!(value.serial), 24);
        assert_eq!(place!(value.refresh), 28);
        assert_eq!(place!(value.retry), 32);
        assert_eq!(place!(value.expire), 36);
        assert_eq!(place!(value.session), 40);
        assert_eq!(place!(value.version), 42);
        assert_eq!(place!(value.has_cut), 43);
        assert_eq!(place!(value.status), 44);
        assert_eq!(place!(value.detail), 45);
        let value = super::Comparison::default();
        assert_eq!(size_of::<super::Comparison>(), 24);
        assert_eq!(place!(value.offset), 0);
        assert_eq!(place!(value.wanted), 8);
        assert_eq!(place!(value.status), 16);
        assert_eq!(place!(value.side), 17);
        assert_eq!(place!(value.detail), 18);
        assert_eq!(place!(value.same), 19);
        let value = super::Line::default();
        assert_eq!(size_of::<super::Line>(), 32);
        assert_eq!(place!(value.size), 0);
        assert_eq!(place!(value.length), 8);
        assert_eq!(place!(value.wanted), 16);
        assert_eq!(place!(value.status), 24);
        assert_eq!(place!(value.detail), 25);
        let value = super::Unit::default();
        assert_eq!(size_of::<super::Unit>(), 120);
        assert_eq!(place!(value.size), 0);
        assert_eq!(place!(value.wanted), 8);
        assert_eq!(place!(value.part_start), 16);
        assert_eq!(place!(value.part_length), 24);
        assert_eq!(place!(value.text_start), 32);
        assert_eq!(place!(value.text_length), 40);
        assert_eq!(place!(value.asn), 48);
        assert_eq!(place!(value.customer), 52);
        assert_eq!(place!(value.serial), 56);
        assert_eq!(place!(value.refresh), 60);
        assert_eq!(place!(value.retry), 64);
        assert_eq!(place!(value.expire), 68);
        assert_eq!(place!(value.session), 72);
        assert_eq!(place!(value.code), 74);
        assert_eq!(place!(value.kind), 76);
        assert_eq!(place!(value.version), 77);
        assert_eq!(place!(value.action), 78);
        assert_eq!(place!(value.family), 79);
        assert_eq!(place!(value.prefix_length), 80);
        assert_eq!(place!(value.max_length), 81);
        assert_eq!(place!(value.address), 82);
        assert_eq!(place!(value.key_identifier), 98);
        assert_eq!(place!(value.detail), 118);
        let value = super::Route::default();
        assert_eq!(size_of::<super::Route>(), 24);
        assert_eq!(place!(value.asn), 0);
        assert_eq!(place!(value.family), 4);
        assert_eq!(place!(value.prefix_length), 5);
        assert_eq!(place!(value.address), 6);
        let value = super::Tables::default();
        assert_eq!(size_of::<super::Tables>(), 2328);
        assert_eq!(place!(value.ipv4), 0);
        assert_eq!(place!(value.ipv6), 8);
        assert_eq!(place!(value.starts), 16);
        assert_eq!(place!(value.shortest_ipv4), 2064);
        assert_eq!(place!(value.shortest_ipv6), 2065);
        assert_eq!(place!(value.shortest), 2066);
        let value = super::Lookup::default();
        assert_eq!(size_of::<super::Lookup>(), 2344);
        assert_eq!(place!(value.length), 0);
        assert_eq!(place!(value.seal), 8);
        assert_eq!(place!(value.tables), 16);
        let value = super::Covering::default();
        assert_eq!(size_of::<super::Covering>(), 16);
        assert_eq!(place!(value.place), 0);
        assert_eq!(place!(value.asn), 8);
        assert_eq!(place!(value.prefix_length), 12);
        assert_eq!(place!(value.max_length), 13);
        assert_eq!(place!(value.mismatch), 14);
        let value = super::Check::default();
        assert_eq!(size_of::<super::Check>(), 6);
        assert_eq!(place!(value.session), 0);
        assert_eq!(place!(value.version), 2);
        assert_eq!(place!(value.has_session), 3);
        assert_eq!(place!(value.has_version), 4);
        assert_eq!(place!(value.stage), 5);
        let value = super::Finding::default();
        assert_eq!(size_of::<super::Finding>(), 6);
        assert_eq!(place!(value.value), 0);
        assert_eq!(place!(value.begun), 2);
        assert_eq!(place!(value.rule), 4);
        let value = super::Checked::default();
        assert_eq!(size_of::<super::Checked>(), 64);
        assert_eq!(place!(value.size), 0);
        assert_eq!(place!(value.wanted), 8);
        assert_eq!(place!(value.findings), 16);
        assert_eq!(place!(value.status), 58);
        assert_eq!(place!(value.detail), 59);
        let value = super::Naming::default();
        assert_eq!(size_of::<super::Naming>(), 32);
        assert_eq!(place!(value.size), 0);
        assert_eq!(place!(value.length), 8);
        assert_eq!(place!(value.wanted), 16);
        assert_eq!(place!(value.status), 24);
        assert_eq!(place!(value.detail), 25);
        assert_eq!(place!(value.begins), 26);
        assert_eq!(place!(value.announces), 27);
        let value = super::Settings::default();
        assert_eq!(size_of::<super::Settings>(), 40);
        assert_eq!(place!(value.most_bytes), 0);
        assert_eq!(place!(value.pause), 8);
        assert_eq!(place!(value.connect_limit), 12);
        assert_eq!(place!(value.response_limit), 16);
        assert_eq!(place!(value.refresh), 20);
        assert_eq!(place!(value.retry), 24);
        assert_eq!(place!(value.expire), 28);
        assert_eq!(place!(value.most_units), 32);
        assert_eq!(place!(value.chance), 36);
        assert_eq!(place!(value.highest), 38);
        let value = super::Known::default();
        assert_eq!(size_of::<super::Known>(), 20);
        assert_eq!(place!(value.serial), 0);
        assert_eq!(place!(value.refresh), 4);
        assert_eq!(place!(value.retry), 8);
        assert_eq!(place!(value.expire), 12);
        assert_eq!(place!(value.session), 16);
        assert_eq!(place!(value.version), 18);
        let value = super::Router::default();
        assert_eq!(size_of::<super::Router>(), 168);
        assert_eq!(place!(value.settings), 0);
        assert_eq!(place!(value.expires), 40);
        assert_eq!(place!(value.came), 48);
        assert_eq!(place!(value.asked), 56);
        assert_eq!(place!(value.tried), 64);
        assert_eq!(place!(value.due), 72);
        assert_eq!(place!(value.rises), 80);
        assert_eq!(place!(value.bytes), 88);
        assert_eq!(place!(value.known), 96);
        assert_eq!(place!(value.answer), 116);
        assert_eq!(place!(value.wait), 136);
        assert_eq!(place!(value.rise_wait), 140);
        assert_eq!(place!(value.units), 144);
        assert_eq!(place!(value.note), 148);
        assert_eq!(place!(value.session), 152);
        assert_eq!(place!(value.phase), 154);
        assert_eq!(place!(value.version), 155);
        assert_eq!(place!(value.floor), 156);
        assert_eq!(place!(value.agreed), 157);
        assert_eq!(place!(value.fell), 158);
        assert_eq!(place!(value.silent), 159);
        assert_eq!(place!(value.changes), 160);
        assert_eq!(place!(value.resync), 161);
        assert_eq!(place!(value.answered), 162);
        assert_eq!(place!(value.noted), 163);
        assert_eq!(place!(value.has_data), 164);
        let value = super::Action::default();
        assert_eq!(size_of::<super::Action>(), 40);
        assert_eq!(place!(value.start), 0);
        assert_eq!(place!(value.taken), 8);
        assert_eq!(place!(value.wanted), 16);
        assert_eq!(place!(value.serial), 24);
        assert_eq!(place!(value.session), 28);
        assert_eq!(place!(value.code), 30);
        assert_eq!(place!(value.kind), 32);
        assert_eq!(place!(value.version), 33);
        assert_eq!(place!(value.cause), 34);
        assert_eq!(place!(value.status), 35);
        assert_eq!(place!(value.detail), 36);
        assert_eq!(place!(value.changes), 37);
        assert_eq!(place!(value.drops), 38);
        assert_eq!(place!(value.reports), 39);
        let value = super::Link::default();
        assert_eq!(size_of::<super::Link>(), 232);
        assert_eq!(place!(value.settings), 0);
        assert_eq!(place!(value.expires), 40);
        assert_eq!(place!(value.came), 48);
        assert_eq!(place!(value.asked), 56);
        assert_eq!(place!(value.tried), 64);
        assert_eq!(place!(value.due), 72);
        assert_eq!(place!(value.rises), 80);
        assert_eq!(place!(value.bytes), 88);
        assert_eq!(place!(value.latest), 96);
        assert_eq!(place!(value.received), 104);
        assert_eq!(place!(value.kept), 112);
        assert_eq!(place!(value.end_size), 120);
        assert_eq!(place!(value.filled), 128);
        assert_eq!(place!(value.shown), 136);
        assert_eq!(place!(value.unsent), 144);
        assert_eq!(place!(value.known), 152);
        assert_eq!(place!(value.answer), 172);
        assert_eq!(place!(value.wait), 192);
        assert_eq!(place!(value.rise_wait), 196);
        assert_eq!(place!(value.units), 200);
        assert_eq!(place!(value.note), 204);
        assert_eq!(place!(value.mark), 208);
        assert_eq!(place!(value.session), 212);
        assert_eq!(place!(value.phase), 214);
        assert_eq!(place!(value.version), 215);
        assert_eq!(place!(value.floor), 216);
        assert_eq!(place!(value.agreed), 217);
        assert_eq!(place!(value.fell), 218);
        assert_eq!(place!(value.silent), 219);
        assert_eq!(place!(value.changes), 220);
        assert_eq!(place!(value.resync), 221);
        assert_eq!(place!(value.answered), 222);
        assert_eq!(place!(value.noted), 223);
        assert_eq!(place!(value.has_data), 224);
        assert_eq!(place!(value.holding), 225);
        assert_eq!(place!(value.since), 226);
        assert_eq!(place!(value.shows), 227);
        assert_eq!(place!(value.second), 228);
        assert_eq!(place!(value.opened), 229);
        assert_eq!(place!(value.closed), 230);
        let value = super::Todo::default();
        assert_eq!(size_of::<super::Todo>(), 40);
        assert_eq!(place!(value.wakes), 0);
        assert_eq!(place!(value.position), 8);
        assert_eq!(place!(value.room), 16);
        assert_eq!(place!(value.offset), 24);
        assert_eq!(place!(value.code), 32);
        assert_eq!(place!(value.kind), 34);
        assert_eq!(place!(value.cause), 35);
        assert_eq!(place!(value.status), 36);
        assert_eq!(place!(value.detail), 37);
        assert_eq!(place!(value.drops), 38);
        assert_eq!(place!(value.reports), 39);
        let value = super::LinkState::default();
        assert_eq!(size_of::<super::LinkState>(), 48);
        assert_eq!(place!(value.wakes), 0);
        assert_eq!(place!(value.filled), 8);
        assert_eq!(place!(value.unsent), 16);
        assert_eq!(place!(value.shown), 24);
        assert_eq!(place!(value.answer), 32);
        assert_eq!(place!(value.has_data), 40);
        assert_eq!(place!(value.second), 41);
        assert_eq!(place!(value.answers), 42);
        assert_eq!(place!(value.since), 43);
        let value = super::GroupSettings::default();
        assert_eq!(size_of::<super::GroupSettings>(), 8);
        assert_eq!(place!(value.patience), 0);
        assert_eq!(place!(value.empty_is_data), 4);
        let value = super::Group::default();
        assert_eq!(size_of::<super::Group>(), 56);
        assert_eq!(place!(value.settings), 0);
        assert_eq!(place!(value.count), 8);
        assert_eq!(place!(value.runs), 16);
        assert_eq!(place!(value.due), 24);
        assert_eq!(place!(value.has), 32);
        assert_eq!(place!(value.current), 48);
        let value = super::GroupAnswer::default();
        assert_eq!(size_of::<super::GroupAnswer>(), 32);
        assert_eq!(place!(value.member), 0);
        assert_eq!(place!(value.stop), 8);
        assert_eq!(place!(value.start), 16);
        assert_eq!(place!(value.shown), 24);
        assert_eq!(place!(value.stops), 25);
        assert_eq!(place!(value.starts), 26);
        let value = super::Present::default();
        assert_eq!(size_of::<super::Present>(), 8);
        assert_eq!(place!(value.serial), 0);
        assert_eq!(place!(value.session), 4);
        assert_eq!(place!(value.has), 6);
        let value = super::CacheSettings::default();
        assert_eq!(size_of::<super::CacheSettings>(), 16);
        assert_eq!(place!(value.first_limit), 0);
        assert_eq!(place!(value.idle_limit), 4);
        assert_eq!(place!(value.pause), 8);
        assert_eq!(place!(value.refuses), 12);
        let value = super::Cache::default();
        assert_eq!(size_of::<super::Cache>(), 48);
        assert_eq!(place!(value.settings), 0);
        assert_eq!(place!(value.notify_from), 16);
        assert_eq!(place!(value.due), 24);
        assert_eq!(place!(value.serial), 32);
        assert_eq!(place!(value.session), 36);
        assert_eq!(place!(value.version), 38);
        assert_eq!(place!(value.live), 39);
        assert_eq!(place!(value.asked), 40);
        assert_eq!(place!(value.told), 41);
        assert_eq!(place!(value.reset), 42);
        let value = super::Serving::default();
        assert_eq!(size_of::<super::Serving>(), 32);
        assert_eq!(place!(value.taken), 0);
        assert_eq!(place!(value.wanted), 8);
        assert_eq!(place!(value.serial), 16);
        assert_eq!(place!(value.session), 20);
        assert_eq!(place!(value.code), 22);
        assert_eq!(place!(value.kind), 24);
        assert_eq!(place!(value.version), 25);
        assert_eq!(place!(value.reason), 26);
        assert_eq!(place!(value.status), 27);
        assert_eq!(place!(value.detail), 28);
        assert_eq!(place!(value.reports), 29);
        let value = super::ServerSettings::default();
        assert_eq!(size_of::<super::ServerSettings>(), 64);
        assert_eq!(place!(value.cache), 0);
        assert_eq!(place!(value.keep), 16);
        assert_eq!(place!(value.keep_bytes), 24);
        assert_eq!(place!(value.unit_limit), 32);
        assert_eq!(place!(value.write_limit), 36);
        assert_eq!(place!(value.response_limit), 40);
        assert_eq!(place!(value.report_limit), 44);
        assert_eq!(place!(value.most_connections), 48);
        assert_eq!(place!(value.most_refused), 52);
        assert_eq!(place!(value.most_behind), 56);
        let value = super::Door::default();
        assert_eq!(size_of::<super::Door>(), 16);
        assert_eq!(place!(value.most_connections), 0);
        assert_eq!(place!(value.most_refused), 4);
        assert_eq!(place!(value.served), 8);
        assert_eq!(place!(value.refused), 12);
        let value = super::Connection::default();
        assert_eq!(size_of::<super::Connection>(), 120);
        assert_eq!(place!(value.settings), 0);
        assert_eq!(place!(value.begun), 64);
        assert_eq!(place!(value.taken), 72);
        assert_eq!(place!(value.until), 80);
        assert_eq!(place!(value.number), 88);
        assert_eq!(place!(value.filled), 96);
        assert_eq!(place!(value.unsent), 104);
        assert_eq!(place!(value.state), 112);
        assert_eq!(place!(value.fresh), 113);
        assert_eq!(place!(value.closed), 114);
        let value = super::Stores::default();
        assert_eq!(size_of::<super::Stores>(), 32);
        assert_eq!(place!(value.served), 0);
        assert_eq!(place!(value.taken), 8);
        assert_eq!(place!(value.mark), 16);
        assert_eq!(place!(value.session), 20);
        assert_eq!(place!(value.serves), 22);
        assert_eq!(place!(value.waits), 23);
        assert_eq!(place!(value.second), 24);
        assert_eq!(place!(value.unsaved), 25);
        let value = super::HistoryLimits::default();
        assert_eq!(size_of::<super::HistoryLimits>(), 16);
        assert_eq!(place!(value.time), 0);
        assert_eq!(place!(value.bytes), 8);
        let value = super::StoresAnswer::default();
        assert_eq!(size_of::<super::StoresAnswer>(), 32);
        assert_eq!(place!(value.length), 0);
        assert_eq!(place!(value.offset), 8);
        assert_eq!(place!(value.wanted), 16);
        assert_eq!(place!(value.status), 24);
        assert_eq!(place!(value.room), 25);
        assert_eq!(place!(value.flaw), 26);
        assert_eq!(place!(value.detail), 27);
        let value = super::StoresState::default();
        assert_eq!(size_of::<super::StoresState>(), 32);
        assert_eq!(place!(value.offset), 0);
        assert_eq!(place!(value.length), 8);
        assert_eq!(place!(value.taken), 16);
        assert_eq!(place!(value.serves), 24);
        assert_eq!(place!(value.waits), 25);
        assert_eq!(place!(value.second), 26);
        let value = super::StoreHead::default();
        assert_eq!(size_of::<super::StoreHead>(), 24);
        assert_eq!(place!(value.bytes), 0);
    }
}
