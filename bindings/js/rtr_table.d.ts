// What the crate rtr_c declares. `generate` made this file of it: don't edit it.

export const VERSION: "0.3.0";
export const VERSION_NUMBER: 300;

/** The result of a call; each call below lists the statuses that it returns. The faults of a
 * unit are 1 to 7, checked in the order of docs/PROTOCOL.md. Number 11 was "out of memory",
 * which no call returns any more.
 */
export const Status: {
    /** The call succeeded. */
    readonly OK: 0;
    /** The input ends inside a unit, or before one. */
    readonly SHORT: 1;
    /** `detail` is a type that is not allowed here. */
    readonly UNIT_TYPE: 2;
    /** `detail` is a version that is not allowed here. */
    readonly UNIT_VERSION: 3;
    /** A router key, an ASPA or a report of more than 65535 bytes. */
    readonly TOO_LONG: 4;
    /** The length is wrong for the type. */
    readonly UNIT_LENGTH: 5;
    /** An ASPA is announced without providers. */
    readonly EMPTY_PROVIDERS: 6;
    /** A prefix breaks the rule `detail`, an rtr_prefix_rule. */
    readonly PREFIX: 7;
    /** `limit` units were read, none of them an end of data. */
    readonly TOO_MANY: 8;
    /** The output is too short for the next unit or text. */
    readonly NO_ROOM: 9;
    /** The action, the family or a part of a unit to write is wrong. */
    readonly NO_FORM: 10;
    /** A unit or an end of data breaks the canonical form of data or changes. */
    readonly NOT_CANONICAL: 12;
    /** The second input is of another session than the first, or an end of data of another
     * session than its answer.
     */
    readonly OTHER_SESSION: 13;
    /** A payload other than an ASPA is announced that is already present. */
    readonly DUPLICATE: 14;
    /** A payload is withdrawn that isn't present. */
    readonly UNKNOWN: 15;
    /** Changes to sort announce and then withdraw an ASPA, so the net change depends on the
     * data.
     */
    readonly UNDECIDED: 16;
    /** The index has fewer entries than there are units. */
    readonly NO_INDEX: 17;
    /** A group would have more than RTR_MOST_MEMBERS members. */
    readonly TOO_MANY_MEMBERS: 18;
    /** A recorded unit has version `detail`, and the units before it in its answer, or the data
     * that it changes, have another.
     */
    readonly OTHER_VERSION: 19;
    /** The serial number of a recorded answer comes before that of the data that it changes. */
    readonly OLD_SERIAL: 20;
    /** A recording has a cache reset inside an answer. */
    readonly RESET_INSIDE: 21;
    /** A recording has an error report inside an answer. */
    readonly REPORT_INSIDE: 22;
};
export type Status = (typeof Status)[keyof typeof Status];

export const PrefixRule: {
    /** The prefix length is above 32 for IPv4 or 128 for IPv6. */
    readonly LENGTH_OVER: 1;
    /** The max length is above 32 for IPv4 or 128 for IPv6. */
    readonly MAX_LENGTH_OVER: 2;
    /** The max length is below the prefix length. */
    readonly MAX_LENGTH_UNDER: 3;
};
export type PrefixRule = (typeof PrefixRule)[keyof typeof PrefixRule];

/** The kinds of units, numbered by PDU type. */
export const Kind: {
    /** A serial notify (RFC 8210 section 5.2). */
    readonly SERIAL_NOTIFY: 0;
    /** A serial query (RFC 8210 section 5.3). */
    readonly SERIAL_QUERY: 1;
    /** A reset query (RFC 8210 section 5.4). */
    readonly RESET_QUERY: 2;
    /** A cache response (RFC 8210 section 5.5). */
    readonly CACHE_RESPONSE: 3;
    /** An IPv4 prefix (RFC 8210 section 5.6). */
    readonly IPV4_PREFIX: 4;
    /** An IPv6 prefix (RFC 8210 section 5.7). */
    readonly IPV6_PREFIX: 6;
    /** An end of data (RFC 6810 and RFC 8210 section 5.8). */
    readonly END_OF_DATA: 7;
    /** A cache reset (RFC 8210 section 5.9). */
    readonly CACHE_RESET: 8;
    /** A router key (RFC 8210 section 5.10). */
    readonly ROUTER_KEY: 9;
    /** An error report (RFC 8210 section 5.11). */
    readonly ERROR_REPORT: 10;
    /** An ASPA, an autonomous system provider authorization. */
    readonly ASPA: 11;
};
export type Kind = (typeof Kind)[keyof typeof Kind];

/** The codes of error reports (RFC 8210 section 12); those above 8 are the Rust crate rpki's. */
export const ErrorCode: {
    /** The data can't be parsed, or contradict themselves. */
    readonly CORRUPT_DATA: 0;
    /** The peer had an internal error. */
    readonly INTERNAL_ERROR: 1;
    /** The cache has no data yet. */
    readonly NO_DATA_AVAILABLE: 2;
    /** The request makes no sense to the cache. */
    readonly INVALID_REQUEST: 3;
    readonly UNSUPPORTED_PROTOCOL_VERSION: 4;
    readonly UNSUPPORTED_PDU_TYPE: 5;
    readonly WITHDRAWAL_OF_UNKNOWN_RECORD: 6;
    readonly DUPLICATE_ANNOUNCEMENT_RECEIVED: 7;
    /** Not the negotiated version. */
    readonly UNEXPECTED_PROTOCOL_VERSION: 8;
    /** An ASPA may not have these providers. */
    readonly ASPA_PROVIDER_LIST_ERROR: 9;
    /** The connection failed. */
    readonly TRANSPORT_ERROR: 10;
    /** Units came in the wrong order. */
    readonly ORDERING_ERROR: 11;
};
export type ErrorCode = (typeof ErrorCode)[keyof typeof ErrorCode];

/** The order of two serial numbers (RFC 1982 section 3.2). */
export const SerialOrder: {
    readonly EQUAL: 0;
    /** The left one is less. */
    readonly LESS: 1;
    /** The left one is greater. */
    readonly GREATER: 2;
    /** They are 2^31 apart. */
    readonly NO_ORDER: 3;
};
export type SerialOrder = (typeof SerialOrder)[keyof typeof SerialOrder];

/** The kinds of numbers that rtr_name names. */
export const Named: {
    /** An rtr_status, without its detail: "unit type is not allowed here". */
    readonly STATUS: 0;
    /** An rtr_kind: "IPv4 prefix". */
    readonly KIND: 1;
    /** An rtr_cause: "the cache is too slow". */
    readonly CAUSE: 2;
    /** An rtr_reason: "the router is too slow". */
    readonly REASON: 3;
    /** An error code (RFC 8210 section 12): "Corrupt Data". */
    readonly CODE: 4;
    /** An rtr_time_rule: "the retry time has to be 1 to 7200 seconds". */
    readonly TIME_RULE: 5;
};
export type Named = (typeof Named)[keyof typeof Named];

/** The rules on the times that a cache sends, in seconds (RFC 8210 section 6);
 * rtr_time_rule_text returns their texts.
 */
export const TimeRule: {
    readonly NONE: 0;
    /** The refresh time is 1 to 86400. */
    readonly REFRESH: 1;
    /** The retry time is 1 to 7200. */
    readonly RETRY: 2;
    /** The expire time is 600 to 172800. */
    readonly EXPIRE: 3;
    /** The expire time is longer than the refresh time. */
    readonly ABOVE_REFRESH: 4;
    /** The expire time is longer than the retry time. */
    readonly ABOVE_RETRY: 5;
};
export type TimeRule = (typeof TimeRule)[keyof typeof TimeRule];

/** The two inputs of a comparison. */
export const Side: {
    readonly LEFT: 1;
    readonly RIGHT: 2;
};
export type Side = (typeof Side)[keyof typeof Side];

/** The validation state of a route (RFC 6811 section 2). */
export const Validity: {
    /** No VRP covers the route. */
    readonly NOT_FOUND: 0;
    /** A VRP matches it. */
    readonly VALID: 1;
    /** VRPs cover it, and none matches. */
    readonly INVALID: 2;
    /** The family is neither 4 nor 6, or the prefix length is above 32 or 128. */
    readonly NO_ROUTE: 3;
    /** The struct rtr_data wasn't filled by rtr_check_data. */
    readonly UNCHECKED: 4;
};
export type Validity = (typeof Validity)[keyof typeof Validity];

/** Whether a VRP covers a route. */
export const Covers: {
    /** No VRP covers it, or no further one. */
    readonly NONE: 0;
    /** A VRP covers it. */
    readonly ONE: 1;
    /** As RTR_NO_ROUTE. */
    readonly NO_ROUTE: 2;
    /** As RTR_UNCHECKED. */
    readonly UNCHECKED: 3;
};
export type Covers = (typeof Covers)[keyof typeof Covers];

/** Why a VRP that covers a route doesn't match it: the first of these that holds. */
export const Mismatch: {
    /** It matches. */
    readonly MATCHES: 0;
    /** Its AS is 0, which no route may match. */
    readonly AS_ZERO: 1;
    /** The route's origin is another AS. */
    readonly OTHER_AS: 2;
    /** The route's prefix is longer than its max length. */
    readonly LONGER: 3;
};
export type Mismatch = (typeof Mismatch)[keyof typeof Mismatch];

/** A rule that a unit breaks. */
export const Rule: {
    readonly NONE: 0;
    /** The byte at `value` has to be zero. */
    readonly RESERVED: 1;
    /** All bits of the flags but the lowest have to be zero. */
    readonly FLAGS: 2;
    /** The prefix length is at most 32 or 128. */
    readonly PREFIX_LENGTH: 3;
    /** The max length is at most 32 or 128. */
    readonly MAX_LENGTH: 4;
    /** The max length is no less than the prefix length. */
    readonly MAX_BELOW: 5;
    /** A prefix has no bits after its length. */
    readonly HOST_BITS: 6;
    /** The version, `value`, is that of the sequence, `begun`. */
    readonly VERSION: 7;
    /** The session, `value`, is that of the answer, `begun`. */
    readonly SESSION: 8;
    /** An answer ends with an end of data. */
    readonly CUT_OFF: 9;
    /** A recording has an end of data. */
    readonly NO_ANSWER: 10;
    /** The version, `value`, has such units. */
    readonly LACKS: 11;
    /** A withdrawn ASPA has no providers; with `value` 1 the unit reads as one of an older
     * draft.
     */
    readonly WITHDRAWN_PROVIDERS: 12;
    /** A payload is announced once. */
    readonly TWICE: 13;
    /** Providers ascend. */
    readonly PROVIDER_ORDER: 14;
    /** The lengths inside an error report add up to its length. */
    readonly REPORT_PARTS: 15;
    /** The text of an error report is UTF-8. */
    readonly REPORT_TEXT: 16;
    /** No error report is about an error report. */
    readonly REPORT_OF_REPORT: 17;
    /** A cache may send the times: the rule that they break is `value`, an rtr_time_rule. */
    readonly TIMES: 18;
};
export type Rule = (typeof Rule)[keyof typeof Rule];

/** The states of a router, in `phase` of its struct. */
export const Phase: {
    /** There is no connection. */
    readonly OFFLINE: 0;
    /** A connection is being made. */
    readonly CONNECTING: 1;
    /** Waiting for an answer. */
    readonly ASKED: 2;
    /** Reading a response. */
    readonly READING: 3;
    /** Its changes are being applied. */
    readonly APPLYING: 4;
    /** Idle until a notify comes or it is time to ask. */
    readonly WAITING: 5;
};
export type Phase = (typeof Phase)[keyof typeof Phase];

export const ActionKind: {
    readonly WAIT: 0;
    readonly CONNECT: 1;
    readonly ASK: 2;
    readonly BEGIN: 3;
    readonly KEEP: 4;
    readonly APPLY: 5;
    readonly SHOW: 6;
    readonly NO_DATA: 7;
    readonly DROP: 8;
    readonly END: 9;
};
export type ActionKind = (typeof ActionKind)[keyof typeof ActionKind];

/** Why a connection ends; rtr_cause_text returns the text. */
export const Cause: {
    readonly LOST: 0;
    readonly SLOW: 1;
    /** A unit is refused, for `status`. */
    readonly FAULTY: 2;
    /** The cache reports an error, in the unit from `start` to `taken`. */
    readonly REPORTED: 3;
    readonly OUT_OF_PLACE: 4;
    readonly NO_SUCH_PAYLOAD: 5;
    readonly OTHER_VERSION: 6;
    readonly HIGHER_VERSION: 7;
    readonly OTHER_SESSION: 8;
    readonly OLD_SERIAL: 9;
    readonly OTHER_DATA: 10;
    readonly TOO_LONG: 11;
    /** Changes are refused, for `status`. */
    readonly NOT_APPLIED: 12;
    readonly EXPIRED: 13;
    /** No failure: it reconnects at once, in a lower version. */
    readonly LOWER: 14;
    /** No failure: it reconnects at once, in the highest version. */
    readonly HIGHER: 15;
};
export type Cause = (typeof Cause)[keyof typeof Cause];

/** How a call for a router's end ended. */
export const LinkStatus: {
    readonly OK: 0;
    /** No call leaves the struct like this. */
    readonly NOT_BEGUN: 1;
    /** A buffer is shorter than what it holds; for rtr_link_give_up, the output is shorter than
     * RTR_LONGEST_UNIT.
     */
    readonly SHORT_BUFFER: 2;
    /** The time is before that of an earlier call, or not below 2^63. */
    readonly BAD_TIME: 3;
    /** There is no connection, open or being opened, for this call. */
    readonly OUT_OF_TURN: 4;
    /** More bytes than there is room for, or than are unsent. */
    readonly TOO_LONG: 5;
};
export type LinkStatus = (typeof LinkStatus)[keyof typeof LinkStatus];

export const TodoKind: {
    /** The call was refused. */
    readonly NOTHING: 0;
    readonly GO: 1;
    readonly WAIT: 2;
    readonly CONNECT: 3;
    readonly CLOSE: 4;
    readonly DATA: 5;
    readonly DROPPED: 6;
    readonly NO_DATA: 7;
    readonly INPUT_ROOM: 8;
    readonly FIRST_ROOM: 9;
    readonly SECOND_ROOM: 10;
    readonly INDEX_ROOM: 11;
    readonly OUTPUT_ROOM: 12;
};
export type TodoKind = (typeof TodoKind)[keyof typeof TodoKind];

/** Why there is no connection, or no data. docs/SESSIONS.md has what is reported to the cache. */
export const ClientFailure: {
    /** Nothing failed; the client may reconnect at once in another version. */
    readonly NONE: 0;
    /** Connecting failed, or the connection broke or was closed. */
    readonly LOST: 1;
    /** The cache didn't answer or finish an answer in time. */
    readonly SLOW: 2;
    /** An answer has too many units or bytes. */
    readonly TOO_LONG: 3;
    /** A unit or the changes are refused for `status`. */
    readonly REFUSED: 4;
    /** A unit breaks the rules of a session. */
    readonly BREACH: 5;
    /** The cache reports the error `code`. */
    readonly REPORTED: 6;
    /** The data have expired, and were dropped. */
    readonly EXPIRED: 7;
    /** There is no memory for an answer; or of an rtr_client to connect: then RTR_CLIENT_CONNECT
     * hasn't come, and it retries at `wakes`.
     */
    readonly MEMORY: 8;
};
export type ClientFailure = (typeof ClientFailure)[keyof typeof ClientFailure];

/** How the shown data change. */
export const GroupShown: {
    readonly SAME: 0;
    readonly DATA: 1;
    readonly NOTHING: 2;
};
export type GroupShown = (typeof GroupShown)[keyof typeof GroupShown];

/** How rtr_group_tell ended. */
export const GroupStatus: {
    readonly TOLD: 0;
    /** Only a refused call for a router's end returns this todo. */
    readonly NO_TODO: 1;
    /** The group has no such member. */
    readonly NO_MEMBER: 2;
};
export type GroupStatus = (typeof GroupStatus)[keyof typeof GroupStatus];

export const ServingKind: {
    readonly WAIT: 0;
    readonly ALL: 1;
    readonly CHANGES: 2;
    readonly RESET: 3;
    readonly NO_DATA: 4;
    readonly NOTIFY: 5;
    readonly END: 6;
};
export type ServingKind = (typeof ServingKind)[keyof typeof ServingKind];

/** Why a cache ends a connection; rtr_reason_text returns the text. */
export const Reason: {
    readonly LOST: 0;
    readonly SLOW: 1;
    readonly FULL: 2;
    /** A unit is refused, for `status`. */
    readonly FAULTY: 3;
    /** The router reports an error, in `taken` bytes of input. */
    readonly REPORTED: 4;
    readonly NO_QUERY: 5;
    readonly OTHER_VERSION: 6;
    readonly NO_VERSION: 7;
    readonly NEW_SESSION: 8;
    readonly UNKNOWN: 9;
};
export type Reason = (typeof Reason)[keyof typeof Reason];

/** What a new connection gets. */
export const Entry: {
    readonly SERVE: 0;
    /** rtr_cache_full, its report, and the close. */
    readonly REFUSE: 1;
    /** It isn't accepted now; if it is already, it is closed without a report. */
    readonly WAIT: 2;
};
export type Entry = (typeof Entry)[keyof typeof Entry];

/** What the program does next. After an answer, or an end, of the struct rtr_cache it calls
 * rtr_connection_answers or rtr_connection_ends with the number of bytes that this sends.
 */
export const Step: {
    readonly WAIT: 0;
    /** Call rtr_cache_read, then rtr_connection_heard. */
    readonly HEAR: 1;
    /** Call rtr_cache_tick. */
    readonly TICK: 2;
    /** Call rtr_cache_lost. */
    readonly LOSE: 3;
    /** Send, then call rtr_connection_sent. */
    readonly SEND: 4;
    /** Shut down for writing, and read until the router closes. */
    readonly FINISH: 5;
    /** Close, for an rtr_cut. */
    readonly CLOSE: 6;
};
export type Step = (typeof Step)[keyof typeof Step];

/** The limit that ended a connection. */
export const Cut: {
    /** The rtr_cache ended it, or it broke. */
    readonly NONE: 0;
    /** A unit or an answer took too long. */
    readonly SLOW: 1;
    /** There are data of another session. */
    readonly NEW_SESSION: 2;
    /** More than `most_behind` newer data came. */
    readonly BEHIND: 3;
};
export type Cut = (typeof Cut)[keyof typeof Cut];

/** How a call on stores or on a history ended. RTR_STORES_NOT_MADE is checked first, and then
 * RTR_STORES_SHORT_BUFFER.
 */
export const StoresStatus: {
    readonly OK: 0;
    /** No call leaves the struct like this. */
    readonly NOT_MADE: 1;
    /** A buffer is shorter than the store in it. */
    readonly SHORT_BUFFER: 2;
    /** A store waits to be saved or given up. */
    readonly WAITS: 3;
    /** The data aren't in canonical form. */
    readonly FLAW: 4;
    /** The cache doesn't save, and started with another session. */
    readonly OTHER_SESSION: 5;
    /** The cache used the session of the data before another one. */
    readonly SESSION_LEFT: 6;
    /** The data before are of another protocol version. */
    readonly OTHER_VERSION: 7;
    /** The data equal the served ones. */
    readonly SAME_DATA: 8;
    /** Only the times differ from those of the served data. */
    readonly OTHER_TIMES: 9;
    /** The serial number isn't later than that of the served data. */
    readonly OLD_SERIAL: 10;
    /** The bytes aren't a store, or aren't a history. */
    readonly MALFORMED: 11;
    /** A buffer is too short for this call. */
    readonly NO_ROOM: 12;
    /** The history has no data of this serial number. */
    readonly UNKNOWN_SERIAL: 13;
    /** The protocol version is above RTR_HIGHEST_VERSION. */
    readonly UNIT_VERSION: 14;
};
export type StoresStatus = (typeof StoresStatus)[keyof typeof StoresStatus];

/** The buffer that is too short. */
export const Room: {
    readonly INDEX: 1;
    readonly BUFFER: 2;
    readonly SPARE: 3;
    readonly OUTPUT: 4;
    readonly FIRST: 5;
    readonly SECOND: 6;
};
export type Room = (typeof Room)[keyof typeof Room];

/** The settings of a router: rtr.h describes each. Times are in milliseconds. */
export interface Settings {
    /** The most bytes of an answer's payload units; default 128 MiB. */
    mostBytes: number;
    /** The least time between two queries or connections; default 1 s. */
    pause: number;
    /** The time limit for connecting; default 30 seconds. */
    connectLimit: number;
    /** The time limit from a query to its end of data; default 2 minutes. */
    responseLimit: number;
    /** The refresh time, used instead of the cache's (RFC 8210 section 6) if it isn't 0. */
    refresh: number;
    /** The retry time, likewise. */
    retry: number;
    /** The expire time, likewise. */
    expire: number;
    /** The most payload units of an answer; default 4 million. */
    mostUnits: number;
    /** A random number: growing waits are shortened by chance / 131072. */
    chance: number;
    /** The version in which a connection begins: 0, 1 or 2. */
    highest: number;
}

/** The session, serial number and version of data, and their times in seconds. */
export interface Known {
    /** The serial number of the data. */
    serial: number;
    /** The refresh time of the data, in seconds. */
    refresh: number;
    /** The retry time of the data, in seconds. */
    retry: number;
    /** The expire time of the data, in seconds. */
    expire: number;
    /** The session of the data. */
    session: number;
    /** The protocol version of the data. */
    version: number;
}

/** The fields of a struct rtr_router. */
export interface RouterState {
    settings: Settings;
    expires: number;
    came: number;
    asked: number;
    tried: number;
    due: number;
    rises: number;
    bytes: number;
    /** The session, serial number and times of the data, if `has_data`. */
    known: Known;
    answer: Known;
    wait: number;
    riseWait: number;
    /** The number of payload units of the response so far. */
    units: number;
    note: number;
    session: number;
    /** The state of the router, an rtr_phase; any other number stands for RTR_PHASE_OFFLINE. */
    phase: number;
    version: number;
    floor: number;
    agreed: boolean;
    fell: boolean;
    silent: boolean;
    changes: boolean;
    resync: boolean;
    answered: boolean;
    noted: boolean;
    hasData: boolean;
}

/** What the program has to do: rtr.h describes each field. */
export interface Action {
    /** The offset in the input of the unit that the action is about. */
    start: number;
    /** The number of bytes of the input that were consumed, that unit included; a unit that is
     * refused isn't consumed, since the connection ends.
     */
    taken: number;
    /** After rtr_router_read, if there is no whole unit, the least number of input bytes needed,
     * as in an rtr_unit.
     */
    wanted: number;
    /** The serial number of a serial query. */
    serial: number;
    /** The session of a serial query. */
    session: number;
    /** The error code of the report. */
    code: number;
    /** What to do, an rtr_action_kind. */
    kind: ActionKind;
    /** The version of a query or a report. */
    version: number;
    /** Why the connection ends, an rtr_cause. */
    cause: Cause;
    /** Why a unit or a change is refused, an rtr_status; else 0. */
    status: Status;
    /** The detail of the status, as in an rtr_answer. */
    detail: number;
    /** For RTR_ASK, whether the query is a serial query; for RTR_APPLY, whether the units change
     * the data.
     */
    changes: boolean;
    /** Whether there are no data any more. */
    drops: boolean;
    /** Whether a report is owed. */
    reports: boolean;
}

/** What the program has to do: rtr.h describes each field. */
export interface TodoFields {
    /** When to call rtr_link_next, if nothing comes before. It may have passed. */
    wakes: number;
    /** The offset of the unit that it is about, in all bytes of the connection. If an answer
     * can't be applied, the offset of the refused change in the payload units of the answer, or
     * 0 if none is refused. At any other end that is about no unit, the number of bytes that
     * came before those of the input.
     */
    position: number;
    /** The length that a buffer needs: in bytes, of the index in entries. */
    room: number;
    /** The offset of that unit in the input. */
    offset: number;
    /** The error code of the report that the output ends with. */
    code: number;
    /** What to do, an rtr_todo_kind. */
    kind: TodoKind;
    /** Why the connection ends, an rtr_cause. */
    cause: Cause;
    /** Why a unit or a change is refused, an rtr_status; else 0. */
    status: Status;
    /** The detail of the status, as in an rtr_answer. */
    detail: number;
    /** Whether there are no data any more. */
    drops: boolean;
    /** Whether the output ends with a report. */
    reports: boolean;
}

/** The settings of a group: rtr.h describes each. Times are in milliseconds. */
export interface GroupSettings {
    /** How long, in milliseconds, a member may have no whole answer before the next one is
     * started too, while none is current; default 5 seconds.
     */
    patience: number;
    /** Whether a whole answer without payloads counts as data, and not as a failure that drops
     * them; default false.
     */
    emptyIsData: boolean;
}

/** The settings of a cache: rtr.h describes each. Times are in milliseconds. */
export interface CacheSettings {
    /** The time limit to the first query; default 30 seconds. */
    firstLimit: number;
    /** The time limit from a query to the next; default 25 hours. */
    idleLimit: number;
    /** The least time between two notifies; default 1 minute. */
    pause: number;
    /** Whether a serial query whose changes aren't known is answered by a report of code 0 and
     * the end, instead of a cache reset; default false.
     */
    refuses: boolean;
}

/** The limits of a server: rtr.h describes each. Times are in milliseconds. */
export interface ServerSettings {
    cache: CacheSettings;
    /** How long, at least, changes from data are kept after newer data came; default 2 hours. */
    keep: number;
    /** The most bytes of changes that are kept; default 64 MiB. */
    keepBytes: number;
    /** From a unit's first byte to its last; default 10 seconds. */
    unitLimit: number;
    /** Without a byte of an answer sent; default 30 seconds. */
    writeLimit: number;
    /** To send a whole answer; default 10 minutes. */
    responseLimit: number;
    /** To send the last report, and for the router to read it; default 10 seconds. */
    reportLimit: number;
    /** The most connections that are served at once; default 1024. */
    mostConnections: number;
    /** The most connections above that limit that get a report of code 1 at once; default 64. */
    mostRefused: number;
    /** How many newer data may come while a connection is sent an answer; default 2. */
    mostBehind: number;
}

export function statusText(number: number): string;
export function kindText(number: number): string;
export function causeText(number: number): string;
export function reasonText(number: number): string;
export function codeText(number: number): string;
