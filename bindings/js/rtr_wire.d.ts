/** The RTR wire layer in JavaScript, over the proved module rtr_wire.wasm.
 *
 * Arguments aren't converted: a value of another type throws a TypeError, and a number that isn't
 * whole, or out of its range, a RangeError; both name the argument or field. */

import type { Action, Cause, GroupSettings, GroupShown, Kind, LinkStatus, Mismatch, Named,
    RouterState, Rule, SerialOrder, Settings, Status, TodoFields, TodoKind, Validity }
    from "./rtr_table.js";

export { ActionKind, Cause, ErrorCode, GroupShown, Kind, LinkStatus, Mismatch, Named, PrefixRule,
    Rule, SerialOrder, Side, Status, TodoKind, VERSION, VERSION_NUMBER, Validity, causeText,
    kindText, statusText } from "./rtr_table.js";
export type { Action, GroupSettings, Known, RouterState, Settings, TodoFields }
    from "./rtr_table.js";

/** Bytes as arguments; all bytes of an ArrayBuffer. */
export type Bytes = Uint8Array | ArrayBuffer;

/** The fields of each unit. */
interface AnyUnit {
    /** Its offset in the input, in bytes. */
    offset: number;
    /** Its size in bytes. */
    size: number;
    version: number;
}

export interface SerialNotify extends AnyUnit {
    kind: typeof Kind.SERIAL_NOTIFY;
    session: number;
    serial: number;
}
export interface SerialQuery extends AnyUnit {
    kind: typeof Kind.SERIAL_QUERY;
    session: number;
    serial: number;
}
export interface ResetQuery extends AnyUnit { kind: typeof Kind.RESET_QUERY }
export interface CacheResponse extends AnyUnit { kind: typeof Kind.CACHE_RESPONSE; session: number }

/** A prefix, IPv4 (kind 4, 4 bytes of address) or IPv6 (kind 6, 16), with zero host bits. */
export interface Prefix extends AnyUnit {
    kind: typeof Kind.IPV4_PREFIX | typeof Kind.IPV6_PREFIX;
    announce: boolean;
    address: Uint8Array;
    prefixLength: number;
    maxLength: number;
    asn: number;
}

/** Times are in seconds, and 0 in version 0. */
export interface EndOfData extends AnyUnit {
    kind: typeof Kind.END_OF_DATA;
    session: number;
    serial: number;
    refresh: number;
    retry: number;
    expire: number;
}

export interface CacheReset extends AnyUnit { kind: typeof Kind.CACHE_RESET }

export interface RouterKey extends AnyUnit {
    kind: typeof Kind.ROUTER_KEY;
    announce: boolean;
    keyIdentifier: Uint8Array;
    asn: number;
    keyInfo: Uint8Array;
}

/** If the lengths inside of it are wrong, the last three fields are null. */
export interface ErrorReport extends AnyUnit {
    kind: typeof Kind.ERROR_REPORT;
    code: number;
    about: Uint8Array | null;
    text: string | null;
    textBytes: Uint8Array | null;
}

export interface Aspa extends AnyUnit {
    kind: typeof Kind.ASPA;
    announce: boolean;
    customer: number;
    providers: number[];
}

export type Unit = SerialNotify | SerialQuery | ResetQuery | CacheResponse | Prefix | EndOfData
    | CacheReset | RouterKey | ErrorReport | Aspa;

/** A unit for `writeUnit`: all fields of the kind; the offset and the size are ignored. */
export type Written = Unit extends infer One ? One extends Unit
    ? Omit<One, "offset" | "size"> & Partial<Pick<One, "offset" | "size">> : never : never;

/** A call was refused. */
export class Fault extends Error {
    readonly name: "Fault";
    readonly status: Status;
    /** The text of the status and the detail, as in rtr_text. */
    readonly text: string;
    /** The offset of the unit at fault, in the input of `side`. From a Link: in all bytes of the
     * connection, or for a change that doesn't apply, in the answer's payload units. */
    readonly offset: number;
    /** 1 or 2 if one of two inputs is at fault, else 0. */
    readonly side: number;
    /** The type or the version that isn't allowed, or the PrefixRule that is broken; for
     * OTHER_VERSION the version of the unit; else 0. */
    readonly detail: number;
    /** The size of a refused prefix, so that a reader can skip it; else 0. */
    readonly size: number;
    /** After SHORT, the least number of bytes needed from the offset on. */
    readonly wanted: number;
    /** The error code of the report that is owed (RFC 8210 section 12), or null. */
    readonly code: number | null;
    /** From a Link: a copy of the unit, as far as it came, or only the header if its length is
     * invalid; else null. */
    readonly unit: Uint8Array | null;
}

/** Why a connection to a cache ended, if the reason isn't an invalid unit (a Fault); with
 * Cause.EXPIRED, why the data were dropped. docs/SESSIONS.md has the causes. */
export class SessionError extends Error {
    readonly name: "SessionError" | "NoData";
    readonly reason: Cause;
    /** A copy of the unit that it is about, if the cache got a report about it, or null. */
    readonly unit: Uint8Array | null;
    /** The error code of that report, or null. */
    readonly code: number | null;
    /** The cache's own report, for Cause.REPORTED; else null. */
    readonly reported: ErrorReport | null;
}

/** The cache has no data yet (RFC 8210 section 8.4); it is asked again. */
export class NoData extends SessionError { readonly name: "NoData" }

/** An answer without payloads, which is a failure if there are other caches to ask. */
export class Empty extends Error { readonly name: "Empty" }

/** A wrong call of a Link: out of turn, with a time before that of an earlier call, or with more
 * bytes than there are. It has no effect. */
export class LinkError extends Error {
    readonly name: "LinkError";
    readonly status: LinkStatus;
}

/** The module's memory can't grow as needed. The message is "no memory", as in all languages. */
export class OutOfMemory extends Error {
    readonly name: "OutOfMemory";
    /** A text with that size, and what limits it. */
    readonly cause: string;
    /** The size in bytes that it would need. */
    readonly wanted: number;
}

/** The module has a 64-bit memory, which this engine lacks. */
export class Unsupported extends Error { readonly name: "Unsupported" }

/** The module is of another version than these files. */
export class OtherVersion extends Error { readonly name: "OtherVersion" }

/** A call of a session, or of bytes in its memory, that was dropped. */
export class Dropped extends Error { readonly name: "Dropped" }

/** A route, by the text of its prefix, or by bytes and a length. */
export type Route = { prefix: string; asn: number }
    | { address: Bytes; prefixLength: number; asn: number };

/** A VRP that covers a route: its prefix is the first bits of the route's address. */
export interface Covering {
    /** The index of the payload in the data, from 0. */
    place: number;
    asn: number;
    prefixLength: number;
    maxLength: number;
    mismatch: Mismatch;
}

/** The data of a cache or a router, in canonical form; immutable. */
export class Data {
    private constructor();
    /** Returns a copy of their bytes, with all free bits zero. */
    readonly bytes: Uint8Array;
    readonly end: EndOfData;
    readonly version: number;
    readonly serial: number;
    /** Whether there are no payloads. */
    readonly isEmpty: boolean;
    /** The number of payloads, which is counted each time. */
    readonly count: number;
    /** Iterates over the units that announce their payloads. */
    units(): Generator<Unit, void, undefined>;
    deltaTo(next: Bytes | Data): Uint8Array;
    applyInOrder(changes: Bytes): Data;
    apply(changes: Bytes): Data;
    /** Returns the validity of a route (RFC 6811 section 2). */
    validate(route: Route): Validity;
    /** Returns the validity of each route, in the same order. The routes may come in any order; it
     * is fastest if those of a family are in the order of their addresses. */
    validateAll(routes: readonly Route[]): Validity[];
    /** Returns the VRPs that cover a route, in the order of payloads. */
    covering(route: Route): Generator<Covering, void, undefined>;
    /** Frees the memory of lookups. */
    drop(): void;
}

/** The result of loading a recording or a list. */
export interface Loaded {
    /** The data after all whole answers. */
    data: Data;
    /** Whether an answer was ignored, since the next one began before its end of data. */
    hasCut: boolean;
}

/** A router's end of the protocol, without sockets or a clock: rtr.h describes what to do for each
 * action. Times are in milliseconds. */
export class Router {
    private constructor();
    readonly state: RouterState;
    readonly wakes: number;
    /** Reports whether there are data that haven't expired at this time. */
    hasData(now: number): boolean;
    tick(now: number): Action;
    /** Requests current data: the router asks as soon as allowed, or connects. */
    asked(now: number): Action;
    connected(now: number): Action;
    lost(now: number): Action;
    applied(now: number): Action;
    notApplied(now: number, status: Status, detail?: number): Action;
    read(now: number, bytes: Bytes, ended?: boolean): Action;
    query(action: Action): Uint8Array;
    report(action: Action, bytes: Bytes): Uint8Array | null;
}

/** What the program of a Link has to do, as rtr.h describes it; the Link itself carries out GO and
 * the kinds that ask for longer buffers. */
export interface Todo extends TodoFields {
    /** The reason of CLOSE, DROPPED and NO_DATA: a Fault, a SessionError, an OutOfMemory, or the
     * argument of `lost`. Null if the connection ends for another version, and for other kinds. */
    error: unknown;
}

/** A router's end of the protocol with buffers and data, without sockets or a clock. Call `next`
 * in a loop, and do what it returns, until that is to wait. Times are in milliseconds, by a
 * monotonic clock. Wrong calls throw a LinkError. The buffers are in the session's memory, and grow
 * as an answer needs, within the limits of the settings; without memory for an answer the
 * connection ends, and the data stay. */
export class Link {
    private constructor();
    /** When to call `next` if nothing happens before. */
    readonly wakes: number;
    /** A copy of the bytes to send. */
    readonly output: Uint8Array;
    next(now: number): Todo;
    /** Requests current data: the router asks as soon as allowed, or connects. Returns what to
     * do. */
    askNow(now: number): Todo;
    opened(): void;
    /** Reports that connecting failed, the cache closed, or the connection broke, for this reason;
     * bytes that were received before are still processed. */
    lost(reason?: unknown): void;
    /** Reads received bytes, as many as the input has space for, and returns their number. */
    received(bytes: Bytes): number;
    /** Reports that this many bytes of the output were sent. */
    sent(count: number): void;
    /** Returns the data at this time; null if there are none or they have expired. They are
     * immutable, and stay valid after the next answer and after `drop`. */
    data(now: number): Data | null;
    /** Frees the memory of the buffers. Only `again` may follow. */
    drop(): void;
    /** Restarts without data and with its settings; the waits for a failing cache continue to
     * grow. */
    again(): void;
}

/** What the program of a Group has to do, in this order. */
export interface Decision {
    /** Whether the data in use stay, are replaced or are dropped. */
    shown: GroupShown;
    /** With GroupShown.DATA, the member whose data to use; else null. */
    member: number | null;
    /** The first of the members to stop, if they run; their data are dropped. Or null. */
    stop: number | null;
    /** The member to start, without data; or null. */
    start: number | null;
}

/** Caches by preference (RFC 8210 section 10), without data, sockets or a clock: rtr.h has the
 * rules. Member 0 is preferred most, and runs first. Times are in milliseconds. */
export class Group {
    private constructor();
    readonly settings: GroupSettings;
    /** When to call `tick` if nothing happens before; Infinity for never. */
    readonly wakes: number;
    /** The member whose data are used, or null. */
    readonly best: number | null;
    /** Reports whether a whole answer with this number of payloads counts as data. Otherwise it is
     * a failure. */
    counts(payloads: number): boolean;
    tick(now: number): Decision;
    /** Reports what `Link.next` or `Link.askNow` of a member returned, once; its data have this
     * number of payloads, which counts only after TodoKind.DATA. That is at most one of the events
     * below. Throws a RangeError for a todo that no link returns, and for no member. */
    tells(now: number, member: number, todo: Todo, payloads: number): Decision;
    /** Reports that a member has the data of a whole answer, with this number of payloads. */
    shows(now: number, member: number, payloads: number): Decision;
    /** Reports that a member lost its data; this is also a failure. */
    drops(now: number, member: number): Decision;
    /** Reports that a member failed, or that its cache has no data. */
    fails(now: number, member: number): Decision;
}

export interface Normalised {
    units: number;
    forms: number;
    taken: number;
    form: Uint8Array;
}

/** The fields of the unit that was read last, as in a struct rtr_unit. */
export interface Shown {
    byte(field: string): number;
    short(field: string): number;
    word(field: string): number;
    long(field: string): number;
    row(field: string, length: number): Uint8Array;
}

/** A rule that the unit at an offset breaks, or that all units together break (the offset is their
 * length); and the line of rtr_list. */
export interface Finding {
    offset: number;
    rule: Rule;
    line: string;
}

/** Bytes that stay in the memory of a session, to read their units in any order. */
export class Held {
    private constructor();
    readonly length: number;
    bytes(offset: number, length: number): Uint8Array;
    drop(): void;
    status(offset: number): Status;
    shown(offset: number): Shown;
    unit(offset: number): Unit | Fault;
    findings(): Generator<Finding, void, undefined>;
    /** A check of its units in order: call `take` at the offset of each, then `finish`. */
    checker(): {
        take(offset: number): { findings: Finding[]; size: number };
        finish(): Finding[];
        drop(): void;
    };
}

/** The library in its own memory. Calls throw a Fault if the input is refused, OutOfMemory if the
 * memory can't grow, and Dropped after `drop`. */
export class Session {
    private constructor();
    /** The size of the module's memory in bytes. */
    readonly memory: number;
    /** Returns a new session of the same module, with its own memory. */
    another(): Session;
    drop(): void;

    next(bytes: Bytes, offset?: number): Unit;
    units(bytes: Bytes, offset?: number): Generator<Unit, void, undefined>;
    hold(bytes: Bytes): Held;
    /** Iterates over the rules of rtr_list --check that the units break. */
    check(bytes: Bytes): Generator<Finding, void, undefined>;
    unitSize(bytes: Bytes): number;
    writeUnit(unit: Written): Uint8Array;
    errorCode(status: Status, bytes: Bytes): number | null;

    /** Its Fault also has the four fields of the result. */
    normalise(bytes: Bytes, options?: { limit?: number | bigint; version?: number | null }):
        Normalised;
    sameMeaning(left: Bytes, right: Bytes, limit?: number | bigint): boolean;

    delta(old: Bytes | Data, next: Bytes | Data): Uint8Array;
    /** Returns the changes from old data to new of any versions and sessions, in the higher of the
     * versions. One of them may be null, for no data. */
    changesBetween(old: Bytes | Data | null, next: Bytes | Data | null): Uint8Array;
    apply(data: Bytes | Data, changes: Bytes): Uint8Array;
    applyInOrder(data: Bytes | Data, changes: Bytes, places?: number): Uint8Array;
    order(changes: Bytes, places?: number): Uint8Array;
    /** Returns the Data of bytes in canonical form. */
    data(bytes: Bytes): Data;
    /** Loads the data that a recording or a list of units results in. It applies all answers one
     * after the other, each with or without a cache response, with payload units in any order. An
     * answer changes the data before it; after a reset query or a cache reset, and in another
     * session, it replaces them (RFC 8210 sections 5.1, 5.4 and 5.9). The input may have units of
     * the router, too.
     *
     * A Fault has the offset of the first unit that is refused, and its status: SHORT to PREFIX for
     * an invalid unit, SHORT also at the end of the input, if an answer lacks its end of data or
     * there is no answer; DUPLICATE or UNKNOWN for a change that section 12 doesn't allow;
     * OTHER_VERSION for a payload unit or an end of data of another version than those before it in
     * its answer, or than the data that it changes; OTHER_SESSION for an end of data of another
     * session than its answer (section 5.8); OLD_SERIAL for an end of data whose serial number
     * comes before that of the data that its answer changes (RFC 1982); RESET_INSIDE or
     * REPORT_INSIDE for a cache reset or an error report inside an answer. */
    loadData(recording: Bytes): Loaded;
    validate(data: Data, route: Route): Validity;
    validateAll(data: Data, routes: readonly Route[]): Validity[];
    covering(data: Data, route: Route): Generator<Covering, void, undefined>;

    /** Returns the line that rtr_list prints for the unit at the start of the bytes, with this
     * offset. */
    unitLine(bytes: Bytes, offset?: number | bigint): string;
    /** Returns the unit as a JSON object, as rtr_list --json prints it. */
    unitJson(bytes: Bytes, offset?: number | bigint): string;
    /** Returns the line of a payload unit, as rtr_diff prints it; "" for other units. */
    changeLine(unit: Written): string;
    /** Returns the change as a JSON object, as rtr_diff --json prints it. */
    changeJson(unit: Written): string;

    /** Returns the text of a status with its detail: "unit type 5 is not allowed here". */
    statusText(status: number, detail?: number): string;
    /** Returns that text with the offset of a unit, as in a Fault's message. */
    statusTextAt(status: number, detail: number, offset: number | bigint): string;
    /** Returns what an error report says: the name of its code, and in quotes the first bytes of
     * its text, of which any but printable ASCII is a question mark. */
    reportText(code: number, text: Bytes): string;
    /** Returns the name of a number; `named` selects of what: "IPv4 prefix" for Named.KIND and
     * 4. */
    name(named: Named, number: number): string;

    router(settings?: Partial<Settings>): Router;
    link(settings?: Partial<Settings>): Link;
    /** Returns a group of up to 16 members. */
    group(members: number, now: number, settings?: Partial<GroupSettings>): Group;
    usualSettings(highest: number): Settings;
    /** Returns how many milliseconds a program waits before it calls `updateSaved` of a server
     * again with data that couldn't be saved, given its pause before the last try, or 0 after the
     * first: a second at first, then twice the last pause, at most a minute. */
    retryAfter(previous: number): number;
    serialOrder(left: number, right: number): SerialOrder;
    versionHas(version: number, kind: Kind): boolean;
}

/** Reports whether this engine runs a module with 64-bit memory. The module with 32-bit memory, the
 * default of `load`, runs on every engine with WebAssembly. */
export function has64BitMemory(): boolean;

/** Returns a new session of the library. The source is the bytes of a module, or the module
 * compiled from them; by default it reads the module with 32-bit memory beside these files. `most`
 * limits the size of the memory in bytes. */
export function load(source?: BufferSource | WebAssembly.Module | null,
    options?: { most?: number }): Promise<Session>;

/** Returns the text of an address of 4 or 16 bytes. */
export function addressText(bytes: Bytes): string;

/** Returns the bytes of an address, or null if the text is invalid. */
export function addressOf(text: string): Uint8Array | null;

/** Returns the address and the length of a prefix, or null if the text is invalid. */
export function prefixOf(text: string): { address: Uint8Array; length: number } | null;
