/** A server for Node, over TCP or TLS: a cache that serves data to routers (RFC 8210 sections 5 to
 * 8). The proved module decides each step; docs/SESSIONS.md has the rules. */

import type { Data, ErrorReport, Session } from "./rtr_wire.js";
import { Reason, StoresStatus } from "./rtr_table.js";
import type { CacheSettings, ServerSettings } from "./rtr_table.js";
import type { Stream } from "./client.js";

export { Reason, StoresStatus };

/** A warning about data of serial number 0, for logs: after a cut in the first answer BIRD 2.0 asks
 * for the changes since that, and keeps the part of the data that it has. */
export const WARNING_SERIAL_0: string;

/** Why a server ended a connection, if the reason isn't an invalid unit (a Fault). */
export class ServerError extends Error {
    readonly reason: Reason;
    /** The bytes of the unit that it is about, as far as they came, or null. */
    readonly unit: Uint8Array | null;
    /** The error code that was reported to the router, or null. */
    readonly code: number | null;
    /** The router's report, if that is the reason. */
    readonly reported: ErrorReport | null;
}

/** More newer data than `mostBehind` came while the router was sent an answer. */
export class Behind extends Error {}

/** The server is closed. */
export class Closed extends Error {}

/** A server refuses data: other data have their serial number, the server left their session
 * before, the server doesn't save and has another session, their times aren't allowed (RFC 8210
 * section 6), a saved file is damaged, or the server has data that it didn't save. */
export class UpdateError extends Error {
    /** Null if the times aren't allowed, or the server has data that it didn't save. */
    readonly status: StoresStatus | null;
}

/** A file exists that the server neither restored nor wrote, so it isn't replaced: a restart would
 * lack the sessions that the file names. */
export class NotRestored extends Error {
    /** Of the file. */
    readonly path: string;
    /** EEXIST. */
    readonly code: string;
}

/** The server saves its data in another file than this path names. Paths are compared as absolute
 * paths without . and .., and links as what they are called. */
export class OtherFile extends Error {
    /** Of the file that was refused. */
    readonly path: string;
}

/** A file has the new data, but its folder couldn't be synced: after a power cut the file may have
 * the previous data. `cause` is the error of the system, and `code` its code. */
export class Unsynced extends Error {
    readonly code: string;
}

export interface ServerOptions {
    /** Limits and times, in milliseconds. Missing ones have the defaults of rtr.h. */
    settings?: Partial<CacheSettings & Omit<ServerSettings, "cache">>;
    /** The session whose memory it uses (default: a new one). */
    rtr?: Session;
}

export interface ListenOptions {
    /** By default, or if it is 0, any that is unused. */
    port?: number;
    /** A host name or an address (default: all of the machine's). */
    host?: string;
    /** The most connections that the system keeps for the server. */
    backlog?: number;
    /** Options of tls.createServer, for TLS: with `requestCert` and `ca` routers have to prove who
     * they are. */
    tls?: object;
}

/** The address of a router; undefined if its stream has none. */
export interface RouterAddress {
    address: string | undefined;
    port: number | undefined;
}

/** The events of a server, with their values:
 *
 * - `ended`: why a connection ended, unless the router closed it between two units. A Fault, a
 *   ServerError, Behind, Closed, OutOfMemory, or an error of node:net or node:tls
 * - `failed`: why a listener couldn't accept a connection; it continues */
export interface ServerEvents {
    ended: [error: Error, router: RouterAddress];
    failed: [error: Error];
}

type Listener<Name extends keyof ServerEvents> = (...values: ServerEvents[Name]) => void;

/** A cache: it serves data to routers of versions 0 to 2, and notifies them of new ones. All
 * routers share the bytes of an answer. It is an EventEmitter. */
export class Server {
    constructor(options?: ServerOptions);
    /** The served data, in the version in which they are kept; null before the first data. */
    readonly data: Data | null;
    /** Gives the server new data, and notifies routers. Connections of routers that have data of
     * another session are closed. If the data are the present ones, nothing happens. Calls that
     * change or save data run one after the other.
     *
     * A server with a file, which `restore` or `updateSaved` named, first saves the data to it, as
     * `updateSaved` does. Without a file a server doesn't save: all its data are of one session,
     * which it may not have used at an earlier start (RFC 8210 section 5.1).
     *
     * Throws UpdateError, OutOfMemory, errors of the file, or Closed after `close` or `shutdown`;
     * then the data before are served. */
    update(data: Data): Promise<void>;
    /** The same, but first saves the new data to this file, as `save` does, and lets later calls of
     * `update` save to it. So whenever the process ends, the file has every serial number that a
     * router may have data of, and after a restart none of them is used for other data. Restore the
     * file first, if there is one: a file that this server neither restored nor wrote isn't
     * replaced, as one that `restore` refused, until it is removed. All data are saved to one file,
     * which further calls may name by another path to it, but not by another link.
     *
     * Throws what `update` throws; NotRestored, OtherFile; UpdateError if the server has data that
     * it didn't save. */
    updateSaved(data: Data, path: string): Promise<void>;
    /** Lets the next data of a server that doesn't save be of another session, under which it never
     * served data, at no earlier start either. The present data are served until then. A server
     * that saves knows the sessions that it left, and ignores this call.
     *
     * Throws Closed after `close` or `shutdown`. */
    changeSession(): Promise<void>;
    /** Saves what a restart needs to a file: the sessions that the server left, the present data,
     * and the changes from earlier data. It writes and syncs a file beside it, whose name ends in
     * .new, renames that, and syncs the folder. Without data it writes nothing. Servers of each
     * language of this library read the file.
     *
     * Throws an error of the file; then no new file is left beside it, and it is unchanged, unless
     * the error is Unsynced. Throws UpdateError if the server doesn't save its data before it
     * serves them, since a restart from the file wouldn't know all of them; Closed after `close` or
     * `shutdown`. */
    save(path: string): Promise<void>;
    /** Loads what `save` wrote, if the server has no data yet, and returns the data of the file.
     * With the saved session and serial number, routers get changes after a restart; later data are
     * saved to this file before they are served. Call it before `listen`. It reads files of
     * versions before 0.3.0, too.
     *
     * Throws an error of the file, with the code ENOENT if there is none; UpdateError if it is
     * damaged or has invalid times; OutOfMemory; Closed after `close` or `shutdown`. */
    restore(path: string): Promise<Data>;
    /** Listens until the server is closed, and returns the address. It may listen at several.
     *
     * Throws an error of the listener, or Closed after `close` or `shutdown`. */
    listen(options?: ListenOptions): Promise<{ address: string; family: string; port: number }>;
    /** Serves a router over a Duplex stream, as a connection that `listen` accepted. A stream that
     * was destroyed before isn't served. */
    serve(stream: Stream): Promise<void>;
    /** Closes all listeners and connections, and returns once they are closed. The server can't be
     * used again. */
    close(): Promise<void>;
    /** Closes the server as `close` does, but first completes the answers that have begun.
     * Connections without one are closed at once. If the signal aborts, the others are closed, too,
     * and it throws the reason. */
    shutdown(options?: { signal?: AbortSignal }): Promise<void>;
    on<Name extends keyof ServerEvents>(name: Name, listener: Listener<Name>): this;
    once<Name extends keyof ServerEvents>(name: Name, listener: Listener<Name>): this;
    off<Name extends keyof ServerEvents>(name: Name, listener: Listener<Name>): this;
}
