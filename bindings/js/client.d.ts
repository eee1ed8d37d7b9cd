/** A client of RTR caches for Node, over TCP or TLS (RFC 8210 sections 6 to 10). The proved module
 * decides each step; docs/SESSIONS.md has the rules. */

import type { Data, GroupSettings, NoData, Session, Settings, Unit } from "./rtr_wire.js";

/** The data of a client after an answer, or after their loss. */
export interface Update {
    /** All data, which are immutable; null if they were lost. */
    readonly data: Data | null;
    /** The client that has them. */
    readonly client: Client;
    /** Iterates over the changes from the previous data: units that are announced, then units that
     * are withdrawn. Each call computes them, and throws OutOfMemory if memory runs out. */
    changes(): Generator<Unit, void, undefined>;
    /** Returns the changes in canonical form, as a cache sends them. */
    delta(): Uint8Array;
}

/** The limits for connecting. */
export interface Limits {
    /** Aborts when the connection isn't needed any more. */
    signal: AbortSignal;
    /** The remaining time, after which the signal aborts. */
    milliseconds: number;
}

/** A Duplex stream of bytes, such as a socket of node:net or node:tls. */
export interface Stream {
    read(): unknown;
    write(bytes: Uint8Array): unknown;
    destroy(): unknown;
    on(event: string, listener: (...values: any[]) => void): unknown;
}

export interface ClientOptions {
    /** A host name or an address. All addresses of a host name are tried until one answers. */
    host?: string;
    port?: number;
    /** Options of tls.connect, for TLS: the cache's certificate has to name `host`. */
    tls?: object;
    /** Opens the connection, instead of TCP or TLS to `host` and `port`. */
    connect?: (limits: Limits) => PromiseLike<Stream>;
    /** Limits and times, in milliseconds. Missing ones have the defaults of rtr.h; `highest` is 1
     * by default. ASPAs need version 2, for which caches in use have several layouts. */
    settings?: Partial<Settings>;
    /** The milliseconds for a last report to be sent, and to be read by the cache (default
     * 2000). */
    reportLimit?: number;
    /** Stops the client. */
    signal?: AbortSignal;
    /** The session whose memory it uses (default: a new one). */
    rtr?: Session;
}

/** The events of a client, with their values:
 *
 * - `connect`: a connection is open
 * - `data`: an answer came
 * - `dropped`: the data are lost, since they expired or the cache has another session
 * - `noData`: the cache has no data yet
 * - `failed`: why connecting failed, a connection ended, or the data were lost; the client
 *   continues. A Fault, a SessionError, Empty, OutOfMemory, or an error of node:net or node:tls */
export interface ClientEvents {
    connect: [];
    data: [update: Update];
    dropped: [update: Update];
    noData: [error: NoData];
    failed: [error: Error];
}

type Listener<Name extends keyof ClientEvents> = (...values: ClientEvents[Name]) => void;

/** A router's end of the protocol: it asks a cache for data, and follows their changes. It is an
 * EventEmitter. */
export class Client implements AsyncIterable<Update> {
    constructor(options: ClientOptions);
    /** Iterates over the updates: one for each answer, also one without changes, and one when the
     * data are lost. It reconnects when a connection ends. Leaving the loop closes the connection,
     * and frees the memory. It throws the reason of the signal when that aborts, and errors of
     * listeners. Only one loop may run at a time. */
    [Symbol.asyncIterator](): AsyncIterableIterator<Update>;
    /** Follows the cache without a loop, for listeners. */
    run(): Promise<void>;
    /** Loads all data once, in the cache's version. Throws the first failure; emits no event. */
    fetch(): Promise<Data>;
    /** Asks the cache as soon as the pause allows, or connects, without waiting for the refresh or
     * retry time. No-op if the client doesn't run. */
    askNow(): void;
    on<Name extends keyof ClientEvents>(name: Name, listener: Listener<Name>): this;
    once<Name extends keyof ClientEvents>(name: Name, listener: Listener<Name>): this;
    off<Name extends keyof ClientEvents>(name: Name, listener: Listener<Name>): this;
}

/** Follows the most preferred cache that answers (RFC 8210 section 10), with 1 to 16 clients:
 * iterates over the updates of the data in use. Each client emits its own events. An answer without
 * payloads is a failure (Empty), unless `emptyIsData` is set, which is the default for a single
 * client. Leaving the loop, or the signal, stops all clients. */
export function follow(clients: readonly Client[],
    options?: { signal?: AbortSignal; settings?: Partial<GroupSettings> }):
    AsyncIterableIterator<Update>;
