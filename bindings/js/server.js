// A server for Node, over TCP or TLS: a cache that serves data to routers.
//
//     const server = new Server();
//     await server.update(data);
//     await server.listen({ port: 3323 });
//
// The proved module decides each step; docs/SESSIONS.md has the rules.

import { AsyncLocalStorage } from "node:async_hooks";
import { EventEmitter, once } from "node:events";
import { closeSync, openSync } from "node:fs";
import { createServer } from "node:net";
import { devNull } from "node:os";
import { createServer as createTlsServer } from "node:tls";
import { Entry, FAILURE_UNSAVED, STRUCTS } from "./rtr_table.js";
import { now } from "./bell.js";
import { Data } from "./data.js";
import { Closed } from "./faults.js";
import { fieldsOf, numberOf, objectOf, textOf } from "./given.js";
import { Kept } from "./kept.js";
import { writeStruct } from "./memory.js";
import { optionsOf, sessionOf, signalOf } from "./options.js";
import { load } from "./rtr_wire.js";
import { replace, restored, SavedFile } from "./saving.js";
import { Served } from "./serving.js";
import { RouterSocket } from "./socket.js";
import { Store, UpdateError } from "./store.js";

export { Reason, StoresStatus, WARNING_SERIAL_0 } from "./rtr_table.js";
export { Behind, Closed, ServerError } from "./faults.js";
export { NotRestored, OtherFile, Unsynced } from "./saving.js";
export { UpdateError } from "./store.js";

/** The fields of both structs of settings. */
const SETTINGS = [...STRUCTS.cacheSettings.fields,
    ...STRUCTS.serverSettings.fields.filter(([name]) => name !== "cache")];

/** The check of each option. */
const OPTIONS = {
    settings: (value, name) => fieldsOf(value, name, SETTINGS),
    rtr: sessionOf,
};

/** The check of each option of `listen`. */
const LISTEN_OPTIONS = {
    port: (value, name) => numberOf(value, name, 0xffff),
    host: textOf,
    backlog: numberOf,
    tls: objectOf,
};

/** Options of Node for listeners: a router that closes may still read. */
const LISTENER = { allowHalfOpen: true, noDelay: true };

/** The event that a connection has left; private to this file. */
const LEFT = Symbol("left");

/** Returns the default settings of rtr.h, with the given ones in their place. */
function settingsOf(rtr, given) {
    rtr.call("rtr_server_settings_usual", rtr.frame("serverSettings"));
    const usual = rtr.answer("serverSettings");
    return { ...usual, ...given, cache: { ...usual.cache, ...given } };
}

function dataOf(value) {
    if (!(value instanceof Data)) {
        throw new TypeError("data must be a Data, which session.data makes");
    }
    return value;
}

/** Waits until a listener listens, or is closed before; throws its error. */
async function listening(listener) {
    const done = new AbortController();
    try {
        await Promise.race(["listening", "close"].map((name) => (
            once(listener, name, { signal: done.signal }))));
    } finally {
        done.abort();
    }
}

/** Reports whether the system has another descriptor, as for a file. */
function hasSpare() {
    try {
        closeSync(openSync(devNull));
        return true;
    } catch {
        return false;
    }
}

/** Returns the error of a router that had to prove who it is, and didn't; else null. */
function strangerError(stream, { requestCert = false, rejectUnauthorized = true }) {
    if (!requestCert || !rejectUnauthorized || stream.authorized) {
        return null;
    }
    const code = String(stream.authorizationError);
    return Object.assign(new Error(code), { code });
}

/** A cache: it serves data to routers, and notifies them of new ones. */
export class Server extends EventEmitter {
    #options;
    #loading = null;
    #rtr = null;
    #settings; // a struct rtr_server_settings
    #store;
    #file = null; // a SavedFile; null as long as none is named
    #mayChange = false; // the next data may be of another session, though there is no file
    #door;
    #kept = { edition: null }; // the newest edition, for connections
    #updating = Promise.resolve(); // the last call on the store
    #listeners = new Set();
    #sockets = new Set();
    #isClosed = false;

    constructor(options = {}) {
        super();
        this.#options = optionsOf(options, OPTIONS);
    }

    /** The data that are served; null before the first. */
    get data() {
        return this.#kept.edition?.data ?? null;
    }

    /** Gives the server new data, once they are saved if it has a file, and notifies routers. */
    async update(data) {
        dataOf(data);
        await this.#inTurn(() => this.#takes(data));
    }

    /** Gives the server new data, once this file has what a restart needs. */
    async updateSaved(data, path) {
        dataOf(data);
        textOf(path, "path");
        await this.#inTurn(async () => {
            await this.#names(path);
            return this.#takes(data);
        });
    }

    /** Lets the next data of a server without a file be of another session. */
    async changeSession() {
        await this.#inTurn(() => {
            this.#mayChange = true;
        });
    }

    /** Saves what a restart needs to a file; nothing without data. */
    async save(path) {
        textOf(path, "path");
        await this.#inTurn(async () => {
            this.#checkSaved();
            const pieces = this.#store.file;
            if (pieces !== null) {
                await replace(path, pieces);
            }
        });
    }

    /** Loads what a server saved, unless this one has data, and returns the data of the file. */
    async restore(path) {
        textOf(path, "path");
        return this.#inTurn(() => this.#restores(path));
    }

    /** Listens until the server is closed, and returns the address and port. */
    async listen(options = {}) {
        const { tls, ...where } = optionsOf(options, LISTEN_OPTIONS);
        await this.#ready();
        this.#checkOpen();
        const listener = tls ? this.#tlsListener(tls)
            : createServer(LISTENER, (socket) => this.#enters(socket)?.opens(socket));
        this.#listeners.add(listener);
        try {
            await listening(listener.listen(where));
            this.#checkOpen();
        } catch (error) {
            this.#listeners.delete(listener);
            listener.close();
            throw error;
        }
        listener.on("error", (error) => this.emit("failed", error));
        return listener.address();
    }

    /** Closes all listeners and connections, and returns once they are closed. */
    async close() {
        await this.#closes((socket) => socket.fails(new Closed()));
    }

    /** Closes the server, but first completes answers that have begun, until `signal` aborts. */
    async shutdown({ signal } = {}) {
        if (signal !== undefined) {
            signalOf(signal, "signal");
        }
        const aborted = () => this.#sockets.forEach((socket) => socket.fails(new Closed()));
        signal?.addEventListener("abort", aborted);
        try {
            await this.#closes((socket) => (
                signal?.aborted ? socket.fails(new Closed()) : socket.leaves(new Closed())));
        } finally {
            signal?.removeEventListener("abort", aborted);
        }
        signal?.throwIfAborted();
    }

    /** Serves a router over a Duplex stream, unless that was destroyed before. */
    async serve(stream) {
        stream.on("error", () => {}); // one that comes before the module is there
        await this.#ready();
        this.#checkOpen();
        if (!stream.destroyed) { // its close may be over, and it would stay counted
            this.#enters(stream)?.opens(stream);
        }
    }

    /** Waits for the module, unless it is there. */
    async #ready() {
        this.#loading ??= this.#load();
        await this.#loading;
    }

    async #load() {
        this.#rtr = this.#options.rtr ?? await load();
        this.#settings = settingsOf(this.#rtr, this.#options.settings);
        this.#store = this.#newStore();
        this.#door = new Kept(this.#rtr, "door");
        const at = this.#rtr.frame("serverSettings");
        writeStruct(this.#rtr.heap.view, "serverSettings", at, this.#settings);
        this.#door.call("rtr_door_init", at);
    }

    #newStore(number) {
        return new Store(this.#rtr, this.#settings, number);
    }

    /** Returns the store that takes new data: another one for the first data of a session of a
     * server without a file. */
    #storeFor({ end: { session } }) {
        const { edition } = this.#kept;
        const changes = this.#mayChange && session !== this.data?.end.session;
        if (this.#file !== null || (edition !== null && !changes)) {
            return this.#store;
        }
        const store = this.#newStore(edition?.number);
        store.beginUnsaved(session);
        return store;
    }

    /** Saves to this file from now on. It stays named even if saving then fails, since it may have
     * the data all the same. */
    async #names(path) {
        if (this.#file === null) {
            this.#checkSaved();
            const file = new SavedFile(path);
            await file.check();
            this.#file = file;
        } else {
            this.#file.checkNamed(path);
        }
    }

    /** Throws an UpdateError if data are served that weren't saved. */
    #checkSaved() {
        if (this.#file === null && this.data !== null) {
            throw new UpdateError(null, FAILURE_UNSAVED);
        }
    }

    #checkOpen() {
        if (this.#isClosed) {
            throw new Closed();
        }
    }

    /** Calls a function on the store after all earlier ones have ended. */
    #inTurn(call) {
        const done = this.#updating.then(async () => {
            await this.#ready();
            this.#checkOpen();
            return call();
        });
        this.#updating = done.catch(() => {});
        return done;
    }

    /** Takes new data, and serves them, once they are saved if there is a file. */
    async #takes(data) {
        this.#file?.checkNamed(this.#file.path);
        await this.#file?.check();
        const store = this.#storeFor(data);
        if (!store.take(data, Date.now())) {
            return;
        }
        if (this.#file !== null) {
            try {
                await this.#file.save(store.file);
            } catch (error) {
                store.giveUp();
                throw error;
            }
        }
        store.saved();
        this.#mayChange = false;
        this.#uses(store);
    }

    async #restores(path) {
        const file = await restored(path);
        const store = this.#newStore();
        try {
            store.start(file);
        } catch (error) {
            store.drop();
            throw error;
        }
        const { data } = store.edition;
        if (this.data !== null) {
            store.drop();
            return data;
        }
        this.#file = new SavedFile(path, true);
        this.#uses(store);
        return data;
    }

    /** Serves the data of this store. */
    #uses(store) {
        const before = this.#store;
        this.#store = store;
        this.#serves();
        if (before !== store) {
            before.drop();
        }
    }

    /** Serves what the store has from now on. */
    #serves() {
        this.#kept.edition = this.#store.edition;
        this.#sockets.forEach((socket) => socket.turn());
    }

    /** Serves or refuses a connection, as the door decides; returns null if it was closed. */
    #enters(socket) {
        const entry = this.#door.call("rtr_door_enter", hasSpare());
        if (this.#isClosed || entry === Entry.WAIT) {
            this.#door.call("rtr_door_leave", entry);
            socket.on("error", () => {}).destroy();
            return null;
        }
        const served = new Served(this.#rtr, this.#kept, this.#settings, now());
        const client = { address: socket.remoteAddress, port: socket.remotePort };
        const router = new RouterSocket(served, socket, (error) => {
            this.#sockets.delete(router);
            this.#door.call("rtr_door_leave", entry);
            this.emit(LEFT); // first: a listener of `ended` may throw
            if (error !== null) {
                this.emit("ended", error, client);
            }
        });
        this.#sockets.add(router);
        if (entry === Entry.REFUSE) {
            served.refuse(now());
        }
        router.turn();
        return router;
    }

    /** Returns a listener over TLS. It checks certificates itself, since Node would close the
     * connection without reporting its address and the reason. The events of a handshake don't name
     * its socket: they come in the context in which the handshake began. */
    #tlsListener(tls) {
        const routers = new AsyncLocalStorage();
        const shaker = createTlsServer({ ...tls, ...LISTENER, rejectUnauthorized: false });
        shaker.on("secureConnection", (stream) => {
            routers.getStore()?.opens(stream, strangerError(stream, tls));
        });
        shaker.on("tlsClientError", (error, stream) => {
            routers.getStore()?.opens(stream, error);
        });
        return createServer(LISTENER, (socket) => {
            const router = this.#enters(socket);
            if (router !== null) {
                routers.run(router, () => shaker.emit("connection", socket));
            }
        });
    }

    /** Closes the listeners, and each connection by this function. */
    async #closes(close) {
        this.#isClosed = true;
        const closed = [...this.#listeners].map((listener) => (
            new Promise((resolve) => listener.close(resolve))));
        this.#sockets.forEach(close);
        while (this.#sockets.size > 0) {
            await once(this, LEFT);
        }
        await Promise.all([...closed, this.#updating]);
        this.#store?.drop();
    }
}
