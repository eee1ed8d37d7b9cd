// A client of a cache for Node, over TCP or TLS.
//
//     const client = new Client({ host: "cache.example", port: 3323 });
//     for await (const update of client) ..
//
// The proved module decides each step; docs/SESSIONS.md has the rules.

import { randomInt } from "node:crypto";
import { EventEmitter } from "node:events";
import { SessionError, load } from "./rtr_wire.js";
import { Cause, LAST_REPORT_LIMIT, STRUCTS, USUAL_VERSION } from "./rtr_table.js";
import { fieldsOf, numberOf, objectOf, textOf } from "./given.js";
import { opened } from "./connection.js";
import { EVENTS, SESSION, iterated } from "./iterated.js";
import { functionOf, optionsOf, sessionOf, signalOf } from "./options.js";
import { Run } from "./running.js";

export { follow } from "./follow.js";

// The number of random values that spread the waits of clients.
const CHANCES = 1 << 16;

/** The check of each option. */
const OPTIONS = {
    host: textOf,
    port: (value, name) => numberOf(value, name, 0xffff),
    tls: objectOf,
    connect: functionOf,
    settings: (value, name) => fieldsOf(value, name, STRUCTS.settings.fields),
    reportLimit: (value, name) => numberOf(value, name, 0xffffffff),
    signal: signalOf,
    rtr: sessionOf,
};

/** Checks options, and returns them with defaults for missing ones. */
function clientOptionsOf(value) {
    const options = { reportLimit: LAST_REPORT_LIMIT, settings: {}, ...optionsOf(value, OPTIONS) };
    if (options.connect === undefined) {
        textOf(options.host, "host");
        OPTIONS.port(options.port, "port");
        options.connect = (limits) => opened(options, limits);
    }
    return options;
}

/** A router's end of the protocol: it asks a cache for data, and follows their changes. */
export class Client extends EventEmitter {
    #options;
    #isRunning = false;
    #run = null;

    constructor(options) {
        super();
        this.#options = clientOptionsOf(options);
    }

    /** Iterates over the updates: one for each answer, and one when the data are lost. The loop
     * connects, and reconnects when a connection ends. Leaving it closes the connection. */
    [Symbol.asyncIterator]() {
        return iterated((stop) => this.#updates(stop));
    }

    /** Follows the cache until the signal aborts, for listeners of events. */
    async run() {
        const updates = this[Symbol.asyncIterator]();
        while (!(await updates.next()).done) { /* listeners have got the events */ }
    }

    /** Loads all data once, in the cache's version. Throws the first failure. */
    async fetch() {
        for await (const { name, value } of iterated((stop) => this[EVENTS](stop))) {
            if (name === "data") {
                return value.data;
            }
            if (name === "failed" || name === "noData") {
                throw value;
            }
        }
        throw new SessionError({ reason: Cause.LOST });
    }

    /** Asks the cache as soon as the pause allows, or connects, without waiting for the refresh or
     * retry time. No-op if the client doesn't run. */
    askNow() {
        this.#run?.askNow();
    }

    async * #updates(stop) {
        for await (const { name, value } of this[EVENTS](stop)) {
            this.emit(name, value);
            if (name === "data" || name === "dropped") {
                yield value;
            }
        }
    }

    /** Returns the session whose memory the client uses. */
    async [SESSION]() {
        this.#options.rtr ??= await load();
        return this.#options.rtr;
    }

    /** Iterates over the events until `stop` aborts, with the link in `kept` from an earlier run,
     * or a new one. */
    async * [EVENTS](stop, kept = { link: null }) {
        if (this.#isRunning) {
            throw new Error("the client follows its cache already: make another one");
        }
        this.#isRunning = true;
        try {
            kept.link = linkOf(await this[SESSION](), this.#options.settings, kept.link);
            this.#run = new Run(kept.link, this, this.#options, stop);
            yield* this.#run.events();
        } finally {
            kept.link?.drop();
            this.#run = null;
            this.#isRunning = false;
        }
    }
}

/** Returns a new link, or restarts the previous one. */
function linkOf(rtr, settings, before) {
    if (before === null) {
        return rtr.link({ highest: USUAL_VERSION, chance: randomInt(CHANCES), ...settings });
    }
    before.again();
    return before;
}
