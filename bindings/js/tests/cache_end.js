// A cache with a simulated clock, over the connection and the store of a Server, as an end of a
// connection (tests/joined/README.md).
//
// usage: node cache_end.js MODULE

import { openSync, readFileSync, writeSync } from "node:fs";
import { createInterface } from "node:readline";
import { StoresStatus, Step } from "../rtr_table.js";
import { replace, restored } from "../saving.js";
import { Served } from "../serving.js";
import { Store, UpdateError } from "../store.js";
import { opened } from "./opened.js";

/** The names of settings in scenes. */
const SETTINGS = { "first-limit": "firstLimit", "idle-limit": "idleLimit", "pause": "pause" };

const hex = (bytes) => Buffer.from(bytes).toString("hex");
const bytesOf = (text) => Uint8Array.from(Buffer.from(text.replaceAll(" ", ""), "hex"));

/** A snapshot that lacks the changes since some serial numbers. */
function without(edition, forgotten) {
    const known = new Uint32Array(edition.known.slice().buffer);
    return {
        number: edition.number,
        data: edition.data,
        known: new Uint8Array(known.filter((serial) => !forgotten.has(serial)).buffer),
        form: (version) => edition.form(version),
        since: (version, serial) => edition.since(version, serial),
    };
}

/** A cache, and the connection of a router. */
class CacheEnd {
    now = 0;
    taken = [];
    #rtr;
    #settings;
    #date; // milliseconds since 1970 at the start
    #store;
    #kept = { edition: null };
    #serials = []; // of the session, in order
    #session = null;
    #forgotten = new Set();
    #served = null;
    #came = []; // what the router sent and the connection hasn't read: bytes, or null for its close
    #unsent = new Uint8Array(0); // handed to the socket
    #window = Infinity; // how many bytes the router still takes

    constructor(rtr, settings, date) {
        this.#rtr = rtr;
        this.#settings = settings;
        this.#date = date;
        this.#store = this.#newStore();
    }

    #newStore() {
        return new Store(this.#rtr, this.#settings);
    }

    note(what) {
        this.taken.push(`${this.now} ${what}\n`);
    }

    /** Advances the clock to this time. */
    pass(time) {
        while (this.wakes <= time) {
            this.now = Math.max(this.now, this.wakes);
            this.#settle();
        }
        this.now = Math.max(this.now, time);
    }

    /** When it acts by itself. */
    get wakes() {
        return this.#served?.wakes ?? 2 ** 62;
    }

    /** Frees the memory. */
    drop() {
        this.#store.drop();
    }

    connected(isRefused) {
        this.#served = new Served(this.#rtr, this.#kept, this.#settings, this.now);
        this.#came = [];
        this.#unsent = new Uint8Array(0);
        this.#window = Infinity;
        if (isRefused) {
            this.#served.refuse(this.now);
        }
        this.#settle();
    }

    received(bytes) {
        this.#came.push(bytes);
        this.#settle();
    }

    closed() {
        this.#came.push(null);
        this.#settle();
    }

    /** The connection breaks, by which its socket is closed. */
    broke() {
        this.#closes();
    }

    takes(count) {
        this.#window = count;
        this.#settle();
    }

    data(bytes) {
        if (this.#takes(this.#rtr.data(bytes))) {
            this.#store.saved();
            this.#serves();
        }
    }

    #takes(data) {
        const date = this.#date + this.now;
        try {
            return this.#store.take(data, date);
        } catch (error) {
            if (!(error instanceof UpdateError) || error.status !== StoresStatus.SESSION_LEFT) {
                throw error;
            }
        }
        // A scene that goes back to a session: the cache forgets which ones it left.
        this.#store.drop();
        this.#store = this.#newStore();
        return this.#store.take(data, date);
    }

    forgets(serial) {
        const count = this.#serials.indexOf(serial) + 1;
        this.#serials.slice(0, count).forEach((one) => this.#forgotten.add(one));
        this.#kept.edition = without(this.#store.edition, this.#forgotten);
    }

    async saves(path) {
        const pieces = this.#store.file;
        if (pieces !== null) {
            await replace(path, pieces);
        }
    }

    async restores(path) {
        this.#store.start(await restored(path));
        this.#serves();
    }

    #serves() {
        const { edition } = this.#store;
        const { session, serial } = edition.data.end;
        if (session !== this.#session) {
            [this.#serials, this.#forgotten] = [[], new Set()];
        }
        this.#session = session;
        this.#forgotten.delete(serial);
        this.#serials = [...this.#serials.filter((one) => one !== serial), serial];
        this.#kept.edition = without(edition, this.#forgotten);
        this.#settle();
    }

    /** Carries out the pending actions at this time, as a socket does. */
    #settle() {
        while (this.#served !== null) {
            const step = this.#served.next(this.now);
            if (step === Step.CLOSE || step === Step.FINISH) {
                this.#closes();
            } else if (step === Step.SEND ? !this.#sends() : !this.#reads()) {
                return;
            }
        }
    }

    #sends() {
        if (this.#unsent.length === 0) {
            this.#unsent = this.#served.takes();
        }
        const sent = this.#unsent.subarray(0, Math.min(this.#unsent.length, this.#window));
        if (sent.length === 0) {
            return false;
        }
        this.note(`cache> ${hex(sent)}`);
        this.#window -= sent.length;
        this.#unsent = this.#unsent.subarray(sent.length);
        this.#served.sent(sent.length, this.now);
        return true;
    }

    #reads() {
        const bytes = this.#came.shift();
        if (bytes === undefined) {
            return false;
        }
        if (bytes === null) {
            this.#served.closed();
        } else {
            this.#served.received(bytes, this.now);
        }
        return true;
    }

    #closes() {
        if (this.#served !== null) {
            this.#served = null;
            this.note("closes");
        }
    }
}

/** Carries out a step of the router, or of the cache's program. */
async function takeStep(end, [first, ...words]) {
    const text = words.join(" ");
    const steps = {
        "router>": () => end.received(bytesOf(text)),
        "data": () => end.data(bytesOf(words.slice(1, -1).join(""))),
        "forgets": () => end.forgets(Number(text)),
        "saves": () => end.saves(text),
        "restores": () => end.restores(text),
        "router": () => ({
            connects: () => end.connected(words.length > 1),
            closes: () => end.closed(),
            breaks: () => end.broke(),
            takes: () => end.takes(Number(words[1])),
        })[words[0]](),
    };
    await steps[first]();
}

const rtr = await opened(readFileSync(process.argv[2]));
const output = process.env.RTR_JOINED ? openSync(process.env.RTR_JOINED, "w") : 1;

/** Returns the default settings of a server. */
function usualSettings() {
    rtr.call("rtr_server_settings_usual", rtr.frame("serverSettings"));
    return rtr.answer("serverSettings");
}

/** Changes settings by a line of a scene. */
function set(settings, [name, number]) {
    if (name === "keep-bytes") {
        settings.keepBytes = Number(number);
    } else if (name === "refuses") {
        settings.cache.refuses = true;
    } else if (name in SETTINGS) {
        settings.cache[SETTINGS[name]] = Number(number);
    }
}

let [end, settings, date] = [null, usualSettings(), 2 ** 40];
for await (const line of createInterface({ input: process.stdin })) {
    const [first, ...words] = line.split(" ");
    if (first === "scene") {
        end?.drop();
        [end, settings, date] = [null, usualSettings(), 2 ** 40];
    } else if (first === "cache" && words[0] === "date") {
        date = Number(words[1]);
    } else if (first === "cache") {
        set(settings, words);
    } else {
        end ??= new CacheEnd(rtr, settings, date);
        end.pass(Number(first === "at" ? words[0] : first));
        if (first !== "at") {
            await takeStep(end, words);
        }
        writeSync(output, `${end.taken.splice(0).join("")}wakes ${end.wakes}\n`);
    }
}
