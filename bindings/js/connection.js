// A client's connection to its cache, over the streams of Node.

import { lookup } from "node:dns/promises";
import { once } from "node:events";
import { connect as connectTcp, isIP } from "node:net";
import { checkServerIdentity, connect as connectTls } from "node:tls";
import { LAST_REPORT_BYTES } from "./rtr_table.js";

// The most milliseconds that a timer of Node takes: for more it is over at once.
export const LONGEST_TIMER = 2 ** 31 - 1;

/** Returns how many milliseconds the next address of a host has to answer, if this many addresses
 * are left until `end`. Each gets an equal share of the time, as in the other languages of the
 * library. */
export function shareOf(end, addresses) {
    return (end - performance.now()) / addresses;
}

/** Opens a connection to the first address of a host that answers, by TCP or, with options of
 * tls.connect, TLS. Each address gets its share of these milliseconds: that of the last one is the
 * rest of them, after which the signal ends its attempt.
 *
 * Throws the error of the lookup or of the last address, or the signal's reason after it aborts. */
export async function opened({ host, port, tls }, { signal, milliseconds }) {
    const end = performance.now() + milliseconds;
    const addresses = await unlessAborted(signal, lookup(host, { all: true }));
    let last = null;
    for (const [index, { address }] of addresses.entries()) {
        const left = addresses.length - index;
        const share = left > 1 ? shareOf(end, left) : null;
        try {
            return await tried({ address, host, port, tls }, signal, share);
        } catch (error) {
            signal.throwIfAborted();
            last = error;
        }
    }
    throw last;
}

/** Opens a connection with a caller's `connect`, within these milliseconds, and passes its stream
 * to `done`, or else null and the error. Returns a controller: after its abort `done` isn't called,
 * and a stream that still comes is destroyed. */
export function dial(connect, milliseconds, done) {
    const dialing = new AbortController();
    const { signal } = dialing;
    const passes = (stream, error) => {
        if (!signal.aborted) {
            done(stream, error);
        } else if (stream !== null) {
            guarded(stream).destroy();
        }
    };
    const opens = async () => streamOf(await connect({ signal, milliseconds }));
    opens().then((stream) => passes(stream, null), (error) => passes(null, error));
    return dialing;
}

/** Checks that a caller's `connect` returned a stream, and returns it. */
function streamOf(value) {
    if (typeof value?.read !== "function" || typeof value.destroy !== "function") {
        throw new TypeError("connect must return a stream");
    }
    return value;
}

/** Waits for a promise, or rejects when the signal aborts. */
function unlessAborted(signal, promise) {
    return new Promise((resolve, reject) => {
        const aborted = () => reject(signal.reason);
        const done = () => signal.removeEventListener("abort", aborted);
        signal.addEventListener("abort", aborted);
        promise.then(resolve, reject).finally(done);
    });
}

/** Connects to an address, within this many milliseconds unless they are null. */
async function tried({ address, host, port, tls }, signal, milliseconds) {
    const attempt = new AbortController();
    const aborted = () => attempt.abort(signal.reason);
    const timer = milliseconds === null ? null
        : timerOf(() => attempt.abort(tooSlow(address, port)), milliseconds);
    signal.addEventListener("abort", aborted);
    let stream = guarded(connectTcp({ host: address, port, allowHalfOpen: true }));
    try {
        await once(stream, "connect", { signal: attempt.signal });
        if (tls) {
            stream = guarded(connectTls({ ...nameOf(host), ...tls, socket: stream }));
            await once(stream, "secureConnect", { signal: attempt.signal });
        }
        return stream;
    } catch (error) {
        stream.destroy();
        throw attempt.signal.aborted ? attempt.signal.reason : error;
    } finally {
        clearTimeout(timer);
        signal.removeEventListener("abort", aborted);
    }
}

function timerOf(call, milliseconds) {
    return setTimeout(call, Math.min(milliseconds, LONGEST_TIMER));
}

/** Prevents an error of a stream without listeners from ending the process. */
function guarded(stream) {
    return stream.on("error", () => {});
}

/** Returns the options of TLS for a cache whose certificate has to name this host. */
function nameOf(host) {
    const checked = { host, checkServerIdentity: checkNames };
    return isIP(host) ? checked : { ...checked, servername: host };
}

/** Checks the alternative names of a certificate. The common name of its subject, which Node takes
 * if there are none, doesn't count (RFC 8210 section 9.2). */
function checkNames(host, certificate) {
    return checkServerIdentity(host, { ...certificate, subject: {} });
}

/** Returns the error for an address that doesn't answer in time, like the system's. */
function tooSlow(address, port) {
    const error = new Error(`connect ETIMEDOUT ${address}:${port}`);
    return Object.assign(error, { code: "ETIMEDOUT", syscall: "connect", address, port });
}

/** A stream of Node to a cache, which is read only on demand. */
export class Connection {
    #stream;
    #changed;
    #isOver;
    #unread = null; // bytes that were read and not taken

    /** `changed` is called when bytes were received, and when the connection is over. */
    constructor(stream, changed) {
        this.#stream = guarded(stream);
        this.#changed = changed;
        this.#isOver = stream.destroyed;
        stream.on("readable", changed);
        for (const name of ["end", "close"]) {
            stream.on(name, () => {
                this.#isOver = true;
                changed();
            });
        }
    }

    /** Reports whether no more bytes come. */
    get isOver() {
        return this.#isOver;
    }

    /** The error that broke it, or null. */
    get error() {
        return this.#stream.errored ?? null;
    }

    /** Passes received bytes to `take`, which returns how many it took: it gets the others next
     * time. Returns whether there were some. */
    pass(take) {
        this.#unread ??= this.#stream.read();
        if (this.#unread === null) {
            return false;
        }
        const rest = this.#unread.subarray(take(this.#unread));
        this.#unread = rest.length > 0 ? rest : null;
        return true;
    }

    /** Sends bytes; the stream buffers what can't be sent yet. */
    write(bytes) {
        if (bytes.length > 0 && this.#stream.writable) {
            this.#stream.write(bytes);
        }
    }

    /** Closes the connection. If there are last bytes, the cache gets at most this many
     * milliseconds to read them; meanwhile its own bytes are read, since unread bytes would reset
     * the connection. */
    async finish(last, milliseconds) {
        if (last.length > 0 && this.#stream.writable) {
            await this.#sendLast(last, milliseconds);
        }
        this.destroy();
    }

    #sendLast(last, milliseconds) {
        const stream = this.#stream;
        let left = LAST_REPORT_BYTES;
        return new Promise((resolve) => {
            const timer = timerOf(resolve, milliseconds);
            const done = () => {
                clearTimeout(timer);
                resolve();
            };
            stream.removeListener("readable", this.#changed);
            stream.on("data", (bytes) => {
                left -= bytes.length;
                if (left <= 0) {
                    done();
                }
            });
            stream.on("close", done);
            stream.end(last, () => {
                if (stream.readableEnded) {
                    done();
                }
                stream.on("end", done);
            });
        });
    }

    /** Closes the connection at once. */
    destroy() {
        this.#stream.destroy();
    }
}
