// A router's connection to a server, without its socket and a clock.

import { Cut, LONGEST_UNIT, Reason, SERIAL_SIZE, ServingKind, Status, Step }
    from "./rtr_table.js";
import { Fault, ServerError, cutError } from "./faults.js";
import { Kept } from "./kept.js";
import { putPresent } from "./store.js";
import { writeStruct } from "./memory.js";
import { unitOf } from "./units.js";

const NOTHING = new Uint8Array(0);

// The most bytes of an answer that are handed to a socket at a time: a record of TLS. A stream
// reports only that a whole chunk was sent, and the connection ends if none was within the limit.
const CHUNK = 1 << 14;

/** Returns the bytes of both. */
function joined(first, second) {
    const all = new Uint8Array(first.length + second.length);
    all.set(first);
    all.set(second, first.length);
    return all;
}

/** The proved machines of a connection, its input, and the answer that it sends. Times are in
 * milliseconds, by a monotonic clock. */
export class Served {
    #session;
    #kept; // its `edition` is the newest one, or null
    #cache; // the machine that decides the answers
    #connection; // the machine that decides when to send, wait and end
    #input = NOTHING; // received bytes that the machine hasn't processed
    #offset = 0; // of the input in all received bytes
    #answer = { opening: NOTHING, body: NOTHING }; // its bytes that `takes` hasn't returned
    #isClosed = false; // whether the router has closed
    #hasEnded = false;
    #error = null;

    /** A connection that was accepted at this time. `kept` has the newest `edition` of a Store, or
     * null; `settings` are a struct rtr_server_settings. */
    constructor(session, kept, settings, now) {
        this.#session = session;
        this.#kept = kept;
        this.#cache = new Kept(session, "cache");
        this.#connection = new Kept(session, "connection");
        const at = session.frame("serverSettings");
        writeStruct(session.heap.view, "serverSettings", at, settings);
        this.#cache.call("rtr_cache_init", now, at); // the settings of the cache come first
        this.#connection.call("rtr_connection_init", now, at);
    }

    /** Ends the connection with a report: the limit of connections is reached. */
    refuse(now) {
        this.#tell("rtr_cache_full", now);
    }

    /** Reports that these bytes were read. */
    received(bytes, now) {
        if (!this.#hasEnded) {
            this.#input = this.#input.length > 0 ? joined(this.#input, bytes) : bytes;
            this.#connection.call("rtr_connection_received", now, bytes.length);
        }
    }

    /** Reports that the router closed: no more bytes come. */
    closed() {
        this.#isClosed = true;
        this.#connection.call("rtr_connection_closed");
    }

    /** Reports that the connection broke: nothing is sent on it any more. This is the reason,
     * unless the connection has ended before. */
    broke(error) {
        if (!this.#hasEnded) {
            this.#error ??= error;
            this.#hasEnded = true;
        }
        this.#connection.call("rtr_connection_broke");
    }

    /** Reports that this many of the bytes that `takes` returned were sent. */
    sent(count, now) {
        this.#connection.call("rtr_connection_sent", now, count);
    }

    /** Returns the next bytes of the answer, and removes them from it. */
    takes() {
        const { opening, body } = this.#answer;
        const part = body.subarray(0, CHUNK);
        this.#answer = { opening: NOTHING, body: body.subarray(part.length) };
        return opening.length > 0 ? joined(opening, part) : part;
    }

    /** Returns what to do at this time: a Step of WAIT, SEND, FINISH or CLOSE. */
    next(now) {
        for (;;) {
            const step = this.#step(now);
            if (step === Step.HEAR) {
                this.#hear(now);
            } else if (step === Step.TICK) {
                this.#tell("rtr_cache_tick", now);
            } else if (step === Step.LOSE) {
                this.#tell("rtr_cache_lost", now);
            } else {
                return step;
            }
        }
    }

    /** When to call `next` if nothing happens before. */
    get wakes() {
        return this.#connection.call("rtr_connection_wakes", this.#cache.put(), this.#present());
    }

    /** Why the connection ended; null if the router closed it between two units, or it hasn't
     * ended. */
    get error() {
        return this.#error;
    }

    #step(now) {
        const [session, number] = [this.#session, this.#kept.edition?.number ?? 0];
        const to = session.frame("number");
        const step = this.#connection.call("rtr_connection_next", now, this.#cache.put(),
            this.#present(), number, to);
        const cut = session.heap.view.getUint8(to);
        if (step === Step.CLOSE && cut !== Cut.NONE) {
            this.#error ??= cutError(cut);
        }
        return step;
    }

    /** Writes session and serial number of the newest data, and returns their address. */
    #present() {
        return putPresent(this.#session, this.#kept.edition);
    }

    /** Passes an event without input to the machine. */
    #tell(name, now) {
        this.#cache.call(name, now, this.#present(), this.#session.frame("serving"));
        this.#does(this.#session.answer("serving"), now);
    }

    /** Passes the input to the machine. */
    #hear(now) {
        const { length } = this.#input;
        const known = this.#kept.edition?.known ?? NOTHING;
        const count = known.length / Uint32Array.BYTES_PER_ELEMENT;
        const serving = this.#session.within([known, this.#input], (knownAt, at) => {
            this.#cache.call("rtr_cache_read_nonnull", now, this.#present(), knownAt, count, at,
                length, this.#isClosed, this.#session.frame("serving"));
            return this.#session.answer("serving");
        });
        this.#connection.call("rtr_connection_heard", now, serving.taken);
        this.#does(serving, now);
        this.#input = this.#input.subarray(serving.taken);
        this.#offset += serving.taken;
    }

    /** Begins the machine's answer, or ends the connection. */
    #does(serving, now) {
        if (serving.kind === ServingKind.WAIT) {
            return;
        }
        const opening = this.#opening(serving);
        if (serving.kind === ServingKind.END) {
            this.#error = this.#ending(serving);
            this.#hasEnded = true;
            this.#answer = { opening, body: NOTHING };
            this.#connection.call("rtr_connection_ends", now, opening.length);
            return;
        }
        const body = this.#body(serving);
        this.#answer = { opening, body };
        const number = this.#kept.edition?.number ?? 0;
        this.#connection.call("rtr_connection_answers", now, opening.length + body.length, number);
    }

    /** Returns the first unit of an answer, or the report that is owed. */
    #opening({ reports }) {
        const session = this.#session;
        const serving = session.frame("serving");
        if (!reports) {
            return session.within([SERIAL_SIZE], (to) => session.copy(to,
                session.call("rtr_cache_unit_nonnull", serving, to, SERIAL_SIZE)));
        }
        return session.within([this.#input, LONGEST_UNIT], (at, to) => {
            const length = session.frame("number");
            session.call("rtr_cache_report_nonnull", serving, at, this.#input.length, to,
                LONGEST_UNIT, length);
            return session.copy(to, Number(session.heap.view.getBigUint64(length, true)));
        });
    }

    /** Returns the bytes of the answer after its first unit. */
    #body({ kind, version, serial }) {
        switch (kind) {
            case ServingKind.ALL:
                return this.#kept.edition.form(version);
            case ServingKind.CHANGES:
                return this.#kept.edition.since(version, serial);
            default:
                return NOTHING;
        }
    }

    /** Returns why the machine ends the connection, about the unit at the start of the input. */
    #ending({ reason, status, detail, code, reports }) {
        const owed = reports ? code : null;
        switch (reason) {
            case Reason.LOST:
                return null;
            case Reason.FAULTY:
                return this.#fault(status, detail, owed);
            case Reason.REPORTED:
                return this.#reported();
            default:
                return new ServerError({ reason, code: owed, unit: this.#unit() });
        }
    }

    #fault(status, detail, code) {
        const [offset, unit] = [this.#offset, this.#unit()];
        return this.#session.fault({ status, detail, code, offset, unit });
    }

    /** Returns the bytes of the unit at the start of the input, as far as they came; null without
     * input. */
    #unit() {
        const [session, input] = [this.#session, this.#input];
        return input.length === 0 ? null
            : session.within([input], (at) => session.unitAt(at, input.length));
    }

    /** Returns the error for the router's report at the start of the input. */
    #reported() {
        const session = this.#session;
        const reported = session.within([this.#input], (at) => {
            session.step(at, this.#input.length);
            return unitOf(session.heap.view, session.frame("unit"), at, this.#offset);
        });
        const reportText = session.reportTextOf(reported);
        return new ServerError({ reason: Reason.REPORTED, reported, reportText });
    }
}
