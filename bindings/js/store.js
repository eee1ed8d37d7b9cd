// What a server serves and saves: its data, and the changes since earlier data.

import { FAILURE_DAMAGED, FAILURE_HIGHER_VERSION, FAILURE_OLD_SERIAL, FAILURE_OTHER_SESSION,
    FAILURE_OTHER_TIMES, FAILURE_SESSION_LEFT, Named, Room, SHORTEST_PAYLOAD, STRUCTS,
    StoresStatus, TimeRule } from "./rtr_table.js";
import { Data, formOf } from "./data.js";
import { Kept } from "./kept.js";
import { writeStruct } from "./memory.js";

// The size of an entry of an index, and of a serial number.
const ENTRY = 8;
const WORD = 4;

/** The memory that was too short, by the `room` of an answer. */
const ROOMS = {
    [Room.INDEX]: "index",
    [Room.BUFFER]: "buffer",
    [Room.SPARE]: "spare",
    [Room.OUTPUT]: "output",
    [Room.FIRST]: "output",
    [Room.SECOND]: "output",
};

/** The texts of refused data. */
const REFUSALS = {
    [StoresStatus.OTHER_SESSION]: FAILURE_OTHER_SESSION,
    [StoresStatus.SESSION_LEFT]: FAILURE_SESSION_LEFT,
    [StoresStatus.OTHER_VERSION]: FAILURE_HIGHER_VERSION,
    [StoresStatus.OTHER_TIMES]: FAILURE_OTHER_TIMES,
    [StoresStatus.OLD_SERIAL]: FAILURE_OLD_SERIAL,
    [StoresStatus.MALFORMED]: FAILURE_DAMAGED,
};

/** A server refuses data, for a `status` of StoresStatus, or null and the text of another rule. */
export class UpdateError extends Error {
    constructor(status, text = REFUSALS[status]) {
        const named = () => Object.keys(StoresStatus).find((name) => StoresStatus[name] === status);
        super(text ?? named());
        this.name = "UpdateError";
        this.status = status;
    }
}

/** Throws an UpdateError if data have times that RFC 8210 section 6 doesn't allow. */
function checkTimes(rtr, { end: { version, refresh, retry, expire } }) {
    const rule = rtr.call("rtr_end_rule", version, refresh, retry, expire);
    if (rule !== TimeRule.NONE) {
        throw new UpdateError(null, rtr.name(Named.TIME_RULE, rule));
    }
}

/** Writes the session and serial number of the data of an edition, or null, and returns their
 * address. */
export function putPresent(rtr, edition) {
    const [at, end] = [rtr.frame("present"), edition?.data.end];
    writeStruct(rtr.heap.view, "present", at,
        { has: end !== undefined, session: end?.session, serial: end?.serial });
    return at;
}

/** Repeats a call with more memory, until no part of it is too short, and returns its answer. */
function withLengths(lengths, call) {
    for (;;) {
        const answer = call(lengths);
        if (answer.status !== StoresStatus.NO_ROOM) {
            return answer;
        }
        lengths[ROOMS[answer.room]] = answer.wanted;
    }
}

/** Two buffers in a session's memory, one of which has the store that is served. */
export class Store {
    #session;
    #settings; // a struct rtr_server_settings, with the limits of what is kept
    #stores;
    #buffers = [null, null]; // their addresses and lengths
    #edition = null;
    #number; // of the edition before the first one

    /** `settings` are a struct rtr_server_settings. */
    constructor(session, settings, number = 0) {
        this.#session = session;
        this.#settings = settings;
        this.#number = number;
        this.#stores = new Kept(session, "stores");
        this.#stores.call("rtr_stores_new");
    }

    /** Lets a new store not be saved: it takes data of one session of the protocol, and serves them
     * at once. */
    beginUnsaved(session) {
        this.#stores.call("rtr_stores_unsaved", session);
    }

    /** The edition that is served, or null. */
    get edition() {
        return this.#edition;
    }

    /** Loads the store from a saved file. Throws an UpdateError if the bytes aren't a store or its
     * times are invalid, or OutOfMemory; afterwards only `drop` may be called. */
    start(file) {
        const session = this.#session;
        if (!session.within([file], (at) => this.#unsealed(file, at))) {
            throw new UpdateError(StoresStatus.MALFORMED);
        }
        const { length } = this.#buffers[0];
        const lengths = { index: Math.floor(length / SHORTEST_PAYLOAD), buffer: length };
        const { status } = withLengths(lengths, () => this.#started(length, lengths));
        if (status !== StoresStatus.OK) {
            throw new UpdateError(status);
        }
        this.#serve(0);
        checkTimes(session, this.#edition.data);
    }

    /** Copies the store of the file at an address to the first buffer, also if the file has the
     * format rtrkept1 of versions before 0.3.0. Returns false if the file isn't whole. */
    #unsealed(file, at) {
        const session = this.#session;
        const isOld = !session.call("rtr_store_open_nonnull", at, file.length);
        const store = isOld ? file : file.subarray(STRUCTS.storeHead.size);
        this.#buffers[0] = this.#allocated(store.length);
        const { start } = this.#buffers[0];
        if (!isOld) {
            session.heap.bytes(start, store.length).set(store);
            return true;
        }
        session.call("rtr_store_open_old_nonnull", at, file.length, start, file.length,
            session.frame("storesAnswer"));
        return session.answer("storesAnswer").status === StoresStatus.OK;
    }

    #started(length, { index, buffer }) {
        const session = this.#session;
        return session.within([index * ENTRY, buffer], (indexAt, bufferAt) => {
            this.#stores.call("rtr_stores_start_nonnull", length, ...this.#buffer(0), indexAt,
                index, bufferAt, buffer, session.frame("storesAnswer"));
            return session.answer("storesAnswer");
        });
    }

    /** Returns the error for data that the store doesn't take. */
    #refusal(status, { end: { serial } }) {
        if (status !== StoresStatus.OLD_SERIAL) {
            return new UpdateError(status);
        }
        const present = this.edition.data.end.serial;
        return new UpdateError(status, `${REFUSALS[status]}: new ${serial}, present ${present}`);
    }

    /** Takes new data at this time since 1970 in milliseconds. Returns false if the same data are
     * served. New data wait for `saved`, or `giveUp`; call `saved` also if the store isn't saved.
     *
     * Throws an UpdateError if they are refused, and OutOfMemory; then nothing changes. */
    take(data, now) {
        checkTimes(this.#session, data);
        const bytes = this.#form(data);
        const other = this.#other;
        try {
            const { status, length } = withLengths(this.#firstRoom(bytes.length), (lengths) => (
                this.#taken(bytes, now, lengths, other)));
            if (status === StoresStatus.OK) {
                this.#shrink(other, length);
                return true;
            }
            if (status !== StoresStatus.SAME_DATA) {
                throw this.#refusal(status, data);
            }
        } catch (error) {
            this.#release(other);
            throw error;
        }
        this.#release(other);
        return false;
    }

    #taken(bytes, now, { buffer, spare, output }, other) {
        const session = this.#session;
        this.#release(other);
        return session.within([bytes, buffer, spare], (at, bufferAt, spareAt) => {
            this.#buffers[other] = this.#allocated(output);
            const [limits, { keep, keepBytes }] = [session.frame("historyLimits"), this.#settings];
            writeStruct(session.heap.view, "historyLimits", limits,
                { time: keep, bytes: keepBytes });
            this.#stores.call("rtr_stores_take_nonnull", at, bytes.length, now, limits, bufferAt,
                buffer, spareAt, spare, ...this.#buffer(0), ...this.#buffer(1),
                session.frame("storesAnswer"));
            return session.answer("storesAnswer");
        });
    }

    /** Returns the bytes of new data in the version in which the store takes them. */
    #form(data) {
        const [session, edition] = [this.#session, this.#edition];
        const present = edition?.data.version ?? 0;
        return formOf(session, data, session.call("rtr_stores_version",
            putPresent(session, edition), present, data.end.session, data.version));
    }

    /** Returns sizes of memory that suffice for few changes. */
    #firstRoom(size) {
        const { length: store } = this.#buffers[this.#served] ?? { length: 0 };
        const buffer = (store + size) >> 3;
        return { buffer, spare: size + 2 * buffer, output: store + size + 2 * buffer };
    }

    /** Returns the head of a file and the pending store, or else the served one; null if there is
     * none. */
    get file() {
        const { serves, waits, taken } = this.#state;
        if (!waits && !serves) {
            return null;
        }
        const session = this.#session;
        const { start, length } = this.#buffers[waits ? this.#other : this.#served];
        const size = waits ? taken : length;
        session.call("rtr_store_seal_nonnull", start, size, session.frame("storeHead"));
        return [session.answer("storeHead").bytes, session.copy(start, size)];
    }

    /** Serves the store that was taken. */
    saved() {
        this.#stores.call("rtr_stores_saved");
        this.#release(this.#other);
        this.#serve((this.#edition?.number ?? this.#number) + 1);
    }

    /** Drops the pending store. */
    giveUp() {
        this.#stores.call("rtr_stores_give_up");
        this.#release(this.#other);
    }

    /** Frees the memory. */
    drop() {
        this.#release(0);
        this.#release(1);
    }

    #serve(number) {
        const { offset, length } = this.#state;
        const { start } = this.#buffers[this.#served];
        const history = { start: start + offset, length };
        this.#edition = new Edition(this.#session, number, history, this.#settings);
    }

    get #state() {
        const session = this.#session;
        this.#stores.call("rtr_stores_state_nonnull", ...this.#buffer(0), ...this.#buffer(1),
            session.frame("storesState"));
        return session.answer("storesState");
    }

    /** The index of the buffer whose store is served. */
    get #served() {
        return this.#state.second ? 1 : 0;
    }

    /** The index of the other one. */
    get #other() {
        return 1 - this.#served;
    }

    /** Returns the address and the length of a buffer for a call. */
    #buffer(index) {
        const { start, length } = this.#buffers[index]
            ?? { start: this.#session.frame("number"), length: 0 };
        return [start, length];
    }

    #allocated(length) {
        return { start: this.#session.heap.take(length), length };
    }

    #shrink(index, length) {
        this.#session.heap.shrink(this.#buffers[index].start, length);
        this.#buffers[index].length = length;
    }

    #release(index) {
        if (this.#buffers[index] !== null) {
            this.#session.heap.release(this.#buffers[index].start);
            this.#buffers[index] = null;
        }
    }
}

/** The data that are served at one serial number. Encoded answers are kept for all routers, outside
 * of the session's memory, so that they stay valid when that grows, and after newer data. */
class Edition {
    #session;
    #history; // its address and length, as long as the edition is the newest
    #forms = new Map(); // the bytes of the data, by version
    #changes = new Map(); // those of changes, by version and serial number
    #changedBytes = 0; // of these
    #settings;

    constructor(session, number, history, settings) {
        this.#session = session;
        this.#history = history;
        this.#settings = settings;
        this.number = number;
        this.known = this.#serials();
        const { at, size } = this.#present();
        const bytes = session.copy(at, size);
        this.#forms.set(bytes[0], bytes);
        this.data = new Data(session, bytes, session.endOf(at, size));
    }

    /** Returns the address and the length of the present data in the history. */
    #present() {
        const session = this.#session;
        const { start, length } = this.#history;
        return session.within([ENTRY, ENTRY], (offsetAt, lengthAt) => {
            session.call("rtr_history_data_nonnull", start, length, offsetAt, lengthAt);
            const [offset, size] = [offsetAt, lengthAt].map((at) => (
                Number(session.heap.view.getBigUint64(at, true))));
            return { at: start + offset, size };
        });
    }

    /** Returns the serial numbers from which there are changes, as the machine takes them: their
     * bytes, one after the other. */
    #serials() {
        const session = this.#session;
        const { start, length } = this.#history;
        const answered = (at, count) => {
            session.call("rtr_history_serials_nonnull", start, length, at, count,
                session.frame("storesAnswer"));
            return session.answer("storesAnswer");
        };
        const { wanted: count } = answered(session.frame("number"), 0);
        return session.within([WORD * count], (at) => {
            answered(at, count);
            return session.copy(at, WORD * count);
        });
    }

    /** Returns the bytes of the data for routers of a version. */
    form(version) {
        if (!this.#forms.has(version)) {
            const { form } = this.#session.normalise(this.#forms.get(this.data.version),
                { version });
            this.#forms.set(version, form);
        }
        return this.#forms.get(version);
    }

    /** Returns the changes since the data of a known serial number, for routers of a version. */
    since(version, serial) {
        const query = `${version} ${serial}`;
        const kept = this.#changes.get(query);
        if (kept !== undefined) {
            return kept;
        }
        const changes = this.#since(version, serial);
        if (this.#keeps(changes)) {
            this.#changedBytes += changes.length;
            this.#changes.set(query, changes);
        }
        return changes;
    }

    /** Reports whether changes are kept for further routers. */
    #keeps({ length }) {
        const session = this.#session;
        const settings = session.frame("serverSettings");
        writeStruct(session.heap.view, "serverSettings", settings, this.#settings);
        return session.call("rtr_server_keeps", settings, this.#changedBytes, length);
    }

    #since(version, serial) {
        const steps = this.#history.length - this.#forms.get(this.data.version).length;
        const lengths = { index: Math.floor(steps / SHORTEST_PAYLOAD), buffer: 2 * steps,
            spare: this.#history.length, output: 2 * steps };
        const { status, changes } = withLengths(lengths,
            () => this.#written(version, serial, lengths));
        if (status !== StoresStatus.OK) {
            throw new UpdateError(status);
        }
        return changes;
    }

    #written(version, serial, { index, buffer, spare, output }) {
        const session = this.#session;
        const { start, length } = this.#history;
        return session.within([index * ENTRY, buffer, spare, output], (...buffers) => {
            const lengths = [index, buffer, spare, output];
            session.call("rtr_history_since_nonnull", start, length, serial, version,
                ...buffers.flatMap((at, number) => [at, lengths[number]]),
                session.frame("storesAnswer"));
            const answer = session.answer("storesAnswer");
            return { ...answer, changes: session.copy(buffers.at(-1), answer.length) };
        });
    }
}
