// A router's end of the protocol with buffers and data, without sockets or a clock.

import { Cause, ClientFailure, LONGEST_UNIT, LinkStatus, STRUCTS, TodoKind } from "./rtr_table.js";
import { NoData, SessionError } from "./faults.js";
import { bytesOf, numberOf } from "./given.js";
import { OutOfMemory } from "./memory.js";
import { unitOf } from "./units.js";
import { Data } from "./data.js";

// The size of an input unless a long answer comes: more than the longest unit.
const INPUT_SIZE = 1 << 17;

// The size of an output: the longest report, after unsent queries.
const OUTPUT_SIZE = 2 * LONGEST_UNIT;

// The size of an entry of the index.
const ENTRY = 8;

/** The buffer that each kind of todo asks to grow. */
const BUFFERS = {
    [TodoKind.INPUT_ROOM]: "input",
    [TodoKind.FIRST_ROOM]: "first",
    [TodoKind.SECOND_ROOM]: "second",
    [TodoKind.INDEX_ROOM]: "index",
    [TodoKind.OUTPUT_ROOM]: "output",
};

/** A wrong call of a link: out of turn, or with a time before that of an earlier call. */
export class LinkError extends Error {
    constructor(name, status) {
        const [text] = Object.entries(LinkStatus).find(([, number]) => number === status);
        super(`${name}: ${text}`);
        this.name = "LinkError";
        this.status = status;
    }
}

/** A buffer in a session's memory, with entries of `entrySize` bytes. */
class GrowingBuffer {
    #session;
    #entrySize;
    #start = null;
    length = 0; // in entries

    constructor(session, entrySize = 1) {
        this.#session = session;
        this.#entrySize = entrySize;
    }

    /** Its address. */
    get start() {
        return this.#start ?? this.#session.frame("number");
    }

    /** Resizes it to `length` entries, and keeps as much of the content as fits. Returns null, or
     * without memory an OutOfMemory, and the buffer is unchanged. */
    resize(length) {
        const { heap } = this.#session;
        let start = null;
        try {
            start = heap.take(length * this.#entrySize);
        } catch (error) {
            if (!(error instanceof OutOfMemory)) {
                throw error;
            }
            return error;
        }
        const kept = Math.min(length, this.length) * this.#entrySize;
        heap.bytes(start, kept).set(heap.bytes(this.start, kept));
        this.release();
        this.#start = start;
        this.length = length;
        return null;
    }

    release() {
        if (this.#start !== null) {
            this.#session.heap.release(this.#start);
            this.#start = null;
            this.length = 0;
        }
    }
}

/** A struct rtr_link and its buffers, which are in the session's memory until `drop`. The struct
 * itself is kept outside of that memory. */
export class Link {
    #session;
    #state;
    #buffers;
    #now = 0; // the latest time that was passed
    #filled = 0; // bytes in the input before the last todo, to which its offset refers
    #data = null;
    #lost = null; // why the connection broke, or an OutOfMemory

    /** `session.link` makes instances. Missing settings have their defaults. */
    constructor(session, settings) {
        this.#session = session;
        const [at, from] = [session.frame("link"), session.putSettings(settings)];
        session.call("rtr_link_init", at, from);
        this.#keep();
        this.#allocate();
    }

    /** Restarts without data, also after `drop`: the waits for a failing cache continue to grow. */
    again() {
        this.#call("rtr_link_again");
        this.#data = this.#lost = null;
        this.drop();
        this.#allocate();
    }

    /** Frees the memory of the buffers. Only `again` may follow. */
    drop() {
        for (const buffer of Object.values(this.#buffers)) {
            buffer.release();
        }
    }

    /** When to call `next` if nothing happens before. */
    get wakes() {
        return this.#held().wakes;
    }

    /** Returns the data at this time; null if there are none or they have expired. */
    data(now) {
        return this.#held(numberOf(now, "now")).hasData ? this.#data : null;
    }

    /** A copy of the bytes to send. */
    get output() {
        return this.#session.copy(this.#buffers.output.start, this.#held().unsent);
    }

    /** Reports that this many bytes of the output were sent. */
    sent(count) {
        const { output } = this.#buffers;
        this.#call("rtr_link_sent_nonnull", output.start, output.length, numberOf(count, "count"));
    }

    /** Reports that the connection is open. */
    opened() {
        this.#call("rtr_link_opened");
    }

    /** Reports that connecting failed, or that the connection closed or broke, for this reason. */
    lost(reason = null) {
        this.#call("rtr_link_lost");
        this.#lost = reason;
    }

    /** Reads received bytes, as many as the input has space for, and returns their number. */
    received(bytes) {
        const received = bytesOf(bytes);
        const { input } = this.#buffers;
        const { filled } = this.#held();
        const count = Math.min(received.length, input.length - filled);
        this.#session.heap.bytes(input.start + filled, count).set(received.subarray(0, count));
        this.#call("rtr_link_received_nonnull", input.start, input.length, count);
        return count;
    }

    /** Requests current data: the link asks the cache as soon as the pause allows. Returns what to
     * do, as `next`. */
    askNow(now) {
        return this.#does(now, "rtr_link_ask_now_nonnull", "input", "output");
    }

    /** Returns what to do next: rtr.h describes each field. The kinds CLOSE, DROPPED and NO_DATA
     * have an `error`, which is null if the connection ends for another version. */
    next(now) {
        return this.#does(now, "rtr_link_next_nonnull", ...Object.keys(this.#buffers));
    }

    /** Calls a function with these buffers, and grows buffers, until there is something to do for
     * the program. */
    #does(now, name, ...names) {
        const time = numberOf(now, "now");
        let todo = this.#todo(name, time, ...names);
        while (todo.kind === TodoKind.GO || todo.kind in BUFFERS) {
            if (todo.kind === TodoKind.GO) {
                todo = this.#todo("rtr_link_next_nonnull", time, ...Object.keys(this.#buffers));
            } else if (this.#grow(todo)) {
                todo = this.#todo(name, time, ...names);
            } else {
                todo = this.#todo("rtr_link_give_up_nonnull", time, "input", "output");
            }
        }
        return { ...todo, error: this.#record(todo) };
    }

    /** Grows a buffer to the size that the link asks for, or the input at least to twice its size;
     * returns false without memory. */
    #grow({ kind, room }) {
        const buffer = this.#buffers[BUFFERS[kind]];
        const twice = Math.max(room, 2 * buffer.length);
        let refused = null;
        for (const length of kind === TodoKind.INPUT_ROOM ? [twice, room] : [room]) {
            refused = buffer.resize(length);
            if (refused === null) {
                return true;
            }
        }
        this.#lost = refused;
        return false;
    }

    /** Updates the data after a todo, and returns why they or the connection were lost. */
    #record(todo) {
        const { kind, drops } = todo;
        if (kind === TodoKind.DATA) {
            this.#keepsData();
        } else if (kind === TodoKind.DROPPED || drops) {
            this.#data = null;
        }
        switch (kind) {
            case TodoKind.CONNECT:
                this.#lost = null;
                return null;
            case TodoKind.CLOSE:
                return this.#ending(todo);
            case TodoKind.DROPPED:
                return new SessionError({ reason: Cause.EXPIRED });
            case TodoKind.NO_DATA:
                return new NoData(this.#reported(todo));
            default:
                return null;
        }
    }

    /** Copies the data out of the memory, so that they are immutable, and frees the buffers that
     * only their answer needed. */
    #keepsData() {
        const { first, second, index, input } = this.#buffers;
        const { second: isSecond, shown, filled } = this.#held();
        const { start } = isSecond ? second : first;
        const bytes = this.#session.copy(start, shown);
        this.#data = new Data(this.#session, bytes, this.#session.endOf(start, shown));
        index.release();
        (isSecond ? first : second).release();
        if (filled < INPUT_SIZE && input.length > INPUT_SIZE) {
            input.resize(INPUT_SIZE); // without memory for that it keeps its size
        }
    }

    /** Returns why a connection ends; null if the link reconnects in another version. */
    #ending(todo) {
        const { cause, offset, code, reports } = todo;
        const gaveUp = this.#lost instanceof OutOfMemory;
        switch (this.#session.call("rtr_todo_failure", this.#session.frame("todo"), gaveUp)) {
            case ClientFailure.NONE:
                return null;
            case ClientFailure.MEMORY:
            case ClientFailure.LOST:
                return this.#lost ?? new SessionError({ reason: cause });
            case ClientFailure.REFUSED:
                return this.#refusal(todo);
            case ClientFailure.REPORTED:
                return new SessionError(this.#reported(todo));
            default:
                return new SessionError(reports
                    ? { reason: cause, unit: this.#unitAt(offset), code } : { reason: cause });
        }
    }

    /** Returns the Fault of the unit or the change that ends the connection. */
    #refusal({ status, detail, offset, position, code, reports }) {
        const [at, length] = [this.#buffers.input.start + offset, this.#filled - offset];
        const isSame = this.#session.step(at, length) === status;
        const { size, wanted } = isSame ? this.#session.answer("unit") : { size: 0, wanted: 0 };
        const unit = this.#unitAt(offset);
        return this.#session.fault({ status, detail, offset: position, size, wanted, unit,
            code: reports ? code : null });
    }

    /** Returns the fields of the error for the cache's report that a todo names. */
    #reported({ offset }) {
        const reported = this.#reportAt(offset);
        const reportText = this.#session.reportTextOf(reported);
        return { reason: Cause.REPORTED, reported, reportText };
    }

    /** Returns the bytes of the unit at an offset of the input, as far as they came. */
    #unitAt(offset) {
        return this.#session.unitAt(this.#buffers.input.start + offset, this.#filled - offset);
    }

    /** Returns the cache's report at an offset of the input. */
    #reportAt(offset) {
        return this.#unit(this.#buffers.input.start + offset, this.#filled - offset);
    }

    /** Decodes the unit at an address of the memory. */
    #unit(at, length) {
        this.#session.step(at, length);
        return unitOf(this.#session.heap.view, this.#session.frame("unit"), at, 0);
    }

    #allocate() {
        const session = this.#session;
        const [input, first, second] = [0, 1, 2].map(() => new GrowingBuffer(session));
        const [index, output] = [new GrowingBuffer(session, ENTRY), new GrowingBuffer(session)];
        this.#buffers = { input, first, second, index, output };
        const refused = input.resize(INPUT_SIZE) ?? output.resize(OUTPUT_SIZE);
        if (refused !== null) {
            this.drop();
            throw refused;
        }
    }

    /** Returns the state of the buffers at this time. */
    #held(now = this.#now) {
        const { input, first, second, output } = this.#buffers;
        const lengths = [input, first, second, output].map(({ length }) => length);
        this.#call("rtr_link_state_of", now, ...lengths, this.#session.frame("linkState"));
        return this.#session.answer("linkState");
    }

    #todo(name, now, ...names) {
        const buffers = names.map((buffer) => this.#buffers[buffer])
            .flatMap(({ start, length }) => [start, length]);
        this.#filled = this.#held().filled;
        this.#call(name, now, ...buffers, this.#session.frame("todo"));
        this.#now = now;
        return this.#session.answer("todo");
    }

    /** Calls a function on the struct; throws a LinkError if the call is refused. */
    #call(name, ...values) {
        const at = this.#session.frame("link");
        this.#session.heap.bytes(at, this.#state.length).set(this.#state);
        const status = this.#session.call(name, at, ...values);
        if (status !== LinkStatus.OK) {
            throw new LinkError(name, status);
        }
        this.#keep();
    }

    #keep() {
        this.#state = this.#session.copy(this.#session.frame("link"), STRUCTS.link.size);
    }
}
