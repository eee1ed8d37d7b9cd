// The library in its own memory.

import { FUNCTIONS, HEADER_SIZE, IPV4_SIZE, LINE_ROOM, LONGEST_UNIT, REPORT_TEXT_ROOM, STRUCTS,
    Status } from "./rtr_table.js";
import { Heap, offsetsOf, readStruct, writeStruct } from "./memory.js";
import { Fault } from "./faults.js";
import { byteOf, bytesOf, fieldsOf, longOf, numberOf, objectOf, shortOf, wordOf }
    from "./given.js";
import { Shown, structOf, unitOf } from "./units.js";
import { Checker } from "./checking.js";
import { Data } from "./data.js";
import { Group } from "./group.js";
import { Link } from "./link.js";
import { Router } from "./router.js";

// The most bytes of an input that are read at a time: more than the longest unit.
const PIECE = 1 << 17;

// The first size, at most, of the buffers for the data of a recording; they grow if needed.
const FIRST_CAPACITY = 1 << 24;

const ALL = (1n << 64n) - 1n;

// Higher than any version: rtr_settings_usual reduces it to the highest known one.
const HIGHEST = 255;

const UNIT_OFFSETS = offsetsOf("unit");
const NOTHING = new Uint8Array(0);

/** A call of a session, or of bytes in its memory, that was dropped. */
export class Dropped extends Error {
    constructor(text = "the session was dropped") {
        super(text);
        this.name = "Dropped";
    }
}

/** The result of each function: a number or a boolean. */
const ANSWERS = {
    void: () => undefined,
    bool: (answer) => (answer & 255) !== 0,
    uint8: (answer) => answer & 255,
    uint32: (answer) => answer >>> 0,
    uint64: (answer) => Number(BigInt.asUintN(64, answer)),
    size: (answer) => Number(BigInt.asUintN(64, answer)),
};

const LONG = new Set(["*", "size", "uint64"]);

export class Session {
    #module;
    #options;
    #exports;
    #heap;
    #frame; // the addresses of one struct of each kind
    #unit; // the address of the unit's struct as a BigInt

    /** `load` and `another` make instances. */
    constructor(module, options = {}) {
        this.#module = module;
        this.#options = options;
        this.#exports = new WebAssembly.Instance(module).exports;
        const { memory, __heap_base: base } = this.#exports;
        this.#heap = new Heap(memory, Number(base.value), options.most ?? Infinity);
        this.#frame = Object.fromEntries(
            Object.keys(STRUCTS).map((name) => [name, this.#heap.take(STRUCTS[name].size)]));
        this.#frame.number = this.#heap.take(8);
        this.#frame.text = this.#heap.take(REPORT_TEXT_ROOM); // the longest of the texts
        this.#unit = BigInt(this.#frame.unit);
    }

    /** Returns a new session of the same module, with its own memory. */
    another() {
        return new Session(this.#module, this.#options);
    }

    /** Frees the memory. Every later call throws `Dropped`. */
    drop() {
        this.#exports = null;
        this.#heap = null;
    }

    /** The size of the module's memory in bytes. */
    get memory() {
        return this.heap.size;
    }

    /** The memory, for `Data` and `Router`. */
    get heap() {
        if (this.#heap === null) {
            throw new Dropped();
        }
        return this.#heap;
    }

    /** Returns the address of a struct of this name, valid until the next call. */
    frame(name) {
        return this.#frame[name];
    }

    /** Calls a function of rtr.h. */
    call(name, ...values) {
        if (this.#exports === null) {
            throw new Dropped();
        }
        const [answer, ...kinds] = FUNCTIONS[name];
        const numbers = values.map((value, index) => (
            LONG.has(kinds[index]) ? BigInt(value) : value));
        return ANSWERS[answer](this.#exports[name](...numbers));
    }

    /** Copies slices into the memory, and calls `run` with their addresses. A number stands for
     * that many uninitialized bytes. */
    within(slices, run) {
        const addresses = [];
        try {
            for (const slice of slices) {
                const isOpen = typeof slice === "number";
                addresses.push(this.heap.take(isOpen ? slice : slice.length));
                if (!isOpen) {
                    this.heap.bytes(addresses.at(-1), slice.length).set(slice);
                }
            }
            return run(...addresses);
        } finally {
            addresses.forEach((address) => this.#heap?.release(address));
        }
    }

    /** Returns a copy of a part of the memory. */
    copy(start, length) {
        return this.heap.bytes(start, length).slice();
    }

    /** Returns the struct of this name that the last call filled. */
    answer(name) {
        return readStruct(this.heap.view, name, this.#frame[name]);
    }

    // ---- units

    /** Returns the unit of the bytes at this offset; throws a Fault if it is refused. */
    next(bytes, offset = 0) {
        const all = bytesOf(bytes);
        const piece = all.subarray(offsetIn(all, offset), offset + LONGEST_UNIT);
        return this.within([piece], (at) => {
            const status = this.call("rtr_next_nonnull", at, piece.length, this.#frame.unit);
            if (status !== Status.OK) {
                throw this.refused(status, at, piece.length, offset);
            }
            return unitOf(this.heap.view, this.#frame.unit, at, offset);
        });
    }

    /** Decodes the end of data of data in canonical form at an address of the memory, and allocates
     * nothing there. */
    endOf(at, length) {
        const offset = this.call("rtr_end_offset_nonnull", at, length);
        this.step(at + offset, length - offset);
        return unitOf(this.heap.view, this.#frame.unit, at + offset, 0);
    }

    /** Iterates over the units from an offset to the end of the bytes; throws the Fault of a unit
     * after the units before it. */
    units(bytes, offset = 0) {
        const all = bytesOf(bytes);
        return this.#unitsFrom(all, offsetIn(all, offset));
    }

    * #unitsFrom(bytes, offset) {
        for (let from = offset; from < bytes.length;) {
            const { units, fault, end } = this.#piece(bytes, from);
            yield* units;
            if (fault) {
                throw fault;
            }
            from = end;
        }
    }

    /** Returns the whole units in a piece of the bytes, the Fault after them or null, and the
     * offset of the next unit. */
    #piece(bytes, from) {
        const piece = bytes.subarray(from, from + PIECE);
        const units = [];
        return this.within([piece], (at) => {
            let done = 0;
            let status = Status.OK;
            while (done < piece.length) {
                status = this.step(at + done, piece.length - done);
                if (status !== Status.OK) {
                    break;
                }
                units.push(unitOf(this.heap.view, this.#frame.unit, at + done, from + done));
                done += units.at(-1).size;
            }
            const isCut = status === Status.SHORT && done > 0 && from + piece.length < bytes.length;
            const fault = status === Status.OK || isCut
                ? null : this.refused(status, at + done, piece.length - done, from + done);
            return { units, fault, end: from + done };
        });
    }

    /** Calls rtr_next on the bytes at an address; the struct is at frame("unit"). */
    step(at, length) {
        return this.#exports.rtr_next_nonnull(BigInt(at), BigInt(length), this.#unit) & 255;
    }

    /** Copies bytes into the memory, to read their units in any order. */
    hold(bytes) {
        return new Held(this, bytesOf(bytes));
    }

    /** Iterates over the rules of rtr_list --check that the units break, in order; throws the Fault
     * of a unit after the findings before it. */
    check(bytes) {
        return this.#findings(bytesOf(bytes));
    }

    * #findings(bytes) {
        const held = this.hold(bytes);
        try {
            yield* held.findings();
        } finally {
            held.drop();
        }
    }

    /** Returns the Fault of rtr_next with this status, about the bytes at an address. */
    refused(status, at, length, offset) {
        const view = this.heap.view;
        const unit = this.#frame.unit;
        const field = (name) => Number(view.getBigUint64(unit + UNIT_OFFSETS[name], true));
        return this.fault({
            status,
            offset,
            size: field("size"),
            wanted: field("wanted"),
            detail: view.getUint8(unit + UNIT_OFFSETS.detail),
            code: this.#code(status, at, length),
        });
    }

    /** Returns the Fault with these fields: at least its status. */
    fault(fields) {
        const { status, detail = 0, offset = 0 } = fields;
        const text = this.statusText(status, detail);
        return new Fault({ ...fields, text, message: this.statusTextAt(status, detail, offset) });
    }

    #code(status, at, length) {
        const isOwed = this.call("rtr_error_code_nonnull", status, at, length, this.#frame.number);
        return isOwed ? this.heap.view.getUint16(this.#frame.number, true) : null;
    }

    /** Returns the error code that is owed for a status about the unit at the start of the bytes,
     * or null. */
    errorCode(status, bytes) {
        const unit = bytesOf(bytes).subarray(0, LONGEST_UNIT);
        byteOf(status, "status");
        return this.within([unit], (at) => this.#code(status, at, unit.length));
    }

    /** Returns the length of the unit at the start of the bytes, from its header alone. */
    unitSize(bytes) {
        const { unit, number } = this.#frame;
        const piece = bytesOf(bytes).subarray(0, LONGEST_UNIT);
        return this.within([piece], (at) => {
            const status = this.call("rtr_unit_size_nonnull", at, piece.length, number, unit);
            const size = Number(this.heap.view.getBigUint64(number, true));
            if (status !== Status.OK) {
                const detail = this.heap.view.getUint8(unit);
                const code = this.#code(status, at, piece.length);
                throw this.fault({ status, detail, wanted: size, code });
            }
            return size;
        });
    }

    /** Returns the bytes of the unit at an address, as far as they came; only the header if its
     * length is invalid. */
    unitAt(at, given) {
        const length = Math.min(given, LONGEST_UNIT);
        const { number, unit } = this.#frame;
        const status = this.call("rtr_unit_size_nonnull", at, length, number, unit);
        const isKnown = status === Status.OK || status === Status.SHORT;
        const size = isKnown ? Number(this.heap.view.getBigUint64(number, true)) : HEADER_SIZE;
        return this.copy(at, Math.min(size, length));
    }

    /** Encodes a unit: an object as `units` yields it. */
    writeUnit(unit) {
        const { fields, input } = structOf(unit);
        return this.within([input, LONGEST_UNIT], (at, output) => {
            writeStruct(this.heap.view, "unit", this.#frame.unit, fields);
            const status = this.call("rtr_write_unit_nonnull", this.#frame.unit, at, input.length,
                output, LONGEST_UNIT, this.#frame.number);
            if (status !== Status.OK) {
                throw this.fault({ status });
            }
            return this.copy(output, Number(this.heap.view.getBigUint64(this.#frame.number, true)));
        });
    }

    // ---- sequences

    /** Normalises the sequence at the start of the bytes; with `version`, for clients of that
     * version. */
    normalise(sequence, options = {}) {
        const { limit = ALL, version = null } = objectOf(options, "options");
        const bytes = bytesOf(sequence);
        longOf(limit, "limit");
        if (version !== null) {
            byteOf(version, "version");
        }
        const capacity = bytes.length + (version === null ? 0 : LONGEST_UNIT);
        return this.within([bytes, capacity], (at, output) => {
            const name = version === null
                ? "rtr_normalise_slice_nonnull" : "rtr_normalise_for_slice_nonnull";
            const more = version === null ? [] : [version];
            const status = this.call(name, at, bytes.length, output, capacity, limit, ...more,
                this.#frame.answer);
            const { units, forms, taken, written, wanted, detail } = this.answer("answer");
            const form = this.copy(output, written);
            if (status !== Status.OK) {
                const code = this.#code(status, at + taken, bytes.length - taken);
                const fault = this.fault({ status, detail, offset: taken, wanted, code });
                throw Object.assign(fault, { units, forms, taken, form });
            }
            return { units, forms, taken, form };
        });
    }

    /** Reports whether the sequences at the start of both mean the same. */
    sameMeaning(first, second, limit = ALL) {
        const [left, right] = [bytesOf(first, "left"), bytesOf(second, "right")];
        longOf(limit, "limit");
        return this.within([left, right], (firstAt, secondAt) => {
            this.call("rtr_same_meaning_nonnull", firstAt, left.length, secondAt, right.length,
                limit, this.#frame.comparison);
            const answer = this.answer("comparison");
            if (answer.status !== Status.OK) {
                throw this.#sided(answer, [firstAt, left.length], [secondAt, right.length]);
            }
            return answer.same;
        });
    }

    /** Returns the Fault of a call on two inputs, given the address and length of each. */
    #sided(answer, ...inputs) {
        const [at, length] = inputs[answer.side - 1] ?? [this.#frame.number, 0];
        const { status, offset } = answer;
        const code = answer.side ? this.#code(status, at + offset, length - offset) : null;
        return this.fault({ ...answer, code });
    }

    // ---- data and changes

    /** Calls a function on one or two inputs, with an index if it takes one, and returns its
     * output. */
    #writtenBy(name, first, second, entries = null) {
        const capacity = first.length + (second?.length ?? 0);
        const slices = [first, second ?? NOTHING, capacity, 8 * (entries ?? 0)];
        return this.within(slices, (firstAt, secondAt, output, index) => {
            const inputs = [firstAt, first.length, ...(second ? [secondAt, second.length] : [])];
            const more = entries === null ? [] : [index, entries];
            this.call(name, ...inputs, ...more, output, capacity, this.#frame.dataAnswer);
            const answer = this.answer("dataAnswer");
            if (answer.status !== Status.OK) {
                throw this.#sided(answer, [firstAt, first.length],
                    [secondAt, second?.length ?? 0]);
            }
            return this.copy(output, answer.written);
        });
    }

    /** Returns the delta from old data to new: bytes in canonical form, or Data. */
    delta(old, next) {
        return this.#writtenBy("rtr_delta_nonnull", bytesIn(old, "old"), bytesIn(next, "next"));
    }

    /** Returns the changes from old data to new of any versions and sessions, in the higher of the
     * versions, so that payloads that the lower one can't carry are withdrawn. One of them may be
     * null, for no data. */
    changesBetween(old, next) {
        return this.#writtenBy("rtr_changes_between_nonnull",
            old === null ? NOTHING : bytesIn(old, "old"),
            next === null ? NOTHING : bytesIn(next, "next"));
    }

    /** Applies changes in canonical form to data. */
    apply(data, changes) {
        return this.#writtenBy("rtr_apply_nonnull", bytesIn(data, "data"),
            bytesOf(changes, "changes"));
    }

    /** Applies changes to data, in the order of the answer. */
    applyInOrder(data, changes, places = null) {
        const bytes = bytesOf(changes, "changes");
        return this.#writtenBy("rtr_apply_in_order_nonnull", bytesIn(data, "data"), bytes,
            entriesFor(bytes, places));
    }

    /** Returns the changes of a sequence in canonical form. */
    order(changes, places = null) {
        const bytes = bytesOf(changes, "changes");
        return this.#writtenBy("rtr_order_nonnull", bytes, null, entriesFor(bytes, places));
    }

    /** Returns the Data of bytes in canonical form; throws a Fault if they aren't. */
    data(bytes) {
        const canonical = bytesOf(bytes);
        const nothing = this.delta(canonical, canonical);
        return new Data(this, this.apply(canonical, nothing), this.next(nothing));
    }

    /** Loads the data that a recording or a list results in, and returns whether an answer was
     * ignored; throws the Fault of the first unit that is refused. */
    loadData(recording) {
        const bytes = bytesOf(recording, "recording");
        let capacity = Math.min(bytes.length, FIRST_CAPACITY);
        let entries = Math.floor(capacity / IPV4_SIZE);
        for (;;) {
            const loaded = this.#loaded(bytes, entries, capacity);
            const { status, wanted, form, hasCut } = loaded;
            if (status === Status.OK) {
                return { data: this.data(form), hasCut };
            }
            if (status === Status.NO_INDEX) {
                entries = Math.max(wanted, 2 * entries);
            } else if (status === Status.NO_ROOM) {
                capacity = Math.min(2 * capacity, bytes.length);
            } else {
                throw this.fault(loaded);
            }
        }
    }

    /** Calls rtr_load with an index and buffers of these sizes; returns its answer, with the form
     * of the data, or the error code that is owed for the unit at fault. */
    #loaded(bytes, entries, capacity) {
        return this.within([bytes, 8 * entries, capacity, capacity], (at, index, work, output) => {
            this.call("rtr_load_nonnull", at, bytes.length, index, entries, work, capacity, output,
                capacity, this.#frame.loaded);
            const answer = this.answer("loaded");
            const { status, offset, length } = answer;
            return status === Status.OK ? { ...answer, form: this.copy(output, length) }
                : { ...answer, code: this.#code(status, at + offset, bytes.length - offset) };
        });
    }

    /** Returns a router's end of the protocol, without buffers and data. */
    router(settings = {}) {
        return new Router(this, settings);
    }

    /** Returns a router's end of the protocol, with buffers and data. */
    link(settings = {}) {
        return new Link(this, settings);
    }

    /** Returns a group of this many caches by preference; `now` is the time in milliseconds. */
    group(members, now, settings = {}) {
        return new Group(this, members, now, settings);
    }

    /** Writes settings, with defaults for missing ones, for rtr_router_init and rtr_link_init, and
     * returns their address. */
    putSettings(settings) {
        fieldsOf(settings, "settings", STRUCTS.settings.fields);
        const usual = this.usualSettings(settings.highest ?? HIGHEST);
        const at = this.#frame.settings;
        writeStruct(this.heap.view, "settings", at, { ...usual, ...settings });
        return at;
    }

    /** Returns the default settings of a router, with a highest version. */
    usualSettings(highest) {
        this.call("rtr_settings_usual", this.#frame.settings, byteOf(highest, "highest"));
        return this.answer("settings");
    }

    // ---- lines and texts

    /** Returns the line that rtr_list prints for the unit at the start of the bytes, with this
     * offset. */
    unitLine(bytes, offset = 0) {
        return this.#line("rtr_line_nonnull", bytes, longOf(offset, "offset"));
    }

    /** Returns the unit as a JSON object, as rtr_list --json prints it. */
    unitJson(bytes, offset = 0) {
        return this.#line("rtr_json_nonnull", bytes, longOf(offset, "offset"));
    }

    /** Returns the line of a payload unit, as rtr_diff prints it; "" for other units. */
    changeLine(unit) {
        return this.#line("rtr_change_line_nonnull", this.writeUnit(unit));
    }

    /** Returns the change as a JSON object, as rtr_diff --json prints it. */
    changeJson(unit) {
        return this.#line("rtr_change_json_nonnull", this.writeUnit(unit));
    }

    /** Returns the text that a call writes for the unit at the start of the bytes. */
    #line(name, bytes, ...more) {
        const piece = bytesOf(bytes).subarray(0, LONGEST_UNIT);
        let capacity = LINE_ROOM;
        for (;;) {
            const line = this.within([piece, capacity], (at, output) => {
                this.call(name, at, piece.length, ...more, output, capacity, this.#frame.line);
                const { status, detail, length, wanted } = this.answer("line");
                if (status === Status.OK) {
                    return new TextDecoder().decode(this.copy(output, length));
                }
                if (status !== Status.NO_ROOM) {
                    const code = this.#code(status, at, piece.length);
                    throw this.fault({ status, detail, wanted, code });
                }
                capacity = length;
                return null;
            });
            if (line !== null) {
                return line;
            }
        }
    }

    /** Returns the text of a status with its detail. */
    statusText(status, detail = 0) {
        return this.#text("rtr_text_nonnull", byteOf(status, "status"), byteOf(detail, "detail"));
    }

    /** Returns the text of a status with its detail, and the offset of a unit. */
    statusTextAt(status, detail, offset) {
        return this.#text("rtr_text_at_nonnull", byteOf(status, "status"),
            byteOf(detail, "detail"), longOf(offset, "offset"));
    }

    /** Returns what an error report says: the name of its code, and the first bytes of its text. */
    reportText(code, text) {
        const reported = bytesOf(text, "text");
        return this.within([reported], (at) => this.#text("rtr_report_text_nonnull",
            shortOf(code, "code"), at, reported.length));
    }

    /** Returns what a report says that was read. */
    reportTextOf({ code, textBytes }) {
        return this.reportText(code, textBytes ?? NOTHING);
    }

    /** Returns the name of a status, a kind, a cause, a reason or an error code; `named` selects
     * which. */
    name(named, number) {
        return this.#text("rtr_name_nonnull", byteOf(named, "named"), shortOf(number, "number"));
    }

    #text(name, ...values) {
        const { text, number } = this.#frame;
        this.call(name, ...values, text, REPORT_TEXT_ROOM, number);
        const length = Number(this.heap.view.getBigUint64(number, true));
        return new TextDecoder().decode(this.copy(text, length));
    }

    // ---- numbers

    /** Returns how many milliseconds a program waits before it calls `updateSaved` again with data
     * that couldn't be saved, given its pause before the last try, or 0 after the first. */
    retryAfter(previous) {
        return this.call("rtr_retry_after", wordOf(previous, "previous"));
    }

    /** Returns the order of two serial numbers, a SerialOrder. */
    serialOrder(left, right) {
        return this.call("rtr_serial_order", wordOf(left, "left"), wordOf(right, "right"));
    }

    /** Reports whether a protocol version has units of a kind. */
    versionHas(version, kind) {
        return this.call("rtr_version_has", byteOf(version, "version"), byteOf(kind, "kind"));
    }

    /** Returns the validity of a route by data, a Validity. */
    validate(data, route) {
        return dataOf(data).validate(route);
    }

    /** Returns the validity of each route by data, in the same order. */
    validateAll(data, routes) {
        return dataOf(data).validateAll(routes);
    }

    /** Returns the VRPs of data that cover a route, each with the reason why it doesn't match. */
    covering(data, route) {
        return dataOf(data).covering(route);
    }
}

/** Bytes in the memory of a session. */
export class Held {
    #session;
    #address;

    constructor(session, bytes) {
        this.#session = session;
        this.#address = session.heap.take(bytes.length);
        this.length = bytes.length;
        session.heap.bytes(this.#address, bytes.length).set(bytes);
    }

    /** Their address in the memory. */
    get #start() {
        if (this.#address === null) {
            throw new Dropped("the bytes were dropped");
        }
        return this.#address;
    }

    /** Returns a copy of some of the bytes. */
    bytes(offset, length) {
        offsetIn(this, offset);
        numberOf(length, "length");
        return this.#session.copy(this.#start + offset, Math.min(length, this.length - offset));
    }

    /** Frees the memory. Every later call throws `Dropped`. */
    drop() {
        if (this.#address !== null) {
            this.#session.heap.release(this.#address);
            this.#address = null;
        }
    }

    /** Returns a check of its units in order: call `take` with the offset of each, then `finish`,
     * then `drop`. */
    checker() {
        const checker = new Checker(this.#session);
        return {
            take: (offset) => checker.take(this.#start + offsetIn(this, offset),
                this.length - offset, offset),
            finish: () => checker.finish(this.length),
            drop: () => checker.drop(),
        };
    }

    /** Iterates over the rules of rtr_list --check that the units break, in order. */
    * findings() {
        const checker = this.checker();
        try {
            for (let at = 0; at < this.length;) {
                const { findings, size } = checker.take(at);
                yield* findings;
                at += size;
            }
            yield* checker.finish();
        } finally {
            checker.drop();
        }
    }

    /** Returns the status of the unit at an offset; `shown` returns its fields until the next
     * call. */
    status(offset) {
        return this.#session.step(this.#start + offsetIn(this, offset), this.length - offset);
    }

    /** The fields of a unit, as rtr_next set them. */
    shown(offset) {
        const { heap } = this.#session;
        return new Shown(heap.view, this.#session.frame("unit"),
            this.#start + offsetIn(this, offset));
    }

    /** Returns the unit at an offset, or throws a Fault. */
    unit(offset) {
        const status = this.status(offset);
        if (status !== Status.OK) {
            const [at, length] = [this.#start + offset, this.length - offset];
            return this.#session.refused(status, at, length, offset);
        }
        const { heap } = this.#session;
        return unitOf(heap.view, this.#session.frame("unit"), this.#start + offset, offset);
    }
}

/** Returns the bytes of Data, or of an argument that has bytes. */
function bytesIn(data, name) {
    return data instanceof Data ? data.bytes : bytesOf(data, name);
}

function dataOf(data) {
    if (!(data instanceof Data)) {
        throw new TypeError("data must be a Data, which session.data makes");
    }
    return data;
}

/** Checks an offset in bytes; their length is allowed. */
function offsetIn(bytes, offset) {
    return numberOf(offset, "offset", bytes.length);
}

/** Returns the number of entries of an index of changes: by default at least as many as the bytes
 * can have units, since each unit has a header of 8 bytes. */
function entriesFor(bytes, places) {
    return places === null ? bytes.length >> 3 : numberOf(places, "places");
}
