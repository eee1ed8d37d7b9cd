// Tests the rows of all languages: cases.py, sessions.py, deltas.py and validity.py in
// tests/libraries describe their files.

import assert from "node:assert/strict";
import { Fault, Named, Status } from "../rtr_wire.js";
import { STRUCTS } from "../rtr_table.js";

/** Reads the numbers and pieces of a file in order. */
class Rows {
    #bytes;
    #view;
    #at = 0;

    constructor(bytes) {
        this.#bytes = bytes;
        this.#view = new DataView(bytes.buffer, bytes.byteOffset, bytes.length);
    }

    get hasMore() {
        return this.#at < this.#bytes.length;
    }

    byte() {
        return this.#bytes[this.#at++];
    }

    word() {
        this.#at += 4;
        return this.#view.getUint32(this.#at - 4, true);
    }

    long() {
        this.#at += 8;
        return Number(this.#view.getBigUint64(this.#at - 8, true));
    }

    piece(length) {
        this.#at += length;
        return this.#bytes.slice(this.#at - length, this.#at);
    }
}

/** Returns the result of a call, or the Fault that it throws. */
function outcome(call) {
    try {
        return call();
    } catch (error) {
        if (error instanceof Fault) {
            return error;
        }
        throw error;
    }
}

function same(left, right, what) {
    if (left.length !== right.length || left.some((byte, index) => byte !== right[index])) {
        assert.fail(`${what}: ${left} is not ${right}`);
    }
}

/** Sequences and their forms. */
export function cases(rtr, bytes) {
    const rows = new Rows(bytes);
    let count = 0;
    for (; rows.hasMore; count += 1) {
        const [version, status, detail] = [rows.byte(), rows.byte(), rows.byte()];
        const [units, forms, taken] = Array.from({ length: 3 }, () => rows.long());
        const lengths = [rows.long(), rows.long()];
        const [input, form] = lengths.map((length) => rows.piece(length));
        const options = version === 255 ? {} : { version };
        const answer = outcome(() => rtr.normalise(input, options));
        assert.deepEqual([answer.status ?? Status.OK, answer.detail ?? 0], [status, detail]);
        assert.deepEqual([answer.units, answer.forms, answer.taken], [units, forms, taken]);
        assert.equal(answer.offset ?? taken, taken);
        same(answer.form, form, `case ${count}`);
        if (status === Status.OK && version === 255) {
            assert.equal(rtr.sameMeaning(input, form), true, `case ${count}`);
        }
    }
    return count;
}

const NUMBERS = ["status", "size", "wanted", "partStart", "partLength", "textStart", "textLength",
    "asn", "customer", "serial", "refresh", "retry", "expire", "session", "code", "kind", "version",
    "action", "family", "prefixLength", "maxLength", "detail"];
const KINDS = Object.fromEntries(STRUCTS.unit.fields.map(([name, , kind]) => [name, kind]));
const METHODS = { uint8: "byte", uint16: "short", uint32: "word", size: "long" };

/** Sessions with units of all types: the fields of each, and its form. */
export function sessions(rtr, bytes) {
    const rows = new Rows(bytes);
    let count = 0;
    for (; rows.hasMore; count += 1) {
        const [length, answers] = [rows.long(), rows.long()];
        const input = rows.piece(length);
        const held = rtr.hold(input);
        let offset = 0;
        for (let index = 0; index < answers; index += 1) {
            const expected = Object.fromEntries(NUMBERS.map((name) => [name, rows.long()]));
            const [address, identifier] = [rows.piece(16), rows.piece(20)];
            const form = rows.piece(rows.long());
            shownFields(held, offset, expected, address, identifier);
            shownUnit(rtr, input, offset, expected, form);
            offset += expected.size;
        }
        held.drop();
        walked(rtr, input);
    }
    return count;
}

function shownFields(held, offset, expected, address, identifier) {
    assert.equal(held.status(offset), expected.status);
    const shown = held.shown(offset);
    for (const name of NUMBERS.slice(1)) {
        assert.equal(shown[METHODS[KINDS[name]]](name), expected[name], name);
    }
    same(shown.row("address", 16), address, "address");
    same(shown.row("keyIdentifier", 20), identifier, "key identifier");
}

/** Checks the unit as an object, by both calls, and its form. */
function shownUnit(rtr, input, offset, expected, form) {
    const unit = outcome(() => rtr.next(input, offset));
    assert.equal(unit.offset, offset);
    if (expected.status !== Status.OK) {
        assert.deepEqual([unit.status, unit.size, unit.wanted, unit.detail],
            [expected.status, expected.size, expected.wanted, expected.detail]);
        return;
    }
    for (const name of Object.keys(unit).filter((name) => NUMBERS.includes(name))) {
        assert.equal(unit[name], expected[name], name);
    }
    const part = (start, length) => input.subarray(offset + start, offset + start + length);
    if ("announce" in unit) {
        assert.equal(unit.announce, expected.action === 1);
    }
    if (unit.keyInfo) {
        same(unit.keyInfo, part(expected.partStart, expected.partLength), "key info");
    }
    if (unit.about) {
        same(unit.about, part(expected.partStart, expected.partLength), "about");
        same(unit.textBytes, part(expected.textStart, expected.textLength), "text");
    }
    same(rtr.writeUnit(unit), form, "form");
}

/** The generator yields the units that `next` returns, in order, and then throws its Fault. */
function walked(rtr, input) {
    const walk = rtr.units(input);
    for (let offset = 0; offset < input.length;) {
        const expected = outcome(() => rtr.next(input, offset));
        const yielded = outcome(() => walk.next().value);
        assert.deepEqual({ ...yielded }, { ...expected });
        if (expected instanceof Fault) {
            return;
        }
        offset += expected.size;
    }
    assert.equal(walk.next().done, true);
}

const CALLS = [
    (rtr, first, second) => rtr.delta(first, second),
    (rtr, first, second) => rtr.apply(first, second),
    (rtr, first, second, places) => rtr.order(first, places),
    (rtr, first, second, places) => rtr.applyInOrder(first, second, places),
    (rtr, first, second) => rtr.changesBetween(...[first, second].map((data) => (
        data.length === 0 ? null : data))),
];

/** Data and changes. */
export function deltas(rtr, bytes) {
    const rows = new Rows(bytes);
    let count = 0;
    for (; rows.hasMore; count += 1) {
        const [call, status, side, detail] = Array.from({ length: 4 }, () => rows.byte());
        const [offset, firstSize, secondSize, length, places]
            = Array.from({ length: 5 }, () => rows.long());
        const [first, second] = [rows.piece(firstSize), rows.piece(secondSize)];
        const output = rows.piece(length);
        const answer = outcome(() => CALLS[call](rtr, first, second, places));
        if (status === Status.OK) {
            same(answer, output, `deltas ${count}`);
        } else {
            assert.deepEqual([answer.status, answer.side, answer.detail, answer.offset],
                [status, side, detail, offset], `deltas ${count}`);
        }
    }
    return count;
}

/** The validities of routes don't depend on their order, nor on how often each comes. */
function validatesAll(rtr, data, table) {
    const byAddress = [...table, ...table].sort((left, right) => (
        left.route.address.length - right.route.address.length
        || Buffer.compare(left.route.address, right.route.address)));
    for (const order of [table, byAddress, [...byAddress].reverse()]) {
        assert.deepEqual(rtr.validateAll(data, order.map(({ route }) => route)),
            order.map(({ validity }) => validity));
    }
}

/** Routes, and the VRPs that cover each. */
export function validity(rtr, bytes) {
    const rows = new Rows(bytes);
    let count = 0;
    while (rows.hasMore) {
        const [length, many] = [rows.word(), rows.word()];
        const data = rtr.data(rows.piece(length));
        const table = [];
        for (let index = 0; index < many; index += 1, count += 1) {
            const [family, prefixLength] = [rows.byte(), rows.byte()];
            const [validity, covers] = [rows.byte(), rows.byte()];
            const asn = rows.word();
            const address = rows.piece(16).slice(0, family === 4 ? 4 : 16);
            const route = { address, prefixLength, asn };
            assert.equal(rtr.validate(data, route), validity, `route ${count}`);
            table.push({ route, validity });
            const found = [...rtr.covering(data, route)].slice(0, covers);
            for (let each = 0; each < covers; each += 1) {
                const vrp = { place: rows.word(), asn: rows.word(), prefixLength: rows.byte(),
                    maxLength: rows.byte(), mismatch: rows.byte() };
                rows.byte();
                assert.deepEqual(found[each], vrp, `route ${count}`);
            }
            assert.equal(found.length, covers);
        }
        validatesAll(rtr, data, table);
        data.drop();
    }
    return count;
}

/** Returns the text of a row, and behind how many of its other words it has to stand. */
function textOf(rtr, word, number, [first, second]) {
    switch (word) {
        case "text":
            return [rtr.statusText(number, Number(first)), 1];
        case "at":
            return [rtr.statusTextAt(number, Number(first), BigInt(second)), 2];
        case "report":
            return [rtr.reportText(number, Uint8Array.from(first.match(/\w\w/gu) ?? [],
                (digits) => parseInt(digits, 16))), 1];
        default:
            return [rtr.name(Named[word.toUpperCase()], number), 0];
    }
}

/** The texts of the library, as in all languages. */
export function texts(rtr, bytes) {
    let count = 0;
    for (const row of new TextDecoder().decode(bytes).split("\n")) {
        if (row === "" || row.startsWith("#")) {
            continue;
        }
        const [word, number, ...rest] = row.split(" ");
        const [actual, from] = textOf(rtr, word, Number(number), rest);
        assert.equal(actual, rest.slice(from).join(" "), row);
        count += 1;
    }
    assert.ok(count > 80);
    return count;
}

/** The rows of tests/programs/listings.py --findings: recordings, and the lines of the rules that
 * they break. */
export function findings(rtr, bytes) {
    const rows = new Rows(bytes);
    const text = new TextDecoder();
    let count = 0;
    for (; rows.hasMore; count += 1) {
        const [size, length] = [rows.word(), rows.word()];
        const [recording, lines] = [rows.piece(size), text.decode(rows.piece(length))];
        assert.equal([...rtr.check(recording)].map(({ line }) => `${line}\n`).join(""), lines);
    }
    return count;
}
