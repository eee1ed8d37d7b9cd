// Recordings and lists, and the data that they result in: those of the file tests/loads, and larger
// ones.

import assert from "node:assert/strict";
import { Fault } from "../rtr_wire.js";

/** Decodes hex digits. */
const unspaced = (row) => Uint8Array.from(Buffer.from(row.replaceAll(" ", ""), "hex"));

const joined = (pieces) => new Uint8Array(Buffer.concat(pieces));

/** Returns the recordings of the file. */
export function read(bytes) {
    const all = [];
    for (const row of new TextDecoder().decode(bytes).split("\n")) {
        const [, word, rest] = row.match(/^(\w+) (.*)$/) ?? [];
        if (word === "load") {
            all.push({ name: rest, units: [], data: [], refused: null, hasCut: false });
            continue;
        }
        const last = all.at(-1);
        if (word === "unit") {
            last.units.push(unspaced(rest));
        } else if (word === "data") {
            last.data.push(unspaced(rest));
        } else if (word === "refused") {
            const [, offset, text] = rest.match(/^(\d+) (.*)$/);
            last.refused = { offset: Number(offset), text };
        } else if (word === "cut") {
            last.hasCut = true;
        }
    }
    return all;
}

/** Returns the bytes of the data, and whether an answer was ignored; or the offset of the unit at
 * fault, and the text of the fault. */
function outcome(rtr, recording) {
    try {
        const { data, hasCut } = rtr.loadData(recording);
        return { data: data.bytes, hasCut };
    } catch (error) {
        if (!(error instanceof Fault)) {
            throw error;
        }
        const { offset, text, side } = error;
        assert.equal(side, 0);
        assert.equal(error.message, `${text}, at byte ${offset}`);
        return { offset, text };
    }
}

/** A recording truncated after any byte is refused at the offset of the incomplete unit. */
function cutOff(rtr, { name, units }) {
    const recording = joined(units);
    const offsets = units.map((_, count) => joined(units.slice(0, count)).length);
    for (let length = 0; length < recording.length; length += 1) {
        const offset = Math.max(...offsets.filter((start) => start <= length));
        assert.deepEqual(outcome(rtr, recording.subarray(0, length)),
            { offset, text: "unexpected end of input" }, name);
    }
}

/** The rows of the file. */
export function loads(rtr, bytes) {
    const rows = read(bytes);
    assert.ok(rows.length > 40);
    for (const row of rows) {
        const data = joined(row.data);
        assert.deepEqual(outcome(rtr, joined(row.units)),
            row.refused ?? { data, hasCut: row.hasCut }, row.name);
        if (row.refused === null) {
            assert.deepEqual(outcome(rtr, data), { data, hasCut: false }, row.name);
            if (row.units.filter(([, kind]) => kind === 7).length === 1) {
                cutOff(rtr, row);
            }
        }
    }
    return rows.length;
}

export const TESTS = {
    /** More data than the first buffers hold: IPv4 prefixes of 32 bits and an end of data (RFC 8210
     * sections 5.6 and 5.8). */
    loadsLargeData(rtr) {
        const count = 1 << 20;
        const prefix = [1, 4, 0, 0, 0, 0, 0, 20, 1, 32, 32, 0, 0, 0, 0, 0, 0, 0, 0xfb, 0xf0];
        const end = [1, 7, 0, 7, 0, 0, 0, 24, 0, 0, 0, 1, 0, 0, 14, 16, 0, 0, 2, 88, 0, 0, 28, 32];
        const recording = new Uint8Array(20 * count + end.length);
        const view = new DataView(recording.buffer);
        for (let index = 0; index < count; index += 1) {
            recording.set(prefix, 20 * index);
            view.setUint32(20 * index + 12, index);
        }
        recording.set(end, 20 * count);
        const session = rtr.another();
        const { data, hasCut } = session.loadData(recording);
        assert.ok(Buffer.from(data.bytes).equals(recording) && !hasCut);
        session.drop();
    },
};
