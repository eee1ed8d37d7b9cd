// What a recording leaves, as the library loads it, for comparison with any other.

import { Fault, Kind, Status } from "./library.js";

/** A copy of a recording with its units in one version, since versions don't count here. What
 * isn't a unit is copied as it is, and so is all that follows. */
class Copy {
    #pieces = [];
    #length = 0;
    #moved = []; // offsets of the copy, and by how many bytes units from there on are moved

    constructor(rtr, bytes, version) {
        const copy = bytes.slice();
        const held = rtr.hold(bytes);
        let from = 0;
        for (let at = 0; at < bytes.length && held.status(at) === Status.OK;) {
            const shown = held.shown(at);
            const end = at + shown.long("size");
            if (shown.byte("kind") === Kind.END_OF_DATA) {
                const form = rtr.writeUnit({ ...held.unit(at), version });
                this.#push(copy.subarray(from, at));
                this.#push(form);
                this.#moved.push([this.#length, form.length - (end - at)]);
                from = end;
            } else {
                copy[at] = version;
            }
            at = end;
        }
        held.drop();
        this.#push(copy.subarray(from));
    }

    #push(piece) {
        this.#pieces.push(piece);
        this.#length += piece.length;
    }

    get bytes() {
        const all = new Uint8Array(this.#length);
        let at = 0;
        for (const piece of this.#pieces) {
            all.set(piece, at);
            at += piece.length;
        }
        return all;
    }

    /** The offset in the recording of the unit at an offset of the copy. */
    offsetOf(offset) {
        return this.#moved.reduce((found, [from, by]) => (from <= offset ? found - by : found),
            offset);
    }
}

/** What a recording leaves: data in canonical form, of the highest version, session 0 and serial
 * number 0, and whether an answer was cut off. A Fault has the offset in the recording. */
export function dataOf(rtr, bytes) {
    const copy = new Copy(rtr, bytes, rtr.usualSettings(255).highest);
    try {
        const { data, hasCut } = rtr.loadData(copy.bytes);
        const plain = data.bytes;
        plain.set(rtr.writeUnit({ ...data.end, session: 0, serial: 0 }), data.end.offset);
        return { data: plain, hasCut };
    } catch (error) {
        throw error instanceof Fault
            ? rtr.fault({ ...error, offset: copy.offsetOf(error.offset) }) : error;
    }
}
