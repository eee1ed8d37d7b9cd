// A recording in the memory of a session, with the offsets of its units: the library decodes them
// whenever they are shown, so that a unit takes five bytes besides its own.

import { Fault, Kind, Status } from "./library.js";

// The units that are read before the page may draw.
const TURN = 20000;

// Instead of a kind: a unit that is refused.
export const REFUSED = 127;

const ANNOUNCES = 128;

// The numbers in a piece of a column.
const PIECE = 1 << 16;

/** A list of numbers that grows by pieces, so that none is ever copied. */
export class Column {
    #Type;
    #pieces = [];
    length = 0;

    constructor(Type) {
        this.#Type = Type;
    }

    push(value) {
        const index = this.length % PIECE;
        if (index === 0) {
            this.#pieces.push(new this.#Type(PIECE));
        }
        this.#pieces.at(-1)[index] = value;
        this.length += 1;
    }

    at(index) {
        return this.#pieces[Math.floor(index / PIECE)]?.[index % PIECE];
    }

    /** Returns the index of the least number that is no less than this one, in a sorted list. */
    lowerBound(value) {
        let [low, high] = [0, this.length];
        while (low < high) {
            const middle = (low + high) >> 1;
            [low, high] = this.at(middle) < value ? [middle + 1, high] : [low, middle];
        }
        return low;
    }
}

/** Lets the page draw and handle input. */
export function breathe() {
    return new Promise((resolve) => { setTimeout(resolve); });
}

/** Counts by key, largest first. */
export class Counts {
    #counts = new Map();

    add(key) {
        this.#counts.set(key, (this.#counts.get(key) ?? 0) + 1);
    }

    get size() {
        return this.#counts.size;
    }

    get(key) {
        return this.#counts.get(key) ?? 0;
    }

    sorted() {
        return [...this.#counts].sort(([left], [right]) => left - right);
    }

    /** The counts of several, added up. */
    static sum(all) {
        const total = new Counts();
        for (const counts of all) {
            for (const [key, number] of counts.#counts) {
                total.#counts.set(key, total.get(key) + number);
            }
        }
        return total;
    }

    largest(count) {
        return [...this.#counts].sort((left, right) => right[1] - left[1] || left[0] - right[0])
            .slice(0, count);
    }
}

/** The number of units of each sort. */
class Picture {
    kinds = new Counts();
    lengths = { [Kind.IPV4_PREFIX]: new Counts(), [Kind.IPV6_PREFIX]: new Counts() };
    longer = new Counts(); // prefixes whose max length is above their length, by kind
    ases = new Counts();
    ends = []; // the indexes of the ends of data

    add(kind, shown, index) {
        this.kinds.add(kind);
        if (this.lengths[kind]) {
            this.lengths[kind].add(shown.byte("prefixLength"));
            if (shown.byte("maxLength") > shown.byte("prefixLength")) {
                this.longer.add(kind);
            }
            this.ases.add(shown.word("asn"));
        } else if (kind === Kind.ROUTER_KEY) {
            this.ases.add(shown.word("asn"));
        } else if (kind === Kind.ASPA) {
            this.ases.add(shown.word("customer"));
        } else if (kind === Kind.END_OF_DATA) {
            this.ends.push(index);
        }
    }
}

export class Recording {
    name;
    picture = new Picture();
    faults = []; // of refused units, in order
    #rtr;
    #held;
    #offsets;
    #kinds = new Column(Uint8Array);
    #isDropped = false;

    constructor(rtr, name, bytes) {
        this.#rtr = rtr;
        this.name = name;
        this.#held = rtr.hold(bytes);
        this.#offsets = new Column(bytes.length < 2 ** 32 ? Uint32Array : Float64Array);
    }

    /** Reads all units. `report` is called with the progress, from 0 to 1. */
    async read(report = () => {}) {
        for (let at = 0; at < this.size;) {
            at = this.#turn(at);
            report(at / this.size);
            await breathe();
        }
        return this;
    }

    /** Reads some units from an offset on, and returns the offset of the next. */
    #turn(from) {
        const [offsets, kinds] = [this.#offsets, this.#kinds];
        let at = from;
        const shown = this.#held.shown(from);
        for (let count = 0; count < TURN && at < this.size; count += 1) {
            const status = this.#held.status(at);
            if (status !== Status.OK) {
                const fault = this.#held.unit(at);
                this.faults.push(fault);
                offsets.push(at);
                kinds.push(REFUSED);
                at = status === Status.PREFIX ? at + fault.size : this.size;
                continue;
            }
            const kind = shown.byte("kind");
            this.picture.add(kind, shown, offsets.length);
            offsets.push(at);
            kinds.push(kind + (shown.byte("action") ? ANNOUNCES : 0));
            at += shown.word("size");
        }
        return at;
    }

    /** Returns the rules that its units break, as rtr_list --check does: up to the first unit that
     * is refused, since the units after it aren't known. `report` is as for `read`. */
    async check(report = () => {}) {
        const checker = this.#held.checker();
        const all = [];
        try {
            for (let at = 0; at < this.size;) {
                for (let count = 0; count < TURN && at < this.size; count += 1) {
                    const { findings, size } = checker.take(at);
                    all.push(...findings);
                    at += size;
                }
                report(at / this.size);
                await breathe();
                if (this.#isDropped) {
                    return [];
                }
            }
            all.push(...checker.finish());
        } catch (error) {
            if (!(error instanceof Fault)) {
                throw error;
            }
        } finally {
            checker.drop();
        }
        return all;
    }

    /** Its size in bytes. */
    get size() {
        return this.#held.length;
    }

    /** The number of its units, including refused ones. */
    get count() {
        return this.#offsets.length;
    }

    /** Returns the number of units of each kind. */
    get kinds() {
        return this.picture.kinds;
    }

    offset(index) {
        return this.#offsets.at(index);
    }

    kind(index) {
        return this.#kinds.at(index) & ~ANNOUNCES;
    }

    announces(index) {
        return this.#kinds.at(index) >= ANNOUNCES;
    }

    /** Returns the unit at an index as an object, or its Fault. */
    unit(index) {
        return this.#held.unit(this.offset(index));
    }

    /** Returns the bytes of the unit at an index: of a refused one, as many as it may have. */
    bytesOf(index) {
        const unit = this.unit(index);
        const size = unit.size || Math.min(64, this.size - unit.offset);
        return this.#held.bytes(unit.offset, size);
    }

    /** Returns all of its bytes. */
    get bytes() {
        return this.#held.bytes(0, this.size);
    }

    /** Returns the index of the unit that has a byte. */
    indexAt(offset) {
        return Math.max(0, this.#offsets.lowerBound(offset + 1) - 1);
    }

    /** Returns the indexes of units for which all tests hold: on the index alone (`ofIndex`), and
     * on the decoded unit (`ofShown`). */
    async indexes({ ofIndex, ofShown }, report = () => {}) {
        const found = new Column(Uint32Array);
        for (let index = 0; index < this.count;) {
            const end = Math.min(index + TURN, this.count);
            const shown = this.#held.shown(0);
            for (; index < end; index += 1) {
                if (ofIndex(this, index) && this.#holds(ofShown, shown, index)) {
                    found.push(index);
                }
            }
            report(index / this.count);
            await breathe();
        }
        return found;
    }

    #holds(ofShown, shown, index) {
        if (ofShown === null) {
            return true;
        }
        return this.kind(index) !== REFUSED
            && this.#held.status(this.offset(index)) === Status.OK && ofShown(shown);
    }

    /** Returns why its first byte is refused, if it has no unit at all. */
    get isNone() {
        return this.count === 0 || (this.count === 1 && this.faults.length === 1);
    }

    drop() {
        this.#isDropped = true;
        this.#held.drop();
    }
}
