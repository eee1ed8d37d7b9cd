// A session of a capture: what the router and the cache sent, in the order in which it came. The
// library decides which units there are, and which of them a router sends.

import { Fault, Kind, Status } from "./library.js";
import { Column, Counts, Recording, breathe } from "./recording.js";
import { connectionsOf } from "./streams.js";
import { count, many } from "./words.js";

export const ROUTER = 0;
export const CACHE = 1;
export const SIDES = ["router", "cache"];

const QUERIES = [Kind.SERIAL_QUERY, Kind.RESET_QUERY];

export class Conversation {
    name;
    streams; // of the router and of the cache
    recordings; // likewise
    began; // when its first unit had come, in seconds since 1970
    #order = new Column(Uint32Array); // twice the index in its recording, and the side

    constructor(name, streams, recordings) {
        this.name = name;
        this.streams = streams;
        this.recordings = recordings;
    }

    /** Sorts the units of both sides by the time at which they were whole. */
    async merge() {
        const indexes = [0, 0];
        const isLeft = (side) => indexes[side] < this.recordings[side].count;
        while (isLeft(ROUTER) || isLeft(CACHE)) {
            const side = isLeft(ROUTER) && isLeft(CACHE)
                ? this.#earlier(indexes) : Number(!isLeft(ROUTER));
            this.#order.push(2 * indexes[side] + side);
            indexes[side] += 1;
            if (this.#order.length % 20000 === 0) {
                await breathe();
            }
        }
        this.began = this.count > 0 ? this.#timeOf(this.side(0), this.#own(0)) : 0;
        return this;
    }

    /** Returns the side whose next unit came first; the router's, if both came at the same time. */
    #earlier([ofRouter, ofCache]) {
        return this.#timeOf(ROUTER, ofRouter) <= this.#timeOf(CACHE, ofCache) ? ROUTER : CACHE;
    }

    /** Returns when a unit of a side was whole. */
    #timeOf(side, own) {
        const recording = this.recordings[side];
        const end = own + 1 < recording.count ? recording.offset(own + 1) : recording.size;
        return this.streams[side].timeOf(end);
    }

    /** Returns the index of a unit in the recording of its side. */
    #own(index) {
        return Math.floor(this.#order.at(index) / 2);
    }

    side(index) {
        return this.#order.at(index) % 2;
    }

    kind(index) {
        return this.recordings[this.side(index)].kind(this.#own(index));
    }

    /** Returns who sent a unit: router or cache. */
    sideName(index) {
        return SIDES[this.side(index)];
    }

    /** Returns the seconds since the first unit. */
    time(index) {
        return this.#timeOf(this.side(index), this.#own(index)) - this.began;
    }

    get count() {
        return this.#order.length;
    }

    get size() {
        return this.recordings[ROUTER].size + this.recordings[CACHE].size;
    }

    get kinds() {
        return Counts.sum(this.recordings.map((recording) => recording.kinds));
    }

    unit(index) {
        return this.recordings[this.side(index)].unit(this.#own(index));
    }

    bytesOf(index) {
        return this.recordings[this.side(index)].bytesOf(this.#own(index));
    }

    /** Returns the index of the unit of a side that has a byte. */
    indexAt(offset, side = CACHE) {
        const own = this.recordings[side].indexAt(offset);
        for (let index = 0; index < this.count; index += 1) {
            if (this.#order.at(index) === 2 * own + side) {
                return index;
            }
        }
        return 0;
    }

    /** Returns the indexes of units for which all tests hold. */
    async indexes(filter, report = () => {}) {
        const found = [await this.recordings[ROUTER].indexes(filter),
            await this.recordings[CACHE].indexes(filter, report)];
        const next = [0, 0];
        const all = new Column(Uint32Array);
        for (let index = 0; index < this.count; index += 1) {
            const side = this.side(index);
            if (found[side].at(next[side]) === this.#own(index)) {
                all.push(index);
                next[side] += 1;
            }
        }
        return all;
    }

    drop() {
        this.recordings.forEach((recording) => recording.drop());
    }
}

/** Returns the unit at the start of bytes, or its Fault. */
function firstOf(rtr, bytes) {
    try {
        return rtr.next(bytes, 0);
    } catch (error) {
        if (error instanceof Fault) {
            return error;
        }
        throw error;
    }
}

/** Reports whether bytes begin with a unit, whole or truncated, or are empty. */
function mayBe(rtr, bytes) {
    const first = bytes.length === 0 ? null : firstOf(rtr, bytes);
    return !(first instanceof Fault) || first.status === Status.SHORT;
}

/** Returns which side is the router's, 0 or 1: the one that begins with a query; if neither does,
 * the one that opened the connection. */
function routerOf(rtr, sides) {
    const asks = sides.findIndex((bytes) => bytes.length > 0
        && QUERIES.includes(firstOf(rtr, bytes).kind));
    return Math.max(asks, 0);
}

/** Returns the sessions of a capture: for each connection whose sides begin with units, the bytes
 * of router and cache, and what couldn't be read. */
export async function sessionsIn(rtr, bytes, report) {
    const read = await connectionsOf(bytes, breathe, report);
    const sessions = [];
    for (const { streams } of read.connections) {
        const sides = streams.map((stream) => stream.finish());
        if (sides.some((side) => side.length > 0) && sides.every((side) => mayBe(rtr, side))) {
            const first = routerOf(rtr, sides);
            const order = [first, 1 - first];
            sessions.push({ streams: order.map((side) => streams[side]),
                sides: order.map((side) => sides[side]) });
        }
    }
    return { ...read, sessions };
}

/** Reads a session of a capture. */
export async function conversationOf(rtr, name, { streams, sides }, report) {
    const recordings = sides.map((side, number) => (
        new Recording(rtr, `${name}, ${SIDES[number]}`, side)));
    for (const recording of recordings) {
        await recording.read(report);
    }
    return new Conversation(name, streams, recordings).merge();
}

/** Returns what is missing of a session, in words; "" for nothing. */
export function gapText({ streams }) {
    return streams.map(({ gap }, side) => (gap === null ? ""
        : ` ${many(gap.missing, "byte")} of the ${SIDES[side]} are missing in the capture after `
            + `byte ${count(gap.after)}: the rest of that side isn't shown.`)).join("");
}
