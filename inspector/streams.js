// The TCP connections of a capture: what each side sent, in the order of its sequence numbers.

import { BadCapture, packetsOf, segmentOf } from "./capture.js";
import { addressText } from "./library.js";
import { Column } from "./recording.js";

// The packets that are read before the page may draw.
const TURN = 20000;

/** The stream of one side of a connection, as the other side could read it. Sequence numbers have
 * as many bits here as they need, so that they never wrap around. */
export class Stream {
    from; // the sender's address and port
    gap = null; // the missing bytes: after how many bytes, and how many
    #segments = []; // those with bytes, in the capture's order
    #last = null; // the last sequence number
    #begin = null; // that of the first byte
    #isOpened = false; // its SYN is in the capture
    #end = -Infinity; // the sequence number after the last byte, by its own segments
    #acknowledged = -Infinity; // the highest that the other side acknowledged
    #ends = new Column(Float64Array); // how many bytes there were after each arrival
    #times = new Column(Float64Array); // when

    constructor(from) {
        this.from = from;
    }

    get isEmpty() {
        return this.#segments.length === 0;
    }

    /** Reports whether its first byte has this sequence number, as far as is known. */
    beginsAt(sequence) {
        return this.#begin !== null && this.#near(sequence) === this.#begin;
    }

    /** Returns the sequence number with these low 32 bits that is nearest to the last one. */
    #near(sequence) {
        return this.#last + ((sequence - this.#last) | 0);
    }

    /** Adds a segment. A side whose SYN isn't in the capture begins with its first captured byte; a
     * segment of at most one byte may be a probe (RFC 9293 section 3.8.4), which begins before
     * that. */
    take({ sequence, isFirst, bytes, leftOut }, time) {
        this.#last ??= sequence;
        const from = this.#near(sequence);
        this.#last = from;
        const length = bytes.length + leftOut;
        if (isFirst) {
            [this.#isOpened, this.#begin] = [true, from];
        } else if (length > 1 && !this.#isOpened) {
            this.#begin = Math.min(this.#begin ?? from, from);
        }
        this.#end = Math.max(this.#end, from + length);
        if (bytes.length > 0) {
            this.#segments.push({ from, bytes, time });
        }
    }

    /** Records what the other side has received. */
    acknowledge(sequence) {
        if (this.#last !== null) {
            this.#acknowledged = Math.max(this.#acknowledged, this.#near(sequence));
        }
    }

    /** Returns its bytes up to the first missing one. Of retransmitted bytes the first ones count,
     * as a receiver reads them once. */
    finish() {
        const begin = this.#begin ?? this.#segments[0]?.from;
        if (begin === undefined) {
            return new Uint8Array(0);
        }
        const pieces = [];
        const early = []; // the segments after a missing byte, in order
        let next = begin;
        const join = ({ from, bytes }, time) => {
            const piece = bytes.subarray(Math.min(next - from, bytes.length));
            if (piece.length > 0) {
                pieces.push(piece);
                next += piece.length;
                this.#ends.push(next - begin);
                this.#times.push(time);
            }
        };
        for (const segment of this.#segments) {
            if (segment.from > next) {
                insert(early, segment);
                continue;
            }
            join(segment, segment.time);
            let joined = 0;
            for (; joined < early.length && early[joined].from <= next; joined += 1) {
                join(early[joined], segment.time);
            }
            early.splice(0, joined);
        }
        this.#segments = [];
        this.#missing(begin, next, early[0]?.from);
        return concatenated(pieces, next - begin);
    }

    /** Records how many bytes are missing. After the last byte that was acknowledged the next
     * number may be that of a FIN. */
    #missing(begin, next, early) {
        const isLost = this.#acknowledged > this.#end + 1;
        const missing = (early ?? (isLost ? this.#acknowledged : this.#end)) - next;
        if (missing > 0) {
            this.gap = { after: next - begin, missing };
        }
    }

    /** Returns when the byte before this offset came, in seconds. */
    timeOf(end) {
        return this.#times.at(Math.min(this.#ends.lowerBound(end), this.#ends.length - 1));
    }
}

/** Inserts a segment into a list that is sorted by sequence numbers. Most segments come in order,
 * so it searches from the end. */
function insert(sorted, segment) {
    let index = sorted.length;
    while (index > 0 && sorted[index - 1].from > segment.from) {
        index -= 1;
    }
    sorted.splice(index, 0, segment);
}

function concatenated(pieces, length) {
    const all = new Uint8Array(length);
    let at = 0;
    for (const piece of pieces) {
        all.set(piece, at);
        at += piece.length;
    }
    return all;
}

/** A TCP connection. The first stream is that of its client, which opened it. */
class Connection {
    streams;
    isKnown; // whether its first segment is in the capture, so that it is known who opened it

    constructor({ source, destination, isFirst }) {
        this.streams = [new Stream(nameOf(source)), new Stream(nameOf(destination))];
        this.isKnown = isFirst;
    }

    /** Returns the stream of this sender, and the other one. */
    sides(from) {
        const [first, second] = this.streams;
        return first.from === from ? [first, second] : [second, first];
    }
}

function nameOf({ address, port }) {
    const text = addressText(address);
    return address.length === 4 ? `${text}:${port}` : `[${text}]:${port}`;
}

/** The connections of a capture, and its unreadable packets. */
class Connections {
    all = [];
    unread = new Map(); // how many packets, by reason
    packets = 0;
    #open = new Map(); // the last connection between two ends, by their names

    take(packet) {
        this.packets += 1;
        const segment = segmentOf(packet);
        if (typeof segment === "string") {
            this.unread.set(segment, (this.unread.get(segment) ?? 0) + 1);
        } else if (segment !== null) {
            this.#heard(segment, packet.time);
        }
    }

    #heard(segment, time) {
        const [from, to] = [nameOf(segment.source), nameOf(segment.destination)];
        let connection = this.#open.get(`${from} ${to}`) ?? this.#open.get(`${to} ${from}`);
        const isNew = connection === undefined || this.#beginsAnew(connection, segment, from);
        if (isNew) {
            connection = new Connection(segment);
            this.all.push(connection);
            this.#open.delete(`${to} ${from}`);
            this.#open.set(`${from} ${to}`, connection);
        }
        if (!segment.isReset) {
            const [sender, receiver] = connection.sides(from);
            sender.take(segment, time);
            if (segment.acknowledged !== null) {
                receiver.acknowledge(segment.acknowledged);
            }
        }
    }

    /** Reports whether a segment opens another connection between the same ends. */
    #beginsAnew(connection, { isFirst, sequence }, from) {
        const [sender] = connection.sides(from);
        return isFirst && !sender.isEmpty && !sender.beginsAt(sequence);
    }
}

/** Reads the connections of a capture. `report` is called with the progress; `breathe` lets the
 * page draw. A truncated capture is read up to its end, and `cut` is that offset. */
export async function connectionsOf(bytes, breathe, report = () => {}) {
    const found = new Connections();
    let cut = null;
    try {
        for (const packet of packetsOf(bytes)) {
            found.take(packet);
            if (found.packets % TURN === 0) {
                report((packet.data.byteOffset - bytes.byteOffset) / bytes.length);
                await breathe();
            }
        }
    } catch (error) {
        if (!(error instanceof BadCapture)) {
            throw error;
        }
        cut = error.message;
    }
    return { connections: found.all, unread: found.unread, packets: found.packets, cut };
}
