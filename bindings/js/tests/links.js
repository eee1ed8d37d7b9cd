// Tests of a Link: a router's end with buffers and data, without sockets.

import assert from "node:assert/strict";
import { Cause, Fault, Kind, LinkError, LinkStatus, NoData, OutOfMemory, SessionError, Status,
    TodoKind, load } from "../rtr_wire.js";
import { RESET_QUERY, answer, end, notify, prefix, report, response, serialQuery, unit }
    from "./caches.js";

const SETTINGS = { highest: 1 };

/** The bytes of a session's memory that a client without data needs: its input and output. */
const LEAST = 4 << 16;

const bytesOf = (...units) => new Uint8Array(Buffer.concat(units));

/** Announced prefixes of different ASNs, in the order of payloads. */
function many(count, first = 0) {
    const unit = prefix(1);
    const bytes = Buffer.alloc(unit.length * count);
    for (let index = 0; index < count; index += 1) {
        unit.copy(bytes, index * unit.length);
        bytes.writeUInt32BE(first + index, (index + 1) * unit.length - 4);
    }
    return bytes;
}

/** Passes bytes to a link as its input has space, and returns the first todo that isn't to wait,
 * with the number of remaining bytes; or null. */
function gives(link, now, bytes) {
    for (let rest = bytes; rest.length > 0;) {
        rest = rest.subarray(link.received(rest));
        const todo = link.next(now);
        if (todo.kind !== TodoKind.WAIT) {
            return { ...todo, left: rest.length };
        }
    }
    return null;
}

/** Checks the output of a link, and sends it. */
function sends(link, expected) {
    assert.deepEqual(Buffer.from(link.output), expected);
    link.sent(expected.length);
    assert.equal(link.output.length, 0);
}

/** Returns a link that has loaded this answer to its first query. */
function loaded(rtr, bytes, now = 0) {
    const link = rtr.link(SETTINGS);
    assert.equal(link.next(now).kind, TodoKind.CONNECT);
    link.opened();
    assert.equal(link.next(now).kind, TodoKind.WAIT);
    sends(link, RESET_QUERY);
    assert.equal(gives(link, now, bytes).kind, TodoKind.DATA);
    return link;
}

/** Makes a link with data of serial number 1 ask for changes. */
function asks(link, now) {
    assert.equal(gives(link, now, bytesOf(notify(2))), null);
    sends(link, serialQuery(1));
}

/** Checks that a todo closes the connection for this cause, and keeps the data. */
function closes({ kind, cause, drops, error }, expected) {
    assert.deepEqual([kind, cause, drops], [TodoKind.CLOSE, expected, false]);
    return error;
}

export const TESTS = {
    /** Data of an earlier event don't change after the next answer and after `drop`. */
    keepsData(rtr) {
        const link = loaded(rtr, answer(1, prefix(1), prefix(2)));
        const first = link.data(0);
        const before = first.bytes;
        assert.deepEqual(Buffer.from(before), Buffer.concat([prefix(1), prefix(2), end(1)]));
        asks(link, 5000);
        gives(link, 5000, answer(2, prefix(1, false), prefix(3)));
        const second = link.data(5000);
        assert.deepEqual(Buffer.from(second.bytes), Buffer.concat([prefix(2), prefix(3), end(2)]));
        link.drop();
        rtr.within([1 << 20], (at) => rtr.heap.bytes(at, 1 << 20).fill(9));
        assert.deepEqual(first.bytes, before);
        assert.deepEqual([first.serial, first.count, second.serial], [1, 2, 2]);
        assert.equal(Buffer.from(first.deltaTo(second)).compare(
            Buffer.concat([prefix(3), prefix(1, false), end(2)])), 0);
    },

    /** Data last until they expire; a todo reports when they are dropped. */
    expires(rtr) {
        const link = loaded(rtr, answer(1, prefix(1)));
        link.lost();
        assert.equal(closes(link.next(1000), Cause.LOST).message,
            "the cache closed the connection");
        assert.equal(link.data(7_199_999).serial, 1);
        assert.equal(link.data(7_200_000), null);
        const { kind, error } = link.next(7_200_000);
        assert.equal(kind, TodoKind.DROPPED);
        assert.equal(error.message, "the data have expired");
        assert.deepEqual([error instanceof SessionError, error.reason], [true, Cause.EXPIRED]);
        link.drop();
    },

    /** A refused unit, with its offset in all bytes of the connection. */
    namesUnits(rtr) {
        const link = loaded(rtr, answer(1, prefix(1)));
        asks(link, 5000);
        const wrong = prefix(3);
        wrong[9] = 33; // the prefix length
        const fault = closes(gives(link, 5000, bytesOf(response(), prefix(2), wrong, end(2))),
            Cause.FAULTY);
        assert.ok(fault instanceof Fault);
        // 52 bytes of the first answer, 12 of the notify, 8 and 20 of this answer.
        assert.deepEqual([fault.status, fault.offset, fault.code, fault.size],
            [Status.PREFIX, 92, 0, 20]);
        assert.equal(fault.message, "prefix length too large, at byte 92");
        assert.deepEqual(Buffer.from(fault.unit), wrong);
        const { code, about, text } = rtr.next(link.output);
        assert.deepEqual([code, Buffer.from(about), text], [0, wrong, "prefix length too large"]);
        link.drop();
    },

    /** A change that doesn't apply, with its offset in the answer. */
    namesChanges(rtr) {
        const link = loaded(rtr, answer(1, prefix(1)));
        asks(link, 5000);
        const fault = closes(gives(link, 5000, answer(2, prefix(2), prefix(3, false))),
            Cause.NOT_APPLIED);
        assert.deepEqual([fault.status, fault.offset, fault.code], [Status.UNKNOWN, 20, 6]);
        assert.deepEqual(Buffer.from(fault.unit), prefix(3, false));
        assert.equal(link.data(5000).serial, 1);
        link.drop();
    },

    /** A unit truncated by the close, and the program's reason for a close between units. */
    namesCuts(rtr) {
        const link = loaded(rtr, answer(1, prefix(1)));
        asks(link, 5000);
        assert.equal(gives(link, 5000, bytesOf(response(), prefix(2).subarray(0, 13))), null);
        link.lost();
        const fault = closes(link.next(5000), Cause.FAULTY);
        assert.deepEqual([fault.status, fault.offset, fault.wanted], [Status.SHORT, 72, 20]);
        assert.deepEqual(Buffer.from(fault.unit), prefix(2).subarray(0, 13));
        assert.equal(link.next(link.wakes).kind, TodoKind.CONNECT);
        const broken = new Error("reset");
        link.lost(broken);
        assert.equal(closes(link.next(link.wakes - 1), Cause.LOST), broken);
        link.drop();
    },

    /** Reports of the cache, and units that aren't allowed. */
    namesReports(rtr) {
        const link = rtr.link(SETTINGS);
        link.next(0);
        link.opened();
        link.next(0);
        const { kind, error } = gives(link, 0, report(2, "later"));
        assert.equal(kind, TodoKind.NO_DATA);
        assert.ok(error instanceof NoData);
        assert.equal(error.message, 'the cache reports an error: No Data Available, "later"');
        assert.deepEqual([error.reason, error.reported.text, error.code],
            [Cause.REPORTED, "later", null]);
        const other = closes(gives(link, 0, end(1)), Cause.OUT_OF_PLACE);
        assert.deepEqual([other.message, other.code, Buffer.from(other.unit)],
            ["unit is not allowed here", 5, end(1)]);
        link.drop();
    },

    /** As in all languages, texts of reports are shown in part, and in ASCII. */
    quotesReports(rtr) {
        for (const [code, text, shown] of [
            [2, "", "No Data Available"], [1, "no ~", 'Internal Error, "no ~"'],
            [12, 'a"\n\u00e4', 'error code 12, "a"???"'],
            [1, `${"a".repeat(99)}bc`, `Internal Error, "${"a".repeat(99)}b"`],
        ]) {
            const reportText = rtr.reportText(code, new TextEncoder().encode(text));
            assert.equal(new SessionError({ reason: Cause.REPORTED, reportText }).message,
                `the cache reports an error: ${shown}`);
        }
    },

    /** Output that is sent in parts. */
    sendsParts(rtr) {
        const link = rtr.link(SETTINGS);
        link.next(0);
        link.opened();
        link.next(0);
        assert.deepEqual(Buffer.from(link.output), RESET_QUERY);
        link.sent(3);
        assert.deepEqual(Buffer.from(link.output), RESET_QUERY.subarray(3));
        assert.throws(() => link.sent(6), (error) => error.status === LinkStatus.TOO_LONG);
        link.sent(5);
        assert.equal(link.output.length, 0);
        link.drop();
    },

    /** Wrong calls throw an error that names them, and change nothing. */
    refusesCalls(rtr) {
        const link = rtr.link(SETTINGS);
        const refused = (call, status, message) => assert.throws(call, (error) => (
            error instanceof LinkError && error.status === status && error.message === message));
        refused(() => link.opened(), LinkStatus.OUT_OF_TURN, "rtr_link_opened: OUT_OF_TURN");
        refused(() => link.lost(), LinkStatus.OUT_OF_TURN, "rtr_link_lost: OUT_OF_TURN");
        refused(() => link.received(RESET_QUERY), LinkStatus.OUT_OF_TURN,
            "rtr_link_received_nonnull: OUT_OF_TURN");
        assert.equal(link.next(10).kind, TodoKind.CONNECT);
        refused(() => link.next(9), LinkStatus.BAD_TIME, "rtr_link_next_nonnull: BAD_TIME");
        refused(() => link.data(9), LinkStatus.BAD_TIME, "rtr_link_state_of: BAD_TIME");
        assert.throws(() => link.next(-1), RangeError);
        assert.throws(() => link.next("0"), TypeError);
        assert.throws(() => link.received("bytes"), TypeError);
        assert.throws(() => rtr.link({ highst: 1 }), TypeError);
        link.drop();
    },

    /** Without memory for the units of an answer the connection ends, and data and session stay. */
    async refusesUnits(rtr, bytes) {
        const small = await load(bytes, { most: rtr.another().memory + 2 * LEAST });
        const link = loaded(small, answer(1, prefix(1)));
        asks(link, 5000);
        const todo = gives(link, 5000, bytesOf(response(), many(40000), end(2)));
        assert.ok(todo.left > 0 && closes(todo, Cause.NOT_APPLIED) instanceof OutOfMemory);
        assert.equal(link.data(5000).count, 1);
        assert.equal(link.next(5000).kind, TodoKind.WAIT);
        link.drop();
        assert.equal(small.next(end(1)).serial, 1);
    },

    /** The same without memory for the new data, although the units themselves fit. */
    async refusesData(rtr, bytes) {
        const few = many(8000, 100);
        const small = await load(bytes, { most: rtr.another().memory + 2 * LEAST });
        const link = loaded(small, answer(1, prefix(1)));
        asks(link, 5000);
        const todo = gives(link, 5000, bytesOf(response(), few, end(2)));
        assert.ok(todo.left === 0 && closes(todo, Cause.NOT_APPLIED) instanceof OutOfMemory);
        assert.equal(link.data(5000).serial, 1);
        link.drop();
        const large = loaded(rtr, answer(1, prefix(1)));
        asks(large, 5000);
        assert.equal(gives(large, 5000, bytesOf(response(), few, end(2))).kind, TodoKind.DATA);
        large.drop();
    },

    /** If any allocation fails while an answer is received and applied, the link either fails and
     * keeps its data, or has the new data. */
    refusesEach(rtr) {
        const long = bytesOf(response(), many(9000, 100), end(2));
        for (let refused = 0, isWhole = false; !isWhole; refused += 1) {
            const session = rtr.another();
            const link = loaded(session, answer(1, prefix(1)));
            asks(link, 5000);
            const { heap } = session;
            const take = heap.take.bind(heap);
            let count = 0;
            heap.take = (length) => {
                count += 1;
                if (count === refused + 1) {
                    throw new OutOfMemory(length, "the test refuses");
                }
                return take(length);
            };
            const todo = gives(link, 5000, long);
            heap.take = take;
            if (todo.kind === TodoKind.CLOSE) {
                assert.ok(closes(todo, Cause.NOT_APPLIED) instanceof OutOfMemory);
            }
            assert.equal(link.data(5000).serial, todo.kind === TodoKind.DATA ? 2 : 1);
            assert.equal(link.next(5000).kind, TodoKind.WAIT);
            isWhole = count <= refused;
            assert.ok(refused > 3 || !isWhole);
        }
    },

    /** Changes between data of different versions and sessions, and from or to none, are in the
     * higher version and the session of the new data. Version 0 has no router keys. */
    leadsToOthers(rtr) {
        const key = unit(1, 9, 0x100, ...Array(20).fill(3), 0, 0, 0, 5, 1, 2, 3); // of AS 5
        const old = rtr.data(bytesOf(prefix(1), prefix(2), key, end(4)));
        const lower = (bytes) => Uint8Array.of(0, ...bytes.subarray(1));
        const next = rtr.data(bytesOf(lower(prefix(2)), lower(prefix(3)),
            unit(0, 7, 9, 0, 0, 0, 8)));
        const changes = (...sides) => [...rtr.units(rtr.changesBetween(...sides))]
            .map(({ version, kind, announce, asn, session, serial }) => (kind === Kind.END_OF_DATA
                ? `${version} ${session} ${serial}` : `${announce ? "+" : "-"}${asn}`)).join(" ");
        assert.equal(changes(old, next), "+3 -1 -5 1 9 8");
        assert.equal(changes(next, old), "+1 +5 -3 1 7 4");
        assert.equal(changes(null, old), "+1 +2 +5 1 7 4");
        assert.equal(changes(old, null), "-1 -2 -5 1 7 4");
        assert.equal(changes(next, null), "-2 -3 0 9 8");
        assert.deepEqual([old.count, next.count, next.isEmpty], [3, 2, false]);
        assert.equal(rtr.data(bytesOf(end(1))).isEmpty, true);
        assert.equal(next.bytes.length, 52); // only their copy was changed
    },

    /** `drop` frees everything: many links, one after the other, reuse the same memory. */
    freesMemory(rtr) {
        const session = rtr.another();
        const long = bytesOf(response(), many(20000), end(1));
        loaded(session, long).drop();
        const before = session.memory;
        for (let turn = 0; turn < 20; turn += 1) {
            loaded(session, long).drop();
        }
        assert.equal(session.memory, before);
    },

    /** After `drop` it restarts without data, and its waits continue to grow. */
    beginsAgain(rtr) {
        const link = rtr.link({ ...SETTINGS, retry: 600_000, pause: 10 });
        let now = 0;
        const waits = [];
        for (let turn = 0; turn < 4; turn += 1) {
            now = Math.max(now, link.wakes);
            assert.equal(link.next(now).kind, TodoKind.CONNECT);
            link.lost();
            assert.equal(link.next(now).kind, TodoKind.CLOSE);
            waits.push(link.wakes - now);
            link.drop();
            link.again();
            assert.equal(link.data(now), null);
            assert.equal(link.output.length, 0);
        }
        assert.ok(waits[3] > waits[1], waits.join(" "));
        link.drop();
    },
};
