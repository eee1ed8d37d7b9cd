// Tests that other languages don't share: memory, sessions, texts of addresses.

import assert from "node:assert/strict";
import { setTimeout as sleep } from "node:timers/promises";
import { Bell } from "../bell.js";
import { Heap } from "../memory.js";
import { FAILURE_NO_MEMORY, STRUCTS, VERSION_NUMBER } from "../rtr_table.js";
import { Data, Dropped, Fault, Kind, OtherVersion, OutOfMemory, Status, Unsupported, Validity,
    addressOf, addressText, has64BitMemory, load, prefixOf, statusText } from "../rtr_wire.js";

/** An end of data of version 1 (RFC 8210 section 5.8). */
const END = Uint8Array.from([1, 7, 0x12, 0x34, 0, 0, 0, 24, 0, 0, 0, 9,
    0, 0, 14, 16, 0, 0, 2, 88, 0, 0, 28, 32]);

/** IPv4 prefixes in order, and an end of data (RFC 8210 section 5.6). */
function many(count) {
    const bytes = new Uint8Array(20 * count + END.length);
    const unit = Uint8Array.from([1, 4, 0, 0, 0, 0, 0, 20, 1, 32, 32, 0, 0, 0, 0, 0, 0, 0, 0, 1]);
    const view = new DataView(bytes.buffer);
    for (let index = 0; index < count; index += 1) {
        bytes.set(unit, 20 * index);
        view.setUint32(20 * index + 12, index);
    }
    bytes.set(END, 20 * count);
    return bytes;
}

/** Returns a module with only a memory of one page, of 32 bits (flags 0) or 64 bits (4). */
const withMemory = (flags) => Uint8Array.of(
    0, 97, 115, 109, 1, 0, 0, 0, 5, 3, 1, flags, 1, 7, 5, 1, 1, 109, 2, 0);

/** The sizes of C's types: also with 32-bit memory, pointers and sizes have 64 bits in structs. */
const WIDTHS = { bool: 1, uint8: 1, uint16: 2, uint32: 4, uint64: 8, size: 8 };

/** Rounds a number up to a multiple. */
const upTo = (multiple, number) => Math.ceil(number / multiple) * multiple;

/** The memory of a module grows as parts are allocated, and freed parts are reused. */
function growsThis(newMemory) {
    const heap = new Heap(newMemory(), 1000, 1 << 22);
    assert.equal(heap.size, 65536);
    const first = heap.take(10);
    assert.equal(first, 1008);
    const second = heap.take(100000);
    heap.bytes(second, 100000).fill(7);
    assert.ok(heap.size >= 131072 && heap.view.getUint8(second + 99999) === 7);
    heap.release(first);
    assert.equal(heap.take(16), first);
    assert.ok(heap.take(17) >= second + 100000);
    heap.release(second);
    assert.equal(heap.take(99999), second);
    assert.throws(() => heap.take(1 << 22), OutOfMemory);
    assert.ok(heap.size <= 1 << 22);
    assert.throws(() => new Heap(newMemory(), 0, Infinity).take(2 ** 46), OutOfMemory);
}

export const TESTS = {
    /** Structs have the layout of C: each field at the next offset that is aligned for its type,
     * and their size a multiple of the widest alignment. */
    laysOutStructs() {
        const widest = (kind) => WIDTHS[kind]
            ?? Math.max(...STRUCTS[kind].fields.map(([, , inner]) => widest(inner)));
        for (const [name, { size, fields }] of Object.entries(STRUCTS)) {
            let offset = 0;
            for (const [field, start, kind, many = 1] of fields) {
                offset = upTo(widest(kind), offset);
                assert.equal(start, offset, `${name}.${field}`);
                offset += many * (WIDTHS[kind] ?? STRUCTS[kind].size);
            }
            assert.equal(size, upTo(widest(name), offset), name);
        }
        assert.equal(STRUCTS.unit.size, 120);
    },

    /** A memory that grows as parts are allocated, and whose freed parts are reused. */
    growsMemory() {
        for (const flags of has64BitMemory() ? [0, 4] : [0]) {
            growsThis(() => new WebAssembly.Instance(
                new WebAssembly.Module(withMemory(flags))).exports.m);
        }
    },

    /** By default the module beside the library is loaded, with a 32-bit memory. */
    async loadsItself() {
        const own = await load();
        assert.equal(own.next(END).kind, Kind.END_OF_DATA);
        const limited = await load(null, { most: own.memory + 65536 });
        assert.throws(() => limited.hold(many(10000)), OutOfMemory);
    },

    /** Bytes that aren't a module, and another module, are refused. */
    async refusesOthers() {
        await assert.rejects(load(Uint8Array.of(0, 97, 115, 109, 9)), WebAssembly.CompileError);
        await assert.rejects(load(withMemory(0)), OtherVersion);
        await assert.rejects(load(withMemory(4)), has64BitMemory() ? OtherVersion : Unsupported);
    },

    /** A module of another version is refused: this one, with a lower version number. */
    async refusesOtherVersions(rtr, bytes) {
        const other = bytes.slice();
        // i32.const VERSION_NUMBER, end
        const low = (VERSION_NUMBER & 127) | 128;
        const is = (at) => other[at] === 0x41 && other[at + 1] === low
            && other[at + 2] === VERSION_NUMBER >> 7 && other[at + 3] === 0x0b;
        const found = Array.from(other.keys()).filter(is);
        assert.ok(found.length > 0);
        found.forEach((at) => { other[at + 1] -= 1; });
        await assert.rejects(load(other), (error) => error instanceof OtherVersion
            && error.message.includes(`version number ${VERSION_NUMBER - 1}, and`));
    },

    /** Inputs of many pieces, with a unit across each boundary. */
    walksPieces(rtr) {
        const bytes = many(100000);
        let count = 0;
        for (const unit of rtr.units(bytes)) {
            assert.equal(unit.offset, 20 * count);
            count += 1;
        }
        assert.equal(count, 100001);
        assert.throws(() => [...rtr.units(bytes.subarray(0, bytes.length - 1))],
            (error) => error instanceof Fault && error.status === Status.SHORT
                && error.offset === 2000000 && error.wanted === 24 && error.code === 0);
    },

    /** Unfinished generators hold no memory. */
    leavesNothing(rtr) {
        const bytes = many(30000);
        rtr.delta(bytes, bytes);
        const before = rtr.memory;
        for (let turn = 0; turn < 10; turn += 1) {
            const generator = rtr.units(bytes);
            const other = rtr.units(bytes, 20);
            assert.equal(generator.next().value.offset, 0);
            assert.equal(other.next().value.offset, 20);
            assert.equal(generator.next().value.offset, 20);
        }
        assert.equal(rtr.memory, before);
    },

    /** Units are independent objects, which the next call doesn't change. */
    keepsUnits(rtr) {
        const [first, second] = [...rtr.units(many(2))];
        assert.deepEqual([...first.address, ...second.address], [0, 0, 0, 0, 0, 0, 0, 1]);
        assert.deepEqual(Object.keys(first), ["offset", "size", "version", "kind", "announce",
            "address", "prefixLength", "maxLength", "asn"]);
    },

    /** If the memory can't grow, an error is thrown, and the session still works. */
    async saysNoMemory(rtr, bytes) {
        const small = await load(bytes, { most: rtr.another().memory + 65536 });
        const large = many(10000);
        assert.throws(() => small.hold(large), (error) => error instanceof OutOfMemory
            && error.name === "OutOfMemory" && error.wanted > small.memory
            && error.message === FAILURE_NO_MEMORY && error.cause.includes(`${error.wanted}`));
        assert.throws(() => small.delta(large, large), OutOfMemory);
        assert.equal([...small.units(END)].length, 1);
    },

    /** A dropped session has no memory, and throws; another one still works. */
    drops(rtr) {
        const session = rtr.another();
        const data = session.data(many(10));
        assert.equal(data.validate({ prefix: "0.0.0.3/32", asn: 1 }), Validity.VALID);
        session.drop();
        assert.throws(() => session.next(END), Dropped);
        assert.throws(() => data.validate({ prefix: "0.0.0.3/32", asn: 1 }), Dropped);
        assert.throws(() => data.validateAll([{ prefix: "0.0.0.3/32", asn: 1 }]), Dropped);
        data.drop();
        assert.equal(rtr.next(END).kind, Kind.END_OF_DATA);
    },

    /** Data, and the results of their calls. */
    hasData(rtr) {
        const old = rtr.data(many(3));
        const next = rtr.data(many(5));
        assert.equal(old.serial, 9);
        assert.equal([...old.units()].length, 3);
        const delta = old.deltaTo(next);
        assert.equal([...rtr.units(delta)].length, 3);
        assert.deepEqual(old.apply(delta).bytes, next.bytes);
        assert.deepEqual(old.applyInOrder(delta).bytes, next.bytes);
        assert.ok(old.applyInOrder(delta) instanceof Data);
        assert.throws(() => old.applyInOrder(many(4)),
            (error) => error.status === Status.DUPLICATE && error.code === 7 && error.offset === 0);
        assert.throws(() => rtr.data(many(3).subarray(20)).apply(END.subarray(1)), Fault);
        assert.equal(next.validate({ prefix: "0.0.0.4/33", asn: 1 }), Validity.NO_ROUTE);
        assert.equal(next.validate({ prefix: "no prefix", asn: 1 }), Validity.NO_ROUTE);
        assert.deepEqual(next.validateAll([{ prefix: "no prefix", asn: 1 },
            { prefix: "0.0.0.3/32", asn: 1 }, { prefix: "0.0.0.3/32", asn: 2 }]),
        [Validity.NO_ROUTE, Validity.VALID, Validity.INVALID]);
        assert.deepEqual(next.validateAll([]), []);
    },

    /** JSON that doesn't fit the first buffer, and no line for a truncated unit. */
    writesLongLines(rtr) {
        const providers = Array.from({ length: 9000 }, (_, index) => index + 1);
        const long = { kind: Kind.ASPA, version: 2, announce: true, customer: 65000, providers };
        assert.deepEqual(JSON.parse(rtr.changeJson(long)).provider_asns, providers);
        assert.throws(() => rtr.unitLine(END.subarray(0, 19)),
            (error) => error.status === Status.SHORT && error.wanted === 24);
    },

    /** The length of a unit is known from its header. */
    sizes(rtr) {
        assert.equal(rtr.unitSize(END.subarray(0, 8)), 24);
        assert.throws(() => rtr.unitSize(END.subarray(0, 7)),
            (error) => error.status === Status.SHORT && error.wanted === 8);
        assert.equal(rtr.errorCode(Status.UNIT_TYPE, END), 5);
        assert.equal(rtr.errorCode(Status.OK, END), null);
        assert.equal(rtr.serialOrder(1, 2 ** 31 + 1), 3);
        const pauses = [0, 1000, 2000, 32_000, 60_000].map((last) => rtr.retryAfter(last));
        assert.deepEqual(pauses, [1000, 2000, 4000, 60_000, 60_000]);
        assert.equal(rtr.versionHas(1, Kind.ASPA), false);
        assert.equal(statusText(200), "unknown status");
    },

    /** Addresses in the form of RFC 5952. */
    writesAddresses() {
        for (const text of ["0.0.0.0", "192.0.2.255", "::", "::1", "2001:db8::",
            "2001:db8:0:1:1:1:1:1", "2001:db8::1:0:0:1", "1:0:2:3:4:5:6:7", "::ffff:192.0.2.1"]) {
            assert.equal(addressText(addressOf(text)), text);
        }
        for (const [text, shown] of [["2001:DB8:0:0:0:0:2:1", "2001:db8::2:1"],
            ["0:0:0:0:0:ffff:192.0.2.1", "::ffff:192.0.2.1"], ["1::2:0:0:0:3", "1:0:0:2::3"]]) {
            assert.equal(addressText(addressOf(text)), shown);
        }
        for (const text of ["", "1", "1.2.3", "1.2.3.256", "01.2.3.4", ":", ":::", "1::2::3",
            "1:2:3:4:5:6:7", "1:2:3:4:5:6:7:8:9", "1::2:3:4:5:6:7:8", "12345::", "g::",
            "1.2.3.4::", "1:2"]) {
            assert.equal(addressOf(text), null, text);
        }
        assert.deepEqual(prefixOf(" 192.0.2.0/24 "),
            { address: Uint8Array.of(192, 0, 2, 0), length: 24 });
        assert.equal(prefixOf("::1").length, 128);
        for (const text of ["192.0.2.0/", "192.0.2.0/x", "/24", "192.0.2.0/1000", ""]) {
            assert.equal(prefixOf(text), null, text);
        }
    },
    /** A wait ends by a ring before it, and the next one by a later ring. */
    async ringsBefore() {
        const bell = new Bell();
        bell.ring();
        const waits = [];
        for (let count = 0; count < 2; count += 1) {
            const wait = bell.wait(Infinity).then(() => "rung");
            const seen = await Promise.race([wait, sleep(0, "waits")]);
            waits.push(seen);
            if (seen === "waits") {
                bell.ring();
            }
            await wait;
        }
        assert.deepEqual(waits, ["rung", "waits"]);
    },
};
