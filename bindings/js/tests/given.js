// Wrong arguments of each public call, and the errors that name them.

import assert from "node:assert/strict";
import { readFileSync } from "node:fs";
import vm from "node:vm";
import { Data, Dropped, Group, Held, Kind, Link, Router, Session, TodoKind, Validity, addressOf,
    addressText, load, prefixOf } from "../rtr_wire.js";

/** An end of data of version 1 (RFC 8210 section 5.8). */
const END = Uint8Array.from([1, 7, 0x12, 0x34, 0, 0, 0, 24, 0, 0, 0, 9,
    0, 0, 14, 16, 0, 0, 2, 88, 0, 0, 28, 32]);

/** 192.0.2.0/24 of AS 65551 (RFC 8210 section 5.6), and that end of data. */
const DATA = Uint8Array.from([1, 4, 0, 0, 0, 0, 0, 20, 1, 24, 24, 0, 192, 0, 2, 0, 0, 1, 0, 15,
    ...END]);

const ROUTE = { prefix: "192.0.2.0/24", asn: 65551 };

/** Units of all kinds that can be written. */
const UNITS = {
    notify: { kind: Kind.SERIAL_NOTIFY, version: 1, session: 7, serial: 8 },
    query: { kind: Kind.SERIAL_QUERY, version: 1, session: 7, serial: 8 },
    reset: { kind: Kind.RESET_QUERY, version: 1 },
    response: { kind: Kind.CACHE_RESPONSE, version: 1, session: 7 },
    prefix: { kind: Kind.IPV4_PREFIX, version: 1, announce: true,
        address: Uint8Array.of(192, 0, 2, 0), prefixLength: 24, maxLength: 24, asn: 65551 },
    prefix6: { kind: Kind.IPV6_PREFIX, version: 1, announce: true, address: new Uint8Array(16),
        prefixLength: 24, maxLength: 24, asn: 65551 },
    end: { kind: Kind.END_OF_DATA, version: 1, session: 7, serial: 8, refresh: 3600, retry: 600,
        expire: 7200 },
    cacheReset: { kind: Kind.CACHE_RESET, version: 1 },
    key: { kind: Kind.ROUTER_KEY, version: 1, announce: true, keyIdentifier: new Uint8Array(20),
        asn: 65551, keyInfo: Uint8Array.of(1, 2, 3) },
    report: { kind: Kind.ERROR_REPORT, version: 1, code: 2, about: new Uint8Array(0), text: "no" },
    aspa: { kind: Kind.ASPA, version: 2, announce: true, customer: 65000, providers: [1, 2] },
};

/** Values that aren't bytes. */
const NO_BYTES = { undefined: undefined, null: null, "a number": 24, "a string": "AQc=",
    Array: [...END], DataView: new DataView(END.buffer), Uint16Array: new Uint16Array(8),
    Object: { length: 8 } };

/** Values that aren't numbers, fractions and negative numbers. */
const NO_NUMBERS = [undefined, null, "24", 24n, [24], {}, true];
const NO_INTEGERS = [NaN, Infinity, -1, 0.5];
const [BYTE, SHORT, WORD] = [2 ** 8, 2 ** 16, 2 ** 32];
const BEYOND = Number.MAX_SAFE_INTEGER + 1;

/** Checks that values which aren't bytes are refused. */
function bytes(name, call) {
    for (const [kind, value] of Object.entries(NO_BYTES)) {
        if (kind !== "undefined" || call.length > 0) {
            assert.throws(() => call(value), {
                name: "TypeError",
                message: `${name} must be a Uint8Array or an ArrayBuffer, not ${kind}`,
            });
        }
    }
}

/** Checks that everything but integers from 0 to below `end` is refused. */
function number(name, end, call, others = NO_NUMBERS) {
    for (const value of others) {
        assert.throws(() => call(value), (error) => error instanceof TypeError
            && error.message.startsWith(`${name} must be a number, not `), `${name}: ${value}`);
    }
    for (const value of [...NO_INTEGERS, end, end + (end === BEYOND ? 2 : 1), 2 ** 64]) {
        assert.throws(() => call(value), {
            name: "RangeError",
            message: `${name} is ${value}: it must be an integer from 0 to ${end - 1}`,
        }, `${name}: ${value}`);
    }
}

/** An optional number, or null. */
const optional = (name, end, call) => number(name, end, call, ["24", 24n, [24], {}, true]);

/** A number of 64 bits, which may be a BigInt. */
function long(name, call) {
    number(name, BEYOND, call, [null, "24", [24], {}, true]);
    assert.throws(() => call(2n ** 64n), { name: "RangeError",
        message: `${name} is ${2n ** 64n}: it must be an integer from 0 to 2**64 - 1` });
    assert.throws(() => call(-1n), { name: "RangeError" });
}

function flag(name, call, others = [undefined, null]) {
    for (const value of [...others, 0, 1, "true", "no"]) {
        assert.throws(() => call(value), (error) => error instanceof TypeError
            && error.message.startsWith(`${name} must be a boolean, not `), `${name}: ${value}`);
    }
}

function wrong(kind, message, call) {
    assert.throws(call, { name: kind, message });
}

/** Checks a call that takes a route with wrong ones. */
function route(call) {
    number("asn", WORD, (asn) => call({ ...ROUTE, asn }));
    bytes("address", (address) => call({ address, prefixLength: 24, asn: 1 }));
    number("prefixLength", BYTE, (prefixLength) => call({
        address: Uint8Array.of(192, 0, 2, 0), prefixLength, asn: 1 }));
    wrong("TypeError", "prefix must be a string, not a number", () => call({ prefix: 4, asn: 1 }));
    wrong("TypeError", "route must be an object, not a string", () => call("192.0.2.0/24"));
    wrong("TypeError", "route must be an object, not undefined", () => call());
}

/** Checks a call that takes a unit with wrong ones. */
function unit(call) {
    const of = (kind, field) => (value) => call({ ...UNITS[kind], [field]: value });
    wrong("TypeError", "unit must be an object, not a string", () => call("unit"));
    for (const [kind, unit] of Object.entries(UNITS)) {
        number("kind", BYTE, of(kind, "kind"));
        number("version", BYTE, of(kind, "version"));
        for (const field of Object.keys(unit)) {
            assert.throws(() => call({ ...unit, [field]: undefined }), TypeError, field);
        }
    }
    for (const [kind, field, end] of [["notify", "session", SHORT], ["notify", "serial", WORD],
        ["query", "session", SHORT], ["query", "serial", WORD], ["response", "session", SHORT],
        ["prefix", "asn", WORD], ["prefix", "prefixLength", BYTE], ["prefix", "maxLength", BYTE],
        ["prefix6", "asn", WORD], ["prefix6", "prefixLength", BYTE],
        ["prefix6", "maxLength", BYTE], ["end", "session", SHORT], ["end", "serial", WORD],
        ["end", "refresh", WORD], ["end", "retry", WORD], ["end", "expire", WORD],
        ["key", "asn", WORD], ["report", "code", SHORT], ["aspa", "customer", WORD]]) {
        number(field, end, of(kind, field));
    }
    for (const kind of ["prefix", "prefix6", "key", "aspa"]) {
        flag("announce", of(kind, "announce"));
    }
    number("providers[1]", WORD, (provider) => call({ ...UNITS.aspa, providers: [1, provider] }));
    for (const providers of [null, 1, "1", Uint32Array.of(1)]) {
        wrong("TypeError", "providers must be an array of numbers",
            () => call({ ...UNITS.aspa, providers }));
    }
    bytes("address", of("prefix", "address"));
    bytes("address", of("prefix6", "address"));
    bytes("keyIdentifier", of("key", "keyIdentifier"));
    bytes("keyInfo", of("key", "keyInfo"));
    for (const [kind, field, length, expected] of [["prefix", "address", 16, 4],
        ["prefix6", "address", 4, 16], ["key", "keyIdentifier", 19, 20]]) {
        wrong("RangeError", `${field} has ${length} bytes: it must have ${expected} bytes`,
            () => of(kind, field)(new Uint8Array(length)));
    }
    wrong("TypeError", "about must be a Uint8Array or an ArrayBuffer, not a string",
        () => of("report", "about")("unit"));
    wrong("TypeError", "text must be a string, not a number", () => of("report", "text")(4));
    wrong("TypeError", "textBytes must be a Uint8Array or an ArrayBuffer, not a string",
        () => of("report", "textBytes")("no"));
}

const now = (call) => number("now", BEYOND, call);

/** Calls a function with a link, and frees its memory. */
function linked(rtr, call) {
    const link = rtr.link();
    call(link);
    link.drop();
}

/** An action of a router: a query. */
function asks(rtr) {
    const router = rtr.router();
    router.tick(0);
    return [router, router.connected(0)];
}

/** The wrong arguments of each public call. */
const CALLS = {
    load: async () => {
        for (const [options, kind] of [["1", TypeError], [null, TypeError], [{ most: "1" },
            TypeError], [{ most: NaN }, RangeError], [{ most: -1 }, RangeError]]) {
            await assert.rejects(load(null, options), kind);
        }
        for (const source of ["rtr_wire.wasm", 5, {}]) {
            await assert.rejects(load(source), TypeError);
        }
    },
    addressOf: () => wrong("TypeError", "text must be a string, not a number", () => addressOf(4)),
    prefixOf: () => wrong("TypeError", "text must be a string, not null", () => prefixOf(null)),
    addressText: () => {
        bytes("address", (value) => addressText(value));
        wrong("RangeError", "address has 5 bytes: it must have 4 or 16 bytes",
            () => addressText(new Uint8Array(5)));
    },
    "Session.next": (rtr) => {
        bytes("bytes", (value) => rtr.next(value));
        number("offset", 25, (offset) => rtr.next(END, offset), [null, "0", 0n]);
    },
    "Session.units": (rtr) => {
        bytes("bytes", (value) => rtr.units(value));
        number("offset", 25, (offset) => rtr.units(END, offset), [null, "0", 0n]);
    },
    "Session.hold": (rtr) => bytes("bytes", (value) => rtr.hold(value)),
    "Session.check": (rtr) => bytes("bytes", (value) => rtr.check(value)),
    "Session.unitSize": (rtr) => bytes("bytes", (value) => rtr.unitSize(value)),
    "Session.writeUnit": (rtr) => unit((value) => rtr.writeUnit(value)),
    "Session.errorCode": (rtr) => {
        bytes("bytes", (value) => rtr.errorCode(2, value));
        number("status", BYTE, (status) => rtr.errorCode(status, END));
    },
    "Session.normalise": (rtr) => {
        bytes("bytes", (value) => rtr.normalise(value));
        optional("version", BYTE, (version) => rtr.normalise(DATA, { version }));
        long("limit", (limit) => rtr.normalise(DATA, { limit }));
        wrong("TypeError", "options must be an object, not a number", () => rtr.normalise(DATA, 4));
    },
    "Session.sameMeaning": (rtr) => {
        bytes("left", (value) => rtr.sameMeaning(value, DATA));
        bytes("right", (value) => rtr.sameMeaning(DATA, value));
        long("limit", (limit) => rtr.sameMeaning(DATA, DATA, limit));
    },
    "Session.delta": (rtr) => {
        bytes("old", (value) => rtr.delta(value, DATA));
        bytes("next", (value) => rtr.delta(DATA, value));
    },
    "Session.changesBetween": (rtr) => {
        wrong("TypeError", "old must be a Uint8Array or an ArrayBuffer, not a number",
            () => rtr.changesBetween(4, DATA));
        wrong("TypeError", "next must be a Uint8Array or an ArrayBuffer, not undefined",
            () => rtr.changesBetween(DATA, undefined));
    },
    "Session.apply": (rtr) => {
        bytes("data", (value) => rtr.apply(value, DATA));
        bytes("changes", (value) => rtr.apply(DATA, value));
    },
    "Session.applyInOrder": (rtr) => {
        bytes("data", (value) => rtr.applyInOrder(value, END));
        bytes("changes", (value) => rtr.applyInOrder(DATA, value));
        optional("places", BEYOND, (places) => rtr.applyInOrder(DATA, END, places));
    },
    "Session.order": (rtr) => {
        bytes("changes", (value) => rtr.order(value));
        optional("places", BEYOND, (places) => rtr.order(DATA, places));
    },
    "Session.data": (rtr) => bytes("bytes", (value) => rtr.data(value)),
    "Session.loadData": (rtr) => bytes("recording", (value) => rtr.loadData(value)),
    "Session.validate": (rtr, data) => {
        wrong("TypeError", "data must be a Data, which session.data makes",
            () => rtr.validate(DATA, ROUTE));
        route((value) => rtr.validate(data, value));
    },
    "Session.validateAll": (rtr, data) => {
        wrong("TypeError", "data must be a Data, which session.data makes",
            () => rtr.validateAll(DATA, [ROUTE]));
        route((value) => rtr.validateAll(data, [ROUTE, value]));
    },
    "Session.covering": (rtr, data) => {
        wrong("TypeError", "data must be a Data, which session.data makes",
            () => rtr.covering(DATA, ROUTE));
        route((value) => rtr.covering(data, value));
    },
    "Session.unitLine": (rtr) => {
        bytes("bytes", (value) => rtr.unitLine(value));
        long("offset", (offset) => rtr.unitLine(END, offset));
    },
    "Session.unitJson": (rtr) => {
        bytes("bytes", (value) => rtr.unitJson(value));
        long("offset", (offset) => rtr.unitJson(END, offset));
    },
    "Session.changeLine": (rtr) => unit((value) => rtr.changeLine(value)),
    "Session.changeJson": (rtr) => unit((value) => rtr.changeJson(value)),
    "Session.statusText": (rtr) => {
        number("status", BYTE, (status) => rtr.statusText(status));
        number("detail", BYTE, (detail) => rtr.statusText(2, detail), [null, "0"]);
    },
    "Session.statusTextAt": (rtr) => {
        number("status", BYTE, (status) => rtr.statusTextAt(status, 0, 0));
        number("detail", BYTE, (detail) => rtr.statusTextAt(2, detail, 0));
        long("offset", (offset) => rtr.statusTextAt(2, 5, offset));
    },
    "Session.reportText": (rtr) => {
        number("code", SHORT, (code) => rtr.reportText(code, END));
        bytes("text", (value) => rtr.reportText(1, value));
    },
    "Session.name": (rtr) => {
        number("named", BYTE, (named) => rtr.name(named, 4));
        number("number", SHORT, (value) => rtr.name(0, value));
    },
    "Session.router": (rtr) => {
        wrong("TypeError", "settings has no field version", () => rtr.router({ version: 1 }));
        wrong("TypeError", "settings must be an object, not a number", () => rtr.router(1));
        for (const [field, end] of [["highest", BYTE], ["chance", SHORT], ["pause", WORD],
            ["connectLimit", WORD], ["responseLimit", WORD], ["refresh", WORD], ["retry", WORD],
            ["expire", WORD], ["mostUnits", WORD], ["mostBytes", BEYOND]]) {
            number(`settings.${field}`, end, (value) => rtr.router({ [field]: value }));
        }
    },
    "Session.link": (rtr) => {
        wrong("TypeError", "settings has no field version", () => rtr.link({ version: 1 }));
        number("settings.pause", WORD, (pause) => rtr.link({ pause }));
    },
    "Session.group": (rtr) => {
        number("members", 17, (members) => rtr.group(members, 0));
        now((now) => rtr.group(1, now));
        number("settings.patience", WORD, (patience) => rtr.group(1, 0, { patience }));
        flag("settings.emptyIsData", (emptyIsData) => rtr.group(1, 0, { emptyIsData }));
    },
    "Session.usualSettings": (rtr) => (
        number("highest", BYTE, (highest) => rtr.usualSettings(highest))),
    "Session.retryAfter": (rtr) => (
        number("previous", WORD, (previous) => rtr.retryAfter(previous))),
    "Session.serialOrder": (rtr) => {
        number("left", WORD, (left) => rtr.serialOrder(left, 1));
        number("right", WORD, (right) => rtr.serialOrder(1, right));
    },
    "Session.versionHas": (rtr) => {
        number("version", BYTE, (version) => rtr.versionHas(version, 4));
        number("kind", BYTE, (kind) => rtr.versionHas(1, kind));
    },
    "Data.deltaTo": (rtr, data) => bytes("next", (value) => data.deltaTo(value)),
    "Data.apply": (rtr, data) => bytes("changes", (value) => data.apply(value)),
    "Data.applyInOrder": (rtr, data) => bytes("changes", (value) => data.applyInOrder(value)),
    "Data.validate": (rtr, data) => route((value) => data.validate(value)),
    "Data.validateAll": (rtr, data) => {
        wrong("TypeError", "routes must be an array, not undefined", () => data.validateAll());
        wrong("TypeError", "routes must be an array, not Object", () => data.validateAll(ROUTE));
        route((value) => data.validateAll([ROUTE, value]));
    },
    "Data.covering": (rtr, data) => route((value) => data.covering(value)),
    "Router.hasData": (rtr) => now((now) => rtr.router().hasData(now)),
    "Router.tick": (rtr) => now((now) => rtr.router().tick(now)),
    "Router.asked": (rtr) => now((now) => rtr.router().asked(now)),
    "Router.connected": (rtr) => now((now) => rtr.router().connected(now)),
    "Router.lost": (rtr) => now((now) => rtr.router().lost(now)),
    "Router.applied": (rtr) => now((now) => rtr.router().applied(now)),
    "Router.notApplied": (rtr) => {
        now((now) => rtr.router().notApplied(now, 14));
        number("status", BYTE, (status) => rtr.router().notApplied(0, status));
        number("detail", BYTE, (detail) => rtr.router().notApplied(0, 14, detail), [null, "0"]);
    },
    "Router.read": (rtr) => {
        now((now) => rtr.router().read(now, END));
        bytes("bytes", (value) => rtr.router().read(0, value));
        flag("ended", (ended) => rtr.router().read(0, END, ended), [null]);
    },
    "Router.query": (rtr) => {
        const [router, action] = asks(rtr);
        wrong("TypeError", "action must be an object, not undefined", () => router.query());
        wrong("TypeError", "action has no field cost", () => router.query({ ...action, cost: 1 }));
        number("action.version", BYTE, (version) => router.query({ ...action, version }));
        number("action.serial", WORD, (serial) => router.query({ ...action, serial }));
        flag("action.changes", (changes) => router.query({ ...action, changes }));
    },
    "Router.report": (rtr) => {
        const [router, action] = asks(rtr);
        bytes("bytes", (value) => router.report(action, value));
        number("action.code", SHORT, (code) => router.report({ ...action, code }, END));
        flag("action.reports", (reports) => router.report({ ...action, reports }, END));
    },
    "Link.next": (rtr) => linked(rtr, (link) => now((now) => link.next(now))),
    "Link.askNow": (rtr) => linked(rtr, (link) => now((now) => link.askNow(now))),
    "Link.data": (rtr) => linked(rtr, (link) => now((now) => link.data(now))),
    "Link.received": (rtr) => linked(rtr, (link) => (
        bytes("bytes", (value) => link.received(value)))),
    "Link.sent": (rtr) => linked(rtr, (link) => (
        number("count", BEYOND, (count) => link.sent(count)))),
    "Link.lost": (rtr) => linked(rtr, (link) => assert.throws(() => link.lost(), /OUT_OF_TURN/)),
    "Group.counts": (rtr) => (
        number("payloads", BEYOND, (payloads) => rtr.group(1, 0).counts(payloads))),
    "Group.tick": (rtr) => now((now) => rtr.group(1, 0).tick(now)),
    "Group.shows": (rtr) => {
        now((now) => rtr.group(1, 0).shows(now, 0, 1));
        number("member", BEYOND, (member) => rtr.group(1, 0).shows(0, member, 1));
        number("payloads", BEYOND, (payloads) => rtr.group(1, 0).shows(0, 0, payloads));
    },
    "Group.tells": (rtr) => {
        const [group, todo] = [rtr.group(1, 0), { kind: TodoKind.DATA }];
        now((now) => rtr.group(1, 0).tells(now, 0, todo, 1));
        number("member", BEYOND, (member) => rtr.group(1, 0).tells(0, member, todo, 1));
        number("payloads", BEYOND, (payloads) => rtr.group(1, 0).tells(0, 0, todo, payloads));
        wrong("TypeError", "todo must be an object, not undefined", () => group.tells(0, 0));
        wrong("TypeError", "todo has no field cost", () => group.tells(0, 0, { cost: 1 }, 0));
        wrong("RangeError", "rtr_group_tell: NO_TODO", () => group.tells(0, 0, {}, 0));
        wrong("RangeError", "rtr_group_tell: NO_MEMBER", () => group.tells(0, 1, todo, 0));
        number("todo.kind", BYTE, (kind) => group.tells(0, 0, { ...todo, kind }, 0));
    },
    "Group.drops": (rtr) => {
        now((now) => rtr.group(1, 0).drops(now, 0));
        number("member", BEYOND, (member) => rtr.group(1, 0).drops(0, member));
    },
    "Group.fails": (rtr) => {
        now((now) => rtr.group(1, 0).fails(now, 0));
        number("member", BEYOND, (member) => rtr.group(1, 0).fails(0, member));
    },
    "Held.bytes": (rtr) => {
        const held = rtr.hold(END);
        number("offset", 25, (offset) => held.bytes(offset, 1));
        number("length", BEYOND, (length) => held.bytes(0, length));
    },
    "Held.status": (rtr) => number("offset", 25, (offset) => rtr.hold(END).status(offset)),
    "Held.shown": (rtr) => number("offset", 25, (offset) => rtr.hold(END).shown(offset)),
    "Held.unit": (rtr) => number("offset", 25, (offset) => rtr.hold(END).unit(offset)),
    "Held.checker": (rtr) => (
        number("offset", 25, (offset) => rtr.hold(END).checker().take(offset))),
};

/** The calls of rtr_wire.d.ts that take an argument, by their class. */
function declared() {
    const text = readFileSync(new URL("../rtr_wire.d.ts", import.meta.url), "utf8");
    const names = [];
    let inside = "";
    for (const line of text.split("\n")) {
        inside = /^export class (\w+)/.exec(line)?.[1] ?? (line === "}" ? "" : inside);
        const [, method, first] = /^ {4}(\w+)\(([^)]?)/.exec(line) ?? [];
        const [, call, argument] = /^export function (\w+)\(([^)]?)/.exec(line) ?? [];
        if (inside && method && first && method !== "constructor") {
            names.push(`${inside}.${method}`);
        } else if (call && argument) {
            names.push(call);
        }
    }
    return names;
}

/** Calls without arguments that could be wrong, or that `Held.checker` tests. */
const PLAIN = new Set(["Held.take"]);

export const TESTS = {
    /** Each public call refuses wrong arguments with a TypeError or a RangeError. */
    async refusesArguments(rtr) {
        const data = rtr.data(DATA);
        for (const [name, refuses] of Object.entries(CALLS)) {
            try {
                await refuses(rtr, data);
            } catch (error) {
                error.message = `${name}: ${error.message}`;
                throw error;
            }
        }
    },

    /** All declared calls are in CALLS. */
    refusesAll() {
        const names = declared().filter((name) => !PLAIN.has(name));
        assert.ok(names.length > 40);
        assert.deepEqual(names.filter((name) => !(name in CALLS)), []);
        const classes = { Session, Data, Router, Link, Group, Held };
        for (const name of Object.keys(CALLS).filter((name) => name.includes("."))) {
            const [owner, method] = name.split(".");
            assert.equal(typeof classes[owner].prototype[method], "function", name);
        }
    },

    /** An AS number above 32 bits isn't truncated to 32 bits. */
    keepsNumbers(rtr) {
        const data = rtr.data(DATA);
        assert.equal(data.validate(ROUTE), Validity.VALID);
        for (const asn of [2 ** 32 + 65551, NaN, "AS65551", "65551"]) {
            assert.throws(() => data.validate({ ...ROUTE, asn }), /^(TypeError|RangeError): asn /);
        }
    },

    /** Bytes may be in an ArrayBuffer, in a Buffer, and of another realm. */
    takesBuffers(rtr) {
        const buffer = DATA.buffer.slice(0);
        const foreign = vm.runInNewContext(`Uint8Array.from([${[...DATA]}])`);
        for (const bytes of [DATA, buffer, Buffer.from(DATA), foreign, foreign.buffer]) {
            assert.equal([...rtr.units(bytes)].length, 2);
            assert.deepEqual(rtr.data(bytes).bytes, DATA);
            assert.deepEqual(rtr.loadData(bytes).data.bytes, DATA);
            assert.equal(rtr.hold(bytes).length, DATA.length);
            assert.deepEqual(rtr.normalise(bytes), rtr.normalise(DATA));
            assert.deepEqual(rtr.router().read(0, bytes), rtr.router().read(0, DATA));
        }
        const inside = new Uint8Array([9, 9, ...DATA, 9]).subarray(2, 2 + DATA.length);
        assert.equal([...rtr.units(inside)].length, 2);
    },

    /** Each valid unit is encoded, and decoded to the same; version 0 needs no times, since it has
     * none (RFC 6810 section 5.8). */
    writesUnits(rtr) {
        for (const unit of Object.values(UNITS)) {
            const written = rtr.next(rtr.writeUnit(unit));
            assert.deepEqual({ ...written, ...unit }, written);
        }
        const end = { kind: Kind.END_OF_DATA, version: 0, session: 7, serial: 8 };
        assert.equal(rtr.writeUnit(end).length, 12);
    },

    /** A router asks in the version of the settings, by default in the highest. */
    asksInVersion(rtr) {
        const asked = (settings) => {
            const router = rtr.router(settings);
            router.tick(0);
            return router.query(router.connected(0))[0];
        };
        assert.deepEqual([undefined, {}, { highest: 2 }, { highest: 1 }, { highest: 0 }].map(asked),
            [2, 2, 2, 1, 0]);
    },

    /** Freed memory of bytes, data and checks is reused, so the memory doesn't grow. */
    takesAgain(rtr) {
        const session = rtr.another();
        const large = new Uint8Array(1 << 20);
        const turn = () => {
            session.hold(large).drop();
            [...session.check(DATA)];
            const { data } = session.loadData(DATA);
            data.validate(ROUTE);
            data.drop();
        };
        turn();
        const before = session.memory;
        for (let count = 0; count < 200; count += 1) {
            turn();
        }
        assert.equal(session.memory, before);
        session.drop();
    },

    /** Dropping data twice frees no other memory; later lookups work. */
    dropsDataOnce(rtr) {
        const data = rtr.data(DATA);
        data.validate(ROUTE);
        data.drop();
        const others = [rtr.hold(DATA), rtr.hold(new Uint8Array(4096).fill(7))];
        data.drop();
        rtr.hold(new Uint8Array(44)).drop();
        rtr.hold(new Uint8Array(4096)).drop();
        assert.deepEqual(others.map((held) => held.bytes(0, 44)),
            [DATA, new Uint8Array(44).fill(7)]);
        assert.equal(data.validate(ROUTE), Validity.VALID);
        others.forEach((held) => held.drop());
        data.drop();
    },

    /** Dropped bytes are freed only once, and can't be read. */
    dropsOnce(rtr) {
        const held = rtr.hold(END);
        held.drop();
        const [other, third] = [rtr.hold(DATA), rtr.hold(END)];
        held.drop();
        assert.deepEqual(rtr.hold(new Uint8Array(44)).bytes(0, 44), new Uint8Array(44));
        assert.deepEqual([other.bytes(0, 44), third.bytes(0, 24)], [DATA, END]);
        const checker = third.checker();
        checker.drop();
        const fourth = rtr.hold(END);
        checker.drop();
        rtr.hold(new Uint8Array(24));
        assert.deepEqual(fourth.bytes(0, 24), END);
        for (const call of [() => held.bytes(0, 1), () => held.status(0), () => held.unit(0),
            () => held.shown(0), () => [...held.findings()]]) {
            assert.throws(call, (error) => error instanceof Dropped
                && error.message === "the bytes were dropped");
        }
    },
};
