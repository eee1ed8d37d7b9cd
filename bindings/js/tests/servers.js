// Tests of a Server over sockets, with scripted routers.

import assert from "node:assert/strict";
import { spawn } from "node:child_process";
import { once } from "node:events";
import fs, { existsSync, mkdirSync, mkdtempSync, readFileSync, renameSync, rmSync, writeFileSync }
    from "node:fs";
import { syncBuiltinESMExports } from "node:module";
import { connect, createServer } from "node:net";
import { tmpdir } from "node:os";
import { join } from "node:path";
import { Duplex } from "node:stream";
import { setTimeout as sleep } from "node:timers/promises";
import { fileURLToPath } from "node:url";
import v8 from "node:v8";
import { runInNewContext } from "node:vm";
import { Client } from "../client.js";
import { Fault, Kind, Status } from "../rtr_wire.js";
import { Behind, Closed, Reason, Server, ServerError, StoresStatus, UpdateError }
    from "../server.js";
import { compiledCache, lineOf } from "./c_cache.js";
import { Peer, RESET_QUERY, answer, cacheReset, end, notify, prefix, report, response,
    serialQuery, unit, unused } from "./caches.js";

export const HOST = "127.0.0.1";

/** Payloads whose answer is longer than what the system buffers of a connection. */
const MANY = 500_000;

/** Returns data of session 7 with the prefixes of these numbers. */
export const dataOf = (rtr, serial, ...numbers) => (
    rtr.loadData(answer(serial, ...numbers.map((n) => prefix(n)))).data);

/** Returns data with this many prefixes, from 10.0.0.0/30 on. */
export function manyOf(rtr, serial, count = MANY) {
    const bytes = Buffer.alloc(count * 20 + 24);
    for (let index = 0; index < count; index += 1) {
        const at = index * 20;
        bytes.set([1, 4, 0, 0, 0, 0, 0, 20, 1, 30, 30, 0], at);
        bytes.writeUInt32BE(0x0a000000 + index * 4, at + 12);
        bytes.writeUInt32BE(1, at + 16);
    }
    bytes.set(end(serial), count * 20);
    return rtr.data(bytes);
}

/** Returns a file of a version before 0.3.0: `rtrkept1`, the 64-bit FNV-1a hash of what follows,
 * and the data and the steps back, each behind its time and its length. */
function formerFile(...parts) {
    const history = Buffer.concat(parts.flatMap((bytes) => {
        const head = Buffer.alloc(16);
        head.writeBigUInt64BE(BigInt(Date.now()), 0);
        head.writeBigUInt64BE(BigInt(bytes.length), 8);
        return [head, bytes];
    }));
    const checksum = Buffer.alloc(8);
    checksum.writeBigUInt64BE(history.reduce((sum, byte) => (
        BigInt.asUintN(64, (sum ^ BigInt(byte)) * 0x100000001b3n)), 0xcbf29ce484222325n));
    return Buffer.concat([Buffer.from("rtrkept1"), checksum, history]);
}

/** Runs a test with a server that listens, and closes it after it. `ended` are its events. */
export async function withServer(rtr, settings, run, options = {}) {
    const server = new Server({ rtr: rtr.another(), settings });
    const ended = [];
    server.on("ended", (error) => ended.push(error));
    server.on("failed", (error) => ended.push(error));
    const { port } = await server.listen({ port: 0, host: HOST, ...options });
    try {
        await run(server, port, ended);
    } finally {
        await server.close();
    }
}

/** Connects a router; a script sends and reads. */
export async function router(port) {
    const socket = connect({ port, host: HOST, allowHalfOpen: true });
    socket.on("error", () => {});
    await once(socket, "connect");
    return new Peer(socket);
}

/** Runs a test with a temporary folder. */
export async function withFolder(run) {
    const folder = mkdtempSync(join(tmpdir(), "rtr-"));
    try {
        await run(folder);
    } finally {
        rmSync(folder, { recursive: true });
    }
}

/** Returns how many bytes of buffers the process holds, after it has collected garbage. V8 gives
 * the bytes of buffers back on another thread, which a further collection waits for. */
function heldBytes() {
    v8.setFlagsFromString("--expose-gc");
    const collect = runInNewContext("gc");
    collect();
    collect();
    return process.memoryUsage().arrayBuffers;
}

/** Waits until a condition holds. */
export async function until(condition) {
    while (!condition()) {
        await sleep(5);
    }
}

/** Returns the units of an answer, between its response and its end of data, in the order of their
 * bytes: a cache may send them in any (RFC 8210 section 5.6). */
async function unitsOf(peer, serial, session = 7) {
    assert.deepEqual(await peer.next(), response(session));
    const units = [];
    for (;;) {
        const next = await peer.next();
        if (next[1] === Kind.END_OF_DATA) {
            assert.deepEqual(next, end(serial, session));
            return units.sort(Buffer.compare);
        }
        units.push(next);
    }
}

/** The router asks for all data, and gets the prefixes of these numbers. */
async function getsAll(peer, serial, ...numbers) {
    peer.send(RESET_QUERY);
    assert.deepEqual(await unitsOf(peer, serial), numbers.map((n) => prefix(n)));
}

/** Expects a report with this code and unit, and then the end of the connection. */
async function getsReport(rtr, peer, code, about, version = 1) {
    const bytes = await peer.next();
    const { kind, ...got } = rtr.next(bytes);
    assert.deepEqual([kind, got.version, got.code, Buffer.from(got.about ?? [])],
        [Kind.ERROR_REPORT, version, code, Buffer.from(about)]);
    assert.equal(await peer.next(), null);
    assert.equal(peer.socket.errored, null);
    peer.close();
}

/** Reads the bytes of all of an answer, and returns their number. */
async function sizeOfAll(peer) {
    let size = 0;
    const { socket } = peer;
    const last = Buffer.alloc(24);
    for await (const bytes of socket.iterator({ destroyOnReturn: false })) {
        size += bytes.length;
        Buffer.concat([last, bytes]).copy(last, 0, bytes.length);
        if (size === MANY * 20 + 32) {
            break;
        }
    }
    return [size, last.readUInt32BE(8)];
}

/** A router leaves in one of four ways: by a close, a reset, in a query, or in an answer. */
async function leaves(peer, way) {
    if (way === 0) {
        peer.close();
    } else if (way === 1) {
        peer.reset();
    } else if (way === 2) {
        peer.send(Buffer.of(1, 2, 0));
    } else {
        peer.send(RESET_QUERY);
        await peer.next();
    }
    peer.socket.destroy();
}

export const TESTS = {
    /** Queries in one segment are answered in order: all data, changes, no changes, and a reset
     * where none are known (RFC 8210 section 8). */
    async answersPipelined(rtr) {
        await withServer(rtr, {}, async (server, port) => {
            await server.update(dataOf(rtr, 1, 1, 2));
            await server.update(dataOf(rtr, 2, 2, 3));
            const peer = await router(port);
            peer.send(RESET_QUERY, serialQuery(1), serialQuery(2), serialQuery(9),
                serialQuery(2, 8));
            assert.deepEqual(await unitsOf(peer, 2), [prefix(2), prefix(3)]);
            assert.deepEqual(await unitsOf(peer, 2), [prefix(1, false), prefix(3)]);
            assert.deepEqual(await unitsOf(peer, 2), []);
            assert.deepEqual(await peer.next(), cacheReset());
            assert.deepEqual(await peer.next(), cacheReset());
            peer.close();
            assert.equal(await peer.next(), null);
        });
    },

    /** Without data a query gets a report of code 2, and the connection stays (section 8.4); then
     * it gets a notify, at most once in a pause. */
    async notifies(rtr) {
        await withServer(rtr, { pause: 1 }, async (server, port) => {
            const peer = await router(port);
            peer.send(RESET_QUERY);
            const none = rtr.next(await peer.next());
            assert.deepEqual([none.kind, none.code], [Kind.ERROR_REPORT, 2]);
            await server.update(dataOf(rtr, 1, 1));
            assert.deepEqual(await peer.next(), notify(1));
            await getsAll(peer, 1, 1);
            await server.update(dataOf(rtr, 2, 2));
            assert.deepEqual(await peer.next(), notify(2));
            peer.close();
        });
    },

    /** A router above the limit gets a report of code 1, or above a second limit is closed; one
     * that leaves makes room. */
    async limitsConnections(rtr) {
        const settings = { mostConnections: 1, mostRefused: 1 };
        await withServer(rtr, settings, async (server, port, ended) => {
            await server.update(dataOf(rtr, 1, 1));
            const first = await router(port);
            await getsAll(first, 1, 1);
            const second = await router(port);
            const bytes = await second.next();
            assert.deepEqual([bytes[1], bytes.readUInt16BE(2)], [Kind.ERROR_REPORT, 1]);
            const third = await router(port);
            assert.equal(await third.next(), null);
            second.close();
            third.close();
            await until(() => ended.length === 1);
            assert.equal(ended[0].reason, Reason.FULL);
            assert.equal(ended[0].message, "too many connections");
            first.close();
            await first.gone();
            for (let served = false; !served;) {
                const next = await router(port);
                next.send(RESET_QUERY);
                served = (await next.next())?.[1] === Kind.CACHE_RESPONSE;
                next.socket.destroy();
            }
        });
    },

    /** What only a cache sends, and what no router may send, gets a report about it, and then the
     * end of the connection, not a reset. */
    async refusesUnits(rtr) {
        await withServer(rtr, {}, async (server, port, ended) => {
            await server.update(dataOf(rtr, 1, 1));
            const cases = [
                [response(), 3, (error) => error instanceof ServerError
                    && error.reason === Reason.NO_QUERY && error.message === "unit is not a query"],
                [unit(1, 2, 0, 1), 0, (error) => error instanceof Fault
                    && error.status === Status.UNIT_LENGTH && error.offset === 8],
            ];
            for (const [index, [about, code, isRight]] of cases.entries()) {
                const peer = await router(port);
                peer.send(RESET_QUERY, about, Buffer.alloc(5000));
                assert.deepEqual(await unitsOf(peer, 1), [prefix(1)]);
                // Of a unit with an invalid length a report has the header.
                await getsReport(rtr, peer, code, about.subarray(0, 8));
                await until(() => ended.length === index + 1);
                assert.ok(isRight(ended[index]), ended[index]);
                assert.equal(ended[index].code, code);
                assert.deepEqual(Buffer.from(ended[index].unit), about.subarray(0, 8));
            }
            const reporting = await router(port);
            reporting.send(report(3, "go away"));
            assert.equal(await reporting.next(), null);
            reporting.close();
            await until(() => ended.length === cases.length + 1);
            assert.equal(ended.at(-1).message,
                'the router reports an error: Invalid Request, "go away"');
            assert.equal(ended.at(-1).reported.code, 3);
        });
    },

    /** Routers that don't read don't delay others, share the bytes of the answer, and are cut off
     * when too many newer data came. */
    async cutsThoseBehind(rtr) {
        const settings = { mostBehind: 1, pause: 1, writeLimit: 600_000 };
        await withServer(rtr, settings, async (server, port, ended) => {
            await server.update(manyOf(rtr, 1));
            const fast = await router(port);
            fast.send(RESET_QUERY);
            assert.deepEqual(await sizeOfAll(fast), [MANY * 20 + 32, 1]);
            const before = heldBytes();
            const stalled = [];
            for (let count = 0; count < 5; count += 1) {
                const peer = await router(port);
                peer.socket.pause();
                peer.send(RESET_QUERY);
                stalled.push(peer);
            }
            const another = await router(port);
            another.send(RESET_QUERY);
            assert.deepEqual(await sizeOfAll(another), [MANY * 20 + 32, 1]);
            const more = heldBytes() - before;
            assert.ok(more < MANY * 20 / 2, `${more} bytes for ${stalled.length} routers`);
            await server.update(manyOf(rtr, 2));
            await server.update(manyOf(rtr, 3));
            await until(() => ended.length === stalled.length);
            assert.ok(ended.every((error) => error instanceof Behind
                && error.message === "the router is too far behind"));
            assert.deepEqual(await another.next(), notify(2));
            [fast, another, ...stalled].forEach(({ socket }) => socket.destroy());
        });
    },

    /** A router that takes nothing of an answer is cut off after a limit, and so is one that never
     * asks. */
    async limitsTime(rtr) {
        const settings = { firstLimit: 50, writeLimit: 50 };
        await withServer(rtr, settings, async (server, port, ended) => {
            await server.update(manyOf(rtr, 1));
            const silent = await router(port);
            assert.equal(await silent.next(), null);
            silent.close();
            const stalled = await router(port);
            stalled.socket.pause();
            stalled.send(RESET_QUERY);
            await until(() => ended.length === 2);
            for (const error of ended) {
                assert.deepEqual([error.reason, error.message],
                    [Reason.SLOW, "the router is too slow"]);
            }
            stalled.socket.destroy();
        });
    },

    /** Without a spare descriptor a router isn't served, but gets a report. */
    async keepsDescriptor(rtr, _, t) {
        await withServer(rtr, {}, async (server, port) => {
            await server.update(dataOf(rtr, 1, 1));
            const open = t.mock.method(fs, "openSync", () => {
                throw Object.assign(new Error("too many open files"), { code: "EMFILE" });
            });
            syncBuiltinESMExports();
            const refused = await router(port);
            await getsReport(rtr, refused, 1, [], 2);
            open.mock.restore();
            syncBuiltinESMExports();
            const served = await router(port);
            await getsAll(served, 1, 1);
            served.close();
        });
    },

    /** A listener of `ended` that throws doesn't keep `close` from returning. */
    async survivesListeners(rtr) {
        const thrown = [];
        process.setUncaughtExceptionCaptureCallback(({ message }) => thrown.push(message));
        try {
            const server = new Server({ rtr: rtr.another() });
            server.on("ended", () => {
                throw new Error("of a listener");
            });
            await server.update(dataOf(rtr, 1, 1));
            const { port } = await server.listen({ port: 0, host: HOST });
            const peers = [await router(port), await router(port)];
            for (const peer of peers) {
                await getsAll(peer, 1, 1);
            }
            await server.close();
            assert.deepEqual(thrown, ["of a listener", "of a listener"]);
            peers.forEach(({ socket }) => socket.destroy());
        } finally {
            process.setUncaughtExceptionCaptureCallback(null);
        }
    },

    /** Data of another session end the connections of routers that have data (section 5.1). Without
     * a file the server has one session, until the caller says that another one is new. */
    async changesSession(rtr) {
        await withServer(rtr, {}, async (server, port, ended) => {
            await server.update(dataOf(rtr, 1, 1));
            const [has, asks] = [await router(port), await router(port)];
            await getsAll(has, 1, 1);
            const other = rtr.loadData(Buffer.concat([prefix(1), end(1, 8)])).data;
            const oneSession = { name: "UpdateError", status: StoresStatus.OTHER_SESSION,
                message: "a cache that doesn't save has one session" };
            await assert.rejects(server.update(other), oneSession);
            assert.equal(server.data.serial, 1);
            await server.changeSession();
            await assert.rejects(server.update(dataOf(rtr, 1, 2)),
                { status: StoresStatus.OLD_SERIAL });
            await server.update(other);
            assert.equal(await has.next(), null);
            has.close();
            await until(() => ended.length === 1);
            assert.equal(ended[0].reason, Reason.NEW_SESSION);
            asks.send(serialQuery(1));
            assert.deepEqual(await asks.next(), cacheReset());
            asks.close();
            await assert.rejects(server.update(dataOf(rtr, 9, 1)), oneSession);
        });
    },

    /** Data that can't follow the present ones are refused, with the texts of rtr.h. */
    async refusesData(rtr) {
        await withServer(rtr, {}, async (server) => {
            const first = dataOf(rtr, 2, 1);
            await server.update(first);
            await server.update(first); // the same: nothing happens
            const timed = (serial, times) => rtr.loadData(
                Buffer.concat([prefix(1), end(serial, 7, times)])).data;
            for (const [data, text] of [
                [dataOf(rtr, 2, 2), "the serial number isn't later than that of the present data: "
                    + "new 2, present 2"],
                [dataOf(rtr, 1, 2), "the serial number isn't later than that of the present data: "
                    + "new 1, present 2"],
                [timed(2, [3600, 600, 7300]),
                    "only the times differ from those of the present data"],
                [timed(3, [0, 600, 7200]), "the refresh time has to be 1 to 86400 seconds"],
                [timed(3, [3600, 600, 599]), "the expire time has to be 600 to 172800 seconds"],
            ]) {
                await assert.rejects(server.update(data), { name: "UpdateError", message: text });
            }
            assert.deepEqual([server.data.serial, server.data.count], [2, 1]);
        });
    },

    /** `close` ends all connections, `shutdown` after the answers that have begun; then every call
     * is refused. */
    async closes(rtr) {
        for (const way of ["close", "shutdown"]) {
            await withServer(rtr, {}, async (server, port, ended) => {
                await server.update(manyOf(rtr, 1));
                const [idle, busy] = [await router(port), await router(port)];
                busy.socket.pause();
                busy.send(RESET_QUERY);
                await once(busy.socket, "readable");
                const closed = server[way]();
                assert.equal(await idle.next(), null);
                idle.close();
                const size = way === "close" ? null : await sizeOfAll(busy);
                await closed;
                assert.deepEqual(size, way === "close" ? null : [MANY * 20 + 32, 1]);
                busy.socket.destroy();
                assert.ok(ended.length === 2 && ended.every((error) => error instanceof Closed
                    && error.message === "the server is closed"));
                for (const call of [() => server.update(dataOf(rtr, 2, 1)),
                    () => server.listen({ port: 0 })]) {
                    await assert.rejects(call(), Closed);
                }
                await assert.rejects(new Promise((resolve, reject) => {
                    connect(port, HOST).on("connect", resolve).on("error", reject);
                }), { code: "ECONNREFUSED" });
            });
        }
    },

    /** A server serves streams. One that was destroyed before is none of its connections. */
    async servesStreams(rtr) {
        const server = new Server({ rtr: rtr.another() });
        await server.update(dataOf(rtr, 1, 1));
        const gone = [new Duplex(), new Duplex()];
        for (const stream of gone) {
            const closed = once(stream, "close");
            stream.destroy();
            await closed;
            await server.serve(stream);
        }
        const lost = new Duplex();
        const served = server.serve(lost);
        lost.destroy(new Error("lost"));
        await served;
        const listener = createServer((socket) => server.serve(socket)).listen(0, HOST);
        await once(listener, "listening");
        const peer = await router(listener.address().port);
        await getsAll(peer, 1, 1);
        listener.close();
        await server.close();
        assert.equal(await peer.next(), null);
        peer.close();
    },

    /** A shutdown whose signal aborts cuts off the answers that are left. */
    async abortsShutdown(rtr) {
        await withServer(rtr, {}, async (server, port, ended) => {
            await server.update(manyOf(rtr, 1));
            const busy = await router(port);
            busy.socket.pause();
            busy.send(RESET_QUERY);
            await once(busy.socket, "readable");
            await assert.rejects(server.shutdown({ signal: AbortSignal.timeout(20) }),
                { name: "TimeoutError" });
            assert.ok(ended.length === 1 && ended[0] instanceof Closed);
            busy.socket.destroy();
        });
    },

    /** Two hundred routers come, and leave in several ways; then nothing is left of them: no
     * handle, and no memory of the module. */
    async forgetsThose(rtr) {
        const session = rtr.another();
        const server = new Server({ rtr: session, settings: { mostConnections: 10 } });
        const { port } = await server.listen({ port: 0, host: HOST });
        await server.update(manyOf(rtr, 1, 20_000));
        const size = () => process.getActiveResourcesInfo().length;
        const [before, sizes] = [size(), []];
        for (let round = 0; round < 2; round += 1) {
            for (let count = 0; count < 100; count += 1) {
                await leaves(await router(port), count % 4);
            }
            await until(() => size() <= before);
            sizes.push(session.memory);
        }
        assert.equal(sizes[1], sizes[0]);
        const last = await router(port);
        last.send(RESET_QUERY);
        assert.deepEqual(await last.next(), response());
        last.socket.destroy();
        await server.close();
    },

    /** After a restart from the saved file routers get changes, and a session that was left before
     * isn't served. */
    async restarts(rtr) {
        await withFolder(async (folder) => {
            const path = join(folder, "state");
            await withServer(rtr, {}, async (server) => {
                await assert.rejects(server.restore(path), { code: "ENOENT" });
                await server.save(path);
                assert.ok(!existsSync(path));
                const before = rtr.loadData(Buffer.concat([prefix(1), end(1, 8)])).data;
                await server.updateSaved(before, path);
                await server.update(dataOf(rtr, 1, 1, 2));
                await server.updateSaved(dataOf(rtr, 2, 2, 3), path);
            });
            assert.equal(readFileSync(path).subarray(0, 8).toString(), "rtrkept2");
            assert.ok(!existsSync(`${path}.new`));
            writeFileSync(`${path}.new`, "left by a killed process");
            await withServer(rtr, {}, async (server, port) => {
                assert.equal((await server.restore(path)).serial, 2);
                assert.ok(!existsSync(`${path}.new`));
                await server.update(dataOf(rtr, 3, 3));
                const peer = await router(port);
                peer.send(serialQuery(1), serialQuery(2));
                assert.deepEqual(await unitsOf(peer, 3), [prefix(1, false), prefix(2, false),
                    prefix(3)]);
                assert.deepEqual(await unitsOf(peer, 3), [prefix(2, false)]);
                peer.close();
                assert.equal((await server.restore(path)).serial, 3); // it has data: they stay
                assert.equal(server.data.serial, 3);
                await assert.rejects(server.update(
                    rtr.loadData(Buffer.concat([prefix(1), end(9, 8)])).data),
                { status: StoresStatus.SESSION_LEFT });
            });
        });
    },

    /** A server restores the saved file even if a file beside it can't be removed. */
    async restoresBeside(rtr) {
        await withFolder(async (folder) => {
            const path = join(folder, "state");
            await withServer(rtr, {}, (server) => server.updateSaved(dataOf(rtr, 1, 1), path));
            for (const beside of [`${path}.new`, join(`${path}.new`, "full")]) {
                mkdirSync(beside);
                await withServer(rtr, {}, async (server) => {
                    assert.equal((await server.restore(path)).serial, 1);
                });
            }
        });
    },

    /** A file of a version before 0.3.0 is restored with its steps back, and replaced with the next
     * data. */
    async restoresFormerFiles(rtr) {
        await withFolder(async (folder) => {
            const path = join(folder, "state");
            const [first, second, third] = [1, 2, 3].map((n) => dataOf(rtr, n, n, n + 1));
            writeFileSync(path, formerFile(third.bytes, rtr.delta(third, second),
                rtr.delta(second, first)));
            await withServer(rtr, {}, async (server, port) => {
                assert.equal((await server.restore(path)).serial, 3);
                const peer = await router(port);
                peer.send(serialQuery(1), serialQuery(2));
                assert.deepEqual(await unitsOf(peer, 3), [prefix(1, false), prefix(2, false),
                    prefix(3), prefix(4)]);
                assert.deepEqual(await unitsOf(peer, 3), [prefix(2, false), prefix(4)]);
                peer.close();
                await server.updateSaved(dataOf(rtr, 4, 4), path);
            });
            assert.equal(readFileSync(path).subarray(0, 8).toString(), "rtrkept2");
            await withServer(rtr, {}, async (server, port) => {
                assert.equal((await server.restore(path)).serial, 4);
                const peer = await router(port);
                peer.send(serialQuery(1));
                assert.deepEqual(await unitsOf(peer, 4), [prefix(1, false), prefix(2, false),
                    prefix(4)]);
                peer.close();
            });
        });
    },

    /** Such a file is refused if a byte changed or bytes are missing, or if its steps don't lead
     * back from its data. */
    async refusesFormerFiles(rtr) {
        const [first, second, third] = [1, 2, 3].map((n) => dataOf(rtr, n, n, n + 1));
        const steps = [rtr.delta(third, second), rtr.delta(second, first)];
        const file = formerFile(third.bytes, ...steps);
        const damaged = [...file.keys()].flatMap((at) => {
            const changed = Buffer.from(file);
            changed[at] ^= 1;
            return [changed, file.subarray(0, at)];
        });
        damaged.push(formerFile(third.bytes, steps[0], steps[0]), formerFile(...steps),
            formerFile());
        await withFolder(async (folder) => {
            const path = join(folder, "state");
            const server = new Server({ rtr: rtr.another() });
            for (const bytes of damaged) {
                writeFileSync(path, bytes);
                await assert.rejects(server.restore(path), { name: "UpdateError",
                    message: "the saved file is damaged: the data need a new session" });
            }
            await server.close();
        });
    },

    /** A file that isn't as it was saved is refused, and so is one with the head of the form
     * before. */
    async refusesFiles(rtr) {
        await withFolder(async (folder) => {
            const path = join(folder, "state");
            await withServer(rtr, {}, async (server) => {
                await server.updateSaved(dataOf(rtr, 1, 1), path);
            });
            const whole = readFileSync(path);
            const changed = Buffer.from(whole);
            changed[whole.length - 1] ^= 1;
            const former = Buffer.concat([Buffer.from("rtrkept1"), whole.subarray(8)]);
            for (const bytes of [changed, whole.subarray(1), former, Buffer.alloc(0)]) {
                writeFileSync(path, bytes);
                await withServer(rtr, {}, async (server) => {
                    await assert.rejects(server.restore(path), { name: "UpdateError",
                        message: "the saved file is damaged: the data need a new session" });
                    assert.equal(server.data, null);
                });
            }
        });
    },

    /** Data that can't be saved aren't served: routers still get the previous data. A later
     * attempt may succeed. */
    async savesFirst(rtr) {
        await withFolder(async (folder) => {
            await withServer(rtr, {}, async (server, port) => {
                const [there, away] = [join(folder, "there"), join(folder, "away")];
                const [path, missing] = [join(there, "state"), { code: "ENOENT" }];
                await assert.rejects(server.updateSaved(dataOf(rtr, 1, 1), path), missing);
                await assert.rejects(server.update(dataOf(rtr, 1, 1)), missing);
                assert.equal(server.data, null);
                mkdirSync(there);
                await server.updateSaved(dataOf(rtr, 1, 1), path);
                const peer = await router(port);
                await getsAll(peer, 1, 1);
                renameSync(there, away);
                await assert.rejects(server.updateSaved(dataOf(rtr, 2, 2), path), missing);
                assert.equal(server.data.serial, 1);
                await getsAll(peer, 1, 1);
                peer.close();
                renameSync(away, there);
                await Promise.all([server.updateSaved(dataOf(rtr, 2, 2), path),
                    server.updateSaved(dataOf(rtr, 3, 3), path)]);
                assert.equal(server.data.serial, 3);
            });
        });
    },

    /** A server that served data without saving them doesn't save later ones: its file would lack
     * data that it served. */
    async servesUnsaved(rtr) {
        await withFolder(async (folder) => {
            const path = join(folder, "state");
            await withServer(rtr, {}, async (server) => {
                await server.update(dataOf(rtr, 1, 1));
                for (const call of [() => server.save(path),
                    () => server.updateSaved(dataOf(rtr, 2, 2), path)]) {
                    await assert.rejects(call(), { name: "UpdateError", status: null,
                        message: "the cache serves data that it didn't save" });
                }
                await server.update(dataOf(rtr, 2, 2));
                assert.equal(server.data.serial, 2);
                assert.ok(!existsSync(path));
            });
        });
    },

    /** The cache in C reads what the server saved, and the server what that saved. */
    async sharesFiles(rtr, _, t) {
        await withFolder(async (folder) => {
            const program = compiledCache(folder);
            if (program === null) {
                t.skip("no C compiler for the cache in C");
                return;
            }
            const [path, file] = [join(folder, "data.kept"), join(folder, "data")];
            await withServer(rtr, {}, async (server) => {
                await server.updateSaved(dataOf(rtr, 1, 1), path);
                await server.updateSaved(dataOf(rtr, 2, 2), path);
            });
            writeFileSync(file, answer(3, prefix(3)));
            const inC = spawn(program, [file, "--listen", `${HOST}:0`]);
            try {
                await lineOf(inC.stderr, /session 7 serial 3: 1 payload/);
            } finally {
                inC.kill();
                await once(inC, "close");
            }
            await withServer(rtr, {}, async (server, port) => {
                assert.equal((await server.restore(path)).serial, 3);
                const peer = await router(port);
                peer.send(serialQuery(1));
                assert.deepEqual(await unitsOf(peer, 3), [prefix(1, false), prefix(3)]);
                peer.close();
            });
        });
    },

    /** The example serves a file, follows its changes, and ends at a signal. */
    async example(rtr) {
        await withFolder(async (folder) => {
            const program = fileURLToPath(new URL("../examples/cache.js", import.meta.url));
            const file = join(folder, "data");
            writeFileSync(file, answer(1, prefix(1)));
            const port = await unused();
            const child = spawn(process.execPath, [program, file, "--listen", `${HOST}:${port}`]);
            const closed = once(child, "close");
            await lineOf(child.stderr, /session 7 serial 1: 1 payload$/);
            const client = new Client({ host: HOST, port, settings: { retry: 1, pause: 1 },
                rtr: rtr.another() });
            for await (const { data } of client) {
                if (data.serial === 2) {
                    break;
                }
                writeFileSync(file, answer(2, prefix(2)));
            }
            child.kill();
            assert.deepEqual(await closed, [0, null]);
        });
    },

    /** Wrong arguments are named. */
    async namesArguments(rtr) {
        assert.throws(() => new Server({ port: 1 }), { name: "TypeError",
            message: "options has no field port" });
        assert.throws(() => new Server({ settings: { idleLimit: -1 } }), { name: "RangeError" });
        assert.throws(() => new Server({ settings: { cache: 1 } }), { name: "TypeError",
            message: "settings has no field cache" });
        assert.throws(() => new Server({ rtr: {} }), { name: "TypeError" });
        const server = new Server({ rtr });
        await assert.rejects(server.update(new Uint8Array(24)), { name: "TypeError",
            message: "data must be a Data, which session.data makes" });
        await assert.rejects(server.save(1), { name: "TypeError" });
        await assert.rejects(server.listen({ port: 70_000 }), { name: "RangeError" });
        await server.close();
    },
};
