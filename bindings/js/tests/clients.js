// Tests of a Client over sockets, with scripted caches.

import assert from "node:assert/strict";
import dns from "node:dns/promises";
import { getEventListeners, once } from "node:events";
import { syncBuiltinESMExports } from "node:module";
import { connect as connectTcp, createServer } from "node:net";
import { PassThrough } from "node:stream";
import { setTimeout as sleep } from "node:timers/promises";
import { Cause, Fault, NoData, OutOfMemory, SessionError, Status, load } from "../rtr_wire.js";
import { Client, follow } from "../client.js";
import { FAILURE_NO_MEMORY } from "../rtr_table.js";
import { RESET_QUERY, answer, cache, cacheReset, end, notify, prefix, report, response,
    serialQuery, unused } from "./caches.js";
import { NO_OPENSSL, certified } from "./certificates.js";

/** Short waits, and limits that suffice on a busy machine. */
const SOON = { pause: 1, retry: 1, responseLimit: 60_000, connectLimit: 60_000 };

const HOST = "127.0.0.1";

/** Returns a client of the cache at a port, with its own session. */
function clientOf(rtr, port, options = {}) {
    const { settings, ...others } = options;
    return new Client({ host: HOST, port, rtr: rtr.another(), settings: { ...SOON, ...settings },
        ...others });
}

/** Returns a list to which the events of a client are added. */
function noted(client) {
    const events = [];
    client.on("connect", () => events.push("connect"));
    client.on("data", ({ data }) => events.push(`data ${data.serial}`));
    client.on("dropped", ({ data }) => events.push(`dropped ${data}`));
    client.on("noData", (error) => events.push(`noData ${error.message}`));
    client.on("failed", (error) => events.push(`failed ${error.message}`));
    return events;
}

/** Waits for this many updates of a loop, and leaves it. */
async function taken(updates, count) {
    const all = [];
    for await (const update of updates) {
        all.push(update);
        if (all.length === count) {
            break;
        }
    }
    return all;
}

/** Describes the changes of an update: +1 announces the prefix of AS 1. */
const changesOf = (update) => Array.from(update.changes(),
    ({ announce, asn }) => `${announce ? "+" : "-"}${asn}`).join(" ");

/** Runs a test with a cache, which is closed after it. */
async function withCache(scripts, run, options) {
    const server = await cache(scripts, options);
    try {
        await run(server);
    } finally {
        await server.close();
    }
}

/** A script: the router asks for all data, gets these bytes, and closes. */
const gives = (...units) => async (peer) => {
    assert.deepEqual(await peer.next(), RESET_QUERY);
    peer.send(...units);
    await peer.gone();
};

/** Returns the first failure of a client without data. */
async function failureOf(client) {
    const failed = once(client, "failed");
    const stop = client[Symbol.asyncIterator]();
    const update = stop.next();
    const [error] = await failed;
    await stop.return();
    assert.deepEqual(await update, { value: undefined, done: true });
    return error;
}

/** Resolves every host name to these addresses while a function runs. */
async function resolved(addresses, run) {
    const { lookup } = dns;
    dns.lookup = async () => addresses.map((address) => ({ address, family: 4 }));
    syncBuiltinESMExports();
    try {
        await run();
    } finally {
        dns.lookup = lookup;
        syncBuiltinESMExports();
    }
}

const isAborted = (error) => error.name === "AbortError";

/** Calls with a port at which a silent server listens at 127.0.0.2; again with another one, if the
 * port is taken at the cache's address. */
async function withSilent(calls, tries = 5) {
    const silent = createServer().listen(0, "127.0.0.2");
    await once(silent, "listening");
    try {
        return await calls(silent.address().port);
    } catch (error) {
        if (error.code !== "EADDRINUSE" || tries === 0) {
            throw error;
        }
    } finally {
        silent.close();
    }
    return withSilent(calls, tries - 1);
}

export const TESTS = {
    /** All data, changes after a notify, all data after a cache reset: the events and the changes.
     * Leaving the loop closes the connection. */
    async follows(rtr) {
        let isGone = false;
        const script = async (peer) => {
            assert.deepEqual(await peer.next(), RESET_QUERY);
            peer.send(answer(1, prefix(1), prefix(2)));
            await sleep(5);
            peer.send(notify(2));
            assert.deepEqual(await peer.next(), serialQuery(1));
            peer.send(answer(2, prefix(1, false), prefix(3)));
            await sleep(5);
            peer.send(notify(3));
            assert.deepEqual(await peer.next(), serialQuery(2));
            peer.send(cacheReset());
            assert.deepEqual(await peer.next(), RESET_QUERY);
            peer.send(answer(3, prefix(4)));
            await peer.gone();
            isGone = true;
        };
        await withCache([script], async ({ port }) => {
            const client = clientOf(rtr, port);
            const events = noted(client);
            const updates = await taken(client, 3);
            assert.deepEqual(updates.map(changesOf), ["+1 +2", "+3 -1", "+4 -2 -3"]);
            assert.deepEqual(updates.map(({ data }) => [data.serial, data.count]),
                [[1, 2], [2, 2], [3, 1]]);
            assert.deepEqual(events, ["connect", "data 1", "data 2", "data 3"]);
            assert.ok(updates.every((update) => update.client === client));
            // The data of earlier updates haven't changed.
            assert.deepEqual(Buffer.from(updates[0].data.bytes),
                Buffer.concat([prefix(1), prefix(2), end(1)]));
            while (!isGone) {
                await sleep(1);
            }
        });
    },

    /** First nobody listens, then a cache does; it closes, and the client reconnects and asks for
     * changes. */
    async connectsAgain(rtr) {
        const port = await unused();
        const client = clientOf(rtr, port);
        const events = noted(client);
        const updates = client[Symbol.asyncIterator]();
        const first = updates.next();
        await once(client, "failed");
        const scripts = [async (peer) => {
            assert.deepEqual(await peer.next(), RESET_QUERY);
            peer.send(answer(1, prefix(1)));
        }, async (peer) => {
            assert.deepEqual(await peer.next(), serialQuery(1));
            peer.send(answer(2, prefix(2)));
            await peer.gone();
        }];
        await withCache(scripts, async () => {
            assert.equal((await first).value.data.serial, 1);
            assert.equal(changesOf((await updates.next()).value), "+2");
            await updates.return();
        }, { port });
        const refused = `failed connect ECONNREFUSED ${HOST}:${port}`;
        assert.deepEqual(events.filter((line) => line !== refused), ["connect", "data 1",
            "failed the cache closed the connection", "connect", "data 2"]);
        assert.equal(events[0], refused);
    },

    /** Each address of a host name is tried, also over TLS, and the last error is reported. */
    async triesAddresses(rtr) {
        await withCache([gives(answer(1, prefix(1)))], async ({ port }) => {
            await resolved(["127.0.0.2", "127.0.0.3", HOST], async () => {
                const client = clientOf(rtr, port, { host: "cache.example" });
                assert.equal((await client.fetch()).serial, 1);
            });
            await resolved(["127.0.0.2", "127.0.0.3"], async () => {
                const client = clientOf(rtr, port, { host: "cache.example" });
                await assert.rejects(client.fetch(), (error) => error.code === "ECONNREFUSED"
                    && error.address === "127.0.0.3");
            });
        });
        const client = new Client({ host: "no-cache.invalid", port: 323, rtr: rtr.another() });
        await assert.rejects(client.fetch(), (error) => error.syscall === "getaddrinfo");
    },

    /** An address that doesn't answer gets its share of the time; then the next one is tried. */
    async leavesSilentAddresses(rtr, _, t) {
        const tls = certified("DNS:cache.example");
        if (tls === null) {
            t.skip(NO_OPENSSL);
            return;
        }
        await withSilent((port) => withCache([gives(answer(1, prefix(1)))], () => (
            resolved(["127.0.0.2", HOST], async () => {
                const client = clientOf(rtr, port, { host: "cache.example", tls: { ca: tls.cert },
                    settings: { connectLimit: 1000 } });
                assert.equal((await taken(client, 1))[0].data.serial, 1);
            })), { port, tls }));
    },

    /** After its signal has aborted a client tries no further address. */
    async abortsAddresses(rtr) {
        const script = (peer) => peer.gone();
        await withSilent((port) => withCache([script], (server) => (
            resolved(["127.0.0.2", HOST], async () => {
                const stop = new AbortController();
                const client = clientOf(rtr, port, { host: "cache.example", tls: {},
                    signal: stop.signal });
                const fetching = client.fetch();
                await sleep(50);
                stop.abort();
                await assert.rejects(fetching, isAborted);
                await sleep(50);
                assert.equal(server.connections, 0);
            })), { port }));
    },

    /** A truncated answer: between units, inside a unit, and by a reset. */
    async namesCuts(rtr) {
        const cuts = [
            [(peer) => peer.close(), (error) => error instanceof SessionError
                && error.reason === Cause.LOST
                && error.message === "the cache closed the connection"],
            [(peer) => {
                peer.send(prefix(2).subarray(0, 7));
                peer.close();
            }, (error) => error instanceof Fault && error.status === Status.SHORT
                && error.offset === 28 && error.unit.length === 7],
            [(peer) => peer.reset(), (error) => error.code === "ECONNRESET"],
        ];
        for (const [ends, isExpected] of cuts) {
            const script = async (peer) => {
                await peer.next();
                peer.send(response(), prefix(1));
                await sleep(20);
                ends(peer);
                await peer.gone();
            };
            await withCache([script], async ({ port }) => {
                const error = await failureOf(clientOf(rtr, port));
                assert.ok(isExpected(error), error);
            });
        }
    },

    /** The report about a refused unit reaches a cache that continues to send; the client emits the
     * fault. */
    async reports(rtr) {
        const wrong = prefix(3);
        wrong[9] = 33; // the prefix length
        let seen = null;
        const script = async (peer) => {
            await peer.next();
            peer.send(response(), wrong, ...Array.from({ length: 1000 }, (_, n) => prefix(n)));
            seen = await peer.next();
            await peer.gone();
        };
        await withCache([script], async ({ port }) => {
            const error = await failureOf(clientOf(rtr, port));
            assert.equal(error.message, "prefix length too large, at byte 8");
            const { code, about, text } = rtr.next(seen);
            assert.deepEqual([code, Buffer.from(about), text],
                [error.code, wrong, "prefix length too large"]);
        });
    },

    /** A cache that doesn't close after a report costs the report limit. */
    async limitsReports(rtr) {
        const script = async (peer) => {
            await peer.next();
            peer.send(end(1)); // out of place
            peer.socket.resume();
            await once(peer.socket, "close");
        };
        await withCache([script], async ({ port }) => {
            const begun = performance.now();
            const error = await failureOf(clientOf(rtr, port, { reportLimit: 100 }));
            assert.equal(error.reason, Cause.OUT_OF_PLACE);
            assert.ok(performance.now() - begun > 90);
        });
    },

    /** By default a client asks in version 1, and its last report costs at most two seconds. */
    async hasDefaults(rtr) {
        const asked = [];
        const script = async (peer) => {
            asked.push(await peer.next());
            peer.send(end(1)); // out of place
            peer.socket.resume();
            await once(peer.socket, "close");
        };
        await withCache([script], async ({ port }) => {
            const begun = performance.now();
            const error = await failureOf(new Client({ host: HOST, port, rtr: rtr.another() }));
            const took = performance.now() - begun;
            assert.equal(error.reason, Cause.OUT_OF_PLACE);
            assert.ok(took > 1990 && took < 20_000, `${took} ms`);
        });
        assert.deepEqual(asked, [RESET_QUERY]);
    },

    /** A cache that floods the connection after a report doesn't keep the client for its limit. */
    async endsFloods(rtr) {
        const most = 1 << 26; // more than the system buffers
        let sent = 0;
        const script = async ({ socket }) => {
            socket.resume();
            socket.write(end(1)); // out of place
            while (sent < most && !socket.destroyed) {
                await new Promise((done) => {
                    socket.write(Buffer.alloc(1 << 16), done);
                });
                sent += 1 << 16;
            }
        };
        await withCache([script], async ({ port }) => {
            const error = await failureOf(clientOf(rtr, port, { reportLimit: 3_600_000 }));
            assert.equal(error.reason, Cause.OUT_OF_PLACE);
        });
        assert.ok(sent < most);
    },

    /** A stream that the caller opens after the client gave up is destroyed. */
    async dropsLateStreams(rtr) {
        let give = null;
        const client = new Client({ rtr: rtr.another(),
            connect: () => new Promise((resolve) => {
                give = resolve;
            }) });
        const updates = client[Symbol.asyncIterator]();
        const update = updates.next();
        while (give === null) {
            await sleep(1);
        }
        await updates.return();
        await update;
        const late = new PassThrough();
        give(late);
        await once(late, "close");
    },

    /** A time limit above that of a timer isn't over at once: to connect to an address that isn't
     * the last, and for a report. */
    async takesLongLimits(rtr) {
        const warnings = [];
        const warned = ({ name }) => warnings.push(name);
        let isEarly = null;
        const script = async (peer) => {
            await peer.next();
            peer.send(end(1)); // out of place
            peer.socket.resume();
            const closed = once(peer.socket, "close").then(() => true);
            isEarly = await Promise.race([closed, sleep(100).then(() => false)]);
            peer.socket.destroy();
        };
        process.on("warning", warned);
        await withCache([script], ({ port }) => resolved([HOST, "127.0.0.2"], async () => {
            const error = await failureOf(clientOf(rtr, port, { host: "cache.example",
                reportLimit: 0xffffffff, settings: { connectLimit: 0xffffffff } }));
            assert.equal(error.reason, Cause.OUT_OF_PLACE);
        }));
        process.off("warning", warned);
        assert.deepEqual([isEarly, warnings], [false, []]);
    },

    /** A cache without data yet is asked again; `fetch` throws. */
    async hasNoData(rtr) {
        const script = async (peer) => {
            await peer.next();
            peer.send(report(2, "later"));
            if (await peer.next() !== null) {
                peer.send(answer(1, prefix(1)));
                await peer.gone();
            }
        };
        await withCache([script], async ({ port }) => {
            const client = clientOf(rtr, port);
            const events = noted(client);
            assert.equal((await taken(client, 1))[0].data.serial, 1);
            assert.deepEqual(events, ["connect",
                'noData the cache reports an error: No Data Available, "later"', "data 1"]);
            await assert.rejects(clientOf(rtr, port).fetch(), NoData);
        });
    },

    /** Data that expire are dropped, by an update and an event. */
    async drops(rtr) {
        const script = async (peer) => {
            await peer.next();
            peer.send(answer(1, prefix(1)));
            await peer.gone();
        };
        await withCache([script], async ({ port }) => {
            const client = clientOf(rtr, port, { settings: { refresh: 100_000, expire: 50 } });
            const events = noted(client);
            const updates = await taken(client, 2);
            assert.deepEqual(updates.map(({ data }) => data && data.serial), [1, null]);
            assert.equal(changesOf(updates[1]), "-1");
            assert.equal(updates[0].data.count, 1);
            assert.deepEqual(events.slice(0, 3), ["connect", "data 1", "dropped null"]);
        });
    },

    /** Without memory for an answer the client fails, and the data stay; without memory for the
     * changes it still yields the data, and `changes` can be called again. */
    async staysWithoutMemory(rtr, bytes) {
        const many = Array.from({ length: 30_000 }, (_, n) => {
            const unit = prefix(1);
            unit.writeUInt32BE(n + 10, 16);
            return unit;
        });
        const script = async (peer) => {
            await peer.next();
            peer.send(answer(1, prefix(1)));
            await sleep(5);
            peer.send(notify(2));
            await peer.next();
            peer.send(answer(2, ...many));
            await peer.gone();
        };
        const small = await load(bytes, { most: rtr.another().memory + 600_000 });
        await withCache([script], async ({ port }) => {
            const client = clientOf(rtr, port, { rtr: small });
            const failed = once(client, "failed");
            const updates = client[Symbol.asyncIterator]();
            const { value: { data } } = await updates.next();
            const next = updates.next();
            const [error] = await failed;
            assert.ok(error instanceof OutOfMemory && error.message === FAILURE_NO_MEMORY);
            await updates.return();
            assert.deepEqual([data.serial, (await next).done], [1, true]);
        });
        const limited = await load(bytes, { most: rtr.another().memory + 2_700_000 });
        await withCache([gives(answer(1, ...many))], async ({ port }) => {
            const updates = clientOf(rtr, port, { rtr: limited })[Symbol.asyncIterator]();
            const { value: update } = await updates.next();
            const held = limited.hold(new Uint8Array(1_500_000));
            assert.throws(() => update.delta(), OutOfMemory);
            assert.equal(update.data.serial, 1);
            held.drop();
            assert.equal(update.delta().length, update.data.bytes.length);
            await updates.return();
        });
    },

    /** Clients of a session, one after the other, reuse the same memory. */
    async freesMemory(rtr) {
        const many = Array.from({ length: 20_000 }, (_, n) => {
            const unit = prefix(1);
            unit.writeUInt32BE(n, 16);
            return unit;
        });
        const shared = rtr.another();
        await withCache([gives(answer(1, ...many))], async ({ port }) => {
            const seen = new Set();
            for (let turn = 0; turn < 5; turn += 1) {
                const data = await clientOf(rtr, port, { rtr: shared }).fetch();
                assert.equal(data.count, 20_000);
                seen.add(shared.memory);
            }
            assert.equal(seen.size, 1);
        });
    },

    /** While the caller processes an update nothing is read, so no data accumulate. */
    async readsAtItsPace(rtr) {
        const long = Buffer.concat(Array(1 << 21).fill(notify(1)));
        let left = null;
        const script = async (peer) => {
            await peer.next();
            peer.send(answer(1, prefix(1)));
            peer.socket.write(long);
            await sleep(300);
            left = peer.socket.writableLength;
            peer.socket.destroy();
        };
        await withCache([script], async ({ port }) => {
            for await (const { data } of clientOf(rtr, port)) {
                assert.equal(data.serial, 1);
                while (left === null) {
                    await sleep(10);
                }
                break;
            }
            assert.ok(left > 0);
        });
    },

    /** A client asks before the refresh time if its caller requests it. */
    async asksNow(rtr) {
        const script = async (peer) => {
            await peer.next();
            peer.send(answer(1, prefix(1)));
            assert.deepEqual(await peer.next(), serialQuery(1));
            peer.send(answer(2, prefix(2)));
            await peer.gone();
        };
        await withCache([script], async ({ port }) => {
            const client = clientOf(rtr, port);
            client.askNow(); // a no-op, since it doesn't run
            const updates = client[Symbol.asyncIterator]();
            await updates.next();
            const next = updates.next();
            await sleep(20);
            client.askNow();
            assert.equal((await next).value.data.serial, 2);
            await updates.return();
        });
    },

    /** A request that comes as a connection ends, or can't be made, isn't lost: the client
     * connects as soon as the pause allows, long before the retry time. */
    async asksAtALoss(rtr) {
        const scripts = [async (peer) => {
            await peer.next();
            peer.send(answer(1, prefix(1)));
            peer.close();
        }, async (peer) => {
            assert.deepEqual(await peer.next(), serialQuery(1));
            peer.send(answer(2, prefix(2)));
            await peer.gone();
        }];
        await withCache(scripts, async ({ port }) => {
            let connects = 0;
            const connect = async () => {
                connects += 1;
                if (connects === 2) {
                    queueMicrotask(() => client.askNow());
                    throw new Error("no connection");
                }
                const stream = connectTcp({ host: HOST, port });
                stream.on("end", () => client.askNow());
                await once(stream, "connect");
                return stream;
            };
            const client = new Client({ connect, rtr: rtr.another(),
                settings: { ...SOON, retry: 3_600_000 } });
            const events = noted(client);
            await taken(client, 2);
            assert.deepEqual(events, ["connect", "data 1",
                "failed the cache closed the connection", "failed no connection", "connect",
                "data 2"]);
        });
    },

    /** A client that has ended leaves no timer and no socket, which would keep its process
     * running. */
    async leavesNothing(rtr) {
        const kept = ["Timeout", "TCPSocketWrap", "TCPServerWrap"];
        const count = () => process.getActiveResourcesInfo()
            .filter((name) => kept.includes(name)).length;
        const hasTimer = () => process.getActiveResourcesInfo().includes("Timeout");
        let before = count();
        for (let same = 0; same < 10; same = !hasTimer() && count() === before ? same + 1 : 0) {
            before = count(); // the sockets and timers of earlier tests may still end
            await sleep(20);
        }
        const scripts = [gives(answer(1, prefix(1))), gives(answer(1, prefix(1))),
            gives(end(1))]; // out of place
        await withCache(scripts, ({ port }) => resolved(["127.0.0.2", HOST], async () => {
            const client = clientOf(rtr, port, { host: "cache.example", reportLimit: 60_000 });
            await client.fetch();
            const updates = client[Symbol.asyncIterator]();
            await updates.next();
            const next = updates.next(); // it waits for the refresh time
            await sleep(20);
            await updates.return();
            await next;
            await failureOf(client);
        }));
        for (let tries = 0; count() > before && tries < 500; tries += 1) {
            await sleep(20);
        }
        assert.equal(count(), before);
    },

    /** Several runs use one signal in turn: after each run it has no listener of that run left. */
    async leavesSignals(rtr) {
        const { signal } = new AbortController();
        const runs = [(client) => taken(client, 1), (client) => client.fetch(),
            (client) => taken(follow([client], { signal }), 1)];
        await withCache(runs.map(() => gives(answer(1, prefix(1)))), async ({ port }) => {
            const client = clientOf(rtr, port, { signal });
            for (const run of runs) {
                await run(client);
                assert.deepEqual(getEventListeners(signal, "abort"), []);
            }
        });
    },

    /** Over TLS the certificate has to have the cache's host name or address: as an alternative
     * name, not as the common name of its subject (RFC 8210 section 9.2). */
    async provesNames(rtr, _, t) {
        const [named, addressed, common] = ["DNS:cache.example", `IP:${HOST}`,
            "email:cache@cache.example"].map(certified);
        if (named === null) {
            t.skip(NO_OPENSSL);
            return;
        }
        for (const [tls, host, isRight] of [[named, "cache.example", true], [addressed, HOST, true],
            [named, "other.example", false], [named, HOST, false], [common, "cache", false]]) {
            await withCache([gives(answer(1, prefix(1)))], ({ port }) => (
                resolved([HOST], async () => {
                    const client = clientOf(rtr, port, { host, tls: { ca: tls.cert } });
                    if (isRight) {
                        assert.equal((await client.fetch()).serial, 1);
                        return;
                    }
                    await assert.rejects(client.fetch(),
                        (error) => error.code === "ERR_TLS_CERT_ALTNAME_INVALID");
                })), { tls });
        }
        await withCache([gives(answer(1, prefix(1)))], async ({ port }) => {
            await assert.rejects(clientOf(rtr, port, { tls: {} }).fetch(),
                (error) => error.code === "DEPTH_ZERO_SELF_SIGNED_CERT");
        }, { tls: addressed });
    },

    /** The signal stops a client during the lookup, the connection, the handshake and the answer,
     * between queries, and while its caller processes an update. */
    async aborts(rtr) {
        const silent = createServer().listen(0, HOST);
        await once(silent, "listening");
        const { port } = silent.address();
        const cases = [
            { connect: () => new Promise(() => {}) },
            { tls: {} },
            {},
            { port: await unused(), settings: { retry: 1_000_000, pause: 1_000_000 } },
        ];
        for (const options of cases) {
            const stop = new AbortController();
            const client = clientOf(rtr, options.port ?? port, { signal: stop.signal, ...options });
            const running = client.run();
            await sleep(30);
            stop.abort();
            await assert.rejects(running, isAborted);
            await assert.rejects(client.run(), isAborted);
        }
        silent.close();
        await withCache([gives(answer(1, prefix(1)))], async (server) => {
            const stop = new AbortController();
            const client = clientOf(rtr, server.port, { signal: stop.signal });
            const seen = [];
            await assert.rejects(async () => {
                for await (const { data } of client) {
                    seen.push(data.serial);
                    stop.abort(new Error("enough"));
                }
            }, /^Error: enough$/);
            assert.deepEqual(seen, [1]);
        });
    },

    /** An error of a listener ends the loop; a second loop at the same time is refused. */
    async endsWithListeners(rtr) {
        await withCache([gives(answer(1, prefix(1)))], async ({ port }) => {
            const client = clientOf(rtr, port);
            const updates = client[Symbol.asyncIterator]();
            await updates.next();
            await assert.rejects(client.fetch(), /follows its cache already/);
            await updates.return();
            client.once("data", () => {
                throw new Error("the listener's");
            });
            await assert.rejects(client.run(), /the listener's/);
            assert.equal((await client.fetch()).serial, 1);
        });
    },

    /** `connect` may return any stream of Node. */
    async takesStreams(rtr) {
        await withCache([gives(answer(1, prefix(1)))], async ({ port }) => {
            const net = await import("node:net");
            const seen = [];
            const client = new Client({
                rtr: rtr.another(),
                connect: async ({ signal, milliseconds }) => {
                    seen.push(signal.aborted, milliseconds <= 30_000 && milliseconds > 20_000);
                    const stream = net.connect(port, HOST);
                    await once(stream, "connect", { signal });
                    return stream;
                },
            });
            assert.equal((await client.fetch()).serial, 1);
            assert.deepEqual(seen, [false, true]);
        });
    },

    /** Wrong options are refused by name. */
    refusesOptions(rtr) {
        const refused = (options, Kind, message) => assert.throws(() => new Client(options),
            (error) => error instanceof Kind && error.message === message);
        refused(undefined, TypeError, "options must be an object, not undefined");
        refused({ port: 1 }, TypeError, "host must be a string, not undefined");
        refused({ host: "a" }, TypeError, "port must be a number, not undefined");
        refused({ host: "a", port: 65536 }, RangeError,
            "port is 65536: it must be an integer from 0 to 65535");
        refused({ host: "a", port: 1, tsl: {} }, TypeError, "options has no field tsl");
        refused({ host: "a", port: 1, settings: { highst: 1 } }, TypeError,
            "settings has no field highst");
        refused({ host: "a", port: 1, signal: {} }, TypeError, "signal must be an AbortSignal");
        refused({ connect: 1 }, TypeError, "connect must be a function");
        refused({ host: "a", port: 1, rtr: {} }, TypeError,
            "rtr must be a Session, which load returns");
        const client = new Client({ host: "a", port: 1, rtr });
        assert.throws(() => follow(client), /^TypeError: clients must be an array of clients$/);
        assert.throws(() => follow([]), /^RangeError: clients are 0: they must be 1 to 16$/);
        assert.throws(() => follow([client], { patience: 1 }),
            /^TypeError: options has no field patience$/);
    },
};
