// Tests of a Group, and of clients of several caches.

import assert from "node:assert/strict";
import { spawn } from "node:child_process";
import { EventEmitter, once } from "node:events";
import { mkdtempSync, renameSync, rmSync, writeFileSync } from "node:fs";
import { createServer } from "node:net";
import { tmpdir } from "node:os";
import { join } from "node:path";
import { createInterface } from "node:readline";
import { setTimeout as sleep } from "node:timers/promises";
import { fileURLToPath } from "node:url";
import { Client, follow } from "../client.js";
import { EVENTS, SESSION } from "../iterated.js";
import { Cause, GroupShown, TodoKind } from "../rtr_table.js";
import { Update } from "../update.js";
import { compiledCache, lineOf } from "./c_cache.js";
import { answer, cache, end, prefix, response, unused } from "./caches.js";

const { SAME, DATA, NOTHING } = GroupShown;
const HOST = "127.0.0.1";
const SOON = { pause: 1, retry: 20, responseLimit: 60_000, connectLimit: 60_000 };

const decision = (shown, member, stop, start) => ({ shown, member, stop, start });

/** A script: sends all data at the first query, and then waits. */
const has = (serial) => async (peer) => {
    await peer.next();
    peer.send(answer(serial, prefix(serial)));
    await peer.gone();
};

/** Returns a client for each port; `expire` limits the age of data. */
function clientsOf(rtr, ports, settings = {}) {
    return ports.map((port) => new Client({ host: HOST, port, rtr: rtr.another(),
        settings: { ...SOON, ...settings } }));
}

/** A client that a test plays: `runs` are functions that each make the events of a run, which then
 * takes a moment to end after it was stopped. */
class Played extends EventEmitter {
    #rtr;
    #runs;
    running = 0;
    most = 0; // runs at once

    constructor(rtr, ...runs) {
        super();
        this.#rtr = rtr;
        this.#runs = runs;
    }

    async [SESSION]() {
        return this.#rtr;
    }

    async * [EVENTS](stop) {
        this.running += 1;
        this.most = Math.max(this.most, this.running);
        yield* this.#runs.shift()(this);
        if (!stop.aborted) {
            await once(stop, "abort");
        }
        await sleep(20);
        this.running -= 1;
    }

    /** Returns the event of data. */
    has(serial) {
        const { data } = this.#rtr.loadData(answer(serial, prefix(serial)));
        return { name: "data", value: new Update(this.#rtr, null, data, this),
            todo: { kind: TodoKind.DATA } };
    }

    /** Returns the event of data that are lost. */
    drops() {
        return { name: "dropped", value: new Update(this.#rtr, null, null, this),
            todo: { kind: TodoKind.DROPPED } };
    }
}

/** Returns the event of a connection that is lost. */
const lost = () => ({ name: "failed", value: new Error("lost"),
    todo: { kind: TodoKind.CLOSE, cause: Cause.LOST } });

/** Returns a promise, and a function that settles it and waits until all is done that this
 * begins. */
function gate() {
    let opens = null;
    const open = new Promise((resolve) => {
        opens = resolve;
    });
    return [open, () => {
        opens();
        return sleep(0);
    }];
}

/** Describes an update: the index of its client, and the serial number of the data. */
function shown(clients, { value }) {
    return `${clients.indexOf(value.client)}: ${value.data?.serial ?? "none"}`;
}

/** Starts caches with these scripts, runs a function on their ports, and closes them. */
async function withCaches(scripts, run) {
    const caches = [];
    for (const script of scripts) {
        caches.push(await cache([script]));
    }
    try {
        await run(caches, caches.map(({ port }) => port));
    } finally {
        for (const server of caches) {
            await server.close();
        }
    }
}

export const TESTS = {
    /** The decisions of a group. */
    decides(rtr) {
        const group = rtr.group(3, 0);
        assert.deepEqual(group.settings, { patience: 5000, emptyIsData: false });
        assert.deepEqual([group.wakes, group.best], [5000, null]);
        for (const [decided, expected] of [
            [group.fails(0, 0), decision(SAME, null, null, 1)],
            [group.shows(0, 1, 5), decision(DATA, 1, null, null)],
            [group.fails(0, 1), decision(SAME, null, null, 2)], // its data stay
            [group.shows(0, 2, 5), decision(DATA, 2, null, null)],
            [group.drops(0, 1), decision(SAME, null, null, null)],
            [group.shows(0, 0, 5), decision(DATA, 0, 1, null)], // the others stop
            [group.shows(0, 2, 5), decision(SAME, null, null, null)],
            [group.shows(0, 16, 5), decision(SAME, null, null, null)],
        ]) {
            assert.deepEqual(decided, expected);
        }
        assert.deepEqual([group.wakes, group.best], [Infinity, 0]);
        assert.deepEqual(group.drops(0, 0), decision(NOTHING, null, null, 1));
        assert.equal(group.best, null);
        // The failure of this loss changes nothing.
        assert.deepEqual(group.fails(0, 0), decision(SAME, null, null, null));
        assert.deepEqual([group.counts(0), group.counts(1)], [false, true]);
        assert.deepEqual(group.tick(4999), decision(SAME, null, null, null));
        assert.deepEqual(group.tick(5000), decision(SAME, null, null, 2));
        const empty = rtr.group(1, 0, { emptyIsData: true });
        assert.deepEqual(empty.shows(0, 0, 0), decision(DATA, 0, null, null));
    },

    /** The data of a lost cache stay until the next one has sent an answer; the preferred cache is
     * used again as soon as it has sent one. */
    async prefers(rtr) {
        await withCaches([has(1), has(5)], async ([first], ports) => {
            const clients = clientsOf(rtr, ports);
            const failures = [];
            clients[0].on("failed", (error) => failures.push(error.message));
            const updates = follow(clients);
            const initial = await updates.next();
            assert.equal(shown(clients, initial), "0: 1");
            const next = updates.next();
            await first.close();
            assert.equal(shown(clients, await next), "1: 5");
            assert.deepEqual(Array.from((await next).value.changes(),
                ({ announce, asn }) => [announce, asn]), [[true, 5], [false, 1]]);
            assert.deepEqual(Buffer.from(initial.value.data.bytes),
                Buffer.concat([prefix(1), end(1)]));
            const again = await cache([has(2)], { port: ports[0] });
            assert.equal(shown(clients, await updates.next()), "0: 2");
            const later = updates.next();
            await again.close();
            assert.equal(shown(clients, await later), "1: 5"); // it was restarted
            await updates.return();
            assert.ok(failures.length > 1);
        });
    },

    /** The next cache is asked after the patience if the first is silent; data expire. */
    async hasPatience(rtr) {
        const silent = async (peer) => peer.gone();
        await withCaches([silent, has(5)], async (_, ports) => {
            const clients = clientsOf(rtr, ports);
            const begun = performance.now();
            const updates = follow(clients, { settings: { patience: 200 } });
            assert.equal(shown(clients, await updates.next()), "1: 5");
            assert.ok(performance.now() - begun >= 199);
            await updates.return();
        });
        await withCaches([has(1)], async ([server], ports) => {
            const clients = clientsOf(rtr, ports, { expire: 300 });
            const updates = follow(clients);
            assert.equal(shown(clients, await updates.next()), "0: 1");
            await server.close();
            const { value } = await updates.next();
            assert.equal(value.data, null);
            assert.deepEqual(Array.from(value.changes(), ({ announce }) => announce), [false]);
            await updates.return();
        });
    },

    /** An answer without payloads counts as data if there is only one cache, or if the settings say
     * so. */
    async countsEmpty(rtr) {
        const empty = async (peer) => {
            await peer.next();
            peer.send(response(), end(2));
            await peer.gone();
        };
        await withCaches([empty, has(5)], async (_, ports) => {
            for (const [count, settings, expected] of [[1, {}, "0: 2"], [2, {}, "1: 5"],
                [2, { emptyIsData: true }, "0: 2"]]) {
                const clients = clientsOf(rtr, ports.slice(0, count));
                const failures = [];
                clients[0].on("failed", ({ name }) => failures.push(name));
                const updates = follow(clients, { settings });
                assert.equal(shown(clients, await updates.next()), expected);
                assert.deepEqual(failures, expected === "1: 5" ? ["Empty"] : []);
                await updates.return();
            }
        });
    },

    /** The signal, leaving the loop, or an error of a listener stops all clients, also while an
     * update is awaited. */
    async ends(rtr) {
        await withCaches([has(1), has(5)], async (_, ports) => {
            const clients = clientsOf(rtr, ports);
            const stop = new AbortController();
            const updates = follow(clients, { signal: stop.signal });
            await updates.next();
            const next = updates.next();
            stop.abort();
            await assert.rejects(next, (error) => error.name === "AbortError");
            const others = follow(clients);
            await others.next();
            const last = others.next();
            await others.return();
            assert.deepEqual(await last, { value: undefined, done: true });
            clients[0].once("data", () => {
                throw new Error("the listener's");
            });
            await assert.rejects(follow(clients).next(), /the listener's/);
            assert.equal((await clients[0].fetch()).serial, 1);
            await assert.rejects(follow([clients[0], clients[0]],
                { settings: { patience: 0 } }).next(), /follows its cache already/);
        });
    },

    /** A client is stopped by the data of a preferred one: what it tells later counts for nothing,
     * and it is started again after its run has ended. */
    async restartsInTurn(rtr) {
        const session = rtr.another();
        const [[first, openFirst], [second, openSecond], [again, openAgain]] =
            Array.from({ length: 3 }, gate);
        const clients = [
            new Played(session, async function* events(client) {
                yield lost();
                await first;
                yield client.has(1);
                await again;
                yield client.drops();
            }),
            new Played(session, async function* events(client) {
                yield client.has(5);
                await second;
                yield client.has(6);
            }, async function* events(client) {
                yield client.has(7);
            }),
        ];
        const updates = follow(clients);
        assert.equal(shown(clients, await updates.next()), "1: 5");
        await openFirst();
        await openSecond(); // behind the first client's data, which stop it
        assert.equal(shown(clients, await updates.next()), "0: 1");
        const next = updates.next();
        await openAgain();
        assert.equal(shown(clients, await next), "0: none");
        assert.equal(shown(clients, await updates.next()), "1: 7");
        assert.equal(clients[1].most, 1);
        await updates.return();
    },

    /** Leaving the loop waits until all runs have ended, also of a client whose data nobody has
     * taken. */
    async awaitsRuns(rtr) {
        const [more, openMore] = gate();
        const client = new Played(rtr.another(), async function* events() {
            yield client.has(1);
            await more;
            yield client.has(2);
        });
        const updates = follow([client]);
        assert.equal(shown([client], await updates.next()), "0: 1");
        await openMore();
        await updates.return();
        assert.equal(client.running, 0);
    },

    /** A process ends by itself after its client: nothing is left open. */
    async leavesNothingOpen() {
        const program = fileURLToPath(new URL("leaves.js", import.meta.url));
        const silent = createServer().listen(0, HOST);
        await once(silent, "listening");
        await withCaches([has(1)], async (_, [port]) => {
            for (const [words, expected] of [[["breaks", port], "1"], [["fetches", port], "1"],
                [["aborts", port], "AbortError"], [["follows", port], "AbortError"],
                [["aborts", silent.address().port], "AbortError"],
                [["aborts", silent.address().port, "tls"], "AbortError"],
                [["follows", silent.address().port], "AbortError"]]) {
                const child = spawn(process.execPath, [program, ...words.map(String)],
                    { stdio: ["ignore", "pipe", "inherit"], timeout: 60_000 });
                const [line] = await lineOf(child.stdout, /.*/);
                const [status, signal] = await once(child, "close");
                assert.deepEqual([line, status, signal], [expected, 0, null], words.join(" "));
            }
        });
        silent.close();
    },

    /** With the cache in C: all data, and changes after its notify; and the example. */
    async followsC(rtr, _, t) {
        const folder = mkdtempSync(join(tmpdir(), "rtr-"));
        const program = compiledCache(folder);
        if (program === null) {
            rmSync(folder, { recursive: true });
            t.skip("no C compiler for the archive here");
            return;
        }
        const [file, next] = [join(folder, "data"), join(folder, "next")];
        writeFileSync(file, Buffer.concat([prefix(1), prefix(2), end(1)]));
        const served = spawn(program, [file, "--listen", `${HOST}:0`],
            { stdio: ["ignore", "ignore", "pipe"] });
        try {
            const port = Number((await lineOf(served.stderr, /listening on .*:(\d+)$/))[1]);
            const [client] = clientsOf(rtr, [port]);
            const updates = client[Symbol.asyncIterator]();
            assert.equal((await updates.next()).value.data.count, 2);
            writeFileSync(next, Buffer.concat([prefix(2), prefix(3), end(2)]));
            renameSync(next, file);
            await lineOf(served.stderr, /serial 2: /);
            served.stderr.resume();
            client.askNow(); // its notify may come a minute later
            const { value } = await updates.next();
            assert.deepEqual(Array.from(value.changes(), ({ announce, asn }) => [announce, asn]),
                [[true, 3], [false, 1]]);
            await updates.return();
        } finally {
            served.kill();
            rmSync(folder, { recursive: true });
        }
    },

    /** The example of several caches. */
    async exampleOfSeveral() {
        const program = fileURLToPath(new URL("../examples/follow.js", import.meta.url));
        await withCaches([has(5)], async (_, [port]) => {
            const words = [await unused(), port].map((each) => `${HOST}:${each}`);
            const child = spawn(process.execPath, [program, ...words],
                { stdio: ["ignore", "pipe", "inherit"], timeout: 60_000 });
            const [line] = await lineOf(child.stdout, /.*/);
            assert.equal(line, `${HOST}:${port}: serial number 5`);
            child.kill();
            await once(child, "exit");
        });
    },

    /** The example of one cache: it prints changes until this many updates, or an interrupt. */
    async example() {
        const program = fileURLToPath(new URL("../examples/client.js", import.meta.url));
        const script = async (peer) => {
            await peer.next();
            peer.send(answer(1, prefix(1), prefix(2)));
            if (await peer.next() !== null) {
                peer.send(answer(2, prefix(1, false)));
            }
            await peer.gone();
        };
        await withCaches([script], async (_, [port]) => {
            const child = spawn(process.execPath, [program, HOST, String(port), "1"],
                { stdio: ["ignore", "pipe", "inherit"], timeout: 60_000 });
            const lines = [];
            for await (const line of createInterface({ input: child.stdout })) {
                lines.push(line);
            }
            assert.deepEqual(lines, ["+ IPv4 prefix 10.0.1.0/24-24 AS1",
                "+ IPv4 prefix 10.0.2.0/24-24 AS2", "serial number 1, payloads: 2"]);
            const interrupted = spawn(process.execPath, [program, HOST, String(port)],
                { stdio: ["ignore", "pipe", "inherit"], timeout: 60_000 });
            await lineOf(interrupted.stdout, /^serial number 1/);
            interrupted.kill("SIGINT");
            assert.deepEqual(await once(interrupted, "exit"), [0, null]);
        });
    },
};
