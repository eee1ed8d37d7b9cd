// Tests of a Server over TLS.

import assert from "node:assert/strict";
import { once } from "node:events";
import { setTimeout as sleep } from "node:timers/promises";
import { connect as connectTls } from "node:tls";
import { Worker } from "node:worker_threads";
import { Client } from "../client.js";
import { Reason } from "../server.js";
import { RESET_QUERY, answer, prefix, unused } from "./caches.js";
import { NO_OPENSSL, certified } from "./certificates.js";
import { HOST, dataOf, router, until, withServer } from "./servers.js";

export const TESTS = {
    /** Over TLS a router has to prove who it is, if the server asks for it; a handshake counts to
     * the limits. */
    async provesBoth(rtr, _, t) {
        const [own, routers] = ["IP:127.0.0.1", "DNS:router.example"].map(certified);
        if (own === null) {
            t.skip(NO_OPENSSL);
            return;
        }
        const tls = { ...own, ca: routers.cert, requestCert: true };
        await withServer(rtr, {}, async (server, port, ended) => {
            await server.update(dataOf(rtr, 1, 1));
            const client = new Client({ host: HOST, port, tls: { ...routers, ca: own.cert } });
            assert.equal((await client.fetch()).serial, 1);
            for (const identity of [{}, own]) {
                const stranger = connectTls({ port, host: HOST, ca: own.cert, ...identity });
                stranger.on("error", () => {});
                await new Promise((resolve) => stranger.on("close", resolve));
            }
            await until(() => ended.length === 2);
            assert.equal(ended[1].code, "DEPTH_ZERO_SELF_SIGNED_CERT");
            const wrong = await router(port);
            wrong.send(RESET_QUERY);
            await wrong.gone();
            wrong.close();
            await until(() => ended.length === 3);
        }, { tls });
        await withServer(rtr, { firstLimit: 500 }, async (_server, port, ended) => {
            const silent = await router(port);
            assert.equal(await silent.next(), null);
            silent.close();
            await until(() => ended.length === 1);
            assert.equal(ended[0].reason, Reason.SLOW);
        }, { tls });
    },

    /** A router that reuses address and port of one whose close Node hasn't reported yet is served
     * over TLS. */
    async reusesPort(rtr, _, t) {
        const own = certified("IP:127.0.0.1");
        if (own === null) {
            t.skip(NO_OPENSSL);
            return;
        }
        await withServer(rtr, {}, async (server, port, ended) => {
            await server.update(dataOf(rtr, 1, 1));
            const localPort = await unused();
            const flag = new Int32Array(new SharedArrayBuffer(4));
            const other = new Worker(new URL("reuses.js", import.meta.url),
                { workerData: { port, localPort, ca: own.cert, flag } });
            const message = once(other, "message");
            Atomics.wait(flag, 0, 0); // the first connection is in the queue of the system
            await sleep(100); // it is accepted
            Atomics.store(flag, 0, 2);
            Atomics.notify(flag, 0);
            Atomics.wait(flag, 0, 2); // it is reset, and the second one is in the queue
            const [got] = await message;
            assert.deepEqual(Buffer.from(got), answer(1, prefix(1)));
            await until(() => ended.length > 0);
        }, { tls: own });
    },
};
