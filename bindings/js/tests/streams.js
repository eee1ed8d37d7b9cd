// Tests of a Server over streams that the tests play.

import assert from "node:assert/strict";
import { once } from "node:events";
import { Duplex } from "node:stream";
import { setTimeout as sleep } from "node:timers/promises";
import { Reason, Server } from "../server.js";
import { RESET_QUERY, response } from "./caches.js";
import { manyOf, until } from "./servers.js";

/** The most bytes that a stream gets at a time: a record of TLS, and a unit before it. */
const MOST = (1 << 14) + response().length;

/** A stream to a router that takes bytes only by `takes`. */
class Slow extends Duplex {
    #left = 0;
    #done = null;

    _read() {}

    _write(bytes, encoding, done) {
        [this.#left, this.#done] = [bytes.length, done];
    }

    /** Takes `count` bytes of a write, and calls the server once the write is complete. */
    takes(count) {
        this.#left -= count;
        if (this.#left <= 0) {
            this.#done();
        }
        this.emit("readable");
    }
}

export const TESTS = {
    /** A router that takes 16 KiB each 20 seconds isn't cut off; once it has taken nothing for the
     * limit of 30 seconds it is. */
    async measuresProgress(rtr, _, t) {
        const server = new Server({ rtr: rtr.another() });
        const ended = [];
        server.on("ended", (error) => ended.push(error));
        await server.update(manyOf(rtr, 1, 20_000));
        let time = 1_000_000;
        const clock = t.mock.method(performance, "now", () => time);
        const stream = new Slow();
        await server.serve(stream);
        stream.push(RESET_QUERY);
        await until(() => stream.writableLength > 0);
        for (let count = 0; count < 8; count += 1) {
            time += 20_000;
            stream.takes(1 << 14);
            await sleep(0);
            assert.ok(!stream.destroyed, `cut off after ${count} takes`);
        }
        time += 29_999;
        stream.emit("readable");
        assert.ok(!stream.destroyed);
        time += 1;
        stream.emit("readable");
        assert.ok(stream.destroyed);
        await until(() => ended.length === 1);
        assert.equal(ended[0].reason, Reason.SLOW);
        clock.mock.restore();
        await server.close();
    },

    /** A stream gets the next bytes of an answer after it has taken the last ones, also if the
     * router sends more meanwhile. */
    async writesInTurn(rtr) {
        const server = new Server({ rtr: rtr.another() });
        await server.update(manyOf(rtr, 1, 20_000));
        const stream = new Slow();
        await server.serve(stream);
        stream.push(RESET_QUERY);
        await until(() => stream.writableLength > 0);
        for (let count = 0; count < 8; count += 1) {
            stream.push(RESET_QUERY);
            await sleep(0);
            assert.ok(stream.writableLength <= MOST, `${stream.writableLength} bytes`);
        }
        await server.close();
    },

    /** A router that left leaves no timer, which would hold its answer until it expires. */
    async leavesNoTimer(rtr, _, t) {
        const [sets, clears] = ["setTimeout", "clearTimeout"].map((name) => (
            t.mock.method(globalThis, name)));
        const server = new Server({ rtr: rtr.another() });
        const stream = new Slow();
        await server.serve(stream);
        assert.ok(sets.mock.callCount() > 0);
        stream.destroy();
        await once(stream, "close");
        const cleared = clears.mock.calls.map(({ arguments: [timer] }) => timer);
        assert.ok(sets.mock.calls.every(({ result }) => cleared.includes(result)));
        await server.close();
    },
};
