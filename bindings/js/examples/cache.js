// A cache: serves the data of a file to routers, and reloads it when it changes, until a signal.
//
// usage: node cache.js FILE [--listen ADDRESS:PORT].. [--max-clients N] [--refuse]
//
// The file is a recording or a list: replace it by renaming. Data are saved to FILE.kept before
// they are served, and a restart loads them from there; if saving fails, it is retried after 1, 2,
// 4 .. seconds, up to a minute. If FILE.kept is damaged, the cache doesn't start: remove it, and
// give the data a session that was never used.

import { open, stat } from "node:fs/promises";
import { setTimeout as pause } from "node:timers/promises";
import { parseArgs } from "node:util";
import { Fault, load } from "../rtr_wire.js";
import { Server, UpdateError, WARNING_SERIAL_0 } from "../server.js";

// Milliseconds between two checks of the file.
const LOOK = 250;

const OPTIONS = { "listen": { type: "string", multiple: true },
    "max-clients": { type: "string", multiple: true }, "refuse": { type: "boolean" } };

/** Returns the host and the port of ADDRESS:PORT. Throws if it is something else. */
function addressOf(text) {
    const [, host, port] = /^\[?(.*?)\]?:(\d+)$/.exec(text);
    if (Number(port) > 65_535) {
        throw new RangeError(`${port} is no port`);
    }
    return [host, Number(port)];
}

/** Returns the limit that is given at most once. Throws if it is something else. */
function limitsOf(given) {
    if (given.length > 1 || !given.every((count) => /^[1-9]\d{0,8}$/.test(count))) {
        throw new RangeError(`${given} is no limit`);
    }
    return given.length === 0 ? {} : { mostConnections: Number(given[0]) };
}

/** Returns the options and the file; exits with status 2 for wrong arguments. */
function argumentsOf(words) {
    try {
        const { values, positionals } = parseArgs({ args: words, options: OPTIONS,
            allowPositionals: true });
        const { listen = ["[::]:3323"], refuse = false, "max-clients": given = [] } = values;
        const settings = { refuses: refuse, ...limitsOf(given) };
        if (positionals.length === 1 && positionals[0] !== "") {
            return { file: positionals[0], where: listen.map(addressOf), settings };
        }
    } catch {
        // the usage follows
    }
    console.error("usage: cache.js FILE [--listen ADDRESS:PORT].. [--max-clients N] [--refuse]");
    return process.exit(2);
}

const { file, where, settings } = argumentsOf(process.argv.slice(2));
const kept = `${file}.kept`;
const stop = new AbortController();
["SIGINT", "SIGTERM"].forEach((name) => process.once(name, () => stop.abort()));

const rtr = await load();
const server = new Server({ rtr, settings });
server.on("ended", ({ message }, { address, port }) => say(`${address}:${port}: ${message}`));
server.on("failed", ({ message }) => say(message));

/** Writes a line on standard error, with the time before it. */
function say(line) {
    console.error(`${new Date().toISOString().replace(/\.\d+/, "")} ${line}`);
}

/** Says which data are served, and warns of serial number 0. */
function sayData(path, { end: { session, serial }, count }) {
    say(`${path}: session ${session} serial ${serial}: ${count} payload${count === 1 ? "" : "s"}`);
    if (serial === 0) {
        say(`${path}: ${WARNING_SERIAL_0}`);
    }
}

/** Serves the data from before a restart, unless there are none. */
async function restore() {
    try {
        sayData(kept, await server.restore(kept));
    } catch (error) {
        if (error.code !== "ENOENT") {
            throw new Error(`${kept}: ${error.message}`);
        }
    }
}

/**
 * Returns whether a file isn't as the one that was seen last. While another file is renamed to the
 * path, the path may still lead to the old file, which has lost its last link: that sets the time
 * of its inode, and is no change.
 */
function differs(found, seen) {
    const names = ["dev", "ino", "size", "mtimeNs", ...found.nlink > 0n ? ["ctimeNs"] : []];
    return seen === null || names.some((name) => found[name] !== seen[name]);
}

/**
 * Returns the state of the file, and its bytes unless it is as the one that was seen last. Another
 * file may have the path at any time: the state is that of the file that is read.
 */
async function read(seen) {
    if (!differs(await stat(file, { bigint: true }), seen)) {
        return [seen, null];
    }
    const opened = await open(file);
    try {
        const found = await opened.stat({ bigint: true });
        return differs(found, seen) ? [found, await opened.readFile()] : [seen, null];
    } finally {
        await opened.close();
    }
}

/** Serves the data of the file, once they are saved. Throws the errors of saving. */
async function serve(bytes) {
    let loaded = null;
    try {
        loaded = rtr.loadData(bytes);
        await server.updateSaved(loaded.data, kept);
    } catch (error) {
        if (!(error instanceof Fault || error instanceof UpdateError)) {
            throw error;
        }
        say(`${file}: ${error.message}`);
        return;
    }
    sayData(file, server.data);
    if (loaded.hasCut) {
        say(`${file}: left out: an answer without an end of data`);
    }
}

/** Follows the file until the signal. */
async function follow() {
    let [seen, failure, retry] = [null, null, 0];
    for (;; await pause(retry || LOOK, null, { signal: stop.signal })) {
        let [found, bytes] = [null, null];
        try {
            [found, bytes] = await read(seen);
        } catch ({ message }) {
            if (message !== failure) {
                say(`${file}: ${message}`);
            }
            failure = message;
            continue;
        }
        failure = null;
        try {
            if (bytes !== null) {
                await serve(bytes);
            }
            [seen, retry] = [found, 0];
        } catch ({ message }) {
            say(`${kept}: ${message}`);
            retry = rtr.retryAfter(retry);
        }
    }
}

try {
    await restore();
    for (const [host, port] of where) {
        const { address, port: bound } = await server.listen({ host, port });
        say(`listening on ${address}:${bound}`);
    }
    await follow();
} catch (error) {
    if (!stop.signal.aborted) {
        say(error.message);
        process.exitCode = 1;
    }
} finally {
    await server.close();
}
