// Caches for tests, which serve each connection by a script.

import { once } from "node:events";
import { createServer } from "node:net";
import { createServer as createTlsServer } from "node:tls";

/** Returns the bytes of a unit: its version, its kind, the two bytes after them, and the body after
 * its length. */
export function unit(version, kind, number, ...rest) {
    const bytes = Buffer.alloc(8 + rest.length);
    bytes.set([version, kind]);
    bytes.writeUInt16BE(number, 2);
    bytes.writeUInt32BE(bytes.length, 4);
    bytes.set(rest, 8);
    return bytes;
}

const word = (number) => [24, 16, 8, 0].map((shift) => (number >>> shift) & 255);

/** A cache response of version 1 (RFC 8210 section 5.5). */
export const response = (session = 7) => unit(1, 3, session);

/** An IPv4 prefix that is announced or withdrawn: 10.0.N.0/24 of AS N (section 5.6). */
export const prefix = (n, isAnnounced = true) => unit(1, 4, 0, isAnnounced ? 1 : 0, 24, 24, 0,
    10, 0, n, 0, ...word(n));

/** An end of data (section 5.8). */
export const end = (serial, session = 7, [refresh, retry, expire] = [3600, 600, 7200]) => unit(1, 7,
    session, ...[serial, refresh, retry, expire].flatMap(word));

/** A whole answer: all data, or changes. */
export const answer = (serial, ...units) => Buffer.concat([response(), ...units, end(serial)]);

export const notify = (serial, session = 7) => unit(1, 0, session, ...word(serial));
export const cacheReset = () => unit(1, 8, 0);

/** An error report without a unit (section 5.11). */
export const report = (code, text) => unit(1, 10, code, ...word(0), ...word(text.length),
    ...Buffer.from(text));

export const RESET_QUERY = unit(1, 2, 0);
export const serialQuery = (serial, session = 7) => unit(1, 1, session, ...word(serial));

/** Returns a port at which nobody listens. */
export async function unused() {
    const server = createServer().listen(0, "127.0.0.1");
    await once(server, "listening");
    const { port } = server.address();
    server.close();
    await once(server, "close");
    return port;
}

/** A connection, for a script. */
export class Peer {
    #came = Buffer.alloc(0);

    constructor(socket) {
        this.socket = socket;
    }

    send(...units) {
        this.socket.write(Buffer.concat(units));
    }

    /** Waits for the next unit; null at the end. */
    async next() {
        while (this.#came.length < 8 || this.#came.length < this.#came.readUInt32BE(4)) {
            const more = this.socket.read();
            if (more !== null) {
                this.#came = Buffer.concat([this.#came, more]);
            } else if (this.socket.readableEnded || this.socket.destroyed) {
                return null;
            } else {
                await this.#changed();
            }
        }
        const size = this.#came.readUInt32BE(4);
        const taken = this.#came.subarray(0, size);
        this.#came = this.#came.subarray(size);
        return taken;
    }

    /** Waits until bytes are received, or the connection is over. */
    async #changed() {
        const done = new AbortController();
        await Promise.race(["readable", "end", "close"].map((name) => (
            once(this.socket, name, { signal: done.signal }).catch(() => {}))));
        done.abort();
    }

    /** Waits until the router closes. */
    async gone() {
        while (await this.next() !== null) { /* the units are ignored */ }
    }

    close() {
        this.socket.end();
    }

    /** Resets the connection. */
    reset() {
        this.socket.resetAndDestroy();
    }
}

/** Starts a cache that serves each connection by the next script, or by the last one if there are
 * no more. It has a `port`, the `errors` of scripts, and `close`. It uses TLS if `tls` is set. */
export async function cache(scripts, { tls, port = 0, host = "127.0.0.1" } = {}) {
    const [open, errors] = [new Set(), []];
    let count = 0;
    const serve = (socket) => {
        const script = scripts[Math.min(count, scripts.length - 1)];
        count += 1;
        socket.on("error", () => {});
        script(new Peer(socket)).catch((error) => errors.push(error))
            .finally(() => socket.destroySoon());
    };
    const options = { allowHalfOpen: true };
    const server = tls ? createTlsServer({ ...tls, ...options }, serve)
        : createServer(options, serve);
    server.on("tlsClientError", () => {});
    server.on("connection", (socket) => {
        open.add(socket.on("close", () => open.delete(socket)));
    });
    server.listen(port, host);
    await once(server, "listening");
    return {
        port: server.address().port,
        get connections() {
            return count;
        },
        async close() {
            open.forEach((socket) => socket.destroy());
            server.close();
            await once(server, "close");
            if (errors.length > 0) {
                throw errors[0];
            }
        },
    };
}
