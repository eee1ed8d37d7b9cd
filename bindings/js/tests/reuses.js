// A worker for handshakes.js: a router that resets its connection to a server over TLS, connects
// again from the same port at once, and asks for all data. It sends the answer as a message.
//
// `flag` is 1 once the first connection is there; the worker continues when it is 2, and sets it to
// 3 once the second one is there.

import { once } from "node:events";
import { connect } from "node:net";
import { connect as connectTls } from "node:tls";
import { parentPort, workerData } from "node:worker_threads";
import { RESET_QUERY, answer, prefix } from "./caches.js";

const { port, localPort, ca, flag } = workerData;
const HOST = "127.0.0.1";

async function connected() {
    const socket = connect({ port, host: HOST, localPort, localAddress: HOST });
    await once(socket, "connect");
    return socket;
}

function says(number) {
    Atomics.store(flag, 0, number);
    Atomics.notify(flag, 0);
}

const first = await connected();
says(1);
Atomics.wait(flag, 0, 1);
first.resetAndDestroy();
await once(first, "close");
const second = await connected();
says(3);
const stream = connectTls({ socket: second, host: HOST, ca });
stream.on("error", () => {});
stream.write(RESET_QUERY);
const { length } = answer(1, prefix(1));
const pieces = [];
for await (const bytes of stream) {
    pieces.push(bytes);
    if (Buffer.concat(pieces).length >= length) {
        break;
    }
}
parentPort.postMessage(Buffer.concat(pieces));
