// Follows a cache with the client for Node, and prints the lines of rtr_diff for changes.
//
// usage: node follow.js HOST:PORT MODULE [--tls IDENTITY]
//
// IDENTITY is a file with a certificate for the host, by which both ends are known, and its key.
// The client then asks in version 1.
// If FAULTS_PAUSE has milliseconds, it reconnects after these. If FAULTS_MEMORY names a file, that
// gets a line at each hundredth end of a connection: how many objects and bytes are reachable, by a
// heap snapshot, which begins with a collection. Code and what the engine notes about it aren't
// counted; bytes in the memory of the module are.

import { appendFileSync } from "node:fs";
import { readFile } from "node:fs/promises";
import { getHeapSnapshot } from "node:v8";
import { Client } from "../../bindings/js/client.js";
import { Heap } from "../../bindings/js/memory.js";
import { load } from "../../bindings/js/rtr_wire.js";
import { identified } from "./secured.js";

const { FAULTS_PAUSE: pause, FAULTS_MEMORY: path } = process.env;

// The types of a snapshot's nodes that are objects of programs, and what these have outside of the
// heap, as buffers.
const COUNTED = new Set(["bigint", "closure", "native", "number", "object", "regexp"]);

// The sizes of the allocated parts of the module's memory, by their addresses.
const allocated = new Map();
const { take, release } = Heap.prototype;
Heap.prototype.take = function (length) {
    const start = take.call(this, length);
    allocated.set(start, length);
    return start;
};
Heap.prototype.release = function (start) {
    allocated.delete(start);
    return release.call(this, start);
};

/** Appends a line to the file. */
async function writeMemory() {
    let text = "";
    for await (const part of getHeapSnapshot()) {
        text += part;
    }
    const { snapshot: { meta }, nodes } = JSON.parse(text);
    const [size, type, bytes] = [meta.node_fields.length, meta.node_fields.indexOf("type"),
        meta.node_fields.indexOf("self_size")];
    const sizes = [...allocated.values()];
    for (let node = 0; node < nodes.length; node += size) {
        if (COUNTED.has(meta.node_types[0][nodes[node + type]])) {
            sizes.push(nodes[node + bytes]);
        }
    }
    appendFileSync(path, `${sizes.length} ${sizes.reduce((sum, bytes) => sum + bytes)}\n`);
}

const [address, module, secures, identity] = process.argv.slice(2);
const [, host, port] = /^(.*):(\d+)$/.exec(address);
const rtr = await load(await readFile(module));
const settings = { highest: secures ? 1 : 2, ...pause && { pause: Number(pause) } };
const tls = secures && await identified(identity);
const client = new Client({ host, port: Number(port), settings, rtr, ...tls && { tls } });
let ends = 0;
client.on("failed", async (error) => {
    console.error(error.message);
    ends += 1;
    if (path && ends % 100 === 0) {
        await writeMemory();
    }
    if (pause) {
        client.askNow();
    }
});
for await (const update of client) {
    for (const unit of update.changes()) {
        console.log(rtr.changeLine(unit));
    }
}
