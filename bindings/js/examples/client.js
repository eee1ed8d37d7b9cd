// Follows a cache, and prints what changes, until an interrupt.
//
// usage: node client.js HOST PORT [UPDATES]

import { load } from "../rtr_wire.js";
import { Client } from "../client.js";

const [host, port, updates = "Infinity", ...others] = process.argv.slice(2);
if (!host || !/^\d+$/.test(port) || port >= 2 ** 16 || !(updates > 0) || others.length > 0) {
    console.error("usage: node client.js HOST PORT [UPDATES]");
    process.exit(2);
}
const stop = new AbortController();
process.once("SIGINT", () => stop.abort());

const rtr = await load();
const client = new Client({ host, port: Number(port), signal: stop.signal, rtr });
client.on("noData", (error) => console.error(error.message));
client.on("failed", (error) => console.error(error.message)); // it reconnects

let left = Number(updates);
try {
    for await (const update of client) {
        for (const unit of update.changes()) {
            console.log(rtr.changeLine(unit));
        }
        const { data } = update;
        console.log(data ? `serial number ${data.serial}, payloads: ${data.count}` : "no data");
        left -= 1;
        if (left <= 0) {
            break;
        }
    }
} catch (error) {
    if (!stop.signal.aborted) {
        throw error;
    }
}
