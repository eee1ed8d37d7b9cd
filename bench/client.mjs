// Follows a cache with the client for Node, which clients.py measures: prints the lines of rtr_diff
// for changes, and on standard error how many payloads there are.
//
// usage: node client.mjs HOST:PORT MODULE [--once]

import { readFile } from "node:fs/promises";
import { Client } from "../bindings/js/client.js";
import { load } from "../bindings/js/rtr_wire.js";

const [address, module, once] = process.argv.slice(2);
const [, host, port] = /^(.*):(\d+)$/.exec(address);
const rtr = await load(await readFile(module));
const client = new Client({ host, port: Number(port), settings: { highest: 1 }, rtr });
client.on("failed", (error) => console.error(error.message));
for await (const update of client) {
    let lines = "";
    for (const unit of update.changes()) {
        lines += `${rtr.changeLine(unit)}\n`;
    }
    process.stdout.write(lines);
    console.error(`serial ${update.data.serial}: ${update.data.count} payloads`);
    if (once) {
        break;
    }
}
