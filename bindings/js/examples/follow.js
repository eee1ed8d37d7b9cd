// Follows the first of several caches that answers, and prints whose data are used.
//
// usage: node follow.js HOST:PORT..

import { Client, follow } from "../client.js";

const addresses = process.argv.slice(2);
const parsed = addresses.map((address) => /^(.+):(\d+)$/.exec(address));
const areUsable = parsed.every((parts) => parts !== null && parts[2] < 2 ** 16);
if (addresses.length === 0 || !areUsable || new Set(addresses).size < addresses.length) {
    console.error("usage: node follow.js HOST:PORT..");
    process.exit(2);
}
const clients = parsed.map(([, host, port]) => new Client({ host, port: Number(port) }));
for await (const { data, client } of follow(clients)) {
    const address = addresses[clients.indexOf(client)];
    console.log(`${address}: ${data ? `serial number ${data.serial}` : "no data"}`);
}
