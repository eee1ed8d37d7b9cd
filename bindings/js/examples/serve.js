// Serves the data of a file to routers, and reads it again at SIGHUP, until an interrupt.
//
// usage: node serve.js FILE PORT

import { readFile } from "node:fs/promises";
import { load } from "../rtr_wire.js";
import { Server } from "../server.js";

const [file, port, ...others] = process.argv.slice(2);
if (!file || !/^\d+$/.test(port) || port >= 2 ** 16 || others.length > 0) {
    console.error("usage: node serve.js FILE PORT");
    process.exit(2);
}
const kept = `${file}.kept`; // what a restart needs

const rtr = await load();
const server = new Server({ rtr });
server.on("ended", (error, { address }) => console.error(`${address}: ${error.message}`));

async function serve() {
    const { data } = rtr.loadData(await readFile(file));
    await server.updateSaved(data, kept);
    console.log(`serial number ${data.serial}, payloads: ${data.count}`);
}

process.on("SIGHUP", () => serve().catch((error) => console.error(error.message)));
process.once("SIGINT", () => server.close().then(() => process.exit()));

await server.restore(kept).catch((error) => {
    if (error.code !== "ENOENT") {
        throw error;
    }
});
await serve();
await server.listen({ port: Number(port) });
