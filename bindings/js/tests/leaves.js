// Uses a client, and has to end by itself: nothing may keep the process running.
//
// usage: node leaves.js breaks|aborts|fetches|follows PORT [tls]

import { Client, follow } from "../client.js";

const [way, port, tls] = process.argv.slice(2);
const stop = new AbortController();

function newClient(settings = {}) {
    return new Client({ host: "127.0.0.1", port: Number(port), signal: stop.signal, settings,
        ...(tls ? { tls: {} } : {}) });
}

/** Aborts a run after a time, and returns how it ended. */
async function aborted(running) {
    setTimeout(() => stop.abort(), 100);
    try {
        await running;
    } catch (error) {
        return error.name;
    }
    return "it ended";
}

const WAYS = {
    async breaks() {
        for await (const { data } of newClient()) {
            return data.serial;
        }
        return null;
    },
    aborts: () => aborted(newClient().run()),
    async fetches() {
        return (await newClient().fetch()).serial;
    },
    async follows() {
        const updates = follow([newClient(), newClient()], { settings: { patience: 20 } });
        return aborted(updates.next().then(() => updates.next()));
    },
};

console.log(await WAYS[way]());
