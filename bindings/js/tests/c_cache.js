// The cache in C, as a peer for tests.

import { spawnSync } from "node:child_process";
import { existsSync } from "node:fs";
import { join } from "node:path";
import { createInterface } from "node:readline";
import { fileURLToPath } from "node:url";

/** Compiles the cache in C; returns null if that isn't possible. */
export function compiledCache(folder) {
    const C = fileURLToPath(new URL("../../c", import.meta.url));
    const archive = ["../lib", "../../prebuilt"]
        .map((folder) => join(C, folder, "x86_64", "librtr_wire.a")).find(existsSync);
    const program = join(folder, "cache");
    const done = process.platform === "linux" && process.arch === "x64"
        ? spawnSync("cc", ["-O1", "-o", program, "cache.c", "rtr_cache.c", archive], { cwd: C })
        : {};
    return done.status === 0 ? program : null;
}

/** Waits for the first line that matches, and returns the match. */
export async function lineOf(stream, pattern) {
    for await (const line of createInterface({ input: stream })) {
        const match = pattern.exec(line);
        if (match) {
            return match;
        }
    }
    throw new Error(`no line matches ${pattern}`);
}
