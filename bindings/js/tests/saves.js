// Tests of which file a server saves to.

import assert from "node:assert/strict";
import { existsSync, mkdirSync, readFileSync, rmdirSync, rmSync, symlinkSync, writeFileSync }
    from "node:fs";
import { join } from "node:path";
import { dataOf, withFolder, withServer } from "./servers.js";

export const TESTS = {
    /** A file that a server neither restored nor wrote isn't replaced, be it whole or damaged,
     * until it is restored or removed. A refusal changes nothing. */
    async replacesNoOthersFile(rtr) {
        await withFolder(async (folder) => {
            const path = join(folder, "state");
            const refused = { name: "NotRestored", code: "EEXIST", path,
                message: `${path}: the file exists, and wasn't restored` };
            const saves = (server) => server.updateSaved(dataOf(rtr, 2, 2), path);
            const damaged = (server) => assert.rejects(server.restore(path),
                { message: "the saved file is damaged: the data need a new session" });
            for (const [bytes, before, then] of [
                [null, () => {}, (server) => server.restore(path)],
                [null, () => {}, () => rmSync(path)],
                [Buffer.from("rtrkept2"), damaged, () => rmSync(path)],
                [Buffer.alloc(0), damaged, () => rmSync(path)],
            ]) {
                rmSync(path, { force: true });
                await withServer(rtr, {}, (server) => server.updateSaved(dataOf(rtr, 1, 1), path));
                const content = bytes ?? readFileSync(path);
                writeFileSync(path, content);
                await withServer(rtr, {}, async (server) => {
                    await before(server);
                    await assert.rejects(saves(server), refused);
                    await assert.rejects(saves(server), refused);
                    assert.equal(server.data, null);
                    assert.deepEqual(readFileSync(path), content);
                    await then(server);
                    await saves(server);
                });
                await withServer(rtr, {}, async (server) => {
                    assert.equal((await server.restore(path)).serial, 2);
                });
            }
        });
    },

    /** A refusal names no file. One that appears after a first save failed isn't replaced, nor is a
     * link to no file. */
    async replacesNoNewFile(rtr) {
        await withFolder(async (folder) => {
            const [path, other] = [join(folder, "state"), join(folder, "other")];
            const refused = { name: "NotRestored", path };
            writeFileSync(path, "");
            await withServer(rtr, {}, async (server) => {
                await assert.rejects(server.updateSaved(dataOf(rtr, 1, 1), path), refused);
                await server.updateSaved(dataOf(rtr, 1, 1), other);
            });
            rmSync(path);
            await withServer(rtr, {}, async (server) => {
                mkdirSync(`${path}.new`);
                await assert.rejects(server.updateSaved(dataOf(rtr, 1, 1), path),
                    { code: "EISDIR" });
                rmdirSync(`${path}.new`);
                symlinkSync("nowhere", path);
                await assert.rejects(server.update(dataOf(rtr, 1, 1)), refused);
                await assert.rejects(server.updateSaved(dataOf(rtr, 1, 1), path), refused);
                rmSync(path);
                await server.update(dataOf(rtr, 1, 1));
                assert.equal(readFileSync(path).subarray(0, 8).toString(), "rtrkept2");
            });
        });
    },

    /** A server saves all its data to one file. */
    async savesToOneFile(rtr) {
        await withFolder(async (folder) => {
            const [path, other] = [join(folder, "state"), join(folder, "other")];
            for (const begin of [(server) => server.updateSaved(dataOf(rtr, 1, 1), path),
                (server) => server.restore(path)]) {
                await withServer(rtr, {}, async (server) => {
                    await begin(server);
                    const { serial } = server.data;
                    const next = dataOf(rtr, serial + 1, 2);
                    await assert.rejects(server.updateSaved(next, other), { name: "OtherFile",
                        message: `${other}: the data are saved in another file: ${path}`,
                        path: other });
                    assert.equal(server.data.serial, serial);
                    assert.ok(!existsSync(other));
                    await server.update(next);
                });
            }
            await withServer(rtr, {}, async (server) => {
                assert.equal((await server.restore(path)).serial, 3);
            });
        });
    },

    /** A file may be named by any path to it, but not by another link; and a relative path names it
     * only in the folder in which it did at first. */
    async takesSpellingsOfOneFile(rtr) {
        const before = process.cwd();
        await withFolder(async (folder) => {
            mkdirSync(join(folder, "a"));
            symlinkSync("a", join(folder, "link"));
            const refused = { name: "OtherFile" };
            for (const begin of [(server) => server.updateSaved(dataOf(rtr, 1, 1), "./a/kept"),
                (server) => server.restore("a/kept")]) {
                process.chdir(folder);
                await withServer(rtr, {}, async (server) => {
                    await begin(server);
                    let { serial } = server.data;
                    for (const path of ["a/kept", "./a//kept", "a/../a/./kept",
                        join(folder, "a/kept")]) {
                        serial += 1;
                        await server.updateSaved(dataOf(rtr, serial, 2), path);
                    }
                    const next = dataOf(rtr, serial + 1, 1);
                    await assert.rejects(server.updateSaved(next, "link/kept"), refused);
                    process.chdir("a");
                    await assert.rejects(server.update(next), refused);
                    await assert.rejects(server.updateSaved(next, "a/kept"), refused);
                    assert.equal(server.data.serial, serial);
                });
            }
        }).finally(() => process.chdir(before));
    },
};
