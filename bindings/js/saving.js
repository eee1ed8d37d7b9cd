// Files of what a server saves.

import { lstat, open, readFile, rename, rm } from "node:fs/promises";
import { dirname, resolve } from "node:path";
import { FAILURE_NOT_RESTORED, FAILURE_OTHER_FILE } from "./rtr_table.js";

/** A file has the new data, but its folder couldn't be synced: after a power cut the file may have
 * the previous data. Its `cause` is the error of the system. */
export class Unsynced extends Error {
    constructor(cause) {
        super(cause.message, { cause });
        this.name = "Unsynced";
        this.code = cause.code;
    }
}

/** A file exists that the server neither restored nor wrote, so it isn't replaced: a restart would
 * lack the sessions that the file names. `path` is the file, and `code` EEXIST. */
export class NotRestored extends Error {
    constructor(path) {
        super(`${path}: ${FAILURE_NOT_RESTORED}`);
        this.name = "NotRestored";
        this.path = path;
        this.code = "EEXIST";
    }
}

/** The server saves its data in another file than this `path` names. Paths are compared as absolute
 * paths without . and .., and links as what they are called. */
export class OtherFile extends Error {
    constructor(path, saved) {
        super(`${path}: ${FAILURE_OTHER_FILE}: ${saved}`);
        this.name = "OtherFile";
        this.path = path;
    }
}

const besideOf = (path) => `${path}.new`;

/** The file of a server, to which no other process may write. */
export class SavedFile {
    #full; // the absolute path, without . and ..
    #isOwn; // the server restored the file, or wrote it

    constructor(path, isOwn = false) {
        this.path = path;
        this.#full = resolve(path);
        this.#isOwn = isOwn;
    }

    /** Throws OtherFile unless this path names the file now: links count as what they are called. */
    checkNamed(path) {
        if (resolve(path) !== this.#full) {
            throw new OtherFile(path, this.#full);
        }
    }

    /** Throws NotRestored if there is a file that the server neither restored nor wrote, or the
     * error of the system. Call it just before a save, which would replace a file that is written
     * in between. */
    async check() {
        if (!this.#isOwn && await exists(this.path)) {
            throw new NotRestored(this.path);
        }
    }

    /** Replaces the file, as `replace` does. It is the server's from then on, unless it wasn't
     * replaced. */
    async save(pieces) {
        try {
            await replace(this.path, pieces);
        } catch (error) {
            this.#isOwn ||= error instanceof Unsynced;
            throw error;
        }
        this.#isOwn = true;
    }
}

/** Reports whether there is a file, or a link, of this name. */
async function exists(path) {
    try {
        await lstat(path);
        return true;
    } catch (error) {
        if (error.code !== "ENOENT") {
            throw error;
        }
        return false;
    }
}

/** Replaces a file by one of these pieces of bytes: writes and syncs a file beside it, renames
 * that, and syncs the folder.
 *
 * Throws an error of the system; then no new file is left, and the old one is unchanged, unless the
 * error is Unsynced. */
export async function replace(path, pieces) {
    const beside = besideOf(path);
    const file = await open(beside, "w");
    try {
        try {
            for (const piece of pieces) {
                await file.writeFile(piece);
            }
            await file.sync();
        } finally {
            await file.close();
        }
        await rename(beside, path);
    } catch (error) {
        await forgetNew(path);
        throw error;
    }
    await syncFolder(path).catch((error) => {
        throw new Unsynced(error);
    });
}

/** Returns the bytes of a file that `replace` wrote. It syncs the folder and removes the new file
 * beside it, if the folder can be written, since the process that wrote may have ended before it
 * did. */
export async function restored(path) {
    const bytes = await readFile(path);
    await syncFolder(path);
    await forgetNew(path);
    return bytes;
}

/** Removes the new file, if there is one and it can be removed. */
async function forgetNew(path) {
    await rm(besideOf(path), { force: true }).catch(() => {});
}

/** Syncs the folder of a file, if its file system can sync folders. */
async function syncFolder(path) {
    const folder = await open(dirname(path), "r");
    try {
        await folder.sync();
    } catch (error) {
        if (error.code !== "EINVAL") {
            throw error;
        }
    } finally {
        await folder.close();
    }
}
