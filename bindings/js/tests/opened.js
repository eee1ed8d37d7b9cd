// Loads a module for tests, also one with 64-bit memory.

import v8 from "node:v8";
import { Unsupported, has64BitMemory, load } from "../rtr_wire.js";

/** The flag that enables 64-bit memory in older engines. */
const FLAG = "--experimental-wasm-memory64";

/** Returns a session of the module; null if it needs 64-bit memory and the engine has none. */
export async function opened(bytes) {
    try {
        return await load(bytes);
    } catch (error) {
        if (!(error instanceof Unsupported)) {
            throw error;
        }
        v8.setFlagsFromString(FLAG);
        return has64BitMemory() ? load(bytes) : null;
    }
}
