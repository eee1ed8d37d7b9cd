// The RTR wire layer in JavaScript, over the proved module rtr_wire.wasm.
//
//     const rtr = await load();
//     for (const unit of rtr.units(recording)) ..
//
// All rules, numbers and texts of the protocol are those of the module or rtr.h.

import { Session } from "./session.js";
import { numberOf, objectOf } from "./given.js";
import { compiled, moduleBytes } from "./module.js";
import { VERSION_NUMBER } from "./rtr_table.js";

export { ActionKind, Cause, ErrorCode, GroupShown, Kind, LinkStatus, Mismatch, Named, PrefixRule,
    Rule, SerialOrder, Side, Status, TodoKind, VERSION, VERSION_NUMBER, Validity, causeText,
    kindText, statusText } from "./rtr_table.js";
export { OutOfMemory } from "./memory.js";
export { Unsupported, has64BitMemory } from "./module.js";
export { Empty, Fault, NoData, SessionError } from "./faults.js";
export { Dropped, Held, Session } from "./session.js";
export { Data } from "./data.js";
export { Router } from "./router.js";
export { Link, LinkError } from "./link.js";
export { Group } from "./group.js";
export { addressOf, addressText, prefixOf } from "./addresses.js";

/** The module is of another version than this file. */
export class OtherVersion extends Error {
    constructor(number) {
        super(number === null ? "the module isn't rtr_wire.wasm"
            : `the module has version number ${number}, and rtr_wire.js ${VERSION_NUMBER}`);
        this.name = "OtherVersion";
    }
}

/** Returns a new session of the library. `source` is the bytes of rtr_wire.wasm, or the module
 * compiled from them; by default the module with 32-bit memory beside this file is read. The option
 * `most` limits the size of the memory in bytes.
 *
 * Throws Unsupported if the module has a 64-bit memory and the engine doesn't support that, and
 * OtherVersion if the module is of another version. */
export async function load(source, options = {}) {
    const { most } = objectOf(options, "options");
    if (most !== undefined && most !== Infinity) {
        numberOf(most, "most");
    }
    const module = await compiled(source ?? await moduleBytes());
    if (!WebAssembly.Module.exports(module).some(({ name }) => name === "rtr_wire_version")) {
        throw new OtherVersion(null);
    }
    const session = new Session(module, options);
    const number = session.call("rtr_wire_version");
    if (number !== VERSION_NUMBER) {
        throw new OtherVersion(number);
    }
    return session;
}
