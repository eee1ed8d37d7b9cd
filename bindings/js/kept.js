// A struct of rtr.h that is kept outside of a session's memory.

import { STRUCTS } from "./rtr_table.js";
import { readStruct } from "./memory.js";

/** A struct of this name. It needn't be freed: each call gets a copy of it, and changes that. */
export class Kept {
    #session;
    #name;
    #bytes;

    constructor(session, name) {
        this.#session = session;
        this.#name = name;
        this.#bytes = new Uint8Array(STRUCTS[name].size);
    }

    /** Calls a function whose first argument is the struct, and keeps what it changes. */
    call(name, ...values) {
        const at = this.put();
        const answer = this.#session.call(name, at, ...values);
        this.#bytes = this.#session.copy(at, this.#bytes.length);
        return answer;
    }

    /** Copies the struct into the session's memory, for a call that only reads it, and returns its
     * address. */
    put() {
        const at = this.#session.frame(this.#name);
        this.#session.heap.bytes(at, this.#bytes.length).set(this.#bytes);
        return at;
    }

    /** Its fields. */
    get fields() {
        return readStruct(new DataView(this.#bytes.buffer), this.#name, 0);
    }
}
