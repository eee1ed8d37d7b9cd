// The memory of a module: an allocator, and conversions of structs to plain objects.

import { FAILURE_NO_MEMORY, STRUCTS } from "./rtr_table.js";

const PAGE = 65536;

/** The memory can't grow as needed; its cause is a text with the size. */
export class OutOfMemory extends Error {
    constructor(wanted, reason) {
        const cause = `the module's memory can't grow to ${wanted} bytes: ${reason}`;
        super(FAILURE_NO_MEMORY, { cause });
        this.name = "OutOfMemory";
        this.wanted = wanted;
    }
}

/** An allocator in a memory that grows by whole pages. */
export class Heap {
    #memory;
    #most;
    #pages; // Number or BigInt: the argument of memory.grow, which differs by engine
    #allocated = []; // [start, end], in order
    #base;
    #view;

    constructor(memory, base, most) {
        this.#memory = memory;
        this.#most = most;
        this.#base = rounded(base);
        this.#pages = pageNumbers(memory);
    }

    /** The size of the memory in bytes. */
    get size() {
        return this.#memory.buffer.byteLength;
    }

    /** A view of the whole memory, valid until it grows. */
    get view() {
        if (this.#view?.buffer !== this.#memory.buffer) {
            this.#view = new DataView(this.#memory.buffer);
        }
        return this.#view;
    }

    /** Returns the bytes from an address on, valid until the memory grows. */
    bytes(start, length) {
        return new Uint8Array(this.#memory.buffer, start, length);
    }

    /** Allocates `length` bytes, and returns their address, a multiple of 16. */
    take(length) {
        const needed = Math.max(rounded(length), 16);
        let start = this.#base;
        let index = 0;
        while (index < this.#allocated.length && this.#allocated[index][0] - start < needed) {
            start = this.#allocated[index][1];
            index += 1;
        }
        this.#reach(start + needed);
        this.#allocated.splice(index, 0, [start, start + needed]);
        return start;
    }

    /** Frees the end of the part at an address, which keeps `length` bytes. */
    shrink(start, length) {
        const part = this.#allocated.find(([first]) => first === start);
        part[1] = start + Math.max(rounded(length), 16);
    }

    /** Frees the part at an address. */
    release(start) {
        const index = this.#allocated.findIndex((part) => part[0] === start);
        if (index >= 0) {
            this.#allocated.splice(index, 1);
        }
    }

    /** Grows the memory to at least this address. */
    #reach(end) {
        const missing = Math.ceil((end - this.size) / PAGE);
        if (missing <= 0) {
            return;
        }
        if (end > this.#most) {
            throw new OutOfMemory(end, `the session may have ${this.#most}`);
        }
        // Grows by a quarter more than needed, so that it rarely grows; if that fails, only by what
        // is needed.
        for (const pages of [missing + (this.size / PAGE >> 2), missing]) {
            if (this.size + pages * PAGE <= this.#most && this.#grows(pages)) {
                return;
            }
        }
        if (!this.#grows(missing)) {
            throw new OutOfMemory(end, "the engine refuses");
        }
    }

    #grows(pages) {
        try {
            return this.#memory.grow(this.#pages(pages)) !== -1;
        } catch {
            return false;
        }
    }
}

function rounded(length) {
    return Math.ceil(length / 16) * 16;
}

/** Returns the type of the argument of memory.grow: BigInt in the standard, Number in older
 * engines. */
function pageNumbers(memory) {
    try {
        memory.grow(0n);
        return BigInt;
    } catch {
        return Number;
    }
}

const READ = {
    uint8: (view, at) => view.getUint8(at),
    bool: (view, at) => view.getUint8(at) !== 0,
    uint16: (view, at) => view.getUint16(at, true),
    uint32: (view, at) => view.getUint32(at, true),
    uint64: (view, at) => Number(view.getBigUint64(at, true)),
    size: (view, at) => Number(view.getBigUint64(at, true)),
};

const WRITE = {
    uint8: (view, at, value) => view.setUint8(at, value),
    bool: (view, at, value) => view.setUint8(at, value ? 1 : 0),
    uint16: (view, at, value) => view.setUint16(at, value, true),
    uint32: (view, at, value) => view.setUint32(at, value, true),
    uint64: (view, at, value) => view.setBigUint64(at, BigInt(value), true),
    size: (view, at, value) => view.setBigUint64(at, BigInt(value), true),
};

/** Reads the struct of this name at an address into an object. */
export function readStruct(view, name, at) {
    const object = {};
    for (const [field, offset, kind, many] of STRUCTS[name].fields) {
        if (many) {
            object[field] = new Uint8Array(view.buffer.slice(at + offset, at + offset + many));
        } else if (READ[kind]) {
            object[field] = READ[kind](view, at + offset);
        } else {
            object[field] = readStruct(view, kind, at + offset);
        }
    }
    return object;
}

/** Writes an object into the struct of this name at an address; missing fields are zero. */
export function writeStruct(view, name, at, values) {
    for (const [field, offset, kind, many] of STRUCTS[name].fields) {
        if (many) {
            const bytes = new Uint8Array(view.buffer, at + offset, many);
            bytes.fill(0).set((values[field] ?? []).slice(0, many));
        } else if (WRITE[kind]) {
            WRITE[kind](view, at + offset, values[field] ?? 0);
        } else {
            writeStruct(view, kind, at + offset, values[field] ?? {});
        }
    }
}

/** Returns the offset of each field of a struct. */
export function offsetsOf(name) {
    return Object.fromEntries(STRUCTS[name].fields.map(([field, offset]) => [field, offset]));
}
