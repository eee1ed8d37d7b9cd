// Loads and compiles modules.

// The module with 32-bit memory; in the repository it is in prebuilt/.
const MODULE = new URL("../../prebuilt/wasm32/rtr_wire.wasm", import.meta.url);

/** Reads the module: from a file in Node, else from the page's server. */
export async function moduleBytes() {
    if (MODULE.protocol === "file:") {
        const name = "node:fs/promises"; // a variable hides the import from bundlers
        const { readFile } = await import(/* webpackIgnore: true */ /* @vite-ignore */ name);
        return readFile(MODULE);
    }
    const response = await fetch(MODULE);
    if (!response.ok) {
        throw new Error(`${MODULE}: ${response.status} ${response.statusText}`);
    }
    return response.arrayBuffer();
}

/** The module has a 64-bit memory, which this engine lacks. */
export class Unsupported extends Error {
    constructor() {
        super("this JavaScript engine has no 64-bit memory for WebAssembly, which this module "
            + "needs: Node 20 has it with --experimental-wasm-memory64, and load() without a "
            + "source takes the module with 32-bit memory, which needs nothing");
        this.name = "Unsupported";
    }
}

// The shortest module that has a 64-bit memory.
const WITH_MEMORY = Uint8Array.of(0, 97, 115, 109, 1, 0, 0, 0, 5, 3, 1, 4, 0);

/** Reports whether this engine runs a module with 64-bit memory. */
export function has64BitMemory() {
    return WebAssembly.validate(WITH_MEMORY);
}

/** Compiles the module, unless it is compiled already. */
export async function compiled(source) {
    if (source instanceof WebAssembly.Module) {
        return source;
    }
    try {
        return await WebAssembly.compile(source);
    } catch (error) {
        throw !has64BitMemory() && declares64BitMemory(source) ? new Unsupported() : error;
    }
}

const MEMORY_SECTION = 5;
const IS_64_BIT = 4;

/** Reports whether the memory section of a module declares a 64-bit memory. */
function declares64BitMemory(source) {
    const bytes = ArrayBuffer.isView(source)
        ? new Uint8Array(source.buffer, source.byteOffset, source.byteLength)
        : new Uint8Array(source);
    let offset = 8;
    while (offset < bytes.length && bytes[offset] < MEMORY_SECTION) {
        let size = 0;
        for (let shift = 0; ; shift += 7) {
            offset += 1;
            size += (bytes[offset] & 127) * 2 ** shift;
            if (!(bytes[offset] & 128)) {
                break;
            }
        }
        offset += 1 + size;
    }
    return bytes[offset] === MEMORY_SECTION && (bytes[offset + 3] & IS_64_BIT) !== 0;
}
