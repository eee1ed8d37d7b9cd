// Imports the installed package by its name, loads each module that it exports, and reads a prefix
// (RFC 8210 section 5.6).

import assert from "node:assert/strict";
import { readFile } from "node:fs/promises";
import { createRequire } from "node:module";
import { Kind, VERSION, addressText, has64BitMemory, load } from "rtr-wire";

const require = createRequire(import.meta.url);
const PREFIX = Uint8Array.of(1, 4, 0, 0, 0, 0, 0, 20, 1, 23, 26, 0, 192, 0, 2, 0, 0, 1, 0, 15);

/** Reads the prefix with a session. */
function reads(rtr) {
    const [unit] = rtr.units(PREFIX);
    assert.equal(unit.kind, Kind.IPV4_PREFIX);
    const prefix = `${addressText(unit.address)}/${unit.prefixLength}-${unit.maxLength}`;
    assert.equal(`${prefix} AS${unit.asn}`, "192.0.2.0/23-26 AS65551");
}

assert.equal(VERSION, require("rtr-wire/package.json").version);
reads(await load());
reads(await load(await readFile(require.resolve("rtr-wire/rtr_wire.wasm"))));
if (has64BitMemory()) {
    reads(await load(await readFile(require.resolve("rtr-wire/rtr_wire64.wasm"))));
}
