// Prints whether three routes are valid by the recording on standard input, and why one isn't.
//
// usage: node routes.js < RECORDING

import { readFileSync } from "node:fs";
import { Fault, Mismatch, Validity, load } from "../rtr_wire.js";

/** The name of a number. */
const name = (names, number) => Object.keys(names).find((key) => names[key] === number);

/** Prints the validity of each route by the data. */
function show(data) {
    for (const [prefix, asn] of [["192.0.2.0/24", 65551], ["192.0.2.0/27", 65551],
        ["203.0.113.0/24", 65551]]) {
        const validity = data.validate({ prefix, asn });
        console.log(`${prefix} AS${asn} ${name(Validity, validity)}`);
        if (validity === Validity.INVALID) {
            for (const vrp of data.covering({ prefix, asn })) {
                console.log(`  its first ${vrp.prefixLength} bits, up to ${vrp.maxLength},`
                    + ` AS${vrp.asn}: ${name(Mismatch, vrp.mismatch)}`);
            }
        }
    }
}

const rtr = await load();
try {
    const { data, hasCut } = rtr.loadData(new Uint8Array(readFileSync(0)));
    if (hasCut) {
        console.error("routes: left out: an answer without an end of data");
    }
    show(data);
} catch (error) {
    if (!(error instanceof Fault)) {
        throw error;
    }
    console.error(`routes: ${error.message}`);
    process.exitCode = 1;
}
