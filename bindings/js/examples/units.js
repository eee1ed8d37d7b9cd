// Prints the units of a recording on standard input.
//
// usage: node units.js < RECORDING

import { readFileSync } from "node:fs";
import { Fault, Kind, addressText, kindText, load } from "../rtr_wire.js";

/** Returns the line for a unit. */
function line(unit) {
    const front = `${unit.offset} v${unit.version} ${kindText(unit.kind)}`;
    switch (unit.kind) {
        case Kind.IPV4_PREFIX:
        case Kind.IPV6_PREFIX: {
            const prefix = `${addressText(unit.address)}/${unit.prefixLength}-${unit.maxLength}`;
            return `${front} ${unit.announce ? "+" : "-"} ${prefix} AS${unit.asn}`;
        }
        case Kind.ASPA:
            return `${front} AS${unit.customer} by AS${unit.providers.join(" AS")}`;
        case Kind.END_OF_DATA:
            return `${front} session ${unit.session} serial ${unit.serial}`;
        default:
            return front;
    }
}

const rtr = await load();
try {
    for (const unit of rtr.units(new Uint8Array(readFileSync(0)))) {
        console.log(line(unit));
    }
} catch (error) {
    if (!(error instanceof Fault)) {
        throw error;
    }
    console.error(error.message);
    process.exitCode = 1;
}
