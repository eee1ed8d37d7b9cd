// Finds which bits of a unit belong to which field. The library is asked, bit by bit: a bit whose
// change changes a field belongs to it, and one whose change changes nothing is free. So this
// file has no layout of the protocol.

import { Kind, PrefixRule, STRUCTS, Status } from "./library.js";

const SIZES = { size: 8, uint32: 4, uint16: 2, uint8: 1 };

const FIELDS = STRUCTS.unit.fields.filter(([name]) => !["wanted", "detail"].includes(name));

// The label of each field of a struct rtr_unit.
const LABELS = {
    kind: "type", version: "version", size: "length", session: "session", serial: "serial number",
    action: "flags", prefixLength: "prefix length", maxLength: "max length", address: "address",
    asn: "AS", keyIdentifier: "key identifier", customer: "customer AS", refresh: "refresh",
    retry: "retry", expire: "expire", code: "error code", partStart: "inner length",
};

const PARTS = {
    [Kind.ROUTER_KEY]: "key info",
    [Kind.ASPA]: "providers",
    [Kind.ERROR_REPORT]: "unit it is about",
};

// If the change of a bit changes several fields, the first of these names it.
const FIRST = ["kind", "size", "version", "prefixLength", "maxLength", "action"];

// If all changes of a byte are refused, the first of these among the reasons names its field.
const REFUSALS = [
    [({ status }) => status === Status.UNIT_TYPE, "kind"],
    [({ status }) => status === Status.UNIT_VERSION, "version"],
    [({ detail }) => detail === PrefixRule.MAX_LENGTH_OVER, "maxLength"],
    [({ detail }) => detail === PrefixRule.LENGTH_OVER, "prefixLength"],
    [({ status }) => status === Status.EMPTY_PROVIDERS, "action"],
    [() => true, "size"],
];

/** Returns the library's result for some bytes. */
function ask(rtr, bytes) {
    return rtr.within([bytes], (at) => {
        const status = rtr.step(at, bytes.length);
        const struct = rtr.copy(rtr.frame("unit"), STRUCTS.unit.size);
        return { status, struct, ...rtr.answer("unit") };
    });
}

/** Returns the names of the fields in which two results differ. */
function differing(first, second) {
    const differs = ([, offset, kind, many]) => {
        for (let at = offset; at < offset + (many ?? SIZES[kind]); at += 1) {
            if (first.struct[at] !== second.struct[at]) {
                return true;
            }
        }
        return false;
    };
    return FIELDS.filter(differs).map(([name]) => name);
}

/** Returns, for each byte of a unit, the label of its field, and a mask of its free bits; null
 * if the unit is refused. The label is null if all bits of a byte are free. */
export function fieldsOf(rtr, bytes) {
    const plain = ask(rtr, bytes);
    if (plain.status !== Status.OK) {
        return null;
    }
    const ranges = [
        { label: PARTS[plain.kind], start: plain.partStart, length: plain.partLength },
        { label: "text", start: plain.textStart, length: plain.textLength },
    ];
    return Array.from(bytes, (_, offset) => {
        const part = ranges.find(({ start, length }) => offset >= start && offset < start + length);
        return part ? { label: part.label, free: 0 } : byteOf(rtr, plain, bytes, offset);
    });
}

/** Returns the field of a byte. */
function byteOf(rtr, plain, bytes, offset) {
    const names = [];
    const refusals = [];
    let free = 0;
    for (let bit = 0; bit < 8; bit += 1) {
        const changed = bytes.slice();
        changed[offset] ^= 1 << bit;
        const answer = ask(rtr, changed);
        const differ = answer.status === Status.OK ? differing(plain, answer) : [];
        names.push(...differ);
        if (answer.status !== Status.OK) {
            refusals.push(answer);
        } else if (differ.length === 0) {
            free |= 1 << bit;
        }
    }
    return { label: labelOf(names, refusals), free };
}

function labelOf(names, refusals) {
    const name = FIRST.find((name) => names.includes(name)) ?? names[0];
    if (name !== undefined) {
        return LABELS[name] ?? name;
    }
    const found = refusals.length > 0 && REFUSALS.find(([holds]) => refusals.some(holds));
    return found ? LABELS[found[1]] : null;
}

/** Returns the fields of a unit in order: label, first byte, number of bytes, and number of
 * reserved bits. */
export function runsOf(fields) {
    const runs = [];
    fields.forEach(({ label, free }, offset) => {
        const last = runs.at(-1);
        const bits = free.toString(2).replaceAll("0", "").length;
        if (last && last.label === label) {
            last.length += 1;
            last.free += bits;
        } else {
            runs.push({ label, start: offset, length: 1, free: bits });
        }
    });
    return runs;
}
