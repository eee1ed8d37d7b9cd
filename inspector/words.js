// Units, faults and numbers in words.

import { Fault, Kind, Mismatch, Status, Validity, addressText, kindText }
    from "./library.js";
import { REFUSED } from "./recording.js";

const number = new Intl.NumberFormat("en");

/** Returns a number with separated thousands. */
export function count(value) {
    return number.format(value);
}

/** Returns a number with a noun. */
export function many(value, singular, plural = `${singular}s`) {
    return `${count(value)} ${value === 1 ? singular : plural}`;
}

export function hex(bytes) {
    return Array.from(bytes, (byte) => byte.toString(16).padStart(2, "0")).join("");
}

/** Returns up to eight bytes as a whole number; "" for more. */
export function decimal(bytes) {
    return bytes.length > 8 ? "" : BigInt(`0x${hex(bytes)}`).toString();
}

/** Base64 as in RFC 4648 section 5, unpadded. */
export function base64(bytes) {
    const text = Array.from(bytes, (byte) => String.fromCharCode(byte)).join("");
    return btoa(text).replaceAll("+", "-").replaceAll("/", "_").replaceAll("=", "");
}

export function prefixText({ address, prefixLength, maxLength }) {
    const most = maxLength === undefined ? "" : `-${maxLength}`;
    return `${addressText(address)}/${prefixLength}${most}`;
}

function sessionText({ session, serial }) {
    return `session ${session} serial ${serial}`;
}

function endText(unit) {
    const times = unit.refresh || unit.retry || unit.expire
        ? ` refresh ${unit.refresh} retry ${unit.retry} expire ${unit.expire}` : "";
    return sessionText(unit) + times;
}

function reportText({ code, about, text }) {
    return about === null ? `code ${code}, and its lengths don't fit`
        : `code ${code} about ${hex(about) || "no unit"} ${JSON.stringify(text)}`;
}

const PAYLOADS = {
    [Kind.SERIAL_NOTIFY]: sessionText,
    [Kind.SERIAL_QUERY]: sessionText,
    [Kind.CACHE_RESPONSE]: ({ session }) => `session ${session}`,
    [Kind.IPV4_PREFIX]: (unit) => `${prefixText(unit)} AS${unit.asn}`,
    [Kind.IPV6_PREFIX]: (unit) => `${prefixText(unit)} AS${unit.asn}`,
    [Kind.END_OF_DATA]: endText,
    [Kind.ROUTER_KEY]: (unit) => `${hex(unit.keyIdentifier)} AS${unit.asn} ${base64(unit.keyInfo)}`,
    [Kind.ERROR_REPORT]: reportText,
    [Kind.ASPA]: (unit) => ["AS", unit.customer, " providers",
        ...unit.providers.map((asn) => ` AS${asn}`)].join(""),
};

export function payloadText(unit) {
    return PAYLOADS[unit.kind]?.(unit) ?? "";
}

export function actionText(unit) {
    return unit.announce === undefined ? "" : unit.announce ? "announce" : "withdraw";
}

export function kindName(kind) {
    return kind === REFUSED ? "refused" : kindText(kind);
}

/** Returns the name of a kind as a word of a filter line: ipv4, router-key, end-of-data. */
export function kindWord(name) {
    return name.toLowerCase().replaceAll(/[ _]/g, "-").replace(/-prefix$/, "");
}

/** Returns what is wrong, without the offset. */
export function faultText(fault) {
    return fault.status === Status.SHORT && fault.wanted
        ? `${fault.text}: ${many(fault.wanted, "byte")} wanted from here on` : fault.text;
}

/** Returns the report that is owed for a fault. */
export function owedText(fault) {
    return fault.code === null ? "no error report is owed for it"
        : `an error report of code ${fault.code} is owed for it`;
}

/** Returns the cells of a unit in a table, and the class of its row. */
export function cellsOfUnit(unit) {
    if (unit instanceof Fault) {
        const texts = [String(unit.offset), "", "refused", "", faultText(unit)];
        return { texts, className: "refused" };
    }
    const action = actionText(unit);
    return {
        texts: [String(unit.offset), `v${unit.version}`, kindText(unit.kind), action,
            payloadText(unit)],
        className: `kind-${unit.kind} ${action}`,
    };
}

/** Returns the cells of a unit of a recording, or of a session: with time and sender first. */
export function cellsOf(units, index) {
    const { texts, className } = cellsOfUnit(units.unit(index));
    if (!units.sideName) {
        return { texts, className };
    }
    const side = units.sideName(index);
    const time = units.time(index).toFixed(3);
    return { texts: [time, side, ...texts], className: `${className} ${side}` };
}

export const VALIDITIES = {
    [Validity.NOT_FOUND]: "not found: no VRP covers it",
    [Validity.VALID]: "valid",
    [Validity.INVALID]: "invalid: VRPs cover it, and none matches",
    [Validity.NO_ROUTE]: "no route: there is no such prefix",
};

export const MISMATCHES = {
    [Mismatch.MATCHES]: "it matches",
    [Mismatch.AS_ZERO]: "it is of AS 0: nobody may announce it",
    [Mismatch.OTHER_AS]: "it is of another AS",
    [Mismatch.LONGER]: "the route is longer than its max length",
};

/** Returns what bytes without a unit look like, and what reads them; null if that isn't known. */
export function looksLike(bytes) {
    const first = hex(bytes.subarray(0, 4));
    if (["d4c3b2a1", "a1b2c3d4", "4d3cb2a1", "a1b23c4d", "0a0d0d0a"].includes(first)) {
        return "looks like a packet capture without a session that can be read";
    }
    const text = new TextDecoder().decode(bytes.subarray(0, 4096));
    if (/^[\uFEFF\s]*[{[]/.test(text)) {
        return "looks like JSON: rtr_make --json makes units of what validators print";
    }
    const isText = !/[\u0000-\u0008\u000e-\u001f\ufffd]/.test(text.slice(0, -3));
    if (text.length > 3 && isText) {
        return "looks like text: rtr_make makes units of a CSV table of origins";
    }
    return null;
}
