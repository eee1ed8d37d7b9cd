// Converts units of each kind between plain objects and a struct rtr_unit.

import { Kind, STRUCTS } from "./rtr_table.js";
import { bytesOf, bytesOfLength, flagOf, numberOfType, objectOf, textOf, wordOf }
    from "./given.js";
import { offsetsOf } from "./memory.js";

const OFFSETS = offsetsOf("unit");
const text = new TextDecoder();

/** A reader of the struct rtr_unit at an address; `input` is the address of the unit's bytes. */
export class Shown {
    constructor(view, at, input) {
        this.view = view;
        this.at = at;
        this.input = input;
    }

    byte(field) {
        return this.view.getUint8(this.at + OFFSETS[field]);
    }

    short(field) {
        return this.view.getUint16(this.at + OFFSETS[field], true);
    }

    word(field) {
        return this.view.getUint32(this.at + OFFSETS[field], true);
    }

    long(field) {
        return Number(this.view.getBigUint64(this.at + OFFSETS[field], true));
    }

    /** Returns a copy of an array of the struct. */
    row(field, length) {
        const from = this.at + OFFSETS[field];
        return new Uint8Array(this.view.buffer.slice(from, from + length));
    }

    /** Returns a copy of a part of the unit's bytes. */
    part(start, length) {
        const from = this.input + this.long(start);
        return new Uint8Array(this.view.buffer.slice(from, from + this.long(length)));
    }
}

/** The fields of each kind, except for its offset, size, version and kind. */
const SHAPES = {
    [Kind.SERIAL_NOTIFY]: serialShape,
    [Kind.SERIAL_QUERY]: serialShape,
    [Kind.RESET_QUERY]: () => ({}),
    [Kind.CACHE_RESPONSE]: (struct) => ({ session: struct.short("session") }),
    [Kind.IPV4_PREFIX]: prefixShape,
    [Kind.IPV6_PREFIX]: prefixShape,
    [Kind.END_OF_DATA]: (struct) => ({
        session: struct.short("session"),
        serial: struct.word("serial"),
        refresh: struct.word("refresh"),
        retry: struct.word("retry"),
        expire: struct.word("expire"),
    }),
    [Kind.CACHE_RESET]: () => ({}),
    [Kind.ROUTER_KEY]: (struct) => ({
        announce: struct.byte("action") === 1,
        keyIdentifier: struct.row("keyIdentifier", 20),
        asn: struct.word("asn"),
        keyInfo: struct.part("partStart", "partLength"),
    }),
    [Kind.ERROR_REPORT]: reportShape,
    [Kind.ASPA]: (struct) => ({
        announce: struct.byte("action") === 1,
        customer: struct.word("customer"),
        providers: providersOf(struct.part("partStart", "partLength")),
    }),
};

function serialShape(struct) {
    return { session: struct.short("session"), serial: struct.word("serial") };
}

function prefixShape(struct) {
    return {
        announce: struct.byte("action") === 1,
        address: struct.row("address", struct.byte("family") === 4 ? 4 : 16),
        prefixLength: struct.byte("prefixLength"),
        maxLength: struct.byte("maxLength"),
        asn: struct.word("asn"),
    };
}

/** A report whose inner lengths are wrong has neither an enclosed unit nor a text. */
function reportShape(struct) {
    const fits = struct.long("textStart") > 0;
    const textBytes = fits ? struct.part("textStart", "textLength") : null;
    return {
        code: struct.short("code"),
        about: fits ? struct.part("partStart", "partLength") : null,
        text: textBytes && text.decode(textBytes),
        textBytes,
    };
}

function providersOf(bytes) {
    const view = new DataView(bytes.buffer);
    return Array.from({ length: bytes.length / 4 }, (_, index) => view.getUint32(4 * index));
}

/** Converts the struct at an address to an object; `offset` is that of the unit in the input. */
export function unitOf(view, at, input, offset) {
    const struct = new Shown(view, at, input);
    const kind = struct.byte("kind");
    const [size, version] = [struct.long("size"), struct.byte("version")];
    return { offset, size, version, kind, ...SHAPES[kind](struct) };
}

const NOTHING = new Uint8Array(0);

/** The fields that each kind needs to be encoded. An end of data of version 0 needs no times. */
const WRITTEN = {
    [Kind.SERIAL_NOTIFY]: (unit) => numbersOf(unit, "session", "serial"),
    [Kind.SERIAL_QUERY]: (unit) => numbersOf(unit, "session", "serial"),
    [Kind.RESET_QUERY]: () => ({}),
    [Kind.CACHE_RESPONSE]: (unit) => numbersOf(unit, "session"),
    [Kind.IPV4_PREFIX]: (unit) => prefixFields(unit, 4, 4),
    [Kind.IPV6_PREFIX]: (unit) => prefixFields(unit, 6, 16),
    [Kind.END_OF_DATA]: (unit) => numbersOf(
        unit.version === 0 ? { refresh: 0, retry: 0, expire: 0, ...unit } : unit,
        "session", "serial", "refresh", "retry", "expire"),
    [Kind.CACHE_RESET]: () => ({}),
    [Kind.ROUTER_KEY]: (unit) => ({
        ...actionOf(unit),
        ...numbersOf(unit, "asn"),
        keyIdentifier: bytesOfLength(unit.keyIdentifier, "keyIdentifier", 20),
        part: bytesOf(unit.keyInfo, "keyInfo"),
    }),
    [Kind.ERROR_REPORT]: (unit) => ({
        ...numbersOf(unit, "code"),
        part: unit.about === null ? NOTHING : bytesOf(unit.about, "about"),
        textBytes: textOfReport(unit),
    }),
    [Kind.ASPA]: (unit) => ({
        ...actionOf(unit),
        ...numbersOf(unit, "customer"),
        part: bytesOfProviders(unit.providers),
    }),
};

/** The types of numbers that units have. */
const TYPES = Object.fromEntries(STRUCTS.unit.fields.map(([field, , type]) => [field, type]));

/** Returns these fields of a unit, after checking them. */
function numbersOf(unit, ...fields) {
    return Object.fromEntries(
        fields.map((field) => [field, numberOfType(unit[field], field, TYPES[field])]));
}

function actionOf(unit) {
    return { action: flagOf(unit.announce, "announce") ? 1 : 0 };
}

function prefixFields(unit, family, length) {
    return {
        ...actionOf(unit),
        ...numbersOf(unit, "prefixLength", "maxLength", "asn"),
        address: bytesOfLength(unit.address, "address", length),
        family,
    };
}

/** Returns the bytes of a report's text: `textBytes`, or if they are missing, `text` in UTF-8. */
function textOfReport({ text: string, textBytes }) {
    if (textBytes !== undefined && textBytes !== null) {
        return bytesOf(textBytes, "textBytes");
    }
    return string === null ? NOTHING : new TextEncoder().encode(textOf(string, "text"));
}

/** Converts an object to the fields of a struct rtr_unit, and the bytes of its parts, for
 * rtr_write_unit. */
export function structOf(object) {
    const unit = objectOf(object, "unit");
    const numbers = numbersOf(unit, "kind", "version");
    const { part = NOTHING, textBytes = NOTHING, ...more } = WRITTEN[unit.kind]?.(unit) ?? {};
    const input = new Uint8Array(part.length + textBytes.length);
    input.set(part);
    input.set(textBytes, part.length);
    const fields = {
        ...numbers,
        ...more,
        partLength: part.length,
        textStart: part.length,
        textLength: textBytes.length,
    };
    return { fields, input };
}

function bytesOfProviders(providers) {
    if (!Array.isArray(providers)) {
        throw new TypeError("providers must be an array of numbers");
    }
    const bytes = new Uint8Array(4 * providers.length);
    const view = new DataView(bytes.buffer);
    providers.forEach((provider, index) => (
        view.setUint32(4 * index, wordOf(provider, `providers[${index}]`))));
    return bytes;
}
