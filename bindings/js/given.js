// Checks arguments: a TypeError or a RangeError names the wrong argument or field.

const [BYTE, SHORT, WORD] = [0xff, 0xffff, 0xffffffff];
const LONG = Number.MAX_SAFE_INTEGER;

/** The highest number of each type of rtr.h; of 64-bit types, the highest exact one. */
const HIGHEST = { uint8: BYTE, uint16: SHORT, uint32: WORD, uint64: LONG, size: LONG };

/** Describes a value, for messages. */
function kindOf(value) {
    if (value === null || value === undefined) {
        return String(value);
    }
    if (typeof value !== "object") {
        return `a ${typeof value}`;
    }
    return Object.prototype.toString.call(value).slice(8, -1);
}

function mustBe(name, expected, value) {
    return new TypeError(`${name} must be ${expected}, not ${kindOf(value)}`);
}

/** Returns the bytes of a Uint8Array or an ArrayBuffer, of any realm, without a copy. */
export function bytesOf(value, name = "bytes") {
    // instanceof fails for arrays of another realm; the tag doesn't.
    if (ArrayBuffer.isView(value) && value[Symbol.toStringTag] === "Uint8Array") {
        return value;
    }
    if (Object.prototype.toString.call(value) === "[object ArrayBuffer]") {
        return new Uint8Array(value);
    }
    throw mustBe(name, "a Uint8Array or an ArrayBuffer", value);
}

/** Returns bytes of one of these lengths. */
export function bytesOfLength(value, name, ...lengths) {
    const bytes = bytesOf(value, name);
    if (!lengths.includes(bytes.length)) {
        const expected = `${lengths.join(" or ")} bytes`;
        throw new RangeError(`${name} has ${bytes.length} bytes: it must have ${expected}`);
    }
    return bytes;
}

/** Returns a whole number from 0 to the highest. */
export function numberOf(value, name, highest = LONG) {
    if (typeof value !== "number") {
        throw mustBe(name, "a number", value);
    }
    if (!Number.isInteger(value) || value < 0 || value > highest) {
        throw new RangeError(`${name} is ${value}: it must be an integer from 0 to ${highest}`);
    }
    return value;
}

/** Returns a number of this type of rtr.h. */
export function numberOfType(value, name, type) {
    return numberOf(value, name, HIGHEST[type]);
}

export const byteOf = (value, name) => numberOf(value, name, BYTE);
export const shortOf = (value, name) => numberOf(value, name, SHORT);
export const wordOf = (value, name) => numberOf(value, name, WORD);

/** Returns an unsigned 64-bit integer: a number, or a BigInt if a number isn't exact. */
export function longOf(value, name) {
    if (typeof value !== "bigint") {
        return numberOf(value, name);
    }
    if (value !== BigInt.asUintN(64, value)) {
        throw new RangeError(`${name} is ${value}: it must be an integer from 0 to 2**64 - 1`);
    }
    return value;
}

export function flagOf(value, name) {
    if (typeof value !== "boolean") {
        throw mustBe(name, "a boolean", value);
    }
    return value;
}

export function textOf(value, name) {
    if (typeof value !== "string") {
        throw mustBe(name, "a string", value);
    }
    return value;
}

export function objectOf(value, name) {
    if (typeof value !== "object" || value === null) {
        throw mustBe(name, "an object", value);
    }
    return value;
}

export function arrayOf(value, name) {
    if (!Array.isArray(value)) {
        throw mustBe(name, "an array", value);
    }
    return value;
}

/** Checks that an object has only fields of a struct, of the right types, and returns it. `fields`
 * are those of a row of STRUCTS. */
export function fieldsOf(value, name, fields) {
    const types = new Map(fields.map(([field, , type]) => [field, type]));
    for (const [field, fieldValue] of Object.entries(objectOf(value, name))) {
        const type = types.get(field);
        if (type === undefined) {
            throw new TypeError(`${name} has no field ${field}`);
        }
        if (type === "bool") {
            flagOf(fieldValue, `${name}.${field}`);
        } else {
            numberOfType(fieldValue, `${name}.${field}`, type);
        }
    }
    return value;
}
