// The filters of the shown units.

import { Kind, prefixOf } from "./library.js";

const FAMILIES = { 4: 4, 16: 6 };

/** Reports whether the first bits of two addresses are the same. */
function sameBits(first, second, bits) {
    const whole = bits >> 3;
    for (let index = 0; index < whole; index += 1) {
        if (first[index] !== second[index]) {
            return false;
        }
    }
    const rest = bits & 7;
    return rest === 0 || (first[whole] ^ second[whole]) >> (8 - rest) === 0;
}

/** The relations of a prefix to that of the filter: it covers that, or lies in it. */
export const RELATIONS = {
    covers: (length, asked) => length <= asked,
    within: (length, asked) => length >= asked,
    either: () => true,
};

function prefixTest({ address, length }, relation) {
    const family = FAMILIES[address.length];
    return (shown) => {
        const own = shown.byte("prefixLength");
        return shown.byte("family") === family && RELATIONS[relation](own, length)
            && sameBits(shown.row("address", address.length), address, Math.min(own, length));
    };
}

function asTest(asn) {
    return (shown) => (shown.byte("kind") === Kind.ASPA
        ? shown.word("customer") === asn : shown.word("asn") === asn && hasAs(shown));
}

function hasAs(shown) {
    return shown.byte("family") !== 0 || shown.byte("kind") === Kind.ROUTER_KEY;
}

// The words of a filter's line: `name=value`, or a word before a prefix, or a word alone.
const VALUES = { kind: "kind", as: "as", length: "bits", action: "action" };
const BEFORE_PREFIX = { in: "within", covers: "covers", near: "either" };
const ACTIONS = ["announce", "withdraw"];

/** Parses the fields of a filter line, such as `kind=ipv4 as=65551 in 192.0.2.0/24`; returns a text
 * if a part isn't understood. `kindOf` returns the number of a kind's name, or undefined. */
export function fieldsOfLine(line, kindOf) {
    const fields = { relation: "within" };
    const words = line.trim().split(/\s+/).filter(Boolean);
    while (words.length > 0) {
        const word = words.shift();
        const [name, value] = word.toLowerCase().split("=");
        if (value !== undefined && name in VALUES) {
            fields[VALUES[name]] = name === "kind" ? kindOf(value) : value;
            if (fields[VALUES[name]] === undefined) {
                return `There is no kind ${value} here`;
            }
        } else if (name in BEFORE_PREFIX && words.length > 0) {
            [fields.relation, fields.prefix] = [BEFORE_PREFIX[name], words.shift()];
        } else if (ACTIONS.includes(name)) {
            fields.action = name;
        } else if (name === "longer") {
            fields.longer = true;
        } else {
            return `${word} isn't understood`;
        }
    }
    return fields;
}

/** Returns the filter line of these fields. `nameOf` returns the name of a kind. */
export function lineOf({ kind, action, as, prefix, relation, bits, longer }, nameOf) {
    const word = Object.keys(BEFORE_PREFIX).find((name) => BEFORE_PREFIX[name] === relation);
    return [
        kind && `kind=${nameOf(kind)}`, action, as && `as=${as}`, prefix && `${word} ${prefix}`,
        bits && `length=${bits}`, longer && "longer",
    ].filter(Boolean).join(" ");
}

/** Returns the filter of a form, or a text that says why it is invalid. */
export function filterOf({ kind, action, as, prefix, relation, bits, longer }) {
    const ofIndex = [];
    const ofShown = [];
    if (kind !== "") {
        ofIndex.push((recording, index) => recording.kind(index) === Number(kind));
    }
    if (action !== "") {
        ofIndex.push((recording, index) => recording.announces(index) === (action === "announce"));
        ofShown.push((shown) => hasAs(shown) || shown.byte("kind") === Kind.ASPA);
    }
    if (as !== "") {
        const asn = /^\s*(?:AS)?(\d{1,10})\s*$/i.exec(as)?.[1];
        if (asn === undefined || Number(asn) > 4294967295) {
            return `${as} is no AS`;
        }
        ofShown.push(asTest(Number(asn)));
    }
    if (prefix !== "") {
        const asked = prefixOf(prefix);
        if (!asked || asked.length > 8 * asked.address.length) {
            return `${prefix} is no prefix`;
        }
        ofShown.push(prefixTest(asked, relation));
    }
    if (bits !== "") {
        ofShown.push((shown) => shown.byte("prefixLength") === Number(bits));
    }
    if (longer) {
        ofShown.push((shown) => shown.byte("maxLength") > shown.byte("prefixLength"));
    }
    return {
        isNone: ofIndex.length === 0 && ofShown.length === 0,
        ofIndex: (recording, index) => ofIndex.every((test) => test(recording, index)),
        ofShown: ofShown.length === 0 ? null : (shown) => ofShown.every((test) => test(shown)),
    };
}

