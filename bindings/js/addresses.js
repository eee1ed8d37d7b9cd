// Addresses and prefixes as text, IPv6 in the form of RFC 5952.

import { bytesOfLength, textOf } from "./given.js";

/** Returns the text of an address of 4 or 16 bytes. */
export function addressText(address) {
    const bytes = bytesOfLength(address, "address", 4, 16);
    if (bytes.length === 4) {
        return bytes.join(".");
    }
    const groups = groupsOf(bytes);
    if (groups.slice(0, 5).every((group) => group === 0) && groups[5] === 0xffff) {
        return `::ffff:${bytes.slice(12).join(".")}`;
    }
    const [start, length] = longestZeros(groups);
    const texts = groups.map((group) => group.toString(16));
    if (length < 2) {
        return texts.join(":");
    }
    return `${texts.slice(0, start).join(":")}::${texts.slice(start + length).join(":")}`;
}

function groupsOf(bytes) {
    return Array.from({ length: 8 }, (_, index) => bytes[2 * index] * 256 + bytes[2 * index + 1]);
}

/** Returns the start and the length of the longest run of zero groups; of several, the first. */
function longestZeros(groups) {
    let best = [0, 0];
    for (let start = 0, index = 0; index < 8; index += 1) {
        if (groups[index] !== 0) {
            start = index + 1;
        } else if (index + 1 - start > best[1]) {
            best = [start, index + 1 - start];
        }
    }
    return best;
}

/** Returns the 4 or 16 bytes of an address, or null if the text is invalid. */
export function addressOf(text) {
    return textOf(text, "text").includes(":") ? ipv6Of(text) : ipv4Of(text);
}

function ipv4Of(text) {
    const parts = text.split(".");
    const isAddress = parts.length === 4
        && parts.every((part) => /^(0|[1-9]\d{0,2})$/.test(part) && Number(part) < 256);
    return isAddress ? Uint8Array.from(parts, Number) : null;
}

function ipv6Of(text) {
    const halves = text.split("::");
    const [front, back = []] = halves.map((half, index) => (
        groupsOfText(half, index === halves.length - 1)));
    if (halves.length > 2 || !front || !back) {
        return null;
    }
    const missing = 8 - front.length - back.length;
    if (halves.length === 2 ? missing < 1 : missing !== 0) {
        return null;
    }
    const groups = [...front, ...Array(missing).fill(0), ...back];
    return Uint8Array.from(groups.flatMap((group) => [group >> 8, group & 255]));
}

/** Returns the groups between colons; at the end of an address the last may be an IPv4 address.
 * Null if a group is invalid. */
function groupsOfText(text, isEnd) {
    const parts = text === "" ? [] : text.split(":");
    const groups = [];
    for (const [index, part] of parts.entries()) {
        const isLast = isEnd && index === parts.length - 1;
        const four = isLast && part.includes(".") ? ipv4Of(part) : null;
        if (four) {
            groups.push(four[0] * 256 + four[1], four[2] * 256 + four[3]);
        } else if (/^[0-9a-fA-F]{1,4}$/.test(part)) {
            groups.push(parseInt(part, 16));
        } else {
            return null;
        }
    }
    return groups;
}

/** Returns the address and the length of a prefix such as 192.0.2.0/24; without a length, the
 * length of the address. Null if the text is invalid. Doesn't check whether the length fits the
 * family. */
export function prefixOf(text) {
    const [, front, , length] = /^([^/]+)(\/(\d{1,3}))?$/.exec(textOf(text, "text").trim()) ?? [];
    const address = front === undefined ? null : addressOf(front);
    const bits = length === undefined ? 8 * address?.length : Number(length);
    return address && { address, length: bits };
}
