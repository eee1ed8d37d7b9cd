// Packet captures (pcap and pcapng): the TCP segments of each packet. Packets that aren't TCP are
// skipped; unreadable ones are counted by reason.

const MICROSECONDS = 1e6;
const NANOSECONDS = 1e9;

// The first four bytes of a pcap file, read as big-endian: byte order, and ticks of a second.
const PCAP = new Map([
    [0xa1b2c3d4, { little: false, ticks: MICROSECONDS }],
    [0xd4c3b2a1, { little: true, ticks: MICROSECONDS }],
    [0xa1b23c4d, { little: false, ticks: NANOSECONDS }],
    [0x4d3cb2a1, { little: true, ticks: NANOSECONDS }],
]);
const PCAP_HEADER = 24;
const PACKET_HEADER = 16;

// The block types of pcapng that the code uses.
const Block = { SECTION: 0x0a0d0d0a, INTERFACE: 1, OLD_PACKET: 2, SIMPLE: 3, PACKET: 6 };
const BYTE_ORDER = 0x1a2b3c4d;
const LEAST_BLOCK = 12;
const TIME_OPTION = 9;

// Link types (tcpdump.org/linktypes.html): the offset of the type of the packet inside, if it has
// one, and the offset of that packet.
const LINKS = new Map([
    [0, { start: 4 }], [108, { start: 4 }], // loopback of BSD
    [1, { type: 12, start: 14 }], // Ethernet
    [12, { start: 0 }], [14, { start: 0 }], [101, { start: 0 }], [228, { start: 0 }],
    [229, { start: 0 }], // IP
    [113, { type: 14, start: 16 }], // Linux, any device
    [276, { type: 0, start: 20 }], // Linux, any device, version 2
]);
const VLAN = new Set([0x8100, 0x88a8, 0x9100]);
const IP_TYPES = new Set([0x0800, 0x86dd]);

const TCP = 6;
const FRAGMENT = 44;
const EXTENSIONS = new Set([0, 43, 60]);
const SYN = 2;
const RST = 4;
const ACK = 16;

/** A file that isn't a capture, or is truncated: the text says what is wrong, and at which byte. */
export class BadCapture extends Error {
    constructor(text, offset) {
        super(`${text}, at byte ${offset}`);
        this.name = "BadCapture";
    }
}

/** Reports whether bytes begin as a pcap or pcapng file does. */
export function isCapture(bytes) {
    if (bytes.length < 4) {
        return false;
    }
    const first = new DataView(bytes.buffer, bytes.byteOffset).getUint32(0);
    return PCAP.has(first) || first === Block.SECTION;
}

/** The packets of a capture in the file's order, each with its time in seconds, its link type and
 * its bytes. A truncated file ends with a BadCapture after its last whole packet. */
export function* packetsOf(bytes) {
    const view = new DataView(bytes.buffer, bytes.byteOffset, bytes.length);
    const form = PCAP.get(view.getUint32(0));
    yield* form ? pcapPackets(bytes, view, form) : pcapngPackets(bytes, view);
}

function* pcapPackets(bytes, view, { little, ticks }) {
    if (bytes.length < PCAP_HEADER) {
        throw new BadCapture("the capture's header is cut off", bytes.length);
    }
    const link = view.getUint32(20, little) & 0xffff;
    for (let at = PCAP_HEADER; at < bytes.length;) {
        const start = at + PACKET_HEADER;
        const length = start <= bytes.length ? view.getUint32(at + 8, little) : 0;
        if (start + length > bytes.length) {
            throw new BadCapture("the capture is cut off inside a packet", at);
        }
        const time = view.getUint32(at, little) + view.getUint32(at + 4, little) / ticks;
        yield { time, link, data: bytes.subarray(start, start + length) };
        at = start + length;
    }
}

function* pcapngPackets(bytes, view) {
    let little = false;
    let interfaces = [];
    for (let at = 0; at < bytes.length;) {
        const isSection = at + LEAST_BLOCK <= bytes.length && view.getUint32(at) === Block.SECTION;
        if (isSection) {
            little = view.getUint32(at + 8, true) === BYTE_ORDER;
            interfaces = [];
        }
        const length = at + LEAST_BLOCK <= bytes.length ? view.getUint32(at + 4, little) : 0;
        if (length < LEAST_BLOCK || length % 4 !== 0 || at + length > bytes.length) {
            throw new BadCapture("the capture is cut off inside a block", at);
        }
        const block = { view, little, start: at + 8, end: at + length - 4 };
        const type = view.getUint32(at, little);
        if (type === Block.INTERFACE) {
            interfaces.push(interfaceOf(block));
        } else if (!isSection && PACKETS.has(type)) {
            yield packetOf(bytes, block, interfaces, PACKETS.get(type));
        }
        at += length;
    }
}

// The offsets in packet blocks of the interface's number, the time, the length and the bytes.
const PACKETS = new Map([
    [Block.PACKET, { interface: 0, time: 4, length: 12, data: 20 }],
    [Block.OLD_PACKET, { interface: 0, isShort: true, time: 4, length: 12, data: 20 }],
    [Block.SIMPLE, { length: 0, data: 4 }],
]);

function packetOf(bytes, { view, little, start, end }, interfaces, form) {
    const number = form.interface === undefined ? 0
        : form.isShort ? view.getUint16(start, little) : view.getUint32(start, little);
    const { link, ticks } = interfaces[number] ?? {};
    if (link === undefined || start + form.data > end) {
        throw new BadCapture("a packet of the capture has no interface", start - 8);
    }
    const high = form.time === undefined ? 0 : view.getUint32(start + form.time, little);
    const low = form.time === undefined ? 0 : view.getUint32(start + form.time + 4, little);
    const length = Math.min(view.getUint32(start + form.length, little), end - start - form.data);
    const from = start + form.data;
    const time = (high * 2 ** 32 + low) / ticks;
    return { time, link, data: bytes.subarray(from, from + length) };
}

/** An interface of pcapng: its link type, and the ticks of a second of its packets' times. */
function interfaceOf({ view, little, start, end }) {
    let ticks = MICROSECONDS;
    for (let at = start + 8; at + 4 <= end;) {
        const [code, length] = [view.getUint16(at, little), view.getUint16(at + 2, little)];
        if (code === TIME_OPTION && length === 1 && at + 4 < end) {
            const value = view.getUint8(at + 4);
            ticks = value & 128 ? 2 ** (value & 127) : 10 ** value;
        }
        at += 4 + length + (-length & 3);
    }
    return { link: view.getUint16(start, little), ticks };
}

// ---- segments

/** Returns the TCP segment of a packet, or a text that says why it can't be read; null if the
 * packet is something else. */
export function segmentOf({ link, data }) {
    const form = LINKS.get(link);
    if (!form) {
        return `of link type ${link}`;
    }
    const view = new DataView(data.buffer, data.byteOffset, data.length);
    let { start } = form;
    if (form.type !== undefined) {
        let type = start <= data.length ? view.getUint16(form.type) : 0;
        for (; VLAN.has(type) && start + 4 <= data.length; start += 4) {
            type = view.getUint16(start + 2);
        }
        if (!IP_TYPES.has(type)) {
            return null;
        }
    }
    const version = start < data.length ? data[start] >> 4 : 0;
    return version === 4 ? ofIpv4(data, view, start) : version === 6 ? ofIpv6(data, view, start)
        : null;
}

function ofIpv4(data, view, start) {
    const header = (data[start] & 15) * 4;
    if (start + Math.max(header, 20) > data.length) {
        return "cut off inside a header";
    }
    if (data[start + 9] !== TCP) {
        return null;
    }
    if ((view.getUint16(start + 6) & 0x3fff) !== 0) {
        return "in fragments";
    }
    const total = view.getUint16(start + 2); // 0 if the network card segments the packet
    const end = total === 0 ? data.length : start + total;
    return ofTcp(data, view, start + header, end, [start + 12, start + 16, 4]);
}

function ofIpv6(data, view, start) {
    if (start + 40 > data.length) {
        return "cut off inside a header";
    }
    const length = view.getUint16(start + 4);
    const end = length === 0 ? data.length : start + 40 + length;
    let [next, at] = [data[start + 6], start + 40];
    while (EXTENSIONS.has(next) && at + 2 <= data.length) {
        [next, at] = [data[at], at + 8 + data[at + 1] * 8];
    }
    if (next === FRAGMENT) {
        return "in fragments";
    }
    return next === TCP ? ofTcp(data, view, at, end, [start + 8, start + 24, 16]) : null;
}

/** A segment: both ends, its sequence number, what it acknowledges or null, whether it opens the
 * connection or resets it, its bytes, and how many more it has that the capture left out. */
function ofTcp(data, view, start, end, [source, destination, width]) {
    if (start + 20 > data.length) {
        return "cut off inside a header";
    }
    const from = Math.min(start + (data[start + 12] >> 4) * 4, end);
    const side = (address, port) => ({
        address: data.slice(address, address + width), port: view.getUint16(port),
    });
    const has = (flag) => (data[start + 13] & flag) !== 0;
    return {
        source: side(source, start),
        destination: side(destination, start + 2),
        sequence: (view.getUint32(start + 4) + (has(SYN) ? 1 : 0)) >>> 0,
        acknowledged: has(ACK) ? view.getUint32(start + 8) : null,
        isFirst: has(SYN),
        isReset: has(RST),
        bytes: data.subarray(Math.min(from, data.length), Math.min(end, data.length)),
        leftOut: Math.max(0, end - Math.max(from, data.length)),
    };
}
