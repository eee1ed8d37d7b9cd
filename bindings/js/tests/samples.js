// The sample units of the file tests/samples, which describes its rows.

import assert from "node:assert/strict";
import { Fault, Kind, addressText } from "../rtr_wire.js";

const TIMES = ["refresh_interval", "retry_interval", "expire_interval"];

/** Decodes hex digits. */
const unspaced = (row) => Uint8Array.from(Buffer.from(row.replaceAll(" ", ""), "hex"));

const hex = (bytes) => bytes && Buffer.from(bytes).toString("hex");

/** Returns the samples of the file. */
function read(text) {
    const all = [];
    for (const row of text.split("\n")) {
        const [, word, rest] = row.match(/^(\w+) (.*)$/) ?? [];
        if (word === "unit") {
            all.push({ unit: rest });
        } else if (word) {
            const parsed = { bytes: unspaced, form: unspaced }[word];
            all[all.length - 1][word] = parsed ? parsed(rest) : rest;
        }
    }
    return all;
}

/** Returns the fields of rtr_list --json for a unit, without ignored ones and the text of a
 * report. */
function shown(unit) {
    const fields = {
        offset: unit.offset, length: unit.size, version: unit.version, session_id: unit.session,
        kind: Object.keys(Kind).find((name) => Kind[name] === unit.kind).toLowerCase(),
        serial_number: unit.serial, refresh_interval: unit.refresh, retry_interval: unit.retry,
        expire_interval: unit.expire, prefix: unit.address && addressText(unit.address),
        prefix_length: unit.prefixLength, max_length: unit.maxLength, asn: unit.asn,
        action: unit.announce === undefined ? undefined : unit.announce ? "announce" : "withdraw",
        subject_key_identifier: hex(unit.keyIdentifier),
        subject_public_key_info: unit.keyInfo && Buffer.from(unit.keyInfo).toString("base64url"),
        customer_asn: unit.customer, provider_asns: unit.providers, error_code: unit.code,
        erroneous_pdu: hex(unit.about), error_text_bytes: hex(unit.textBytes),
    };
    return Object.fromEntries(Object.entries(fields).filter(([name, value]) =>
        value !== undefined && !(unit.version === 0 && TIMES.includes(name))));
}

/** Checks that a call is refused with this text. */
function refuses(call, text) {
    assert.throws(call, (error) => error instanceof Fault && error.text === text);
}

function check(rtr, sample) {
    const { bytes, form = bytes, refused, line } = sample;
    if (line !== undefined) {
        assert.equal(rtr.unitLine(bytes, 24), `24${line.slice(1)}`);
        assert.equal(rtr.unitJson(bytes), sample.json);
    } else {
        refuses(() => rtr.unitLine(bytes, 24), refused);
    }
    if (refused !== undefined) {
        refuses(() => rtr.next(bytes), refused);
        return;
    }
    const unit = rtr.next(bytes);
    assert.deepEqual(rtr.writeUnit(unit), form);
    if (form !== bytes) {
        return;
    }
    assert.equal(rtr.changeLine(unit), sample.change ?? "");
    assert.equal(rtr.changeJson(unit), sample.object ?? "");
    const { flags, zero, error_text: text, ...fields } = JSON.parse(sample.json);
    assert.deepEqual(shown(unit), fields);
    assert.ok(text === undefined || text === null || unit.text === text);
}

/** Each sample is listed and encoded as in the file, or refused. */
export function samples(rtr, file) {
    const all = read(new TextDecoder().decode(file));
    assert.ok(all.length > 50);
    for (const sample of all) {
        try {
            check(rtr, sample);
        } catch (error) {
            error.message = `sample ${sample.unit}: ${error.message}`;
            throw error;
        }
    }
    return all.length;
}
