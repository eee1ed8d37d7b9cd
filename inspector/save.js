// What the page saves as files.

import { Fault } from "./library.js";
import { breathe } from "./recording.js";
import { cellsOf } from "./words.js";

// The rows that are made before the page may draw.
const TURN = 5000;

/** Saves parts, bytes or texts, as a file. */
export function save(parts, name, type = "application/octet-stream") {
    const url = URL.createObjectURL(new Blob(parts, { type }));
    const link = document.createElement("a");
    link.href = url;
    link.download = name;
    link.click();
    setTimeout(() => URL.revokeObjectURL(url), 10000);
}

/** A field of CSV (RFC 4180 section 2). */
function quoted(text) {
    return /[",\r\n]/.test(text) ? `"${text.replaceAll('"', '""')}"` : text;
}

/** A row of CSV. */
export function csvRow(texts) {
    return `${texts.map(quoted).join(",")}\r\n`;
}

/** Returns the line of a unit in JSON, as rtr_list --json prints it; of a session with its time, in
 * seconds since the first unit, and its side. A refused unit has its fault. */
function jsonLine(rtr, units, index) {
    const unit = units.unit(index);
    const own = unit instanceof Fault
        ? JSON.stringify({ offset: unit.offset, refused: unit.text })
        : rtr.unitJson(units.bytesOf(index), unit.offset);
    if (!units.sideName) {
        return `${own}\n`;
    }
    const time = units.time(index).toFixed(6);
    return `{"time":${time},"from":"${units.sideName(index)}","unit":${own}}\n`;
}

/** Makes the lines of units in turns: `lineOf` returns that of a row. */
async function linesOf(count, lineOf) {
    const parts = [];
    for (let row = 0; row < count;) {
        const end = Math.min(count, row + TURN);
        let text = "";
        for (; row < end; row += 1) {
            text += lineOf(row);
        }
        parts.push(text);
        await breathe();
    }
    return parts;
}

/** Saves units as lines of JSON. */
export async function saveJson(rtr, units, count, indexOf) {
    const parts = await linesOf(count, (row) => jsonLine(rtr, units, indexOf(row)));
    save(parts, `${units.name}.jsonl`, "application/x-ndjson");
}

/** Saves units as CSV, with the columns of the table. */
export async function saveCsv(columns, units, count, indexOf) {
    const parts = await linesOf(count, (row) => csvRow(cellsOf(units, indexOf(row)).texts));
    save([csvRow(columns.map(({ name }) => name)), ...parts], `${units.name}.csv`, "text/csv");
}
