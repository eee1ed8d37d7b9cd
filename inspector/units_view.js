// The view of units: filters, the table, and the bytes of the chosen unit.

import { Fault } from "./library.js";
import { fieldsOf, runsOf } from "./fields.js";
import { fieldsOfLine, filterOf, lineOf } from "./filters.js";
import { saveCsv, saveJson } from "./save.js";
import { Table, element } from "./table.js";
import { actionText, cellsOf, count, decimal, faultText, hex, kindName, kindWord, many, owedText,
    payloadText } from "./words.js";

const by = (id) => document.getElementById(id);

// Bytes of a unit that are shown.
const MOST_BYTES = 512;

export const COLUMNS = [
    { name: "Byte", className: "c-offset" }, { name: "v", className: "c-version" },
    { name: "Kind", className: "c-kind" }, { name: "Action", className: "c-action" },
    { name: "Payload", className: "c-payload" },
];

const OF_SESSION = [{ name: "Time", className: "c-time" }, { name: "From", className: "c-from" },
    ...COLUMNS];

export class UnitsView {
    #rtr;
    #recording = null; // or a session of a capture
    #indexes = null; // the indexes of the shown units, if not all are
    #table;
    #asked = 0;

    constructor(rtr) {
        this.#rtr = rtr;
        this.#table = new Table(by("units"), COLUMNS);
        this.#table.onchoose = (row) => this.#showUnit(this.#indexOf(row));
        const form = by("filter");
        form.addEventListener("submit", (event) => {
            event.preventDefault();
            this.#filtered();
        });
        form.addEventListener("reset", () => setTimeout(() => this.#filtered()));
        form.addEventListener("change", (event) => {
            if (event.target instanceof HTMLSelectElement || event.target.type === "checkbox") {
                this.#filtered();
            }
        });
        by("line").addEventListener("submit", (event) => {
            event.preventDefault();
            this.#filterByLine(event.target.elements.line.value);
        });
        const indexOf = (row) => this.#indexOf(row);
        by("save-csv").addEventListener("click", () => (
            saveCsv(this.#columns, this.#recording, this.#table.count, indexOf)));
        by("save-json").addEventListener("click", () => (
            saveJson(this.#rtr, this.#recording, this.#table.count, indexOf)));
        by("goto").addEventListener("submit", (event) => {
            event.preventDefault();
            const text = event.target.elements.offset.value.replaceAll(/[\s,]/g, "");
            if (/^\d+$/.test(text)) {
                this.goTo(Number(text));
            }
        });
    }

    show(recording) {
        this.#recording = recording;
        this.#table.columns = this.#columns;
        const kinds = recording.kinds.sorted().map(([kind, many]) => (
            element("option", { value: kind, text: `${kindName(kind)} (${count(many)})` })));
        const all = element("option", { value: "", text: "all" });
        by("filter").elements.kind.replaceChildren(all, ...kinds);
        by("filter").reset();
        this.#showIndexes(null);
    }

    get #columns() {
        return this.#recording?.sideName ? OF_SESSION : COLUMNS;
    }

    /** Removes all rows, of a recording that is about to be dropped. */
    clear() {
        this.#recording = null;
        this.#table.show(0, () => ({ texts: [] }));
    }

    /** Shows the units that match a filter: values of the form's fields. */
    filter(values) {
        const { elements } = by("filter");
        for (const { name } of [...elements].filter((field) => field.name)) {
            if (elements[name].type === "checkbox") {
                elements[name].checked = values[name] ?? false;
            } else {
                elements[name].value = values[name] ?? (name === "relation" ? "within" : "");
            }
        }
        this.#filtered();
    }

    /** Shows the units of a filter line such as `kind=ipv4 in 192.0.2.0/24`. */
    #filterByLine(line) {
        const options = [...by("filter").elements.kind.options].filter(({ value }) => value !== "");
        const fields = fieldsOfLine(line, (name) => options.find(({ value }) => (
            kindWord(kindName(Number(value))) === kindWord(name)))?.value);
        if (typeof fields === "string") {
            by("shown").textContent = `${fields}.`;
        } else {
            this.filter(fields);
        }
    }

    /** Goes to the unit that has a byte, of a session in what the cache sent. */
    goTo(offset) {
        const index = this.#recording.indexAt(Math.min(offset, this.#recording.size - 1));
        let row = this.#indexes === null ? index : this.#indexes.lowerBound(index);
        if (this.#indexes !== null && this.#indexOf(row) !== index) {
            by("filter").reset();
            this.#showIndexes(null);
            row = index;
        }
        this.#table.choose(row);
        by("units").focus();
    }

    /** Selects the unit at an index, among all units. */
    chooseUnit(index) {
        by("filter").reset();
        this.#showIndexes(null);
        this.#table.choose(index);
        by("units").focus();
    }

    #indexOf(row) {
        return this.#indexes === null ? row : this.#indexes.at(row);
    }

    async #filtered() {
        const { elements } = by("filter");
        const value = (name) => elements[name].value.trim();
        const fields = { kind: value("kind"), action: value("action"), as: value("as"),
            prefix: value("prefix"), relation: value("relation"), bits: value("bits"),
            longer: elements.longer.checked };
        const filter = filterOf(fields);
        by("line").elements.line.value = lineOf(fields, (kind) => kindWord(kindName(Number(kind))));
        this.#asked += 1;
        if (typeof filter === "string") {
            by("shown").textContent = `${filter}.`;
            return;
        }
        const [asked, recording] = [this.#asked, this.#recording];
        by("shown").textContent = "Looking";
        const indexes = filter.isNone ? null : await recording.indexes(filter);
        if (asked === this.#asked && recording === this.#recording) {
            if (indexes === null && this.#indexes === null) {
                this.#sayShown();
            } else {
                this.#showIndexes(indexes);
            }
        }
    }

    #showIndexes(indexes) {
        this.#indexes = indexes;
        const shown = indexes?.length ?? this.#recording.count;
        this.#sayShown();
        by("unit").replaceChildren();
        this.#table.show(shown, (row) => cellsOf(this.#recording, this.#indexOf(row)));
        this.#table.choose(0);
    }

    #sayShown() {
        const all = this.#recording.count;
        by("shown").textContent = this.#indexes === null ? `All ${many(all, "unit")} are shown.`
            : `${many(this.#indexes.length, "unit")} of ${count(all)} are shown.`;
    }

    #showUnit(index) {
        const unit = this.#recording.unit(index);
        const bytes = this.#recording.bytesOf(index);
        const isRefused = unit instanceof Fault;
        const title = isRefused ? "A unit that is refused"
            : `${capital(kindName(unit.kind))}, version ${unit.version}`;
        const text = isRefused ? `${faultText(unit)}; ${owedText(unit)}.`
            : `${actionText(unit)} ${payloadText(unit)}`.trim();
        const where = `From byte ${count(unit.offset)}, ${many(bytes.length, "byte")}`
            + this.#timeText(index);
        by("unit").replaceChildren(element("h2", { text: title }),
            element("p", { text: where }),
            element("p", { className: isRefused ? "bad" : "mono", text }),
            ...this.#bytes(bytes));
    }

    /** Returns when a unit of a session came, and from whom; "" for a recording, which has no
     * times. */
    #timeText(index) {
        if (!this.#recording.sideName) {
            return "";
        }
        const time = new Date((this.#recording.began + this.#recording.time(index)) * 1000);
        return ` of the ${this.#recording.sideName(index)}, ${time.toISOString()}`;
    }

    /** The bytes, coloured by field, and a table of the fields. */
    #bytes(bytes) {
        const fields = fieldsOf(this.#rtr, bytes);
        const runs = fields === null ? [] : runsOf(fields);
        const grid = element("div", { className: "bytes", "aria-hidden": "true" });
        for (let index = 0; index < Math.min(bytes.length, MOST_BYTES); index += 1) {
            grid.append(this.#byte(bytes, index, fields, runs));
        }
        const parts = [grid];
        if (bytes.length > MOST_BYTES) {
            const rest = many(bytes.length - MOST_BYTES, "more byte");
            parts.push(element("p", { text: `and ${rest}` }));
        }
        return runs.length > 0 ? [...parts, legend(bytes, runs)] : parts;
    }

    #byte(bytes, index, fields, runs) {
        const node = element("span", { text: hex(bytes.subarray(index, index + 1)) });
        if (fields !== null) {
            const run = runs.findIndex(({ start, length }) => index < start + length);
            node.className = classOf(fields[index], run);
            node.title = runs[run].label ?? "free";
        }
        return node;
    }
}

function capital(text) {
    return text[0].toUpperCase() + text.slice(1);
}

function classOf({ label, free }, run) {
    if (label === null) {
        return "free";
    }
    return `f${run % 8}${free > 0 ? " some-free" : ""}`;
}

/** Returns a table of fields: colour, name, bytes, value, free bits. */
function legend(bytes, runs) {
    const table = element("table");
    const head = element("tr");
    head.append(...["", "Field", "Bytes", "Value", "Decimal", "Free bits"].map((text) => (
        element("th", { text, scope: "col" }))));
    table.append(element("caption", { text: "Fields, and bits that mean nothing" }), head);
    runs.forEach(({ label, start, length, free }, index) => {
        const row = element("tr");
        const swatch = element("td", { className: "swatch" });
        swatch.append(element("span", { className: classOf({ label, free }, index) }));
        const where = length === 1 ? String(start) : `${start} to ${start + length - 1}`;
        const first = hex(bytes.subarray(start, start + Math.min(length, 32)));
        const cells = [label ?? "free", where, length > 32 ? `${first}..` : first,
            label === null ? "" : decimal(bytes.subarray(start, start + length)), free || ""];
        row.append(swatch, ...cells.map((text) => element("td", { text })));
        table.append(row);
    });
    return table;
}
