// A table of any length, of which only the visible rows are drawn.

const HEIGHT = 26; // of a row, as in style.css

// Engines don't lay out much more than this: beyond it the scroll bar is scaled, and the wheel
// moves by rows.
const HIGHEST = 8_000_000;

/** An element with a class, a role and a text. */
export function element(name, { className = "", role = null, text = "", ...attributes } = {}) {
    const node = document.createElement(name);
    node.className = className;
    node.textContent = text;
    if (role) {
        node.setAttribute("role", role);
    }
    for (const [key, value] of Object.entries(attributes)) {
        node.setAttribute(key, value);
    }
    return node;
}

export class Table {
    #grid;
    #head;
    #body;
    #spacer;
    #drawn;
    #columns;
    #count = 0;
    #cells = () => [];
    #chosen = -1;
    #top = 0; // the first visible row, with a fraction
    #waits = false;
    #setTo = 0; // where the code set the scroll bar
    onchoose = () => {};

    /** @param grid the element that becomes the table; columns: name and class of each */
    constructor(grid, columns) {
        this.#grid = grid;
        grid.setAttribute("role", "grid");
        grid.tabIndex = 0;
        this.#head = element("div", { className: "head", role: "row", "aria-rowindex": 1 });
        this.columns = columns;
        this.#body = element("div", { className: "body", role: "rowgroup", tabindex: -1 });
        this.#spacer = element("div", { className: "spacer" });
        this.#drawn = element("div", { className: "drawn", role: "presentation" });
        this.#body.append(this.#spacer, this.#drawn);
        grid.replaceChildren(this.#head, this.#body);
        this.#body.addEventListener("scroll", () => this.#scrolled());
        this.#body.addEventListener("wheel", (event) => this.#wheeled(event), { passive: false });
        this.#drawn.addEventListener("click", (event) => this.#clicked(event));
        grid.addEventListener("keydown", (event) => this.#pressed(event));
        new ResizeObserver(() => this.#later()).observe(this.#body);
    }

    /** The columns of the rows that are shown next: name and class of each. */
    set columns(columns) {
        this.#columns = columns;
        this.#head.replaceChildren(...columns.map(({ name, className }) => (
            element("div", { className, role: "columnheader", text: name }))));
    }

    /** Shows `count` rows: `cells` returns the texts of a row, and its class. */
    show(count, cells) {
        this.#count = count;
        this.#cells = cells;
        this.#chosen = -1;
        this.#grid.setAttribute("aria-rowcount", count + 1);
        this.#spacer.style.height = `${Math.min(count * HEIGHT, HIGHEST)}px`;
        this.#goTo(0);
    }

    get count() {
        return this.#count;
    }

    get chosen() {
        return this.#chosen;
    }

    /** Selects a row, and scrolls to it. */
    choose(row) {
        if (this.#count === 0) {
            return;
        }
        this.#chosen = Math.max(0, Math.min(row, this.#count - 1));
        const seen = Math.floor(this.#seen);
        if (this.#chosen < this.#top) {
            this.#goTo(this.#chosen);
        } else if (this.#chosen > this.#top + seen - 1) {
            this.#goTo(this.#chosen - seen + 1);
        }
        this.#draw();
        this.onchoose(this.#chosen);
    }

    /** Returns how many rows are visible. */
    get #seen() {
        return Math.max(1, this.#body.clientHeight / HEIGHT);
    }

    get #isScale() {
        return this.#count * HEIGHT > HIGHEST;
    }

    #goTo(top) {
        const last = Math.max(0, this.#count - this.#seen);
        this.#top = Math.max(0, Math.min(top, last));
        const scrollRange = this.#spacer.offsetHeight - this.#body.clientHeight;
        this.#setTo = this.#isScale ? Math.round(this.#top / last * scrollRange)
            : this.#top * HEIGHT;
        this.#body.scrollTop = this.#setTo;
        this.#later();
    }

    #scrolled() {
        if (Math.abs(this.#body.scrollTop - this.#setTo) >= 2) {
            const scrollRange = this.#spacer.offsetHeight - this.#body.clientHeight;
            const last = Math.max(0, this.#count - this.#seen);
            this.#setTo = this.#body.scrollTop;
            this.#top = this.#isScale ? this.#setTo / scrollRange * last : this.#setTo / HEIGHT;
        }
        this.#later();
    }

    #wheeled(event) {
        if (this.#isScale && event.deltaY !== 0 && !event.ctrlKey) {
            event.preventDefault();
            const rows = event.deltaMode === 1 ? event.deltaY : event.deltaY / HEIGHT;
            this.#goTo(this.#top + rows);
        }
    }

    #later() {
        if (!this.#waits) {
            this.#waits = true;
            requestAnimationFrame(() => {
                this.#waits = false;
                this.#draw();
            });
        }
    }

    #draw() {
        const from = Math.floor(this.#top);
        const end = Math.min(this.#count, from + Math.ceil(this.#seen) + 1);
        const rows = [];
        for (let row = from; row < end; row += 1) {
            rows.push(this.#row(row));
        }
        this.#drawn.replaceChildren(...rows);
        const shift = this.#isScale ? 0 : from * HEIGHT - this.#body.scrollTop;
        this.#drawn.style.transform = `translateY(${this.#body.scrollTop + shift}px)`;
        const isSeen = this.#chosen >= from && this.#chosen < end;
        if (isSeen) {
            this.#grid.setAttribute("aria-activedescendant", `${this.#grid.id}-${this.#chosen}`);
        } else {
            this.#grid.removeAttribute("aria-activedescendant");
        }
    }

    #row(row) {
        const { texts, className = "" } = this.#cells(row);
        const node = element("div", {
            className: `row ${className}`, role: "row", id: `${this.#grid.id}-${row}`,
            "aria-rowindex": row + 2, "aria-selected": row === this.#chosen,
        });
        node.dataset.row = row;
        node.append(...texts.map((text, column) => {
            const { className: kind } = this.#columns[column];
            return element("div", { className: kind, role: "gridcell", text });
        }));
        return node;
    }

    #clicked(event) {
        const row = event.target.closest("[data-row]");
        if (row) {
            this.choose(Number(row.dataset.row));
        }
    }

    #pressed(event) {
        const page = Math.max(1, Math.floor(this.#seen) - 1);
        const steps = { ArrowDown: 1, ArrowUp: -1, PageDown: page, PageUp: -page,
            Home: -Infinity, End: Infinity };
        if (event.key in steps && !event.ctrlKey && !event.altKey && !event.metaKey) {
            event.preventDefault();
            this.choose(this.#chosen + steps[event.key]);
        }
    }
}
