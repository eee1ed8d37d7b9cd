// The page: the opened file, and the selected view.

import { Fault, MODULE, OutOfMemory, load } from "./library.js";
import { breathe } from "./recording.js";
import { openFile, openSession, sessionName } from "./opening.js";
import { count, faultText, many, owedText } from "./words.js";
import { element } from "./table.js";
import { UnitsView } from "./units_view.js";
import { showPicture } from "./picture_view.js";
import { CompareView } from "./compare_view.js";
import { RouteView } from "./route_view.js";
import { RulesView } from "./rules_view.js";

const by = (id) => document.getElementById(id);

// A capture of a session, beside this page.
const SAMPLE = new URL("sample.pcap", import.meta.url);

/** Announces a text to screen readers. */
function say(text) {
    by("status").textContent = text;
}

// The most refused units that are listed for a side, and how many are visible at once.
const MOST_FAULTS = 20;
const FEW_FAULTS = 3;

/** Shows how much of a file has been read. */
function progressed(done) {
    by("progress").value = done;
}

/** Shows that a file has no unit, and what it looks like. */
function noneLine(recording) {
    const text = recording.count === 0 ? "It is empty." : `It is no recording${
        recording.hint ? `, but ${recording.hint}` : ": it begins with no unit"}.`;
    return element("p", { text });
}

class Page {
    #rtr;
    #first = null; // what is shown
    #second = null; // what it is compared with
    #units;
    #compare;
    #route;
    #rules;

    constructor(rtr) {
        this.#rtr = rtr;
        this.#units = new UnitsView(rtr);
        this.#compare = new CompareView(rtr, () => this.#swap());
        this.#route = new RouteView(rtr);
        this.#rules = new RulesView((offset) => this.#goTo(offset));
        this.#tabs();
        by("files").addEventListener("change", (event) => this.#open([...event.target.files]));
        by("sample").addEventListener("click", () => this.#openSample());
        by("sample").disabled = false;
        by("session").addEventListener("change", (event) => (
            this.#openSession(event.target.selectedIndex)));
        for (const name of ["dragover", "dragleave", "drop"]) {
            document.addEventListener(name, (event) => this.#dragged(event));
        }
    }

    #dragged(event) {
        event.preventDefault();
        document.body.classList.toggle("dropping", event.type === "dragover");
        if (event.type === "drop") {
            this.#open([...event.dataTransfer.files]);
        }
    }

    /** Opens files: the first is compared with the second. */
    #open(files) {
        return files.length === 0 ? null : this.#replace(files[0].name, async () => (
            [await this.#read(files[0]), files[1] ? await this.#read(files[1]) : null]));
    }

    async #openSample() {
        const answer = await fetch(SAMPLE);
        this.#open([new File([await answer.arrayBuffer()], "sample.pcap")]);
    }

    /** Opens another session of the shown capture. */
    #openSession(chosen) {
        const { name, sessions, cut } = this.#first;
        this.#replace(name, async () => (
            [await openSession(this.#rtr, name, sessions, chosen, cut, progressed), null]));
    }

    /** Shows what `read` returns instead of the present file. */
    async #replace(name, read) {
        document.body.dataset.state = "reading";
        say(`Reading ${name}`);
        by("progress").hidden = false;
        try {
            const [first, second] = await read();
            this.#units.clear();
            [this.#first, this.#second].forEach((opened) => opened?.drop());
            this.#show(first, second);
        } catch (error) {
            say(error instanceof OutOfMemory ? `${name} is too long: ${error.cause}`
                : `${name} can't be read: ${error.message}`);
            document.body.dataset.state = "failed";
        }
        by("progress").hidden = true;
        by("files").value = "";
    }

    async #read(file) {
        const bytes = new Uint8Array(await file.arrayBuffer());
        return openFile(this.#rtr, file.name, bytes, progressed);
    }

    #show(first, second) {
        [this.#first, this.#second] = [first, second];
        const { recording, units } = first;
        const isNone = recording.isNone;
        by("welcome").hidden = true;
        by("name").textContent = second ? `${first.name} and ${second.name}` : first.name;
        const size = many(units.size, "byte");
        say(isNone ? `${size}, and no unit.`
            : `${many(units.count, "unit")} in ${size}.${first.note}`);
        this.#showSessions(first);
        this.#showFaults(first);
        by("tabs").hidden = isNone;
        for (const panel of document.querySelectorAll("[role=tabpanel]")) {
            panel.hidden = true;
        }
        if (!isNone) {
            this.#units.show(units);
            showPicture(by("panel-picture"), first, (filter) => this.#filter(filter),
                (index) => this.#chooseUnit(index));
            this.#route.show(recording);
            this.#compare.show(recording, second?.recording);
            this.#rules.show(recording);
            this.#choose(second ? "compare" : "units");
        }
        document.body.dataset.state = "shown";
    }

    #showSessions({ sessions, chosen }) {
        by("sessions").hidden = sessions.length < 2;
        by("session").replaceChildren(...sessions.map((session) => (
            element("option", { text: sessionName(session) }))));
        by("session").selectedIndex = chosen;
    }

    #swap() {
        this.#show(this.#second, this.#first);
    }

    /** Shows the units of a bar of the picture. */
    #filter(filter) {
        this.#choose("units");
        this.#units.filter(filter);
    }

    #goTo(offset) {
        this.#choose("units");
        this.#units.goTo(offset);
    }

    #chooseUnit(index) {
        this.#choose("units");
        this.#units.chooseUnit(index);
    }

    /** Lists the units that are refused, of each side. */
    #showFaults({ recording, sides }) {
        const lines = sides.flatMap((side) => side.faults.slice(0, MOST_FAULTS).map((fault) => (
            this.#faultLine(side, fault, side === recording))));
        const all = sides.reduce((sum, { faults }) => sum + faults.length, 0);
        by("faults").hidden = all === 0 && recording.count > 0;
        const title = element("summary", { text: `${many(all, "unit")} refused` });
        const list = element("details");
        list.open = all < FEW_FAULTS;
        const rest = all - lines.length;
        list.append(title, ...lines, ...(rest > 0
            ? [element("p", { text: `and ${many(rest, "more unit")}` })] : []));
        by("faults").replaceChildren(...(recording.isNone ? [noneLine(recording)] : []),
            ...(all > 0 ? [list] : []));
    }

    #faultLine({ name, isNone }, fault, isShown) {
        const line = element("p", { className: "fault" });
        const link = element("button", { text: `Byte ${count(fault.offset)}`, type: "button" });
        link.disabled = isNone || !isShown;
        link.addEventListener("click", () => this.#goTo(fault.offset));
        const where = isShown ? "" : ` of ${name}`;
        line.append(link, `${where} ${faultText(fault)}; ${owedText(fault)}.`);
        return line;
    }

    /** Tabs, which arrows move between. */
    #tabs() {
        const tabs = [...document.querySelectorAll("[role=tab]")];
        tabs.forEach((tab, index) => {
            tab.addEventListener("click", () => this.#choose(tab.id.slice(4)));
            tab.addEventListener("keydown", (event) => {
                const step = { ArrowRight: 1, ArrowLeft: -1 }[event.key];
                if (step) {
                    const next = tabs[(index + step + tabs.length) % tabs.length];
                    this.#choose(next.id.slice(4));
                    next.focus();
                }
            });
        });
    }

    #choose(name) {
        for (const tab of document.querySelectorAll("[role=tab]")) {
            const isChosen = tab.id === `tab-${name}`;
            tab.setAttribute("aria-selected", isChosen);
            tab.tabIndex = isChosen ? 0 : -1;
            by(tab.getAttribute("aria-controls")).hidden = !isChosen;
        }
        if (name === "rules") {
            this.#rules.open();
        }
    }
}

/** Loads the library, and begins. */
async function begin() {
    try {
        const answer = await fetch(MODULE);
        if (!answer.ok) {
            throw new Error(`${MODULE.pathname} isn't there (${answer.status})`);
        }
        const rtr = await load(await answer.arrayBuffer());
        await breathe();
        new Page(rtr);
        say("Open or drop a recording.");
        document.body.dataset.state = "ready";
    } catch (error) {
        say(error instanceof Fault ? error.message : `The page can't start: ${error.message}.`);
        document.body.dataset.state = "failed";
    }
}

begin();
