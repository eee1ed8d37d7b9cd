// Runs all tests with the module with 32-bit memory in `prebuilt`, or another one: the rows of all
// languages, the examples, and tests of JavaScript only. `npm test` calls it. Tests are skipped if
// they need something that is missing: python3 for most rows, an engine with 64-bit memory for a
// module with such a memory, openssl for TLS, a C compiler for the cache in C.
//
// usage: node run.js [MODULE]

import assert from "node:assert/strict";
import { spawnSync } from "node:child_process";
import { existsSync, readFileSync } from "node:fs";
import { resolve } from "node:path";
import { test } from "node:test";
import { fileURLToPath } from "node:url";
import * as rows from "./rows.js";
import { TESTS as large, loads, read } from "./loads.js";
import { opened } from "./opened.js";
import { samples } from "./samples.js";
import { TESTS as clients } from "./clients.js";
import { TESTS as follows } from "./follows.js";
import { TESTS as given } from "./given.js";
import { TESTS as handshakes } from "./handshakes.js";
import { TESTS as links } from "./links.js";
import { TESTS as own } from "./own.js";
import { TESTS as saves } from "./saves.js";
import { TESTS as servers } from "./servers.js";
import { TESTS as streams } from "./streams.js";

const TOP = fileURLToPath(new URL("../../..", import.meta.url));
const MODULE = resolve(process.argv[2] ?? `${TOP}/prebuilt/wasm32/rtr_wire.wasm`);

/** The rows that are in a file. */
const FILES = { texts: "tests/texts", samples: "tests/samples", loads: "tests/loads" };

/** The rows that a script computes. */
const SCRIPTS = {
    cases: ["tests/libraries/cases.py", "--inputs", "200"],
    sessions: ["tests/libraries/sessions.py", "cases"],
    deltas: ["tests/libraries/deltas.py"],
    validity: ["tests/libraries/validity.py"],
    findings: ["tests/programs/listings.py", "--findings"],
};

/** The examples, and the recordings that they read. */
const EXAMPLES = { units: "crates/rtr_list/stdin", routes: "crates/rtr_normalise/stdin" };

/** Recordings of tests/loads, and the result of the example routes.js with each: exit status,
 * standard output and standard error. */
const ROUTES = {
    "the recording of docs/OPERATORS.md": [0, `192.0.2.0/24 AS65551 INVALID
  its first 24 bits, up to 24, AS64496: OTHER_AS
192.0.2.0/27 AS65551 INVALID
  its first 24 bits, up to 24, AS64496: OTHER_AS
203.0.113.0/24 AS65551 INVALID
  its first 24 bits, up to 24, AS64500: OTHER_AS
`, ""],
    "an answer that the next cache response cuts off": [0, `192.0.2.0/24 AS65551 NOT_FOUND
192.0.2.0/27 AS65551 NOT_FOUND
203.0.113.0/24 AS65551 NOT_FOUND
`, "routes: left out: an answer without an end of data\n"],
    nothing: [1, "", "routes: unexpected end of input, at byte 0\n"],
};

const python = spawnSync("python3", ["--version"]).status === 0;

/** Runs a program in the repository's folder, and returns what it prints. */
function printed(program, words, input) {
    const done = spawnSync(program, words, { cwd: TOP, input, maxBuffer: 1 << 30 });
    assert.equal(done.status, 0, `${program} ${words.join(" ")}: ${done.error ?? done.stderr}`);
    return done.stdout;
}

/** Returns the bytes of the rows of a test. */
function input(name) {
    const bytes = name in FILES ? readFileSync(`${TOP}/${FILES[name]}`)
        : printed("python3", SCRIPTS[name]);
    return new Uint8Array(bytes);
}

/** Returns why a test can't run here, or false. */
function missing(name) {
    if (rtr === null) {
        return `node ${process.version} has no 64-bit memory for WebAssembly`;
    }
    return (name in SCRIPTS || name === "scenes") && !python &&
        "no python3 here, whose scripts make the rows";
}

/** The tests of JavaScript only. */
const GROUPS = { own, given, large, links, clients, follows, servers, saves, streams, handshakes };

if (!existsSync(MODULE)) {
    console.error(`there is no ${MODULE}: node run.js MODULE names another`);
    process.exit(2);
}
const bytes = new Uint8Array(readFileSync(MODULE));
const rtr = await opened(bytes);
for (const [name, play] of Object.entries({ ...rows, samples, loads })) {
    test(name, { skip: missing(name) }, (t) => t.diagnostic(`${play(rtr, input(name))} rows`));
}
for (const end of ["link", "router"]) {
    test(`scenes of a ${end}`, { skip: missing("scenes") }, (t) => {
        const words = [`${TOP}/tests/transcripts/play.py`, "router", process.execPath,
            `${TOP}/bindings/js/tests/router_end.js`, MODULE, end];
        t.diagnostic(printed("python3", words).toString().trim());
    });
}
test("scenes of a cache", { skip: missing("scenes") }, (t) => {
    const words = [`${TOP}/tests/transcripts/play.py`, "cache", process.execPath,
        `${TOP}/bindings/js/tests/cache_end.js`, MODULE];
    t.diagnostic(printed("python3", words).toString().trim());
});
for (const [group, tests] of Object.entries(GROUPS)) {
    for (const [name, call] of Object.entries(tests)) {
        test(`${group}: ${name}`, { skip: missing(name) }, (t) => call(rtr, bytes, t));
    }
}
for (const [name, recording] of Object.entries(EXAMPLES)) {
    test(`examples/${name}.js`, { skip: missing(name) }, () => {
        const example = `${TOP}/bindings/js/examples/${name}`;
        const output = printed(process.execPath, [`${example}.js`],
            readFileSync(`${TOP}/${recording}`));
        assert.equal(output.toString(), readFileSync(`${example}.stdout`, "utf8"));
    });
}
/** Wrong arguments of the examples: missing, empty, invalid, superfluous or second ones. */
const WRONG = {
    cache: ["", "f g", "--nothing f", "f --listen", "f --listen 3323", "f --listen a:65536",
        "f --max-clients", "f --max-clients 0", "f --max-clients -1", "f --max-clients x",
        "f --max-clients 1.5", "f --max-clients 9999999999", "f --max-clients 2 --max-clients 3",
        "f --refuse=yes"],
    client: ["", "a", "a x", "a 65536", "a -1", "a 1 0", "a 1 x", "a 1 2 3"],
    follow: ["", "a", ":1", "a:x", "a:65536", "a:1 b", "a:1 b:1 a:1"],
    serve: ["", "f", "f x", "f 65536", "f 1 2"],
};

for (const [name, lines] of Object.entries(WRONG)) {
    test(`examples/${name}.js with wrong arguments`, () => {
        for (const line of lines) {
            const words = line.split(" ").filter((word) => word !== "");
            const done = spawnSync(process.execPath,
                [`${TOP}/bindings/js/examples/${name}.js`, ...words], { encoding: "utf-8" });
            assert.equal(done.status, 2, `${line}: ${done.stderr}`);
            assert.match(done.stderr, new RegExp(`^usage: (node )?${name}\\.js [^\n]*\n$`));
            assert.equal(done.stdout, "");
        }
    });
}

test("examples/routes.js over recordings", { skip: missing("routes") }, () => {
    const units = Object.fromEntries(read(input("loads")).map((row) => [row.name, row.units]));
    for (const [name, expected] of Object.entries(ROUTES)) {
        const done = spawnSync(process.execPath, [`${TOP}/bindings/js/examples/routes.js`],
            { input: Buffer.concat(units[name]), encoding: "utf8" });
        assert.deepEqual([done.status, done.stdout, done.stderr], expected, name);
    }
});
