// Appends, at SIGUSR2, a line to the file that FAULTS_MEMORY names: how many bytes a program for
// Node has allocated, after garbage collections. The cache is run with --expose-gc, and --require
// for this file.

const { appendFileSync } = require("node:fs");

const path = process.env.FAULTS_MEMORY;
appendFileSync(path, "");
process.on("SIGUSR2", () => {
    gc();
    gc(); // what finalizers let go of at the first
    const { heapUsed, external } = process.memoryUsage();
    appendFileSync(path, `${heapUsed + external}\n`);
});
