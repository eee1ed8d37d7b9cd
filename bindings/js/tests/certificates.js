// Certificates for tests, which openssl makes.

import { spawnSync } from "node:child_process";
import { mkdtempSync, readFileSync, rmSync } from "node:fs";
import { tmpdir } from "node:os";
import { join } from "node:path";

export const NO_OPENSSL = "no openssl here, which makes certificates";

/** Returns the key and the certificate of a cache with this name; null without openssl. */
export function certified(name) {
    const folder = mkdtempSync(join(tmpdir(), "rtr-"));
    const [key, certificate] = ["key", "certificate"].map((file) => join(folder, file));
    const done = spawnSync("openssl", ["req", "-x509", "-newkey", "ec", "-pkeyopt",
        "ec_paramgen_curve:prime256v1", "-nodes", "-days", "2", "-subj", "/CN=cache", "-addext",
        `subjectAltName=${name}`, "-keyout", key, "-out", certificate]);
    const files = done.status === 0
        ? { key: readFileSync(key), cert: readFileSync(certificate) } : null;
    rmSync(folder, { recursive: true });
    return files;
}
