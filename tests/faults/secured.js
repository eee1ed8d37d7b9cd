// TLS for the programs of this folder.

import { readFile } from "node:fs/promises";

/** Returns the options of TLS for both ends by a file with a certificate, by which both are known,
 * and its key. */
export async function identified(path) {
    const pem = await readFile(path);
    return { ca: pem, cert: pem, key: pem, requestCert: true };
}
