// Runs the module under Node: host.js MODULE WORD.. reads standard input, writes to standard output, and ends with the
// program's status. host.js MODULE --serve answers jobs, one a line: {"words", "text"} with the text in base64, by
// {"status", "out", "pages"}.
import fs from 'node:fs';
import readline from 'node:readline';
import { runOnce } from '../script/run.js';

const [file, ...words] = process.argv.slice(2);
const program = new WebAssembly.Module(fs.readFileSync(file));

function write(bytes) {
    for (let at = 0; at < bytes.length;) at += fs.writeSync(1, bytes, at);
}

if (words[0] === '--serve') {
    for await (const line of readline.createInterface({ input: process.stdin })) {
        const job = JSON.parse(line);
        const done = runOnce(program, job.words, new Uint8Array(Buffer.from(job.text, 'base64')));
        write(Buffer.from(JSON.stringify({ ...done, out: Buffer.from(done.out).toString('base64') }) + '\n'));
    }
} else {
    const done = runOnce(program, words, new Uint8Array(fs.readFileSync(0)));
    write(done.out);
    process.exitCode = done.status;
}
