// Runs `crnt` with these words on the bytes of a text, in a new instance of the module. Gives the status and the bytes that
// were written.
//
// An instance serves one run, so no run sees what another left. If what is written does not fit, there is another run with
// more room. If the memory cannot be had, the status is that of a run that was out of memory.
export function runOnce(module, words, text) {
    const PAGE = 65536, MOST = 1024 * 1024 * 1024, TOO_LONG = 6, NO_MEMORY = 7;
    const line = new TextEncoder().encode(['crnt', ...words].join('\0'));
    for (let room = 4 * 1024 * 1024; ; room *= 4) {
        const { memory, crn_page_run } = new WebAssembly.Instance(module, {}).exports;
        let at = memory.buffer.byteLength;
        try {
            memory.grow(Math.ceil((8 + line.length + text.length + room) / PAGE));
        } catch {
            return { status: NO_MEMORY, out: new Uint8Array(0) };
        }
        const take = count => (at += count) - count;
        const length = take(8), parts = [];
        for (const bytes of [line, text]) {
            const start = take(bytes.length);
            new Uint8Array(memory.buffer, start, bytes.length).set(bytes);
            parts.push(start, bytes.length);
        }
        const out = take(room);
        const status = crn_page_run(...[...parts, out, room, length].map(BigInt));
        if (status !== TOO_LONG || room >= MOST) {
            const count = Number(new DataView(memory.buffer).getBigUint64(length, true));
            return { status, out: new Uint8Array(memory.buffer, out, count).slice(), pages: memory.buffer.byteLength / PAGE };
        }
    }
}
