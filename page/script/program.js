// The program in a worker, so that the page answers while it runs, and a run can be stopped.
import { runOnce } from './run.js';

const WORKER = `
${runOnce}
let compiled;
onmessage = ({ data }) => {
    try {
        if (data.module) compiled = new WebAssembly.Module(data.module);
        const began = performance.now();
        const done = runOnce(compiled, data.words, data.text);
        postMessage({ done: { ...done, milliseconds: performance.now() - began } });
    } catch (error) {
        postMessage({ failed: String(error) });
    }
};`;

export class Program {
    #module; #worker = null; #settle = null;

    // Whether the browser can run the module.
    static serves(module) {
        return typeof WebAssembly === 'object' && typeof Worker === 'function' && typeof BigInt === 'function' && WebAssembly.validate(module);
    }

    constructor(module) { this.#module = module; }

    get running() { return this.#settle !== null; }

    // Runs with these words on the bytes of a text, and gives the status and what was written; nothing if the run is stopped,
    // by `stop` or by another run.
    run(words, text) {
        this.stop();
        const fresh = !this.#worker;
        if (fresh) {
            const address = URL.createObjectURL(new Blob([WORKER], { type: 'text/javascript' }));
            this.#worker = new Worker(address);
            URL.revokeObjectURL(address);
        }
        return new Promise((resolve, reject) => {
            const settle = (how, value) => { this.#settle = null; how(value); };
            this.#settle = value => settle(resolve, value);
            this.#worker.onmessage = ({ data }) => data.done ? settle(resolve, data.done) : settle(reject, new Error(data.failed));
            this.#worker.onerror = event => settle(reject, new Error(event.message || 'the worker did not start'));
            this.#worker.postMessage({ module: fresh ? this.#module : undefined, words, text });
        });
    }

    stop() {
        if (!this.running) return;
        this.#worker.terminate();
        this.#worker = null;
        this.#settle(null);
    }
}
