// A part document as data, and what those of several parts say alike.
import { signed } from './explain.js';

// A document: its part, its species, its reactions, and the lines of the part, each as a word and numbers, which stay as they are
// written.
export function readProof(text) {
    const lines = text.split('\n'), count = Number(lines[1].split(' ')[1]), reactions = lines.slice(2, 2 + count);
    const said = lines.slice(2 + count, lines.indexOf('end')).map(line => line.split(' ')).map(([word, ...numbers]) => ({ word, numbers }));
    return { part: lines[0].split(' ')[2], species: [...new Set(reactions.join(' ').match(/[A-Za-z_]\w*/g))], reactions, said };
}

// The reactions with their numbers, but those with 0.
export const times = (reactions, numbers) => reactions.map((text, at) => [text, signed(numbers[at])]).filter(([, number]) => number !== '0');
export const several = (count, one, many = one + 's') => `${count.toLocaleString('en')} ${count === 1 ? one : many}`;

// The evidence of an open answer: a search that is too long, or a wide vector.
export const spentEvidence = nodes => [{ text: `The document says that the search has more than ${Number(nodes).toLocaleString('en')} visits. A greater budget, or another order of the lines, may help.` }];
export const wideEvidence = () => [{ text: 'The document says that a number of 2^62 or more was met. An open answer claims nothing.' }];
