// What a text or a file is that is no network text, or no certificate, and what the page can make of it.
import { PARTS } from './proofs.js';

const leads = (bytes, ...first) => first.every((byte, at) => bytes[at] === byte);
const isWide = bytes => leads(bytes, 0xff, 0xfe) || leads(bytes, 0xfe, 0xff);
const BLANKS = /[\u00a0\u1680\u2000-\u200a\u202f\u205f\u3000]/g, UNSEEN = /[\u00ad\u200b-\u200f\u2060\ufeff]/;

function decoded(bytes) {
    return new TextDecoder(leads(bytes, 0xff, 0xfe) ? 'utf-16le' : leads(bytes, 0xfe, 0xff) ? 'utf-16be' : 'utf-8').decode(bytes);
}

// The text as the program reads texts: without a byte order mark, in UTF-8, with LF at the end of each line, and with spaces
// where there are others.
export function plain(bytes) {
    const text = decoded(bytes).replace(/\r*\n|\r/g, '\n').replace(BLANKS, ' ').replace(new RegExp(UNSEEN, 'g'), '');
    return text && !text.endsWith('\n') ? text + '\n' : text;
}

// What of that the bytes have at their head and in a part of their text, in words.
function oddities(bytes, part) {
    if (isWide(bytes)) return ['UTF-16'];
    const found = [];
    if (leads(bytes, 0xef, 0xbb, 0xbf)) found.push('a byte order mark');
    if (/\r\r+(\n|$)/.test(part)) found.push('two CR before each LF');
    else if (/\r(?!\n|$)/.test(part)) found.push('CR at the ends of lines');
    if (part.match(BLANKS)) found.push('no-break spaces, or other wide ones');
    if (UNSEEN.test(part.slice(1))) found.push('marks that are not seen');
    return found;
}

// What no certificate has, besides.
function strictly(bytes, text) {
    const found = oddities(bytes, text);
    if (/[^\r]\r\n/.test(text)) found.push('CR before LF at the ends of lines');
    if (!found.length && text && !text.endsWith('\n')) found.push('no LF after its last line');
    return found;
}

// Texts that are known by how they begin, or by a line that they have.
const KNOWN = [
    [/^crn report \d/, 'This is a report, which does not list the reactions. Open the text of the network, or its certificate.'],
    [/^\s*<(\?xml|sbml)/, 'This is SBML or other XML, which the page does not read. `crnt-tools import`, one of the program’s companions, makes a network text of SBML.'],
    [/^\s*begin (model|parameters|species|reactions|molecule types)\b/m, 'This is a file of BioNetGen, which the page does not read. `crnt-tools import`, one of the program’s companions, makes a network text of a `.net` file.'],
    [/^(%PDF|PK\x03\x04|\x89PNG|\xd0\xcf\x11)/, 'This is no text, but a document, a table, an archive or a picture. Copy the reactions out of it, and paste them here, one on a line.'],
    [/^\s*[{[]\s*["[{]/, 'This is JSON, which the page does not read. Write the reactions as lines, each as `A + B -> C`.'],
    [/^[^\n#]*->[^\n#]*;[^\n]*\*/m, 'This may be Antimony. Put the label before `:`, and the rate after `;`, into a comment: `A -> B # J1; k1*A`. There `->` is a reaction in both directions, so you may have to write `<->`.'],
    [/^(?![^]*(->|<-|=))[^\n]*[,\t;]/, 'This is a table, which the page does not read. Write each reaction on a line, as `A + B -> C`.'],
];

const knownAs = bytes => (KNOWN.find(([mark]) => mark.test(isWide(bytes) ? decoded(bytes) : String.fromCharCode(...bytes.subarray(0, 4096)))) || [])[1];

// What to do with a text that is refused, at this line if at one, as a sentence and what a button does; nothing if it may well
// be a network text.
export function remedyOfText(bytes, fault, line) {
    const document_ = /^\s*crn (certificate \d|part )/.exec(plain(bytes.subarray(0, 200)));
    if (document_) return { says: `This is a ${document_[1] === 'part ' ? 'part document' : 'certificate'}, and not the text of a network.`, does: 'check', label: 'Check it' };
    // In a file of an old Macintosh all may be one comment.
    const odd = fault.code === 11 ? oddities(bytes, line.replace(/#.*/, '')) : fault.code === 5 ? oddities(bytes, decoded(bytes)) : [];
    if (odd.length) return { says: `The text has ${odd.join(' and ')}, which the program does not read.`, does: 'convert', label: 'Convert it' };
    const known = knownAs(bytes);
    return known ? { says: known } : null;
}

// What to do with a certificate that is rejected for its form.
export function remedyOfCertificate(bytes, fault) {
    const text = plain(bytes), isPart = text.startsWith('crn part '), isOne = isPart || text.startsWith('crn certificate '), what = isPart ? 'document' : 'certificate';
    if (!text.trim()) return { says: 'The file is empty: it was not saved, or it is another one. Make the certificate again, from its network.' };
    if (!isOne) {
        const known = knownAs(bytes);
        return known ? { says: known } : { says: 'This is no certificate: one begins with the line `crn certificate 2`. It may be the text of a network.', does: 'read', label: 'Open it as a network' };
    }
    const odd = fault.code <= 30 || fault.code === 43 ? strictly(bytes, decoded(bytes)) : [];
    const isWhole = /\nend\n$/.test(text);
    if (isPart && fault.code === 21 && !odd.length) return { says: `A part document begins with a line as \`crn part persist 1\`; the parts that are known here are ${Object.keys(PARTS).map(part => `\`${part}\``).join(', ')}.` };
    if (odd.length && (isWhole || fault.line === 1)) return { says: `The ${what} has ${odd.join(' and ')}, which is not how ${what}s are written.`, does: 'recheck', label: 'Convert and check it' };
    if (isWhole || ![27, 43].includes(fault.code)) return null;
    return { says: `The ${what} ends before its last line, \`end\`: only a part of it was saved or copied. Make it again from its network.`, does: 'network', label: 'Open its network' };
}
