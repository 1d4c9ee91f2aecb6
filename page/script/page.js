// The page: what its controls do.
import { Program } from './program.js';
import { networkIn, readReactions, readReport } from './report.js';
import { proposal } from './cures.js';
import { reordered } from './order.js';
import { PRINTED, complexPicture, escaped, speciesPicture } from './picture.js';
import { Pointer } from './pointer.js';
import { conclusionsView, divided, linesView, proofView, summary } from './view.js';
import { readProof } from './proof.js';
import { PARTS, proofVerdict, saidParts } from './proofs.js';
import { treeWords, treesIn } from './evidence.js';
import { plain, remedyOfCertificate, remedyOfText } from './files.js';
import { readFault, refusalView, rejectionView } from './faults.js';

const $ = id => document.getElementById(id);
const data = JSON.parse($('data').textContent);
const moduleBytes = () => Uint8Array.from(atob($('module').textContent.trim()), mark => mark.charCodeAt(0));
const bytesOf = text => new TextEncoder().encode(text), textOf = bytes => new TextDecoder('utf-8', { ignoreBOM: true }).decode(bytes);
const show = (id, shown) => { $(id).hidden = !shown; };

// The most bytes of a text that are shown and handed on: the program reads no more of a network text.
const MOST_TEXT = 2097153;
// A search that needs more visits than these shows its progress.
const QUICK = 1000;

const STATUS = { 4: 'a budget is a whole number from 1 to 100,000', 6: 'what is to be written is too long for the page', 7: 'memory ran out; close other pages, or run the program itself', 8: 'the words could not be read' };

let program, helper; // of the report; of certificates, samples and proposals
let opened = null; // the bytes of a file, until something else is typed: a text area would change its line ends
let name = 'network'; // what files to save are called
let now = null; // what is shown: the report and the reactions
let turn = 0; // of the run that may still say something
let proposed = null; // a line that the program accepts in the place of the refused one
let made = null; // the certificate that was made
let proof = null; // the part document that was written

// ---- the text

const typed = () => opened || bytesOf($('text').value);

// The most characters of a text that are shown, as browsers are slow with more. A longer one is read whole all the same, and
// can be written on when all of it is shown.
const MOST_SHOWN = 100000;
let isReplacing = false; // while the page itself changes the text

// Puts a text in the place of what is selected. Chromium takes a second for a hundred lines of plain text, and milliseconds for
// the same as HTML, which Firefox does not take in a field of text.
function putIn(text) {
    if (!text) document.execCommand('delete');
    else if (!document.execCommand('insertHTML', false, escaped(text))) document.execCommand('insertText', false, text);
}

// Puts a text in the place of what is typed: only what differs, and so that Ctrl+Z takes it back, if the browser can, once
// something was read.
function replaceText(text) {
    const field = $('text'), before = field.value, after = text.replace(/\r\n?/g, '\n'), least = Math.min(before.length, after.length);
    let from = 0, ends = 0;
    while (from < least && before[from] === after[from]) from++;
    if (before === after) return;
    while (ends < least - from && before[before.length - 1 - ends] === after[after.length - 1 - ends]) ends++;
    const piece = after.slice(from, after.length - ends);
    if (turn && Math.max(before.length, after.length) <= MOST_SHOWN) {
        const focused = document.activeElement, scrolled = [scrollX, scrollY];
        field.focus({ preventScroll: true });
        field.setSelectionRange(from, before.length - ends);
        isReplacing = true;
        putIn(piece);
        isReplacing = false;
        if (focused && focused !== field) focused.focus({ preventScroll: true });
        if (document.activeElement === field && focused !== field) field.blur();
        scrollTo(...scrolled);
    }
    if (field.value !== after) field.value = after;
}

// Puts a text, or the bytes of a file which show as this text, in the place of what is typed.
function fill(text, bytes = null) {
    const isLong = text.length > MOST_SHOWN, shown = isLong ? text.slice(0, text.lastIndexOf('\n', MOST_SHOWN) + 1 || MOST_SHOWN) : text;
    $('text').readOnly = false;
    replaceText(shown);
    $('text').readOnly = isLong;
    show('long', isLong);
    opened = bytes || (isLong ? bytesOf(text).subarray(0, MOST_TEXT) : null);
    showNumbers();
    if (isLong) $('long-text').textContent = `The text is long. It is read whole, and the first ${(lineCount - 1 || 1).toLocaleString('en')} lines are shown.`;
}

function setText(text, bytes = null) {
    fill(text, bytes);
    $('text').scrollTop = 0;
    changed(0);
}

// Shows all of a long text, so that it can be written on.
function showAll() {
    show('long', false);
    $('text').readOnly = false;
    $('text').value = textOf(opened);
    $('text').focus();
    showNumbers();
}

// A long text that is pasted becomes the text as if it were opened.
function paste(event) {
    const field = $('text'), pasted = event.clipboardData.getData('text');
    if (pasted.length <= MOST_SHOWN || field.readOnly) return;
    event.preventDefault();
    setText(field.value.slice(0, field.selectionStart) + pasted + field.value.slice(field.selectionEnd));
}

// The height of a line of the text, and what is above the first.
const ROW = 21, ABOVE = 8;
let lineCount = 1; // lines of the text

function showNumbers() {
    const text = $('text').value;
    lineCount = 1;
    for (let at = text.indexOf('\n'); at >= 0; at = text.indexOf('\n', at + 1)) lineCount++;
    $('numbers').style.width = `${Math.max(3.2, 1.2 + 0.65 * String(lineCount).length)}em`;
    follow();
}

// Goes with the text as it scrolls: the numbers of the lines that are seen, and the stripe behind the refused one.
function follow() {
    const top = $('text').scrollTop, first = Math.floor(top / ROW), seen = Math.ceil($('text').clientHeight / ROW) + 2;
    $('numbers').textContent = Array.from({ length: seen }, (_, at) => first + at < lineCount ? first + at + 1 : '').join('\n');
    $('numbers').scrollTop = top - first * ROW;
    if (!$('stripe').hidden) $('stripe').style.top = `${ABOVE + ($('stripe').dataset.line - 1) * ROW - top}px`;
}

function markLine(line) {
    show('stripe', line > 0);
    $('stripe').dataset.line = line;
    $('text').setAttribute('aria-invalid', String(line !== null));
    $('text').setAttribute('aria-describedby', line === null ? 'status' : 'status refusal');
    follow();
}

let waiting; // for a pause in typing
function changed(pause = 180) {
    clearTimeout(waiting);
    showNumbers();
    show('shared', false);
    show('save-certificate', false);
    $('certified').textContent = '';
    show('rejection', false);
    forgetProof();
    waiting = setTimeout(read, pause);
}

// ---- reports

function say(text, mood = '') {
    $('status').className = mood;
    $('status').textContent = text;
}

const seconds = since => Math.round((performance.now() - since) / 1000);
const spent = done => `${done.milliseconds < 10 ? done.milliseconds.toFixed(1) : Math.round(done.milliseconds)} ms`;
const byBudget = report => report.open.filter(question => /^budget/.test(question.parts[1] || ''));

// Reads the text: a report by a short search at once, and then by one as long as the budget allows.
async function read() {
    const mine = ++turn, text = typed(), budget = $('budget').value;
    for (const id of ['halted', 'refusal', 'progress']) show(id, false);
    show('stale', !$('shown').hidden);
    say('reading …');
    try {
        // Whatever is no budget is left to the program to refuse.
        const isLong = /^\d{1,6}$/.test(budget) && Number(budget) > QUICK && Number(budget) <= 100000;
        const quick = isLong ? String(QUICK) : budget;
        let done = await program.run(['report', '--budget', quick], text);
        if (mine !== turn || !done) return;
        if (done.status > 1) return await refuse(done, text, mine);
        const network = await program.run(['certify', '--budget', '1'], text);
        if (mine !== turn || !network) return;
        if (network.status > 1) return say(STATUS[network.status], 'bad');
        showReport(textOf(done.out), textOf(network.out));
        if (quick !== budget && byBudget(now.report).length) {
            done = await search(text, budget, mine);
            if (mine !== turn) return;
            if (done) showReport(textOf(done.out), textOf(network.out));
        }
        if (done) sayDone(done);
        await countTrees(text, done ? budget : quick, mine);
    } catch (error) {
        if (mine === turn) say(`The program stopped: ${error.message}`, 'bad');
    } finally {
        if (mine === turn) finish(text);
    }
}

// Says that the run has ended, to whoever waits for it.
function finish(text) {
    show('progress', false);
    document.body.dataset.done = String(turn);
    document.body.dataset.length = String(text.length);
}

// The long search, with a line that says how long it has taken. Nothing if it is stopped.
async function search(text, budget, mine) {
    const numbers = byBudget(now.report).map(question => question.number), began = performance.now();
    const questions = numbers.length === 1 ? `question ${numbers[0]}` : `questions ${numbers.slice(0, -1).join(', ')} and ${numbers[numbers.length - 1]}`;
    const tell = () => { $('at-work').textContent = `Searching for ${questions}: up to ${Number(budget).toLocaleString('en')} visits each, ${seconds(began)} s so far.`; };
    tell();
    show('progress', true);
    say('all other questions are answered');
    const clock = setInterval(tell, 1000);
    try {
        const done = await program.run(['report', '--budget', budget], text);
        if (mine === turn && !done) {
            $('halted-text').textContent = `Stopped. What is shown is the report with a budget of ${QUICK.toLocaleString('en')}, in which ${questions} ${numbers.length === 1 ? 'is' : 'are'} open.`;
            show('halted', true);
            say('done, with an open question', 'open');
        }
        return done;
    } finally {
        clearInterval(clock);
        if (mine === turn) show('progress', false);
    }
}

// Says how large the trees are, which only a certificate has.
async function countTrees(text, budget, mine) {
    const places = $('lines').querySelectorAll('[data-tree]');
    const whole = places.length && await program.run(['certify', '--budget', budget], text);
    if (mine !== turn || !whole) return;
    const trees = treesIn(textOf(whole.out));
    for (const place of places) place.textContent = treeWords(place.dataset.tree, trees);
}

function sayDone(done) {
    const count = now.report.open.length;
    say(count ? `done, with ${count} open ${count === 1 ? 'question' : 'questions'} (${spent(done)})` : `done (${spent(done)})`, count ? 'open' : 'good');
}

function showReport(text, certificate, trees = null) {
    const report = readReport(text);
    now = { report, reactions: readReactions(certificate, report.complexes) };
    markLine(null);
    for (const id of ['stale', 'refusal']) show(id, false);
    show('shown', true);
    $('summary').textContent = summary(report);
    $('conclusions').innerHTML = conclusionsView(report, data.conclusions);
    $('lines').innerHTML = linesView(report, now.reactions, data.conclusions, trees);
    $('unfold').textContent = 'Unfold all';
    $('report').textContent = text;
    draw();
}

async function refuse(done, text, mine) {
    const fault = done.status === 2 && readFault(textOf(done.out));
    if (!fault) return say(STATUS[done.status] || `the program ended with status ${done.status}`, 'bad');
    const whole = fault.line ? textOf(text).split('\n')[fault.line - 1] : '', line = whole.replace(/\r$/, '');
    const remedy = remedyOfText(text, fault, whole);
    say(fault.line ? `line ${fault.line} is refused` : 'the text is refused', 'bad');
    proposed = null;
    markLine(fault.line);
    $('refusal').innerHTML = refusalView(fault, line, null, remedy, data.cures);
    show('refusal', true);
    const meant = !remedy && fault.line && line.length < 1000 ? await acceptable(line) : null;
    if (mine !== turn || meant === null) return;
    proposed = { line: fault.line, text: meant };
    $('refusal').innerHTML = refusalView(fault, line, meant, null, data.cures);
}

// The line that is meant, if there is one and the program accepts it.
async function acceptable(line) {
    const meant = proposal(data.cures, line);
    const tried = meant !== null && await helper.run(['certify', '--budget', '1'], bytesOf(meant));
    return tried && (tried.status <= 1 || /^refused 5 /.test(textOf(tried.out))) ? meant : null;
}

function takeProposal() {
    const lines = textOf(typed()).split('\n');
    lines[proposed.line - 1] = proposed.text;
    name = 'network';
    setText(lines.join('\n'));
    $('text').focus();
}

let rejected = null; // the bytes of the certificate that was rejected

// What the buttons do that are shown with a refused text or a rejected certificate.
const REMEDIES = {
    take: takeProposal,
    check: () => check(typed()),
    convert: () => openBytes(bytesOf(plain(typed()))),
    read: () => openText(rejected),
    recheck: () => check(bytesOf(plain(rejected))),
    network: () => { sayCertified(''); show('rejection', false); setText(networkIn(plain(rejected))); },
};

const press = event => REMEDIES[event.target.dataset.does]?.();

// ---- pictures

let zoom = null; // how large the picture is drawn, or as it fits
let drawn = null;

const ruler = document.createElement('canvas').getContext('2d');
const measure = text => {
    ruler.font = '13px "DejaVu Sans Mono", ui-monospace, Menlo, Consolas, monospace';
    return ruler.measureText(text).width;
};

function draw() {
    const kind = document.querySelector('input[name=drawn]:checked').value;
    const width = $('picture').clientWidth - 18;
    drawn = (kind === 'complexes' ? complexPicture : speciesPicture)(now.report, now.reactions, measure, width);
    $('picture').innerHTML = drawn.svg;
    pointer.show(now.report, now.reactions);
    zoom = null;
    resize();
    $('legend').textContent = kind === 'complexes'
        ? 'Each box is a complex, each frame a linkage class. A double border, in green, marks a terminal strong class. An arrow with two tips is a reaction with its reverse.'
        : 'Round: species. Square: reactions, by their numbers. An arrow ends at what a reaction makes, with a hollow tip at what its reverse makes; a dashed one is at a species that a reaction both uses and makes. Numbers are amounts, if not 1.';
}

function resize() {
    const fits = Math.min(1, ($('picture').clientWidth - 18) / drawn.width), scale = zoom ?? Math.max(fits, 0.75);
    const image = $('picture').firstElementChild;
    image.setAttribute('width', Math.round(drawn.width * scale));
    image.setAttribute('height', Math.round(drawn.height * scale));
    return scale;
}

function zoomBy(factor) {
    zoom = Math.min(4, Math.max(0.1, resize() * factor));
    resize();
}

// ---- certificates and samples

const asked = new Map(); // which run on the side may still say something, by where it says it

// Runs on the side. Says what is at work and for how long, and gives what was done; nothing if it was stopped, or if another
// run took its place.
async function aside(said, stop, words, text) {
    const mine = (asked.get(said) || 0) + 1, began = performance.now();
    asked.set(said, mine);
    const tell = (words, mood = '') => {
        if (asked.get(said) !== mine) return;
        $(said).className = mood;
        $(said).textContent = words;
    };
    tell('at work …');
    show(stop, true);
    const clock = setInterval(() => tell(`at work, ${seconds(began)} s so far`), 1000);
    try {
        const done = await helper.run(words, text);
        if (!done) tell('stopped');
        return asked.get(said) === mine ? done : null;
    } catch (error) {
        tell(`The program stopped: ${error.message}`, 'bad');
        return null;
    } finally {
        clearInterval(clock);
        if (asked.get(said) === mine) show(stop, false);
    }
}

function sayCertified(text, mood = '') {
    $('certified').className = mood;
    $('certified').textContent = text;
}

async function certify() {
    show('rejection', false);
    show('save-certificate', false);
    const text = typed(), done = await aside('certified', 'stop-certificate', ['certify', '--budget', $('budget').value], text);
    if (!done) return;
    if (done.status > 1) return sayCertified(done.status === 2 ? 'the text is refused, so there is nothing to certify' : STATUS[done.status], 'bad');
    made = done.out;
    show('save-certificate', true);
    sayCertified(`made: ${made.length.toLocaleString('en')} bytes${done.status ? ', with open questions' : ''}`, done.status ? 'open' : 'good');
}

async function check(bytes) {
    show('rejection', false);
    show('save-certificate', false);
    const [isPart, part] = /^crn part (\w*)/.exec(textOf(bytes.subarray(0, 40))) || [];
    // A title that names no part that is known is left to the program to reject.
    const done = await aside('certified', 'stop-certificate', isPart ? ['verify', Object.keys(PARTS).includes(part) ? part : 'persist'] : ['check'], bytes);
    if (!done) return;
    const out = textOf(done.out), fault = done.status === 3 && readFault(out);
    if (fault) {
        rejected = bytes;
        sayCertified(`line ${fault.line.toLocaleString('en')} of the ${isPart ? 'document' : 'certificate'} is rejected`, 'bad');
        $('rejection').innerHTML = rejectionView(fault, textOf(bytes).split('\n')[fault.line - 1] || '', remedyOfCertificate(bytes, fault), data.rejections);
        show('rejection', true);
        return $('certified').scrollIntoView({ block: 'nearest' });
    }
    if (done.status !== 0) return sayCertified(STATUS[done.status] || `the program ended with status ${done.status}`, 'bad');
    const document_ = textOf(bytes);
    if (isPart) {
        setText(networkIn(document_));
        choosePart(part);
        showProof(bytes);
        return sayCertified(`the document is good: ${onOneLine(out)}`, 'good');
    }
    clearTimeout(waiting);
    program.stop();
    turn++;
    fill(networkIn(document_));
    for (const id of ['halted', 'progress', 'shared']) show(id, false);
    showReport(out, document_, treesIn(document_));
    say('as the certificate says', 'good');
    sayCertified('the certificate is good; its network and its report are shown', 'good');
}

// The lines of a verdict on one, and how it is coloured.
const onOneLine = verdict => verdict.trim().replace('\n', '; ');
const MOODS = { yes: 'good', 'hypotheses hold': 'good', open: 'open' };

function sayProved(text, mood = '') {
    $('proved').className = mood;
    $('proved').textContent = text;
}

function sayVerdict(verdict, before = '') {
    sayProved(before + onOneLine(verdict), MOODS[saidParts(verdict)[0]]);
}

function forgetProof() {
    for (const id of ['proof', 'verify', 'save-proof']) show(id, false);
    sayProved('');
}

function listParts() {
    $('part').innerHTML = Object.entries(PARTS).map(([part, { title }]) => `<option value="${part}">${escaped(title)}</option>`).join('');
    choosePart($('part').value);
}

function choosePart(part) {
    $('part').value = part;
    $('asks').textContent = `${PARTS[part].asks} The answer is a document with the evidence, which is checked like a certificate.`;
    forgetProof();
}

function showProof(bytes) {
    const read = readProof(textOf(bytes));
    proof = bytes;
    $('proof').innerHTML = proofView(read, data.conclusions);
    for (const id of ['proof', 'verify', 'save-proof']) show(id, true);
    sayVerdict(proofVerdict(read));
}

async function prove() {
    forgetProof();
    const done = await aside('proved', 'stop-proof', ['prove', $('part').value, '--budget', $('budget').value], typed());
    if (!done) return;
    if (done.status > 1) return sayProved(done.status === 2 ? 'the text is refused, so there is nothing to ask' : STATUS[done.status], 'bad');
    showProof(done.out);
}

async function verifyProof() {
    const done = await aside('proved', 'stop-proof', ['verify', $('part').value], proof);
    if (!done) return;
    const out = textOf(done.out);
    if (done.status === 0) return sayVerdict(out, 'checked again: ');
    sayProved(out.trim() || STATUS[done.status], 'bad');
}

async function trySample() {
    show('sampled', true);
    const done = await aside('sampled', 'stop-sample', ['sample', $('steps').value], new Uint8Array(0));
    if (done) $('sampled').textContent = done.status === 4 ? 'a sample has 1 to 19 steps' : textOf(done.out) || STATUS[done.status];
}

// ---- files, links, examples

function save(file, bytes, type = 'text/plain') {
    const link = document.createElement('a');
    link.href = URL.createObjectURL(new Blob([bytes], { type }));
    link.download = file;
    link.click();
    setTimeout(() => URL.revokeObjectURL(link.href), 10000);
}

// The bytes of a file, or nothing if the browser cannot read it, as a folder, or a file that has gone.
async function bytesOfFile(file, tell) {
    try {
        return new Uint8Array(await file.arrayBuffer());
    } catch (error) {
        tell(`The browser cannot read this file: ${error.message}`, 'bad');
        return null;
    }
}

async function checkFile(file) {
    const bytes = await bytesOfFile(file, sayCertified);
    if (bytes) return check(bytes);
}

async function openFile(file) {
    const bytes = await bytesOfFile(file, say);
    if (!bytes) return;
    name = file.name.replace(/\.\w+$/, '') || 'network';
    return openBytes(bytes);
}

// Opens a certificate as one, and anything else as the text of a network.
function openBytes(bytes) {
    return textOf(bytes.subarray(0, 16)) === 'crn certificate ' ? check(bytes) : openText(bytes);
}

function openText(bytes) {
    const kept = bytes.subarray(0, MOST_TEXT);
    setText(textOf(kept), kept);
}

function share() {
    const text = textOf(typed());
    show('shared', true);
    if (text.length > 100000) {
        $('link').value = '';
        $('copied').textContent = 'This text is too long for a link.';
        return;
    }
    const { href } = new URL(`#text=${encodeURIComponent(text)}`, location.href);
    $('link').value = href;
    $('link').select();
    copyTo(href, 'copied', 'The link is copied.', 'Copy the link from here.');
}

function copyTo(text, said, done, failed) {
    const tell = words => { $(said).textContent = words; };
    if (!navigator.clipboard) return tell(failed);
    navigator.clipboard.writeText(text).then(() => tell(done), () => tell(failed));
}

// What the address asks for after its `#`: a text, or an example.
function fromLink() {
    const asked = new URLSearchParams(location.hash.slice(1));
    if (asked.has('budget')) $('budget').value = asked.get('budget');
    if (asked.has('text')) { name = 'network'; setText(asked.get('text')); return true; }
    const example = data.examples.find(one => one.name === asked.get('example'));
    if (example) take(example);
    return Boolean(example);
}

function take(example) {
    name = example.name;
    setText(example.text);
}

function listExamples() {
    const wanted = $('find').value.toLowerCase();
    const found = data.examples.filter(one => `${one.title} ${one.says}`.toLowerCase().includes(wanted));
    $('list').innerHTML = found.map(one => `<li><button data-example="${escaped(one.name)}"><b>${escaped(one.title)}</b>${escaped(one.says)}</button></li>`).join('') || '<li>No example has these words.</li>';
}

// ---- what is where

const pointer = new Pointer($('picture'), $('pointed'));
let orders = 0;

function wire() {
    const on = (id, event, act) => $(id).addEventListener(event, act);
    on('text', 'input', () => {
        if (isReplacing) return;
        opened = null;
        name = 'network';
        orders = 0;
        changed();
    });
    on('text', 'paste', paste);
    on('show-all', 'click', showAll);
    on('text', 'scroll', follow);
    on('text', 'keydown', event => { if (event.key === 'Enter' && (event.ctrlKey || event.metaKey)) { event.preventDefault(); read(); } });
    on('budget', 'change', read);
    on('stop', 'click', () => program.stop());
    on('go-on', 'click', read);
    on('choose', 'click', () => { $('find').value = ''; listExamples(); $('examples').showModal(); });
    on('find', 'input', listExamples);
    on('close', 'click', () => $('examples').close());
    on('list', 'click', event => {
        const button = event.target.closest('[data-example]');
        if (!button) return;
        $('examples').close();
        take(data.examples.find(one => one.name === button.dataset.example));
    });
    for (const [id, act] of [['open', openFile], ['check', checkFile]]) {
        on(id, 'change', event => {
            const [file] = event.target.files;
            if (file) act(file);
            event.target.value = '';
        });
    }
    on('share', 'click', share);
    for (const id of ['refusal', 'rejection']) on(id, 'click', press);
    on('certify', 'click', certify);
    on('save-certificate', 'click', () => save(`${name}.cert`, made));
    on('part', 'change', () => choosePart($('part').value));
    on('prove', 'click', prove);
    on('verify', 'click', verifyProof);
    on('save-proof', 'click', () => save(`${name}.${$('part').value}`, proof));
    on('sample', 'click', trySample);
    for (const id of ['stop-certificate', 'stop-proof', 'stop-sample']) on(id, 'click', () => helper.stop());
    on('lines', 'click', event => {
        const { budget, reorder, divide } = event.target.dataset;
        if (budget) { $('budget').value = budget; read(); }
        if (divide !== undefined) setText(divided(now.report, now.reactions));
        if (reorder !== undefined) { setText(reordered(textOf(typed()), orders++)); }
    });
    on('unfold', 'click', () => {
        const open = $('unfold').textContent === 'Unfold all';
        for (const line of $('lines').querySelectorAll('.verdict')) line.open = open;
        $('unfold').textContent = open ? 'Fold all' : 'Unfold all';
    });
    on('copy', 'click', () => copyTo($('report').textContent, 'said-copy', 'Copied.', 'This browser does not let the page copy; select the text.'));
    on('save-report', 'click', () => save(`${name}.report`, $('report').textContent));
    on('save-picture', 'click', () => save(`${name}.svg`, drawn.svg.replace('<defs>', `<style>${PRINTED}</style><defs>`), 'image/svg+xml'));
    on('smaller', 'click', () => zoomBy(1 / 1.25));
    on('larger', 'click', () => zoomBy(1.25));
    on('fit', 'click', () => { zoom = Math.min(1, ($('picture').clientWidth - 18) / drawn.width); resize(); });
    for (const radio of document.querySelectorAll('input[name=drawn]')) radio.addEventListener('change', draw);
    document.addEventListener('dragover', event => event.preventDefault());
    document.addEventListener('drop', event => {
        event.preventDefault();
        if (event.dataTransfer.files[0]) openFile(event.dataTransfer.files[0]);
    });
    addEventListener('hashchange', fromLink);
    new ResizeObserver(follow).observe($('text'));
}

function start() {
    const module = moduleBytes();
    if (!Program.serves(module)) {
        $('unable').textContent = typeof WebAssembly === 'object'
            ? 'This browser cannot run the program: it lacks a part of WebAssembly, or workers. Firefox 98, Chrome or Edge 85, Safari 15.4 and later versions have them.'
            : 'This browser cannot run the program, since it has no WebAssembly, or it is switched off: by the safest level of the Tor Browser, Lockdown Mode on a device of Apple, enhanced security in Edge, or javascript.options.wasm in Firefox. Allow it for this page, or take Firefox 98, Chrome or Edge 85, Safari 15.4 or a later version.';
        return;
    }
    [program, helper] = [new Program(module), new Program(module)];
    show('unable', false);
    document.querySelector('main').hidden = false;
    listParts();
    wire();
    if (!fromLink()) take(data.examples.find(one => one.name === 'two_site_futile_cycle'));
}

start();
