// Tests of the page that it makes by itself, in whatever browser opens it: `jobs` has what the program on a machine wrote. It
// runs in the page, after the page's own script, whose names it uses.

const bytesIn = coded => Uint8Array.from(atob(coded), mark => mark.charCodeAt(0));
const verdictLines = report => report.split('\n').filter(line => /^Q\d/.test(line)).map(line => line.replace(/^(Q\d+ [a-z ]+): /, '$1|'));

class Test {
    passed = 0; failed = [];

    expect(name, holds, more = '') {
        if (holds) this.passed++;
        else this.failed.push(`${name} ${String(more).slice(0, 300)}`);
    }

    // Each group of tests by itself, so that one that throws is told like one that fails.
    async group(name, tests) {
        try { await tests(); } catch (error) { this.expect(name, false, `threw ${error.message}`); }
    }
}

async function waitFor(holds, milliseconds = 60000, name = '') {
    const end = performance.now() + milliseconds;
    while (!holds()) {
        if (performance.now() > end) throw new Error(`waited in vain: ${name} ${holds}`);
        await new Promise(resolve => setTimeout(resolve, 10));
    }
}

// Reads at once what would be read after a pause.
async function settled() {
    clearTimeout(waiting);
    await read();
}

// Hands the page a text as if typed, or the bytes of a file, and waits until it is read.
async function enter(text, bytes = null) {
    setText(text, bytes);
    await settled();
}

// The line that the program wrote of a text, or of a certificate, as the page shows it.
const lineOf = id => $(id).hidden ? '' : $(id).querySelector('.said').textContent;
const answer = said => said.startsWith('refused') ? lineOf('refusal') : $('report').textContent.trim();

const boxesOf = selector => [...$('picture').querySelectorAll(selector)].map(node => node.querySelector('.box').getBBox());
const overlaps = boxes => boxes.reduce((count, a, i) => count + boxes.slice(i + 1).filter(b => a.x < b.x + b.width && b.x < a.x + a.width && a.y < b.y + b.height && b.y < a.y + a.height).length, 0);

// How many lines between species and reactions pass a box that is at neither of their ends.
function passes() {
    const boxes = boxesOf('.node');
    return [...$('picture').querySelectorAll('.arrow .line')].reduce((count, line) => {
        const [x, y, toX, toY] = line.getAttribute('d').match(/-?[\d.]+/g).map(Number), points = Math.ceil(Math.hypot(toX - x, toY - y) / 3);
        const met = box => Array.from({ length: points }, (_, at) => [x + (toX - x) * (at + 0.5) / points, y + (toY - y) * (at + 0.5) / points])
            .filter(([px, py]) => px > box.x && px < box.x + box.width && py > box.y && py < box.y + box.height).length > 1;
        return count + boxes.filter(met).length;
    }, 0);
}

function pick(kind) {
    const radio = document.querySelector(`input[name=drawn][value=${kind}]`);
    if (!radio.checked) radio.click();
}

// Each verdict unfolds to what shows it, and not only to what follows from it. `evidence` has, for each question, parts of
// sentences that have to be there, made of the program's report and certificate by another script.
function testEvidence(test, name, evidence) {
    for (const line of $('lines').querySelectorAll('.verdict')) {
        const number = line.id.slice(1), said = line.querySelector('.evidence').textContent, verdict = line.querySelector('b').textContent;
        test.expect(`the evidence of question ${number} of ${name}`, said.length > 20 && said.replace(verdict, '').length > 20, said);
        for (const part of evidence[number]) test.expect(`the evidence of question ${number} of ${name}: ${part}`, said.includes(part), said);
    }
}

async function testExample(test, { name, text, report, titles, reactions, evidence }) {
    await enter(text);
    test.expect(`the report of ${name}`, $('report').textContent === report, $('report').textContent);
    const shown = [...$('lines').querySelectorAll('summary')].map(line => [...line.children].map(part => part.textContent).join('|'));
    test.expect(`the lines of ${name}`, JSON.stringify(shown) === JSON.stringify(verdictLines(report)), shown);
    const heads = [...$('conclusions').querySelectorAll('h3')].map(head => head.textContent);
    test.expect(`what follows for ${name}`, JSON.stringify([...heads].sort()) === JSON.stringify([...titles].sort()), heads);
    testEvidence(test, name, evidence);
    const numbers = list => new Set([...list].flatMap(part => part.dataset.reactions.split(' ')));
    pick('complexes');
    test.expect(`the complexes of ${name}`, $('picture').querySelectorAll('[data-complex]').length === now.report.complexes.length);
    test.expect(`the classes of ${name}`, $('picture').querySelectorAll('.frame').length === now.report.classes.length);
    test.expect(`the reactions of ${name}`, numbers($('picture').querySelectorAll('.edge')).size === reactions);
    const terminal = now.report.strong.filter(strong => strong.terminal).flatMap(strong => strong.members).length;
    test.expect(`the terminal classes of ${name}`, $('picture').querySelectorAll('.terminal').length === terminal);
    test.expect(`no complex of ${name} lies on another`, overlaps(boxesOf('.node')) === 0);
    pick('species');
    test.expect(`the species of ${name}`, $('picture').querySelectorAll('[data-species]').length === now.report.species.length);
    test.expect(`the reactions of ${name} between species`, numbers($('picture').querySelectorAll('.reaction')).size === reactions);
    test.expect(`no species of ${name} lies on another`, overlaps(boxesOf('.node')) === 0);
    test.expect(`no line of ${name} passes a species or a reaction`, passes() === 0, passes());
    for (const part of $('picture').querySelectorAll('.part')) {
        part.dispatchEvent(new Event('click', { bubbles: true }));
        if (!$('pointed').querySelector('.title') || /undefined|NaN|null/.test($('pointed').textContent)) test.expect(`what is told in ${name}`, false, $('pointed').textContent);
    }
    pick('complexes');
    for (const part of $('picture').querySelectorAll('.part')) {
        part.dispatchEvent(new Event('click', { bubbles: true }));
        if (!$('pointed').querySelector('.title') || /undefined|NaN|null/.test($('pointed').textContent)) test.expect(`what is told in ${name}`, false, $('pointed').textContent);
    }
    test.expect(`nothing is missing in the words of ${name}`, !/undefined|NaN|null/.test($('shown').textContent.replace(report, '')));
}

async function testRefusal(test, { name, text, line }) {
    const bytes = bytesIn(text);
    await enter(textOf(bytes), bytes);
    test.expect(`the refusal of ${name}`, lineOf('refusal') === line.trim(), lineOf('refusal'));
    const at = Number(/line (\d+)/.exec(line)[1]);
    test.expect(`its line is marked: ${name}`, $('stripe').hidden === !at && (!at || $('stripe').dataset.line === String(at)));
    test.expect(`what it means is said: ${name}`, !$('refusal').hidden && $('refusal').textContent.length > 20 && $('text').getAttribute('aria-invalid') === 'true');
    if (!$('take') || !at) return;
    const meant = proposed.text;
    $('take').click();
    clearTimeout(waiting);
    await read();
    test.expect(`the proposal is accepted: ${name}`, $('text').value.split('\n')[at - 1] === meant && !lineOf('refusal').endsWith(`at line ${at}`), `${meant}: ${lineOf('refusal')}`);
}

// What is proposed in place of a text of the tables is what its row says.
async function testProposals(test) {
    const bare = text => text.replace(/\s/g, '');
    let count = 0;
    for (const { typed, write } of data.cures.rows) {
        for (const text of typed.filter(it => !it.includes('\n'))) {
            const meant = await acceptable(text);
            count += meant !== null;
            test.expect(`the proposal for ${text}`, meant === null || bare(meant) === bare(/`([^`]*)`/.exec(write)[1]), meant);
        }
    }
    test.expect('arrows are proposed', count >= 15, count);
}

async function testCertificates(test, { examples, damaged }) {
    const saved = [];
    const save_ = save;
    save = (file, bytes) => saved.push([file, typeof bytes === 'string' ? bytes : textOf(bytes)]);
    for (const { name, text, certificate, report } of examples) {
        await enter(text);
        await certify();
        $('save-certificate').click();
        const [, kept] = saved.pop() || [];
        test.expect(`the certificate of ${name}`, kept === textOf(bytesIn(certificate)));
        await enter('A -> B');
        await check(bytesIn(certificate));
        test.expect(`it is checked: ${name}`, /the certificate is good/.test($('certified').textContent) && $('report').textContent === report, $('certified').textContent);
    }
    save = save_;
    for (const { name, text, line } of damaged) {
        await check(bytesIn(text));
        test.expect(`it is rejected: ${name}`, lineOf('rejection') === line.trim(), `${lineOf('rejection')} for ${line}`);
        test.expect(`why is said: ${name}`, $('rejection').querySelector('li, .remedy') !== null, $('rejection').textContent);
    }
}

async function testSearch(test, { text, quick, whole, order }) {
    $('budget').value = '100000';
    const searched = enter(text);
    await waitFor(() => !$('progress').hidden);
    test.expect('a long search says what it looks for', /^Searching for question.*100,000 visits each, \d+ s so far/.test($('at-work').textContent), $('at-work').textContent);
    test.expect('what is known is shown meanwhile', $('report').textContent === quick);
    $('stop').click();
    await searched;
    test.expect('a search is stopped', !$('halted').hidden && /^Stopped/.test($('halted-text').textContent) && $('progress').hidden);
    test.expect('its questions are open', /with an open question/.test($('status').textContent) && $('report').textContent === quick, $('status').textContent);
    $('go-on').click();
    await waitFor(() => $('progress').hidden && $('report').textContent === whole, 120000);
    test.expect('it goes on', $('halted').hidden && /^done/.test($('status').textContent), $('status').textContent);
    const again = enter(text);
    await waitFor(() => !$('progress').hidden);
    await enter('A <-> B');
    await again;
    test.expect('another text ends a search', /^species 2: A B$/m.test($('report').textContent) && $('progress').hidden && $('halted').hidden);
    const making = certify();
    await waitFor(() => !$('stop-certificate').hidden);
    $('stop-certificate').click();
    await making;
    test.expect('the making of a certificate is stopped', $('certified').textContent === 'stopped' && $('stop-certificate').hidden, $('certified').textContent);
    $('budget').value = '20000';
    await enter(order.text);
    const advice = [...$('lines').querySelectorAll('[data-reorder]')];
    test.expect('an open question says what to try', advice.length > 0 && $('lines').querySelector('[data-budget]') !== null);
    advice[0].click();
    clearTimeout(waiting);
    await read();
    test.expect('another order answers it', $('report').textContent.endsWith('open: 0\n'), $('status').textContent);
    test.expect('the lines are the same in another order', [...$('text').value.trim().split('\n')].sort().join() === [...order.text.trim().split('\n')].sort().join());
}

async function testWords(test, { samples, reports }) {
    for (const { budget, text, report } of reports) {
        $('budget').value = budget;
        await enter(text);
        test.expect(`the budget ${budget}`, report === null ? /from 1 to 100,000/.test($('status').textContent) : $('report').textContent === report, $('status').textContent);
    }
    $('budget').value = '20000';
    for (const { steps, out } of samples) {
        $('steps').value = steps;
        await trySample();
        test.expect(`the sample ${steps}`, out === null ? /1 to 19/.test($('sampled').textContent) : $('sampled').textContent === out, $('sampled').textContent);
    }
}

// What is asked of each part, and what of a part document that is opened.
async function testProofs(test, { proofs, unproved }) {
    for (const { part, name, text, budget, document: wanted, says, verdict } of proofs) {
        $('budget').value = budget;
        choosePart(part);
        await enter(text);
        await prove();
        test.expect(`the document on ${name}`, textOf(proof) === wanted, textOf(proof));
        test.expect(`what it says of ${name}`, $('proved').textContent === onOneLine(verdict) && !$('proof').hidden, $('proved').textContent);
        const said = $('proof').querySelector('.evidence').textContent;
        for (const it of says) test.expect(`the evidence of ${name}: ${it}`, said.includes(it), said);
        test.expect(`nothing is missing in what is said of ${name}`, said.length > 20 && !/undefined|NaN|null/.test($('proof').textContent), said);
        await verifyProof();
        test.expect(`it is checked again: ${name}`, $('proved').textContent === `checked again: ${onOneLine(verdict)}`, $('proved').textContent);
        choosePart('persist');
        await check(bytesOf(wanted));
        test.expect(`it is opened: ${name}`, $('part').value === part && $('certified').textContent === `the document is good: ${onOneLine(verdict)}` && $('proof').querySelector('.evidence').textContent === said, $('certified').textContent);
        await settled();
    }
    $('budget').value = '20000';
    for (const { name, text, line } of unproved) {
        await check(bytesIn(text));
        test.expect(`a part document with ${name} is rejected`, lineOf('rejection') === line.trim() || !line.startsWith('rejected'), `${lineOf('rejection')} for ${line}`);
        test.expect(`why is said: ${name}`, $('rejection').querySelector('li, .remedy') !== null, $('rejection').textContent);
    }
    await enter('A => B');
    await prove();
    test.expect('nothing is asked of a refused text', /nothing to ask/.test($('proved').textContent) && $('proof').hidden, $('proved').textContent);
    await enter(proofs[0].document);
    test.expect('a part document in place of a network', $('refusal').querySelector('[data-does=check]') !== null, $('refusal').textContent);
}

async function testFiles(test, { files }) {
    const give = (id, bytes, name) => {
        const list = new DataTransfer();
        list.items.add(new File([bytes], name));
        $(id).files = list.files;
        $(id).dispatchEvent(new Event('change'));
    };
    for (const { name, text, said } of files) {
        const before = turn;
        document.body.dataset.done = '';
        give('open', bytesIn(text), 'a.crn');
        await waitFor(() => turn > before && document.body.dataset.done === String(turn));
        const shown = answer(said);
        test.expect(`the file ${name}`, shown === said.trim(), shown);
    }
}

// Whatever is opened, the page says what the program says of it.
async function testBytes(test, { bytes }) {
    for (const { name, text, said, rejected } of bytes) {
        await enter(textOf(bytesIn(text)), bytesIn(text));
        const shown = answer(said);
        test.expect(`the bytes ${name}`, shown === said.trim(), shown);
        await check(bytesIn(text));
        test.expect(`the bytes ${name} as a certificate`, lineOf('rejection') === rejected.trim(), lineOf('rejection'));
    }
    await enter('A -> \ud800 B');
    test.expect('half a character', lineOf('refusal') === 'refused 11 NotAscii at line 1', lineOf('refusal'));
    const gone = { name: 'gone', arrayBuffer: async () => { throw new Error('it has gone'); } };
    await Promise.all([openFile(gone), checkFile(gone)]);
    const said = [$('status'), $('certified')].map(where => where.textContent);
    test.expect('a file that cannot be read', said.every(text => text === 'The browser cannot read this file: it has gone'), said);
    await openFile(new File(['crn certificate 2\nnetwork 1\nA -> \n'], 'a.txt'));
    test.expect('a certificate is opened as one', /^rejected \d+ /.test(lineOf('rejection')), lineOf('rejection'));
}

// What the page does is taken back and done again, as what a user does.
async function testUndo(test) {
    const field = $('text'), steps = [];
    const act = async (name, deed, wanted) => {
        deed();
        await settled();
        test.expect(`${name} changes the text`, wanted(field.value), field.value);
        steps.push([name, field.value]);
    };
    await act('an example', () => take(data.examples.find(one => one.name === 'edelstein')), text => text.includes('A <-> 2A'));
    const order = data.examples.find(one => one.name === 'two_site_futile_cycle').text;
    await act('an opened file', () => openText(bytesOf(order)), text => text === order);
    await act('another order', () => setText(reordered(field.value, 0)), text => text.length === order.length && text !== order);
    await act('a refused line', () => setText('A -> B\nA => C\n# the end\n'), text => text.includes('=>'));
    await waitFor(() => $('take'));
    await act('what is proposed', () => $('take').click(), text => text === 'A -> B\nA -> C\n# the end\n');
    field.focus();
    for (const [name, text] of steps.slice(0, -1).reverse()) {
        document.execCommand('undo');
        await settled();
        test.expect(`undone, down to ${name}`, field.value === text, field.value);
    }
    test.expect('what is undone is read', /^species 3: A B C$/m.test($('report').textContent), $('report').textContent.slice(0, 60));
    for (const [name, text] of steps.slice(1)) {
        document.execCommand('redo');
        await settled();
        test.expect(`done again, up to ${name}`, field.value === text, field.value);
    }
    test.expect('nothing is undone by the page itself', $('report').textContent.startsWith('crn report 1\nspecies 3: A B C'), $('report').textContent.slice(0, 60));
}

// Of a long text a part is shown, with the numbers of its lines, as a browser takes seconds for each key with more; it is read
// whole, and can be shown whole.
async function testLong(test) {
    const text = 'A + B -> C + D\n'.repeat(300000);
    await enter('A -> B\n');
    $('text').setSelectionRange(0, 0);
    const event = Object.assign(new Event('paste', { cancelable: true }), { clipboardData: { getData: () => text } });
    $('text').dispatchEvent(event);
    await settled();
    test.expect('a paste of 300,000 lines is refused', event.defaultPrevented && lineOf('refusal') === 'refused 19 TextTooLong at line 0', lineOf('refusal'));
    test.expect('its first lines are shown', $('text').value === text.slice(0, $('text').value.length) && /first 6,666 lines/.test($('long').textContent), $('long').textContent);
    $('text').scrollTop = 6000 * ROW;
    follow();
    test.expect('they have their numbers', $('numbers').textContent.startsWith('6001\n6002\n'), $('numbers').textContent.slice(0, 20));
    await enter('A -> B\n'.repeat(20000) + 'B => C\n');
    test.expect('a refused line that is not shown', lineOf('refusal') === 'refused 18 StrayMark at line 20001' && $('refusal').textContent.includes('B => C'), lineOf('refusal'));
    await waitFor(() => $('take'));
    $('take').click();
    await settled();
    test.expect('what is proposed for it', /^reactions 2$/m.test($('report').textContent), $('status').textContent);
    $('show-all').click();
    test.expect('all of it can be shown', $('text').value.split('\n').length === 20002 && $('long').hidden && !$('text').readOnly);
    await enter('A -> B');
    test.expect('the page goes on after it', /^done/.test($('status').textContent) && $('long').hidden);
}

// What the page says of files of other kinds is what helps a user of the page; its button leads to a report, or to what is
// said then.
async function pressed(test, name, where, leads) {
    const button = $(where).querySelector('[data-does]');
    test.expect(`a button, if there is a way: ${name}`, Boolean(button) === Boolean(leads), $(where).textContent);
    if (!button || !leads) return;
    for (const id of ['report', 'certified']) $(id).textContent = '';
    button.click();
    const said = () => ['refusal', 'certified', 'rejection'].filter(id => !$(id).hidden).map(id => $(id).textContent).join(' ');
    await waitFor(() => leads.startsWith('crn report') ? $('report').textContent === leads : said().includes(leads), 20000, name);
    await waitFor(() => !program.running && !helper.running);
    test.expect(`it is mended: ${name}`, true);
}

async function testKinds(test, { kinds, documents }) {
    for (const { name, text, says, leads } of kinds) {
        await enter(textOf(bytesIn(text)), bytesIn(text));
        test.expect(`the file with ${name} is told of`, $('refusal').textContent.includes(says), $('refusal').textContent);
        test.expect(`no command of a shell for ${name}`, !/\b(sed|iconv|tr) /.test($('refusal').textContent), $('refusal').textContent);
        await pressed(test, `the file with ${name}`, 'refusal', leads);
    }
    for (const { name, text, line, says, leads } of documents) {
        await enter('X -> Y');
        await check(bytesIn(text));
        test.expect(`the certificate with ${name}`, lineOf('rejection') === line.trim(), lineOf('rejection'));
        test.expect(`it is told of: ${name}`, $('rejection').textContent.includes(says), $('rejection').textContent);
        await pressed(test, `the certificate with ${name}`, 'rejection', leads);
    }
}

// A module whose one call stops at once, as if the program had a fault.
const STOPS = Uint8Array.of(0, 0x61, 0x73, 0x6d, 1, 0, 0, 0, 1, 12, 1, 0x60, 7, 0x7e, 0x7e, 0x7e, 0x7e, 0x7e, 0x7e, 0x7e, 1, 0x7f, 3, 2, 1, 0, 5, 3, 1, 0, 1,
    7, 25, 2, 6, ...bytesOf('memory'), 2, 0, 12, ...bytesOf('crn_page_run'), 0, 0, 10, 5, 1, 3, 0, 0, 11);

async function testStops(test) {
    const kept = [program, helper];
    [program, helper] = [new Program(STOPS), new Program(STOPS)];
    await enter('A -> B');
    test.expect('a program that stops is told of', /^The program stopped: /.test($('status').textContent) && !$('stale').hidden, $('status').textContent);
    await certify();
    test.expect('and so where a certificate is made', /^The program stopped: /.test($('certified').textContent), $('certified').textContent);
    [program, helper] = kept;
    await enter('A -> B');
    test.expect('and the page goes on', /^done/.test($('status').textContent), $('status').textContent);
}

async function testLinks(test) {
    const text = '# ü + & = % #\nA + B <-> 2C -> 0\n';
    await enter(text);
    share();
    const link = $('link').value;
    test.expect('a link to the network', link.includes('#text=') && !$('shared').hidden, link);
    await enter('A -> B');
    location.hash = new URL(link).hash;
    await waitFor(() => $('text').value === text);
    clearTimeout(waiting);
    await read();
    test.expect('it leads to the network', /^reactions 3$/m.test($('report').textContent));
    const image = drawn.svg.replace('<defs>', `<style>${PRINTED}</style><defs>`);
    const parsed = new DOMParser().parseFromString(image, 'image/svg+xml');
    test.expect('a saved picture is SVG', parsed.documentElement.localName === 'svg' && !parsed.querySelector('parsererror'));
}

async function selftest(jobs) {
    const test = new Test(), begun = performance.now();
    await waitFor(() => document.body.dataset.done);
    for (const example of jobs.examples) await test.group(example.name, () => testExample(test, example));
    for (const refused of jobs.refused) await test.group(refused.name, () => testRefusal(test, refused));
    await test.group('proposals', () => testProposals(test));
    await test.group('certificates', () => testCertificates(test, jobs));
    await test.group('searches', () => testSearch(test, jobs.search));
    await test.group('words', () => testWords(test, jobs));
    await test.group('proofs', () => testProofs(test, jobs));
    await test.group('files', () => testFiles(test, jobs));
    await test.group('bytes', () => testBytes(test, jobs));
    await test.group('links', () => testLinks(test));
    await test.group('undo', () => testUndo(test));
    await test.group('long texts', () => testLong(test));
    await test.group('files of other kinds', () => testKinds(test, jobs));
    await test.group('a program that stops', () => testStops(test));
    const said = `selftest: ${test.passed} passed, ${test.failed.length} failed, in ${Math.round((performance.now() - begun) / 1000)} s, by ${navigator.userAgent}`;
    document.body.innerHTML = '<pre id="said"></pre>';
    document.getElementById('said').textContent = [said, ...test.failed].join('\n');
    document.title = said;
    // Firefox writes what is dumped to its standard output, if its profile says so.
    if (window.dump) for (const failed of test.failed) dump(`FAILED ${failed}\n`);
    if (window.dump) dump(`${said}\n`);
    return { said, passed: test.passed, failed: test.failed };
}
