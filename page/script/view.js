// What the page says of a report, as HTML: the conclusions in words, and each verdict with its evidence.
import { concluding, rowsAbout, rowsOf, rowsOfPart } from './conclusions.js';
import { explained, treeWords } from './evidence.js';
import { escaped } from './picture.js';
import { proofEvidence, proofVerdict, saidParts } from './proofs.js';
import { terms } from './report.js';

// Text in which backticks mark what is in a report or a network text.
export const marked = text => escaped(text).replace(/`([^`]*)`/g, '<code>$1</code>');

const list = items => `<ul>${items.map(item => `<li>${marked(item)}</li>`).join('')}</ul>`;
const plural = (count, one, many = one + 's') => `${count} ${count === 1 ? one : many}`;

function source(row, data) {
    const cites = row.source.map(key => data.sources[key].cite).join('; ');
    return row.theorem ? `${escaped(row.theorem)} (${escaped(cites)})` : escaped(cites);
}

const questionsOf = row => [...new Set(row.requires.map(condition => `Q${condition.question}`))].join(' and ');

const KINETICS = { 'mass action': 'for mass action kinetics', 'weakly monotonic': 'for weakly monotonic kinetics', 'some weakly monotonic': 'for some weakly monotonic kinetics', any: 'for any kinetics', none: 'about the structure alone' };

// What follows by a row, from the verdicts that are named.
function conclusion(row, data, from = questionsOf(row)) {
    return `<div class="conclusion"><h3>${escaped(row.title)}</h3><p><span class="kinetics">${escaped(KINETICS[row.kinetics] || row.kinetics)}</span></p>`
        + (row.provided ? `<p><b>Provided:</b> ${marked(row.provided)}</p>` : '')
        + `<p>${marked(row.concludes)}</p>`
        + `<p class="hint">${source(row, data)}; from ${escaped(from)}.</p>`
        + (row.does_not_follow.length ? `<details><summary>What does not follow</summary>${list(row.does_not_follow)}</details>` : '') + '</div>';
}

function glossary(data) {
    const words = Object.entries(data.words).map(([word, text]) => `**${word}**: ${text}`);
    const kinetics = Object.entries(data.kinetics).filter(([word]) => word !== 'none').map(([word, text]) => `**${word} kinetics**: ${text}`);
    const bold = text => marked(text).replace(/\*\*([^*]*)\*\*/g, '<b>$1</b>');
    const items = lines => `<ul>${lines.map(line => `<li>${bold(line)}</li>`).join('')}</ul>`;
    return `<details><summary>The words</summary>${items([...words, ...kinetics])}</details>`
        + `<details><summary>What no line is about</summary>${items(data.no_line_is_about.map(it => `**${it.title}**: ${it.text}`))}</details>`
        + `<details><summary>Sources</summary>${list(Object.values(data.sources).map(it => it.text))}</details>`;
}

// What follows from all verdicts together.
export function conclusionsView(report, data) {
    const rows = concluding(rowsOf(data, report));
    const none = '<p>None of the theorems draws a conclusion from these verdicts. That says nothing about what the network can do.</p>';
    const intro = '<p class="hint">The theorems are quoted; the program claims the facts that they ask for, and not the theorems.</p>';
    return intro + (rows.map(row => conclusion(row, data)).join('') || none) + glossary(data);
}

// The network in a sentence.
export function summary(report) {
    const [classes, strong] = [report.classes.length, report.strong.length], reactions = /^reactions (\d+)$/m.exec(report.text)[1];
    const deficiency = report.questions[5].parts[0];
    return `${plural(report.species.length, 'species', 'species')}, ${plural(report.complexes.length, 'complex', 'complexes')} and ${plural(Number(reactions), 'reaction')}, in ${plural(classes, 'linkage class', 'linkage classes')} and ${plural(strong, 'strong class', 'strong classes')}; ${deficiency === 'open' ? 'the deficiency is open' : `deficiency ${deficiency}`}.`;
}

const MOOD = { holds: 'good', fails: 'bad', open: 'open' };

// A sentence of evidence, with what belongs to it: a table of numbers or of words, or where a tree is.
function evidenceView(item, trees) {
    const kind = ['numbers', 'words', 'claims'].find(it => item[it]), table = item[kind];
    if (item.tree) return `<p>${escaped(item.text)} <span data-tree="${item.tree}">${treeWords(item.tree, trees)}</span></p>`;
    if (!table) return `<p>${escaped(item.text)}</p>`;
    return `<p>${escaped(item.text)}</p><div class="evidence-scroll" tabindex="0" role="group" aria-label="${escaped(item.text)}"><table class="${kind}">`
        + table.map(row => `<tr>${row.map(cell => `<td${/^(holds|fails|open)$/.test(cell) ? ` class="${MOOD[cell]}"` : ''}>${escaped(cell)}</td>`).join('')}</tr>`).join('') + '</table></div>';
}

// A part document: the evidence, what follows from its verdict, and what does not.
export function proofView(proof, data) {
    const verdict = proofVerdict(proof), rows = rowsOfPart(data, proof.part, saidParts(verdict));
    const not = rows.length ? rows.flatMap(row => row.does_not_follow) : data.open.does_not_follow;
    return `<div class="evidence">${proofEvidence(proof).map(item => evidenceView(item)).join('')}</div>`
        + rows.filter(row => row.concludes).map(row => conclusion({ ...row, does_not_follow: [] }, data, verdict.split('\n')[0])).join('')
        + `<div class="not"><b>What does not follow</b>${list(not)}</div>`;
}

// The species whose amounts have a common divisor above 1, with that.
function divisors(report) {
    const divisor = (a, b) => b ? divisor(b, a % b) : a, found = new Map();
    for (const [amount, name] of report.complexes.flatMap(terms)) found.set(name, divisor(amount, found.get(name) || 0));
    return new Map([...found].filter(([, by]) => by > 1));
}

// The network with the amounts of these species divided.
export function divided(report, reactions) {
    const common = divisors(report), term = (amount, name) => `${amount === 1 ? '' : amount}${name}`;
    const names = report.complexes.map(complex => terms(complex).map(([amount, name]) => term(amount / (common.get(name) || 1), name)).join(' + ') || '0');
    return reactions.map(({ from, to }) => `${names[from]} -> ${names[to]}\n`).join('');
}

// What to try if a question is open.
export function openAdvice(question, report) {
    const budget = /^budget (\d+)$/.exec(question.parts[1] || '');
    if (budget) {
        return '<p><b>To try</b></p><ul>'
            + (Number(budget[1]) < 100000 ? '<li><button data-budget="100000">Search with the greatest budget, 100,000</button></li>' : '')
            + '<li><button data-reorder>Try another order of the lines</button> The search takes the species in the order in which they appear, and is short if those that react with one another come one after another.</li></ul>';
    }
    if (question.parts[1] !== 'wide') return '';
    const common = divisors(report);
    return '<p><b>To try</b></p><ul>'
        + (common.size ? `<li><button data-divide>Divide the amounts of ${escaped([...common].map(([name, by]) => `${name} by ${by}`).join(', of '))}</button> Whatever the species is counted in, no answer changes.</li>` : '')
        + '<li>A network with shorter chains or smaller amounts, if it serves as well: such numbers come of long chains of large amounts.</li>'
        + '<li>If the answer is known from elsewhere, put it with its numbers into the certificate, in the place of the line that says open, and have it checked: a check takes numbers up to 2^72.</li></ul>';
}

// The verdicts one by one, with their evidence, what follows and what does not.
export function linesView(report, reactions, data, trees) {
    const rows = rowsOf(data, report);
    return report.questions.map(question => {
        const isOpen = question.parts[0] === 'open', mood = /^(yes|hypotheses hold)$/.test(question.parts[0]) ? 'good' : isOpen ? 'open' : '';
        const about = rowsAbout(rows, question.number), inside = explained(report, reactions, question).map(item => evidenceView(item, trees)).join('');
        const follows = about.filter(row => row.concludes).map(row => `<p><b>What follows</b> (${escaped(KINETICS[row.kinetics])}): ${marked(row.concludes)}</p>`).join('');
        const not = [...about.flatMap(row => row.does_not_follow), ...(isOpen ? data.open.does_not_follow : [])];
        return `<details class="verdict" id="q${question.number}"${isOpen ? ' open' : ''}><summary><span class="question">Q${question.number} ${escaped(question.name)}</span><b class="${mood}">${escaped(question.verdict)}</b></summary><div class="inside">`
            + `<div class="evidence">${inside}</div>` + (isOpen ? openAdvice(question, report) : '') + follows
            + (not.length ? `<div class="not"><b>What does not follow</b>${list(not)}</div>` : '') + '</div></details>';
    }).join('');
}
