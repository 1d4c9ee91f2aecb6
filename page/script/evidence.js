// The evidence of each verdict in words and names: what the report has in numbers, what follows from lines above it, and
// how large the trees are that are in the certificate alone.
import { evidence, terms } from './report.js';
import { heightOf, shelfOf, sides, signed, sum } from './explain.js';

const of = (count, one, many = one + 's') => `${count} ${count === 1 ? one : many}`;
const known = value => /^\d+$/.test(value);
const rest = line => line.replace(/^[a-z ]+(?:\d+)?(?:, [a-z]+)?: /, '');
const named = (names, numbers) => numbers.map((number, at) => [names[at], number]);

// A report as its evidence speaks of it.
class Network {
    constructor(report, reactions) {
        Object.assign(this, { report, reactions, texts: reactions.map(reaction => reaction.text) });
        this.strong = new Map(report.strong.flatMap((it, at) => it.members.map(name => [name, at])));
    }

    parts(number) { return this.report.questions[number - 1].parts; }
    name(complex) { return this.report.complexes[complex]; }
    strongOf(complex) { return this.strong.get(this.name(complex)); }
    terminals(members) { return this.report.strong.filter(it => it.terminal && members.includes(it.members[0])); }
    reverse({ from, to }) { return this.reactions.findIndex(other => other.from === to && other.to === from); }

    // The complexes on a shortest path of reactions.
    path(from, to) {
        const before = new Map([[from, null]]);
        for (const at of before.keys()) for (const next of this.reactions) if (next.from === at && !before.has(next.to)) before.set(next.to, at);
        const found = [];
        for (let at = to; at !== null && at !== undefined; at = before.get(at)) found.unshift(at);
        return found;
    }

    // The linked pairs of complexes of terminal strong classes, each as the first reaction that links it, with the two sides
    // that it parts, if it is a cut pair.
    pairs() {
        const groups = this.report.classes.map(members => members.map(name => this.report.complexes.indexOf(name)));
        const first = this.reactions.filter((reaction, at) => {
            const back = this.reverse(reaction);
            return this.strongOf(reaction.from) === this.strongOf(reaction.to) && this.report.strong[this.strongOf(reaction.from)].terminal && (back < 0 || at < back);
        });
        return first.map(it => ({ ...it, sides: sides(it.from, it.to, this.reactions, groups.find(members => members.includes(it.from))) }));
    }

    // The deficiency as what it is, with the rank if that is decided.
    deficiency() {
        const [rank] = this.parts(5), complexes = this.report.complexes.length, classes = this.report.classes.length;
        const what = `${of(complexes, 'complex', 'complexes')} − ${of(classes, 'linkage class', 'linkage classes')} − `;
        return known(rank) ? `${what}rank ${rank}: ${complexes} − ${classes} − ${rank} = ${complexes - classes - rank}` : `${what}the rank, which is open (question 5)`;
    }

    classDeficiencies() {
        const found = /^classes ([\d ]+)$/.exec(this.parts(6)[1] || '');
        return found && found[1].split(' ').map(Number);
    }
}

// The hypothesis of question 10 and of question 11 that each linkage class has one terminal strong class.
function oneTerminal(net) {
    const counts = net.report.classes.map(members => net.terminals(members));
    const bad = counts.findIndex(found => found.length > 1);
    const because = bad < 0 ? 'each has one' : `class ${bad + 1} has ${counts[bad].length}: ${counts[bad].map(it => it.members.join('; ')).join(' | ')}`;
    return ['each linkage class has one terminal strong class', bad < 0 ? 'holds' : 'fails', because];
}

const verdictOf = (holds, because) => [holds === null ? 'open' : holds ? 'holds' : 'fails', because];

function deficiencyOne(net) {
    const classes = net.classDeficiencies(), [total] = net.parts(6), sumOf = classes && classes.reduce((a, b) => a + b, 0);
    return [
        oneTerminal(net),
        ['each class deficiency is at most 1', ...verdictOf(classes && classes.every(it => it <= 1), classes ? `they are ${classes.join(', ')}` : 'question 6 is open')],
        ['the class deficiencies add up to the deficiency', ...verdictOf(classes && sumOf === Number(total), classes ? `${classes.join(' + ')}${classes.length > 1 ? ` = ${sumOf}` : ''}, and the deficiency is ${total}` : 'question 6 is open')],
    ];
}

function regular(net) {
    const [dependent] = net.parts(7), pairs = net.pairs(), uncut = pairs.find(pair => !pair.sides);
    const because = uncut ? `${net.name(uncut.from)} and ${net.name(uncut.to)} have another way round` : pairs.length ? `so it is of ${of(pairs.length, 'pair')}` : 'no two are linked within one';
    return [
        oneTerminal(net),
        ['the network is positively dependent', ...verdictOf(dependent === 'open' ? null : dependent === 'yes', dependent === 'open' ? 'question 7 is open' : 'by question 7')],
        ['each two linked complexes of a terminal strong class are a cut pair', ...verdictOf(!uncut, because)],
    ];
}

const hypotheses = rows => ({ text: 'What is asked, and what is so:', claims: rows });

// The species that show whether alpha goes with sigma at a reaction, each with the sign that it has for it.
function witnesses(net, reaction, sigma, strongly) {
    const [before, after] = [reaction.from, reaction.to].map(complex => new Map(terms(net.name(complex)).map(([amount, name]) => [name, amount])));
    const names = strongly ? new Set([...before.keys(), ...after.keys()]) : before.keys();
    return [...names].flatMap(name => {
        const table = strongly ? Math.sign((before.get(name) || 0) - (after.get(name) || 0)) : 1;
        return table ? [{ name, sigma: sigma.get(name), sign: table * Math.sign(Number(sigma.get(name))) }] : [];
    });
}

function discordant(net, question) {
    const strongly = question.number === 15, numbers = evidence(net.report, question.number, 'sigma'), alpha = evidence(net.report, question.number, 'alpha');
    const sigma = new Map(named(net.report.species, numbers));
    const because = (reaction, at) => {
        const all = witnesses(net, reaction, sigma, strongly), sign = Math.sign(Number(alpha[at]));
        const shown = sign ? all.filter(it => it.sign === sign).slice(0, 1) : [1, -1].flatMap(wanted => all.filter(it => it.sign === wanted).slice(0, 1));
        return shown.map(it => `sigma is ${signed(it.sigma)} at ${it.name}`).join(', ') || (all.length ? `sigma is 0 at ${all.map(it => it.name).join(', ')}` : 'no species counts here');
    };
    return [
        { text: 'The change sigma of each species, which reactions make together:', numbers: named(net.report.species, numbers.map(signed)) },
        {
            text: `The numbers alpha of the reactions, whose vectors times these add up to nothing, and why alpha goes with sigma at each of them${strongly ? ' (a species counts where its amounts differ, the other way round where the product has more)' : ''}:`,
            words: net.reactions.map((reaction, at) => [reaction.text, signed(alpha[at]), because(reaction, at)]),
        },
    ];
}

// What a tree excludes, before how large it is.
function tree(number, text) {
    return { text, tree: number };
}

function signal(net) {
    const mu = evidence(net.report, 13, 'mu'), shelves = evidence(net.report, 13, 'shelves'), [m] = evidence(net.report, 13, 'm'), [turn] = evidence(net.report, 13, 'turn');
    const terminal = net.report.strong.filter(it => it.terminal);
    return [
        { text: turn === '1' ? 'The signal is one for the vector of question 12.' : 'The signal is one for the negative of the vector of question 12.' },
        { text: 'The shelves of the terminal strong classes:', numbers: named(terminal.map(it => it.members.join('; ')), shelves) },
        { text: 'The numbers mu of the species:', numbers: named(net.report.species, mu.map(signed)) },
        { text: `The height of each complex, the sum of its amounts times these; the middle shelf has the height ${m}:`, words: net.report.complexes.map((name, at) => [name, `${shelfOf(net.report, at)} shelf`, String(heightOf(name, net.report, mu))]) },
    ];
}

function confluence(net, question) {
    const vectors = question.evidence.map(line => rest(line).split(' ')), [deficiency] = net.parts(6);
    const sums = numbers => ({ text: `These multiples of the complexes add up to nothing, species by species, and to 0 over each linkage class: ${sum(net.report.complexes.map(complex => `(${complex})`), numbers)}` });
    const space = known(deficiency) ? `The confluence space has the dimension of the deficiency, ${deficiency}` : 'The certificate shows what the confluence space is';
    switch (question.verdict) {
        case 'yes': {
            const terminal = net.report.strong.filter(it => it.terminal), number = new Map(named(net.report.complexes, vectors[0]));
            return [
                sums(vectors[0]),
                { text: 'Its sums over the terminal strong classes, none of them below 0:', numbers: terminal.map(it => [it.members.join('; '), String(it.members.reduce((total, name) => total + BigInt(number.get(name)), 0n))]) },
                { text: `${space}, so there is no other but its multiples; the certificate shows it complex by complex (lines “tie”).` },
            ];
        }
        case 'not applicable, no vector but zero': return [{ text: `${space}, so it has no vector but zero; the certificate shows it complex by complex (lines “tie”).` }];
        case 'not applicable, two independent vectors': return [{ text: `${space}. Here are two vectors of it, neither of which is a multiple of the other.` }, ...vectors.map(sums)];
        default: return [{ text: 'The network is not regular (question 11).' }, hypotheses(regular(net))];
    }
}

// The coordinates of the linear system that an open line names: what a number is chosen for, what follows, and how.
function systemOf(net, question) {
    const [, system, group] = /^system (\d)(?: class (\d+))?/.exec(question.evidence[0]);
    const { report, texts } = net, species = report.species, classes = report.classes.map((_, at) => `class ${at + 1}`);
    const inside = reaction => report.classes[group - 1].includes(net.name(reaction.from));
    const vectors = 'for each reaction, the product of its vector with them';
    switch (system) {
        case '1': return { columns: species, rows: texts, each: 'species', then: vectors };
        case '2': return { columns: texts, rows: species, each: 'reaction', then: 'for each species, what the reactions times these numbers make of it' };
        case '3': return { columns: species, rows: net.reactions.filter(inside).map(it => it.text), each: 'species', then: `for each reaction of linkage class ${group}, the product of its vector with them` };
        case '4': return { columns: report.complexes, rows: [...species, ...classes], each: 'complex', then: 'for each species, the sum of its amounts times them, and for each linkage class, their sum' };
        default: return { columns: [...species, 'm'], rows: [...report.complexes, ...net.pairs().map(it => it.text)], each: 'species and for m', then: 'for each complex, its height less m, and for each linked pair, the difference of their heights' };
    }
}

function wide(net, question) {
    const { columns, rows, each, then } = systemOf(net, question), names = [...columns, ...rows];
    const index = Number(question.evidence[1].slice('index '.length)), basis = rest(question.evidence[2]).split(' ').map(Number), others = basis.filter(it => it !== index);
    const what = basis.includes(index)
        ? `The choice with which all below are 0, and that of ${names[index - 1]} is not,`
        : `How that of ${names[index - 1]} follows from those below`;
    return [{
        text: `A number is chosen for each ${each}, and others follow: ${then}. ${what} takes a whole number of 2^62 or more, which the program does not form:`,
        words: others.map(it => [it <= columns.length ? 'chosen' : 'follows', names[it - 1]]),
    }];
}

function openly(net, question) {
    const budget = /^budget (\d+)$/.exec(question.parts[1]);
    if (question.parts[1] === 'wide') return wide(net, question);
    if (budget) return [{ text: `The search came to more than ${Number(budget[1]).toLocaleString('en')} lists of signs before it had either an example that shows a no or a tree that shows a yes.` }];
    return RESTS[question.number](net);
}

// What is known where an answer rests on a question that is open.
const RESTS = {
    6: net => [{ text: `The deficiency is ${net.deficiency()}.` }],
    9: net => [{ text: `The deficiency is asked to be 0. It is ${net.deficiency()}.` }],
    10: net => [hypotheses(deficiencyOne(net))],
    11: net => [hypotheses(regular(net))],
    12: net => [{ text: 'The vector is asked for in a regular network, and question 11 is open:' }, hypotheses(regular(net))],
    13: () => [{ text: 'A signal belongs to the vector of question 12, and whether there is one is open.' }],
};

const WORDS = {
    1: net => [{ text: 'Reactions join the complexes of a class, at once or by way of others, and none joins two classes:', words: net.report.classes.map((members, at) => [`class ${at + 1}`, members.join('; ')]) }],
    2: net => [{
        text: 'From each complex of a class arrows lead to each other one and back. A class that no reaction leaves is terminal:',
        words: net.report.strong.map((it, at) => {
            const out = net.reactions.findIndex(reaction => net.strongOf(reaction.from) === at && net.strongOf(reaction.to) !== at);
            return [`strong class ${at + 1}`, it.members.join('; '), out < 0 ? 'terminal' : `reaction ${out + 1} leaves it: ${net.texts[out]}`];
        }),
    }],
    3: (net, question) => question.verdict === 'yes'
        ? [{ text: 'Each reaction has its reverse:', words: net.reactions.flatMap((it, at) => net.reverse(it) > at ? [[`${at + 1} and ${net.reverse(it) + 1}`, `${net.name(it.from)} <-> ${net.name(it.to)}`]] : []) }]
        : [{ text: `No reaction is the reverse of reaction ${question.evidence[0].slice('reaction '.length)}.` }],
    4: (net, question) => {
        if (question.verdict === 'no') {
            const at = Number(/\d+/.exec(question.evidence[0])[0]), { from, to } = net.reactions[at - 1];
            return [{ text: `Reaction ${at}, ${net.texts[at - 1]}, leads out of its strong class: no path of arrows leads from ${net.name(to)} back to ${net.name(from)}.` }];
        }
        const oneWay = net.reactions.filter(it => net.reverse(it) < 0);
        return oneWay.length
            ? [{ text: 'From the product of each reaction arrows lead back to its reactant. For those without a reverse:', words: oneWay.map(it => [it.text, `back by ${net.path(it.to, it.from).map(complex => net.name(complex)).join(' -> ')}`]) }]
            : [{ text: 'Each reaction has its reverse, by question 3, so arrows lead back from everywhere.' }];
    },
    5: (net, question) => {
        const numbers = rest(question.evidence[0]).split(' ');
        return [{ text: `The vectors of these ${of(numbers.length, 'reaction')} are independent, and those of all others are combinations of them; the certificate has the numbers that show both:`, words: numbers.map(r => [`reaction ${r}`, net.texts[r - 1]]) }];
    },
    6: net => [
        { text: `The deficiency is ${net.deficiency()}.` },
        { text: 'For each linkage class, its complexes − 1 − its rank:', words: net.classDeficiencies().map((it, at) => [`class ${at + 1}`, `${net.report.classes[at].length} − 1 − ${net.report.classes[at].length - 1 - it} = ${it}`]) },
    ],
    7: (net, question) => {
        const numbers = rest(question.evidence[0]).split(' ');
        return question.verdict === 'yes'
            ? [{ text: 'If each reaction happens this many times, nothing changes:', numbers: named(net.texts, numbers) }]
            : [{ text: `No reaction raises ${sum(net.report.species, numbers)}, and some reaction lowers it:`, numbers: named(net.report.species, numbers) }];
    },
    8: (net, question) => {
        const numbers = rest(question.evidence[0]).split(' ');
        return question.verdict === 'yes'
            ? [{ text: `No reaction changes ${sum(net.report.species, numbers)}.` }]
            : [{ text: 'If each reaction happens this many times (backwards, where the number is negative), no species is made and some species is lost, so no weights are kept:', numbers: named(net.texts, numbers) }];
    },
    9: net => {
        const zero = { text: `The deficiency is asked to be 0. It is ${net.deficiency()}.` };
        return net.parts(9)[0] === 'hypotheses hold' ? [zero, { text: `Weakly reversible: ${net.parts(4)[0]}, by question 4.` }, ...WORDS[4](net, net.report.questions[3])] : [zero];
    },
    10: net => [hypotheses(deficiencyOne(net))],
    11: (net, question) => {
        const found = [hypotheses(regular(net))], walk = /^reaction (\d+), walk: (.*)$/.exec(question.evidence[0] || '');
        if (walk) found.push({ text: `Reaction ${walk[1]}, ${net.texts[walk[1] - 1]}, has another way round: ${walk[2].split('; ').join(' – ')}.` });
        if (question.parts[1] === 'not positively dependent') found.push(...WORDS[7](net, net.report.questions[6]));
        const pairs = question.verdict === 'yes' ? net.pairs() : [], both = complexes => complexes.map(complex => net.name(complex)).join('; ');
        if (pairs.length) found.push({ text: 'Without the links between the two, the linkage class falls into two parts:', words: pairs.map(pair => [`${net.name(pair.from)}, ${net.name(pair.to)}`, pair.sides.map(both).join(' | ')]) });
        return found;
    },
    12: confluence,
    13: (net, question) => {
        if (question.verdict === 'yes') return signal(net, question);
        if (question.verdict === 'no') return [tree(13, `Whatever the shelves and the signs of mu, numbers exclude a signal${net.parts(4)[0] === 'yes' ? ', for the vector of question 12 and for its negative' : ''}.`)];
        return [{ text: `A signal belongs to the one confluence vector of question 12. There it says: ${net.report.questions[11].verdict}.` }];
    },
    14: (net, question) => question.verdict === 'yes' ? [tree(14, 'Whatever the signs of sigma, numbers exclude that it and an alpha show the network discordant.')] : discordant(net, question),
    15: (net, question) => question.verdict === 'yes' ? [tree(15, 'Whatever the signs of sigma, numbers exclude that it and an alpha show the network discordant.')] : discordant(net, question),
};

// The evidence of a verdict: each item is a sentence, and may have a table of `numbers`, `words` or `claims` below it, or the
// tree of a question after it.
export function explained(report, reactions, question) {
    const net = new Network(report, reactions);
    return question.parts[0] === 'open' ? openly(net, question) : WORDS[question.number](net, question);
}

// The nodes of the trees in a certificate, by question: how many there are, and how many of them have children.
export function treesIn(certificate) {
    const found = {};
    let number = 0;
    for (const line of certificate.split('\n')) {
        const head = /^q(\d+) /.exec(line);
        if (head) number = Number(head[1]);
        else if (/^(split|flat|cut[ab]|ref[ab])\b/.test(line)) {
            found[number] = found[number] || { nodes: 0, splits: 0 };
            found[number].nodes++;
            if (line === 'split') found[number].splits++;
        }
    }
    return found;
}

// Where a tree is, and how large, by what a certificate has; without one it is not known yet.
export function treeWords(number, trees) {
    if (!trees) return 'They are in the certificate, as a tree, which is being counted.';
    const it = trees[number];
    if (!it) return 'They are in the certificate, as a tree.';
    const branches = it.splits ? `at ${it.splits} of them it tries each sign of one more, and at the other ${it.nodes - it.splits} numbers exclude what was tried` : 'whose numbers exclude all';
    return `They are in the certificate, as a tree of ${of(it.nodes, 'node')}: ${branches}.`;
}
