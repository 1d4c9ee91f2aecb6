// What the evidence of the verdicts says of a part of the network, in words and names where the report has numbers.
import { evidence, terms } from './report.js';

// The numbers of evidence may be as great as 2^62, so they stay as they are written.
export const signed = number => number > 0 ? `+${number}` : number;

// A sum of names times numbers, as `A + 2 B`.
export function sum(names, numbers) {
    const parts = numbers.map((number, at) => [number, names[at]]).filter(([number]) => number !== '0');
    return parts.map(([number, name], at) => {
        const isNegative = number.startsWith('-'), size = number.replace('-', '');
        return `${at ? (isNegative ? ' − ' : ' + ') : isNegative ? '−' : ''}${size === '1' ? '' : size + ' '}${name}`;
    }).join('');
}

// The height of a complex on the shelves of a signal.
export function heightOf(complex, report, mu) {
    return terms(complex).reduce((total, [amount, name]) => total + BigInt(amount) * BigInt(mu[report.species.indexOf(name)]), 0n);
}

// The shelf of a complex in a signal.
export function shelfOf(report, complex) {
    const place = report.strong.filter(it => it.terminal).findIndex(it => it.members.includes(report.complexes[complex]));
    return place < 0 ? 'middle' : evidence(report, 13, 'shelves')[place];
}

// The complexes on each side of a linked pair once the links between the two are taken away, or nothing if a walk remains.
export function sides(from, to, reactions, members) {
    const near = new Map(members.map(vertex => [vertex, []])), reached = new Set([to]);
    for (const { from: a, to: b } of reactions) {
        if (!near.has(a) || (a === from && b === to) || (a === to && b === from)) continue;
        near.get(a).push(b);
        near.get(b).push(a);
    }
    for (const vertex of reached) for (const other of near.get(vertex)) reached.add(other);
    return reached.has(from) ? null : [members.filter(vertex => !reached.has(vertex)), members.filter(vertex => reached.has(vertex))];
}

// What the evidence of the verdicts says of a reaction.
export function aboutReaction(report, reactions, number) {
    const { from, to, text } = reactions[number - 1], lines = [];
    const back = reactions.findIndex(other => other.from === to && other.to === from) + 1;
    const strong = complex => report.strong.findIndex(it => it.members.includes(report.complexes[complex]));
    const group = report.classes.findIndex(members => members.includes(report.complexes[from]));
    lines.push(back ? `Its reverse is reaction ${back}.` : 'No reaction reverses it.');
    if (strong(from) !== strong(to)) lines.push(`It leads out of strong class ${strong(from) + 1}, so the network is not weakly reversible.`);
    else lines.push(`It is within strong class ${strong(from) + 1}${report.strong[strong(from)].terminal ? ', which is terminal' : ''}.`);
    const parted = sides(from, to, reactions, report.classes[group].map(name => report.complexes.indexOf(name)));
    const names = list => list.map(complex => report.complexes[complex]).join('; ');
    lines.push(parted ? `Its two complexes are a cut pair: without the links between them the class falls into ${names(parted[0])} and ${names(parted[1])}.` : 'Its two complexes are no cut pair: there is another way round.');
    const of = (question, label, say) => { const list = evidence(report, question, label); if (list) lines.push(say(list[number - 1])); };
    const base = evidence(report, 5, 'independent reactions');
    if (base && base.includes(String(number))) lines.push('It is one of the independent reactions of the rank.');
    of(7, 'positive combination', value => `Positive combination: ${value} times.`);
    of(8, 'multipliers', value => `Multiplier that shows the network not conservative: ${value}.`);
    const mu = evidence(report, 13, 'mu');
    if (mu) lines.push(`Signal: from the ${shelfOf(report, from)} shelf, height ${heightOf(report.complexes[from], report, mu)}, to the ${shelfOf(report, to)} shelf, height ${heightOf(report.complexes[to], report, mu)}.`);
    of(14, 'alpha', value => `Not concordant: alpha is ${signed(value)} here.`);
    of(15, 'alpha', value => `Not strongly concordant: alpha is ${signed(value)} here.`);
    return { title: `Reaction ${number}: ${text}`, lines };
}

// What the evidence of the verdicts says of a complex.
export function aboutComplex(report, complex) {
    const name = report.complexes[complex], lines = [];
    const group = report.classes.findIndex(members => members.includes(name)), strong = report.strong.findIndex(it => it.members.includes(name));
    lines.push(`Linkage class ${group + 1}, strong class ${strong + 1}${report.strong[strong].terminal ? ', which is terminal: no arrow leads out of it' : ''}.`);
    const vectors = report.questions[11].evidence.filter(line => line.startsWith('vector: ')).map(line => line.slice(8).split(' ')[complex]);
    if (vectors.length === 1) lines.push(`Confluence vector: ${signed(vectors[0])} here.`);
    const mu = evidence(report, 13, 'mu');
    if (mu) {
        const [m] = evidence(report, 13, 'm');
        lines.push(`Signal: ${shelfOf(report, complex)} shelf, at the height ${heightOf(name, report, mu)} (the middle shelf is at ${m}).`);
    }
    return { title: `Complex ${complex + 1}: ${name}`, lines };
}

// What the evidence of the verdicts says of a species.
export function aboutSpecies(report, species) {
    const name = report.species[species], lines = [];
    const holding = report.complexes.filter(complex => terms(complex).some(term => term[1] === name));
    lines.push(`In ${holding.length === 1 ? 'the complex' : 'the complexes'} ${holding.join('; ')}.`);
    const of = (question, label, say) => { const list = evidence(report, question, label); if (list) lines.push(say(list[species])); };
    of(8, 'positive law', value => `Weight in the positive law: ${value}.`);
    of(7, 'multipliers', value => `Multiplier that shows the vectors not positively dependent: ${value}.`);
    of(13, 'mu', value => `Signal: mu is ${signed(value)}.`);
    of(14, 'sigma', value => `Not concordant: sigma is ${signed(value)} here.`);
    of(15, 'sigma', value => `Not strongly concordant: sigma is ${signed(value)} here.`);
    return { title: `Species ${species + 1}: ${name}`, lines };
}
