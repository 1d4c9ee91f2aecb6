// What a document on persistence says in words and names.
import { sum } from './explain.js';
import { several, spentEvidence, times, wideEvidence } from './proof.js';

function persistent({ species, said }) {
    const [, law, ...nodes] = said, of = word => nodes.filter(node => node.word === word);
    const laws = [...new Set(of('law').map(node => sum(species, node.numbers)))];
    return [
        { text: `No reaction changes ${sum(species, law.numbers)}, so the network is conservative.` },
        { text: 'Each siphon contains all species of one of these sums, which no reaction changes, so it never runs empty:', words: laws.map(it => [it]) },
        { text: `A tree goes through the sets of species: ${several(of('law').length, 'leaf has', 'leaves have')} such a sum within, and at ${several(of('bad').length, 'leaf', 'leaves')} a reaction makes a member out of species that are no members, so there is no siphon.` },
    ];
}

function notBySiphons({ species, reactions, said }) {
    const [, { word, numbers }, cover] = said;
    if (word === 'cut') return [{ text: 'The network is not conservative: the reactions, each taken this many times, make no species more, and some less.', numbers: times(reactions, numbers) }];
    const members = species.filter((name, at) => numbers[at] === '1').join(', ');
    return [
        { text: `This is a siphon: ${members}. Each reaction that makes a member uses or needs one.` },
        { text: 'The reactions, each taken this many times, make more of each member, so no sum of members with weights of at least 0 is conserved:', numbers: times(reactions, cover.numbers) },
    ];
}

const ANSWERS = { yes: persistent, no: notBySiphons, spent: ({ said }) => spentEvidence(said[0].numbers[0]), wide: wideEvidence };

export const PERSIST = {
    title: 'Persistence',
    asks: 'Whether the siphons of the network show that, under mass action, no species dies out.',
    says: ({ said }) => ({ yes: 'yes', no: 'no' })[said[0].word] || 'open',
    evidence: proof => ANSWERS[proof.said[0].word](proof),
};
