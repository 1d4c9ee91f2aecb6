// What a document on endotactic networks says in words and names.
import { signed } from './explain.js';
import { several, spentEvidence, wideEvidence } from './proof.js';

function endotactic({ reactions, said }) {
    const of = word => said.filter(line => line.word === word).length;
    return [{ text: `For each of the ${several(reactions.length, 'reaction')} a tree goes through the signs that a slope may have: ${several(of('cuta'), 'leaf excludes', 'leaves exclude')} them by numbers, and at ${several(of('flat'), 'leaf', 'leaves')} the slope does not fall along the reaction.` }];
}

function notEndotactic({ species, reactions, said: [{ numbers: [number] }, slope] }) {
    return [
        { text: `This slope falls along reaction ${number}, ${reactions[number - 1]}, and rises along no reaction whose reactant is lower:`, numbers: species.map((name, at) => [name, signed(slope.numbers[at])]) },
    ];
}

const TOLD = {
    yes: endotactic, no: notEndotactic, wide: wideEvidence, spent: ({ said }) => spentEvidence(said[0].numbers[1]),
    large: () => [{ text: 'The network is too large for this test.' }],
};

export const ENDO = {
    title: 'Endotactic network',
    asks: 'Whether each slope, a number for each species, that falls along a reaction rises along one that begins lower.',
    says: ({ said: [{ word, numbers }] }) => ({ yes: 'yes', no: `no, reaction ${numbers[0]}` })[word] || 'open',
    evidence: proof => TOLD[proof.said[0].word](proof),
};
