// What a document on independent decompositions says in words and names.
import { sum } from './explain.js';
import { several, wideEvidence } from './proof.js';

// Of a decomposition: the base and the labels of all reactions, by their places, and the combination of each reaction that is not
// in the base.
function decomposed({ reactions, said }) {
    const of = word => said.find(line => line.word === word).numbers.map(number => Number(number));
    const base = of('base').map(number => number - 1), outside = reactions.map((_, at) => at).filter(at => !base.includes(at));
    const combinations = said.filter(line => line.word === 'comb').map(({ numbers: [times, ...numbers] }, at) => ({ reaction: outside[at], times, numbers }));
    return { base, labels: of('label'), combinations };
}

const isSplit = ({ said }) => said[0].word === 'rank';

// The ranks of the parts in order: how many members of the base each has.
function ranksOf({ base, labels }) {
    return Array.from({ length: Math.max(...labels) }, (_, part) => base.filter(at => labels[at] === part + 1).length);
}

function parted(proof) {
    const { reactions } = proof, found = decomposed(proof), ranks = ranksOf(found), names = reactions.map(text => `(${text})`);
    const members = ranks.map((rank, part) => [`part ${part + 1}, rank ${rank}`, reactions.filter((_, at) => found.labels[at] === part + 1).join('; ')]);
    const ties = found.combinations.map(({ reaction, times, numbers }) => [sum([names[reaction]], [times]), `= ${sum(found.base.map(at => names[at]), numbers)}`]);
    return [
        ranks.length === 1 ? { text: `No independent decomposition divides the reactions; their rank is ${ranks[0]}.` }
            : { text: `The reactions fall into ${ranks.length} parts, whose ranks add up to the rank of all, ${found.base.length}:`, words: members },
        ...ties.length ? [{ text: `No independent decomposition has finer parts, as ${several(ties.length, 'reaction vector is a sum', 'reaction vectors are sums')} of others, which ties them together:`, words: ties }] : [],
    ];
}

export const DECOMPOSITION = {
    title: 'Independent decomposition',
    asks: 'Into which parts the reactions fall, so that the steady states of the network are those that all parts have in common.',
    says: proof => isSplit(proof) ? (ranks => `${ranks.length}, ranks ${ranks.join(' ')}`)(ranksOf(decomposed(proof))) : 'open',
    evidence: proof => isSplit(proof) ? parted(proof) : wideEvidence(),
};
