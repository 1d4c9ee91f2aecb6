// What a document on robustness says in words and names.

// The numbers of a line of a block, and the last line, which says the case.
const numbersOf = ({ said }, word) => said.find(line => line.word === word).numbers;
const caseOf = ({ said }) => said[said.length - 1];

// The complexes by first appearance.
const complexesOf = ({ reactions }) => [...new Set(reactions.flatMap(text => text.split(' -> ')))];

function deficiencyWords(proof) {
    const [count, classes, rank] = [complexesOf(proof).length, numbersOf(proof, 'q1')[0], numbersOf(proof, 'q5')[0]].map(Number);
    return { text: `The deficiency is ${count} complexes − ${classes} linkage ${classes === 1 ? 'class' : 'classes'} − rank ${rank} = ${count - classes - rank}; the theorem asks for 1.` };
}

const CASES = {
    yes: (proof, [species, first, second]) => {
        const complexes = complexesOf(proof), [one, other] = [complexes[first - 1], complexes[second - 1]];
        return [deficiencyWords(proof), { text: `The complexes ${one} and ${other} are in no terminal strong class, and they differ in ${proof.species[species - 1]} alone.` }];
    },
    number: proof => [deficiencyWords(proof)],
    none: proof => [deficiencyWords(proof), { text: 'No two complexes that are in no terminal strong class differ in one species alone.' }],
    rests: () => [{ text: 'The rank is open, so the deficiency is not known.' }],
};

const SAYS = {
    yes: ({ species }, [number]) => `hypotheses hold, species ${species[number - 1]}\nconfluence space: a line`,
    number: (_, [number]) => `hypotheses fail, deficiency ${number}\nconfluence space: no line`,
    none: () => 'hypotheses fail, no pair\nconfluence space: a line',
    rests: () => 'open',
};

export const ROBUST = {
    title: 'Robustness',
    asks: 'Whether, under mass action, the network shows of a species that it has one and the same concentration in all positive steady states.',
    says: proof => SAYS[caseOf(proof).word](proof, caseOf(proof).numbers),
    evidence: proof => CASES[caseOf(proof).word](proof, caseOf(proof).numbers),
};
