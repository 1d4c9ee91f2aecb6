// The questions that a part document answers, by their parts: what each asks, what `verify` says of the document, and the evidence,
// as sentences with what belongs to each.
import { DECOMPOSITION } from './decomposition.js';
import { ENDO } from './endo.js';
import { PERSIST } from './persist.js';
import { ROBUST } from './robust.js';

export const PARTS = { persist: PERSIST, parts: DECOMPOSITION, robust: ROBUST, endo: ENDO };

// The verdict, as `verify` writes it, and its first line in the parts that conditions are about.
export const proofVerdict = proof => `${proof.part}: ${PARTS[proof.part].says(proof)}`;
export const saidParts = verdict => verdict.split('\n')[0].replace(/^\w+: /, '').split(', ');

export const proofEvidence = proof => PARTS[proof.part].evidence(proof);
