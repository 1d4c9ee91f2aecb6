// Pointing at parts of the picture, by mouse, finger or keys: the part is lit, and what the verdicts say of it is told below.
import { aboutComplex, aboutReaction, aboutSpecies } from './explain.js';
import { escaped } from './picture.js';

// What is told of a part.
function told(part, report, reactions) {
    if (part.dataset.complex !== undefined) return [aboutComplex(report, Number(part.dataset.complex))];
    if (part.dataset.species !== undefined) return [aboutSpecies(report, Number(part.dataset.species))];
    return part.dataset.reactions.split(' ').map(number => aboutReaction(report, reactions, Number(number)));
}

export class Pointer {
    #box; #said; #report; #reactions;

    constructor(box, said) {
        this.#box = box;
        this.#said = said;
        box.addEventListener('pointerover', event => this.#light(event.target.closest('.part')));
        box.addEventListener('click', event => this.#light(event.target.closest('.part')));
        box.addEventListener('focusin', event => this.#light(event.target.closest('.part')));
        box.addEventListener('keydown', event => this.#step(event));
    }

    // Points into another picture.
    show(report, reactions) {
        [this.#report, this.#reactions] = [report, reactions];
        this.#said.innerHTML = '<p class="hint">Point at a complex, a species or a reaction, or go to the picture and press an arrow key, to read what the verdicts say of it.</p>';
    }

    #light(part) {
        if (!part) return;
        for (const lit of this.#box.querySelectorAll('.lit')) lit.classList.remove('lit');
        part.classList.add('lit');
        for (const number of (part.dataset.reactions || '').split(' ')) {
            for (const arrow of this.#box.querySelectorAll('.arrow')) if (number && arrow.dataset.of.split(' ').includes(number)) arrow.classList.add('lit');
        }
        this.#said.innerHTML = told(part, this.#report, this.#reactions).map(({ title, lines }) => `<p class="title">${escaped(title)}</p>${lines.map(line => `<p>${escaped(line)}</p>`).join('')}`).join('');
    }

    #step(event) {
        const parts = [...this.#box.querySelectorAll('.part')], at = parts.indexOf(document.activeElement);
        const to = { ArrowRight: at + 1, ArrowDown: at + 1, ArrowLeft: at - 1, ArrowUp: at - 1, Home: 0, End: parts.length - 1 }[event.key];
        if (to !== undefined && parts.length) {
            event.preventDefault();
            parts[(to + parts.length) % parts.length].focus({ preventScroll: false });
        } else if (event.key === 'Escape') this.#box.focus();
    }
}
