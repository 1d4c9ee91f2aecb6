// What to write instead of a line that is refused: rows of the tables of what people type, and lines made after them.

// The marks of a line that a network text does not have: all that is neither name, number, plus, blank nor arrow.
function marks(line) {
    return line.replace(/#.*/, '').match(/[^\sA-Za-z0-9_+]+|\d+\.\d+/g) || [];
}

const strange = line => marks(line).filter(mark => !['->', '<->', '<-'].includes(mark));

// The rows for the code, those first whose texts have the marks of the line that was typed.
export function rowsFor(cures, code, line) {
    const here = new Set(strange(line));
    const likeness = row => row.typed.filter(typed => strange(typed).some(mark => here.has(mark))).length;
    const rows = cures.rows.filter(row => row.code === code).map(row => ({ ...row, likeness: likeness(row) }));
    return rows.sort((a, b) => b.likeness - a.likeness);
}

// Marks that can only be arrows, with the arrow that the rows have for each: where a row changes one mark of its text, its arrow.
function arrows(cures) {
    const found = new Map();
    for (const row of cures.rows) {
        const arrow = /^`A (->|<->|<-) B`$/.exec(row.write);
        for (const typed of arrow ? row.typed : []) {
            const mark = /^A ?([-=<>~–−→⟶⇒⇌⇄↔←]+) ?B$/.exec(typed);
            if (mark) found.set(mark[1], arrow[1]);
        }
    }
    return found;
}

// The line that is meant, if nothing but its arrows is strange. Of any other mark the rows say what it may mean, and the
// user chooses: a line that is accepted but says another reaction is worse than none.
export function proposal(cures, line) {
    const known = arrows(cures), marked = strange(line);
    const [said, ...comment] = line.split(/(?=#)/);
    const isParted = /[^\sA-Za-z0-9_+]\s+[^\sA-Za-z0-9_+]/.test(said);
    if (!marked.length || isParted || !marked.every(mark => known.has(mark))) return null;
    return [said.replace(/[^\sA-Za-z0-9_+]+/g, mark => known.get(mark) || mark), ...comment].join('').trimEnd();
}
