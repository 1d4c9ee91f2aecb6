// What the theory concludes from the verdicts of a report: which rows of the file of conclusions apply to it.

// Whether the parts of a verdict begin with these.
const begins = (parts, says) => says.every((part, at) => parts[at] === part);

const holds = ({ says, says_not }, parts) => says ? begins(parts, says) : !begins(parts, says_not);

// The rows that apply to a report.
export function rowsOf(conclusions, report) {
    return conclusions.rows.filter(row => row.requires.every(condition => holds(condition, report.questions[condition.question - 1].parts)));
}

// The rows that apply to the verdict of a part document, if it is not open.
export function rowsOfPart(conclusions, part, parts) {
    return conclusions.parts.filter(row => parts[0] !== 'open' && row.requires.every(condition => condition.part === part && holds(condition, parts)));
}

// The questions whose rows a reader wants first: what is said of steady states before what is said of the structure.
const FIRST = [9, 10, 13, 14, 7, 4, 8];

// The rows that conclude something, the most telling first.
export function concluding(rows) {
    const place = row => {
        const at = FIRST.indexOf(row.requires[0].question);
        return at < 0 ? FIRST.length : at;
    };
    return rows.filter(row => row.concludes).sort((a, b) => place(a) - place(b));
}

// The rows that are about a question: those that ask for it first.
export function rowsAbout(rows, number) {
    return rows.filter(row => row.requires[0].question === number || (row.id === 'classes' && number === 2));
}
