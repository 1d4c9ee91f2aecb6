// Reads what the program writes: the lines of a report, and the network in a certificate.

// A report: its lists, and each question with its verdict, the verdict's parts, and the lines of evidence below it.
export function readReport(text) {
    const lines = text.split('\n'), questions = [];
    const listed = head => (lines.find(line => line.startsWith(head + ' ')) || '').replace(/^\w+ \d+: /, '');
    for (const line of lines) {
        const head = /^Q(\d+) ([a-z ]+): (.*)$/.exec(line), below = /^  ([a-z]+(?: [a-z]+)*)(?: (\d+)|,|:)?(.*)$/.exec(line);
        if (head) questions.push({ number: +head[1], name: head[2], verdict: head[3], parts: head[3].split(', '), evidence: [] });
        else if (below && questions.length) questions[questions.length - 1].evidence.push(line.slice(2));
    }
    const below = number => questions[number - 1].evidence.map(line => line.replace(/^\w+ \d+: /, ''));
    return {
        text,
        species: listed('species').split(' '),
        complexes: listed('complexes').split('; '),
        questions,
        classes: below(1).map(line => line.split('; ')),
        strong: below(2).map(line => ({ members: line.replace(/ \(terminal\)$/, '').split('; '), terminal: line.endsWith(' (terminal)') })),
        open: questions.filter(question => question.parts[0] === 'open'),
    };
}

// The numbers of a line of evidence such as `alpha: 1 -2 0`, or nothing if the question has no such line.
export function evidence(report, number, label) {
    const line = report.questions[number - 1].evidence.find(line => line.startsWith(label + ': '));
    return line === undefined ? null : line.slice(label.length + 2).split(' ');
}

// The reactions of the network in a certificate, each as the numbers of its complexes in the report.
export function readReactions(certificate, complexes) {
    const lines = certificate.split('\n'), count = +lines[1].split(' ')[1];
    const number = new Map(complexes.map((name, at) => [name, at]));
    return lines.slice(2, 2 + count).map(line => {
        const [from, to] = line.split(' -> ');
        return { text: line, from: number.get(from), to: number.get(to) };
    });
}

// The network text in a certificate.
export function networkIn(certificate) {
    const lines = certificate.split('\n'), count = +(/^network (\d+)$/.exec(lines[1]) || [0, 0])[1];
    return lines.slice(2, 2 + count).map(line => line + '\n').join('');
}

// The terms of a complex, as pairs of an amount and the name of a species.
export function terms(complex) {
    if (complex === '0') return [];
    return complex.split(' + ').map(term => {
        const [, amount, name] = /^(\d*)(.*)$/.exec(term);
        return [Number(amount || 1), name];
    });
}
