// The lines of a network text in an order in which species that react with one another come one after another, as searches
// give the species their signs in the order in which they first appear.

const namesIn = line => line.replace(/#.*/, '').match(/[A-Za-z_][A-Za-z0-9_]*/g) || [];

// Each line that has a reaction, with the comments and the empty lines before it.
function blocks(text) {
    const found = [];
    let above = [];
    for (const line of text.replace(/\n$/, '').split('\n')) {
        if (!/->|<-/.test(line.replace(/#.*/, ''))) { above.push(line); continue; }
        found.push({ lines: [...above, line], names: [...new Set(namesIn(line))] });
        above = [];
    }
    return { found, rest: above };
}

// The order of Cuthill and McKee (1969) for the species: from one of the least connected on, those with few neighbours first.
// `start` says how many such species to pass over.
function speciesOrder(near, start) {
    const byDegree = [...near.keys()].sort((a, b) => near.get(a).size - near.get(b).size);
    const order = [], seen = new Set();
    for (const first of [byDegree[start % byDegree.length], ...byDegree]) {
        for (const queue = [first]; queue.length;) {
            const name = queue.shift();
            if (name === undefined || seen.has(name)) continue;
            seen.add(name);
            order.push(name);
            queue.push(...[...near.get(name)].sort((a, b) => near.get(a).size - near.get(b).size));
        }
    }
    return new Map(order.map((name, at) => [name, at]));
}

// Another order for each attempt. Species that react with very many others, as enzymes do, are first left out of account,
// since they would draw all others to them, and in every second attempt they are not.
export function reordered(text, attempt = 0) {
    const { found, rest } = blocks(text), near = new Map();
    for (const { names } of found) {
        for (const name of names) {
            if (!near.has(name)) near.set(name, new Set());
            for (const other of names) if (other !== name) near.get(name).add(other);
        }
    }
    const mean = [...near.values()].reduce((sum, others) => sum + others.size, 0) / near.size;
    const hubs = new Set(attempt % 2 ? [] : [...near.keys()].filter(name => near.get(name).size > 2 * mean));
    for (const hub of hubs) near.delete(hub);
    for (const others of near.values()) for (const hub of hubs) others.delete(hub);
    if (!near.size) return text;
    const rank = speciesOrder(near, attempt >> 1);
    const ranks = block => block.names.filter(name => rank.has(name)).map(name => rank.get(name)).sort((a, b) => b - a);
    const compare = (a, b) => {
        const [x, y] = [ranks(a), ranks(b)], at = x.findIndex((value, i) => value !== y[i]);
        return at < 0 ? x.length - y.length : x[at] - (y[at] ?? -1);
    };
    return [...found.sort(compare).flatMap(block => block.lines), ...rest].join('\n') + '\n';
}
