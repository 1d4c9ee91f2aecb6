// The pictures: complexes and their reactions, each linkage class in a frame; and species with the reactions between them.
import { layered, layeredDown } from './layered.js';
import { springs } from './springs.js';
import { evidence, terms } from './report.js';

const LINE = 17, PAD = 11, FRAME = 14, HEAD = 26;

export const escaped = text => String(text).replace(/[&<>"']/g, mark => `&#${mark.charCodeAt(0)};`);
const near = number => Math.round(number * 10) / 10;

// A complex in lines of moderate length.
function wrapped(name) {
    const lines = [''];
    name.split(' + ').forEach((term, at) => {
        const last = lines[lines.length - 1];
        if (at && last.length + term.length > 20) lines.push(`+ ${term}`);
        else lines[lines.length - 1] = at ? `${last} + ${term}` : term;
    });
    return lines;
}

// Puts frames into rows that are at most this wide, in their order.
function packed(frames, most, gap = 12) {
    let x = 0, y = 0, high = 0, wide = 0;
    for (const frame of frames) {
        if (x && x + frame.width > most) { x = 0; y += high + gap; high = 0; }
        Object.assign(frame, { x, y });
        x += frame.width + gap;
        high = Math.max(high, frame.height);
        wide = Math.max(wide, frame.x + frame.width);
    }
    return { width: wide, height: y + high };
}

// Each reaction with its reverse, if there is one, as one edge: the numbers of the reactions, and the two ends.
export function pairsOf(reactions) {
    const pairs = new Map();
    reactions.forEach(({ from, to }, at) => {
        const back = pairs.get(`${to} ${from}`), same = pairs.get(`${from} ${to}`);
        if (back) { back.both = true; back.numbers.push(at + 1); }
        else if (!same) pairs.set(`${from} ${to}`, { from, to, both: false, numbers: [at + 1] });
    });
    return [...pairs.values()];
}

// A curve through the points of an edge, which leaves, passes each layer and arrives in the direction of the layout. `along`
// is the axis of that direction; the two sizes are those of the nodes at its ends.
function curve(points, along, first, last) {
    const across = along === 'x' ? 'y' : 'x', forward = points[1][along] > points[0][along] ? 1 : -1, tip = 2;
    const at = (main, other) => along === 'x' ? `${near(main)} ${near(other)}` : `${near(other)} ${near(main)}`;
    let main = points[0][along] + forward * (first / 2 + tip), other = points[0][across], path = `M${at(main, other)}`;
    points.slice(1).forEach((point, index) => {
        const isLast = index === points.length - 2, enter = point[along] - forward * (isLast ? last / 2 + tip : point.half);
        const middle = (main + enter) / 2, to = point[across];
        path += Math.abs(to - other) < 0.5 ? ` L${at(enter, to)}` : ` C${at(middle, other)} ${at(middle, to)} ${at(enter, to)}`;
        [main, other] = [enter, to];
        if (!isLast) { main = point[along] + forward * point.half; path += ` L${at(main, other)}`; }
    });
    return path;
}

const edgeName = (pair, reactions) => `reaction ${pair.numbers.join(' and ')}: ${reactions[pair.numbers[0] - 1].text}${pair.both ? ' and back' : ''}`;

function label(lines, x, y, kind) {
    const top = y - (lines.length - 1) * LINE / 2;
    return lines.map((line, at) => `<text class="${kind}" x="${near(x)}" y="${near(top + at * LINE)}" text-anchor="middle" dominant-baseline="central">${escaped(line)}</text>`).join('');
}

// What is drawn: the picture's size, the frames, and its parts, each of which may be pointed at.
function svg(size, name, inside) {
    const [width, height] = [Math.ceil(size.width + 2), Math.ceil(size.height + 2)];
    return {
        width, height,
        svg: `<svg xmlns="http://www.w3.org/2000/svg" class="drawing" viewBox="-1 -1 ${width} ${height}" width="${width}" height="${height}" role="group" aria-label="${escaped(name)}">`
            + '<defs><marker id="tip" viewBox="0 0 10 10" refX="9" refY="5" markerUnits="userSpaceOnUse" markerWidth="10" markerHeight="10" orient="auto-start-reverse"><path class="tip" d="M0 0.5L10 5L0 9.5z"/></marker>'
            + '<marker id="back" viewBox="0 0 10 10" refX="9" refY="5" markerUnits="userSpaceOnUse" markerWidth="10" markerHeight="10" orient="auto"><path class="back" d="M0.7 1.2L9 5L0.7 8.8z"/></marker></defs>'
            + inside + '</svg>',
    };
}

// The complexes of each linkage class from left to right along the reactions.
export function complexPicture(report, reactions, measure, width) {
    const terminal = new Map();
    report.strong.filter(strong => strong.terminal).forEach((strong, at) => strong.members.forEach(name => terminal.set(name, at)));
    const shelves = evidence(report, 13, 'shelves');
    const number = new Map(report.complexes.map((name, at) => [name, at]));
    const pairs = pairsOf(reactions);
    const deficiencies = (/classes ([\d ]+)$/.exec(report.questions[5].verdict) || [null, ''])[1].split(' ');
    const frames = report.classes.map((members, at) => {
        const own = members.map(name => number.get(name)), place = new Map(own.map((complex, i) => [complex, i]));
        const nodes = members.map(name => {
            const lines = wrapped(name), shelf = shelves && terminal.has(name) ? `${shelves[terminal.get(name)]} shelf` : '';
            return { lines, shelf, width: Math.max(28, ...lines.map(measure), 0.8 * measure(shelf)) + 2 * PAD, height: lines.length * LINE + (shelf ? 28 : 14) };
        });
        const edges = pairs.filter(pair => place.has(pair.from)).map(pair => ({ ...pair, from: place.get(pair.from), to: place.get(pair.to), pair }));
        const title = `class ${at + 1}${deficiencies[at] ? `, deficiency ${deficiencies[at]}` : ''}`;
        let layout = layered(nodes, edges);
        if (layout.width + 2 * FRAME > width) {
            const down = layeredDown(nodes, edges, { between: 34 });
            if (down.width < layout.width) layout = down;
        }
        return { own, members, nodes, edges, layout, title, width: Math.max(layout.width, measure(title)) + 2 * FRAME, height: layout.height + HEAD + FRAME };
    });
    const size = packed(frames, Math.max(width, 320));
    const inside = frames.map(frame => {
        const x = frame.x + (frame.width - frame.layout.width) / 2, y = frame.y + HEAD;
        const moved = points => points.map(point => ({ ...point, x: point.x + x, y: point.y + y }));
        const edges = frame.edges.map((edge, at) => {
            const [along, side] = frame.layout.down ? ['y', 'height'] : ['x', 'width'];
            const path = curve(moved(frame.layout.paths[at]), along, frame.nodes[edge.from][side], frame.nodes[edge.to][side]);
            return `<g class="part edge" role="img" tabindex="-1" data-reactions="${edge.pair.numbers.join(' ')}" aria-label="${escaped(edgeName(edge.pair, reactions))}">`
                + `<path class="wide" d="${path}"/><path class="line" d="${path}" marker-end="url(#tip)"${edge.both ? ' marker-start="url(#tip)"' : ''}/></g>`;
        });
        const nodes = frame.nodes.map((node, i) => {
            const at = moved([frame.layout.places[i]])[0], name = frame.members[i], isTerminal = terminal.has(name);
            const box = (grow, kind) => `<rect class="${kind}" x="${near(at.x - node.width / 2 - grow)}" y="${near(at.y - node.height / 2 - grow)}" width="${near(node.width + 2 * grow)}" height="${near(node.height + 2 * grow)}" rx="${7 + grow}"/>`;
            return `<g class="part node${isTerminal ? ' terminal' : ''}" role="img" tabindex="-1" data-complex="${frame.own[i]}" aria-label="${escaped(`complex ${name}${isTerminal ? ', in a terminal strong class' : ''}${node.shelf && `, ${node.shelf}`}`)}">`
                + (isTerminal ? box(3, 'ring') : '') + box(0, 'box') + label(node.lines, at.x, at.y - (node.shelf ? 7 : 0), 'name')
                + (node.shelf && label([node.shelf], at.x, at.y + node.height / 2 - 11, 'shelf')) + '</g>';
        });
        return `<g><rect class="frame" x="${near(frame.x)}" y="${near(frame.y)}" width="${near(frame.width)}" height="${near(frame.height)}" rx="9"/>`
            + `<text class="title" x="${near(frame.x + FRAME)}" y="${near(frame.y + 17)}">${escaped(frame.title)}</text>${edges.join('')}${nodes.join('')}</g>`;
    });
    return svg(size, 'complexes and reactions', inside.join(''));
}

// Where the line from the centre of a box towards a point leaves the box.
function border(box, width, height, point) {
    const dx = point.x - box.x, dy = point.y - box.y;
    const scale = Math.min(dx ? width / 2 / Math.abs(dx) : Infinity, dy ? height / 2 / Math.abs(dy) : Infinity, 1);
    return { x: box.x + dx * scale, y: box.y + dy * scale };
}

// The connected parts of a graph, as lists of vertices.
function partsOf(count, edges) {
    const part = Array.from({ length: count }, (_, at) => at);
    const root = at => part[at] === at ? at : (part[at] = root(part[at]));
    for (const { from, to } of edges) part[root(from)] = root(to);
    const found = new Map();
    for (let at = 0; at < count; at++) found.set(root(at), [...(found.get(root(at)) || []), at]);
    return [...found.values()];
}

// The species, and between them the reactions as dots. An arrow ends at what a reaction makes, with a hollow tip at what its
// reverse does.
export function speciesPicture(report, reactions, measure, width) {
    const pairs = pairsOf(reactions), species = report.species.length;
    const nodes = [
        ...report.species.map(name => ({ name, width: Math.max(20, measure(name)) + 18, height: 30 })),
        ...pairs.map(pair => ({ pair, width: pair.both ? 34 : 24, height: 20 })),
    ];
    const edges = [];
    pairs.forEach((pair, at) => {
        const [before, after] = [pair.from, pair.to].map(complex => new Map(terms(report.complexes[complex]).map(([amount, name]) => [name, amount])));
        for (const name of new Set([...before.keys(), ...after.keys()])) {
            const made = after.has(name) || pair.both, used = before.has(name), keeps = before.has(name) && after.has(name);
            const amounts = keeps && before.get(name) !== after.get(name) ? `${before.get(name)}→${after.get(name)}` : String(before.get(name) || after.get(name));
            edges.push({ from: report.species.indexOf(name), to: species + at, made, used, keeps, amounts: amounts === '1' ? '' : amounts, pair });
        }
    });
    const frames = partsOf(nodes.length, edges).map(own => {
        const place = new Map(own.map((vertex, i) => [vertex, i]));
        const inner = edges.filter(edge => place.has(edge.from));
        const layout = springs(own.map(vertex => nodes[vertex]), inner.map(edge => ({ from: place.get(edge.from), to: place.get(edge.to) })));
        return { own, place, inner, layout, width: layout.width + 16, height: layout.height + 16 };
    });
    const size = packed(frames, Math.max(width, 320));
    const inside = frames.map(frame => {
        const at = vertex => ({ x: frame.layout.places[frame.place.get(vertex)].x + frame.x + 8, y: frame.layout.places[frame.place.get(vertex)].y + frame.y + 8 });
        const lines = frame.inner.map(edge => {
            const [a, b] = [at(edge.from), at(edge.to)], start = border(a, nodes[edge.from].width + 5, nodes[edge.from].height + 5, b), end = border(b, nodes[edge.to].width, nodes[edge.to].height, a);
            const middle = { x: (start.x + end.x) / 2, y: (start.y + end.y) / 2 };
            return `<g class="arrow" data-of="${edge.pair.numbers.join(' ')}"><path class="line${edge.keeps && !edge.pair.both ? ' keeps' : ''}" d="M${near(end.x)} ${near(end.y)}L${near(start.x)} ${near(start.y)}"${edge.made ? ` marker-end="url(#${edge.used && !edge.keeps ? 'back' : 'tip'})"` : ''}/>`
                + (edge.amounts ? `<text class="amount" x="${near(middle.x)}" y="${near(middle.y)}" text-anchor="middle" dominant-baseline="central">${edge.amounts}</text>` : '') + '</g>';
        });
        const boxes = frame.own.map(vertex => {
            const node = nodes[vertex], p = at(vertex);
            const rect = (kind, rx) => `<rect class="${kind}" x="${near(p.x - node.width / 2)}" y="${near(p.y - node.height / 2)}" width="${near(node.width)}" height="${node.height}" rx="${rx}"/>`;
            return vertex < species
                ? `<g class="part node species" role="img" tabindex="-1" data-species="${vertex}" aria-label="${escaped('species ' + node.name)}">${rect('box', 15)}${label([node.name], p.x, p.y, 'name')}</g>`
                : `<g class="part node reaction" role="img" tabindex="-1" data-reactions="${node.pair.numbers.join(' ')}" aria-label="${escaped(edgeName(node.pair, reactions))}">${rect('box', 4)}${label([node.pair.numbers.join('·')], p.x, p.y, 'number')}</g>`;
        });
        return lines.join('') + boxes.join('');
    });
    return svg(size, 'species and reactions', inside.join(''));
}

// How a saved picture looks, which has no page round it.
export const PRINTED = '.frame{fill:#f8fafc;stroke:#c9d1db}.title{fill:#4a5565;font:12px sans-serif}.box{fill:#fff;stroke:#66717f}.terminal .box{fill:#e2f4e8;stroke:#17693b}'
    + '.ring{fill:none;stroke:#17693b}.reaction .box{fill:#eef1f5}.name,.number,.shelf,.amount{font-family:DejaVu Sans Mono,Menlo,Consolas,monospace;font-size:13px;fill:#1b2330}'
    + '.number{font-size:11px}.shelf{font-size:10.5px}.amount{font-size:11px;stroke:#fff;stroke-width:4px;paint-order:stroke}'
    + '.line{fill:none;stroke:#4a5565;stroke-width:1.4}.keeps{stroke-dasharray:5 3}.wide{fill:none;stroke:none}.tip{fill:#4a5565}.back{fill:#fff;stroke:#4a5565}';
