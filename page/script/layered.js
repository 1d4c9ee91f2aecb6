// Lays a graph out in layers from left to right, after Sugiyama, Tagawa and Toda (1981): put the vertices in an order, give
// each a layer, order the layers so that few edges cross, and place each layer so that edges are short and straight.

// An order of the vertices in which an edge leads forward, unless it closes a cycle: a search in depth from the vertices in
// their order, each taken before all that it leads to.
function forwardOrder(count, edges) {
    const next = Array.from({ length: count }, () => []), order = [], seen = new Set();
    for (const { from, to, both } of edges) {
        next[from].push(to);
        if (both) next[to].push(from);
    }
    for (let start = 0; start < count; start++) {
        if (seen.has(start)) continue;
        const path = [[start, 0]];
        seen.add(start);
        while (path.length) {
            const top = path[path.length - 1], [vertex, at] = top;
            if (at === next[vertex].length) { order.push(vertex); path.pop(); continue; }
            top[1]++;
            // The last successor first, so that the first one comes first in the order.
            const after = next[vertex][next[vertex].length - 1 - at];
            if (!seen.has(after)) { seen.add(after); path.push([after, 0]); }
        }
    }
    return order.reverse();
}

// An order that draws a ring as a ring: its first vertex, then the two next to it, and so on. Nothing if it is no ring.
function ringOrder(count, edges) {
    const near = Array.from({ length: count }, () => []);
    edges.forEach(({ from, to, both }) => { near[from].push({ to, leads: true }); near[to].push({ to: from, leads: both }); });
    if (count < 3 || edges.length !== count || near.some(list => list.length !== 2)) return null;
    const round = [0], seen = new Set(round);
    for (let step = near[0].find(one => one.leads) || near[0][0]; !seen.has(step.to);) {
        round.push(step.to);
        seen.add(step.to);
        step = near[step.to].find(one => !seen.has(one.to)) || { to: 0 };
    }
    if (round.length !== count) return null;
    const order = [0];
    for (let i = 1; i <= count / 2; i++) order.push(...new Set([round[i], round[count - i]]));
    return count % 2 ? [...order.slice(0, -2), order[order.length - 1], order[order.length - 2]] : order;
}

// The layer of each vertex: after those of all edges that lead to it, and then as near to its neighbours as that allows.
function layersOf(order, arcs) {
    const layer = Array(order.length).fill(0);
    const before = order.map(() => []), after = order.map(() => []);
    for (const { tail, head } of arcs) { before[head].push(tail); after[tail].push(head); }
    for (const vertex of order) for (const tail of before[vertex]) layer[vertex] = Math.max(layer[vertex], layer[tail] + 1);
    for (let round = 0; round < 8; round++) {
        for (const vertex of round % 2 ? order : [...order].reverse()) {
            const least = Math.max(-Infinity, ...before[vertex].map(tail => layer[tail] + 1));
            const most = Math.min(Infinity, ...after[vertex].map(head => layer[head] - 1));
            if (most === Infinity) continue;
            const pull = after[vertex].length - before[vertex].length;
            if (pull > 0 || least === -Infinity) layer[vertex] = most;
            else if (pull < 0) layer[vertex] = least;
        }
    }
    const least = Math.min(0, ...layer);
    return layer.map(value => value - least);
}

// How many edges between two neighbouring layers cross, given the places of their ends.
function crossingsBetween(pairs) {
    let count = 0;
    for (let i = 0; i < pairs.length; i++) {
        for (let j = i + 1; j < pairs.length; j++) {
            if ((pairs[i][0] - pairs[j][0]) * (pairs[i][1] - pairs[j][1]) < 0) count++;
        }
    }
    return count;
}

function crossings(rows, links) {
    const place = new Map();
    for (const row of rows) row.forEach((vertex, at) => place.set(vertex, at));
    return links.reduce((sum, list) => sum + crossingsBetween(list.map(([a, b]) => [place.get(a), place.get(b)])), 0);
}

// Orders each layer by the mean place of the neighbours in the layer before it, forth and back, and keeps the best order.
function orderRows(rows, links) {
    let best = rows.map(row => [...row]), least = crossings(best, links);
    const neighbours = [new Map(), new Map()];
    for (const list of links) {
        for (const [a, b] of list) {
            neighbours[0].set(b, [...(neighbours[0].get(b) || []), a]);
            neighbours[1].set(a, [...(neighbours[1].get(a) || []), b]);
        }
    }
    for (let sweep = 0; sweep < 24 && least > 0; sweep++) {
        const side = sweep % 2;
        const order = side ? [...rows.keys()].reverse() : [...rows.keys()];
        const place = new Map();
        for (const row of rows) row.forEach((vertex, at) => place.set(vertex, at));
        for (const at of order) {
            const mean = vertex => {
                const list = neighbours[side].get(vertex);
                return list ? list.reduce((sum, other) => sum + place.get(other), 0) / list.length : place.get(vertex);
            };
            const key = new Map(rows[at].map(vertex => [vertex, mean(vertex)]));
            const tie = sweep % 4 < 2 ? 1 : -1;
            rows[at].sort((a, b) => key.get(a) - key.get(b) || tie * (place.get(a) - place.get(b)));
            rows[at].forEach((vertex, index) => place.set(vertex, index));
        }
        swapNeighbours(rows, links);
        const count = crossings(rows, links);
        if (count < least) { least = count; best = rows.map(row => [...row]); }
    }
    return best;
}

// Exchanges two neighbours of a layer wherever that takes crossings away.
function swapNeighbours(rows, links) {
    const place = new Map(), near = new Map();
    for (const row of rows) row.forEach((vertex, at) => place.set(vertex, at));
    links.forEach((list, at) => {
        for (const [a, b] of list) {
            for (const [vertex, other, side] of [[a, b, 1], [b, a, 0]]) {
                if (!near.has(vertex)) near.set(vertex, [[], []]);
                near.get(vertex)[side].push(other);
            }
        }
    });
    const cost = (a, b) => [0, 1].reduce((sum, side) => {
        const [x, y] = [a, b].map(vertex => (near.get(vertex) || [[], []])[side].map(other => place.get(other)));
        return sum + x.reduce((s, p) => s + y.filter(q => p > q).length, 0);
    }, 0);
    for (let round = 0, changed = true; changed && round < 6; round++) {
        changed = false;
        for (const row of rows) {
            for (let at = 0; at + 1 < row.length; at++) {
                const [a, b] = [row[at], row[at + 1]];
                if (cost(b, a) < cost(a, b)) {
                    [row[at], row[at + 1]] = [b, a];
                    place.set(a, at + 1);
                    place.set(b, at);
                    changed = true;
                }
            }
        }
    }
}

// The places nearest to the wanted ones, by least squares, that keep the order and the distances: neighbours that come too
// close are joined to a block.
export function spread(wanted, weights, distances) {
    const blocks = [];
    let shift = 0;
    wanted.forEach((want, at) => {
        if (at) shift += distances[at - 1];
        let block = { sum: (want - shift) * weights[at], weight: weights[at], count: 1 };
        while (blocks.length && blocks[blocks.length - 1].sum / blocks[blocks.length - 1].weight > block.sum / block.weight) {
            const last = blocks.pop();
            block = { sum: last.sum + block.sum, weight: last.weight + block.weight, count: last.count + block.count };
        }
        blocks.push(block);
    });
    const places = [];
    shift = 0;
    for (const block of blocks) {
        for (let i = 0; i < block.count; i++) {
            if (places.length) shift += distances[places.length - 1];
            places.push(block.sum / block.weight + shift);
        }
    }
    return places;
}

// Places each layer from top to bottom. An edge that passes a layer is kept straight before all else.
function placeRows(rows, links, vertices, gap) {
    const y = new Map(), near = [new Map(), new Map()];
    const strength = (a, b) => vertices[a].passes && vertices[b].passes ? 8 : vertices[a].passes || vertices[b].passes ? 2 : 1;
    for (const list of links) {
        for (const [a, b] of list) {
            near[0].set(b, [...(near[0].get(b) || []), [a, strength(a, b)]]);
            near[1].set(a, [...(near[1].get(a) || []), [b, strength(a, b)]]);
        }
    }
    const distance = (a, b) => (vertices[a].height + vertices[b].height) / 2 + (vertices[a].passes || vertices[b].passes ? gap * 0.7 : gap);
    for (const row of rows) {
        let at = 0;
        row.forEach((vertex, i) => { if (i) at += distance(row[i - 1], vertex); y.set(vertex, at); });
        row.forEach(vertex => y.set(vertex, y.get(vertex) - at / 2));
    }
    for (let round = 0; round < 30; round++) {
        const sides = round < 20 ? [round % 2] : [0, 1];
        for (const row of round % 2 ? [...rows].reverse() : rows) {
            const pulls = row.map(vertex => sides.flatMap(side => near[side].get(vertex) || []));
            const weights = pulls.map(list => list.reduce((sum, [, weight]) => sum + weight, 0) || 0.01);
            const wanted = row.map((vertex, i) => pulls[i].length ? pulls[i].reduce((sum, [other, weight]) => sum + weight * y.get(other), 0) / weights[i] : y.get(vertex));
            const places = spread(wanted, weights, row.slice(1).map((vertex, i) => distance(row[i], vertex)));
            row.forEach((vertex, i) => y.set(vertex, places[i]));
        }
    }
    return y;
}

// The order of a search in breadth along edges in either direction, from the first vertex.
function nearOrder(count, edges) {
    const near = Array.from({ length: count }, () => []), order = [], seen = new Set();
    for (const { from, to } of edges) { near[from].push(to); near[to].push(from); }
    for (let start = 0; start < count; start++) {
        const queue = seen.has(start) ? [] : [start];
        for (const vertex of queue) {
            if (seen.has(vertex)) continue;
            seen.add(vertex);
            order.push(vertex);
            queue.push(...near[vertex]);
        }
    }
    return order;
}

// The layers that an order of the vertices gives: which vertices are in each, in which order, with a vertex of its own for
// each layer that an edge passes.
function inLayers(nodes, edges, order) {
    const rank = Array(nodes.length);
    order.forEach((vertex, at) => { rank[vertex] = at; });
    const arcs = edges.map(({ from, to }) => rank[from] <= rank[to] ? { tail: from, head: to } : { tail: to, head: from });
    const layer = layersOf(order, arcs), count = 1 + Math.max(0, ...layer);
    const vertices = nodes.map((node, at) => ({ ...node, layer: layer[at] })), rows = Array.from({ length: count }, () => []);
    for (const vertex of order) rows[layer[vertex]].push(vertex);
    const links = Array.from({ length: count }, () => []);
    const paths = arcs.map(({ tail, head }) => {
        const path = [tail];
        for (let at = layer[tail] + 1; at < layer[head]; at++) {
            vertices.push({ width: 0, height: 6, layer: at, passes: true });
            rows[at].push(vertices.length - 1);
            path.push(vertices.length - 1);
        }
        path.push(head);
        path.slice(1).forEach((vertex, i) => links[layer[tail] + i].push([path[i], vertex]));
        return path;
    });
    const ordered = orderRows(rows, links);
    const backward = edges.filter((edge, at) => !edge.both && arcs[at].tail !== edge.from).length;
    // What a reader sees first: lines that cross, lines that pass others, and arrows against the direction of reading.
    const cost = 3 * crossings(ordered, links) + (vertices.length - nodes.length) + 2 * backward;
    return { vertices, rows: ordered, links, paths: paths.map((path, at) => arcs[at].tail === edges[at].from ? path : path.reverse()), cost };
}

// Lays out nodes of given width and height from left to right. An edge that goes both ways may point either way. Gives the
// centre of each node, the points that each edge passes from its one end to the other, and the size of the whole.
export function layered(nodes, edges, { gap = 16, between = 52 } = {}) {
    const ring = ringOrder(nodes.length, edges);
    const orders = ring ? [ring] : [forwardOrder(nodes.length, edges), nearOrder(nodes.length, edges), [...nodes.keys()]];
    const { vertices, rows, links, paths } = orders.map(order => inLayers(nodes, edges, order)).reduce((best, one) => one.cost < best.cost ? one : best);
    const y = placeRows(rows, links, vertices, gap);

    const widths = rows.map(row => Math.max(0, ...row.map(vertex => vertices[vertex].width))), x = [];
    widths.reduce((left, width, at) => { x[at] = left + width / 2; return left + width + between; }, 0);
    const top = Math.min(...vertices.map((vertex, at) => y.get(at) - vertex.height / 2));
    const point = at => ({ x: x[vertices[at].layer], y: y.get(at) - top, half: widths[vertices[at].layer] / 2 });
    return {
        places: nodes.map((_, at) => point(at)),
        paths: paths.map(path => path.map(point)),
        width: widths.reduce((sum, width) => sum + width, 0) + between * (rows.length - 1),
        height: Math.max(...vertices.map((vertex, at) => y.get(at) + vertex.height / 2)) - top,
    };
}

// The same from top to bottom.
export function layeredDown(nodes, edges, spaces) {
    const turned = ({ x, y, ...rest }) => ({ x: y, y: x, ...rest });
    const { places, paths, width, height } = layered(nodes.map(node => ({ ...node, width: node.height, height: node.width })), edges, spaces);
    return { places: places.map(turned), paths: paths.map(path => path.map(turned)), width: height, height: width, down: true };
}
