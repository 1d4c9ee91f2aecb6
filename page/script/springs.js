// Lays a graph out so that distances on paper are as the distances along edges: stress majorisation (Gansner, Koren and
// North 2004). The same graph always gets the same picture.

// The distance of each two vertices along edges.
function distancesOf(count, neighbours) {
    return Array.from({ length: count }, (_, start) => {
        const far = Array(count).fill(Infinity), queue = [start];
        far[start] = 0;
        for (const vertex of queue) {
            for (const next of neighbours[vertex]) {
                if (far[next] === Infinity) { far[next] = far[vertex] + 1; queue.push(next); }
            }
        }
        return far;
    });
}

// Moves each point to where the others want it, by the square of how near they are.
function relax(points, far, length) {
    points.forEach((point, i) => {
        let weight = 0, x = 0, y = 0;
        points.forEach((other, j) => {
            if (i === j) return;
            const wanted = far[i][j] * length, w = 1 / (wanted * wanted);
            const dx = point.x - other.x, dy = point.y - other.y, distance = Math.hypot(dx, dy) || 0.01;
            weight += w;
            x += w * (other.x + wanted * dx / distance);
            y += w * (other.y + wanted * dy / distance);
        });
        if (weight) { point.x = x / weight; point.y = y / weight; }
    });
}

// Pushes apart boxes that overlap, along the shorter way.
function separate(points, nodes, gap) {
    for (let round = 0, moved = true; moved && round < 200; round++) {
        moved = false;
        for (let i = 0; i < points.length; i++) {
            for (let j = i + 1; j < points.length; j++) {
                const [a, b] = [points[i], points[j]];
                const dx = (nodes[i].width + nodes[j].width) / 2 + gap - Math.abs(a.x - b.x);
                const dy = (nodes[i].height + nodes[j].height) / 2 + gap - Math.abs(a.y - b.y);
                if (dx <= 0.01 || dy <= 0.01) continue;
                moved = true;
                const axis = dx < dy ? 'x' : 'y', push = (Math.min(dx, dy) + 0.1) / 2, sign = a[axis] <= b[axis] ? 1 : -1;
                a[axis] -= sign * push;
                b[axis] += sign * push;
            }
        }
    }
}

// Pushes boxes away from lines that pass them on their way between two others.
function clear(points, nodes, edges, gap) {
    for (let round = 0, moved = true; moved && round < 60; round++) {
        moved = false;
        for (const { from, to } of edges) {
            const [a, b] = [points[from], points[to]], length = Math.hypot(b.x - a.x, b.y - a.y) || 1;
            const along = { x: (b.x - a.x) / length, y: (b.y - a.y) / length }, across = { x: -along.y, y: along.x };
            points.forEach((point, at) => {
                if (at === from || at === to) return;
                const [dx, dy] = [point.x - a.x, point.y - a.y], t = dx * along.x + dy * along.y, off = dx * across.x + dy * across.y;
                const half = Math.abs(across.x) * nodes[at].width / 2 + Math.abs(across.y) * nodes[at].height / 2 + gap;
                if (t <= 0 || t >= length || Math.abs(off) >= half) return;
                moved = true;
                const push = (half - Math.abs(off) + 0.5) * (off < 0 ? -1 : 1);
                for (const [it, share] of [[point, 0.5], [a, -0.25], [b, -0.25]]) { it.x += share * push * across.x; it.y += share * push * across.y; }
            });
        }
        separate(points, nodes, gap);
    }
}

// Turns the points so that they are spread most from left to right.
function level(points) {
    const mean = axis => points.reduce((sum, point) => sum + point[axis], 0) / points.length, [x, y] = [mean('x'), mean('y')];
    let xx = 0, xy = 0, yy = 0;
    for (const point of points) { xx += (point.x - x) ** 2; xy += (point.x - x) * (point.y - y); yy += (point.y - y) ** 2; }
    const angle = Math.atan2(2 * xy, xx - yy) / 2, [c, s] = [Math.cos(angle), Math.sin(angle)];
    for (const point of points) [point.x, point.y] = [c * point.x + s * point.y, c * point.y - s * point.x];
}

// Lays out a connected graph. Gives the centre of each node and the size of the whole.
export function springs(nodes, edges, { length = 76, gap = 10 } = {}) {
    const neighbours = nodes.map(() => []);
    for (const { from, to } of edges) { neighbours[from].push(to); neighbours[to].push(from); }
    const far = distancesOf(nodes.length, neighbours);
    const points = nodes.map((_, at) => {
        const angle = 2 * Math.PI * at / nodes.length, radius = length * Math.sqrt(nodes.length) * (1 + 0.05 * (at % 3));
        return { x: radius * Math.cos(angle), y: 0.7 * radius * Math.sin(angle) };
    });
    for (let round = 0; round < 150; round++) relax(points, far, length);
    level(points);
    separate(points, nodes, gap);
    clear(points, nodes, edges, gap / 2);
    const left = Math.min(...points.map((p, at) => p.x - nodes[at].width / 2)), top = Math.min(...points.map((p, at) => p.y - nodes[at].height / 2));
    const places = points.map(p => ({ x: p.x - left, y: p.y - top }));
    return {
        places,
        width: Math.max(...places.map((p, at) => p.x + nodes[at].width / 2)),
        height: Math.max(...places.map((p, at) => p.y + nodes[at].height / 2)),
    };
}
