"""What the planner's page works out by itself: rings, and what doubtful links make weak. Functions of the links alone,
held to the proved program's answers by tools/test_page.py."""

RINGS = """
// ways with no unit in common, one from each start, each to another end: a flow through units that each take one
function ways(units, links, avoided, starts, ends) {
  const from = 2 * units, to = from + 1;
  const room = Array.from({length: to + 1}, () => new Map());
  const arc = (x, y) => { room[x].set(y, 1); if (!room[y].has(x)) room[y].set(x, 0); };
  for (let v = 0; v < units; v++) arc(2 * v, 2 * v + 1);
  links.forEach(([a, b], k) => {
    if (avoided.has(k)) return;
    arc(2 * a + 1, 2 * b);
    arc(2 * b + 1, 2 * a);
  });
  for (const v of starts) arc(from, 2 * v);
  for (const v of ends) arc(2 * v + 1, to);
  for (const _ of starts) {
    const before = new Map([[from, null]]), ahead = [from];
    for (const x of ahead)
      for (const [y, more] of room[x]) if (more && !before.has(y)) { before.set(y, x); ahead.push(y); }
    if (!before.has(to)) return null;
    for (let y = to; before.get(y) !== null; y = before.get(y)) {
      const x = before.get(y);
      room[x].set(y, room[x].get(y) - 1);
      room[y].set(x, room[y].get(x) + 1);
    }
  }
  return starts.map((start) => {
    const way = [start];
    for (;;) {
      const out = 2 * way[way.length - 1] + 1;
      if (room[out].get(to) === 0) return way;
      for (const [y] of room[out])
        if (y < from && y % 2 === 0 && y + 1 !== out && room[y].get(out)) { way.push(y / 2); break; }
    }
  });
}

// the units of a ring that holds both links, the ends of the first in front; none where there is no ring
function ringOf(units, links, i, j, gone) {
  const avoided = new Set([...(gone || []), i, j]);
  const [a, b] = links[i];
  if (i === j) {
    const found = ways(units, links, avoided, [b], [a]);
    return found ? [a, ...found[0].slice(0, -1)] : [];
  }
  const found = ways(units, links, avoided, [a, b], links[j]);
  return found ? [a, ...found[1], ...found[0].slice(1).reverse()] : [];
}

// whether a ring holds both links in each setting of the doubtful ones, in some, or in none
function verdictOf(units, links, i, j, marks) {
  if (!ringOf(units, links, i, j).length) return "never";
  if (marks.has(i) || marks.has(j)) return "perhaps";
  return ringOf(units, links, i, j, marks).length ? "always" : "perhaps";
}

// for each unit the number of its part, where some links and a unit are gone
function partsOf(units, links, gone, lost) {
  const near = Array.from({length: units}, () => []);
  links.forEach(([a, b], k) => { if (!gone.has(k)) { near[a].push(b); near[b].push(a); } });
  const part = Array(units).fill(-1);
  for (let start = 0, count = 0; start < units; start++) {
    if (start === lost || part[start] >= 0) continue;
    const ahead = [start];
    part[start] = count;
    for (const v of ahead)
      for (const w of near[v]) if (w !== lost && part[w] < 0) { part[w] = count; ahead.push(w); }
    count++;
  }
  return part;
}

// what is weak in each setting of the doubtful links (always), or in some (perhaps)
function doubtsOf(units, links, marks) {
  const none = new Set(), weak = {always: {units: [], links: []}, perhaps: {units: [], links: []}};
  const ends = Array.from({length: units}, () => []);
  links.forEach(([a, b], k) => { ends[a].push([b, k]); ends[b].push([a, k]); });
  for (let v = 0; v < units; v++) {
    const whole = partsOf(units, links, none, v), sure = partsOf(units, links, marks, v);
    const most = new Set(ends[v].filter(([, k]) => !marks.has(k)).map(([w]) => whole[w]));
    const fewest = new Set(ends[v].map(([w]) => sure[w]));
    if (most.size > 1) weak.always.units.push(v);
    else if (fewest.size > 1) weak.perhaps.units.push(v);
  }
  links.forEach(([a, b], k) => {
    const parted = (gone) => {
      const part = partsOf(units, links, new Set([...gone, k]), -1);
      return part[a] !== part[b];
    };
    if (parted(none)) weak.always.links.push(k);
    else if (parted(marks)) weak.perhaps.links.push(k);
  });
  return weak;
}
"""
