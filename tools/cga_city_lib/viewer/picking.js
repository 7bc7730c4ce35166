'use strict';
// What stands under the pointer.

// How far on its way a ray meets a box, or Infinity.
function met_box(eye, way, low, high) {
  let first = 0, last = Infinity;
  for (let k = 0; k < 3; k++) {
    const a = (low[k] - eye[k]) / way[k], b = (high[k] - eye[k]) / way[k];
    if (way[k] === 0 ? eye[k] < low[k] || eye[k] > high[k] : false) return Infinity;
    if (way[k] !== 0) [first, last] = [Math.max(first, Math.min(a, b)), Math.min(last, Math.max(a, b))];
  }
  return first <= last ? first : Infinity;
}

function met_triangle(eye, way, [a, b, c]) {
  const ab = minus(b, a), ac = minus(c, a), p = cross(way, ac), det = dot(ab, p), from = minus(eye, a), q = cross(from, ab);
  const u = dot(from, p) / det, w = dot(way, q) / det, far = dot(ac, q) / det;
  return u >= 0 && w >= 0 && u + w <= 1 && far > 0 ? far : Infinity;
}

function met_solid(eye, way, {mesh, data}, slot) {
  const corners = mesh.corners.map(corner => spot(corner, data, slot * FLOATS)), found = [];
  const triangles = triangles_of(mesh.faces);
  for (let k = 0; k < triangles.length; k += 3) found.push(met_triangle(eye, way, triangles.slice(k, k + 3).map(at => corners[at])));
  return Math.min(...found);
}

// The instances whose boxes are met, the nearest box first.
function candidates(eye, way) {
  const found = [], low = [0, 0, 0], high = [0, 0, 0], is_hidden = town.symbols.map(symbol => hidden.has(symbol));
  for (const batch of town.batches.values()) {
    for (let slot = 0; slot < batch.total; slot++) {
      const at = slot * FLOATS;
      if (batch.is_free(slot) || is_hidden[batch.data[at + SYMBOL]]) continue;
      low.fill(Infinity);
      high.fill(-Infinity);
      widen(batch.data, at, low, high);
      const far = met_box(eye, way, low, high);
      if (far < Infinity) found.push({batch, slot, far});
    }
  }
  return found.sort((a, b) => a.far - b.far);
}

// Solids in one plane are met in the order in which they are drawn: flat ones first, then by symbol.
function order_of({data}, slot) {
  const at = slot * FLOATS, is_flat = [0, 1, 2].some(axis => data[at + SIZES + axis] === 0);
  return (data[at + SYMBOL] & 3) + (is_flat ? 4 : 0);
}

// The nearest instance on the way through a place of the window, and the point at which it is met.
function met(x, y) {
  const {eye, way} = ray(x, y);
  if (tiles) return tiles.met(eye, way);
  let best = Infinity, found = null;
  for (const {batch, slot, far} of candidates(eye, way)) {
    if (far > best * (1 + 1e-5)) break;
    const real = met_solid(eye, way, batch, slot) * (1 - 1e-6 * order_of(batch, slot));
    if (real < best) [best, found] = [real, {batch, slot}];
  }
  return found && {...found, point: along(eye, best, way)};
}

// Where a place of the window is: on a solid, or on the ground, or as far as the centre.
function point_at(x, y) {
  const hit = met(x, y), {eye, way} = ray(x, y);
  if (hit) return hit.point;
  const down = (town.low[1] - eye[1]) / way[1];
  return along(eye, down > 0 && down < 3 * view.far * view.lens ? down : view.far * view.lens, way);
}

const neat = value => String(+value.toFixed(3));

// What the picked solid is, in words.
function told_of({batch: {data}, slot}, rules) {
  const at = slot * FLOATS, symbol = town.symbols[data[at + SYMBOL]], lot = town.lots[data[at + LOT]];
  const ends = columns(data, at).filter((_, k) => k % 3 === 1), from = data[at + 1] + town.offset[1];
  const [low, high] = [from + Math.min(0, ...ends), from + Math.max(0, ...ends)].map(neat);
  const by = (rules[symbol] || []).map(([id, place]) => `${id} (line ${place})`).join(', ');
  return [decodeURIComponent(symbol), `lot ${decodeURIComponent(lot)}`, `size ${[0, 1, 2].map(k => neat(data[at + SIZES + k])).join(' \u00d7 ')}`,
    low === high ? `height ${low}` : `height ${low} to ${high}`, by && `rule ${by}`].filter(Boolean);
}
