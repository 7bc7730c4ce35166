'use strict';
// Views by name: bird, corner, eye, plan, the four sides, and cameras that a script keeps by `# camera NAME X Y Z TURN TILT FIELD`.
// X Y Z is where the eye is; TURN is where it looks, in degrees from north over east; TILT how far up; FIELD how many degrees the
// shorter side of the window takes in.
const HEIGHT = 1.6; // of an eye above the ground, in the town's unit
const EYE_FIELD = 55, STEPS = 96, ASIDE = 9; // cells of the longer side of the town; cells from a way to its houses
const lens_of = field => 1 / (3 * Math.tan(field * DEGREE / 2));
const field_of = lens => 2 * Math.atan(1 / (3 * lens)) / DEGREE;

// The view of an eye at a place.
function look_from([x, y, z], turn, tilt, field, far = 20) {
  Object.assign(view, {turn: -turn * DEGREE, tilt: -tilt * DEGREE, lens: lens_of(field)});
  view.far = far / view.lens;
  view.centre = along([x, y, z], -far, axes().near);
  view.walks = true;
}

// Keeps the eye where it is while the view is turned.
function about_eye(change) {
  const {eye} = axes();
  change();
  const {near, far} = axes();
  view.centre = along(eye, -far, near);
}

// Goes on along the ground, so many units.
function walk(far) {
  const {near} = axes(), flat = unit([near[0], 0, near[2]]);
  view.centre = along(view.centre, -far, flat);
}

// The words of a camera: where the eye is beside the origin of the script.
function camera_words() {
  const {eye} = axes(), place = town.offset.map((from, k) => neat(from + eye[k]));
  const turn = ((-view.turn / DEGREE) % 360 + 360) % 360;
  return [...place, +turn.toFixed(1), +(-view.tilt / DEGREE).toFixed(1), +field_of(view.lens).toFixed(1)].join(' ');
}

function look_by(words) {
  const [x, y, z, turn, tilt, field] = words.split(' ').map(Number);
  look_from(minus([x, y, z], town.offset), turn, tilt, field, Math.max(10, view.far * view.lens));
}

const VIEWS = {
  bird: () => { Object.assign(view, BIRD); look_at(town); },
  corner: () => { Object.assign(view, {turn: .72, tilt: .16, lens: .8}); look_at(town); },
  eye: () => look_along_a_way(),
  plan: () => { Object.assign(view, {turn: 0, tilt: Math.PI / 2, lens: FAR_LENS}); look_at(town); },
  ...Object.fromEntries(['front', 'right', 'back', 'left'].map((name, k) => [name, () => {
    Object.assign(view, {turn: k === 3 ? -Math.PI / 2 : k * Math.PI / 2, tilt: 0, lens: FAR_LENS});
    look_at(town);
  }])),
};

// ---- the eye-level view: from the end of the longest way that has houses beside it

// Which cells of the ground something stands on that an eye can't see over.
function grid_of(box) {
  const low = box.low.map(at => at - 12), wide = box.high[0] - low[0] + 12, deep = box.high[2] - low[2] + 12, cell = Math.max(wide, deep) / STEPS;
  const columns_ = Math.ceil(wide / cell), rows = Math.ceil(deep / cell), taken = new Uint8Array(columns_ * rows);
  const least = [0, 0, 0], most = [0, 0, 0];
  for (const batch of town.batches.values()) for (let slot = 0; slot < batch.total; slot++) {
    if (batch.is_free(slot)) continue;
    least.fill(Infinity);
    most.fill(-Infinity);
    widen(batch.data, slot * FLOATS, least, most);
    if (most[1] < box.low[1] + 1 || least[1] > box.low[1] + 3) continue;
    for (let j = Math.floor((least[2] - low[2]) / cell); j <= (most[2] - low[2]) / cell; j++) {
      for (let i = Math.floor((least[0] - low[0]) / cell); i <= (most[0] - low[0]) / cell; i++) taken[j * columns_ + i] = 1;
    }
  }
  return {low, cell, sides: [columns_, rows], is_taken: (i, j) => i >= 0 && j >= 0 && i < columns_ && j < rows && taken[j * columns_ + i] === 1};
}

// The longest run of free cells along an axis with the most taken cells near it on both sides.
function best_way(grid, axis) {
  const cell = (along_, across) => axis === 0 ? grid.is_taken(along_, across) : grid.is_taken(across, along_);
  const beside = (at, across, step) => { for (let k = 1; k <= ASIDE; k++) if (cell(at, across + k * step)) return k; return 0; };
  let best = {score: 0};
  for (let across = 1; across < grid.sides[1 - axis] - 1; across++) {
    let from = 0, score = 0, sides = [0, 0], first = -1, last = 0;
    for (let at = 0; at <= grid.sides[axis]; at++) {
      const is_free = at < grid.sides[axis] && ![-1, 0, 1].some(step => cell(at, across + step));
      if (is_free) {
        const near = [-1, 1].map(step => beside(at, across, step)), even = near[0] && near[1] ? 1 - Math.abs(near[0] - near[1]) / 12 : 0;
        near.forEach((found, k) => { sides[k] += +(found > 0); });
        score += near.filter(Boolean).length + even;
        if (near.some(Boolean)) { first = first < 0 ? at : first; last = at; }
      } else {
        if (sides[0] + sides[1] > 0) score *= 1 - .3 * Math.sign(sides[1] - sides[0]) * Math.sign(sky.way[axis === 0 ? 2 : 0]) * (Math.min(...sides) < .4 * Math.max(...sides));
        if (score > best.score) best = {score, axis, across, from: first, to: last, sides};
        [from, score, sides, first, last] = [at + 1, 0, [0, 0], -1, 0];
      }
    }
  }
  return best;
}

function look_along_a_way() {
  const grid = grid_of(town), {axis, across, from, to, sides} = [0, 1].map(one => best_way(grid, one)).reduce((a, b) => b.score > a.score ? b : a);
  if (axis === undefined) return VIEWS.corner();
  const start = from - Math.min(3, 4 / grid.cell), both = Math.min(...sides) > .4 * Math.max(...sides), side = sides[1] > sides[0] ? 1 : -1;
  const away = both ? 0 : -side * Math.max(0, Math.min(8, .25 * (to - from) * grid.cell)) / grid.cell;
  const [i, j] = axis === 0 ? [start, across + .5 + away] : [across + .5 + away, start];
  const ahead = axis === 0 ? 90 : 180, turn = both ? 4 : 24;
  const place = [grid.low[0] + i * grid.cell, town.low[1] + HEIGHT, grid.low[2] + j * grid.cell];
  look_from(place, ahead + (axis === 0 ? side : -side) * turn, 5, EYE_FIELD);
}
