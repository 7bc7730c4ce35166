'use strict';
// Where the eye is. It looks at a centre from a distance; with a lens of 30 it stands so far off that what it sees is
// nearly a parallel projection, as plans and elevations are.
const BIRD = {turn: .55, tilt: .5, lens: 1};
const FAR_LENS = 30;
const view = {...BIRD, far: 10, centre: [0, 0, 0], walks: false};
const dot = (a, b) => a[0] * b[0] + a[1] * b[1] + a[2] * b[2];
const minus = (a, b) => [a[0] - b[0], a[1] - b[1], a[2] - b[2]];
const along = (a, far, b) => [a[0] + far * b[0], a[1] + far * b[1], a[2] + far * b[2]];
const unit = (a, otherwise = a) => { const far = Math.hypot(...a); return far > 1e-9 ? a.map(part => part / far) : otherwise; };
const cross = (a, b) => [a[1] * b[2] - a[2] * b[1], a[2] * b[0] - a[0] * b[2], a[0] * b[1] - a[1] * b[0]];

function axes() {
  const s = Math.sin(view.turn), c = Math.cos(view.turn), S = Math.sin(view.tilt), C = Math.cos(view.tilt);
  const near = [s * C, S, c * C], far = view.far * view.lens;
  const wide = 3 * view.lens * Math.min(1, innerHeight / innerWidth), high = wide * innerWidth / innerHeight;
  return {right: [c, 0, -s], up: [-s * S, C, -c * S], near, far, eye: along(view.centre, far, near), wide, high};
}

function corners_of({low, high}) {
  return [0, 1, 2, 3, 4, 5, 6, 7].map(k => [0, 1, 2].map(axis => (k >> axis & 1 ? high : low)[axis]));
}

// Moves the eye so that the whole box is seen, whatever its form: as near as its corners let it.
function look_at(box) {
  view.walks = false;
  view.centre = box.low.map((at, k) => (at + box.high[k]) / 2);
  for (let round = 0; round < 4; round++) {
    const {right, up, near, wide, high} = axes(), seen = corners_of(box).map(corner => minus(corner, view.centre));
    const needs = seen.map(at => Math.max(Math.abs(dot(at, right)) * wide, Math.abs(dot(at, up)) * high) / .92 + dot(at, near));
    view.far = Math.max(1e-6, ...needs) / view.lens;
    const far = view.far * view.lens, middle = axis => {
      const places = seen.map(at => dot(at, axis) / (far - dot(at, near)));
      return (Math.min(...places) + Math.max(...places)) / 2 * far;
    };
    view.centre = along(along(view.centre, middle(right), right), middle(up), up);
  }
}

// The nearest and the farthest distance that is drawn: of the town, and of the ground at the window's corners. What is much
// nearer than the centre is cut away, so that far things keep their order.
function reach(box, eye, near, far) {
  const places = corners_of(box).map(corner => dot(minus(eye, corner), near)), size = size_of(box);
  const nearest = Math.min(Math.min(...places) - .05 * size, .95 * ground_before(box));
  return [Math.max(nearest, far / view.lens / 40), Math.max(...places) + 7 * size];
}

// How far before the eye the ground begins that the window's corners see.
function ground_before(box) {
  const ways = [[0, 0], [innerWidth, 0], [0, innerHeight], [innerWidth, innerHeight]].map(([x, y]) => ray(x, y));
  return Math.min(...ways.map(({eye, way}) => (box.low[1] - eye[1]) / way[1]).filter(far => far > 0));
}

const size_of = box => Math.max(Math.hypot(...box.low.map((at, k) => box.high[k] - at)) / 2, 1e-6);

// The matrix of a view, moved by a part of the window.
function matrix(box, [dx, dy] = [0, 0]) {
  const {right, up, near, eye, far, wide, high} = axes(), [first, last] = reach(box, eye, near, far);
  const a = (last + first) / (first - last), b = 2 * last * first / (first - last);
  const rows = [0, 1, 2].flatMap(k => [wide * right[k] - dx * near[k], high * up[k] - dy * near[k], a * near[k], -near[k]]);
  const ahead = dot(near, eye);
  rows.push(-wide * dot(right, eye) + dx * ahead, -high * dot(up, eye) + dy * ahead, -a * ahead + b, ahead);
  return {view: new Float32Array(rows), base: 1 - a, range: -b, wide, high};
}

// The way from the eye through a place of the window.
function ray(x, y) {
  const {right, up, near, eye, wide, high} = axes(), h = (2 * x / innerWidth - 1) / wide, v = (1 - 2 * y / innerHeight) / high;
  return {eye, way: near.map((p, k) => h * right[k] + v * up[k] - p)};
}

function move(dx, dy) {
  const {right, up, wide} = axes(), step = 2 * view.far * view.lens / (wide * innerWidth);
  view.centre = along(along(view.centre, -step * dx, right), step * dy, up);
}

// Brings the eye nearer to a point or away from it; where that point is seen stays.
function zoom(by, point) {
  const far = Math.max(size_of(town) / 500, Math.min(12 * size_of(town), view.far * by));
  view.centre = along(point, far / view.far, minus(view.centre, point));
  view.far = far;
}
