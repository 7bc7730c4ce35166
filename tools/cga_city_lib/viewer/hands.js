'use strict';
// The mouse, fingers and keys.
const fingers = new Map();
const VIEW_KEYS = {1: 'front', 2: 'right', 3: 'back', 4: 'left', 5: 'plan', 6: 'corner', 7: 'eye', 0: 'bird'};
const STEP = 40; // pixels by which an arrow key drags
let moved = 0, is_touched = false;

canvas.onpointerdown = event => {
  moved = 0;
  canvas.setPointerCapture(event.pointerId);
  fingers.set(event.pointerId, event);
};
canvas.onpointerup = canvas.onpointercancel = event => fingers.delete(event.pointerId);
canvas.oncontextmenu = event => event.preventDefault();
canvas.onclick = event => { if (moved <= 4) pick(event.clientX, event.clientY); };
canvas.ondblclick = () => see(() => look_at(town));
onresize = () => ask_draw();

// Does something with the view, and draws it.
function see(change) {
  if (!town.low) return;
  is_touched = true;
  change();
  sums();
  ask_draw();
}

function pinch(event, was, other) {
  const span = at => Math.max(1, Math.hypot(at.clientX - other.clientX, at.clientY - other.clientY));
  zoom(span(was) / span(event), view.centre);
  move((event.clientX - was.clientX) / 2, (event.clientY - was.clientY) / 2);
}

function turn_by(dx, dy) {
  if (view.walks) return about_eye(() => turned(dx / 2, dy / 2, -1.2));
  if (is_parallel()) Object.assign(view, {lens: 1});
  turned(dx, dy, -.3);
}

function turned(dx, dy, least) {
  view.turn -= dx / 200;
  view.tilt = Math.max(least, Math.min(Math.PI / 2, view.tilt + dy / 200));
}

// Nearer, by a factor below 1, or farther.
function nearer(by, point = view.centre) {
  view.walks ? walk(-20 * Math.log(by)) : zoom(by, point);
}

canvas.onpointermove = event => {
  const was = fingers.get(event.pointerId);
  if (!was) return;
  const dx = event.clientX - was.clientX, dy = event.clientY - was.clientY;
  moved += Math.abs(dx) + Math.abs(dy);
  fingers.set(event.pointerId, event);
  const other = [...fingers.values()].find(finger => finger.pointerId !== event.pointerId);
  if (moved > 4) see(() => other ? pinch(event, was, other) : event.shiftKey || event.buttons > 1 ? move(dx, dy) : turn_by(dx, dy));
};

// The point under the pointer stays there, so that it is looked for once in a turn of the wheel.
let wheel = {x: -1, y: -1, until: 0, point: null};
canvas.addEventListener('wheel', event => {
  event.preventDefault();
  if (!town.low) return;
  const {clientX: x, clientY: y} = event, is_same = x === wheel.x && y === wheel.y && moment() < wheel.until;
  wheel = {x, y, until: moment() + .5, point: is_same ? wheel.point : point_at(x, y)};
  see(() => nearer(Math.exp(event.deltaY / 800), wheel.point));
}, {passive: false});

function save_picture() {
  draw_fine(is_slow ? 4 : FINE);
  canvas.toBlob(blob => {
    const link = document.createElement('a');
    link.href = URL.createObjectURL(blob);
    link.download = (document.title.split('/').pop() || 'town') + '.png';
    link.click();
    URL.revokeObjectURL(link.href);
  });
}

const ARROWS = {ArrowLeft: [1, 0], ArrowRight: [-1, 0], ArrowUp: [0, 1], ArrowDown: [0, -1]};
function arrow([x, y], moves) {
  if (moves) return move(STEP * x, STEP * y);
  if (view.walks && y) return walk(1.5 * y);
  turn_by(STEP * x * (view.walks ? -1 : 1), STEP * y);
}

const KEYS = {
  'f': () => look_at(town), '+': () => nearer(.8), '=': () => nearer(.8), '-': () => nearer(1.25),
  'e': () => { shows.edges = !shows.edges; }, 'g': () => { shows.ground = !shows.ground; },
  'h': () => later(.5), 'H': () => later(-.5), 'c': () => next_camera(), 'k': () => keep_camera(), 'i': () => pick(innerWidth / 2, innerHeight / 2),
};

onkeydown = event => {
  if (event.ctrlKey || event.metaKey || event.altKey || ['INPUT', 'SELECT'].includes(event.target.tagName)) return;
  const {key} = event;
  if (ARROWS[key]) see(() => arrow(ARROWS[key], event.shiftKey));
  else if (VIEW_KEYS[key]) see(VIEWS[VIEW_KEYS[key]]);
  else if (key === 's' && town.low) save_picture();
  else if (KEYS[key]) see(KEYS[key]);
  else return;
  event.preventDefault();
};
