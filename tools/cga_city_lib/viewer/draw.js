'use strict';
// One picture: the sun's map of shadows where the town has changed, the solids, the ground, the outline of what is
// picked, and at the end sky, edges and air over all. Where the processor alone draws, a picture of a view that is turned is
// plain, and a fine one follows when it stands still.
const PLAIN = '#define PLAIN\n';
const drawing = kind => ({solids: lazy(SOLID_AT, kind + SOLID), ground: lazy(GROUND_AT, kind + GROUND), picture: lazy(PICTURE_AT, kind + PICTURE_EDGED)});
const programs = {shadow: lazy(SHADOW_AT, SHADOW), lines: lazy(LINE_AT, LINE), mean: lazy(PICTURE_AT, MEAN), plain: drawing(PLAIN), fine: drawing('')};

// A program that is made when it is used first, since that takes long.
function lazy(vertex, fragment) {
  let made = null;
  const use = values => use.ready()(values);
  use.ready = () => made = made || program(vertex, fragment);
  return use;
}
const SIDE = gl && Math.min(is_slow ? 2048 : 4096, gl.getParameter(gl.MAX_TEXTURE_SIZE));
const SAMPLES = gl && (is_slow ? 0 : Math.min(4, gl.getParameter(gl.MAX_SAMPLES)));
const NUDGE = 1e-6; // about sixteen steps of the depth
const GLOW = 1; // seconds for which what came lights up
const GROUND_SHADE = [.255, .26, .22]; // of light that comes back
const PAPER = [.955, .96, .965]; // behind a plan
const SOFT = .018; // how far the sun's edge is from its middle, as a part of the way to it
const town = new Town(), hidden = new Set();
const shows = {edges: true, ground: true};
const is_still_wanted = matchMedia('(prefers-reduced-motion: reduce)');
let sun = null, is_shadow_old = true, marked = 0, drawn_last = 0;

function plane(corners) {
  const made = gl.createVertexArray();
  gl.bindVertexArray(made);
  attributes(new Float32Array(corners.flat()), 0, [corners[0].length], 0);
  return made;
}
const floor = gl && plane([[-1, 0, -1], [-1, 0, 1], [1, 0, -1], [1, 0, 1]]);
const screen_ = gl && plane([[-1, -1], [1, -1], [-1, 1], [1, 1]]);
const outline = gl && gl.createVertexArray();

// Sends the colours and materials of symbols, where they aren't those that were sent last.
let painted = '';
function paint(colours) {
  const high = Math.max(1, Math.ceil(town.symbols.length / 256)), texels = new Uint8Array(4 * 256 * high);
  town.symbols.forEach((symbol, k) => {
    const [red, green, blue, material = 0] = colours[symbol] || [200, 200, 200];
    texels.set([red, green, blue, hidden.has(symbol) ? 0 : 1 + material], 4 * k);
  });
  if (texels.join() === painted) return;
  painted = texels.join();
  gl.activeTexture(gl.TEXTURE0 + COLOURS);
  gl.texImage2D(gl.TEXTURE_2D, 0, gl.RGBA, 256, high, 0, gl.RGBA, gl.UNSIGNED_BYTE, texels);
}

// ---- shadows

const shadow_map = gl && texture(SHADOWS, gl.LINEAR, [[gl.TEXTURE_COMPARE_MODE, gl.COMPARE_REF_TO_TEXTURE]]);
if (gl) gl.texImage2D(gl.TEXTURE_2D, 0, gl.DEPTH_COMPONENT24, SIDE, SIDE, 0, gl.DEPTH_COMPONENT, gl.UNSIGNED_INT, null);
const shadow_frame = gl && framebuffer([[gl.DEPTH_ATTACHMENT, shadow_map]]);
const colour_map = gl && texture(COLOURS, gl.NEAREST);

// The box that the sun's map covers.
const lit = () => tiles && tiles.lit || town;

function sun_matrix(way) {
  const right = unit(cross([0, 1, 0], way), [1, 0, 0]), up = cross(way, right), box = lit(), size = 1.02 * size_of(box);
  const middle = box.low.map((at, k) => (at + box.high[k]) / 2), deep = 1.5 * size;
  const rows = [0, 1, 2].flatMap(k => [right[k] / size, up[k] / size, -way[k] / deep, 0]);
  return new Float32Array([...rows, -dot(right, middle) / size, -dot(up, middle) / size, dot(way, middle) / deep, 1]);
}

// The sun's map of shadows, by the light of a place of its disc.
function shine(dx = 0, dy = 0) {
  const way = light_of(sky.way).sun_way, right = unit(cross([0, 1, 0], way), [1, 0, 0]);
  sun = sun_matrix(unit(along(along(way, SOFT * dx, right), SOFT * dy, cross(way, right)), way));
  gl.bindFramebuffer(gl.FRAMEBUFFER, shadow_frame);
  gl.viewport(0, 0, SIDE, SIDE);
  gl.clear(gl.DEPTH_BUFFER_BIT);
  gl.enable(gl.POLYGON_OFFSET_FILL);
  gl.polygonOffset(1.5, 4);
  programs.shadow({sun, colours: COLOURS, growth: [0, 0, 0, 0]});
  draw_solids(programs.shadow);
  gl.disable(gl.POLYGON_OFFSET_FILL);
  is_shadow_old = dx !== 0 || dy !== 0;
}

// ---- the picture

const parts = gl && {picture: texture(PICTURE, gl.NEAREST), depths: texture(DEPTHS, gl.NEAREST), width: 0, height: 0};

function fit_parts(width, height) {
  if (parts.width === width && parts.height === height) return;
  Object.assign(parts, {width, height});
  gl.activeTexture(gl.TEXTURE0 + PICTURE);
  gl.texImage2D(gl.TEXTURE_2D, 0, gl.RGBA8, width, height, 0, gl.RGBA, gl.UNSIGNED_BYTE, null);
  gl.activeTexture(gl.TEXTURE0 + DEPTHS);
  gl.texImage2D(gl.TEXTURE_2D, 0, gl.DEPTH_COMPONENT24, width, height, 0, gl.DEPTH_COMPONENT, gl.UNSIGNED_INT, null);
  parts.resolved = framebuffer([[gl.COLOR_ATTACHMENT0, parts.picture], [gl.DEPTH_ATTACHMENT, parts.depths]]);
  parts.drawn = SAMPLES ? framebuffer([[gl.COLOR_ATTACHMENT0, many(gl.RGBA8)], [gl.DEPTH_ATTACHMENT, many(gl.DEPTH_COMPONENT24)]]) : parts.resolved;
}

function many(format) {
  const made = gl.createRenderbuffer();
  gl.bindRenderbuffer(gl.RENDERBUFFER, made);
  gl.renderbufferStorageMultisample(gl.RENDERBUFFER, SAMPLES, format, parts.width, parts.height);
  return made;
}

// One, two or five times a power of ten, so that a cell of the grid is some forty pixels wide.
function cell_of() {
  const wanted = 2 * 40 * view.far / (axes().wide / view.lens * innerWidth), ten = 10 ** Math.floor(Math.log10(wanted));
  return ten * [1, 2, 5, 10].find(step => step * ten >= wanted);
}

function draw_ground(common, by) {
  const size = (is_parallel() ? 3 : 9) * size_of(town), [x, y, z] = town.low.map((at, k) => (at + town.high[k]) / 2);
  const offset = town.offset.map(at => at % (10 * common.cell));
  by.ground({...common, spread: [x, town.low[1], z, size], offset, shade: GROUND_SHADE, edge: is_parallel() ? .25 : .6});
  gl.enable(gl.BLEND);
  gl.blendFunc(gl.SRC_ALPHA, gl.ONE_MINUS_SRC_ALPHA);
  gl.depthMask(!is_parallel()); // so that a plan has no edge at the ground's own end
  gl.bindVertexArray(floor);
  gl.drawArrays(gl.TRIANGLE_STRIP, 0, 4);
  gl.depthMask(true);
  gl.disable(gl.BLEND);
}

const GROWN = .3; // pixels by which a solid grows

// Gives for a place (x, y, z, 1), multiplied by it, how wide the pixels of GROWN are there.
function growth_of({near, eye, wide}) {
  const pixel = GROWN * 2 / (wide * parts.width);
  return [...near.map(part => -part * pixel), dot(near, eye) * pixel];
}

const is_parallel = () => view.lens >= FAR_LENS;

// What all programs of a picture are told.
function common_of(seen, moment, is_fine) {
  return {...light_of(sky.way), view: seen.view, sun, shadows: SHADOWS, colours: COLOURS, fine: 1 / SIDE, is_soft: +is_fine,
    texel: 2 * size_of(lit()) / SIDE, growth: tiles ? [0, 0, 0, 0] : growth_of(axes()), nudge: NUDGE, now: moment, cell: cell_of(),
    fades: +!is_still_wanted.matches, foot: town.low[1], eye: axes().eye};
}

function draw_picture(common, by) {
  gl.bindFramebuffer(gl.FRAMEBUFFER, parts.drawn);
  gl.viewport(0, 0, parts.width, parts.height);
  gl.clearColor(...(is_parallel() ? PAPER : shown(common.horizon)), 1); // into which the ground fades
  gl.clear(gl.COLOR_BUFFER_BIT | gl.DEPTH_BUFFER_BIT);
  by.solids(common);
  draw_solids(by.solids);
  if (shows.ground && common.eye[1] > town.low[1]) draw_ground(common, by);
  if (marked) {
    programs.lines({...common, tint: [.95, .3, .05, 1]});
    gl.bindVertexArray(outline);
    gl.drawArrays(gl.LINES, 0, marked);
  }
}

// The last pass, onto the window or into another picture.
function finish({base, high, wide, range}, common, by, target, turns = 0) {
  if (SAMPLES) {
    gl.bindFramebuffer(gl.READ_FRAMEBUFFER, parts.drawn);
    gl.bindFramebuffer(gl.DRAW_FRAMEBUFFER, parts.resolved);
    const all = [0, 0, parts.width, parts.height];
    gl.blitFramebuffer(...all, ...all, gl.COLOR_BUFFER_BIT | gl.DEPTH_BUFFER_BIT, gl.NEAREST);
  }
  const {right, up, near, far} = axes(), size = size_of(town);
  gl.bindFramebuffer(gl.FRAMEBUFFER, target);
  by.picture({...common, picture: PICTURE, depths: DEPTHS, base, range, pixel: 2 / (high * parts.height), is_edged: +shows.edges,
    rings: by === programs.fine ? 2 : 0, turns, paper: +is_parallel(), air: is_parallel() ? 0 : 6 * size, clear: Math.max(0, far - size),
    window: [1 / wide, 1 / high], right, up, ahead: near.map(part => -part)});
  if (turns > 0) gl.enable(gl.BLEND);
  gl.blendColor(0, 0, 0, 1 / (turns + 1));
  gl.blendFunc(gl.CONSTANT_ALPHA, gl.ONE_MINUS_CONSTANT_ALPHA);
  over_all();
  gl.disable(gl.BLEND);
}

function over_all() {
  gl.disable(gl.DEPTH_TEST);
  gl.bindVertexArray(screen_);
  gl.drawArrays(gl.TRIANGLE_STRIP, 0, 4);
  gl.enable(gl.DEPTH_TEST);
}

// The outline of an instance, or of none.
function mark(one) {
  const corners = one ? one.batch.mesh.corners.map(corner => spot(corner, one.batch.data, one.slot * FLOATS)) : [];
  const pairs = one ? one.batch.mesh.faces.flatMap(face => face.flatMap((at, k) => [corners[at], corners[face[(k + 1) % face.length]]])) : [];
  marked = pairs.length;
  if (!marked) return;
  gl.bindVertexArray(outline);
  attributes(new Float32Array(pairs.flat()), 0, [3], 0);
}

const moment = () => performance.now() / 1000;

function draw() {
  is_asked = false;
  if (!begin_picture()) return;
  if (tiles) tiles.choose();
  if (is_shadow_old) shine();
  const now = moment(), seen = matrix(town), common = common_of(seen, now, !is_slow), by = is_slow ? programs.plain : programs.fine;
  draw_picture(common, by);
  finish(seen, common, by, null);
  const left = drawn_last + GLOW - now;
  if (left > 0) is_slow || is_still_wanted.matches ? setTimeout(ask_draw, 1000 * left + 20) : ask_draw();
  else refine_soon();
}

// Sets the canvas and the textures of a picture; tells whether there is a town.
function begin_picture() {
  const wide = Math.round(innerWidth * devicePixelRatio), high = Math.round(innerHeight * devicePixelRatio);
  if (canvas.width !== wide || canvas.height !== high) Object.assign(canvas, {width: wide, height: high});
  gl.clearColor(.77, .83, .89, 1);
  if (!town.low) {
    gl.bindFramebuffer(gl.FRAMEBUFFER, null);
    gl.clear(gl.COLOR_BUFFER_BIT);
    return false;
  }
  gl.enable(gl.DEPTH_TEST);
  fit_parts(wide, high);
  return true;
}

let is_asked = false;
function ask_draw() {
  if (is_asked || !gl) return;
  is_asked = true;
  requestAnimationFrame(draw);
}
