'use strict';
// A fine picture: the mean of several, each moved by a part of a pixel and lit by another place of the sun's disc, so that edges
// are smooth and shadows soft. It is drawn when the view stands still, and where a picture is asked for.
const STANDS = is_slow ? 1500 : 300; // thousandths of a second for which the view has to stand still
const FINE = is_slow ? 1 : 16; // pictures that a fine one is the mean of
const mean = gl && gl.getExtension('EXT_color_buffer_float') && {sum: null, width: 0, height: 0};
let waiting = 0;

// The k-th place of a sequence that fills a square evenly, from -1 to 1.
function spread(k) {
  const part = base => { let found = 0; for (let at = k + 1, by = 1 / base; at > 0; at = Math.floor(at / base), by /= base) found += at % base * by; return 2 * found - 1; };
  return [part(2), part(3)];
}

function fit_mean() {
  if (mean.width === parts.width && mean.height === parts.height) return;
  Object.assign(mean, {width: parts.width, height: parts.height});
  mean.texture = mean.texture || texture(MEANS, gl.NEAREST);
  bind(MEANS, mean.texture);
  gl.texImage2D(gl.TEXTURE_2D, 0, gl.RGBA16F, parts.width, parts.height, 0, gl.RGBA, gl.HALF_FLOAT, null);
  mean.frame = framebuffer([[gl.COLOR_ATTACHMENT0, mean.texture]]);
}

// Takes the k-th picture into the mean.
function add_picture(k) {
  const [dx, dy] = spread(k);
  shine(dx, dy);
  const seen = matrix(town, [dx / parts.width, dy / parts.height]), common = common_of(seen, moment(), true);
  draw_picture(common, programs.fine);
  finish(seen, common, programs.fine, mean.frame, k);
}

function show_mean() {
  gl.bindFramebuffer(gl.FRAMEBUFFER, null);
  programs.mean({picture: MEANS});
  over_all();
}

function begin_fine() {
  if (!begin_picture()) return false;
  if (tiles) tiles.choose();
  if (mean) fit_mean();
  return true;
}

// Draws the mean of so many pictures at once.
function draw_fine(number) {
  if (!begin_fine()) return;
  for (let k = 0; k < (mean ? number : 0); k++) add_picture(k);
  if (mean) show_mean();
  is_shadow_old = true;
}

function refine_soon() {
  clearTimeout(waiting);
  waiting = setTimeout(() => refine(0), STANDS);
}

// One picture more, and the next one where nothing else is asked for.
function refine(k) {
  if (is_asked || !mean || k >= FINE || !town.low || document.hidden) return;
  if (k === 0) {
    Object.values(programs.fine).forEach(one => one.ready()); // one that is made behind a picture waits until that is drawn
    begin_picture();
    fit_mean();
  }
  add_picture(k);
  if (k % 4 === 3 || k === FINE - 1) show_mean();
  is_shadow_old = true;
  waiting = setTimeout(() => refine(k + 1), 0);
}
