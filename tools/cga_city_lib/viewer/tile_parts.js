'use strict';
// How parts of tiles are drawn and met, and what is seen of a box. A part is drawn as one instance that has its own mesh.

// What the eye sees of boxes of the town.
function sight_of(view_matrix) {
  const {eye, wide} = axes(), scale = wide * innerWidth * devicePixelRatio / 2;
  const beside = tile => ({low: minus(tile.low, town.offset), high: minus(tile.high, town.offset)});
  const clip = ([x, y, z]) => [0, 1, 2, 3].map(row => view_matrix[row] * x + view_matrix[4 + row] * y + view_matrix[8 + row] * z + view_matrix[12 + row]);
  const distance = tile => {
    const {low, high} = beside(tile);
    return Math.max(1e-6, Math.hypot(...eye.map((at, k) => Math.max(low[k] - at, 0, at - high[k]))));
  };
  const sees = tile => {
    const corners = corners_of(beside(tile)).map(clip);
    return [0, 1].every(k => corners.some(at => at[k] >= -at[3]) && corners.some(at => at[k] <= at[3])) && corners.some(at => at[2] >= -at[3]);
  };
  return {sees, distance, pixels: tile => tile.error * scale / distance(tile)};
}

// Sends a part to the graphics processor. Its colour stands among the symbols.
function sent_part({colour, places, triangles}) {
  const name = `rgb ${colour}`, indices = gl.createBuffer(), vertices = gl.createVertexArray();
  head.colours[name] = colour;
  gl.bindVertexArray(vertices);
  const points = attributes(places, 0, [3], 0);
  gl.bindBuffer(gl.ELEMENT_ARRAY_BUFFER, indices);
  gl.bufferData(gl.ELEMENT_ARRAY_BUFFER, triangles, gl.STATIC_DRAW);
  return {symbol: town.number_of(name), places, triangles, vertices, buffers: [points, indices]};
}

function forget_part({vertices, buffers}) {
  gl.deleteVertexArray(vertices);
  buffers.forEach(buffer => gl.deleteBuffer(buffer));
}

function draw_part(use, shift, {symbol, triangles, vertices}) {
  gl.bindVertexArray(vertices);
  use({copied: PART, shift, own_symbol: symbol, instances: INSTANCES, corners: CORNERS});
  gl.drawElements(gl.TRIANGLES, triangles.length, gl.UNSIGNED_INT, 0);
}

// How far on its way a ray meets one of the parts, or Infinity.
function met_parts(eye, way, parts) {
  let best = Infinity;
  for (const {places, triangles} of parts) {
    const corner = at => [places[3 * triangles[at]], places[3 * triangles[at] + 1], places[3 * triangles[at] + 2]];
    for (let at = 0; at < triangles.length; at += 3) best = Math.min(best, met_triangle(eye, way, [corner(at), corner(at + 1), corner(at + 2)]));
  }
  return best;
}
