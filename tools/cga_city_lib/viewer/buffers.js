'use strict';
// The textures from which instances are drawn: one of a table's floats, and one of the corners of its mesh. A small mesh has its
// indices once for each instance, since an instance costs as much as a call where the processor alone draws.
const SMALL = 64; // triangles of a mesh
const WIDE = 1024; // corners in a row of their texture

const is_copied = batch => batch.triangles <= SMALL;

function indices_of(batch, times) {
  const some = triangles_of(batch.mesh.faces), all = new Uint32Array(some.length * times), step = batch.mesh.corners.length;
  for (let k = 0, at = 0; k < times; k++) for (let n = 0; n < some.length; n++) all[at++] = k * step + some[n];
  return all;
}

function floats_texture(unit, width, height, data) {
  const made = texture(unit, gl.NEAREST);
  gl.texImage2D(gl.TEXTURE_2D, 0, gl.RGBA32F, width, height, 0, gl.RGBA, gl.FLOAT, data);
  return made;
}

// A corner with what bends it: 1 or -1 along X, 2 or -2 along Z. Below all corners stand their tones, if the mesh has some.
function corners_texture(mesh) {
  const {corners, tones = []} = mesh, high = Math.ceil(corners.length / WIDE), rows = high + tone_rows(mesh), data = new Float32Array(4 * WIDE * rows);
  corners.forEach(([x, y, z, bent_x = 0, bent_z = 0], k) => data.set([x, y, z, 2 * bent_x + 4 * bent_z], 4 * k));
  put_tones(tones, data, 4 * WIDE * high);
  return floats_texture(CORNERS, WIDE, rows, data);
}

// Makes all that a table is drawn from, with room for as many instances as it has.
function prepare(batch) {
  drop(batch);
  const indices = gl.createBuffer();
  Object.assign(batch, {vertices: gl.createVertexArray(), indices, room: batch.rows});
  gl.bindVertexArray(batch.vertices);
  gl.bindBuffer(gl.ELEMENT_ARRAY_BUFFER, indices);
  gl.bufferData(gl.ELEMENT_ARRAY_BUFFER, indices_of(batch, is_copied(batch) ? batch.rows * ROW : 1), gl.STATIC_DRAW);
  batch.corners = corners_texture(batch.mesh);
  batch.floats = floats_texture(INSTANCES, 3 * ROW, batch.rows, batch.data);
}

function drop(batch) {
  if (!batch.vertices) return;
  gl.deleteVertexArray(batch.vertices);
  gl.deleteBuffer(batch.indices);
  [batch.corners, batch.floats].forEach(one => gl.deleteTexture(one));
  batch.vertices = null;
}

function bind(unit, one) {
  gl.activeTexture(gl.TEXTURE0 + unit);
  gl.bindTexture(gl.TEXTURE_2D, one);
}

// Sends rows from one to another, without the last.
function send_rows(batch, from, to) {
  gl.texSubImage2D(gl.TEXTURE_2D, 0, 0, from, 3 * ROW, to - from, gl.RGBA, gl.FLOAT, batch.data, from * ROW * FLOATS);
}

// Sends what has changed, and makes the batch the one that is drawn.
function send(batch) {
  if (!batch.vertices || batch.room !== batch.rows) prepare(batch);
  else {
    bind(CORNERS, batch.corners);
    bind(INSTANCES, batch.floats);
    if (batch.is_new) send_rows(batch, 0, batch.rows);
    else for (const row of batch.changed) send_rows(batch, row, row + 1);
  }
  batch.is_new = false;
  batch.changed.clear();
  gl.bindVertexArray(batch.vertices);
}

// Draws all solids by a program that is in use.
function draw_solids(use) {
  for (const batch of town.batches.values()) {
    if (!batch.count) continue;
    send(batch);
    use({copied: is_copied(batch) ? batch.mesh.corners.length : 0, instances: INSTANCES, corners: CORNERS, toned: tone_rows(batch.mesh), is_turned: +!SOLID_NAMES.has(batch.name)});
    const indices = 3 * batch.triangles;
    if (is_copied(batch)) gl.drawElements(gl.TRIANGLES, indices * batch.total, gl.UNSIGNED_INT, 0);
    else gl.drawElementsInstanced(gl.TRIANGLES, indices, gl.UNSIGNED_INT, 0, batch.total);
  }
  if (tiles) tiles.draw(use);
}
