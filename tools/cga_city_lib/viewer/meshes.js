'use strict';
// The mesh of each solid in a box of size 1: corners, and faces as lists of these. The ridge of a hip stands as far from
// the ends as half of its depth, whatever its width, so two of its corners are bent by the sizes.
const BASE = [[0, 0, 0], [1, 0, 0], [1, 0, 1], [0, 0, 1]];
const ALONG = [[3, 2, 5, 4], [2, 1, 5], [1, 0, 4, 5], [0, 3, 4], [0, 1, 2, 3]];
const ACROSS = [[3, 2, 5], [2, 1, 4, 5], [1, 0, 4], [0, 3, 5, 4], [0, 1, 2, 3]];
const SOLIDS = {
  cube: {corners: [...BASE, [0, 1, 0], [1, 1, 0], [1, 1, 1], [0, 1, 1]], faces: [[3, 2, 6, 7], [2, 1, 5, 6], [1, 0, 4, 5], [0, 3, 7, 4], [7, 6, 5, 4], [0, 1, 2, 3]]},
  quad: {corners: [[0, 0, 0], [1, 0, 0], [1, 1, 0], [0, 1, 0]], faces: [[0, 1, 2, 3]]},
  shed: {corners: [...BASE, [1, 1, 1], [0, 1, 1]], faces: [[3, 2, 4, 5], [2, 1, 4], [1, 0, 5, 4], [0, 3, 5], [0, 1, 2, 3]]},
  gable_along: {corners: [...BASE, [0, 1, .5], [1, 1, .5]], faces: ALONG},
  gable_across: {corners: [...BASE, [.5, 1, 0], [.5, 1, 1]], faces: ACROSS},
  hip_along: {corners: [...BASE, [0, 1, .5, .5, 0], [1, 1, .5, -.5, 0]], faces: ALONG},
  hip_across: {corners: [...BASE, [.5, 1, 0, 0, .5], [.5, 1, 1, 0, -.5]], faces: ACROSS},
};

const SOLID_NAMES = new Set(Object.keys(SOLIDS)); // without meshes that a town has for itself

function add_meshes(given) {
  for (const name in given) SOLIDS[name] = given[name];
}

function triangles_of(faces) {
  const found = [];
  for (const face of faces) for (let k = 1; k < face.length - 1; k++) found.push(face[0], face[k], face[k + 1]);
  return found;
}

// The place of a mesh's corner in the world of an instance, as the programs of the graphics processor work it out.
function spot(corner, data, at) {
  const [x, y, z, bent_x = 0, bent_z = 0] = corner, way = columns(data, at), wide = data[at + SIZES], deep = data[at + SIZES + 2];
  const along = x + (bent_x ? bent_x * deep / wide : 0), back = z + (bent_z ? bent_z * wide / deep : 0);
  return [0, 1, 2].map(k => data[at + k] + along * way[k] + y * way[3 + k] + back * way[6 + k]);
}
