'use strict';
// The tree of a tileset.json of 3D Tiles 1.1. There Z is up: what is (x, y, z) in the town is (x, -z, y).
const STILL = [1, 0, 0, 0, 0, 1, 0, 0, 0, 0, 1, 0, 0, 0, 0, 1];

// A tile with its box in the town, how many units it may be off, and the place of its content's corner.
class Tile {
  constructor(told, base, above, depth = 0) {
    const matrix = told.transform || STILL, box = told.boundingVolume.box;
    if (!box || !is_level(matrix)) throw new Error('this page takes tiles with boxes that are moved, and turned about the upright');
    const here = times(above, matrix), [middle, ...ways] = [0, 3, 6, 9].map(k => led(here, box.slice(k, k + 3), k ? 0 : 1));
    const half = middle.map((_, k) => ways.reduce((sum, way) => sum + Math.abs(way[k]), 0));
    const [low, high] = [-1, 1].map(side => middle.map((at, k) => at + side * half[k]));
    Object.assign(this, {depth, error: told.geometricError, origin: upright(here.slice(12)), matrix: here, parts: null, triangles: 0, turn: 0});
    this.low = [low[0], low[2], -high[1]];
    this.high = [high[0], high[2], -low[1]];
    this.address = told.content ? new URL(told.content.uri, base).href : null;
    this.state = this.address ? 'far' : 'here';
    this.children = (told.children || []).map(child => new Tile(child, base, here, depth + 1));
  }
  get name() {
    return decodeURIComponent(this.address.split('/').pop());
  }
  // A part of the content, turned as the tile is.
  turned({places, ...part}) {
    const [c, s] = this.matrix;
    if (c === 1) return {places, ...part};
    const all = Float32Array.from(places);
    for (let at = 0; at < all.length; at += 3) [all[at], all[at + 2]] = [places[at] * c + places[at + 2] * s, places[at + 2] * c - places[at] * s];
    return {places: all, ...part};
  }
  count() {
    return this.children.reduce((sum, child) => sum + child.count(), this.address ? 1 : 0);
  }
}

// Whether a matrix moves and turns about the upright alone, and makes nothing larger.
function is_level(matrix) {
  const level = [2, 3, 6, 7, 8, 9, 11].every(k => matrix[k] === 0) && matrix[10] === 1 && matrix[15] === 1;
  return level && matrix[0] === matrix[5] && matrix[1] === -matrix[4] && Math.abs(Math.hypot(matrix[0], matrix[1]) - 1) < 1e-9;
}
const led = (matrix, at, whole) => [0, 1, 2].map(row => at[0] * matrix[row] + at[1] * matrix[4 + row] + at[2] * matrix[8 + row] + whole * matrix[12 + row]);
const times = (one, other) => [0, 4, 8, 12].flatMap(k => [...led(one, other.slice(k, k + 3), other[k + 3]), other[k + 3]]);
const upright = ([x, y, z]) => [x, z, -y];
