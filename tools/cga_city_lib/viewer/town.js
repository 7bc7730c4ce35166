'use strict';
// What is drawn, as the floats that tell it: for each mesh a table with a slot for each instance. A slot has its place and
// symbol; its sizes and axes; its lot, the moment at which it came, and two that are free.
const FLOATS = 12, ROW = 256; // floats of an instance, and instances in a row of a table's texture
const SYMBOL = 3, SIZES = 4, CODE = 7, LOT = 8, MOMENT = 9;
const OVER = -9; // a moment that is over

// The table of one mesh. Rows that changed are sent to the graphics processor before it is drawn.
class Batch {
  constructor(name, mesh) {
    Object.assign(this, {name, mesh, total: 0, count: 0, data: new Float32Array(ROW * FLOATS), changed: new Set(), is_new: true});
    this.triangles = triangles_of(mesh.faces).length / 3;
  }
  get rows() {
    return this.data.length / ROW / FLOATS;
  }
  // Takes what is told of it, from a place of the data on; gives the place behind it.
  take({total, whole, slots}, data, from, moment) {
    const own = new Uint32Array(data, from, slots), floats = new Float32Array(data, from + 4 * slots, FLOATS * (whole ? total : slots));
    this.fit(total);
    if (whole) this.data.set(floats);
    else own.forEach((slot, k) => { for (let n = 0; n < FLOATS; n++) this.data[slot * FLOATS + n] = floats[k * FLOATS + n]; });
    for (const slot of own) {
      this.data[slot * FLOATS + MOMENT] = moment;
      this.changed.add(Math.floor(slot / ROW));
    }
    if (whole) this.is_new = true;
    return from + 4 * slots + 4 * floats.length;
  }
  fit(total) {
    this.total = total;
    if (total * FLOATS <= this.data.length) return;
    const more = new Float32Array(ROW * FLOATS * Math.ceil(1.2 * total / ROW));
    more.set(this.data);
    Object.assign(this, {data: more, is_new: true});
  }
  is_free(slot) {
    return this.data[slot * FLOATS + SYMBOL] < 0;
  }
}

class Town {
  constructor() {
    this.forget();
  }
  // Another town may come, with other meshes.
  forget() {
    for (const batch of (this.batches || new Map()).values()) drop(batch);
    Object.assign(this, {batches: new Map(), symbols: [], lots: [], numbers: new Map(), counts: [], offset: null, low: null, high: null});
  }
  // Takes what an answer tells, which has floats from a place of its data on.
  take({tables, lots, symbols, offset}, data, from, moment = OVER) {
    this.lots = this.lots.concat(lots);
    symbols.forEach(symbol => this.number_of(symbol));
    for (const told of tables) if (told.total > 0 || SOLIDS[told.mesh]) from = this.batch(told.mesh).take(told, data, from, moment);
    this.offset = offset.length ? offset : null;
    this.measure();
  }
  number_of(symbol) {
    if (!this.numbers.has(symbol)) {
      this.numbers.set(symbol, this.symbols.length);
      this.symbols.push(symbol);
    }
    return this.numbers.get(symbol);
  }
  batch(name) {
    if (!this.batches.has(name)) this.batches.set(name, new Batch(name, SOLIDS[name]));
    return this.batches.get(name);
  }
  // The least and the greatest place along each axis, beside the offset, and how often each symbol and mesh is drawn.
  measure() {
    const low = [Infinity, Infinity, Infinity], high = [-Infinity, -Infinity, -Infinity];
    this.counts = this.symbols.map(() => 0);
    for (const batch of this.batches.values()) {
      batch.count = 0;
      for (let at = 0; at < batch.total * FLOATS; at += FLOATS) {
        if (batch.data[at + SYMBOL] < 0) continue;
        batch.count++;
        this.counts[batch.data[at + SYMBOL]]++;
        widen(batch.data, at, low, high);
      }
    }
    [this.low, this.high] = low[0] < Infinity ? [low, high] : [null, null];
  }
  get triangles() {
    let sum = 0;
    for (const {count, triangles} of this.batches.values()) sum += count * triangles;
    return sum;
  }
}

function widen(data, at, low, high) {
  for (let k = 0, code = data[at + CODE]; k < 3; k++, code = (code - code % 6) / 6) {
    const axis = code % 6 >> 1, from = data[at + axis], to = code & 1 ? from - data[at + SIZES + k] : from + data[at + SIZES + k];
    low[axis] = Math.min(low[axis], from, to);
    high[axis] = Math.max(high[axis], from, to);
  }
}

// Where the solid's own axes lead, each as long as its size: nine numbers.
function columns(data, at) {
  const found = new Array(9).fill(0);
  for (let k = 0, code = data[at + CODE]; k < 3; k++, code = (code - code % 6) / 6) {
    found[3 * k + (code % 6 >> 1)] = code & 1 ? -data[at + SIZES + k] : data[at + SIZES + k];
  }
  return found;
}
