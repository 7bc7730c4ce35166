'use strict';
// A region in tiles. A tile that is seen is loaded, and a coarser one stands for its children as long as it is off by few
// pixels or they aren't all here.
const MOST_OFF = 12; // pixels
const AT_ONCE = 6; // files
const MOST_TRIANGLES = is_slow ? 1e6 : 6e6;
const NEAR = 4096; // floats of 32 bits tell places well within so many units
let tiles = null;

class Tiles {
  constructor(root) {
    Object.assign(this, {root, drawn: [], wanted: [], loaded: new Set(), coming: 0, turn: 0, is_full: false, lit: null});
    this.number = root.count();
  }

  // Chooses what is drawn from where the eye is, and what is loaded next.
  choose() {
    const was = this.drawn;
    this.rebase();
    this.turn++;
    Object.assign(this, {drawn: [], wanted: [], sight: sight_of(matrix(town).view)});
    this.cover(this.root);
    this.drop();
    this.load();
    const is_other = was.length !== this.drawn.length || was.some((tile, k) => tile !== this.drawn[k]);
    this.shade(is_other);
    if (is_other) sums();
  }

  // Draws a tile or what is below it. Tells whether nothing is missing there.
  cover(tile) {
    if (!this.sight.sees(tile)) return true;
    if (tile.address) this.want(tile);
    if (!tile.children.length || this.sight.pixels(tile) <= MOST_OFF) return this.draw_one(tile);
    const first = this.drawn.length, missing = tile.children.filter(child => !this.cover(child)).length;
    if (!missing || !tile.address || tile.state !== 'here') return !missing;
    this.drawn.length = first;
    return this.draw_one(tile);
  }
  draw_one(tile) {
    if (tile.state === 'here' && tile.address) this.drawn.push(tile);
    return tile.state === 'here';
  }
  want(tile) {
    tile.turn = this.turn;
    if (tile.state === 'far') this.wanted.push(tile);
  }

  // ---- files

  // The coarsest first, and of these the nearest.
  load() {
    this.is_full = this.triangles() >= MOST_TRIANGLES && this.wanted.length > 0;
    if (this.is_full) return;
    this.wanted.sort((a, b) => a.depth - b.depth || this.sight.distance(a) - this.sight.distance(b));
    for (const tile of this.wanted.slice(0, AT_ONCE - this.coming)) this.fetch(tile);
  }
  async fetch(tile) {
    tile.state = 'coming';
    this.coming++;
    try {
      const answer = await fetch(tile.address);
      if (!answer.ok) throw new Error('it isn\'t there; tools/districts tiles makes it');
      this.keep(tile, parts_of_glb(await answer.arrayBuffer()));
    } catch (fault) {
      tile.state = 'lost';
      tell(`${tile.name}: ${fault.message}`);
    }
    this.coming--;
    sums();
    ask_draw();
  }
  keep(tile, parts) {
    Object.assign(tile, {state: 'here', parts: parts.map(part => sent_part(tile.turned(part))), triangles: parts.reduce((sum, part) => sum + part.triangles.length / 3, 0)});
    this.loaded.add(tile);
    paint(head.colours);
  }
  // What wasn't wanted for longest goes first.
  drop() {
    const old = [...this.loaded].filter(tile => tile.turn < this.turn).sort((a, b) => a.turn - b.turn);
    let triangles = this.triangles();
    for (const tile of old) {
      if (triangles < MOST_TRIANGLES) return;
      triangles -= tile.triangles;
      this.forget(tile);
    }
  }
  forget(tile) {
    if (tile.parts) tile.parts.forEach(forget_part);
    Object.assign(tile, {state: 'far', parts: null, triangles: 0});
    this.loaded.delete(tile);
  }
  // Takes another tree, in which tiles of the same name stay as they are. Tells how many are new.
  change(root) {
    const old = new Map(), key = tile => [tile.address, ...tile.matrix.slice(0, 2)].join(' ');
    const note = tile => [...(tile.address ? [tile] : []), ...tile.children.flatMap(note)];
    for (const tile of note(this.root)) old.set(key(tile), tile);
    const kept = told => {
      const {depth, error, origin, matrix, low, high} = told, was = old.get(key(told));
      old.delete(key(told));
      const tile = was ? Object.assign(was, {depth, error, origin, matrix, low, high}) : told;
      if (tile.state === 'lost') tile.state = 'far';
      return Object.assign(tile, {children: told.children.map(kept)});
    };
    const known = old.size;
    this.root = kept(root);
    this.number = this.root.count();
    const fresh = this.number - (known - old.size);
    old.forEach(tile => this.forget(tile));
    return fresh;
  }
  triangles() {
    return [...this.loaded].reduce((sum, tile) => sum + tile.triangles, 0);
  }

  // ---- drawing

  draw(use) {
    for (const tile of this.drawn) {
      const shift = minus(tile.origin, town.offset);
      for (const part of tile.parts) draw_part(use, shift, part);
    }
  }
  // The sun's map covers what is looked at; of all of a region it would be too coarse.
  shade(is_other) {
    const reach = 2 ** Math.ceil(Math.log2(2 * view.far)), step = reach / 4, near = side => town.low.map((least, k) => {
      const at = k === 1 ? side * Infinity : Math.round((view.centre[k] + side * reach) / step) * step;
      return Math.max(least, Math.min(town.high[k], at));
    });
    const lit = {low: near(-1), high: near(1)};
    if (is_other || JSON.stringify(lit) !== JSON.stringify(this.lit)) is_shadow_old = true;
    this.lit = lit;
  }
  // Moves the offset to where the eye looks.
  rebase() {
    const by = view.centre.map(Math.round);
    if (Math.max(...by.map(Math.abs)) < NEAR) return;
    [town.offset, town.low, town.high] = [along(town.offset, 1, by), minus(town.low, by), minus(town.high, by)];
    view.centre = minus(view.centre, by);
    wheel.until = 0;
    is_shadow_old = true;
  }

  // ---- what is told

  told() {
    const many = value => value.toLocaleString('en'), drawn = this.drawn.reduce((sum, tile) => sum + tile.triangles, 0);
    return `${many(this.drawn.length)} of ${many(this.number)} tiles, ${many(drawn)} triangles${this.is_full ? ', and no more can be drawn: come nearer' : ''}`;
  }
  // The nearest point of what is drawn on a ray, and its tile.
  met(eye, way) {
    let best = Infinity, found = null;
    for (const tile of this.drawn) {
      const [low, high] = [tile.low, tile.high].map(at => minus(at, town.offset));
      if (met_box(eye, way, low, high) >= best) continue;
      const far = met_parts(minus(eye, minus(tile.origin, town.offset)), way, tile.parts);
      if (far < best) [best, found] = [far, tile];
    }
    return found && {tile: found, point: along(eye, best, way)};
  }
  pick(x, y) {
    const {eye, way} = ray(x, y), hit = this.met(eye, way), name = document.createElement('b');
    name.textContent = hit ? along(hit.point, 1, town.offset).map(neat).join(', ') : '';
    const off = hit && (hit.tile.error ? `up to ${neat(hit.tile.error)} units off` : 'as the jobs printed it');
    box_of('picked').replaceChildren(...(hit ? [name, `tile ${hit.tile.name} \u00b7 ${off}`] : []));
  }
}

// Asks the preview whether the set of tiles is another one, which it tells as soon as it is.
async function follow_tiles(base) {
  for (let stamp = '', is_lost = false;;) {
    try {
      const now = await (await fetch('state?' + stamp)).text();
      if (stamp && now !== stamp || is_lost) {
        const fresh = tiles.change(new Tile((await (await fetch(base)).json()).root, base, STILL));
        [town.low, town.high] = [tiles.root.low, tiles.root.high].map(at => minus(at, town.offset));
        is_shadow_old = true;
        tell('');
        notice(`${fresh} of ${tiles.number} tiles are new`);
        ask_draw();
      }
      [stamp, is_lost] = [now, false];
    } catch (fault) {
      tell('the preview has ended');
      await new Promise(done => setTimeout(done, 1000));
      is_lost = true;
    }
  }
}

async function open_tiles({title, tileset, follows}) {
  document.title = title;
  try {
    const base = new URL(tileset, location.href), told = await (await fetch(base)).json(), root = new Tile(told.root, base, STILL);
    town.offset = root.low.map(Math.floor);
    [town.low, town.high] = [root.low, root.high].map(at => minus(at, town.offset));
    tiles = new Tiles(root);
    if (follows) follow_tiles(base);
    look_at(town);
    sums();
    ask_draw();
  } catch (fault) {
    tell(location.protocol === 'file:' ? 'a browser loads tiles from a server alone: type `python3 -m http.server -d FOLDER` with the folder of this page, '
      + 'and open it at 127.0.0.1:8000' : `${tileset}: ${fault.message}`);
  }
}
