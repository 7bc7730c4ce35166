'use strict';
// How surfaces of each material look: what their colour is multiplied by at a place, and what they reflect. A pattern fades where
// it is finer than a pixel. `u` and `v` go along the surface in the town's unit, `v` upwards on walls and roofs.
const MATERIALS = ['plain', 'plaster', 'brick', 'glass', 'tile', 'metal', 'wood', 'stone', 'lawn', 'water', 'window'];
const is_material = name => `kind == ${MATERIALS.indexOf(name)}`;

const PATTERNS = `
float fine_of(vec2 cell) { vec2 w = fwidth(cell); return 1. - smoothstep(.25, .9, max(w.x, w.y)); }
// Rows of blocks with joints, each row moved by half a block: how much of a joint, and a number of the block.
vec2 blocks(vec2 at, vec2 size, float joint) {
  vec2 cell = at / size;
  cell.x += .5 * mod(floor(cell.y), 2.);
  vec2 edge = min(fract(cell), 1. - fract(cell)) * size, w = fwidth(at);
  float found = 1. - smoothstep(joint, joint + max(w.x, w.y), min(edge.x, edge.y));
  return vec2(found, hash(floor(cell)));
}
vec3 patterned(int kind, vec3 base, vec2 at, float up, float above, float own) {
#ifdef PLAIN
  return base;
#else
  float coarse = noise(.35 * at + 50. * own) - .5, middle = noise(1.7 * at) - .5, fine = (noise(14. * at) - .5) * fine_of(14. * at);
  if (${is_material('brick')}) {
    vec2 found = blocks(at, vec2(.25, .083), .006);
    float seen = fine_of(at / .083);
    base *= 1. + .10 * coarse + seen * .5 * (found.y - .5);
    base = mix(base, vec3(.42, .39, .35), .75 * seen * found.x);
  } else if (${is_material('tile')}) {
    if (up > .97) return mix(base, vec3(.33, .325, .31), .85) * (1. + .25 * coarse + .16 * fine);
    vec2 cell = at / vec2(.22, .33);
    float seen = fine_of(cell), row = floor(cell.y), piece = hash(vec2(floor(cell.x + .5 * mod(row, 2.)), row));
    base *= 1. + .22 * coarse + seen * .35 * (piece - .5);
    base *= 1. - seen * .45 * (1. - smoothstep(0., .22, fract(cell.y))) - seen * .14 * abs(2. * fract(cell.x + .5 * mod(row, 2.)) - 1.);
  } else if (${is_material('metal')}) {
    float cell = at.x / .5, seen = fine_of(vec2(cell));
    base *= 1. + .08 * coarse - seen * .3 * (1. - smoothstep(0., .08, abs(fract(cell) - .5)));
  } else if (${is_material('wood')}) {
    float cell = at.x / .16, seen = fine_of(vec2(cell)), plank = hash(vec2(floor(cell), 3.));
    base *= 1. + .12 * coarse + seen * .28 * (plank - .5) + .10 * seen * (noise(vec2(40. * at.x, 2. * at.y)) - .5);
    base *= 1. - .45 * seen * (1. - smoothstep(0., .10, min(fract(cell), 1. - fract(cell))));
  } else if (${is_material('stone')}) {
    vec2 found = blocks(at, up > .97 ? vec2(.6) : vec2(.7, .35), .008);
    float seen = fine_of(at / .35);
    base *= 1. + .12 * coarse + seen * .18 * (found.y - .5) + .06 * fine;
    base *= 1. - .38 * seen * found.x;
  } else if (${is_material('lawn')}) {
    base *= 1. + .45 * coarse + .30 * middle + .35 * fine;
  } else {
    base *= 1. + .09 * coarse + .05 * middle + .05 * fine;
  }
  bool is_wall = up < .3 && (${is_material('plaster')} || ${is_material('brick')} || ${is_material('stone')} || ${is_material('plain')});
  return is_wall ? base * mix(.74, 1., smoothstep(-.1, 1.4, above + .5 * coarse)) : base;
#endif
}
// What the houses of one lot have for themselves.
vec3 owned(int kind, float own) {
  bool has_own = ${['plain', 'plaster', 'brick', 'stone', 'wood'].map(is_material).join(' || ')};
  if (has_own) return mix(vec3(1.14, 1.04, .88), vec3(.84, .93, 1.05), own) * mix(.80, 1.12, fract(own * 7.3));
  return ${is_material('tile')} ? mix(vec3(.86, .96, 1.02), vec3(1.12, 1., .90), own) * mix(.82, 1.08, fract(own * 5.1)) : vec3(1.);
}
// A frame and a bar in a window: how much of them is seen at a place of its face, which is so wide and high.
float framed(vec2 at, vec2 size, vec2 pixel) {
  vec2 edge = min(at, size - at);
  float wide = max(pixel.x, pixel.y), found = 1. - smoothstep(.07, .07 + wide, min(edge.x, edge.y));
  float bars = size.x > .75 ? max(1., floor(size.x / .8 + .5)) : 1., apart = abs(fract(at.x / size.x * bars + .5) - .5) * size.x / bars;
  if (bars > 1.5) found = max(found, 1. - smoothstep(.03, .03 + wide, apart));
  if (size.y > 1.7) found = max(found, 1. - smoothstep(.03, .03 + wide, abs(at.y - .72 * size.y)));
  return found * (1. - smoothstep(.10, .35, wide));
}
`;
