'use strict';
// The programs of the graphics processor. A vertex finds its instance and its corner by its number, in two textures; a mesh
// has its corners in a box of size 1, and what bends a hip's ridge to its sizes. It grows by a part of a pixel, so that nothing
// shines through where corners of one wall stand along the side of another. Towards the eye it grows less, or the edge of a wall
// between two lots would stand out of their fronts. A part of a tile has its corners as they stand.
const COLOURS = 0, SHADOWS = 1, PICTURE = 2, DEPTHS = 3, INSTANCES = 4, CORNERS = 5, MEANS = 6; // units of textures
const PART = -1; // in place of a mesh's number of corners

const INSTANCE = `
layout(location = 0) in vec3 own_corner;
uniform sampler2D colours, instances, corners;
uniform int copied, toned;
uniform vec3 shift;
uniform float own_symbol;
uniform vec3 eye;
uniform vec4 growth; // how much a place grows: by its distance
uniform int is_turned; // whether walls may stand across the axes
vec4 first, sizes, last, corner, own_tone = vec4(0.);
void load() {
  if (copied == ${PART}) {
    first = vec4(shift, own_symbol);
    sizes = vec4(1., 1., 1., 0. + 6. * 2. + 36. * 4.);
    last = vec4(0., -9., 0., 0.);
    corner = vec4(own_corner, 0.);
    return;
  }
  int which = copied > 0 ? gl_VertexID / copied : gl_InstanceID, at = copied > 0 ? gl_VertexID % copied : gl_VertexID;
  ivec2 place = ivec2(3 * (which & ${ROW - 1}), which / ${ROW});
  first = texelFetch(instances, place, 0);
  sizes = texelFetch(instances, place + ivec2(1, 0), 0);
  last = texelFetch(instances, place + ivec2(2, 0), 0);
  corner = texelFetch(corners, ivec2(at & ${WIDE - 1}, at / ${WIDE}), 0);
  if (toned > 0) own_tone = texelFetch(corners, ivec2(at & ${WIDE - 1}, at / ${WIDE} + toned), 0);
}
vec4 tone() {
  int number = int(first.w);
  vec4 found = number < 0 ? vec4(0.) : texelFetch(colours, ivec2(number & 255, number >> 8), 0);
  return found.a > 0. && own_tone.a > 0. ? own_tone : found;
}
vec3 along(int way, float far) {
  float signed_ = (way & 1) == 0 ? far : -far;
  return way < 2 ? vec3(signed_, 0., 0.) : way < 4 ? vec3(0., signed_, 0.) : vec3(0., 0., signed_);
}
bool is_flat() { return sizes.x == 0. || sizes.y == 0. || sizes.z == 0.; }
vec3 spot() {
  int code = int(sizes.w), bend = int(corner.w);
  float bent_x = bend == 1 || bend == -1 ? .5 * corner.w * sizes.z / sizes.x : 0.;
  float bent_z = bend == 2 || bend == -2 ? .25 * corner.w * sizes.x / sizes.z : 0.;
  vec3 part = (corner.xyz + vec3(bent_x, 0., bent_z)) * sizes.xyz;
  vec3 found = first.xyz + along(code % 6, part.x) + along(code / 6 % 6, part.y) + along(code / 36, part.z);
  float wide = dot(growth, vec4(found, 1.));
  if (wide == 0.) return found;
  vec3 more = wide * (2. * corner.xyz - 1.) * vec3(notEqual(sizes.xyz, vec3(0.)));
  if (is_turned > 0) more.xz *= sizes.xz / max(sizes.x, sizes.z); // so that a wall grows along itself
  vec3 grown = along(code % 6, more.x) + along(code / 6 % 6, more.y) + along(code / 36, more.z), away = grown * (found - eye);
  if (is_turned > 0) away.xz = vec2(away.x + away.z);
  return found + grown * mix(vec3(1.), vec3(.25), vec3(lessThan(away, vec3(0.))));
}
`;

const LIT = SKY + `
uniform sampler2DShadow shadows;
uniform mat4 sun;
uniform float fine;
uniform int is_soft;
float clear_of(vec3 at) {
  vec3 seen = (sun * vec4(at, 1.)).xyz * .5 + .5;
  if (any(lessThan(seen.xy, vec2(0.))) || any(greaterThan(seen.xy, vec2(1.)))) return 1.;
  seen.z = min(seen.z, 1.);
  if (is_soft == 0) return texture(shadows, seen);
  float sum = 0.;
  for (int i = -1; i < 2; i++) for (int j = -1; j < 2; j++) sum += texture(shadows, seen + vec3(1.2 * vec2(i, j) * fine, 0.));
  return sum / 9.;
}
`;

// Solids that lie in one plane keep an order: flat ones before others, then by symbol. So walls between two lots don't
// flicker; and since the side that the eye sees gives the light, two walls back to back look the same.
const SOLID_AT = INSTANCE + `
uniform mat4 view;
uniform float now, nudge, fades;
out vec3 at, face;
flat out vec3 tint, wide;
flat out vec4 own; // material, of the lot, of the instance, how much it lights up
float part_of(float number) { return fract(sin(number * 12.9898 + 4.1) * 43758.5453); }
void main() {
  load();
  vec4 shade = tone();
  at = spot();
  face = corner.xyz * sizes.xyz;
  wide = sizes.xyz;
  gl_Position = view * vec4(at, 1.);
  float order = float(int(first.w) & 3) + (is_flat() ? 4. : 0.), passed = now - last.y;
  gl_Position.z -= nudge * order * gl_Position.w;
  tint = pow(shade.rgb, vec3(2.2));
  tint = mix(vec3(dot(tint, vec3(.3, .55, .15))), tint, .80); // colours in the open are less deep than on paper
  float glow = .75 * (fades > 0. ? clamp(1. - passed, 0., 1.) : step(passed, 1.));
  own = vec4(shade.a * 255. - 1., part_of(last.x), part_of(dot(first.xyz, vec3(1.3, 2.7, .9))), glow);
  if (shade.a == 0.) gl_Position = vec4(2., 2., 2., 1.);
}`;
const SOLID = LIT + PATTERNS + `
in vec3 at, face;
flat in vec3 tint, wide;
flat in vec4 own;
uniform float texel, foot;
uniform vec3 eye;
out vec4 colour;
vec3 reflected(vec3 way, vec3 normal, float rough) {
  vec3 back = reflect(way, normal), ground = .30 * sky_light + .10 * sun_light;
  return mix(ground, sky(vec3(back.x, abs(back.y), back.z)), smoothstep(-.04 - rough, .04 + rough, back.y));
}
void main() {
  vec3 normal = normalize(cross(dFdx(at), dFdy(at))), way = normalize(at - eye);
  if (dot(normal, way) > 0.) normal = -normal;
  int kind = int(own.x + .5);
  float to = dot(normal, sun_way), lit = to > 0. ? to * clear_of(at + normal * texel * (2.5 - 1.5 * to)) : 0., up = abs(normal.y);
  vec3 right = up > .999 ? vec3(1., 0., 0.) : normalize(cross(vec3(0., 1., 0.), normal)), rise = cross(normal, right);
  vec2 place = vec2(dot(at, right), up > .999 ? at.z : dot(at, rise));
  vec3 light = mix(bounce, sky_light, .5 + .5 * normal.y) + lit * sun_light;
  vec3 base = patterned(kind, tint * owned(kind, own.y), place, up, at.y - foot, own.y), found = base * light;
  float facing = max(dot(-way, normal), 0.), thin = pow(1. - facing, 4.);
  if (${is_material('glass')} || ${is_material('window')}) {
    vec3 room = mix(.35 * tint, vec3(.012, .016, .022), .8) * (1. + own.z);
    room += vec3(1.5, .95, .42) * step(mix(.97, .45, night), own.z) * mix(.10, .8, night);
    room *= .4 + .6 * sky_light.g / .60;
    found = mix(room, reflected(way, normal, .05), .10 + .78 * thin) + sun_light * .5 * pow(max(dot(reflect(way, normal), sun_way), 0.), 300.) * step(.001, lit);
    vec3 turn = abs(cross(dFdx(face), dFdy(face)));
    vec2 seen = turn.z >= max(turn.x, turn.y) ? face.xy : turn.x > turn.y ? face.zy : face.xz;
    vec2 size = turn.z >= max(turn.x, turn.y) ? wide.xy : turn.x > turn.y ? wide.zy : wide.xz;
    float bar = ${is_material('window')} && min(size.x, size.y) > .3 ? framed(seen, size, fwidth(seen)) : 0.;
    found = mix(found, vec3(.66, .64, .60) * light, bar);
  } else if (${is_material('metal')}) {
    found = mix(found, reflected(way, normal, .4) * (.5 + base), .20 + .5 * thin);
#ifndef PLAIN
  } else if (${is_material('water')}) {
    vec2 ripple = vec2(noise(2.3 * at.xz) + .5 * noise(6.1 * at.xz), noise(2.3 * at.zx + 9.) + .5 * noise(6.1 * at.zx)) - .75;
    found = mix(.35 * base * light, reflected(way, normalize(normal + .06 * vec3(ripple.x, 0., ripple.y)), .1), .18 + .75 * thin);
#endif
  }
  colour = vec4(mix(shown(found), vec3(1., .45, .05), own.w), 1.);
}`;

const SHADOW_AT = INSTANCE + `
uniform mat4 sun;
void main() {
  load();
  gl_Position = tone().a == 0. ? vec4(2., 2., 2., 1.) : sun * vec4(spot(), 1.);
}`;
const SHADOW = 'void main() {}';

const GROUND_AT = `
layout(location = 0) in vec3 corner;
uniform mat4 view;
uniform vec4 spread;
uniform float nudge;
out vec3 at;
out vec2 far;
void main() {
  at = spread.xyz + spread.w * corner;
  far = corner.xz;
  gl_Position = view * vec4(at, 1.);
  gl_Position.z += 8. * nudge * gl_Position.w;
}`;
const GROUND = LIT + `
in vec3 at;
in vec2 far;
uniform vec3 offset, shade;
uniform float cell, edge;
out vec4 colour;
float line(float every) {
  vec2 place = (at.xz + offset.xz) / every, apart = abs(fract(place + .5) - .5) / fwidth(place);
  return (1. - min(min(apart.x, apart.y), 1.)) * (1. - smoothstep(.2, .6, max(fwidth(place).x, fwidth(place).y)));
}
void main() {
  float lines = cell > 0. ? max(.13 * line(cell), .22 * line(10. * cell)) : 0.;
#ifdef PLAIN
  float grain = 0.;
#else
  float grain = .10 * (noise(.11 * at.xz) - .5) + .07 * (noise(.8 * at.xz) - .5);
#endif
  vec3 light = sky_light + max(sun_way.y, 0.) * clear_of(at) * sun_light;
  colour = vec4(shown(shade * (1. + grain) * light * (1. - lines)), 1. - smoothstep(edge, 1., length(far)));
}`;

const LINE_AT = `
layout(location = 0) in vec3 corner;
uniform mat4 view;
uniform float nudge;
void main() { gl_Position = view * vec4(corner, 1.); gl_Position.z -= 40. * nudge * gl_Position.w; }`;
const LINE = 'out vec4 colour; uniform vec4 tint; void main() { colour = tint; }';

// The last pass: sky where nothing is, edges, what near surfaces take of each other's light, and the air.
// Along a plane 1 / distance changes evenly, so where it doesn't is an edge: one that stands out is drawn strong, one
// that lies deep faint, and the far side of an outline not at all. Where both ends of a line across a place stand nearer than
// the place itself, it lies in a corner and is darker.
const PICTURE_AT = 'layout(location = 0) in vec2 corner; void main() { gl_Position = vec4(corner, 0., 1.); }';
const PICTURE_EDGED = SKY + `
uniform sampler2D picture, depths;
uniform float pixel, base, range, is_edged, air, clear, paper;
uniform int rings, turns;
uniform vec2 window;
uniform vec3 right, up, ahead;
out vec4 colour;
float nearness(ivec2 p) { return base - 2. * texelFetch(depths, p, 0).r; }
float edge(float bend) { return bend > 0. ? smoothstep(.5, 1.6, bend) : bend > -6. ? .5 * smoothstep(.5, 1.6, -bend) : 0.; }
float shaded(ivec2 p, float here, float far) {
#ifdef PLAIN
  return 0.;
#else
  float dark = 0., grain = fract(52.9829 * fract(dot(vec2(p), vec2(.06711056, .00583715))) + .618 * float(turns)), turn = 6.2832 * grain;
  for (int ring = 0; ring < rings; ring++) {
    float reach = ring == 0 ? .5 : 2.2, r = min(reach / (far * pixel), 60.), own = r * far * pixel;
    if (r < 1.5) continue;
    for (int k = 0; k < 6; k++) {
      float a = .5236 * float(k) + turn + .26 * float(ring), step_ = r * (.45 + .55 * fract(grain * 7. + .618 * float(k)));
      ivec2 o = ivec2(round(step_ * vec2(cos(a), sin(a))));
      if (any(lessThan(p, abs(o))) || any(greaterThanEqual(p + abs(o), textureSize(depths, 0)))) continue; // beside the window
      float one = (nearness(p + o) / here - 1.) * far / own, other = (nearness(p - o) / here - 1.) * far / own;
      dark += (ring == 0 ? 1. : .7) * clamp(1.2 * (one + other) - .12, 0., 1.) * (1. - smoothstep(.9, 1.8, max(one, other)));
    }
  }
  return min(dark / float(6 * rings) * 1.4, 1.);
#endif
}
void main() {
  ivec2 p = ivec2(gl_FragCoord.xy);
  float depth = texelFetch(depths, p, 0).r;
  vec2 place = 2. * gl_FragCoord.xy / vec2(textureSize(depths, 0)) - 1.;
  vec3 way = normalize(ahead + window.x * place.x * right + window.y * place.y * up);
  vec3 own = texelFetch(picture, p, 0).rgb;
  if (depth == 1.) {
    colour = vec4(paper > 0. ? own : shown(sky(vec3(way.x, max(way.y, 0.), way.z))), 1.);
    return;
  }
  ivec2 q = clamp(p, ivec2(1), textureSize(depths, 0) - 2); // beside the window nothing is known
  float here = nearness(p), far = range / here, middle = nearness(q), scale = 1. / (middle * pixel);
  float across = nearness(q - ivec2(1, 0)) + nearness(q + ivec2(1, 0)), upright = nearness(q - ivec2(0, 1)) + nearness(q + ivec2(0, 1));
  float found = max(edge((2. * middle - across) * scale), edge((2. * middle - upright) * scale));
  float hazy = air > 0. ? 1. - exp(-pow(max(far - clear, 0.) / air, 1.5)) : 0.;
  if (rings > 0) own *= mix(vec3(1.), vec3(.34, .36, .42), shaded(p, here, far) * (1. - hazy));
  own *= 1. - .26 * is_edged * found * (1. - hazy);
  vec3 haze = shown(horizon + .06 * sun_light * pow(max(dot(way, sun_way), 0.), 6.));
  colour = vec4(mix(own, haze, hazy), 1.);
}`;

// Takes a picture into the mean of those before it, and shows the mean.
const MEAN = `
uniform sampler2D picture;
out vec4 colour;
void main() { colour = vec4(texelFetch(picture, ivec2(gl_FragCoord.xy), 0).rgb, 1.); }`;
