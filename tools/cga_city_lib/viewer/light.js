'use strict';
// The sun and the sky: by a place on the earth, a day and an hour, or as they stand if none are said. East is +X, north is -Z.
const SUN = [-.3834, .7303, .5660];
const DEGREE = Math.PI / 180, DAY = 864e5;
const DUSK = .06; // how high the sun stands, as the sine of its height, when it has lost half of its light
let sky = {way: SUN};

// Where the sun stands: latitude and longitude in degrees, and the moment as Date.parse reads it.
function sun_at(latitude, longitude, moment) {
  const date = new Date(moment), day = (date - Date.UTC(date.getUTCFullYear(), 0, 1)) / DAY, turn = 2 * Math.PI * (day - 80) / 365;
  const tilt = -23.44 * DEGREE * Math.cos(2 * Math.PI * (day + 10) / 365);
  const off = 9.87 * Math.sin(2 * turn) - 7.53 * Math.cos(turn) - 1.5 * Math.sin(turn); // minutes by which the sun is ahead
  const angle = 15 * DEGREE * (day % 1 * 24 + longitude / 15 + off / 60 - 12), high = latitude * DEGREE;
  const north = Math.sin(tilt) * Math.cos(high) - Math.cos(tilt) * Math.sin(high) * Math.cos(angle);
  return [-Math.cos(tilt) * Math.sin(angle), Math.sin(high) * Math.sin(tilt) + Math.cos(high) * Math.cos(tilt) * Math.cos(angle), -north];
}

const clamp = (value, low, high) => Math.max(low, Math.min(high, value));
const mixed = (a, b, part) => a.map((from, k) => from + (b[k] - from) * part);
const smooth = (low, high, value) => { const t = clamp((value - low) / (high - low), 0, 1); return t * t * (3 - 2 * t); };

// The light of the sun and of the sky where the sun stands there.
function light_of(way) {
  const height = way[1], day = smooth(-.1, .25, height), noon = smooth(.02, .5, height), strength = smooth(-DUSK, 3 * DUSK, height);
  return {
    sun_way: height > -.02 ? way : [0, 1, 0],
    sun_light: mixed([2.6, 1.25, .55], [2.55, 2.3, 1.95], noon).map(part => part * strength),
    zenith: mixed([.012, .02, .055], mixed([.16, .25, .50], [.15, .33, .72], noon), day),
    horizon: mixed([.05, .06, .10], mixed([.95, .62, .42], [.70, .80, .90], noon), day),
    sky_light: mixed([.05, .06, .11], mixed([.42, .40, .46], [.50, .60, .78], noon), day),
    bounce: mixed([.02, .02, .03], mixed([.26, .19, .15], [.30, .27, .23], noon), day),
    night: 1 - day,
  };
}

// How light is seen on the screen, as SKY has it, too.
const shown = light => light.map(part => clamp((x => x * (2.51 * x + .03) / (x * (2.43 * x + .59) + .14))(.72 * part), 0, 1) ** (1 / 2.2));

const SKY = `
uniform vec3 sun_way, sun_light, zenith, horizon, sky_light, bounce;
uniform float night;
float hash(vec2 p) { vec3 q = fract(vec3(p.xyx) * .1031); q += dot(q, q.yzx + 33.33); return fract((q.x + q.y) * q.z); }
float noise(vec2 p) {
  vec2 i = floor(p), f = fract(p), s = f * f * (3. - 2. * f);
  return mix(mix(hash(i), hash(i + vec2(1., 0.)), s.x), mix(hash(i + vec2(0., 1.)), hash(i + vec2(1., 1.)), s.x), s.y);
}
vec3 sky(vec3 d) {
  float up = max(d.y, 0.), to = max(dot(d, sun_way), 0.);
  vec3 found = mix(horizon, zenith, 1. - pow(1. - up, 3.2));
  found += sun_light * (.05 * pow(to, 6.) + .10 * pow(to, 60.) + 4. * smoothstep(.9994, .9997, to));
#ifdef PLAIN
  return found;
#else
  vec2 p = d.xz / (up + .22) * 1.6;
  float cloud = .5 * noise(p) + .25 * noise(2.1 * p + 7.) + .13 * noise(4.3 * p + 3.) + .07 * noise(8.9 * p);
  return mix(found, horizon + .22 * sun_light, .55 * smoothstep(.46, .80, cloud) * smoothstep(.02, .35, up));
#endif
}
vec3 shown(vec3 light) {
  vec3 x = light * .72;
  return pow(clamp(x * (2.51 * x + .03) / (x * (2.43 * x + .59) + .14), 0., 1.), vec3(1. / 2.2));
}
`;
