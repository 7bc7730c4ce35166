'use strict';
// The views that can be chosen, the cameras that the script keeps, and the sun.
const NOON = {latitude: 47.4, longitude: 8.5, moment: Date.UTC(2026, 5, 21, 11, 30)};
let place_of_sun = null, camera_at = -1;

function button(text, does, title = '') {
  const made = document.createElement('button');
  Object.assign(made, {type: 'button', textContent: text, title, onclick: does});
  return made;
}

const cameras = () => Object.entries(head.cameras || {});

// A row of buttons; its last one keeps the view as a camera of the script, where a preview can write it.
let views_for = '';
function views() {
  const told = JSON.stringify([head.cameras, head.save > 0, town.low === null]);
  if (told === views_for || tiles) return;
  views_for = told;
  const fixed = ['bird', 'corner', 'eye', 'plan'].map(name => button(name, () => see(VIEWS[name])));
  const own = cameras().map(([name, words]) => button(name, () => see(() => look_by(words)), `camera ${words}`));
  const keep = head.save > 0 ? [button('keep view', keep_camera, 'writes this view into the script as a camera')] : [];
  box_of('views').replaceChildren(...fixed, ...own, ...keep);
  show('views', town.low !== null, 'flex');
}

function next_camera() {
  if (cameras().length) look_by(cameras()[++camera_at % cameras().length][1]);
}

// ---- the sun

// Words as `47.37 8.54 2026-06-21T15:00+02:00`.
function set_sun(words) {
  const [latitude, longitude, moment] = (words || '').split(' ');
  place_of_sun = words ? {latitude: +latitude, longitude: +longitude, moment: Date.parse(moment)} : null;
  shine_by();
}

function shine_by() {
  sky = {way: place_of_sun ? sun_at(place_of_sun.latitude, place_of_sun.longitude, place_of_sun.moment) : SUN};
  is_shadow_old = true;
  sun_told();
  ask_draw();
}

function later(hours) {
  place_of_sun = place_of_sun || {...NOON};
  place_of_sun.moment += hours * 36e5;
  shine_by();
}

function sun_told() {
  const {latitude, longitude, moment} = place_of_sun || {};
  const text = place_of_sun ? `sun at ${latitude}, ${longitude}: ${new Date(moment).toISOString().slice(0, 16).replace('T', ' ')} UTC` : '';
  box_of('sun').textContent = text;
}
