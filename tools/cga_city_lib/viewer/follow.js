'use strict';
// Shows what the page was given, or asks the preview for each change.

// What came: values of the head that changed, and from a place of the data on the floats of the instances that did.
function take(told, data, from) {
  if (!told.from) town.forget();
  add_meshes(told.meshes || {});
  const had_some = town.low !== null, lights_up = had_some && head.save > 0, now = moment();
  const is_changed = told.tables.length > 0 || !told.from;
  if (is_changed) take_instances(told, data, from, lights_up ? now : OVER, !had_some || !head.save);
  if (is_changed && lights_up) drawn_last = now;
  head = {...(told.from ? head : NOTHING), ...told};
  document.title = head.title;
  canvas.className = head.is_stale ? 'stale' : '';
  tell(head.said || '');
  if (is_changed || told.colours) legend();
  if (is_changed || told.rules) {
    pick_again();
    no_lot();
  }
  if (told.sun !== undefined) set_sun(told.sun);
  sliders();
  if (told.bills) bills();
  views();
  sums();
  if (is_changed && lights_up) tell_worked();
}

// The view stays, unless nobody has turned it, and nothing was there before.
function take_instances(told, data, from, moment, is_first) {
  town.take(told, data, from, moment);
  is_shadow_old = true;
  if (town.low && is_first && !is_touched) look_at(town);
}

// An answer: the length of its head, the head, and what follows it.
function take_answer(data) {
  const size = new DataView(data).getUint32(0, true), told = JSON.parse(new TextDecoder().decode(new Uint8Array(data, 4, size)));
  take(told, data, 4 + size);
  return told;
}

// The answer that stands in a page of one file, packed and in letters.
async function take_packed(letters) {
  const packed = Uint8Array.from(atob(letters), letter => letter.charCodeAt(0));
  take_answer(await new Response(new Blob([packed]).stream().pipeThrough(new DecompressionStream('deflate'))).arrayBuffer());
}

async function follow() {
  let stamp = '', is_lost = false;
  for (;;) {
    try {
      const data = await (await fetch('state?' + stamp)).arrayBuffer(), was = head.values, told = take_answer(data);
      if (is_lost || told.save !== undefined) notice(is_lost ? forgotten(was) : '');
      [stamp, is_lost] = [told.stamp, false];
    } catch (fault) {
      tell('the preview has ended');
      await new Promise(done => setTimeout(done, 1000));
      [stamp, is_lost] = ['', true];
    }
  }
}

// Writes the view into the script as a camera.
async function keep_camera() {
  if (!(head.save > 0)) return notice(`This view as a line of a script: # camera NAME ${camera_words()}`);
  const name = prompt('A name for this view, of letters, digits and underscores:', `view${cameras().length + 1}`);
  if (name) await tell_server('keep', {camera: name, words: camera_words()});
}

// What was sent and couldn't be taken is said.
async function tell_server(address, words) {
  const answer = await fetch(address, {method: 'POST', body: JSON.stringify(words)}).catch(() => null);
  if (!answer || !answer.ok) notice(answer ? await answer.text() || 'The preview refused it.' : 'The preview has ended.');
}

// What a preview that was begun again doesn't know any more.
function forgotten(values) {
  const lost = Object.entries(values).map(([name, value]) => `${name} ${value}`).join(', ');
  return lost && `The preview was begun again, and forgot the sliders: ${lost}. Each value is that of the script.`;
}

const given = /*TOWN*/null;
if (!gl) tell('this browser has no WebGL 2');
else if (given && given.tileset) open_tiles(given);
else if (given) take_packed(given.packed);
else {
  ask_draw();
  follow();
}
