'use strict';
// What stands over the picture: a legend that hides, what is picked, sliders, sums, and what is refused.
const NOTHING = {colours: {}, rules: {}, attributes: {}, values: {}, panel: {shapes: {}, groups: []}, variants: {}, bills: {}};
let picked = null, head = NOTHING;

function notice(text) {
  box_of('notice').textContent = text;
}

function show(name, is_shown, how = 'block') {
  box_of(name).style.display = is_shown ? how : 'none';
}

function legend_row(symbol, number) {
  const colour = document.createElement('span'), many = document.createElement('b'), name = document.createElement('i');
  const row = button('', event => {
    event.shiftKey ? alone(symbol) : hidden.delete(symbol) || hidden.add(symbol);
    legend();
    [...box_of('legend').querySelectorAll('button')].find(one => one.dataset.symbol === symbol).focus();
  });
  colour.style.background = `rgb(${(head.colours[symbol] || [200, 200, 200]).slice(0, 3)})`;
  many.textContent = town.counts[number].toLocaleString('en');
  name.textContent = decodeURIComponent(symbol);
  row.append(colour, name, many);
  row.dataset.symbol = symbol;
  row.setAttribute('aria-pressed', !hidden.has(symbol));
  return row;
}

function alone(symbol) {
  const others = town.symbols.filter(other => other !== symbol), is_alone = !hidden.has(symbol) && others.every(other => hidden.has(other));
  hidden.clear();
  if (!is_alone) others.forEach(other => hidden.add(other));
}

function legend() {
  const rows = town.symbols.map((symbol, number) => [symbol, number]).filter(([, number]) => town.counts[number] > 0);
  box_of('symbols').replaceChildren(...rows.map(([symbol, number]) => legend_row(symbol, number)));
  show('legend', rows.length);
  paint(head.colours);
  is_shadow_old = true;
  ask_draw();
}

function pick(x, y) {
  if (tiles) return tiles.pick(x, y);
  const hit = town.low && met(x, y);
  picked = hit ? {name: hit.batch.name, slot: hit.slot, floats: floats_at(hit)} : null;
  pick_again();
  ask_lot(hit);
}

// What an instance is, without the moment at which it came.
const floats_at = ({batch, slot}) => [...batch.data.subarray(slot * FLOATS, slot * FLOATS + MOMENT)].join();

// The instance that was picked, wherever it is kept now.
function picked_now() {
  const batch = picked && town.batches.get(picked.name), is_it = slot => slot < batch.total && floats_at({batch, slot}) === picked.floats;
  if (!batch) return null;
  if (!is_it(picked.slot)) picked.slot = [...Array(batch.total).keys()].findIndex(is_it);
  return picked.slot < 0 ? null : {batch, slot: picked.slot};
}

// Tells of what was picked for as long as it is there.
function pick_again() {
  const one = picked_now();
  if (!one) picked = null;
  const [symbol, ...others] = one ? told_of(one, head.rules) : [];
  const name = document.createElement('b');
  name.textContent = symbol || '';
  box_of('picked').replaceChildren(...(one ? [name, others.join(' \u00b7 ')] : []));
  mark(one);
  ask_draw();
}

// ---- sliders

function number(text) {
  const [top, bottom = 1] = text.split('/');
  return top / bottom;
}

// The ends and the step of a slider: as a comment of the script says, else from 0 to three times the value.
function ends_of(name, value) {
  const {low, high, step} = head.panel.shapes[name] || {};
  if (low !== undefined) return {min: low, max: high, step: step || (high - low) / 100};
  const most = 3 * Math.abs(value) || 1;
  return {min: Math.min(0, 3 * value), max: value < 0 ? 0 : most, step: 10 ** Math.floor(Math.log10(most) - 1.7)};
}

// A slider, or a choice where the script has one.
function input_of(name, text) {
  const {choices} = head.panel.shapes[name] || {}, made = document.createElement(choices ? 'select' : 'input');
  if (choices) made.append(...[...new Set([text, ...choices])].map(value => new Option(value, value)));
  else Object.assign(made, {type: 'range', ...ends_of(name, number(text))});
  made.id = 'slider_' + name;
  return made;
}

function slider(name, text) {
  const row = document.createElement('label'), input = input_of(name, text), told = document.createElement('output'), is_choice = input.tagName === 'SELECT';
  row.append(name, input, told);
  const set = said => {
    input.value = is_choice ? said : number(said);
    told.textContent = said;
    row.className = said === text ? '' : 'turned';
  };
  input.oninput = () => {
    const value = input.value;
    set(value);
    turn(name, value);
  };
  row.ondblclick = () => {
    set(text);
    turn(name, text);
  };
  row.title = 'double click: as in the script';
  shown_values.set(name, {set, text, is_held: () => sent.has(name) || input.matches(':active')});
  set(text);
  return row;
}

// The rows of sliders in their groups, and at the end a button that writes values into the script.
function rows_of_sliders() {
  const left = new Map(Object.entries(head.attributes)), rows = [];
  for (const [title, names] of [...head.panel.groups, ['', [...left.keys()]]]) {
    const own = names.filter(name => left.has(name)).map(name => slider(name, left.get(name)));
    names.forEach(name => left.delete(name));
    const heading = document.createElement('strong');
    heading.textContent = title;
    if (own.length) rows.push(...(title ? [heading] : []), ...own);
  }
  if (rows.length) rows.push(button('write into the script', () => tell_server('write', changed_values()), 'each value that is not that of the script'), row_of_variants());
  return rows;
}

const changed_values = () => Object.fromEntries(Object.entries(head.values).filter(([name, value]) => value !== head.attributes[name]));

// They are as the script says after each save, and then as any page sets them.
let sliders_for = '', turns_told = 0;
const shown_values = new Map(), sent = new Map(); // what the rows show; values that were sent and that nothing was told of yet
function sliders() {
  const said = JSON.stringify([head.attributes, head.save, head.panel, head.variants]);
  if (said !== sliders_for) {
    sliders_for = said;
    shown_values.clear();
    sent.clear();
    box_of('sliders').replaceChildren(...rows_of_sliders());
  }
  const is_answered = head.turns !== turns_told && !is_turning; // else what is told may be of values that were sent before
  for (const [name, value] of sent) if (is_answered || head.values[name] === value) sent.delete(name);
  turns_told = head.turns;
  for (const [name, {set, text, is_held}] of shown_values) if (!is_held()) set(head.values[name] ?? text);
}

// One request at a time; of the values that come meanwhile the last one is sent.
const wanted = new Map();
let is_turning = false;
async function turn(name, value) {
  wanted.set(name, value);
  sent.set(name, value);
  if (is_turning) return;
  is_turning = true;
  while (wanted.size) {
    const values = Object.fromEntries(wanted);
    wanted.clear();
    await fetch('set', {method: 'POST', body: JSON.stringify(values)}).catch(() => sent.clear());
  }
  is_turning = false;
}

// ---- sums

// How much was worked for an edit, as large as nothing else, while it lights up.
let told_until = 0;
function tell_worked() {
  const {shapes, worked, took} = head.stats || {}, many = value => value.toLocaleString('en');
  if (!Number.isInteger(worked)) return;
  box_of('worked').textContent = `${many(worked)} of ${many(shapes)} shapes worked in ${many(took)} ms`;
  show('worked', true);
  clearTimeout(told_until);
  told_until = setTimeout(() => show('worked', false), 2500);
}

function sums() {
  const {lots, shapes, instances, worked} = head.stats || {}, parts = [], many = value => value.toLocaleString('en');
  if (shapes !== undefined) parts.push(`${many(lots)} lots, ${many(instances)} solids`, `${many(shapes)} shapes`);
  if (Number.isInteger(worked)) parts[1] = `${many(worked)} of ${parts[1]} worked`;
  if (tiles) parts.push(tiles.told());
  if (town.low && shows.ground) parts.push(`grid ${+cell_of().toPrecision(1)}`);
  if (town.offset && town.offset.some(at => Math.abs(at) >= 1000)) parts.push(`drawn from ${town.offset.map(many).join(', ')}`);
  box_of('sums').textContent = parts.join(' \u00b7 ');
  canvas.setAttribute('aria-label', `a town: ${parts.join(', ')}`);
  show('sums', parts.length && !head.said);
}
