'use strict';
// Variants of the script: values of attributes under a name, shown one after the other, and what they come to side by side.
const thumbs = new Map(); // a small picture of each variant that was shown, by its name
const value_of = name => head.values[name] ?? head.attributes[name];

// Sets each attribute as a variant has it, or as the script does.
function show_variant(name, values) {
  for (const [one, text] of Object.entries(head.attributes)) {
    const wanted = values[one] ?? text;
    if (wanted !== value_of(one)) turn(one, wanted);
  }
  setTimeout(() => keep_thumb(name, values), 1500);
}

const is_shown = values => Object.entries(head.attributes).every(([one, text]) => value_of(one) === (values[one] ?? text));

function keep_thumb(name, values) {
  if (!town.low || !is_shown(values)) return;
  const small = document.createElement('canvas');
  Object.assign(small, {width: 150, height: Math.round(150 * canvas.height / canvas.width)});
  small.getContext('2d').drawImage(canvas, 0, 0, small.width, small.height);
  thumbs.set(name, small.toDataURL());
  bills();
}

// Writes the sliders' values into the script under a name.
async function keep_variant() {
  const words = Object.entries(changed_values()).map(([name, value]) => `${name}=${value}`).join(' ');
  if (!words) return notice('Move a slider first: a variant has values that are not those of the script.');
  const name = prompt('A name for these values, of letters, digits and underscores:', `variant${Object.keys(head.variants).length + 1}`);
  if (name) await tell_server('keep', {variant: name, words});
}

// A button for the script's own values and each variant, one that keeps the sliders' values, and one that compares.
function row_of_variants() {
  const row = document.createElement('div'), own = Object.entries(head.variants);
  const shown = [['script', {}], ...own].map(([name, values]) => button(name, () => show_variant(name, values), words_of(values)));
  const compare = button('compare', () => tell_server('compare', {}), 'bills and floor areas of all variants, side by side');
  row.append(...(own.length ? shown : []), button('keep variant', keep_variant, 'writes these values into the script under a name'), ...(own.length ? [compare] : []));
  row.className = 'variants';
  return row;
}

const words_of = values => Object.entries(values).map(([name, value]) => `${name} ${value}`).join(', ');

function cell(kind, ...inner) {
  const made = document.createElement(kind);
  made.append(...inner);
  return made;
}

const many_of = value => value === '' || value === undefined ? '' : Number(value).toLocaleString('en');

// What the bill of a variant has for a symbol: how many solids, and their fronts.
function of_symbol({rows = []}, symbol) {
  const found = rows.find(row => row[0] === symbol);
  return found ? `${many_of(found[1])} \u00b7 ${many_of(found[2])}` : '-';
}

function head_of_variant(name, values) {
  const inner = [button(name || 'script', () => show_variant(name || 'script', values))], picture = thumbs.get(name || 'script');
  if (picture) inner.unshift(Object.assign(new Image(), {src: picture, alt: `the town of ${name || 'script'}`}));
  return cell('th', ...inner);
}

// The table of all variants that were worked so far.
function bills() {
  const told = Object.entries(head.bills), line = (title, text) => cell('tr', cell('th', title), ...told.map(one => cell('td', text(...one))));
  show('bills', told.length);
  if (!told.length) return;
  const values = name => head.variants[name] || {}, symbols = [...new Set(told.flatMap(([, {rows = []}]) => rows.map(row => row[0])))].sort();
  const turned = Object.keys(head.attributes).filter(one => told.some(([name]) => values(name)[one] !== undefined));
  const area = told.some(([, {floors}]) => typeof floors === 'number');
  const solids = ({rows = []}) => many_of(rows.reduce((sum, row) => sum + Number(row[1]), 0));
  box_of('bills').replaceChildren(button('close', () => show('bills', false)), cell('table',
    cell('tr', cell('th', ''), ...told.map(([name]) => head_of_variant(name, values(name)))),
    ...turned.map(one => line(one, name => values(name)[one] ?? head.attributes[one])),
    ...(area ? [line('floor area', (_, {floors}) => many_of(floors))] : []),
    line('solids', (_, bill) => bill.said || solids(bill)),
    ...symbols.map(symbol => line(decodeURIComponent(symbol), (_, bill) => of_symbol(bill, symbol)))));
}
