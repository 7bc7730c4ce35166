'use strict';
// How a solid came that was clicked on, as the preview tells it: the shapes above it, the rule that each took, the lot's tree.
let asked_of = 0;

const place_of = ({batch: {data}, slot}) => [0, 1, 2].map(k => town.offset[k] + data[slot * FLOATS + k]).concat([0, 1, 2].map(k => data[slot * FLOATS + SIZES + k]));

function no_lot() {
  asked_of++;
  box_of('lot').replaceChildren();
}

// Asks the preview; of two questions the last one is answered.
async function ask_lot(one) {
  no_lot();
  if (!one || !(head.save > 0)) return;
  const number = asked_of, at = one.slot * FLOATS, {data} = one.batch;
  const names = {lot: town.lots[data[at + LOT]], symbol: town.symbols[data[at + SYMBOL]]};
  const words = {lot: decodeURIComponent(names.lot), symbol: decodeURIComponent(names.symbol), place: place_of(one).join(' ')};
  const answer = await fetch('explain', {method: 'POST', body: JSON.stringify(words)}).catch(() => null);
  if (!answer || number !== asked_of) return;
  const told = answer.ok ? await answer.json() : {said: await answer.text()};
  if (number === asked_of) box_of('lot').replaceChildren(...(told.said ? [told.said] : lot_parts(told)));
}

function lot_parts({lot, path, way, shape, tree}) {
  const steps = cell('ol', ...way.map(step_of));
  return [cell('strong', `${lot} ${path}`), steps, folded('all about the shape that drew it', shape), folded('the tree of the lot', tree)];
}

// A shape above: its symbol and size, the rule that it took, and its line, which opens the editor where there is one.
function step_of({symbol, size, rule, why, line, text}) {
  const place = head.editor && line ? button(`line ${line}`, () => tell_server('open', {line: String(line)}), text) : cell('span', line ? `line ${line}` : '');
  place.title = text;
  return cell('li', `${symbol} ${size}: ${rule} `, place, ...(why ? [cell('small', ` ${why}`)] : []));
}

function folded(title, lines) {
  return cell('details', cell('summary', title), cell('pre', lines.join('\n')));
}
