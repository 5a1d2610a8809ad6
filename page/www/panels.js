/* The panels beside the lanes. Each draws what a state's text or the answers say, and works nothing out. */
import { el, grouped } from './dom.js';
import { queue } from './state.js';
import { brief, cause, gloss, INVALID, PHASES, ranges, REFUSALS, REFUSED, takenSave, VALID } from './sentences.js';

const MANY_SHEETS = 12, MANY_CHIPS = 8, MANY_STEPS = 40;

const quiet = text => el('p', 'quiet', text);
const sr = text => el('span', 'sr', text);

/* A save's number on the colour of its phase. */
const token = (s, t) => el('span', `token ${s.saves.get(t)?.phase ?? ''}`, sr('save '), String(t));
const mode = m => el('span', `mode ${m}`, m);

/* ---- Nodes, sheets and queues */

function entry(s, e) {
  const does = e.granted ? 'holds' : 'waits', item = el('li', `entry ${e.mode} ${does}`, mode(e.mode), ' ', token(s, e.save), ' ', el('span', '', does));
  if (!e.granted) item.append(sr(` for save ${e.waitsFor.join(', ')}`));
  item.title = e.granted ? `save ${e.save} holds ${e.mode}` : `save ${e.save} waits for save ${e.waitsFor.join(', ')}`;
  return item;
}

function sheet(s, k, named) {
  const { content, counter } = s.sheets[k], entries = queue(s, k);
  const line = entries.length ? el('ol', 'queue', ...entries.map(e => entry(s, e))) : el('p', 'queue quiet', 'no entry');
  const box = el('div', `sheet${named ? ' acts' : ''}`, el('span', 'sheetname', `Sheet ${k}`), sr(': content '), el('span', 'content', String(content)), ' ',
    el('span', 'counter', `counter ${counter}`), line);
  box.dataset.sheet = k;
  return box;
}

/* A sheet that nothing has happened to, as the state has it. */
const untouched = (s, k) => s.sheets[k].content === 0 && s.sheets[k].counter === 0 && !queue(s, k).length && !s.copies.some(c => c.sheet === k);

function node(s, n, owners, step) {
  const mine = [...owners.keys()].filter(k => owners[k] === n), fold = owners.length > MANY_SHEETS;
  const shown = mine.filter(k => !fold || k === step?.f.sheet || !untouched(s, k)), rest = mine.filter(k => !shown.includes(k));
  const head = el('div', 'nodehead', el('h4', '', `Node ${n}`), el('span', 'quiet', `has taken ${s.taken[n]} of ${s.places.length}`));
  const box = el('div', `node${step?.f.node === n ? ' acts' : ''}`, head, ...shown.map(k => sheet(s, k, step?.f.sheet === k)));
  box.dataset.node = n;
  if (rest.length) box.append(quiet(`Sheet${rest.length > 1 ? 's' : ''} ${ranges(rest).join(', ')}: content 0, counter 0, no entry.`));
  if (!mine.length) box.append(quiet('It owns no sheet.'));
  return box;
}

export function drawNodes(box, { state: s, header, step }) {
  box.replaceChildren(...(s ? s.taken.map((_, n) => node(s, n, header.owners, step)) : [quiet('There is no state.')]));
}

/* ---- The order */

/* Each node's answers to TAKE up to a step: its first is for place 0, its next for place 1. */
function verdicts(steps, at, nodes) {
  const found = Array.from({ length: nodes }, () => []);
  for (const step of steps.slice(0, at)) if (step.kind === VALID || step.kind === INVALID) found[step.f.node].push(step);
  return found;
}

function verdictCell(step, isNext) {
  if (!step) return isNext ? el('td', 'upnext', 'next') : el('td');
  const valid = step.kind === VALID, cell = el('td', valid ? 'valid' : 'invalid', valid ? '✓' : '✗', sr(valid ? ' valid' : ' invalid'));
  cell.title = valid ? 'found valid' : `found invalid: ${cause(step.value, step.number)}`;
  return cell;
}

const heading = (scope, look, ...kids) => Object.assign(el('th', look, ...kids), { scope });

function orderTable(s, found) {
  const rows = new Map(s.rows.map(r => [r.save, `${r.runs} ${r.outcome}`]));
  const places = s.places.map(({ save, last }, q) => heading('col', last ? '' : 'former', el('span', 'place', String(q)), token(s, save), last ? '' : el('span', 'was', 'former')));
  const cells = (n, taken) => s.places.map((_, q) => verdictCell(q < taken ? found[n][q] : null, q === taken));
  const nodes = s.taken.map((taken, n) => el('tr', '', heading('row', '', `Node ${n}`), ...cells(n, taken)));
  const outs = el('tr', 'outs', heading('row', '', 'runs, out'), ...s.places.map(({ save, last }) => el('td', '', last ? rows.get(save) ?? '' : '')));
  return el('table', 'order', el('thead', '', el('tr', '', heading('col', '', 'place'), ...places)), el('tbody', '', ...nodes, outs));
}

export function drawOrder(box, { state: s, steps, at }) {
  if (!s?.places.length) return box.replaceChildren(quiet(s ? 'No save has been submitted.' : 'There is no state.'));
  const found = verdicts(steps, at, s.taken.length), scroll = el('div', 'scroll', orderTable(s, found));
  scroll.tabIndex = 0;
  scroll.setAttribute('role', 'group');
  scroll.setAttribute('aria-label', 'The order, place by place');
  const causes = found.flatMap((list, n) => list.flatMap((step, q) => step.kind !== INVALID ? []
    : [el('li', '', `Node ${n} found save ${takenSave(step.value)} invalid at place ${q}: ${cause(step.value, step.number)}.`)]));
  box.replaceChildren(scroll, ...(causes.length ? [el('ul', 'causes', ...causes)] : []));
}

/* ---- Own copies and claims */

function copy(s, c) {
  const box = el('li', `copy${c.copy === 'W' ? ' written' : ''}${c.behind ? ' behind' : ''}`, ...(c.claim ? [mode(c.claim), ' '] : []), `sheet ${c.sheet}: `);
  const seen = ` saw counter ${c.counter}${c.behind ? `, now ${s.sheets[c.sheet].counter}` : ''}`;
  if (c.copy) box.append(el('b', '', String(c.content)), el('span', 'quiet', seen));
  else box.append(el('span', 'quiet', 'no copy'));
  return box;
}

function ownCopies(s, t, save) {
  const own = s.copies.filter(c => c.save === t), running = save.phase === 'F' || save.phase === 'L', over = save.phase === 'C' || save.phase === 'D';
  const list = el('ul', 'copylist', ...own.map(c => copy(s, c)));
  if (!own.length) list.append(el('li', 'quiet', running ? 'none yet' : 'none'));
  if (save.failed) list.append(el('li', 'failed', 'marked failed'));
  if (save.wide) list.append(el('li', 'wide', 'wide'));
  const phase = save.phase === 'L' ? `later run ${save.runs}` : PHASES[save.phase], row = el('div', `save${over ? ' over' : ''}`, token(s, t), el('span', 'quiet savephase', phase), list);
  row.dataset.save = t;
  return row;
}

export function drawCopies(box, { state: s }) {
  if (!s?.saves.size) return box.replaceChildren(quiet(s ? 'No save has begun.' : 'There is no state.'));
  box.replaceChildren(...[...s.saves].map(([t, save]) => ownCopies(s, t, save)));
}

/* ---- The key */

export function drawKey(box, lines) {
  box.replaceChildren(...lines.map(line => el('div', `line ${line[0]}`, el('code', '', line), ' ', el('span', 'quiet', gloss(line)))));
}

/* ---- What may come next */

function chip(words, tried, press) {
  const b = Object.assign(el('button', 'chip', words.step(tried.bytes)), { type: 'button' }), says = brief(tried);
  if (says !== 'accepted') b.append(el('span', 'quiet', ` ${says}`));
  b.addEventListener('click', () => press(tried.bytes));
  return b;
}

/* Many of one command go behind its name. */
function chips(words, list, press) {
  return grouped(list, t => t.f.name).flatMap(([name, some]) => {
    const all = some.map(t => chip(words, t, press));
    return all.length <= MANY_CHIPS ? all : [el('details', 'many', el('summary', '', `${name}, ${all.length} of them`), el('div', 'chips', ...all))];
  });
}

function refusedNow(words, list) {
  const rows = grouped(list, t => t.number).sort((a, b) => a[0] - b[0]).map(([number, some]) => {
    const steps = some.slice(0, MANY_STEPS).map(t => words.step(t.bytes)).join(', '), more = some.length - MANY_STEPS;
    return el('li', '', el('b', '', String(number)), ` ${REFUSALS[number]}: `, el('code', '', steps), more > 0 ? ` and ${more} more` : '');
  });
  return el('details', 'refusednow', el('summary', '', `Refused here: ${list.length}`), el('ul', '', ...rows));
}

/* A list that was opened stays open at the next step. */
const folded = box => [...box.querySelectorAll('details')].map(d => [d, d.firstChild.textContent.replace(/\d+/g, '')]);

/* tried: [{ bytes, f, kind, value, number }]; press is called with the bytes of one. */
export function drawNext(box, words, { tried, spent }, press) {
  const open = folded(box).filter(([d]) => d.open).map(([, name]) => name);
  const yes = tried.filter(t => t.kind !== REFUSED), no = tried.filter(t => t.kind === REFUSED), rank = t => t.f.node !== undefined ? -1 : t.f.save;
  const groups = grouped(yes, rank).sort((a, b) => a[0] - b[0]);
  const parts = groups.map(([t, list]) => el('div', 'group', el('span', 'quiet', t < 0 ? 'Nodes' : `Save ${t}`), el('div', 'chips', ...chips(words, list, press))));
  if (!yes.length) parts.push(quiet('The engine takes none of the steps that were tried.'));
  if (spent) parts.push(quiet('The session is long, so not every step was tried: READ and WRITE may be missing.'));
  else parts.push(quiet('Tried: each save that has begun and the first that has not, each node and sheet, content 1.'));
  if (no.length) parts.push(refusedNow(words, no));
  box.replaceChildren(...parts);
  for (const [d, name] of folded(box)) d.open = open.includes(name);
}

/* ---- The legend */

export function drawLegend(box) {
  const phase = p => [p, PHASES[p]];
  const items = [phase('F'), phase('S'), phase('L'), ['L wide', 'wide'], phase('C'), phase('D'), ['holds', 'holds'], ['waits', 'waits'], ['square', 'by a node'], ['round', 'by a save']];
  box.replaceChildren(...items.map(([look, name]) => el('li', '', el('i', `swatch ${look}`), name)));
}
