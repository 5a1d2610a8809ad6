/* The saves as lanes over the steps, as one SVG. Phases come from the S lines and locks from the Q lines of each state; marks come from the steps. */
import { svg } from './dom.js';
import { entriesOf } from './state.js';
import { brief, INVALID, phaseName, PHASES, ranges, REFUSED, takenSave, VALID } from './sentences.js';

const LANE = 58, TOP = 24, LEFT = 92; // a lane's height, the numbers' above them, the names' width
const MIDDLE = 24; // of a lane's band
const NARROW = 36, WIDE = 54, LEAST = 30; // of a step's column
const LOOSE = 30; // the row of a refused step that has no lane
const RIGHT = 84; // what labels may reach into behind the last step
const MOST_ARROWS = 24;

const pen = document.createElement('canvas').getContext('2d');
function wide(text, px, bold) {
  pen.font = `${bold ? '600 ' : ''}${px}px system-ui, "DejaVu Sans", sans-serif`;
  return pen.measureText(text).width;
}

/* ---- What is drawn: stretches of steps in which a save stays the same */

/* [{ from, to, what }]: `what` is the same in all states from `from` to `to`. */
function stretches(states, of, name) {
  const all = [];
  states.forEach((s, i) => {
    const what = of(s), last = all.at(-1);
    if (last?.what && what && name(last.what) === name(what)) last.to = i;
    else if (what || last?.what) all.push({ from: i, to: i, what });
  });
  return all.filter(x => x.what);
}

const phasesOf = (states, t) => stretches(states, s => s.saves.get(t), phaseName);

/* A save is drawn as holding where it has entries and none of them waits. */
function lockOf(s, t) {
  const entries = entriesOf(s, t);
  return entries.length ? { waits: entries.some(e => !e.granted), on: [...new Set(entries.flatMap(e => e.waitsFor))] } : null;
}
const locksOf = (states, t) => stretches(states, s => lockOf(s, t), x => `${x.waits} ${x.on}`);

const lockName = lock => lock.waits ? `waits for ${ranges(lock.on).join(', ')}` : 'holds';

/* A phase's name, and shorter ones where there is no room for it. */
function phaseNames(save) {
  if (save.phase === 'F') return [phaseName(save), 'first'];
  if (save.phase !== 'L') return [phaseName(save)];
  return [phaseName(save), `run ${save.runs}${save.wide ? ', wide' : ''}`, save.wide ? 'wide' : `run ${save.runs}`];
}

/* ---- The drawing */

/* Of a model { steps, states, at, shown, total }: the first `shown` of `total` steps are drawn, and those behind `at` are faded. */
class Lanes {
  constructor(model, room) {
    Object.assign(this, model);
    const n = Math.max(1, this.total), fit = Math.floor((room - LEFT - RIGHT) / n), last = this.steps[this.shown - 1];
    this.column = fit >= LEAST ? Math.min(WIDE, fit) : NARROW;
    this.end = Math.min(this.states.length - 1, this.shown); // the last state that is drawn
    this.saves = [...this.states[this.end].saves.keys()].sort((a, b) => a - b);
    this.refused = last?.kind === REFUSED ? last : null;
    this.width = LEFT + this.column * n + RIGHT;
    this.height = TOP + this.saves.length * LANE + (this.refused && !this.saves.includes(this.refused.f.save) ? LOOSE : 2);
    this.now = LEFT + this.at * this.column; // where the future begins
    this.edge = LEFT + this.shown * this.column;
    this.state = this.states[Math.min(this.at, this.states.length - 1)];
  }

  x(i) { return i ? LEFT + (i - 0.5) * this.column : LEFT; }
  y(t) { return TOP + this.saves.indexOf(t) * LANE; }
  until(to) { return to === this.end ? Math.max(this.edge, this.x(to)) : this.x(to + 1); }

  /* A bar from x to x, cut where the future begins. */
  bar(group, look, from, to, at) {
    const cut = Math.min(Math.max(this.now, from), to);
    if (cut > from) group.append(svg('rect', { class: look, x: from, width: cut - from, ...at }));
    if (to > cut) group.append(svg('rect', { class: `${look} future`, x: cut, width: to - cut, ...at }));
  }

  /* The first of the texts that fits before the next label; none where no text does. */
  label(group, look, texts, from, to, y, bold) {
    const text = texts.find(t => wide(t, bold ? 10.5 : 10, bold) <= to - from - 7);
    if (text) group.append(svg('text', { class: look + (from >= this.now ? ' future' : ''), x: from + 2, y }, text));
  }

  phases(group, labels, t) {
    const y = this.y(t), all = phasesOf(this.states.slice(0, this.end + 1), t);
    all.forEach(({ from, to, what }, i) => {
      const x = this.x(from), end = this.until(to), height = what.phase === 'C' || what.phase === 'D' ? 6 : 16;
      this.bar(group, `band ${what.phase}${what.wide ? ' wide' : ''}`, x, end, { y: y + MIDDLE - height / 2, height, rx: 1 });
      this.label(labels, `phase ${what.phase}`, phaseNames(what), x, i + 1 < all.length ? end : this.width, y + 11, true);
    });
  }

  locks(group, labels, t) {
    const y = this.y(t), all = locksOf(this.states.slice(0, this.end + 1), t);
    all.forEach(({ from, to, what }, i) => {
      const x = this.x(from), look = what.waits ? 'waits' : 'holds', next = all[i + 1];
      this.bar(group, `lock ${look}`, x, this.until(to), { y: y + 36, height: 5 });
      this.label(labels, `locked ${look}`, [lockName(what), look], x, next ? this.x(next.from) : this.width, y + 51, what.waits);
    });
  }

  mark(group, step, i) {
    const t = step.kind === VALID || step.kind === INVALID ? takenSave(step.value) : step.f.save, bad = step.kind === REFUSED;
    const y = this.saves.includes(t) ? this.y(t) + MIDDLE : this.height - LOOSE / 2;
    const g = svg('g', { class: `mark${bad ? ' refused' : ''}${i > this.at ? ' future' : ''}`, 'data-step': i, transform: `translate(${this.x(i)} ${y})` });
    g.append(svg('title', {}, `${i}. ${step.words}: ${brief(step)}`));
    if (bad) g.append(svg('circle', { class: 'spot', r: 11 }), svg('path', { class: 'cross', d: 'M-5.5 -5.5L5.5 5.5M5.5 -5.5L-5.5 5.5' }));
    else this.pill(g, step);
    group.append(g);
  }

  /* Square for what a node does, round for what a save does. */
  pill(g, step) {
    const byNode = step.f.node !== undefined, verdict = step.kind === VALID ? '✓' : step.kind === INVALID ? '✗' : '';
    const text = step.words[0] + (byNode ? step.f.node : step.f.sheet ?? ''), w = Math.max(20, wide(text + verdict, 11, true) + 9);
    const letter = svg('text', { class: 'letter', y: 4 }, text);
    if (verdict) letter.append(svg('tspan', { class: step.kind === VALID ? 'valid' : 'invalid' }, verdict));
    g.append(svg('rect', { class: 'pill', x: -w / 2, y: -9.5, width: w, height: 19, rx: byNode ? 3 : 9.5 }), letter);
  }

  /* From a save that waits to each whose entry stands in its way. Where these would be too many, only to the one that is latest in the order, and
     `fewer` says so. */
  arrows(group) {
    const waits = this.saves.map(t => [t, lockOf(this.state, t)?.on ?? []]).filter(([, on]) => on.length), count = waits.reduce((n, [, on]) => n + on.length, 0);
    const place = u => this.state.saves.get(u).place, latest = on => [on.reduce((u, v) => place(v) > place(u) ? v : u)];
    for (const [t, on] of waits) for (const u of count <= MOST_ARROWS ? on : latest(on)) this.arrow(group, t, u);
    this.fewer = count <= MOST_ARROWS ? '' : `${waits.length} of ${count} arrows are drawn: from each save that waits to the latest in the order that it waits for.`;
  }

  arrow(group, t, u) {
    const from = this.y(t) + MIDDLE, to = this.y(u) + MIDDLE, d = Math.sign(to - from), x = this.now;
    const bow = x + Math.min(70, 10 + 8 * Math.abs(this.saves.indexOf(t) - this.saves.indexOf(u)));
    group.append(svg('g', { class: 'arrow', 'data-from': t, 'data-to': u },
      svg('title', {}, `save ${t} waits for save ${u}`),
      svg('path', { d: `M${x + 2} ${from + 4 * d}C${bow} ${from} ${bow} ${to} ${x + 8} ${to - 3 * d}` }),
      svg('path', { class: 'tip', d: `M${x + 2} ${to - d}l10 ${-5.5 * d}l-1.5 ${8.5 * d}z` })));
  }

  numbers(group) {
    for (let i = 1; i <= this.shown; i++)
      group.append(svg('text', { class: `number${i > this.at ? ' future' : ''}${i === this.at ? ' here' : ''}`, x: this.x(i), y: 13 }, String(i)));
    if (this.refused) group.append(svg('text', { class: 'refusal', x: this.edge + 5, y: 13 }, `refusal ${this.refused.number}`));
  }

  names() {
    const g = svg('g', { class: 'names' }, svg('rect', { class: 'ground', width: LEFT - 6, height: this.height }));
    for (const t of this.saves) {
      const save = this.state.saves.get(t), name = !save ? 'not begun' : save.phase === 'L' ? `later run ${save.runs}` : phaseName(save);
      g.append(svg('text', { class: 'name', x: 2, y: this.y(t) + 23 }, `Save ${t}`));
      g.append(svg('text', { class: `phase ${save?.phase ?? ''}`, x: 2, y: this.y(t) + 37 }, name));
    }
    return g;
  }

  /* The shown step's column, that of a refused step, and the time before a save begins. */
  ground(group) {
    const column = (look, to) => svg('rect', { class: look, x: to - this.column, width: this.column, height: this.height, rx: 4 });
    if (this.at) group.append(column('column', this.now));
    if (this.refused) group.append(column('column bad', this.edge));
    for (const t of this.saves) {
      const y = this.y(t) + MIDDLE, begins = this.states.findIndex(s => s.saves.has(t));
      group.append(svg('line', { class: 'rail', x1: LEFT, x2: this.x(begins), y1: y, y2: y }));
    }
  }

  draw() {
    const g = svg('g', {}), labels = svg('g', {});
    this.ground(g);
    for (const t of this.saves) {
      this.phases(g, labels, t);
      this.locks(g, labels, t);
    }
    this.numbers(g);
    g.append(svg('line', { class: 'playhead', x1: this.now, x2: this.now, y1: 16, y2: this.height }), labels);
    this.steps.slice(0, this.shown).forEach((step, i) => this.mark(g, step, i + 1));
    this.arrows(g);
    const size = { width: this.width, height: this.height, viewBox: `0 0 ${this.width} ${this.height}` };
    return svg('svg', { class: 'lanes', ...size, 'aria-hidden': 'true' }, patterns(), g, this.names());
  }
}

function patterns() {
  const stripes = (id, look, size, width) => svg('pattern', { id, width: size, height: size, patternUnits: 'userSpaceOnUse', patternTransform: 'rotate(45)' },
    svg('rect', { class: `${look} ground`, width: size, height: size }), svg('rect', { class: look, width, height: size }));
  return svg('defs', {}, stripes('submitted', 'stripe', 6, 2), stripes('waits', 'waiting', 5, 2.5), stripes('wide', 'widened', 6, 2));
}

/* The drawing; the shown step's column lies between `from` and `to`, with room for the names before it and for a step behind it. */
export function draw(model, room) {
  const lanes = new Lanes(model, room);
  return { root: lanes.draw(), from: lanes.now - lanes.column - LEFT, to: lanes.now + lanes.column, fewer: lanes.fewer };
}

/* The lanes told, a save at a time. */
export function tell({ states, shown }) {
  const end = Math.min(states.length - 1, shown), drawn = states.slice(0, end + 1);
  const span = x => `from step ${x.from}${x.to === end ? '' : ` to ${x.to}`}`;
  const lock = ({ waits, on }) => waits ? `waits for save ${ranges(on).join(', ')}` : 'holds';
  return [...drawn[end].saves.keys()].sort((a, b) => a - b).map(t => {
    const parts = [...phasesOf(drawn, t).map(p => `${phaseName(p.what)} ${span(p)}`), ...locksOf(drawn, t).map(l => `${lock(l.what)} ${span(l)}`)];
    return `Save ${t}: ${parts.join('; ')}.`;
  });
}

/* ---- The drawing as a file of its own */

const rulesOf = name => [...[...document.styleSheets].find(s => s.href?.endsWith(name)).cssRules];

/* The drawing's rules with the colours of the light palette in them, so that no program needs to know variables. */
function styles() {
  const palette = rulesOf('/colours.css').find(r => r.selectorText === ':root').style;
  const resolved = rule => rule.cssText.replace(/var\((--[a-z-]+)\)/g, (_, name) => palette.getPropertyValue(name).trim());
  return rulesOf('/lanes.css').map(resolved).join('\n');
}

/* What the colours and shapes mean, in a row. */
function key(y) {
  const g = svg('g', {});
  const band = (phase, height, more = '') => [more || PHASES[phase], x => svg('rect', { class: `band ${phase} ${more}`, x, y: y - height / 2 - 4, width: 18, height })];
  const lock = name => [name, x => svg('rect', { class: `lock ${name}`, x, y: y - 6, width: 18, height: 5 })];
  const mark = (name, rx) => [name, x => svg('rect', { class: 'pill', x: x + 3, y: y - 10, width: 13, height: 13, rx })];
  const items = [band('F', 12), band('S', 12), band('L', 12), band('L', 12, 'wide'), band('C', 6), band('D', 6), lock('holds'), lock('waits'), mark('by a node', 2), mark('by a save', 6.5)];
  let x = 12;
  for (const [name, shape] of items) {
    g.append(shape(x), svg('text', { class: 'caption', x: x + 23, y }, name));
    x += 38 + wide(name, 11);
  }
  return { row: g, width: x };
}

export function toFile(model, about) {
  const lanes = new Lanes(model, 0), inner = lanes.draw(), height = lanes.height + 76, { row, width: least } = key(height - 12);
  const caption = lanes.fewer ? `${about}. ${lanes.fewer}` : about, width = Math.max(lanes.width + 24, least, wide(caption, 13, true) + 30);
  inner.setAttribute('x', 12);
  inner.setAttribute('y', 44);
  inner.removeAttribute('aria-hidden');
  const root = svg('svg', { class: 'lanes', width, height, viewBox: `0 0 ${width} ${height}` }, svg('title', {}, caption), svg('style', {}, styles()),
    svg('rect', { class: 'ground', width, height }), svg('text', { class: 'name', x: 12, y: 26 }, caption), inner, row);
  return '<?xml version="1.0" encoding="UTF-8"?>\n' + new XMLSerializer().serializeToString(root) + '\n';
}
