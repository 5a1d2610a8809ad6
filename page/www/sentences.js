/* What the engine answered, in words. Every fact is read from an answer or from a state's text; nothing is worked out. */
import { grouped } from './dom.js';
import { copyOf, entriesOf, queue } from './state.js';

/* Of cusphewa.h: the kinds of an answer, and the rules of a cause. */
export const VALID = 3, INVALID = 4, REFUSED = 7;
const ACCEPTED = 1, CONTENT = 2, COMMITTED = 5, AGAIN = 6, RULES = ['', 'X granted', 'X waiting', 'counter behind'];
export const PHASES = { F: 'first run', S: 'submitted', L: 'later run', C: 'committed', D: 'dropped' };
const OUTCOMES = { C: 'committed', D: 'dropped', U: 'not over yet' };
export const REFUSALS = {
  1: 'the header is short or out of range, or the session has over 16,384 bytes',
  2: 'unknown command byte',
  3: 'operands cut short',
  4: 'no such save, node or sheet',
  5: 'the save has begun and is not over, and its phase does not allow the command',
  6: 'a first-run READ without an own copy meets an X at the front of the sheet’s queue',
  7: 'WRITE without a copy from this run',
  8: 'never occurs any more: a later run may open another sheet',
  9: 'TAKE: the node has taken every submitted save',
  10: 'DECIDE: a concerned node has not taken the save, or an entry of it waits',
  11: 'APPLY: the save has no entry at the node',
  12: 'the report buffer has under 4,096 bytes',
  13: 'the save never began',
  14: 'the save is over, committed or dropped',
  15: 'the room lent is too short',
};

/* A TAKE's answer: its save; where it is invalid also the sheet and the rule of the cause. */
export const takenSave = value => value % 65536;
const causeSheet = value => Math.floor(value / 65536);

export const phaseName = save => save.phase === 'L' ? `later run ${save.runs}${save.wide ? ', wide' : ''}` : PHASES[save.phase];
const plural = (n, word) => `${n} ${word}${n === 1 ? '' : 's'}`;
const and = parts => parts.length < 2 ? parts.join('') : `${parts.slice(0, -1).join(', ')} and ${parts.at(-1)}`;

/* Numbers in their order, those that follow each other as one: 0 to 3, 7. */
export function ranges(numbers) {
  const parts = [];
  for (const n of numbers) {
    if (parts.length && parts.at(-1).at(-1) === n - 1) parts.at(-1).push(n);
    else parts.push([n]);
  }
  return parts.flatMap(p => p.length < 3 ? p.map(String) : [`${p[0]} to ${p.at(-1)}`]);
}
const named = (word, numbers) => `${word}${numbers.length > 1 ? 's' : ''} ${and(ranges(numbers))}`;
const saves = list => named('save', list);
/* The sheets of these entries, claims or copies. */
const sheetsOf = list => named('sheet', list.map(x => x.sheet));
/* A phrase for those that are alike, whose sheets it names together. */
const byKind = (list, kind, phrase) => grouped(list, kind).map(([, own]) => phrase(own[0], sheetsOf(own)));

/* An answer in two or three words, beside its line. */
export function brief({ kind, value, number }) {
  switch (kind) {
    case ACCEPTED: return 'accepted';
    case CONTENT: return `→ ${value}`;
    case VALID: return `save ${value} valid`;
    case INVALID: return `save ${takenSave(value)} invalid`;
    case COMMITTED: return 'committed';
    case AGAIN: return 'runs again';
    case REFUSED: return `refused ${number}`;
    default: return '';
  }
}

export const cause = (value, number) => `sheet ${causeSheet(value)}, ${RULES[number]}`;

/* ---- Why a step was refused, by the state that it met */

/* What there is not yet of a save that is submitted: entries at sheets of its claim, and entries that are granted. */
function pending(s, t, owners) {
  const missing = s.copies.filter(c => c.save === t && c.claim && !queue(s, c.sheet).some(e => e.save === t)), waiting = entriesOf(s, t).filter(e => !e.granted);
  return [...grouped(missing, c => owners[c.sheet]).map(([n, own]) => `node ${n} has no entry of save ${t} yet at ${sheetsOf(own)} of its claim`),
    ...byKind(waiting, e => `${e.waitsFor}`, (e, on) => `save ${t} waits for ${saves(e.waitsFor)} on ${on}`)].join('; ');
}

const ranged = header => `this session has nodes 0 to ${header.nodes - 1} and sheets 0 to ${header.owners.length - 1}, and saves go from 0 to 31`;

export function reason(f, number, s, header) {
  const t = f.save, save = s?.saves.get(t), name = save && phaseName(save);
  if (!s) return '';
  switch (number) {
    case 4: return ranged(header);
    case 5: return save?.phase === 'F' || save?.phase === 'L' ? `save ${t} is in its ${name}` : `save ${t} is ${name}`;
    case 6: return `save ${queue(s, f.sheet)[0]?.save}’s X is at the front of sheet ${f.sheet}’s queue`;
    case 7: return `save ${t} has no copy of sheet ${f.sheet} from this run`;
    case 9: return s.places.length ? `node ${f.node} has taken all ${plural(s.places.length, 'place')} of the order` : 'no save has been submitted';
    case 10: return pending(s, t, header.owners);
    case 11: return `save ${t} has no entry in the queues of node ${f.node}`;
    case 13: return `save ${t} never began`;
    case 14: return `save ${t} is ${name}`;
    default: return '';
  }
}

/* ---- One sentence a step */

const entryWords = entries => byKind(entries, e => e.granted ? e.mode : `${e.waitsFor}`, (e, on) => e.granted ? `holds ${e.mode} on ${on}` : `waits on ${on} for ${saves(e.waitsFor)}`);
const becameWide = (before, after, t) => !before.saves.get(t)?.wide && after.saves.get(t)?.wide ? ' With this its run is wide.' : '';

/* Entries that waited before the step and are granted after it. */
function gains(before, after) {
  const waited = (e, k) => queue(before, k).some(b => b.save === e.save && !b.granted);
  const gained = after.queues.flatMap((q, sheet) => q.filter(e => e.granted && waited(e, sheet)).map(e => ({ sheet, ...e })));
  return byKind(gained, e => `${e.save} ${e.mode}`, (e, on) => `save ${e.save} now holds ${e.mode} on ${on}`);
}

function read({ value, f }, before, after, header) {
  const own = copyOf(before, f.save, f.sheet)?.copy, where = own ? ' in its own copy' : ` at node ${header.owners[f.sheet]}`;
  return `Save ${f.save} reads sheet ${f.sheet}${where} and gets ${value}.${becameWide(before, after, f.save)}`;
}

function submitted({ f }, before, after) {
  const t = f.save, was = before.saves.get(t), is = after.saves.get(t);
  const claims = byKind(after.copies.filter(c => c.save === t && c.claim), c => c.claim, (c, on) => `${c.claim} on ${on}`);
  if (is.phase === 'C') return `Save ${t} ends its ${phaseName(was)} and is committed.`;
  const again = was.wide ? ` once more, for its run was wide; place ${was.place} is a former place now` : '';
  const goes = [entriesOf(before, t).length && !entriesOf(after, t).length ? 'its entries go' : '', was.failed && !is.failed ? 'its failed mark is cleared' : ''];
  const rest = and([...goes.filter(Boolean), ...gains(before, after)]);
  return `Save ${t} joins the order at place ${is.place}${again}. It claims ${and(claims) || 'no sheet'}${rest ? `; ${rest}` : ''}.`;
}

/* What a TAKE met where it found the save invalid. */
function met({ value, number }, before) {
  const t = takenSave(value), k = causeSheet(value), entries = queue(before, k);
  if (number === 1) return `save ${entries[0]?.save}’s X is at the front of the queue`;
  if (number === 2) return `the queue holds the X of ${saves(entries.filter(e => e.mode === 'X').map(e => e.save))}, and its front entry is an S`;
  return `it saw counter ${copyOf(before, t, k)?.counter}, and the sheet’s is ${before.sheets[k].counter}`;
}

function took(step, before, after, header) {
  const { kind, value, number, f } = step, t = takenSave(value), place = before.taken[f.node];
  if (!before.places[place].last) return `Node ${f.node} comes to place ${place}, a former place of save ${t}: it only moves on.`;
  const here = entryWords(entriesOf(after, t).filter(e => header.owners[e.sheet] === f.node));
  const found = kind === VALID ? 'valid' : `invalid at sheet ${causeSheet(value)}, ${RULES[number]}: ${met(step, before)}`;
  return `Node ${f.node} takes save ${t} at place ${place} and finds it ${found}. It ${here.length ? and(here) : 'has no entry here'}.`;
}

function decided({ kind, f }, before, after) {
  const { runs } = after.saves.get(f.save);
  if (kind === COMMITTED) return `Save ${f.save} is not marked failed: committed, from its ${runs === 1 ? 'first run' : `later run ${runs}`}.`;
  return `Save ${f.save} is marked failed, and no entry of it waits: it runs again under its locks, in its later run ${runs}.`;
}

function applied({ f }, before, after) {
  const { phase } = before.saves.get(f.save), gained = gains(before, after);
  const changed = after.sheets.flatMap((o, k) => o.content !== before.sheets[k].content ? [`sheet ${k} now holds ${o.content}, counter ${o.counter}`] : []);
  const what = changed.length ? and(changed) : phase === 'D' ? 'nothing is written' : 'no content changes';
  const rest = `Its entries here go${gained.length ? '; ' + and(gained) : ''}.`;
  return `Node ${f.node} carries out save ${f.save}, which was ${PHASES[phase]}: ${what}. ${rest}`;
}

function dropped({ f }, before, after) {
  const left = entriesOf(after, f.save), stay = left.length ? ` Its entries stay until APPLY, on ${sheetsOf(left)}.` : '';
  return `Save ${f.save} is given up in its ${phaseName(before.saves.get(f.save))}: dropped.${stay}`;
}

const tellers = {
  BEGIN: ({ f }) => `Save ${f.save} begins its first run. It works on copies of its own.`,
  READ: read,
  WRITE: ({ f }, before, after) => `Save ${f.save} writes ${f.content} into its own copy of sheet ${f.sheet}.${becameWide(before, after, f.save)}`,
  SUBMIT: submitted,
  TAKE: took,
  DECIDE: decided,
  APPLY: applied,
  'GIVE UP': dropped,
};

/* `before` and `after` are the states around the step; without them the answer alone is told. */
export function sentence(step, before, after, header) {
  if (step.kind === REFUSED) return `Refusal ${step.number}: ${reason(step.f, step.number, before, header) || REFUSALS[step.number]}.`;
  return before && after && tellers[step.f.name] ? tellers[step.f.name](step, before, after, header) : `${brief(step)}.`;
}

export function start(header, s) {
  if (!header.nodes) return `Refusal 1: ${REFUSALS[1]}.`;
  const zero = s && s.sheets.every(o => o.content === 0 && o.counter === 0);
  return `Start: ${plural(header.nodes, 'node')}, ${plural(header.owners.length, 'sheet')}${zero ? '; every content and counter is 0' : ''}.`;
}

/* A line of the report. */
export function gloss(line) {
  const [tag, a, b, c] = line.split(' ');
  switch (tag) {
    case 'P': return `save ${a}: ${plural(+b, 'run')}, ${OUTCOMES[c]}`;
    case 'O': return `sheet ${a}: content ${b}, counter ${c}`;
    case 'T': return `${a} accepted; committed ${b} from the first run, ${c} from a later one`;
    default: return `stopped at byte ${a}: refusal ${b}`;
  }
}
