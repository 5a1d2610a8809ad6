/* The examples: their texts, and the keys at their ends. */
import { el } from './dom.js';

const GROUPS = {
  w: 'The worked session', cause: 'Why a check failed', counter: 'Counters', counters: 'Counters', refusal: 'Refusals', state: 'The state as text', unchanged: 'A save that saved nothing',
  wide: 'Later runs that open another sheet',
};
const FIRST = GROUPS.w, LAST = 'Further cases';

const isKey = line => /^# (report|state|answer|shown|steps|the report of):/.test(line);

/* Its first comment, its text without the key at its end, and the key's report. */
function read([name, whole]) {
  const all = whole.split('\n'), first = all.findIndex(isKey);
  const text = all.filter((l, i) => !isKey(l) && !(l === '#' && i + 1 === first)).map(l => l.replace(/[ \t]+#/, '  #')).join('\n').replace(/\n+$/, '\n');
  const report = all.filter(l => l.startsWith('# report: ')).map(l => l.slice(10) + '\n').join(''), same = all.find(l => l.startsWith('# the report of: '))?.slice(17);
  return { name, text, report, same, about: all[0].startsWith('#') ? all[0].slice(1).trim() : '' };
}

export function readAll(served) {
  const examples = served.map(read);
  for (const e of examples) if (e.same) e.report = examples.find(x => x.name === e.same)?.report ?? '';
  return examples;
}

/* Without comments: they tell what is ahead. */
export const bare = text => text.split('\n').map(l => l.replace(/[ \t]*#.*/, '')).filter(Boolean).join('\n') + '\n';

/* The options of a list to pick from, by groups. */
export function options(examples) {
  const groups = new Map(), none = new Option('a session of your own', '');
  for (const e of examples) {
    const group = GROUPS[e.name.split(/[-.]/)[0]] ?? LAST;
    groups.set(group, [...(groups.get(group) ?? []), new Option(e.name, e.name)]);
  }
  none.hidden = true;
  return [none, ...[...groups].sort(([a], [b]) => (b === FIRST) - (a === FIRST) || (a === LAST) - (b === LAST)).map(([label, own]) => Object.assign(el('optgroup', '', ...own), { label }))];
}
