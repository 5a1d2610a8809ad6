/* The text of cusphewa_state as an object, field by field and nothing more. include/cusphewa.h says what each line means. */

const figure = field => field === '-' || field === undefined ? null : Number(field);

const readers = {
  P: (s, [save, runs, outcome]) => s.rows.push({ save: +save, runs: +runs, outcome }),
  O: (s, [sheet, content, counter]) => { s.sheets[sheet] = { content: +content, counter: +counter }; },
  T: (s, [accepted, first, later]) => { s.tally = { accepted: +accepted, first: +first, later: +later }; },
  S: (s, [save, phase, runs, failed, wide, place]) =>
    s.saves.set(+save, { phase, runs: +runs, failed: failed === 'F', wide: wide === 'W', place: figure(place) }),
  L: (s, [place, save, which]) => { s.places[place] = { save: +save, last: which === 'L' }; },
  N: (s, [node, taken]) => { s.taken[node] = +taken; },
  C: (s, [save, sheet, claim, copy, content, counter, behind]) => s.copies.push({
    save: +save, sheet: +sheet, claim: claim === '-' ? '' : claim, copy: copy === '-' ? '' : copy,
    content: figure(content), counter: figure(counter), behind: behind === 'B',
  }),
  Q: (s, [sheet, save, mode, granted, ...waitsFor]) =>
    (s.queues[sheet] ??= []).push({ save: +save, mode, granted: granted === 'G', waitsFor: waitsFor.map(Number) }),
};

/* `report` has the lines that are the report's. */
export function parse(text) {
  const s = { report: [], rows: [], sheets: [], tally: null, saves: new Map(), places: [], taken: [], copies: [], queues: [] };
  for (const line of text.split('\n')) {
    if (!line) continue;
    const [tag, ...fields] = line.split(' ');
    readers[tag]?.(s, fields);
    if ('POT'.includes(tag)) s.report.push(line);
  }
  return s;
}

export const queue = (s, sheet) => s.queues[sheet] ?? [];
export const copyOf = (s, save, sheet) => s.copies.find(c => c.save === save && c.sheet === sheet);
export const entriesOf = (s, save) => s.queues.flatMap((q, sheet) => q.filter(e => e.save === save).map(e => ({ sheet, ...e })));
