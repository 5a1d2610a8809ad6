/* The wiring: the text goes to the host, and what comes back is shown step by step. */
import { $, el, figures } from './dom.js';
import { fromLink, hex, toLink, Words } from './words.js';
import { parse } from './state.js';
import { REFUSED, sentence, start } from './sentences.js';
import { draw, tell, toFile } from './lanes.js';
import { drawCopies, drawKey, drawLegend, drawNext, drawNodes, drawOrder } from './panels.js';
import { drawAnswers, drawBytes, drawHere, drawNotes, fit, insertText, lineWith, setText } from './editor.js';
import { bare, options, readAll } from './examples.js';

const TYPING_MS = 120, NEXT_MS = 60, GONE = 'The host does not answer. Is it still running?';

let words, examples;
let example = null; // the one whose text is in the editor, as it was loaded
/* What the host said of a text: its lines, its bytes, the steps with their answers, the states; and the step that is shown. */
let now = null;
let asked = 0, askedNext = 0; // what comes back for an older number is dropped
let typing = 0;

const veiled = () => $('veiled').checked;

/* ---- Asking the host */

async function post(path, bytes) {
  let reply;
  try {
    reply = await fetch(path, { method: 'POST', headers: { 'Content-Type': 'application/octet-stream' }, body: new Uint8Array(bytes) });
  } catch {
    throw new Error(GONE);
  }
  if (!reply.ok) throw new Error(`The host answers ${reply.status}: ${(await reply.text()).trim()}.`);
  return reply.json();
}

/* While what is shown is older than what was asked for. What a reader says of a step is not in a part that is busy: it would be kept back. */
function busy(yes) {
  $('panels').setAttribute('aria-busy', yes);
}

function alarm(text) {
  $('alarm').hidden = !text;
  $('alarm').textContent = text;
}

function fail(e) {
  alarm(e.message);
  busy(false);
}

function stepOf(bytes, [at, size, kind, value, number]) {
  const own = bytes.slice(at, at + size);
  return { at, size, kind, value, number, f: words.fields(own), words: words.step(own) };
}

/* The line of each step: the one that has its first byte. */
function linesOf(lines, steps) {
  let i = 0;
  return steps.map(({ at }) => {
    while (i < lines.length && !(lines[i].at >= 0 && at < lines[i].at + lines[i].bytes.length)) i++;
    return i;
  });
}

/* `written` counts the steps of the text, whether or not they are reached. */
function take(read, bytes, reply) {
  const steps = reply.steps.map(s => stepOf(bytes, s)), written = Math.max(steps.length, words.cut(bytes, reply.commands).parts.length);
  const states = reply.states?.map(parse) ?? null, header = { nodes: reply.nodes, owners: reply.owners }, lineOf = linesOf(read.lines, steps);
  now = { ...read, bytes, reply, steps, written, states, header, lineOf, at: 0, around: null, told: false };
}

/* The session goes into the address. Some browsers refuse this where it comes too often; then the next change does it. */
function remember(bytes) {
  try {
    history.replaceState(null, '', bytes.length ? toLink(bytes) : location.pathname);
  } catch { /* the page goes on without */ }
}

/* Asks about the text as it stands; then shows the step `keep`, or the last one. */
async function ask(keep = Infinity) {
  const mine = ++asked, text = $('words').value, read = words.compose(text), bytes = read.bytes.slice(0, words.limit + 1);
  fit(read.lines.length);
  busy(true);
  let reply;
  try {
    reply = await post('/session', bytes);
  } catch (e) {
    if (mine === asked) fail(e);
    return;
  }
  if (mine !== asked) return;
  alarm('');
  take({ text, ...read }, bytes, reply);
  remember(bytes);
  show(Math.min(keep, now.steps.length));
}

/* ---- One step */

const refusedHere = () => now.steps[now.at - 1]?.kind === REFUSED;

/* The states around the shown step; those of a session that is not drawn come with what may come next. */
function around() {
  const { states, at } = now, refused = refusedHere();
  if (!states) return now.around ?? {};
  return { before: states[refused ? at - 1 : Math.max(0, at - 1)], state: states[refused ? at - 1 : at] };
}

function show(at) {
  now.at = at;
  now.around = null;
  drawStep();
  askNext();
}

function drawStep() {
  const { before, state } = around(), view = { state, header: now.header, steps: now.steps, at: now.at, step: now.steps[now.at - 1] };
  drawTransport(before, state);
  if (veiled() || !now.told) drawAnswers(now, words.limit, veiled());
  now.told = !veiled();
  drawHere(now);
  drawNotes(now, words.limit, veiled(), now.states ? now.states.at(-1) : now.at === now.steps.length ? before : null);
  drawBytes(now);
  drawLanes();
  if (now.header.nodes && !now.states && !now.around) return; // the panels stay until their state comes
  drawNodes($('nodes'), view);
  drawOrder($('order'), view);
  drawCopies($('copies'), view);
  drawReport(state);
}

/* The prefix up to the shown step, without it where it is refused. */
function prefix() {
  const step = now.steps[now.at - 1];
  return now.bytes.slice(0, !step ? now.reply.commands : refusedHere() ? step.at : step.at + step.size);
}

/* The steps that may come next, and the states around this one where the session is not drawn. */
async function askNext() {
  const mine = ++askedNext;
  $('ahead').hidden = veiled() || !now.header.nodes;
  if ($('ahead').hidden) $('next').replaceChildren();
  if (!now.header.nodes || (veiled() && now.states)) return busy(false);
  busy(true);
  await new Promise(done => setTimeout(done, NEXT_MS));
  if (mine !== askedNext) return;
  let answer;
  try {
    answer = await post('/state', prefix());
  } catch (e) {
    if (mine === askedNext) unknown(e);
    return;
  }
  if (mine !== askedNext) return;
  alarm('');
  takeNext(answer);
  busy(false);
}

/* Nothing of another step is left where this one is not known. */
function unknown(e) {
  now.around = {};
  drawStep();
  $('next').replaceChildren();
  fail(e);
}

function takeNext(answer) {
  if (!now.states) {
    const state = parse(answer.state);
    now.around = { state, before: refusedHere() ? state : parse(answer.before) };
    drawStep();
  }
  if (veiled()) return;
  const tried = answer.next.map(([own, kind, value, number]) => ({ bytes: own, f: words.fields(own), kind, value, number })), { at } = now;
  drawNext($('next'), words, { tried, spent: answer.spent }, own => at === now.at && press(own));
}

function drawTransport(before, state) {
  const { at, steps, header, bytes } = now, step = steps[at - 1], most = veiled() ? now.written : steps.length;
  $('slider').max = most;
  $('slider').value = at;
  $('slider').setAttribute('aria-valuetext', `step ${at} of ${most}`);
  for (const id of ['first', 'back']) $(id).setAttribute('aria-disabled', at === 0);
  for (const id of ['on', 'last']) $(id).setAttribute('aria-disabled', at === steps.length);
  $('said').classList.toggle('bad', step ? step.kind === REFUSED : !header.nodes && bytes.length > 0);
  $('count').textContent = `${figures(at)} / ${figures(most)}`;
  $('command').textContent = step ? step.words : '';
  $('meaning').textContent = step ? sentence(step, before, state, header) : bytes.length ? start(header, state) : 'There is no session yet.';
}

/* ---- The lanes and the key */

function model() {
  const { steps, states, at, written } = now;
  return { steps, states, at, shown: veiled() ? at : steps.length, total: veiled() ? written : steps.length };
}

function undrawn() {
  const { reply, header } = now;
  if (!header.nodes) return 'There is nothing to draw: the header is refused.';
  if (!reply.limit) return 'No step yet.';
  const { over, steps, bytes } = reply.limit;
  const why = over === 'steps' ? `only sessions of at most ${figures(steps)} steps are drawn as lanes` : `the states of this session have over ${figures(bytes)} bytes`;
  return `Not drawn: ${why}. The answers, the key and the panels below are complete for every step.`;
}

function drawLanes() {
  const box = $('lanes');
  $('save').hidden = $('legend').hidden = !now.states || !now.steps.length;
  $('arrows').hidden = true;
  if ($('save').hidden) {
    box.replaceChildren(el('p', 'quiet', undrawn()));
    return $('told').replaceChildren();
  }
  const { root, from, to, fewer } = draw(model(), box.clientWidth);
  $('arrows').hidden = !fewer;
  $('arrows').textContent = fewer && `${fewer} The queues below name all.`;
  box.replaceChildren(root);
  for (const m of root.querySelectorAll('.mark')) m.addEventListener('click', () => show(+m.dataset.step));
  if (from < box.scrollLeft || to > box.scrollLeft + box.clientWidth) box.scrollLeft = (from + to - box.clientWidth) / 2;
  slide();
  $('told').replaceChildren(...tell(model()).map(t => el('li', '', t)));
}

/* The names stay where the lanes are scrolled. */
function slide() {
  $('lanes').querySelector('.names')?.setAttribute('transform', `translate(${$('lanes').scrollLeft} 0)`);
}

const lines = text => text.split('\n').filter(Boolean);

function drawReport(state) {
  const { reply, steps, at } = now, whole = at === steps.length || !($('here').checked || veiled());
  $('here').disabled = veiled();
  drawKey($('key'), whole ? lines(reply.report) : state?.report ?? []);
  const given = example && $('words').value === example.loaded ? example.report : null;
  const same = given === reply.report ? `As ${example?.name} has it.` : `Not as ${example?.name} has it: ${lines(given ?? '').join(', ')}`;
  $('matches').textContent = given && whole ? same : '';
}

function saveDrawing() {
  const step = now.steps[now.at - 1], { total } = model(), caption = `Saves over time, after step ${now.at} of ${total}${step ? `: ${step.words}` : ''}`;
  const url = URL.createObjectURL(new Blob([toFile(model(), caption)], { type: 'image/svg+xml' }));
  Object.assign(el('a'), { href: url, download: 'saves.svg' }).click();
  setTimeout(() => URL.revokeObjectURL(url), 1000);
}

/* ---- Changing the text */

function forgetExample() {
  example = null;
  $('example').value = '';
  $('about').textContent = '';
}

function typed() {
  forgetExample();
  clearTimeout(typing);
  busy(true);
  fit($('words').value.split('\n').length);
  typing = setTimeout(async () => {
    await ask(now?.at ?? Infinity);
    follow();
  }, TYPING_MS);
}

function load(text) {
  setText(text);
  clearTimeout(typing); // what was asked for by the change itself
  return ask(veiled() ? 0 : Infinity);
}

/* Puts a step behind the shown one; a refused one is what it comes before. Not where the text has changed since: the lines are others then. */
function press(bytes) {
  if ($('words').value !== now.text) return;
  const after = refusedHere() ? now.at - 1 : now.at, line = after ? now.lineOf[after - 1] : lineWith(now, now.reply.commands - 1);
  const end = $('words').value.split('\n').slice(0, line + 1).join('\n').length, text = now.hex ? `${hex(bytes)} # ${words.step(bytes)}` : words.step(bytes);
  insertText(end, end, '\n' + text);
  clearTimeout(typing);
  const { content } = words.fields(bytes), last = end + 1 + text.length;
  if (content !== undefined && !now.hex) $('words').setSelectionRange(last - String(content).length, last); // to be typed over
  else $('h-next').focus({ preventScroll: true });
  ask(after + 1);
}

/* The step of the caret's line is shown. */
function follow() {
  if (document.activeElement !== $('words') || !now || veiled()) return;
  const line = $('words').value.slice(0, $('words').selectionStart).split('\n').length - 1, i = now.lineOf.lastIndexOf(line) + 1;
  if (i && i !== now.at) show(i);
}

/* ---- Examples and links */

function pick(name) {
  const e = examples.find(x => x.name === name), text = veiled() ? bare(e.text) : e.text, done = load(text);
  example = { ...e, loaded: text };
  $('example').value = name;
  $('about').textContent = veiled() ? '' : e.about;
  return done;
}

function openLink() {
  const bytes = fromLink(location.hash);
  if (!bytes) return false;
  forgetExample();
  load(words.text(bytes));
  return true;
}

async function copyLink() {
  const link = new URL(toLink(now.bytes), location.href).href, holds = now.message ? 'the session up to the line that can’t be read' : 'the session without its comments';
  remember(now.bytes);
  try {
    await navigator.clipboard.writeText(link);
    $('copied').textContent = `Copied. The link holds ${holds}.`;
  } catch {
    $('copied').textContent = `The address bar has it. It holds ${holds}.`;
  }
  setTimeout(() => { $('copied').textContent = ''; }, 4000);
}

/* ---- Starting */

const go = at => now && show(Math.max(0, Math.min(now.steps.length, at)));

function onKey(e) {
  if (e.target.matches('textarea, select, input[type=range], .scroll') || e.ctrlKey || e.metaKey || e.altKey || !now) return;
  const to = { ArrowRight: now.at + 1, ArrowLeft: now.at - 1, Home: 0, End: Infinity }[e.key];
  if (to === undefined) return;
  e.preventDefault();
  go(to);
}

/* What is ahead is hidden from the start on, or shown again. */
function veil() {
  now.told = false;
  if (example) pick(example.name);
  else go(veiled() ? 0 : now.at);
}

function wireText() {
  $('example').addEventListener('change', e => pick(e.target.value));
  $('words').addEventListener('input', typed);
  $('words').addEventListener('keyup', e => { if (/^(Arrow|Home|End|Page)/.test(e.key)) follow(); });
  $('words').addEventListener('click', follow);
  $('veiled').addEventListener('change', () => now && veil());
  $('bytes-box').addEventListener('toggle', () => now && drawBytes(now));
  $('link').addEventListener('click', () => now && copyLink());
  addEventListener('hashchange', openLink);
}

function wireSteps() {
  document.querySelector('.skip').addEventListener('click', e => {
    e.preventDefault(); // the address keeps the session
    $('steps').focus();
  });
  $('slider').addEventListener('input', e => go(+e.target.value));
  $('first').addEventListener('click', () => go(0));
  $('back').addEventListener('click', () => go(now.at - 1));
  $('on').addEventListener('click', () => go(now.at + 1));
  $('last').addEventListener('click', () => go(Infinity));
  $('here').addEventListener('change', () => now && drawReport(around().state));
  $('save').addEventListener('click', saveDrawing);
  $('lanes').addEventListener('scroll', slide);
  addEventListener('keydown', onKey);
  let width = innerWidth;
  addEventListener('resize', () => {
    if (innerWidth === width || !now) return;
    width = innerWidth;
    drawLanes();
  });
}

async function begin() {
  drawLegend($('legend'));
  try {
    const [table, served] = await Promise.all(['/words.json', '/examples.json'].map(async path => (await fetch(path)).json()));
    words = new Words(table);
    examples = readAll(served);
  } catch {
    return alarm(GONE);
  }
  $('example').append(...options(examples));
  wireText();
  wireSteps();
  if (!openLink()) pick(examples[0].name);
}

begin();
