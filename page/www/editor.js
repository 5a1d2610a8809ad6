/* The text, and what stands beside and below it: the answers, compose's message, the refusal, the bytes. */
import { $, el, figures } from './dom.js';
import { hex } from './words.js';
import { brief, REFUSALS, REFUSED, reason } from './sentences.js';

const LINE = 22, PADDING = 16, UNDO_LENGTH = 4000;

export function fit(lines) {
  $('words').style.height = `${lines * LINE + PADDING}px`;
}

/* ---- Answers beside the lines */

const lineAnswer = steps => steps.length === 1 ? brief(steps[0]) : `${steps.length} steps: ${brief(steps.at(-1))}`;
const holds = (line, offset) => line.at >= 0 && offset >= line.at && offset < line.at + line.bytes.length;
export const lineWith = (now, offset) => now.lines.findIndex(l => holds(l, offset));

/* What stands beside a line without a step, and its look. */
function besideOther(now, line, veiled) {
  const { reply, steps } = now, inHeader = line.bytes.length > 0 && line.at < reply.commands;
  if (!line.words.length || inHeader || (veiled && now.at < steps.length)) return ['', ''];
  if (!line.bytes.length) return ['not read', 'beyond'];
  const [offset, number] = reply.listed, also = number && holds(line, offset) ? ` (${number})` : '';
  return steps.at(-1)?.kind === REFUSED ? [`not reached${also}`, 'beyond'] : ['', ''];
}

/* The same for any line; `own` are its steps, `hidden` says that they are ahead. */
function beside(now, line, own, hidden, veiled) {
  if (line.wrong) return [line.wrong, 'wrong'];
  if (now.header.nodes || !now.bytes.length) {
    if (!own.length) return besideOther(now, line, veiled);
    const { kind } = own.at(-1);
    return hidden ? ['', ''] : [lineAnswer(own), kind === REFUSED ? 'refused' : `kind${kind}`];
  }
  if (!line.bytes.length) return ['', ''];
  return line.at === 0 ? ['refused 1', 'refused'] : ['not reached', 'beyond'];
}

/* Where what is ahead is hidden, nothing of it is put into the document. */
export function drawAnswers(now, limit, veiled) {
  const { lines, steps, lineOf, at } = now, own = lines.map(() => []), numbers = [], answers = [];
  lineOf.forEach((line, i) => own[line]?.push(steps[i]));
  let count = 0;
  lines.forEach((line, i) => {
    count += own[i].length;
    const hidden = veiled && count > at, [text, look] = beside(now, line, own[i], hidden, veiled), answer = el('li', look, text);
    if (text) answer.title = text;
    answers.push(answer);
    numbers.push(el('div', look, own[i].length && !hidden ? String(count) : ''));
  });
  $('numbers').replaceChildren(...numbers);
  $('answers').replaceChildren(...answers);
  fit(lines.length);
  $('size').textContent = `${figures(now.bytes.length)} of ${figures(limit)} bytes, ${figures(veiled ? now.written : steps.length)} steps`;
}

/* The shown step's line. */
export function drawHere(now) {
  const { at, lineOf } = now, here = at ? lineOf[at - 1] : -1, box = $('editor'), y = here * LINE;
  for (const e of box.querySelectorAll('.here')) e.classList.remove('here');
  for (const list of [$('numbers'), $('answers')]) list.children[here]?.classList.add('here');
  if (here < 0 || document.activeElement === $('words')) return;
  if (y < box.scrollTop + LINE || y > box.scrollTop + box.clientHeight - 3 * LINE) box.scrollTop = y - box.clientHeight / 2;
}

/* ---- Below the text */

/* What `compose` would say of this text; the engine's reading of all bytes tells it what the text alone does not. */
function message(now, limit, ahead) {
  const { lines, bytes, reply } = now, [offset, number] = reply.listed;
  if (now.hex || (now.message && !now.late)) return now.message;
  if (bytes.length > limit) return `refused 1: the session is over ${figures(limit)} bytes`;
  const [first, second] = [lines.findIndex(l => l.head) + 1, lines.findLastIndex(l => l.head) + 1];
  if (!now.header.nodes && bytes.length) return `lines ${first} and ${second}: refused 1: the header is out of range`;
  return number === 4 && !ahead ? `line ${lineWith(now, offset) + 1}: refused 4: ${REFUSALS[4]}` : now.message;
}

/* The refusal with what the step met, and its bytes. */
function refusal({ reply, steps, bytes, header }, met) {
  const [offset, number] = reply.refusal, cause = steps.length ? reason(steps.at(-1).f, number, met, header) : '', [from, size] = reply.shown;
  return [el('b', '', `Refusal ${number}`), ` at byte ${figures(offset)}: ${REFUSALS[number]}.`, cause ? ` Here ${cause}.` : '',
    ...(size ? [' ', el('code', '', hex(bytes.slice(from, from + size)))] : [])];
}

/* What is said already is left as it is: a reader says every change. */
function note(box, ...parts) {
  const whole = el('p', '', ...parts);
  box.hidden = !whole.textContent;
  if (box.textContent !== whole.textContent) box.replaceChildren(...whole.childNodes);
}

/* `met` is the state that the refused step met, if it is known. */
export function drawNotes(now, limit, veiled, met) {
  const ahead = veiled && now.at < now.steps.length;
  note($('wrong'), message(now, limit, ahead));
  note($('refusal'), ...(now.reply.refusal && now.bytes.length && !ahead ? refusal(now, met) : []));
}

export function drawBytes(now) {
  if (!$('bytes-box').open) return;
  const { bytes, steps, at } = now, step = steps[at - 1], from = step?.at ?? 0, end = step ? step.at + step.size : 0;
  $('bytes').replaceChildren(`${hex(bytes.slice(0, from))} `, el('mark', '', hex(bytes.slice(from, end))), ` ${hex(bytes.slice(end))}`);
}

/* ---- Changing the text */

/* Through the editor's own history, so that Ctrl+Z takes it back; a long text would take the browser too long. */
export function insertText(from, to, text) {
  const box = $('words');
  box.focus();
  box.setSelectionRange(from, to);
  if (text.length > UNDO_LENGTH || !document.execCommand('insertText', false, text)) box.setRangeText(text, from, to, 'end');
}

/* The whole text. Where there was none yet the focus does not have to move for it. */
export function setText(text) {
  const held = document.activeElement, box = $('words');
  if (box.value) {
    insertText(0, box.value.length, text);
    box.setSelectionRange(0, 0);
    if (held !== box) box.blur();
    held?.focus?.();
  } else box.value = text;
  $('editor').scrollTop = box.scrollLeft = 0;
}
