/* Words and bytes: how a session is spelled, by the host's table of words. The messages are those that `compose` prints. No rule about sessions is
   here: a save, node or sheet that the session does not have is the engine's to refuse. */

const MOST_NUMBER = 4294967295;
const MOST_SHOWN = 40; // bytes of a word in a message
const NO_SUCH = 'refused 4: no such save, node or sheet';
const NO_HEADER = 'refused 1: the header is out of range';

export const hex = bytes => [...bytes].map(b => b.toString(16).padStart(2, '0').toUpperCase()).join(' ');

/* A line's words up to its comment. Blanks and tabs stand between them, and nothing else. */
function split(line) {
  const hash = line.indexOf('#');
  const text = hash >= 0 ? line.slice(0, hash) : line.endsWith('\r') ? line.slice(0, -1) : line;
  return text.split(/[ \t]+/).filter(Boolean);
}

/* The word that is there instead, all of it printable. */
function instead(word) {
  if (word === undefined) return '';
  const bytes = new TextEncoder().encode(word);
  const shown = [...bytes.slice(0, MOST_SHOWN)].map(b => b >= 0x20 && b < 0x7f ? String.fromCharCode(b) : '\\x' + hex([b]));
  return `, not "${shown.join('')}${bytes.length > MOST_SHOWN ? '...' : ''}"`;
}

const isByte = word => /^[0-9a-f]{2}$/i.test(word);
const list = (names, last) => names.map((n, i) => (i === 0 ? '' : i + 1 < names.length ? ', ' : last) + n).join('');

/* A number has one spelling. */
function number(word) {
  if (!/^[0-9]+$/.test(word) || Number(word) > MOST_NUMBER) throw new Wrong(`expected a number up to ${MOST_NUMBER}${instead(word)}`);
  if (word.length > 1 && word[0] === '0') throw new Wrong(`expected a number without leading zeros${instead(word)}`);
  return Number(word);
}

/* What can't be read of a line; `late` where it is spelled well and does not fit. */
class Wrong extends Error {
  constructor(message, late = false) {
    super(message);
    this.late = late;
  }
}

const spelled = (value, width) => Array.from({ length: width }, (_, i) => Math.floor(value / 256 ** (width - 1 - i)) % 256);
const valued = bytes => bytes.reduce((n, b) => n * 256 + b, 0);

export class Words {
  constructor(table) {
    Object.assign(this, { nodes: table.nodes, owners: table.owners, limit: table.bytes, commands: table.commands });
  }

  /* ---- From words to bytes */

  /* A text's lines with the bytes and the offset of each, up to the first that can't be read; `message` says why in compose's words. It is `late` where
     the words can be read and a number does not fit its bytes: compose says so only after it has read all lines. */
  compose(text) {
    const lines = text.split('\n').map(t => ({ words: split(t), bytes: [], at: -1, wrong: '' }));
    const end = lines.length > 1 && text.endsWith('\n') ? lines.length - 1 : text === '' ? 0 : lines.length;
    const first = lines.find(l => l.words.length), read = { lines, bytes: [], message: '', late: false, hex: !!first && first.words.every(isByte), end };
    if (read.hex) for (const l of lines) this.attempt(read, l, () => this.readHex(l));
    else this.readWords(read, lines.filter(l => l.words.length));
    return read;
  }

  /* What a reader makes of a line is put behind the bytes, unless a line before it could not be read. */
  attempt(read, line, reader) {
    try {
      const bytes = reader();
      if (read.message) return;
      line.at = read.bytes.length;
      line.bytes = bytes;
      for (const b of bytes) read.bytes.push(b); // one by one: a line may have more than a call takes
    } catch (e) {
      if (!(e instanceof Wrong)) throw e;
      const at = line ? read.lines.indexOf(line) + 1 : read.end + 1;
      if (line) line.wrong = e.message;
      if (read.message && !(read.late && !e.late)) return;
      Object.assign(read, { message: `line ${at}: ${e.message}`, late: e.late });
    }
  }

  readHex(line) {
    const bad = line.words.find(w => !isByte(w));
    if (bad !== undefined) throw new Wrong(`expected a byte, two hexadecimal digits${instead(bad)}`);
    return line.words.map(w => parseInt(w, 16));
  }

  readWords(read, [first, second, ...steps]) {
    let nodes, owners;
    this.attempt(read, first, () => { nodes = this.readNodes(first); return [nodes]; });
    if (read.message) return;
    this.attempt(read, second, () => { owners = this.readOwners(second); return [owners.length, ...owners]; });
    if (read.message) return;
    first.head = second.head = true;
    if (![nodes, owners.length, ...owners].every(n => n < 256)) {
      const [a, b] = [first, second].map(l => read.lines.indexOf(l) + 1);
      for (const l of [first, second]) Object.assign(l, { wrong: NO_HEADER, bytes: [], at: -1 });
      Object.assign(read, { message: `lines ${a} and ${b}: ${NO_HEADER}`, late: true, bytes: [] });
    }
    for (const line of steps) this.attempt(read, line, () => this.readStep(line));
  }

  readNodes(line) {
    const what = `"${this.nodes}" and the number of nodes`, [name, count, more] = line ? line.words : [];
    if (name?.toLowerCase() !== this.nodes) throw new Wrong(`expected ${what}${instead(name)}`);
    if (count === undefined) throw new Wrong(`expected ${what}`);
    const n = number(count);
    if (more !== undefined) throw new Wrong(`expected ${what} only${instead(more)}`);
    return n;
  }

  readOwners(line) {
    const [name, ...owners] = line ? line.words : [];
    if (name?.toLowerCase() !== this.owners) throw new Wrong(`expected "${this.owners}" and the owner of each sheet${instead(name)}`);
    return owners.map(number);
  }

  readStep(line) {
    const starts = c => c.name.split(' ').every((w, i) => line.words[i]?.toUpperCase() === w);
    const c = this.commands.find(starts);
    if (!c) throw new Wrong(`expected a command (${list(this.commands.map(c => c.name), ' or ')})${instead(line.words[0])}`);
    const rest = line.words.slice(c.name.split(' ').length), expects = `${c.name} expects ${list(c.operands.map(([o]) => 'a ' + o), ' and ')}`;
    const values = c.operands.map((_, i) => {
      if (i >= rest.length) throw new Wrong(expects);
      return number(rest[i]);
    });
    if (rest.length > values.length) throw new Wrong(`${expects} only${instead(rest[values.length])}`);
    if (c.operands.some(([, width], i) => values[i] >= 256 ** width)) throw new Wrong(NO_SUCH, true);
    return [c.number, ...c.operands.flatMap(([, width], i) => spelled(values[i], width))];
  }

  /* ---- From bytes to words */

  command(byte) { return this.commands.find(c => c.number === byte); }
  size(c) { return c.operands.reduce((n, [, width]) => n + width, 1); }

  /* A command's operands by their names; only its name is missing where the bytes are no whole command. */
  fields(bytes) {
    const c = this.command(bytes[0]);
    if (!c || bytes.length < this.size(c)) return { name: '' };
    const f = { name: c.name };
    let at = 1;
    for (const [operand, width] of c.operands) f[operand] = valued([...bytes.slice(at, at += width)]);
    return f;
  }

  step(bytes) {
    const c = this.command(bytes[0]), f = this.fields(bytes);
    return f.name ? [c.name, ...c.operands.map(([o]) => f[o])].join(' ') : hex(bytes);
  }

  /* The commands of the bytes behind the header, as far as they are whole; then the rest. */
  cut(bytes, at) {
    const parts = [];
    for (let c; (c = this.command(bytes[at])) && at + this.size(c) <= bytes.length; at += this.size(c)) parts.push(bytes.slice(at, at + this.size(c)));
    return { parts, rest: bytes.slice(at) };
  }

  /* Bytes as a text that gives the same bytes: in words, or where they have none in hexadecimal. */
  text(bytes) {
    const from = 2 + (bytes[1] ?? 0), { parts, rest } = this.cut(bytes, from);
    if (bytes.length >= from && !rest.length)
      return [`${this.nodes} ${bytes[0]}`, [this.owners, ...bytes.slice(2, from)].join(' '), ...parts.map(p => this.step(p))].join('\n') + '\n';
    if (bytes.length < from) return hex(bytes) + '\n';
    return [hex(bytes.slice(0, from)), ...parts.map(p => `${hex(p)} # ${this.step(p)}`), hex(rest)].join('\n') + '\n';
  }
}

/* ---- Links */

export function toLink(bytes) {
  let binary = '';
  for (const b of bytes) binary += String.fromCharCode(b);
  return '#s=' + btoa(binary).replace(/\+/g, '-').replace(/\//g, '_').replace(/=+$/, '');
}

/* The bytes of a link, or null where it holds no session. */
export function fromLink(hash) {
  const m = /^#s=([A-Za-z0-9_-]*)$/.exec(hash);
  if (!m) return null;
  try {
    return [...atob(m[1].replace(/-/g, '+').replace(/_/g, '/'))].map(c => c.charCodeAt(0));
  } catch {
    return null;
  }
}
