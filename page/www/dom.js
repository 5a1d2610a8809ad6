/* Small tools. Text is always put into the document as text. */

export const $ = id => document.getElementById(id);

export const el = (tag, cls, ...kids) => {
  const e = document.createElement(tag);
  if (cls) e.className = cls;
  e.append(...kids);
  return e;
};

export const svg = (tag, at, ...kids) => {
  const e = document.createElementNS('http://www.w3.org/2000/svg', tag);
  for (const k in at) e.setAttribute(k, at[k]);
  e.append(...kids);
  return e;
};

export const figures = n => n.toLocaleString('en');

/* [[name, [item, ..]], ..]: the items of a list by their names, which come as they are first met. */
export function grouped(list, name) {
  const groups = new Map();
  for (const x of list) groups.set(name(x), [...(groups.get(name(x)) ?? []), x]);
  return [...groups];
}
