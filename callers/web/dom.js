// Elements. Text is only ever put in as text.

import { grouping } from './text.js';

// make('p.note', 'text', child, ..): a name with classes, and what it holds.
export const make = (what, ...held) => {
  const [name, ...classes] = what.split('.');
  const element = document.createElement(name);
  if (classes.length) element.className = classes.join(' ');
  element.append(...held.filter((it) => it !== null && it !== undefined));
  return element;
};

export const withAttributes = (element, attributes) => {
  for (const [name, value] of Object.entries(attributes)) {
    if (value !== undefined && value !== null) element.setAttribute(name, String(value));
  }
  return element;
};

export const button = (text, act, classes = '') => {
  const element = make(`button${classes}`, text);
  element.type = 'button';
  element.addEventListener('click', act);
  return element;
};

// The list, some of which is shown at once, with a button for more; `made` makes each.
export const growing = (list, all, atOnce, made) => {
  const more = button('', () => add(), '.quiet.more');
  let shown = 0;
  const add = () => {
    for (const it of all.slice(shown, shown + atOnce)) list.append(made(it));
    shown = Math.min(shown + atOnce, all.length);
    more.hidden = shown === all.length;
    more.textContent = `Show more of ${grouping(all.length)}`;
  };
  add();
  return make('div', list, more);
};

// A button that copies what it is asked for, and says so.
export const copier = (text, told, label = 'Copy') => {
  const element = button(label, async () => {
    let copied = false;
    try {
      await navigator.clipboard.writeText(await told());
      copied = true;
    } catch {
      copied = copyOld(await told());
    }
    element.textContent = copied ? 'Copied' : 'Not copied';
    setTimeout(() => { element.textContent = label; }, 1200);
  }, '.quiet');
  element.setAttribute('aria-label', text);
  return element;
};

// For a page without a clipboard, as one from disk is in some browsers.
const copyOld = (text) => {
  const area = make('textarea.unseen');
  area.value = text;
  document.body.append(area);
  area.select();
  const copied = document.execCommand('copy');
  area.remove();
  return copied;
};

export const download = (bytes, name) => {
  const url = URL.createObjectURL(new Blob([bytes], { type: 'application/octet-stream' }));
  const anchor = make('a');
  anchor.href = url;
  anchor.download = name;
  anchor.click();
  setTimeout(() => URL.revokeObjectURL(url), 10_000);
};
