// The page: what is given, what is shown, and the way back.

import { Asker } from './asking.js';
import { BlockView } from './blockview.js';
import { CarView } from './carview.js';
import { cidText } from './cid.js';
import { button, make } from './dom.js';
import { spelled } from './editor.js';
import { EXAMPLES } from './examples.js';
import { fromText, sizeOf } from './text.js';

const MOST_BLOCK = 256 << 20;
const WANTED = 'The page needs a browser with WebAssembly of 64-bit memory.';

const at = (id) => document.getElementById(id);
const asker = new Asker();
const views = []; // from the first that was opened to the one that is shown

// What is shown.

const TITLE = document.title;

const short = (text) => (text.length > 24 ? `${text.slice(0, 10)}…${text.slice(-6)}` : text);

const show = () => {
  const view = views[views.length - 1];
  document.body.classList.toggle('is-showing', Boolean(view));
  at('result').replaceChildren(...(view ? [view.element] : []));
  at('crumbs').replaceChildren(...views.map(crumb));
  at('crumbs').hidden = !views.length;
  document.title = view ? `${view.title} – ${TITLE}` : TITLE;
  view?.afterShown?.();
  const title = view?.element.querySelector('h2') ?? at('begin');
  title.tabIndex = -1; // so that it is read out, and the keyboard goes on from here
  title.focus({ preventScroll: true });
};

const crumb = (view, n) => {
  const isLast = n === views.length - 1;
  const text = short(view.title);
  const held = isLast ? make('span', text) : button(text, () => goTo(n + 1), '.plain');
  if (isLast) held.setAttribute('aria-current', 'page');
  return make('li', held);
};

const goTo = (depth) => {
  if (depth < views.length) window.history.go(depth - views.length);
};

window.addEventListener('popstate', (event) => {
  const depth = event.state?.depth ?? 0;
  if (depth >= views.length) return;
  const tops = views.map((it) => it.scrolled ?? 0);
  for (const gone of views.splice(depth)) gone.car?.end();
  show();
  window.scrollTo(0, tops[depth - 1] ?? 0);
});

const push = (view) => {
  const last = views[views.length - 1];
  if (last) {
    last.scrolled = window.scrollY;
    last.leave?.();
  }
  views.push(view);
  window.history.pushState({ depth: views.length }, '');
  show();
  window.scrollTo(0, 0);
};

// What was shown goes, and this is the first.
const begin = (view) => {
  for (const gone of views.splice(0)) gone.car?.end();
  push(view);
};

const say = (text) => {
  at('said').textContent = text;
  at('said').hidden = !text;
};

// Says that something is being judged, if that takes long enough to be seen.
const LONG = 300; // milliseconds

const busyWith = async (title, act) => {
  const later = setTimeout(() => { at('busy').textContent = `Judging ${title} …`; }, LONG);
  document.body.classList.add('is-busy');
  try {
    await act();
  } catch (error) {
    say(`${title}: ${error.message}`);
  } finally {
    clearTimeout(later);
    at('busy').textContent = '';
    document.body.classList.remove('is-busy');
  }
};

// What is given.

const NO_HEADER = 'By its name this is a CAR file, but it does not begin with the header'
  + ' of one: it was judged as one block.';

const blockView = async (file, title, more = {}) => {
  if (file.size > MOST_BLOCK) {
    const most = `at most ${sizeOf(MOST_BLOCK)}`;
    throw new Error(`${sizeOf(file.size)} are too many for one block here: ${most}.`);
  }
  const judged = await asker.ask('judge', { file });
  const car = [...views].reverse().find((it) => it.car)?.car;
  const view = new BlockView(asker, judged, {
    canFollow: (cid) => Boolean(more.car?.canFollow(cid)),
    follow: (cid) => openIn(more.car, cid),
    edited: (bytes) => openBlock(new Blob([bytes]), 'edited', car),
    ...more,
  });
  return { title, element: view.element, afterShown: () => view.afterShown() };
};

const openBlock = async (file, title) => push(await blockView(file, title));

// A section's block, or one that a link names.
const openIn = async (car, cid, number = car.sections.find(cid)) => {
  if (number === undefined) {
    say(`${cidText(cid)} is not in this file.`);
    return;
  }
  say('');
  const { sections } = car;
  const file = car.file.slice(sections.blocks[number], sections.ends[number]);
  const section = { cid: sections.cids[number], code: sections.codes[number] };
  const title = cidText(section.cid);
  await busyWith(title, async () => push(await blockView(file, title, { car, section })));
};

let opened = 0;

const openFile = async (file, title) => {
  opened += 1;
  const mine = opened;
  say('');
  await busyWith(title, async () => {
    const { front } = await asker.ask('look', { file });
    if (mine !== opened) return;
    if (front) {
      const open = (cid, number) => openIn(car, cid, number);
      const car = new CarView(asker, file, front, { open });
      begin({
        title: front.version === 2 ? `inside ${title}` : title, element: car.element, car,
        afterShown: () => car.afterShown(), leave: () => car.leave(),
      });
      return;
    }
    const note = /\.car$/i.test(title) ? NO_HEADER : undefined;
    const view = await blockView(file, title, { note });
    if (mine === opened) begin(view);
  });
};

const openText = async (text) => {
  const trimmed = text.trim();
  if (!trimmed) {
    say('Paste hexadecimal, base64 or DAG-JSON first.');
    return;
  }
  if (/^[{["]/.test(trimmed)) {
    try {
      const { bytes } = await spelled(asker, trimmed);
      await openFile(new Blob([bytes]), 'from DAG-JSON');
    } catch (error) {
      say(`DAG-JSON. ${error.message}`);
    }
    return;
  }
  const read = fromText(trimmed);
  if (!read) {
    say('This is neither hexadecimal nor base64 nor DAG-JSON.');
    return;
  }
  await openFile(new Blob([read.bytes]), `pasted ${read.as}`);
};

const start = () => {
  const [area, chooser, drop] = [at('text'), at('file'), at('drop')];
  at('judge').addEventListener('click', () => openText(area.value));
  area.addEventListener('keydown', (event) => {
    if (event.key === 'Enter' && (event.ctrlKey || event.metaKey)) openText(area.value);
  });
  at('choose').addEventListener('click', () => chooser.click());
  chooser.addEventListener('change', () => {
    const [file] = chooser.files;
    if (file) openFile(file, file.name);
    chooser.value = '';
  });
  at('again').addEventListener('click', () => goTo(0));
  document.addEventListener('dragover', (event) => {
    event.preventDefault();
    drop.classList.add('is-over');
  });
  document.addEventListener('dragleave', (event) => {
    if (!event.relatedTarget) drop.classList.remove('is-over');
  });
  document.addEventListener('drop', (event) => {
    event.preventDefault();
    drop.classList.remove('is-over');
    const [file] = event.dataTransfer.files;
    if (file) openFile(file, file.name);
    else if (event.dataTransfer.getData('text')) openText(event.dataTransfer.getData('text'));
  });
  for (const [title, what, text, name] of EXAMPLES) {
    const card = button('', () => openFile(new Blob([fromText(text).bytes]), name), '.card');
    card.append(make('b', title), make('span', what));
    at('examples').append(make('li', card));
  }
  window.history.replaceState({ depth: 0 }, '');
  asker.ready.then(
    () => { document.body.dataset.ready = 'yes'; },
    (error) => say(`The library did not load: ${error.message}. ${WANTED}`),
  );
};

start();
