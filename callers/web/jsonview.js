// A block as DAG-JSON, to be copied and downloaded.

import { cidText } from './cid.js';
import { grouping } from './text.js';
import { button, copier, download, make, withAttributes } from './dom.js';

const MOST_JSON = 60_000; // characters that are shown

const RESERVED = 'A map here has the key "/", which DAG-JSON keeps for links and byte strings:'
  + ' read back it is refused, or another block. ';
const CUT_OFF = `The first ${grouping(MOST_JSON)} characters. Copied and downloaded is all of it. `;

export const jsonOf = (asker, bytes, indent, most) =>
  asker.ask('json', { file: new Blob([bytes]), indent, most });

export const jsonView = (asker, { bytes, name }) => {
  const text = withAttributes(make('pre.json', '…'), {
    tabindex: 0, role: 'region', 'aria-label': 'The block as DAG-JSON',
  });
  const hint = make('p.hint');
  const box = withAttributes(make('input'), { type: 'checkbox' });
  box.checked = true;
  const show = async () => {
    const told = await jsonOf(asker, bytes, box.checked, MOST_JSON);
    text.textContent = told.text;
    const hints = `${told.isWhole ? '' : CUT_OFF}${told.isReserved ? RESERVED : ''}`;
    hint.textContent = `${hints}Keys stand in the order of the block.`;
  };
  box.addEventListener('change', show);
  show();
  const whole = async () => (await jsonOf(asker, bytes, box.checked, Infinity)).text;
  const saved = async () => download(await whole(), `${cidText(name)}.json`);
  const save = button('Download', saved, '.quiet');
  save.setAttribute('aria-label', 'Download the DAG-JSON');
  const copy = copier('Copy the DAG-JSON', whole);
  const tools = make('div.tools', make('h3', 'DAG-JSON'), make('label', box, ' indented'), copy, save);
  return make('section.pane', tools, hint, text);
};
