// Tabs: one panel is shown, and each is made when it is first.

import { button, make, withAttributes } from './dom.js';

export class Tabs {
  // `parts` are titles, each with what makes its panel.
  constructor(label, parts) {
    this.bar = withAttributes(make('div.tabs'), { role: 'tablist', 'aria-label': label });
    this.panels = parts.map(([, made], n) => {
      const panel = withAttributes(make('div.panel'), {
        role: 'tabpanel', id: `panel-${n}`, 'aria-labelledby': `tab-${n}`,
      });
      panel.made = made;
      return panel;
    });
    parts.forEach(([title], n) => {
      const tab = withAttributes(button(title, () => this.choose(n)), {
        role: 'tab', id: `tab-${n}`, 'aria-controls': `panel-${n}`,
      });
      tab.addEventListener('keydown', (event) => this.key(event, n));
      this.bar.append(tab);
    });
    this.choose(0);
  }

  choose(chosen) {
    [...this.bar.children].forEach((tab, n) => {
      withAttributes(tab, { 'aria-selected': n === chosen, tabindex: n === chosen ? 0 : -1 });
      this.panels[n].hidden = n !== chosen;
    });
    const { made } = this.panels[chosen];
    this.panels[chosen].made = null;
    if (made) this.panels[chosen].append(made());
  }

  key(event, n) {
    const last = this.panels.length - 1;
    const [after, before] = [n === last ? 0 : n + 1, n ? n - 1 : last];
    const moves = { ArrowRight: after, ArrowLeft: before, Home: 0, End: last };
    if (!(event.key in moves)) return;
    event.preventDefault();
    this.choose(moves[event.key]);
    this.bar.children[moves[event.key]].focus();
  }
}
