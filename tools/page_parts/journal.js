// The journal in words: its lines page by page, chosen by who asked, by task, by what happened and by a text.

const HAPPENED = {
  '': 'all', busy: 'all that found something to do', committed: 'commits', aborted: 'aborts', refused: 'refused requests',
  assigned: 'assignments', lost: 'lost epochs', left: 'removals from the group', begun: 'epochs begun', parked: 'parked tasks',
  taken: 'parked tasks taken', joined: 'joins', probed: 'new generations', produced: 'records of the job',
};
const ALL = { who: '', task: '', mark: '', text: '' };

class JournalList {
  constructor(root, lanes) {
    const { lines } = data;
    this.texts = lines.text; this.count = lines.count; this.lanes = lanes; this.line = null;
    this.who = lanes.source.who; this.mark = lanes.source.mark;
    this.task = unpacked(Uint16Array, lines.task_of);
    this.request = unpacked(Uint8Array, lines.request_of);
    this.wanted = { ...ALL };
    this.pager = new Pager(100, () => this.show());
    this.list = make('ol', { class: 'lines', 'aria-label': 'Lines of the journal' });
    this.controls = make('div', { class: 'bar' });
    const box = make('div', { class: 'scroll', tabindex: '0', role: 'region', 'aria-label': 'Journal' }, this.list);
    root.append(this.controls, this.note(), box);
    this.fillControls();
    this.choose();
  }
  // How many lines have no words in the page.
  note() {
    const left = this.count - this.texts.length;
    const which = left === 1 ? 'the last line aren’t' : `the last ${counted(left)} lines aren’t`;
    const text = left ? `The words of ${which} in this page: there is no room; streams journal tells them all.` : '';
    return make('p', { class: 'faint' }, text);
  }
  fillControls() {
    const { lines } = data, seen = new Set(this.mark);
    const isThere = name => ['', 'busy'].includes(name) || seen.has(lines.marks.indexOf(name));
    const happened = Object.entries(HAPPENED).filter(([name]) => isThere(name));
    const numbered = names => [['', 'all'], ...names.map((name, at) => [String(at), name])];
    const goTo = event => { if (event.target.value) this.lanes.select(Number(event.target.value)); };
    this.controls.replaceChildren(
      choice('Who', numbered(lines.who), value => this.want('who', value)),
      choice('Task', numbered(lines.tasks), value => this.want('task', value)),
      choice('What', happened, value => this.want('mark', value)),
      searchBox('Search', text => this.want('text', text.toLowerCase())),
      make('label', {}, 'Line', make('input', { type: 'number', min: 1, max: this.count, onchange: goTo })),
      this.pager.text, this.pager.back, this.pager.next);
  }
  want(name, value) {
    this.wanted[name] = value;
    this.pager.page = 0;
    this.choose();
  }
  // A test of a line's place by each thing that is wanted.
  tests() {
    const { who, task, mark, text } = this.wanted, number = data.lines.marks.indexOf(mark === 'busy' ? 'idle' : mark);
    return [
      who !== '' && (at => this.who[at] === Number(who)),
      task !== '' && (at => this.task[at] === Number(task)),
      mark !== '' && (at => (this.mark[at] === number) === (mark !== 'busy')),
      text !== '' && (at => at < this.texts.length && this.texts[at].toLowerCase().includes(text)),
    ].filter(test => test);
  }
  // The numbers of the lines that are wanted.
  choose() {
    const tests = this.tests();
    this.chosen = [];
    for (let at = 0; at < this.count; at++) if (tests.every(test => test(at))) this.chosen.push(at + 1);
    this.show();
  }
  // Turns to the page of a line, without the choices where they leave it out.
  go(line) {
    this.line = line;
    if (this.chosen[lowerBound(this.chosen, line)] !== line) {
      this.wanted = { ...ALL };
      this.fillControls();
      this.choose();
    }
    this.pager.page = Math.floor(lowerBound(this.chosen, line) / this.pager.size);
    this.show();
  }
  show() {
    this.pager.update(this.chosen.length, this.count, 'line');
    const shown = this.chosen.slice(this.pager.first, this.pager.end);
    this.list.replaceChildren(...shown.map(line => this.item(line, this.wanted.text)));
  }
  // A line's words without its number; its request alone where the page has no room for more.
  text(line) {
    const { who, requests } = data.lines, told = this.texts[line - 1];
    if (told === undefined) return `${who[this.who[line - 1]]} ${requests[this.request[line - 1]]} …`;
    return told.trimStart().replace(/^\d+ /, '');
  }
  item(line, wanted = '') {
    const onclick = () => this.lanes.select(line), isHere = line === this.line;
    const number = make('button', { type: 'button', title: 'Show this line in the lanes', onclick }, String(line));
    const kind = `${data.lines.marks[this.mark[line - 1]]}${isHere ? ' here' : ''}`;
    const words = make('span', {}, ...marked(this.text(line), wanted));
    return make('li', { class: kind, 'aria-current': isHere ? 'true' : null }, number, words);
  }
  // The lines round one, for the panel below the lanes.
  near(line) {
    const items = [];
    for (let at = Math.max(1, line - 3); at <= Math.min(this.count, line + 3); at++) items.push(this.item(at));
    return items;
  }
}

// A text with the places where the wanted one stands marked.
function marked(text, wanted) {
  const low = text.toLowerCase(), parts = [];
  if (!wanted || low.length !== text.length) return [text];
  let from = 0;
  for (let at = low.indexOf(wanted); at >= 0; at = low.indexOf(wanted, from)) {
    parts.push(text.slice(from, at), make('mark', {}, text.slice(at, at + wanted.length)));
    from = at + wanted.length;
  }
  return [...parts, text.slice(from)];
}
