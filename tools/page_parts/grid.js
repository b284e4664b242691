// A table that can be searched, sorted by its columns and turned page by page.

const isBig = cell => Array.isArray(cell);
const isNumber = cell => typeof cell === 'number' || isBig(cell);
const cellText = cell => cell === null || cell === undefined ? '' : isBig(cell) ? cell[0] : String(cell);

// Numbers by size, texts by their characters; numbers before texts, nothing last.
function compareCells(a, b) {
  const rank = cell => cell === null || cell === undefined ? 2 : isNumber(cell) ? 0 : 1;
  if (rank(a) !== rank(b)) return rank(a) - rank(b);
  if (rank(a) === 2) return 0;
  const [left, right] = rank(a) === 0 ? (isBig(a) || isBig(b) ? [BigInt(cellText(a)), BigInt(cellText(b))] : [a, b]) : [a, b];
  return left < right ? -1 : left > right ? 1 : 0;
}

class Grid {
  constructor(root, label, { size = 50, thing = 'row', search = true } = {}) {
    this.label = label; this.thing = thing; this.wanted = ''; this.order = null;
    this.pager = new Pager(size, () => this.show());
    this.head = make('thead'); this.body = make('tbody');
    const table = make('table', {}, make('caption', { class: 'hidden' }, label), this.head, this.body);
    const box = search ? searchBox('Search', text => this.search(text)) : null;
    this.bar = make('div', { class: 'bar' }, box, this.pager.text, this.pager.back, this.pager.next);
    root.replaceChildren(this.bar, make('div', { class: 'scroll', tabindex: '0', role: 'region', 'aria-label': label }, table));
  }
  fill(columns, rows) {
    this.columns = columns; this.rows = rows; this.texts = null; this.order = null;
    this.isNumeric = columns.map((_, at) => rows.slice(0, 200).every(row => row[at] === null || isNumber(row[at])));
    this.choose();
  }
  search(text) { this.wanted = text.toLowerCase(); this.pager.page = 0; this.choose(); }
  sortBy(column) {
    const isSame = this.order && this.order.column === column;
    this.order = isSame && !this.order.isRising ? null : { column, isRising: !isSame };
    this.choose();
    this.head.querySelectorAll('button')[column].focus();
  }
  choose() {
    let chosen = this.rows;
    if (this.wanted) {
      this.texts ??= this.rows.map(row => row.map(cellText).join('\n').toLowerCase());
      chosen = this.rows.filter((_, at) => this.texts[at].includes(this.wanted));
    }
    if (this.order) {
      const { column, isRising } = this.order;
      chosen = [...chosen].sort((a, b) => compareCells(a[column], b[column]) * (isRising ? 1 : -1));
    }
    this.chosen = chosen;
    this.show();
  }
  show() {
    this.pager.update(this.chosen.length, this.rows.length, this.thing);
    this.head.replaceChildren(make('tr', {}, ...this.columns.map((name, at) => this.headCell(name, at))));
    this.body.replaceChildren(...this.chosen.slice(this.pager.first, this.pager.end).map(row => this.row(row)));
  }
  headCell(name, at) {
    const isOrder = this.order && this.order.column === at;
    const sign = isOrder ? (this.order.isRising ? ' ▲' : ' ▼') : '';
    const onclick = () => this.sortBy(at);
    const button = make('button', { type: 'button', title: 'Sort by this column', onclick }, (name || 'name') + sign);
    const sort = isOrder ? (this.order.isRising ? 'ascending' : 'descending') : null;
    return make('th', { scope: 'col', class: this.isNumeric[at] ? 'number' : null, 'aria-sort': sort }, button);
  }
  row(cells) {
    return make('tr', {}, ...this.columns.map((_, at) => {
      const text = cellText(cells[at]);
      if (at === 0) return make('th', { scope: 'row' }, text);
      const kind = text === '' && cells[at] !== '' ? 'none' : isNumber(cells[at]) ? 'number' : null;
      return make('td', { class: kind }, text);
    }));
  }
}

// The printed tables: a button for each, and the rows of one.
function showTables(root) {
  const buttons = make('div', { class: 'bar', role: 'group', 'aria-label': 'Printed tables' });
  const place = make('div'), note = make('p', { class: 'faint' });
  const grid = new Grid(place, 'Rows of the table');
  const show = at => {
    const table = data.tables[at];
    [...buttons.children].forEach((button, number) => button.setAttribute('aria-pressed', number === at));
    grid.fill(table.columns, table.rows);
    const left = table.total - table.rows.length, verb = left === 1 ? 'isn’t' : 'aren’t';
    const text = `${things(left, 'more row')} ${verb} in this page: there is no room; the program’s output has all.`;
    note.textContent = left ? text : '';
  };
  data.tables.forEach(({ name, total }, at) => {
    const button = { type: 'button', id: `table-${name}`, onclick: () => show(at) };
    buttons.append(make('button', button, `${name} · ${counted(total)}`));
  });
  root.append(buttons, place, note);
  // A link of the drawing goes to a table's button, which then shows its rows.
  const follow = () => {
    const at = data.tables.findIndex(table => location.hash === `#table-${table.name}`);
    if (at >= 0) show(at);
  };
  window.addEventListener('hashchange', follow);
  show(0);
  follow();
}

function showSums(root, sums, label, thing) {
  const grid = new Grid(root, label, { size: 20, thing, search: sums.rows.length > 20 });
  grid.fill(sums.columns, sums.rows);
}
