// The lanes as a user handles them: what is shown, pointers, keys, and the words beside them.

// The fewest lines that are shown.
const MOST_ZOOM = 12;
const LANE_NAMES = { job: 'job’s records', caller: 'caller’s drain' };
const KEYS_TOLD = 'Click for the line; drag or arrow keys move, + and − zoom, up and down change the lane';

class Lanes {
  constructor(root, onSelect) {
    this.source = new LaneData();
    this.onSelect = onSelect;
    this.count = this.source.count;
    this.from = 1; this.to = this.count + 1; this.line = null; this.lane = 0;
    const label = { 'aria-label': 'Lanes of the workers over the journal', 'aria-describedby': 'lanes-keys' };
    this.canvas = make('canvas', { tabindex: '0', role: 'application', ...label });
    this.drawing = new LaneDrawing(this.canvas, this.source);
    this.tip = make('div', { class: 'tip', hidden: true, 'aria-hidden': 'true' });
    this.live = make('p', { class: 'hidden', 'aria-live': 'polite' });
    this.range = make('span', { class: 'count' });
    root.append(this.toolbar(), make('div', { class: 'lanes' }, this.names(), this.canvas, this.tip), legend(), this.live);
    this.listen();
    new ResizeObserver(() => requestAnimationFrame(() => this.draw())).observe(root);
    matchMedia('(prefers-color-scheme: dark)').addEventListener('change', () => this.draw());
  }
  toolbar() {
    const button = (text, label, onclick) => make('button', { type: 'button', 'aria-label': label, title: label, onclick }, text);
    return make('div', { class: 'bar' },
      button('+', 'Zoom in', () => this.zoom(1 / 2)), button('−', 'Zoom out', () => this.zoom(2)),
      button('All', 'Show all lines', () => this.show(1, this.count + 1)),
      button('◀', 'Earlier lines', () => this.pan(-.5)), button('▶', 'Later lines', () => this.pan(.5)),
      make('span', { class: 'faint', id: 'lanes-keys' }, KEYS_TOLD), this.range);
  }
  names() {
    return make('div', { class: 'lane-names' }, ...this.source.lanes.map(lane => {
      const title = LANE_NAMES[lane.name] ?? (lane.kind === 'shelf' ? lane.name.replace('instance', 'shelf') : lane.name);
      const name = make('div', {}, title, ...this.notes(lane).map(text => make('small', {}, text)));
      name.style.height = `${LANE}px`;
      return name;
    }));
  }
  // What stands below a lane's name.
  notes(lane) {
    const marked = name => counted(lane.marks.filter(mark => mark === name).length);
    if (lane.kind === 'feed') return [things(lane.events.length, 'record')];
    if (lane.kind === 'shelf') return [`${marked('parked')} parked, ${marked('taken')} taken`];
    const [, commits, , recordsIn] = data.workers.rows.find(row => row[0] === lane.name);
    return [things(commits, 'commit'), `${things(recordsIn, 'record')} in`];
  }

  // What is shown.
  show(from, to) {
    const width = Math.max(Math.min(to - from, this.count), Math.min(MOST_ZOOM, this.count));
    this.from = Math.max(1, Math.min(from, this.count + 1 - width));
    this.to = this.from + width;
    this.draw();
  }
  // Round a line, which stays where it is; else round the middle.
  zoom(factor, around = this.line ?? (this.from + this.to) / 2) {
    const middle = Math.max(this.from, Math.min(around, this.to)), share = (middle - this.from) / (this.to - this.from);
    const width = Math.max(Math.min((this.to - this.from) * factor, this.count), Math.min(MOST_ZOOM, this.count));
    this.show(middle - share * width, middle - share * width + width);
  }
  pan(share) {
    const step = (this.to - this.from) * share;
    this.show(this.from + step, this.to + step);
  }
  select(line) {
    this.line = Math.max(1, Math.min(Math.round(line), this.count));
    const half = (this.to - this.from) / 2, isShown = this.line >= this.from && this.line < this.to;
    if (isShown) this.draw(); else this.show(this.line - half, this.line + half);
    this.onSelect(this.line);
  }
  draw() {
    const frame = document.activeElement === this.canvas ? this.lane : null;
    this.drawing.draw({ from: this.from, to: this.to, line: this.line, frame });
    const last = Math.min(this.count, Math.ceil(this.to) - 1);
    this.range.textContent = `lines ${counted(Math.floor(this.from))} to ${counted(last)} of ${counted(this.count)}`;
  }

  // Pointers: a click selects, a drag moves.
  listen() {
    const { canvas } = this;
    let held = null;
    canvas.addEventListener('pointerdown', event => {
      held = { x: event.offsetX, from: this.from, to: this.to, isMoved: false };
      canvas.setPointerCapture(event.pointerId);
    });
    canvas.addEventListener('pointermove', event => {
      if (!held) return this.showTip(event);
      const step = this.drawing.lines(held.x - event.offsetX);
      held.isMoved ||= Math.abs(held.x - event.offsetX) > 4;
      if (held.isMoved) this.show(held.from + step, held.to + step);
    });
    canvas.addEventListener('pointerup', event => {
      if (held && !held.isMoved) this.click(event);
      held = null;
    });
    canvas.addEventListener('pointercancel', () => { held = null; });
    canvas.addEventListener('pointerleave', () => { this.tip.hidden = true; });
    canvas.addEventListener('wheel', event => this.wheel(event), { passive: false });
    for (const change of ['focus', 'blur']) canvas.addEventListener(change, () => this.draw());
    canvas.addEventListener('keydown', event => this.key(event));
  }
  // With the control key it zooms; else the page moves.
  wheel(event) {
    if (!event.ctrlKey) return;
    event.preventDefault();
    this.zoom(event.deltaY > 0 ? 1.3 : 1 / 1.3, this.drawing.line(event.offsetX));
  }
  click(event) {
    this.lane = this.drawing.laneAt(event.offsetY);
    const line = this.drawing.line(event.offsetX);
    this.select(this.source.nearestEvent(this.lane, line, this.drawing.lines(6)) ?? Math.floor(line));
  }
  showTip(event) {
    const lane = this.drawing.laneAt(event.offsetY), line = this.drawing.line(event.offsetX), reach = this.drawing.lines(5);
    const shown = Math.max(1, Math.min(Math.floor(line), this.count));
    const told = this.source.toldBetween(lane, line - reach, line + reach);
    const head = `${this.source.lanes[lane].name}, line ${counted(shown)}`;
    this.tip.replaceChildren(...[head, ...told].map(text => make('div', {}, text)));
    this.tip.hidden = false;
    const { offsetLeft, clientWidth } = this.canvas, most = offsetLeft + clientWidth - this.tip.offsetWidth;
    this.tip.style.left = `${Math.max(0, Math.min(offsetLeft + event.offsetX + 14, most))}px`;
    this.tip.style.top = `${event.offsetY + 18}px`;
  }

  // Keys.
  key(event) {
    const keys = {
      ArrowRight: () => this.step(1), ArrowLeft: () => this.step(-1),
      ArrowUp: () => this.changeLane(-1), ArrowDown: () => this.changeLane(1),
      '+': () => this.zoom(1 / 2), '=': () => this.zoom(1 / 2), '-': () => this.zoom(2),
      Home: () => this.select(1), End: () => this.select(this.count),
      Enter: () => document.getElementById('journal').scrollIntoView(),
    };
    if (!(event.key in keys) || event.ctrlKey || event.metaKey || event.altKey) return;
    event.preventDefault();
    keys[event.key]();
  }
  changeLane(step) {
    this.lane = Math.max(0, Math.min(this.lane + step, this.source.lanes.length - 1));
    this.live.textContent = `lane of ${this.source.lanes[this.lane].name}`;
    this.draw();
  }
  // To the next line at which something stands in the lane.
  step(direction) {
    const line = this.source.nextLine(this.lane, this.line ?? (direction > 0 ? 0 : this.count + 1), direction);
    if (line === null) return;
    this.select(line);
    this.live.textContent = this.source.toldBetween(this.lane, line - .5, line + .5).join('; ');
  }
}
