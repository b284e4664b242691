// The drawing of the lanes on a canvas: the lines from `from` to `to`, over its whole width.

const LANE = 58, AXIS = 24;
// Least distance of two signs of one kind, of a sign's middle from an edge, and of two numbers below.
const SIGN_GAP = 7, SIGN_EDGE = 5, NUMBER_GAP = 90;

class LaneDrawing {
  constructor(canvas, source) {
    this.canvas = canvas;
    this.source = source;
    this.height = source.lanes.length * LANE;
  }
  x(line) { return (line - this.from) / (this.to - this.from) * this.width; }
  line(x) { return this.from + x / this.width * (this.to - this.from); }
  // How many lines so many pixels are.
  lines(pixels) { return (this.to - this.from) / this.width * pixels; }
  laneAt(y) { return Math.max(0, Math.min(Math.floor(y / LANE), this.source.lanes.length - 1)); }

  // Draws the lines of a window, with the chosen line (or none), and a frame round the chosen lane (or none).
  draw({ from, to, line, frame }) {
    Object.assign(this, { from, to });
    if (!this.prepare()) return;
    this.source.lanes.forEach((_, at) => { if (at % 2 === 0) this.fill('--sunk', 0, at * LANE, this.width, LANE); });
    this.drawAxis();
    this.source.lanes.forEach((lane, at) => this.drawLane(lane, at * LANE));
    this.drawRule(data.drain, '--idle', [2, 3]);
    if (line !== null) this.drawRule(line + .5, '--accent', []);
    if (frame !== null) this.drawFrame(frame * LANE);
  }
  // Fits the canvas to its place; false where it has none.
  prepare() {
    const { canvas } = this, ratio = devicePixelRatio || 1, height = this.height + AXIS;
    canvas.style.height = `${height}px`;
    this.width = canvas.clientWidth;
    if (!this.width) return false;
    canvas.width = Math.round(this.width * ratio);
    canvas.height = Math.round(height * ratio);
    const style = getComputedStyle(canvas);
    this.color = name => style.getPropertyValue(name);
    this.pen = canvas.getContext('2d');
    this.pen.scale(ratio, ratio);
    this.pen.font = `12px ${style.fontFamily}`;
    return true;
  }
  fill(color, x, y, width, height) {
    this.pen.fillStyle = this.color(color);
    this.pen.fillRect(x, y, width, height);
  }
  drawFrame(y) {
    this.pen.strokeStyle = this.color('--accent');
    this.pen.lineWidth = 1.4;
    this.pen.strokeRect(1, y + 1, this.width - 2, LANE - 2);
  }
  drawLane(lane, y) {
    if (lane.kind === 'feed') return this.drawFeed(lane, y);
    this.drawEpochs(lane, y + 7);
    this.drawTransactions(lane, y + 13);
    this.drawEvents(lane, y);
  }
  // The places in a lane's list of the events that are shown.
  shown({ events }) { return [lowerBound(events, this.from), lowerBound(events, this.to)]; }

  // How many of the lines at each pixel are records that were produced.
  drawFeed(lane, y) {
    const columns = new Uint32Array(Math.ceil(this.width) + 1), [first, end] = this.shown(lane);
    for (let at = first; at < end; at++) columns[Math.floor(this.x(lane.events[at]))]++;
    const most = Math.max(1, this.lines(1)), wide = Math.max(1, 1 / this.lines(1) - 1);
    columns.forEach((count, x) => {
      if (!count) return;
      const height = Math.max(3, Math.min(1, count / most) * (LANE - 16));
      this.fill('--feed', x, y + LANE - 8 - height, wide, height);
    });
  }
  drawEpochs(lane, y) {
    const { first, last } = this.source.epochs;
    for (const at of lane.epochs) {
      if (last[at] < this.from || first[at] >= this.to) continue;
      const x = this.x(first[at]);
      this.fill('--edge', x, y, Math.max(1, this.x(last[at]) - x), 2);
    }
  }
  // Those that were committed first, so that what was aborted is seen over them.
  drawTransactions(lane, y) {
    const { first, last, end } = this.source.transactions, { ends } = data.transactions;
    const draw = (isCommitted, color, top, height) => {
      for (const at of lane.transactions) {
        if ((ends[end[at]] === 'committed') !== isCommitted || last[at] < this.from || first[at] >= this.to) continue;
        const x = this.x(first[at]);
        this.fill(ends[end[at]] === 'open' ? '--idle' : color, x, top, Math.max(1.5, this.x(last[at] + 1) - x - .5), height);
      }
    };
    draw(true, '--good', y, 15);
    draw(false, '--bad', y + 4, 11);
  }
  // One sign where several of a kind would lie on one another.
  drawEvents(lane, y) {
    const ends = {}, [first, end] = this.shown(lane);
    for (let at = first; at < end; at++) {
      const mark = lane.marks[at], [shape, color] = SIGNS[mark];
      const x = Math.max(SIGN_EDGE, Math.min(this.x(lane.events[at] + .5), this.width - SIGN_EDGE));
      if (x - (ends[mark] ?? -SIGN_GAP) < SIGN_GAP) continue;
      ends[mark] = x;
      drawSign(this.pen, shape, this.color(color), x, y + 43, y);
    }
  }
  drawAxis() {
    let step = 1;
    for (let at = 0; this.x(this.from + step) < NUMBER_GAP; at++) step = [2, 5, 10][at % 3] * 10 ** Math.floor(at / 3);
    this.pen.textAlign = 'center';
    for (let line = Math.ceil(this.from / step) * step; line < this.to; line += step) {
      const x = this.x(line + .5);
      this.fill('--rule', x, 0, 1, this.height + 5);
      this.pen.fillStyle = this.color('--faint');
      if (x > 20 && x < this.width - 20) this.pen.fillText(counted(line), x, this.height + 18);
    }
  }
  drawRule(line, color, dashes) {
    const x = this.x(line);
    if (x < 0 || x > this.width) return;
    this.pen.strokeStyle = this.color(color);
    this.pen.lineWidth = 1.4;
    this.pen.setLineDash(dashes);
    this.pen.beginPath();
    lineThrough(this.pen, [[x, 0], [x, this.height]]);
    this.pen.stroke();
    this.pen.setLineDash([]);
  }
}
