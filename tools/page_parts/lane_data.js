// The numbers that the lanes are drawn from: of each lane its events (lines and what they mean), its transactions and its epochs.

const ENDS_TOLD = {
  committed: 'committed', aborted: 'aborted', ended: 'aborted: its epoch was ended', open: 'never decided',
};
const KINDS = {
  lane: Uint8Array, end: Uint8Array, first: Uint32Array, last: Uint32Array, in: Uint32Array, out: Uint32Array, epoch: Uint32Array,
};

// Columns of numbers by their names.
function unpackedColumns(packed) {
  const columns = Object.entries(packed).filter(([name]) => name in KINDS);
  return Object.fromEntries(columns.map(([name, text]) => [name, unpacked(KINDS[name], text)]));
}

class LaneData {
  constructor() {
    const { lines } = data;
    this.count = lines.count;
    this.who = unpacked(Uint8Array, lines.who_of);
    this.mark = unpacked(Uint8Array, lines.mark_of);
    this.lanes = data.lanes.map(lane => ({ ...lane, events: [], marks: [], transactions: [], epochs: [] }));
    const laneOf = lines.who.map(name => this.lanes.find(lane => lane.name === name));
    for (let at = 0; at < this.count; at++) this.takeLine(at + 1, laneOf[this.who[at]], lines.marks[this.mark[at]]);
    this.placesAt = new Map(data.assignments.map(each => [each.line, each]));
    this.takeAssignments();
    this.transactions = unpackedColumns(data.transactions);
    this.epochs = unpackedColumns(data.epochs);
    this.transactions.lane.forEach((lane, at) => this.lanes[lane].transactions.push(at));
    this.epochs.lane.forEach((lane, at) => this.lanes[lane].epochs.push(at));
  }
  takeLine(line, lane, mark) {
    if (!lane || mark === 'assigned' || !(mark in SIGNS || mark === 'produced')) return;
    lane.events.push(line);
    lane.marks.push(mark);
  }
  // An assignment stands in the lane of each worker that has a task then, or had one before, whoever sent it in.
  takeAssignments() {
    const had = new Set();
    for (const { line, places } of data.assignments) {
      for (const [lane, [, count]] of Object.entries(places)) {
        if (count || had.has(lane)) this.insert(this.lanes[lane], line, count ? 'assigned' : 'without');
        if (count) had.add(lane); else had.delete(lane);
      }
    }
  }
  insert({ events, marks }, line, mark) {
    const at = lowerBound(events, line);
    events.splice(at, 0, line);
    marks.splice(at, 0, mark);
  }
  // What a lane's event means, in words.
  told(lane, line, mark) {
    if (mark !== 'assigned' && mark !== 'without') return `line ${counted(line)}: ${SIGNS[mark][2]}`;
    const { generation, places } = this.placesAt.get(line);
    return `line ${counted(line)}: generation ${generation}, ${places[lane][0]}`;
  }
  // The first of a lane's transactions that doesn't end before a line: its place in the lane's list.
  firstEnding(lane, line) {
    const { transactions } = this.lanes[lane], { last } = this.transactions;
    let low = 0, high = transactions.length;
    while (low < high) {
      const middle = (low + high) >> 1;
      if (last[transactions[middle]] < line) low = middle + 1; else high = middle;
    }
    return low;
  }
  // The transaction of a lane in which a line stands, or none.
  transactionAt(lane, line) {
    const found = this.lanes[lane].transactions[this.firstEnding(lane, line)];
    return found !== undefined && this.transactions.first[found] <= line ? found : null;
  }
  transactionText(at) {
    const { first, last, end } = this.transactions, records = this.transactions;
    const how = ENDS_TOLD[data.transactions.ends[end[at]]], taken = things(records.in[at], 'record');
    return `transaction, lines ${counted(first[at])} to ${counted(last[at])}, ${how}: ${taken} in, ${counted(records.out[at])} out`;
  }
  // The nearest line after or before one at which something of a lane stands: an event, or the end of a transaction.
  nextLine(lane, line, direction) {
    const { events, transactions } = this.lanes[lane], { last } = this.transactions;
    const isLater = direction > 0;
    const event = events[isLater ? lowerBound(events, line + 1) : lowerBound(events, line) - 1];
    const end = last[transactions[isLater ? this.firstEnding(lane, line + 1) : this.firstEnding(lane, line) - 1]];
    const found = [event, end].filter(each => each !== undefined);
    return found.length ? (isLater ? Math.min(...found) : Math.max(...found)) : null;
  }
  // The event of a lane that is nearest to a line, not further than so many lines; or none.
  nearestEvent(lane, line, reach) {
    const { events } = this.lanes[lane];
    let best = null;
    for (let at = lowerBound(events, line - reach); at < events.length && events[at] <= line + reach; at++) {
      if (best === null || Math.abs(events[at] - line) < Math.abs(best - line)) best = events[at];
    }
    return best;
  }
  // What stands in a lane between two lines: at most five events, and its transaction.
  toldBetween(lane, from, to) {
    const { events, marks, kind } = this.lanes[lane];
    const first = lowerBound(events, from), end = lowerBound(events, to);
    if (kind === 'feed') return end > first ? [`${things(end - first, 'record')} produced here`] : [];
    const told = [];
    for (let at = first; at < Math.min(end, first + 5); at++) told.push(this.told(lane, events[at], marks[at]));
    if (end - first > 5) told.push(`and ${counted(end - first - 5)} more`);
    const transaction = this.transactionAt(lane, (from + to) / 2) ?? this.transactionAt(lane, Math.ceil(from));
    return transaction === null ? told : [...told, this.transactionText(transaction)];
  }
}
