// What all parts of the page use: its data, elements made of text alone, numbers in words.
const data = JSON.parse(document.getElementById('data').textContent);

// An element with properties (`class`, attributes, `on..` handlers) and children; texts stay texts.
function make(tag, properties = {}, ...children) {
  const element = document.createElement(tag);
  for (const [name, value] of Object.entries(properties)) {
    if (name.startsWith('on')) element.addEventListener(name.slice(2), value);
    else if (value !== null && value !== false) element.setAttribute(name, value === true ? '' : value);
  }
  element.append(...children.filter(child => child !== null));
  return element;
}

// Numbers that stand in the data as bytes in base 64.
function unpacked(Kind, text) {
  const characters = atob(text);
  const bytes = new Uint8Array(characters.length);
  for (let at = 0; at < characters.length; at++) bytes[at] = characters.charCodeAt(at);
  return new Kind(bytes.buffer);
}

const counted = number => number.toLocaleString('en');
const things = (number, thing) => `${counted(number)} ${thing}${number === 1 ? '' : 's'}`;

// The first place of a rising list whose number isn't below this one.
function lowerBound(list, number) {
  let low = 0, high = list.length;
  while (low < high) {
    const middle = (low + high) >> 1;
    if (list[middle] < number) low = middle + 1; else high = middle;
  }
  return low;
}

// Calls once the calls have ceased for a moment.
function afterwards(call, milliseconds = 120) {
  let timer = 0;
  return (...words) => { clearTimeout(timer); timer = setTimeout(() => call(...words), milliseconds); };
}

function searchBox(label, onSearch) {
  const oninput = afterwards(event => onSearch(event.target.value));
  return make('label', {}, label, make('input', { type: 'search', autocomplete: 'off', spellcheck: 'false', oninput }));
}

function choice(label, options, onChoice) {
  const onchange = event => onChoice(event.target.value);
  const select = make('select', { onchange }, ...options.map(([value, text]) => make('option', { value }, text)));
  return make('label', {}, label, select);
}

// Two buttons that turn pages, and what stands between them.
class Pager {
  constructor(size, onTurn) {
    this.size = size; this.page = 0; this.count = 0; this.onTurn = onTurn;
    this.back = make('button', { type: 'button', onclick: () => this.turn(-1) }, 'Previous');
    this.next = make('button', { type: 'button', onclick: () => this.turn(1) }, 'Next');
    this.text = make('span', { class: 'count', 'aria-live': 'polite' });
  }
  turn(step) { this.page += step; this.onTurn(); }
  get first() { return this.page * this.size; }
  get end() { return Math.min(this.count, this.first + this.size); }
  // Shows how many there are, after which the page is one that is there.
  update(count, all, thing) {
    this.count = count;
    this.page = Math.max(0, Math.min(this.page, Math.ceil(count / this.size) - 1));
    const range = count > this.size ? `${counted(this.first + 1)} to ${counted(this.end)} of ` : '';
    this.text.textContent = range + things(count, thing) + (count < all ? ` found among ${counted(all)}` : '');
    this.back.disabled = this.page === 0;
    this.next.disabled = this.end >= count;
    this.back.hidden = this.next.hidden = count <= this.size;
  }
}
