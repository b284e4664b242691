// The signs of the lanes: what stands for what befell a worker, and the list that says so.

// Of each mark its shape, the variable of its colour, and what it means.
const SIGNS = {
  assigned: ['diamond', '--assigned', 'assignment'],
  without: ['hollow', '--assigned', 'assignment, no task any more'],
  refused: ['cross', '--bad', 'refused request'],
  lost: ['bar', '--lost', 'epoch lost'],
  left: ['bar', '--lost', 'removed from the group'],
  parked: ['down', '--shelf', 'task parked'],
  taken: ['up', '--shelf', 'parked task taken'],
  joined: ['ring', '--idle', 'joined the group'],
  probed: ['ring', '--assigned', 'asked for a new generation'],
  ended: ['bar', '--idle', 'ended by the caller'],
};
// Where the shapes are that have corners, from their middle.
const CORNERS = {
  diamond: [[0, -5], [5, 0], [0, 5], [-5, 0]],
  hollow: [[0, -4], [4, 0], [0, 4], [-4, 0]],
  down: [[-5, -4], [5, -4], [0, 5]],
  up: [[-5, 4], [5, 4], [0, -5]],
};

function lineThrough(pen, points) {
  points.forEach(([x, y], at) => at ? pen.lineTo(x, y) : pen.moveTo(x, y));
}

// A sign of this shape round a place; a bar reaches over its whole lane, whose top is given.
function drawSign(pen, shape, color, x, y, top) {
  pen.fillStyle = pen.strokeStyle = color;
  pen.lineWidth = shape === 'hollow' || shape === 'ring' ? 1.4 : 2;
  pen.beginPath();
  if (shape in CORNERS) {
    lineThrough(pen, CORNERS[shape].map(([right, down]) => [x + right, y + down]));
    pen.closePath();
    return shape === 'hollow' ? pen.stroke() : pen.fill();
  }
  if (shape === 'ring') pen.arc(x, y, 3.2, 0, 7);
  if (shape === 'bar') lineThrough(pen, [[x, top + 4], [x, top + 54]]);
  if (shape === 'cross') {
    lineThrough(pen, [[x - 4, y - 4], [x + 4, y + 4]]);
    lineThrough(pen, [[x + 4, y - 4], [x - 4, y + 4]]);
  }
  pen.stroke();
}

// A small picture that is painted again in other colours where the page's change.
function icon(paint) {
  const canvas = make('canvas', { width: 32, height: 32, 'aria-hidden': 'true' });
  canvas.style.width = canvas.style.height = '16px';
  const draw = () => {
    const pen = canvas.getContext('2d');
    pen.setTransform(2, 0, 0, 2, 0, 0);
    pen.clearRect(0, 0, 16, 16);
    paint(pen, name => getComputedStyle(document.body).getPropertyValue(name));
  };
  draw();
  matchMedia('(prefers-color-scheme: dark)').addEventListener('change', draw);
  return canvas;
}

function legend() {
  const entry = (paint, text) => make('li', {}, icon(paint), text);
  const band = (color, top, height) => (pen, colors) => {
    pen.fillStyle = colors(color);
    pen.fillRect(1, top, 14, height);
  };
  const sign = ([shape, color]) => (pen, colors) => drawSign(pen, shape, colors(color), 8, 8, -20);
  const signs = Object.entries(SIGNS).filter(([name]) => name !== 'left').map(([name, each]) =>
    entry(sign(each), name === 'lost' ? 'epoch lost, or removed from the group' : each[2]));
  return make('ul', { class: 'legend' },
    entry(band('--good', 1, 14), 'transaction, committed'), entry(band('--bad', 5, 10), 'aborted'),
    entry(band('--edge', 7, 2), 'epoch'), ...signs);
}
