'use strict';
const [, , , arrows] = document.querySelectorAll('#rows svg > g');
const main = document.querySelector('main');
const rows = document.getElementById('rows');
const drawing = rows.querySelector('svg');
const row = document.getElementById('row');
const panel = document.getElementById('panel');
const sheet = document.getElementById('sheet');
const find = document.getElementById('find');
const found = document.getElementById('found');

// which entry stands at a lane and a clock, and which letters each entry sends and takes
const byPlace = new Map();
const lettersOf = journal.entries.map(() => []);
journal.entries.forEach(([lane, clock], at) => byPlace.set(lane + ' ' + clock, at));
journal.letters.forEach(([, sent, taken], at) => {
  for (const end of [sent, taken]) if (end >= 0) lettersOf[end].push(at);
});

let shown = -1;
let size = 1;
let isKept = false;

function placed(kind, text) {
  const line = document.createElement(kind);
  line.textContent = text;
  return line;
}

// A line of the panel for a letter: where its other end is.
function letterLine(at, entry) {
  const [text, sent, taken, client, isUp] = journal.letters[at];
  const isSender = sent === entry;
  const other = isSender ? taken : sent;
  const node = isSender === (isUp === 1) ? 's' : client;
  const where = other < 0 ? (isSender ? 'not taken here' : 'sent before')
    : (isSender ? 'taken' : 'sent') + ' at clock ' + journal.entries[other][1] + ', line ' + journal.entries[other][2];
  const line = placed('a', (isSender ? '→ ' : '← ') + node + ' ' + text.slice(0, 60) + ' (' + where + ')');
  if (other >= 0) line.onclick = () => goTo(other);
  return line;
}

function fill(at) {
  const [, , line, text] = journal.entries[at];
  const place = placed('div', 'line ' + line);
  place.className = 'place';
  const parts = text.split(' ; ').map((part) => placed('div', part));
  panel.replaceChildren(place, ...parts, ...lettersOf[at].map((letter) => letterLine(letter, at)));
}

function light(at, isOn) {
  if (at >= 0) for (const letter of lettersOf[at]) arrows.children[letter].classList.toggle('lit', isOn);
}

function show(at, x, y) {
  if (at !== shown) {
    light(shown, false);
    light(at, true);
    if (at >= 0) fill(at);
    shown = at;
  }
  panel.hidden = at < 0;
  row.style.display = at < 0 ? 'none' : 'block';
  if (at < 0) return;
  row.style.top = (journal.entries[at][1] - journal.first + 0.5) * journal.row + 'px';
  const { offsetWidth: width, offsetHeight: height } = panel;
  const hasRoom = y + 18 + height < innerHeight;
  panel.style.left = Math.max(4, Math.min(x + 18, innerWidth - width - 12)) + 'px';
  panel.style.top = (hasRoom ? y + 18 : Math.max(4, y - 18 - height)) + 'px';
}

function keep(isOn) {
  isKept = isOn;
  panel.classList.toggle('kept', isOn);
}

// The place of the drawing in the window, and how large its pixels are there.
function frame() {
  const { left, top, height } = drawing.getBoundingClientRect();
  return { left, top, scale: height / drawing.height.baseVal.value };
}

// The entry under a point of the window, or -1.
function entryAt(event) {
  const { left, top, scale } = frame();
  const x = (event.clientX - left) / scale;
  const clock = Math.round((event.clientY - top) / scale / journal.row - 1) + journal.first;
  const lane = journal.lanes.findIndex(([from, to]) => x >= from && x < to);
  return byPlace.get(lane + ' ' + clock) ?? -1;
}

// Where an entry stands in the window: the middle of its lane, and its row.
function placeOf(at) {
  const [lane, clock] = journal.entries[at];
  const { left, top, scale } = frame();
  const [from, to] = journal.lanes[lane];
  return [left + scale * (from + to) / 2, top + scale * (clock - journal.first + 1) * journal.row];
}

function goTo(at) {
  const [x, y] = placeOf(at);
  const window = main.getBoundingClientRect();
  main.scrollTop += y - window.top - main.clientHeight / 2;
  if (x < window.left + 60 || x > window.right - 60) main.scrollLeft += x - window.left - main.clientWidth / 2;
  keep(false);
  show(at, ...placeOf(at));
  keep(true);
}

function resize(factor) {
  size = Math.min(2, Math.max(0.125, size * factor));
  const middle = (main.scrollTop + main.clientHeight / 2) / main.scrollHeight;
  sheet.style.zoom = size;
  main.scrollTop = middle * main.scrollHeight - main.clientHeight / 2;
}

// Goes to the next entry whose line has the text that is searched.
function findNext() {
  const text = find.value;
  const hits = journal.entries.flatMap(([, , , line], at) => (text && line.includes(text) ? [at] : []));
  const next = hits.find((at) => at > shown) ?? hits[0];
  found.textContent = next === undefined ? 'nowhere' : (hits.indexOf(next) + 1) + ' of ' + hits.length;
  if (next !== undefined) goTo(next);
}

rows.onpointermove = (event) => { if (!isKept) show(entryAt(event), event.clientX, event.clientY); };
rows.onpointerleave = () => { if (!isKept) show(-1); };
rows.onclick = (event) => {
  keep(false);
  const at = entryAt(event);
  show(at, event.clientX, event.clientY);
  keep(at >= 0);
};
document.onkeydown = (event) => { if (event.key === 'Escape') { keep(false); show(-1); } };
document.getElementById('smaller').onclick = () => resize(1 / Math.SQRT2);
document.getElementById('larger').onclick = () => resize(Math.SQRT2);
find.onkeydown = (event) => { if (event.key === 'Enter') findNext(); };

// A click on a lock shows it alone, another one shows all again.
document.getElementById('locks').onclick = (event) => {
  const lock = event.target.dataset.lock;
  if (!lock) return;
  const isOn = !event.target.classList.contains('on');
  document.querySelectorAll('.on').forEach((piece) => piece.classList.remove('on'));
  drawing.classList.toggle('only', isOn);
  if (isOn) document.querySelectorAll('.' + lock).forEach((piece) => piece.classList.add('on'));
};
