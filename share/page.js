/* The script of the pages that `etcs explain --to html` writes. tools/page.py puts it into the program, without empty lines and
   without comments of this kind. Without it a page has the bytes of each item as digits, beside the tables. */

/* An element with these properties and children. */
const make = (name, props, ...kids) => {
  const made = Object.assign(document.createElement(name), props);
  made.append(...kids);
  return made;
};

// ---- An item, when it is opened: its bytes with their bits, a tint for each packet, and what is drawn.

/* The rows of the variables of a part: not its head, and not the lines of entries and texts. */
const fields = part => [...part.querySelectorAll('tr')].filter(row => row.cells.length === 4 && row.cells[0].matches('td'));

/* The element of a byte with these two digits. */
const byteOf = text => {
  const bits = [...parseInt(text, 16).toString(2).padStart(8, 0)].map(bit => make('span', {className: 'bit', textContent: bit}));
  return make('span', {className: 'byte'}, make('span', {className: 'hex', textContent: text}),
    make('span', {className: 'strip', ariaHidden: true}, ...bits));
};

/* A line of bytes, after what is in the margin: the numbers of its first byte and its first bit. */
const lineOf = (byte, bit, ...bytes) =>
  make('div', {className: 'line'}, ...[byte, bit].map(at => make('span', {className: 'offset', textContent: at})), ...bytes);

/* The element of the bytes of an item, eight in a line. */
const bytesOf = texts => {
  const box = make('div', {className: 'bytes'}, lineOf('byte', 'bit'));
  for (let k = 0; k < texts.length; k += 8) box.append(lineOf(k, 8 * k, ...texts.slice(k, k + 8).map(byteOf)));
  return box;
};

// Ties the rows of a part to their bits. A packet has this tint, and its number where it begins.
const tie = (part, bits, tint) => {
  const rows = fields(part), packet = rows[0]?.cells[1].textContent === 'NID_PACKET';
  part.classList.add(packet ? tint : 'plain');
  rows.forEach((row, k) => {
    const [first, last = first] = row.cells[0].textContent.split('..').map(Number);
    row.bits = bits.slice(first, last + 1);
    row.tabIndex = k ? -1 : 0;
    for (const bit of row.bits) bit.row = row, bit.classList.add(packet ? tint : 'plain');
  });
  part.querySelector('table').ariaLabel = part.querySelector('h3').textContent;
  const begin = packet && rows[0].bits[0];
  if (!begin) return packet;
  begin.dataset.n = rows[0].cells[2].textContent;
  begin.closest('.line').classList.add('begins');
  return packet;
};

/* Marks the refused bit, which has this number in the item, its byte and its line. */
const refuse = (bit, place) => {
  for (const at of [bit, bit.closest('.byte'), bit.closest('.line')]) at.classList.add('no');
  bit.closest('.byte').style.setProperty('--x', (place % 8 + .5) * 12.5 + '%');
};

/* Makes what an item shows, once: until then its tables are in a noscript. */
const build = item => {
  const kept = item.querySelector('noscript');
  if (!kept) return;
  kept.outerHTML = kept.textContent;
  const pane = item.querySelector('.bytes'), box = bytesOf(pane.textContent.match(/\w\w/g) ?? []);
  const bits = [...box.querySelectorAll('.bit')], no = pane.dataset.no;
  let tint = 0;
  for (const part of item.querySelectorAll('.part')) tint += tie(part, bits, 'tint' + (tint % 6 + 1));
  if (bits[no]) refuse(bits[no], no);
  pane.replaceWith(box);
  item.querySelector('summary').after(...item.querySelectorAll('p'));
  draw(item);
};

const open = item => {
  item.open = true;
  build(item);
};

// ---- A row and its bits are marked together: under the pointer, and where the focus is.
const light = (row, on) => {
  if (!row?.bits) return;
  for (const one of [row, ...row.bits]) one.classList.toggle('on', on);
};

/* The row that an element is in, or that a bit has. */
const rowOf = at => at.row ?? at.closest?.('tr');

for (const [name, on] of [['mouseover', true], ['mouseout', false], ['focusin', true], ['focusout', false]])
  document.addEventListener(name, event => light(rowOf(event.target), on));

document.addEventListener('click', event => {
  const row = event.target.row;
  if (!row) return;
  row.closest('.part').open = true;
  row.scrollIntoView({block: 'nearest'});
});

// ---- Within a table the arrows go from row to row; Tab goes to the next table.
const steps = {ArrowDown: (k, n) => Math.min(k + 1, n), ArrowUp: k => Math.max(k - 1, 0), Home: () => 0, End: (k, n) => n};

document.addEventListener('keydown', event => {
  const row = event.target, step = steps[event.key];
  if (!row.bits || !step) return;
  event.preventDefault();
  const rows = fields(row.closest('table'));
  const next = rows[step(rows.indexOf(row), rows.length - 1)];
  row.tabIndex = -1;
  next.tabIndex = 0;
  next.focus();
});

// ---- Packets over the distance from what they refer to.

/* An element of a drawing. */
const svg = (name, props, ...kids) => {
  const made = document.createElementNS('http://www.w3.org/2000/svg', name);
  for (const key in props) made.setAttribute(key, props[key]);
  made.append(...kids);
  return made;
};

/* A distance in steps of 10 cm as a text. */
const metres = at => (at % 10 ? (at / 10).toFixed(1) : at / 10) + ' m';

/* What each packet that is drawn is about. */
const lanes = {5: 'links', 12: 'authority', 15: 'authority', 21: 'gradient', 27: 'speed', 41: 'level', 65: 'restriction',
  68: 'track conditions', 80: 'mode'};

/* How many pixels a profile of steps has in height. */
const heights = {21: 50, 27: 70, 65: 40};

/* A speed as V_STATIC, V_TSR and V_MAMODE have it. */
const speed = x => 5 * x + ' km/h';

const mark = (said, what) => said.marks.push({at: said.at, what});
const further = (said, x) => said.at += x * said.unit;
const area = (said, at, to, what) =>
  said.areas.some(one => one.at === at && one.to === to && one.what === what) || said.areas.push({at, to, what});
const before = (said, x) => x && said.at && area(said, Math.max(0, said.at - x * said.unit), said.at, 'acknowledgement');
const over = (said, x) => said.over = x * said.unit;

// What a variable adds, by its number and its meaning, to what its packet says at which distance, in steps of 10 cm: steps up to
// the next one, marks, and areas from a place to an end.
const says = {
  Q_SCALE: (said, x) => said.unit = [1, 10, 100][x],
  D_LINK: (said, x) => (further(said, x), said.country = ''),
  NID_C: (said, x) => said.country = `NID_C ${x}, `,
  NID_BG: (said, x) => mark(said, said.country + 'NID_BG ' + x),
  D_STATIC: further,
  V_STATIC: (said, x) => said.steps.push({at: said.at, y: x === 127 ? null : 5 * x, text: speed(x)}),
  D_GRADIENT: further,
  Q_GDIR: (said, x) => said.sign = x ? 1 : -1,
  G_A: ({steps, at, sign}, x) =>
    steps.push({at, y: x === 255 ? null : sign * x, text: (x ? sign > 0 ? '+' : '\u2212' : '') + x + ' \u2030'}),
  L_SECTION: (said, x) => (further(said, x), mark(said, 'section ends')),
  L_ENDSECTION: (said, x) => (further(said, x), said.ends = said.at, mark(said, 'authority ends'), area(said, 0, said.at)),
  D_DP: (said, x) => (said.at = said.ends + x * said.unit, mark(said, 'danger point')),
  D_OL: (said, x) => (said.at = said.ends + x * said.unit, mark(said, 'overlap ends')),
  D_TSR: further,
  L_TSR: over,
  V_TSR: ({steps, at, over}, x) => steps.push({at, y: 5 * x, text: speed(x)}, {at: at + over, y: null}),
  D_LEVELTR: (said, x, means) => said.at = means === 'now' ? 0 : x * said.unit,
  M_LEVELTR: (said, x, means) => {
    const [level] = means.split(','), last = said.marks.at(-1);
    if (last) last.what += ', ' + level;
    else mark(said, level);
  },
  NID_NTC: (said, x) => said.marks.at(-1).what += ' ' + x,
  L_ACKLEVELTR: before,
  D_TRACKINIT: (said, x) => (further(said, x), mark(said, 'initial states')),
  D_TRACKCOND: further,
  L_TRACKCOND: over,
  M_TRACKCOND: (said, x, means) => area(said, said.at, said.at + said.over, means || 'M_TRACKCOND ' + x),
  D_MAMODE: further,
  M_MAMODE: (said, x, means) => said.mode = means,
  V_MAMODE: (said, x) => said.mode += x === 127 ? '' : ', ' + speed(x),
  L_MAMODE: (said, x, means) => area(said, said.at, means === 'infinite' ? Infinity : said.at + x * said.unit, said.mode),
  L_ACKMAMODE: before,
};

/* What the rows of a packet say, up to a refused one. */
const read = (number, rows) => {
  const said = {number, steps: [], marks: [], areas: [], unit: 0, at: 0, sign: 1, country: '', ends: 0, over: 0, mode: ''};
  for (const row of rows) {
    const [name, text, means] = [1, 2, 3].map(k => row.cells[k].textContent.trim());
    if (row.matches('.no') || !/^\d+$/.test(text)) break;
    says[name]?.(said, +text, means);
  }
  for (const step of said.steps) if (step.y === null) step.text = 'ends';
  return said;
};

/* Puts what is between these pixels into the first row that has room, and returns the row; `ends` is where each row ends. */
const fit = (ends, from, to) => {
  const free = ends.findIndex(end => end <= from), k = free < 0 ? ends.length : free;
  ends[k] = to;
  return k;
};

/* What a packet says as a text. */
const extent = ({at, to}) => metres(at) + (to === undefined ? '' : to < Infinity ? ' to ' + metres(to) : ' on');
const spokenOf = ({number, steps, marks, areas}) => {
  const all = [...steps, ...marks, ...areas.filter(area => area.what)];
  return `packet ${number}, ${lanes[number]}: ` + all.map(one => `${extent(one)} ${one.text ?? one.what}`).join(', ');
};

/* The drawing of packets with the same reference and direction, for this room in pixels. */
const chart = (key, all, room) => {
  const width = Math.max(300, Math.min(760, room)), shown = all.flatMap(({steps, marks, areas}) => [...steps, ...marks, ...areas,
    ...areas.map(area => ({at: area.to}))]).map(one => one.at).filter(isFinite);
  const far = Math.max(1, ...shown), x = at => at < Infinity ? 6 + at / far * (width - 80) : width - 6;
  const lines = svg('g'), top = svg('g');
  let y = 18;
  // texts at their distances, in as many lines as keep them apart
  const labels = ones => {
    const ends = [];
    for (const {at, text} of ones) {
      const wide = 6.4 * text.length + 8, begin = Math.min(x(at), width - wide);
      top.append(svg('text', {x: begin + 2, y: y + 13 * fit(ends, begin, begin + wide) + 11}, text));
    }
    y += 13 * ends.length + 3;
  };

  /* A profile of steps of this height in pixels: each an area up to the next step, with a line on its level. */
  const profile = (said, height) => {
    const values = said.steps.map(step => step.y), high = Math.max(0, ...values), low = Math.min(0, ...values);
    const level = value => y + (high - value) / (high - low || 1) * height;
    said.steps.forEach((step, k) => {
      if (step.y === null) return;
      const next = said.steps[k + 1], [begin, end] = [x(step.at), x(next?.at ?? Infinity)];
      const [zero, here] = [level(0), level(step.y)];
      lines.append(svg('rect', {class: 'area', x: begin, y: Math.min(zero, here), width: end - begin, height: Math.abs(here - zero)}));
      lines.append(svg('path', {class: next ? 'level' : 'level endless', d: `M${begin} ${here}H${end}`}));
    });
    lines.append(svg('path', {class: 'grid', d: `M6 ${level(0)}H${width - 6}`}));
    y += height + 8;
  };

  /* Marks, and areas in rows: dashed where the driver may acknowledge, and where no end is known. */
  const band = said => {
    const ends = [];
    for (const {at, to, what} of said.areas) {
      const [from, end] = [x(at), x(to)], dashed = to === Infinity || what === 'acknowledgement';
      const row = y + 1 + 10 * fit(ends, from, end);
      lines.append(svg('rect', {class: dashed ? 'area endless' : 'area', x: from, y: row, width: Math.max(1, end - from), height: 8}));
    }
    for (const {at} of said.marks) lines.append(svg('path', {class: 'level', d: `M${x(at)} ${y - 1}v12`}));
    lines.append(svg('path', {class: 'grid', d: `M6 ${y + 5}H${width - 6}`}));
    y += 10 * Math.max(1, ends.length) + 8;
  };

  top.append(svg('text', {x: 6, y: 11}, key));
  for (const said of all) {
    const from = lines.childNodes.length, named = [...said.marks, ...said.areas.filter(area => area.what)].sort((a, b) => a.at - b.at);
    top.append(svg('text', {x: 6, y: y + 12, 'font-weight': 600}, `packet ${said.number}: ${lanes[said.number]}`));
    y += 15;
    labels(said.steps.length ? said.steps : named.map(({at, what}) => ({at, text: what})));
    if (heights[said.number]) profile(said, heights[said.number]);
    else band(said);
    for (const line of [...lines.childNodes].slice(from)) line.classList.add(said.tint);
  }

  const places = [...new Set(shown)].sort((a, b) => a - b);
  const grid = places.map(at => svg('path', {class: 'grid', d: `M${x(at)} 14V${y}`}));
  labels(places.map(at => ({at, text: metres(at)})));

  return svg('svg', {role: 'img', viewBox: `0 0 ${width} ${y}`}, svg('title', {}, [key, ...all.map(spokenOf)].join('; ')), ...grid, lines, top);
};

/* Puts the drawings of an item above its tables. */
const draw = item => {
  const axes = new Map();
  let from = 'the reference';
  for (const part of item.querySelectorAll('.part')) {
    const rows = fields(part), cell = (name, k) => rows.find(row => row.cells[1].textContent === name)?.cells[k].textContent.trim();
    const number = cell('NID_PACKET', 2), unit = cell('Q_SCALE', 2);
    if (number === '136') from = 'the infill location';
    if (!lanes[number] || !['0', '1', '2'].includes(unit)) continue;
    const said = read(number, rows);
    if (![...said.steps, ...said.marks, ...said.areas].length) continue;
    const key = `distance from ${from}, direction: ${cell('Q_DIR', 3)}`;
    if (!axes.has(key)) axes.set(key, []);
    axes.get(key).push({...said, tint: part.classList[1]});
  }
  const side = item.querySelector('.bytes + div');
  for (const [key, all] of [...axes].reverse()) side.prepend(chart(key, all, side.clientWidth));
};

// ---- The page: what it is, a search, a list of what is refused, and what is open at first.
const parts = [...document.querySelectorAll('body > .item, body > .no')], items = parts.filter(part => part.matches('.item'));
const titleOf = part => (part.querySelector('h2') ?? part).firstChild.data.trim();
const bad = parts.filter(part => part.matches('.no') || part.querySelector('p.no'));
const lines = parts.length - items.length, refused = bad.length - lines;

/* How many there are, in words. */
const counted = (count, one, more = one + 's') => `${count} ${count === 1 ? one : more}`;

/* How many items of each kind there are, and what is wrong. */
const kinds = {};
for (const item of items) {
  const [, what, way = ''] = titleOf(item).match(/((?:long|short) telegram|message)(?: \d+)?( to the \w+)?/);
  (kinds[what + way] ??= {count: 0, one: what + way, more: what + 's' + way}).count++;
}
const sums = Object.values(kinds).map(({count, one, more}) => counted(count, one, more));
if (refused) sums.push(refused + ' refused or cut short');
if (lines) sums.push(counted(lines, 'invalid line'));

const heading = document.querySelector('h1');
if (parts.length) heading.textContent = parts.length === 1 ? titleOf(parts[0]).replace(/^(line|item) \d+: /, '') : sums.join(', ');
if (parts.length) document.title = heading.textContent + ' \u2013 etcs explain';

/* Shows only the parts with these words in their text, which has one blank where tags are; returns how many they are, in words. */
let texts;
const find = words => {
  texts ??= parts.map(part => part.innerHTML.replace(/(<[^>]*>|\s)+/g, ' ').toLowerCase());
  parts.forEach((part, k) => part.hidden = !texts[k].includes(words));
  return words && ' ' + counted(parts.filter(part => !part.hidden).length, 'match', 'matches');
};

const tools = make('p', {className: 'tools'});
const bitsBox = make('input', {type: 'checkbox', onchange: () => document.body.classList.toggle('bits', bitsBox.checked)});
tools.append(make('label', {}, bitsBox, ' bits '));
if (items.length > 1 && items.length <= 200) tools.append(make('button', {type: 'button', textContent: 'open all', onclick: () => items.forEach(open)}));
const search = make('input', {type: 'search', placeholder: 'search: packet 12', ariaLabel: 'search'}), matches = make('output');
search.oninput = () => matches.value = find(search.value.trim().toLowerCase());
if (parts.length > 1) tools.append(' ', search, matches);

const list = make('nav', {ariaLabel: 'refused'});
if (parts.length > 1 && bad.length) list.append(make('ul', {}, ...bad.map((part, k) => {
  const at = part.querySelector('h2 a') ?? part;
  at.id ||= 'no' + (k + 1);
  return make('li', {}, make('a', {href: '#' + at.id, textContent: titleOf(part)}));
})));

if (parts.length) heading.after(tools, list);

document.addEventListener('toggle', event => event.target.matches?.('.item') && build(event.target), true);

/* Opens what the address points to. */
const arrive = () => {
  const at = document.getElementById(location.hash.slice(1)), item = at?.closest('.item');
  if (item) open(item);
  at?.scrollIntoView();
  return at;
};

addEventListener('hashchange', arrive);
if (!arrive() && items.length) open(items[0]);
