// The colours of the picture: those of the page's style, and those of routes.

const COLOURS = [
  "back", "band", "ink", "soft", "faint", "line", "grid", "day", "bar", "edge", "used", "number", "accent", "bad", "calm",
];

const ink = {};

// Reads the colours of the page's style.
function readColours() {
  const style = getComputedStyle(document.documentElement);
  for (const name of COLOURS) ink[name] = style.getPropertyValue(`--${name}`).trim();
  [ink.routes, ink.faintRoutes] = look[theme.isDark ? "dark" : "light"];
}

function colourOf(route) {
  if (isBroken(route)) return ink.faint;
  return (isFaint(route) ? ink.faintRoutes : ink.routes)[route.place % HUES];
}

// The picture on the canvas: rows and contacts that are in view alone, the axis, and the map of the whole plan.

const FAMILY = "system-ui, sans-serif";
const SMALL = `11.5px ${FAMILY}`, MIDDLE = `12.5px ${FAMILY}`, BOLD = `bold 12px ${FAMILY}`;

const screen = chart.getContext("2d", { alpha: false });
let paper = screen; // what is painted on
const map = byId("map");
let digitWidth = 7;
let isPrinting = false;
let isFit = false; // whether the sizes are those of the page and of the plan's names
let due = 0;

// Draws all anew at the next frame.
function draw() {
  due = due || requestAnimationFrame(() => {
    due = 0;
    if (!isFit) return fitAll();
    paint();
    paintStarts();
    placePart();
  });
}

function paint(scroll = scroller.scrollTop) {
  const last = firstRowAt(scroll + size.height - AXIS) + 1;
  const inView = rows.list.slice(firstRowAt(scroll), last);
  const top = AXIS - scroll; // that of the first row of all
  const step = stepFor(view.last - view.first, plotWidth());
  const ticks = ticksIn(view.first, view.last, step);
  paintGround(inView, top, ticks, step);
  paper.save();
  clipTo(size.left, AXIS, size.width - size.left, size.height - AXIS);
  const used = usedContacts();
  const numbers = inView.flatMap((row) => paintRow(row, top, used));
  paintStart(Math.min(size.height, top + rows.height));
  paintRoutes(top);
  paintNumbers(numbers);
  for (const contact of new Set([pointed.what?.contact, chosen.contact])) paintOutline(contact, top);
  paper.restore();
  paintNames(inView, top);
  paintAxis(ticks, step);
}

// ---- Brushes ----

function fillBox(colour, x, y, width, height) {
  paper.fillStyle = colour;
  paper.fillRect(x, y, width, height);
}

function clipTo(x, y, width, height) {
  paper.beginPath();
  paper.rect(x, y, width, height);
  paper.clip();
}

function write(text, x, y, colour, align = "left") {
  paper.textAlign = align;
  paper.fillStyle = colour;
  paper.fillText(text, x, y);
}

// Writes left of the plot, narrower if there is no room.
function writeBeside(text, y, colour) {
  paper.textAlign = "right";
  paper.fillStyle = colour;
  paper.fillText(text, size.left - 10, y, size.left - 16);
}

// Writes with a rim, so that the text stands out from lines.
function writeOver(text, x, y, colour, rim) {
  paper.lineWidth = 3;
  paper.lineJoin = "round";
  paper.textAlign = "left";
  paper.strokeStyle = rim;
  paper.strokeText(text, x, y);
  write(text, x, y, colour);
}

// A line over some places.
function strokeLine(...places) {
  paper.beginPath();
  places.forEach(([x, y], place) => (place ? paper.lineTo(x, y) : paper.moveTo(x, y)));
  paper.stroke();
}

function useFont(font, baseline = "middle") {
  paper.font = font;
  paper.textBaseline = baseline;
}

// ---- Rows and contacts ----

function paintGround(inView, top, ticks, step) {
  fillBox(ink.back, 0, 0, size.width, size.height);
  for (const row of inView) if (row.isBanded) fillBox(ink.band, 0, top + row.top, size.width, row.height);
  const bottom = Math.min(size.height, top + rows.height);
  for (const tick of ticks) {
    const isMidnight = step.seconds < DAY && tick % DAY === 0;
    fillBox(isMidnight ? ink.day : ink.grid, Math.round(xOf(tick)), AXIS, 1, bottom - AXIS);
  }
}

// Draws a link's contacts, and returns their numbers, which are written over the routes.
function paintRow(row, top, used) {
  if (!isOfLink(row)) return paintGroup(row, top);
  const { strips } = links[row.link];
  const numbers = strips.flatMap((strip, place) => paintStrip(strip, top + topOfStrip(row, place), used));
  useFont(SMALL);
  paintElsewhere(strips, top + row.top + ABOVE + BAR / 2);
  return numbers;
}

// When some of a group's links have a contact.
function paintGroup(row, top) {
  const crowd = new Crowd(top + row.top + ABOVE);
  for (const [first, last] of spansOf(row)) {
    if (last > view.first && first < view.last) crowd.add(Math.max(xOf(first), size.left), Math.min(xOf(last), size.width));
  }
  crowd.paint();
  return [];
}

const spans = new WeakMap(); // of the links of a group

// The times at which some links have a contact, as spans apart from each other.
function spansOf({ its }) {
  if (!spans.has(links[its[0]])) {
    const found = [], contacts = its.flatMap((link) => links[link].strips.flat());
    for (const contact of contacts.sort((one, other) => known.start[one] - known.start[other])) {
      const last = found.at(-1);
      if (last && known.start[contact] <= last[1]) last[1] = Math.max(last[1], ends[contact]);
      else found.push([known.start[contact], ends[contact]]);
    }
    spans.set(links[its[0]], found);
  }
  return spans.get(links[its[0]]);
}

// The contacts of the routes that don't stand back.
function usedContacts() {
  return new Set(drawnRoutes().filter((it) => !isFaint(it)).flatMap((it) => it.hops.map((hop) => hop.contact)));
}

function paintStrip(strip, y, used) {
  const numbers = [], crowd = new Crowd(y);
  for (let place = firstEndingAfter(strip, view.first); place < strip.length; place++) {
    const contact = strip[place], start = xOf(known.start[contact]);
    if (start > size.width) break;
    const left = Math.max(start, size.left - 9), right = Math.min(rightOf(contact, start), size.width + 9);
    const kind = kindOf(contact, used);
    if (right - left < 5 && kind === "plain") crowd.add(left, right);
    else {
      crowd.paint();
      paintBar(left, right, y, kind);
    }
    const next = place + 1 < strip.length ? xOf(known.start[strip[place + 1]]) : Infinity;
    numbers.push(...numberOf(contact, kind, { left, right, next, y: y + BAR / 2 + 0.5 }));
  }
  crowd.paint();
  return numbers;
}

function kindOf(contact, used) {
  if (isLost(contact)) return "lost";
  return used.has(contact) ? "used" : "plain";
}

// Narrow bars that are less than a pixel apart are drawn as one.
class Crowd {
  constructor(y) {
    this.y = y;
    this.left = this.right = null;
  }

  add(left, right) {
    if (this.right !== null && left > this.right + 1) this.paint();
    if (this.right === null) this.left = left;
    this.right = right;
  }

  paint() {
    if (this.right !== null) fillBox(ink.edge, this.left, this.y, this.right - this.left, BAR);
    this.right = null;
  }
}

const ROUND = 12; // a bar that is wider has round corners
const FILLS = { plain: "bar", used: "used", lost: "calm" };
const EDGES = { plain: ["edge", 1], lost: ["bad", 1.5] };

function paintBar(left, right, y, kind) {
  if (kind === "plain" && right - left < ROUND) paintNarrowBar(left, right, y);
  else paintWideBar(left, right, y, kind);
}

// There may be thousands of these in view, so they are painted without paths.
function paintNarrowBar(left, right, y) {
  fillBox(ink.edge, left, y, right - left, BAR);
  fillBox(ink.bar, left + 1, y + 1, right - left - 2, BAR - 2);
}

function paintWideBar(left, right, y, kind) {
  const width = Math.max(right - left - 1, 1.5);
  paper.fillStyle = ink[FILLS[kind]];
  paper.beginPath();
  paper.roundRect(left + 0.5, y + 0.5, width, BAR - 1, Math.min(3, (right - left) / 3));
  paper.fill();
  if (EDGES[kind]) {
    const [edge, thick] = EDGES[kind];
    paper.strokeStyle = ink[edge];
    paper.lineWidth = thick;
    paper.stroke();
  }
  if (kind === "lost") crossOut(Math.max(left, size.left), right, y);
}

function crossOut(left, right, y) {
  paper.save();
  clipTo(left, y, right - left, BAR);
  paper.strokeStyle = ink.bad;
  paper.globalAlpha = 0.35;
  paper.lineWidth = 1.2;
  paper.beginPath();
  for (let x = Math.max(left, 0) - BAR; x < Math.min(right, size.width); x += 7) {
    paper.moveTo(x, y + BAR);
    paper.lineTo(x + BAR, y);
  }
  paper.stroke();
  paper.globalAlpha = 1;
  strokeLine([left, y + BAR / 2], [right, y + BAR / 2]);
  paper.restore();
}

// A contact's number with its place and colours, in the bar or right of it; nothing if there is no room.
function numberOf(contact, kind, { left, right, next, y }) {
  const from = Math.max(left, size.left), text = String(known.number[contact]);
  const room = text.length * digitWidth + 9;
  const told = kind === "lost" ? `${text} lost` : text, wide = kind === "lost" ? room + 60 : room;
  const inside = { lost: ["bad", "calm"], used: ["back", "used"], plain: ["number", "bar"] }[kind];
  if (right - from > wide) return [[told, from + 5, y, ...inside]];
  return right + room < next ? [[text, right + 4, y, kind === "lost" ? "bad" : "soft", "back"]] : [];
}

function paintNumbers(numbers) {
  useFont(SMALL);
  for (const [text, x, y, colour, rim] of numbers) {
    if (rim === "calm") fillBox(ink.calm, x - 2, y - BAR / 2 + 2, paper.measureText(text).width + 4, BAR - 5);
    writeOver(text, x, y, ink[colour], ink[rim]);
  }
}

// If no contact of a link is in view: when the last one ended, and when the next one starts.
function paintElsewhere(strips, y) {
  const places = strips.map((strip) => firstEndingAfter(strip, view.first));
  const next = Math.min(...strips.map((strip, at) => known.start[strip[places[at]]] ?? Infinity));
  if (next < view.last) return;
  const before = Math.max(...strips.map((strip, at) => ends[strip[places[at] - 1]] ?? -Infinity));
  if (before > -Infinity) write(`‹ ${timeBeside(before, view.first)}`, size.left + 8, y, ink.soft);
  if (next < Infinity) write(`${timeBeside(next, view.last)} ›`, size.width - SIDE, y, ink.soft, "right");
}

function paintOutline(contact, top) {
  const place = contact === undefined || contact === null ? null : placeOf(contact);
  if (!place) return;
  const left = Math.max(place.left, size.left - 9), right = Math.min(place.right, size.width + 9);
  paper.strokeStyle = ink.accent;
  paper.lineWidth = 2;
  paper.beginPath();
  paper.roundRect(left - 2, top + place.top - 2, right - left + 4, BAR + 4, 5);
  paper.stroke();
}

// ---- Names and axis ----

function paintNames(inView, top) {
  for (const row of inView) {
    fillBox(row.isBanded ? ink.band : ink.back, 0, top + row.top, size.left, row.height);
    const colour = shows.node !== null || !isOfLink(row) ? ink.accent : rows.lanes.has(row.link) ? ink.number : ink.soft;
    paintName(row, top + row.top + ABOVE + BAR / 2 + 0.5, colour);
  }
  fillBox(ink.back, 0, top + rows.height, size.left, size.height);
  fillBox(ink.line, size.left - 1, AXIS, 1, Math.min(size.height, top + rows.height) - AXIS);
  if (!rows.list.length) write(contactCount ? "no link is chosen" : "no contacts", size.left + 12, AXIS + 24, ink.soft);
}

// A name in one line, or in two smaller ones if it is too wide.
function paintName(row, y, colour) {
  useFont(MIDDLE);
  const name = rowName(row), isWide = isOfLink(row) && paper.measureText(name).width > size.left - 16;
  const lines = isWide ? [`${nameOf(links[row.link].from)} →`, nameOf(links[row.link].to)] : [name];
  if (isWide) useFont(SMALL);
  lines.forEach((line, place) => writeBeside(line, y + (isWide ? place * 12 - 5 : 0), colour));
}

function rowName(row) {
  if (isOfLink(row)) return linkName(row.link);
  return `${shows.open.has(row.sender) ? "▾" : "▸"} ${nameOf(row.sender)} → (${row.its.length})`;
}

function paintAxis(ticks, step) {
  fillBox(ink.back, 0, 0, size.width, AXIS);
  fillBox(ink.line, 0, AXIS - 1, size.width, 1);
  useFont(MIDDLE, "alphabetic");
  write("UTC", size.left - 10, AXIS - 10, ink.soft, "right");
  if (step.months < 12) {
    const first = ticks.find((tick) => xOf(tick) > size.left) ?? view.first;
    write(step.seconds < DAY ? dayText(first) : yearText(first), size.left - 10, 15, ink.number, "right");
  }
  const label = startLabel(ticks, step);
  for (const tick of ticks) paintTick(tick, step, label);
  if (label) paintStartLabel(label);
}

function paintTick(tick, step, label) {
  const text = tickLabel(tick, step), period = tickPeriod(tick, step);
  const x = Math.min(xOf(tick), size.width - 26);
  if (x < size.left + text.length * 3.7 - 8) return;
  write(text, x, AXIS - 10, ink.number, "center");
  fillBox(ink.day, Math.round(xOf(tick)), AXIS - 5, 1, 5);
  if (period && hasPeriod(x) && !isBelow(label, x)) write(period, x, 15, ink.number, "center");
}

const hasPeriod = (x) => x > size.left + 60 && x < size.width - 36; // or there is no room for it
const isBelow = (label, x) => label && label.left - 44 < x && x < label.right + 44;

// The label of the second at which the bundle is at the source: right of its line, or left of it if there it has room
// and hides no date. Nothing if the line isn't in view.
function startLabel(ticks, step) {
  const x = request ? xOf(startSecond()) : -1;
  if (x < size.left - 1 || x > size.width - 4) return null;
  paper.font = SMALL;
  const text = `bundle at the source ${clockText(startSecond())}`, wide = paper.measureText(text).width + 9;
  const dates = ticks.filter((tick) => tickPeriod(tick, step)).map(xOf).filter(hasPeriod);
  const right = { text, x, left: x, right: x + wide }, left = { text, x, left: x - wide, right: x };
  const hides = (label) => label.right > size.width || label.left < size.left || dates.some((date) => isBelow(label, date));
  return hides(right) && (!hides(left) || right.right > size.width) ? left : right;
}

function paintStartLabel({ text, x, left }) {
  useFont(SMALL, "alphabetic");
  write(text, left < x ? x - 5 : x + 5, 15, ink.soft, left < x ? "right" : "left");
  fillBox(ink.soft, Math.round(x), 6, 1, 13);
}

// ---- The map ----

// How many contacts are open at each pixel of the whole plan.
function openAtPixels(scale) {
  const open = new Float64Array(Math.ceil(plotWidth()) + 2);
  for (let contact = 0; contact < contactCount; contact++) {
    open[Math.floor((known.start[contact] - earliest) * scale)]++;
    open[Math.floor((ends[contact] - earliest) * scale) + 1]--;
  }
  for (let pixel = 1; pixel < open.length; pixel++) open[pixel] += open[pixel - 1];
  return open;
}

const mapScale = () => plotWidth() / (latest - earliest || 1);

const MAP = 33; // how high it is

function paintMap() {
  const open = openAtPixels(mapScale()), most = open.reduce((one, other) => Math.max(one, other), 1);
  paper = brushOf(map, size.width, MAP);
  fillBox(ink.back, 0, 0, size.width, MAP);
  open.forEach((count, pixel) => {
    const high = (count / most) * 24;
    fillBox(ink.bar, size.left + pixel, MAP - 3 - high, 1, high);
  });
  useFont(SMALL);
  writeBeside("whole plan", MAP / 2, ink.soft);
  paper = screen;
}

// Marks the part of the map that is in view.
function placePart() {
  const scale = mapScale(), right = size.width - SIDE;
  const from = Math.min(Math.max(size.left, size.left + (view.first - earliest) * scale), right - 4);
  const to = Math.min(right, Math.max(from + 4, size.left + (view.last - earliest) * scale));
  byId("part").style.transform = `translateX(${from}px)`;
  byId("part").style.width = `${to - from}px`;
}

// ---- Sizes ----

// Gives a canvas its size in pixels of the screen, and returns what paints on it.
function brushOf(canvas, width, height) {
  const scale = devicePixelRatio || 1, brush = canvas.getContext("2d");
  const [wide, high] = [Math.round(width * scale), Math.round(height * scale)];
  if (canvas.width !== wide || canvas.height !== high) {
    [canvas.width, canvas.height] = [wide, high];
    [canvas.style.width, canvas.style.height] = [`${width}px`, `${height}px`];
  }
  brush.setTransform(scale, 0, 0, scale, 0, 0);
  return brush;
}

// Lays all out in a width and a height.
function fitTo(width, height) {
  size.width = width;
  paper.font = SMALL;
  digitWidth = paper.measureText("0").width;
  size.left = namesWidth();
  size.height = height;
  layOut();
}

const isOfPage = () => size.width === scroller.clientWidth && size.height === scroller.clientHeight;

// Measures the page, and draws all for it.
function fitAll() {
  if (!scroller.clientWidth) return; // as in a print
  isFit = true;
  fitTo(scroller.clientWidth, scroller.clientHeight);
  brushOf(chart, size.width, size.height);
  paint();
  paintStarts();
  paintMap();
  placePart();
}

// The width of the rows' names: of all links, so that it stays.
function namesWidth() {
  paper.font = MIDDLE;
  const names = links.map((_, link) => linkName(link));
  const longest = names.reduce((most, name) => Math.max(most, name.length), 0);
  const long = names.filter((name) => name.length >= longest - 2).slice(0, 50);
  const wide = Math.max(104, ...long.map((name) => paper.measureText(name).width + 26));
  return Math.round(Math.min(wide, size.width * 0.32));
}
